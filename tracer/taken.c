/* taken.c: parked paths on their way from their ring to the folder. What is noted here is noted so that a kill after any instruction leaves each path in the ring or here, and dspec_salvage
 * knows which. */
#include "survive.h"

bool taken_begin(body *tracer) {
    taken_paths *taken = &tracer->taken;
    const saved_head *head = tracer->saved;
    taken->size = MOST_BATCH(&tracer->options);
    taken->next.at = NO_NEXT;
    taken->bytes = head != NULL ? (uint8_t *)tracer->saved + head->body_at + head->body_size : malloc(taken->size);
    taken->chains = calloc((size_t)(tracer->count + 1) * MOST_CHAINS, sizeof *taken->chains);
    return taken->bytes != NULL && taken->chains != NULL;
}

void taken_drop(body *tracer) {
    if (tracer->saved == NULL) free(tracer->taken.bytes);
    free(tracer->taken.chains);
}

bool taken_has_room(const taken_paths *taken, size_t length) { return taken->used + length + 2 * BYTES_OF_PATH <= taken->size; }

/* Each path may have records in a file of its own, whose last packet isn't full. */
bool taken_has_disk(body *tracer, uint32_t lane, size_t paths) {
    const size_t most = paths * (tracer->options.specsize + 2 * (size_t)BYTES_OF_PATH), bytes = most < tracer->taken.size ? most : tracer->taken.size;
    return !kept_waits_for_disk(tracer) || dspec_folder_has_room_(&tracer->folder, lane, (bytes / DSPEC_CTF_FILLED_ + LAST_PACKETS + paths) * DSPEC_FOLDER_PACKET);
}

/* The place of the next one is written last: where it is that of the first free byte, all else of it is there. */
void taken_begins(taken_paths *taken, uint32_t lane, const taken_path *path) {
    const taken_path next = { { path->key[0], path->key[1] }, path->number, path->thread, path->untold, taken->next.at, path->length };
    taken->lane = lane;
    taken->next = next;
    __atomic_store_n(&taken->next.at, taken->used, __ATOMIC_RELEASE);
    __atomic_store_n(&taken->state, IS_TAKING, __ATOMIC_RELEASE);
}

void taken_gives_up(taken_paths *taken) { __atomic_store_n(&taken->next.at, NO_NEXT, __ATOMIC_RELEASE); }

/* The stamp of the first record; 0: there is none. */
static uint64_t begun_of(const dspec_layout *layout, const uint8_t *bytes, size_t length) {
    dspec_record first;
    size_t at = 0;
    return dspec_read(layout, bytes, length, &at, &first) == DSPEC_READ ? first.stamp : 0;
}

uint64_t taken_put_event(const dspec_layout *layout, uint64_t claim, const taken_path *path, uint64_t stamp, uint8_t *bytes) {
    const uint64_t end = path->at + path->length, at = dspec_multiple_from(end, 8);
    uint8_t *event = bytes + at;
    memset(bytes + end, 0, at - end);
    number_put(event, (uint32_t)claim, 4);
    number_put(event + 4, stamp, 8);
    number_put(event + 12, path->number, 4);
    number_put(event + 16, path->thread, 8);
    number_put(event + 24, path->untold | (uint64_t)DSPEC_WHY_KEY << 32, 8);
    number_put(event + 32, begun_of(layout, bytes + path->at, path->length), 8);
    number_put(event + 40, path->key[0], 8);
    number_put(event + 48, path->key[1], 8);
    return at + BYTES_OF_PATH;
}

void taken_adds(body *tracer) {
    taken_paths *taken = &tracer->taken;
    const uint64_t used = taken_put_event(&tracer->layout, tracer->claim_of_path, &taken->next, stamp_of(tracer), taken->bytes);
    taken->count++;
    __atomic_store_n(&taken->used, used, __ATOMIC_RELEASE);
}

/* The first and the last moment of the program's records in a batch; none: the first is after the last. */
static void moments_of(const body *tracer, const dspec_batch *batch, uint64_t *first, uint64_t *last) {
    dspec_record record;
    *first = UINT64_MAX;
    *last = 0;
    for (size_t at = 0; dspec_read(&tracer->layout, batch->bytes, batch->len, &at, &record) == DSPEC_READ;) {
        if (record.epid == (uint32_t)tracer->claim_of_path) continue;
        if (record.stamp < *first) *first = record.stamp;
        if (record.stamp > *last) *last = record.stamp;
    }
}

/* The CPU of the folder that gets a batch of a lane. It is one where the latest such paths were written that are before these. Else it is one that has room for
 * another chain, the lane's own first. */
static uint32_t cpu_for(const body *tracer, uint32_t lane, const dspec_batch *batch) {
    uint64_t *chains = tracer->taken.chains, *best = NULL, first, last;
    moments_of(tracer, batch, &first, &last);
    for (uint32_t i = 0; first <= last && i <= tracer->count; i++) {
        uint64_t *own = chains + (size_t)((lane + i) % (tracer->count + 1)) * MOST_CHAINS;
        for (size_t k = 0; k < MOST_CHAINS; k++)
            if (own[k] <= first && (best == NULL || own[k] > *best)) best = &own[k];
    }
    if (best == NULL) return lane;
    *best = last;
    return (uint32_t)((size_t)(best - chains) / MOST_CHAINS);
}

/* The files of a folder that was begun since, with a bound, have none of these paths, but for those of a batch of which the end went there. */
static void begin_chains(body *tracer) {
    taken_paths *taken = &tracer->taken;
    if (taken->folder == tracer->folder.number) return;
    taken->folder = tracer->folder.number;
    memset(taken->chains, 0, (size_t)(tracer->count + 1) * MOST_CHAINS * sizeof *taken->chains);
}

void taken_writes(body *tracer, struct lane *lane) {
    taken_paths *taken = &tracer->taken;
    dspec_batch batch = { taken->bytes, taken->used, 0, lane->number };
    if (taken->count == 0) return;
    begin_chains(tracer);
    taken->cpu = batch.cpu = cpu_for(tracer, lane->number, &batch);
    STORE(&lane->parked.records, lane->parked.records + dspec_folder_counts_(&tracer->layout, &batch) - taken->count);
    taken->before = survive_brought(&tracer->folder);
    __atomic_store_n(&taken->state, IS_WRITING, __ATOMIC_RELEASE);
    dspec_folder_take(&tracer->folder, &tracer->layout, &batch);
    __atomic_store_n(&taken->state, NOTHING_TAKEN, __ATOMIC_RELEASE);
    __atomic_signal_fence(__ATOMIC_SEQ_CST);
    taken->next.at = NO_NEXT;
    taken->used = taken->count = 0;
}
