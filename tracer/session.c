/* session.c: what a lane has of the library: a session of one CPU. No decision waits for another lane then, each lane has slots of its own, and a lane that is lost takes no
 * other with it. All that the tracer calls of a session but records and decisions is called here. */
#include "survive.h"

dspec_config lane_config(const dspec_tracer_options *options) {
    return (dspec_config){
        .cpus = 1, .nspec = options->keep_last ? 2 * options->paths + 1 : options->paths, .bufsize = options->bufsize, .specsize = options->specsize,
        .max_issues = DSPEC_MAX_ISSUES, .max_calls = DSPEC_MAX_CALLS, .policy = DSPEC_POLICY_SWITCH,
    };
}

/* Finds where the buffers of a lane are that has recorded nothing: each is switched out once, and the first one is filled again. */
static void find_buffers(struct lane *lane) {
    const uint8_t *found[2] = { NULL, NULL };
    for (int buffer = 0; buffer < 2; buffer++) {
        bool sealed;
        uint32_t settled;
        dspec_batch batch;
        dspec_ask(&lane->consumer, 0);
        dspec_service(&lane->front.cpu, &sealed, &settled);
        if (dspec_take(&lane->consumer, 0, &batch) == DSPEC_OK) found[buffer] = batch.bytes;
        dspec_give_back(&lane->consumer, 0);
    }
    memcpy(lane->buffers, found, sizeof found);
}

/* Asks for the next batch before it is wanted, so a thread whose buffer is full switches by itself, and doesn't have to wait for a round. The last one is back by then, and that is noted: no switch comes
 * in between, for dspec_salvage. */
static void ask(struct lane *lane) { dspec_ask(&lane->consumer, 0); }

dspec_status lane_start(struct lane *lane, const dspec_tracer_options *options, dspec_schema *schema) {
    const dspec_config config = lane_config(options);
    dspec_status status = dspec_start(&config, schema, &lane->session);
    if (status == DSPEC_OK) status = dspec_consumer_of(&lane->session, &lane->consumer);
    if (status == DSPEC_OK) status = dspec_cpu_of(&lane->session, 0, &lane->front.cpu);
    if (status == DSPEC_OK) status = dspec_paths_new(&lane->paths);
    if (status == DSPEC_OK && options->park_bytes > 0 && lane->number < lane->tracer->count) status = park_begin(lane, options->park_bytes);
    if (status == DSPEC_OK && lane->tracer->saved != NULL) find_buffers(lane);
    if (status == DSPEC_OK) ask(lane);
    return status;
}

void lane_drop(struct lane *lane) {
    dspec_cpu_drop(&lane->front.cpu);
    dspec_consumer_drop(&lane->consumer);
    dspec_session_drop(&lane->session);
    dspec_drop(&lane->paths);
    dspec_drop(&lane->parked.ring);
}

/* In the middle of a switch a buffer is nowhere but in the thread, whose kill would lose it. So the lane says before a service what is in the buffer, and after it that it has
 * switched, for dspec_salvage. */
static void serve_noted(struct lane *lane, bool *sealed, uint32_t *settled) {
    dspec_report is;
    dspec_cpu_report(&lane->front.cpu, &is);
    lane->standing = is.accepted - lane->accepted;
    __atomic_store_n(&lane->serving, IS_SERVED, __ATOMIC_RELEASE);
    dspec_service(&lane->front.cpu, sealed, settled);
    if (*sealed) {
        __atomic_store_n(&lane->serving, HAS_SWITCHED, __ATOMIC_RELEASE);
        __atomic_signal_fence(__ATOMIC_SEQ_CST); /* a kill may come between any two of these: what is counted by `switched` is there before that is */
        lane->accepted = is.accepted;
        lane->sealed = lane->standing;
        lane->filled ^= 1;
        __atomic_signal_fence(__ATOMIC_SEQ_CST);
        lane->switched++;
        __atomic_signal_fence(__ATOMIC_SEQ_CST);
    }
    __atomic_store_n(&lane->serving, NOT_SERVED, __ATOMIC_RELEASE);
}

/* again: so many drops of the buffer are none, where it is switched out. is_empty: whether all that it had is on its way. What a service settles and what the lane owes come after the switch, and are in the buffer
 * that was just begun. */
static bool make_service(struct lane *lane, uint32_t again, bool *is_empty) {
    bool sealed = false, has_paid;
    uint32_t settled = 0;
    STORE(&lane->again[lane->switched % 2], again);
    if (lane->buffers[0] != NULL) serve_noted(lane, &sealed, &settled);
    else dspec_service(&lane->front.cpu, &sealed, &settled);
    if (lane->buffers[0] == NULL) lane->switched += sealed;
    if (sealed) lane->all_again += again;
    has_paid = sealed && path_pays(lane);
    dspec_cpu_report(&lane->front.cpu, &lane->latest);
    lane_counts(lane, &lane->latest);
    *is_empty = sealed && settled == 0 && !has_paid;
    return sealed;
}

bool lane_serve(struct lane *lane, bool *is_empty) { return make_service(lane, 0, is_empty); }

bool lane_makes_room(struct lane *lane, roomless what) {
    bool is_empty;
    if (!make_service(lane, what, &is_empty)) return false;
    __atomic_store_n(&lane->is_full, 1, __ATOMIC_RELEASE);
    consumer_writes(lane->tracer);
    return true;
}

/* Takes what was switched out: whether there is something. Where a kill comes after the library's take, what it took is told by `out` alone. */
static bool takes(struct lane *lane) {
    if (LOAD(&lane->waits_for_disk)) return true;
    lane->out = nothing_out;
    __atomic_store_n(&lane->bringing, IS_TAKEN, __ATOMIC_RELEASE);
    if (dspec_take(&lane->consumer, 0, &lane->out) != DSPEC_OK) {
        __atomic_store_n(&lane->bringing, NOT_OUT, __ATOMIC_RELEASE);
        return false;
    }
    lane->out.cpu = lane->number;
    __atomic_store_n(&lane->bringing, WAS_TAKEN, __ATOMIC_RELEASE);
    return true;
}

static void brings(body *tracer, struct lane *lane) {
    dspec_batch batch = lane->out;
    batch.drops -= LOAD(&lane->again[lane->given % 2]);
    STORE(&lane->waits_for_disk, false);
    lane->before = survive_brought(&tracer->folder);
    lane->taken++;
    __atomic_store_n(&lane->bringing, IS_BROUGHT, __ATOMIC_RELEASE);
    if (batch.len > 0 || batch.drops > 0) dspec_folder_take(&tracer->folder, &tracer->layout, &batch);
    __atomic_store_n(&lane->bringing, WAS_BROUGHT, __ATOMIC_RELEASE);
    dspec_give_back(&lane->consumer, 0);
    lane->given++;
    __atomic_store_n(&lane->bringing, NOT_OUT, __ATOMIC_RELEASE);
    ask(lane);
}

bool kept_waits_for_disk(const body *tracer) { return tracer->options.survive && tracer->folder.most_folders == 0; }

/* Whether the disk keeps room for the packets of what was taken; else that stays in the memory, where dspec_salvage finds it. */
static bool has_room(body *tracer, const struct lane *lane) {
    int file;
    if (!kept_waits_for_disk(tracer) || lane->out.len == 0) return true;
    file = dspec_folder_file_(&tracer->folder, lane->number, 0);
    if (file < 0) return true; /* its write tells why not */
    return dspec_folder_keeps_(file, tracer->folder.sizes[lane->number][0], (lane->out.len / DSPEC_CTF_FILLED_ + LAST_PACKETS) * DSPEC_FOLDER_PACKET) == 0;
}

void lane_write(body *tracer, struct lane *lane) {
    if (!takes(lane)) return;
    STORE(&lane->waits_for_disk, !has_room(tracer, lane));
    if (!LOAD(&lane->waits_for_disk)) brings(tracer, lane);
}

bool lanes_wait_for_disk(const body *tracer) {
    for (uint32_t i = 0; i <= tracer->count; i++)
        if (LOAD(&tracer->lanes[i].waits_for_disk)) return true;
    return false;
}

/* Twice: with one buffer sealed the other may be full; and what the lane owes is in the one after these. */
void lane_empty(body *tracer, struct lane *lane) {
    for (int buffers = lane->owes == OWES_EVENT ? 3 : 2; buffers > 0; buffers--) {
        bool is_empty;
        lane_serve(lane, &is_empty);
        lane_write(tracer, lane);
    }
}

void lane_clean(struct lane *lane) {
    uint32_t released;
    dspec_clean(&lane->consumer, &released);
}

void lane_add(dspec_tracer_report *sum, const dspec_report *report) {
    sum->accepted += report->accepted;
    sum->dropped += report->dropped;
    sum->specdropped += report->specdropped;
    sum->lost += report->lost;
    sum->discarded += report->discarded;
    sum->void_ += report->void_;
    sum->refused += report->refused;
}

void lane_add_parked(const struct lane *lane, dspec_tracer_report *sum) {
    const parked_paths *parked = &lane->parked;
    const uint64_t kept = LOAD(&parked->kept), evicted = LOAD(&parked->evicted), expired = LOAD(&parked->expired), records = LOAD(&parked->records);
    sum->parked += LOAD(&parked->end);
    sum->park_kept += kept;
    sum->park_evicted += evicted;
    sum->park_expired += expired;
    sum->park_left += park_left(parked);
    sum->kept += kept;
    sum->thrown += evicted + expired;
    sum->accepted += records;
    sum->discarded -= records < sum->discarded ? records : sum->discarded; /* while it runs those may be fewer: they are from the lane's last service */
}

void lane_counts(const struct lane *lane, dspec_report *report) {
    report->specdropped -= lane->turned;
    report->dropped -= lane->all_again;
    report->drops -= lane->all_again;
    report->accepted -= lane->own_accepted;
    report->lost -= lane->own_lost;
    report->discarded -= lane->own_discarded;
}

/* The end of a lane that no thread is in: whether its session ended. */
bool lane_end(body *tracer, struct lane *lane) {
    dspec_cpu *const cpus[] = { &lane->front.cpu };
    dspec_closed closed = DSPEC_EMPTY;
    dspec_report report;
    dspec_batch batch;
    if (takes(lane)) brings(tracer, lane);
    if (lane->owes == OWES_EVENT) lane_empty(tracer, lane);
    if (dspec_close(&lane->session, cpus, 1, &lane->consumer, &closed) != DSPEC_OK) return false;
    for (int last = 0; last < 2; last++) {
        if (dspec_rest(&closed, 0, last == 1, &batch) != DSPEC_OK) continue;
        batch.cpu = lane->number;
        dspec_folder_take(&tracer->folder, &tracer->layout, &batch);
    }
    if (dspec_closed_report(&closed, 0, &report) == DSPEC_OK) {
        lane_counts(lane, &report);
        dspec_ctf_miss(&tracer->folder.ctf[lane->number], dspec_folder_untold_(&report) + lane->cut_records);
        if (lane->number < tracer->count) lane_add(&tracer->report, &report);
        lane_add_parked(lane, &tracer->report);
        tracer->report.own += lane->own_accepted + lane->parked.kept + (lane->number < tracer->count ? 0 : report.accepted);
    }
    dspec_closed_drop(&closed);
    dspec_drop(&lane->paths);
    dspec_drop(&lane->parked.ring);
    return true;
}
