/* keep.c: a path that is kept: its event and its first record go among its records, and its lane has what a salvage needs to know. Which speculations are kept, and in which order, the table
 * decides (paths.h). */
#include "body.h"

static void words_of_path(const open_path *path, uint64_t begun, uint32_t why, uint64_t words[WORDS_OF_PATH]) {
    words[0] = path->mark;
    words[1] = path->thread | (uint64_t)dspec_here.thread << 32;
    words[2] = path->untold | (uint64_t)why << 32;
    words[3] = begun;
    words[4] = path->key_state != NO_KEY ? path->key[0] : 0;
    words[5] = path->key_state != NO_KEY ? path->key[1] : 0;
}

/* Keeps one part of a path, or with waits finds that it has no room. count: its records. A kill in its middle finds that it was made. */
static dspec_status try_part(struct lane *lane, uint32_t place, uint64_t id, bool waits, uint32_t *count) {
    dspec_status status;
    STORE(&lane->front.commits, 1);
    __atomic_signal_fence(__ATOMIC_SEQ_CST);
    status = dspec_paths_keep_part(&lane->paths, &lane->front.cpu, place, id, waits, count);
    __atomic_signal_fence(__ATOMIC_SEQ_CST);
    if (LIKELY(status == DSPEC_OK) || status == DSPEC_GOES_ON) STORE(&lane->front.answered, lane->front.answered + *count);
    STORE(&lane->front.commits, 0);
    return status;
}

/* The same of one that found no room: in the other buffer, where that is there. */
RARELY static dspec_status keep_in_other(struct lane *lane, uint32_t place, uint64_t id, room has, uint32_t *count) {
    const dspec_status status = lane_makes_room(lane, A_PATH) ? try_part(lane, place, id, true, count) : DSPEC_BUSY;
    return status == DSPEC_BUSY && has == ANY_ROOM ? try_part(lane, place, id, false, count) : status;
}

static dspec_status keep_part(struct lane *lane, uint32_t place, uint64_t id, room has, uint32_t *count) {
    dspec_status status;
    if (has == EMPTY_ROOM) lane_empty(lane->tracer, lane);
    status = try_part(lane, place, id, has != EMPTY_ROOM, count);
    return LIKELY(status != DSPEC_BUSY) ? status : keep_in_other(lane, place, id, has, count);
}

/* ---- The event of a path. ---- */

/* Puts what the lane owes where the buffer has room for it. It goes by a speculation, in the slot that its path has left: a record that finds no room would be told as missed. */
static void pay_if_room(struct lane *lane) {
    uint64_t id;
    uint32_t count;
    dspec_status status;
    if (dspec_speculation(&lane->front.cpu, &id) != DSPEC_OK) return;
    status = dspec_put_in(&lane->front.cpu, id, lane->tracer->claim_of_path, lane->owed_at, lane->owed, WORDS_OF_PATH);
    STORE(&lane->front.commits, 1);
    __atomic_signal_fence(__ATOMIC_SEQ_CST);
    if (status == DSPEC_OK) status = dspec_commit_if_room(&lane->front.cpu, id, &count);
    __atomic_signal_fence(__ATOMIC_SEQ_CST);
    if (status == DSPEC_OK) STORE(&lane->front.answered, lane->front.answered + count);
    STORE(&lane->front.commits, 0);
    if (status == DSPEC_OK) {
        lane->own_accepted++;
        STORE(&lane->owes, OWES_NOTHING);
    } else if (dspec_discard(&lane->front.cpu, id, &count) == DSPEC_OK) {
        lane->own_discarded += count;
    }
}

static void put_after_path(struct lane *lane, uint64_t at, const uint64_t words[WORDS_OF_PATH]) {
    lane->own_accepted += dspec_tracer_fill_(&lane->front, lane->tracer->claim_of_path, at, words, WORDS_OF_PATH) == DSPEC_OK;
}

bool path_pays(struct lane *lane) {
    if (LIKELY(lane->owes != OWES_EVENT)) return false;
    put_after_path(lane, lane->owed_at, lane->owed);
    STORE(&lane->owes, OWES_NOTHING);
    return true;
}

/* A path that had no room for its event has it after its records: at once, or at the begin of the lane's next buffer. */
RARELY static void tell_after_path(struct lane *lane, const open_path *path, uint64_t begun, uint32_t why, room has) {
    uint64_t words[WORDS_OF_PATH];
    words_of_path(path, begun, why, words);
    if (has == EMPTY_ROOM) {
        lane_empty(lane->tracer, lane);
        put_after_path(lane, stamp_of(lane->tracer), words);
        return;
    }
    memcpy(lane->owed, words, sizeof words);
    lane->owed_at = stamp_of(lane->tracer);
    __atomic_store_n(&lane->owes, OWES_EVENT, __ATOMIC_RELEASE);
    pay_if_room(lane);
}

/* ---- Before the first part is kept. ---- */

/* Puts a path's event among its records, so that it is kept with them or not at all: whether it had room there. */
static bool tell_in_path(struct lane *lane, const open_path *opened, const dspec_open_path *path, uint32_t why) {
    uint64_t words[WORDS_OF_PATH];
    words_of_path(opened, path->begun, why, words);
    if (dspec_put_in(&lane->front.cpu, path->newest, lane->tracer->claim_of_path, stamp_of(lane->tracer), words, WORDS_OF_PATH) == DSPEC_OK) return true;
    lane->turned++;
    return false;
}

/* With keep_last a path's first record, which names the request, is put among its last ones again where it was thrown away. */
static void put_first_again(struct lane *lane, open_path *opened, const dspec_open_path *path) {
    if (opened->cut == 0 || !opened->has_first) return;
    if (dspec_put_in(&lane->front.cpu, path->newest, opened->first_claim, path->begun, opened->first, opened->first_words) == DSPEC_OK) opened->cut--;
    else lane->turned++;
}

static void prepare(struct lane *lane, open_path *opened, const dspec_open_path *path, uint32_t why) {
    uint32_t dropped = 0;
    opened->cut = path->cut;
    put_first_again(lane, opened, path);
    if (!lane->tracer->options.keep_last) dspec_dropped_in(&lane->front.cpu, path->newest, &dropped);
    opened->untold = opened->cut + dropped;
    opened->has_event = tell_in_path(lane, opened, path, why);
    opened->is_prepared = true;
}

/* ---- A path that is lost. ---- */

/* So many records of a path that is lost as a whole were thrown away, its event among them where it has one there. */
static void count_lost(struct lane *lane, const open_path *path, uint64_t thrown) {
    lane->own_discarded += path->has_event;
    STORE(&lane->cut_records, lane->cut_records + thrown - path->has_event);
}

/* Where the lane owes an event already, and that has no room in the other buffer either, there is none for a path whose event may come after its records: that path waits, or is lost as a whole. */
RARELY static dspec_status pay_before_path(struct lane *lane, uint32_t place, uint64_t id, room has) {
    dspec_report before, after;
    if (has == EMPTY_ROOM) return DSPEC_OK;
    if (lane->owes == OWES_EVENT) lane_makes_room(lane, A_PATH);
    if (lane->owes == OWES_NOTHING) return DSPEC_OK;
    if (has == WAITS_FOR_ROOM) return DSPEC_BUSY;
    dspec_cpu_report(&lane->front.cpu, &before);
    dspec_paths_lose(&lane->paths, &lane->front.cpu, place, id);
    dspec_cpu_report(&lane->front.cpu, &after);
    count_lost(lane, &lane->open[place], after.discarded - before.discarded);
    return DSPEC_LOST;
}

/* ---- The parts of a path. ---- */

/* Its older records, and then its last ones. Where those are lost after the older ones were kept, its event comes after these, and tells of the others as cut. */
static dspec_status keep_parts(struct lane *lane, open_path *path, uint32_t place, uint64_t id, room has) {
    uint32_t count = 0;
    dspec_status status;
    while ((status = keep_part(lane, place, id, has, &count)) == DSPEC_GOES_ON) path->has_part = true;
    if (LIKELY(status == DSPEC_OK)) {
        lane->own_accepted += path->has_event;
    } else if (status == DSPEC_PATH_LOST) {
        count_lost(lane, path, count);
    } else if (status == DSPEC_LOST) {
        lane->own_lost += path->has_event;
        if (!path->has_part) return status;
        path->untold += count - path->has_event;
        path->has_event = false;
        return DSPEC_OK;
    }
    return status == DSPEC_OK || status == DSPEC_BUSY ? status : DSPEC_LOST;
}

/* A path that is kept since its key was tells nobody of that. What the consumer keeps is written before its key is heard, so it counts as on the consumer's own lane. On a disk that is waited for it isn't. */
static void path_tells_key(const struct lane *lane, const open_path *opened, room has) {
    body *tracer = lane->tracer;
    const uint32_t number = has == EMPTY_ROOM && !kept_waits_for_disk(tracer) ? tracer->count : lane->number;
    if (tracer->keys != NULL && keys_put(tracer->keys, opened->key, number) && tracer->options.on_keep != NULL) consumer_wakes(tracer);
}

dspec_status path_commit(struct lane *lane, uint32_t place, uint64_t id, uint32_t why, room has) {
    open_path *opened = &lane->open[place];
    const bool has_claim = opened->has_part;
    dspec_open_path path;
    dspec_status status = DSPEC_OK;
    if (dspec_paths_open_of(&lane->paths, place, 0, &path) != DSPEC_OK || path.newest != id) return DSPEC_VOID;
    if (!opened->is_prepared) prepare(lane, opened, &path, why);
    if (lane->owes != OWES_NOTHING && !has_claim && (path.older != 0 || !opened->has_event)) status = pay_before_path(lane, place, id, has);
    if (status == DSPEC_OK) status = keep_parts(lane, opened, place, id, has);
    opened->waits = status == DSPEC_BUSY;
    if (opened->waits) {
        if (opened->has_part) STORE(&lane->owes, IS_CLAIMED);
        return status;
    }
    if (has_claim) STORE(&lane->owes, OWES_NOTHING);
    STORE(&lane->cut_records, lane->cut_records + opened->cut);
    STORE(&lane->cut, lane->cut + (status == DSPEC_OK && opened->untold > 0));
    if (status == DSPEC_OK && !LIKELY(opened->has_event)) tell_after_path(lane, opened, path.begun, why, has);
    if (status == DSPEC_OK && opened->key_state == HAS_KEY) path_tells_key(lane, opened, has);
    return status;
}
