/* path.c: records and paths, as the threads of a program make them; but a record that nobody hinders is made in its caller (dspec/tracer_record.h). */
#include "body.h"

#include <unistd.h>

uint64_t dspec_tracer_now(void) { return dspec_monotonic(); }

/* NULL of a tracer that isn't started, and of a path that was never begun. */
static body *body_of(const dspec_tracer *tracer) { return tracer == NULL ? NULL : __atomic_load_n(&tracer->body, __ATOMIC_ACQUIRE); }

/* A path is over without a token, so that its next call takes a closer look. */
static void is_over(dspec_path *path) {
    path->over = 1;
    path->token = 0;
}

/* The consumer asks still while something is left that the lane had: a service switches nothing as long as a full buffer is out, and may put a path's event into the next one. */
RARELY static void serve(struct lane *lane) {
    bool is_empty;
    lane_serve(lane, &is_empty);
    if (is_empty) state_clear(lane, SERVE);
}

/* What the consumer asked for, where this thread comes by: so it never waits for the consumer. */
static inline void serve_if_asked(struct lane *lane) {
    if (!LIKELY(!(LOAD(&lane->front.state) & SERVE))) serve(lane);
}

/* Each 64th that finds no room wakes the consumer, whose round makes some. */
static void wants_room(body *tracer) {
    if (ADD(&tracer->no_room, 1) % 64 == 0) consumer_wakes(tracer);
    else consumer_stirs(tracer);
}

/* What a lane has of a path beside the table. */
INTO_CALLER void note(struct lane *lane, uint32_t place, const dspec_path *path, uint32_t token, bool own) {
    open_path *opened = place_at(lane, place);
    opened->thread = dspec_here.thread;
    opened->own = own;
    opened->waits = opened->is_prepared = opened->has_event = opened->has_part = opened->has_first = false;
    opened->first_words = opened->key_state = 0;
    STORE(&opened->token, token);
    __atomic_store_n(&opened->mark, path->mark, __ATOMIC_RELEASE);
}

/* A number that no open path of another lane has: each lane has every so many, from the first one on again after the last. 0 is no path's. */
static uint32_t next_number(struct lane *lane) {
    if (!LIKELY(!__builtin_add_overflow(lane->opened, lane->tracer->count, &lane->opened))) lane->opened = lane->number + 1;
    return lane->opened;
}

/* Opens a path's speculation on a lane, which the caller is in: whether there is a slot. */
INTO_CALLER bool open_on(struct lane *lane, dspec_path *path, uint64_t now) {
    uint32_t place;
    path->mark = (uint64_t)next_number(lane) << 32;
    if (!LIKELY(dspec_paths_begin(&lane->paths, &lane->front.cpu, (uint32_t)(path->mark >> 32), dspec_tracer_token_7, now, &place, &path->id) == DSPEC_OK)) return false;
    path->place = (uint16_t)place;
    path->begun = now;
    return true;
}

/* What others may look at of a path that was opened, and what it knows of itself. own: whether it is the thread's own. Its first record comes before that: the record's exchange waits for each store. */
INTO_CALLER void show_on(struct lane *lane, dspec_path *path, bool own) {
    const uint32_t token = dspec_tracer_token_7;
    note(lane, path->place, path, token, own);
    path->lane = &lane->front;
    path->own = own;
    path->token = own ? token : 0;
}

RARELY dspec_status dspec_tracer_put_long(dspec_cpu *cpu, uint64_t id, uint64_t claim, uint64_t now, uint64_t first, const uint64_t *words, size_t n) {
    uint64_t all[MOST_WORDS];
    if (n == 0 || n > MOST_WORDS) return dspec_put_in(cpu, id, claim, now, words, n);
    memcpy(all, words, 8 * n);
    all[0] = first;
    return dspec_put_in(cpu, id, claim, now, all, n);
}

/* A record of a path, into the speculation that it has on its lane, which the caller is in. */
INTO_CALLER dspec_status put_once(struct lane *lane, const dspec_path *path, uint64_t claim, const uint64_t *words, size_t n, uint64_t now) {
    STORE(&dspec_tracer_recent_7, path->mark);
    return dspec_tracer_put_in_(&lane->front.cpu, path->id, claim, now, words[0] | path->mark, words, n);
}

/* The same, in a further speculation where one is full. */
static dspec_status put_on(struct lane *lane, dspec_path *path, const dspec_event *event, const uint64_t *words, size_t n, uint64_t now) {
    dspec_status status;
    do {
        status = put_once(lane, path, dspec_tracer_claim_(event, lane->front.slot), words, n, now);
    } while (!LIKELY(status == DSPEC_OK) && dspec_path_turn(path, event, status));
    return status;
}

/* A record of an event that the tracer wasn't handed is counted, and the first such event is named. */
RARELY static void count_missing(body *tracer, const dspec_event *event) {
    uint32_t none = 0;
    ADD(&tracer->missing, 1);
    consumer_stirs(tracer);
    if (!__atomic_compare_exchange_n(&tracer->missing_state, &none, 1, false, __ATOMIC_RELAXED, __ATOMIC_RELAXED)) return;
    if (event->name != NULL) memcpy(tracer->missing_name, event->name, strnlen(event->name, sizeof tracer->missing_name - 1));
    __atomic_store_n(&tracer->missing_state, 2, __ATOMIC_RELEASE);
}

/* A record of an event that is switched off, or that the tracer doesn't have. */
RARELY static dspec_status not_enabled(body *tracer, const dspec_event *event) {
    if (!LOAD(&tracer->up)) return DSPEC_STOPPED;
    if (dspec_tracer_claim_(event, tracer->slot) == DSPEC_TRACER_OFF_) return DSPEC_VOID;
    count_missing(tracer, event);
    return DSPEC_BAD_RECORD;
}

/* With keep_last a path whose speculation is full goes on in a new one. */
static bool turn(struct lane *lane, dspec_path *path) {
    if (!lane->tracer->options.keep_last || dspec_paths_turn(&lane->paths, &lane->front.cpu, path->place, path->id, &path->id) != DSPEC_OK) return false;
    lane->turned++;
    return true;
}

RARELY bool dspec_path_turn(dspec_path *path, const dspec_event *event, dspec_status status) {
    struct lane *lane = lane_of(path->lane);
    if (status == DSPEC_DROPPED) {
        lane->parked.is_simple = false;
        return turn(lane, path);
    }
    if (status == DSPEC_BAD_RECORD && dspec_tracer_claim_(event, lane->front.slot) <= DSPEC_TRACER_OFF_) count_missing(lane->tracer, event);
    return false;
}

/* With keep_last as many paths are open as find the speculations that they may need. */
static bool is_full(const struct lane *lane) {
    uint32_t open = 0;
    for (uint32_t place = 0; place < MAX_OPEN; place++) open += lane->open[place].mark != 0;
    return open >= lane->tracer->options.paths;
}

/* With keep_last a path's first record is set aside, in case it is thrown away: it names the request. */
static void note_first(struct lane *lane, const dspec_path *path, const dspec_event *event, const uint64_t *words, size_t n) {
    open_path *opened = &lane->open[path->place];
    if (n > MOST_WORDS) return;
    opened->has_first = true;
    opened->first_words = (uint8_t)n;
    opened->first_claim = dspec_tracer_claim_(event, lane->front.slot);
    memcpy(opened->first, words, 8 * n);
    opened->first[0] |= path->mark;
}

RARELY static dspec_status begin_keeping_last(struct lane *lane, dspec_path *path, bool own, const dspec_event *event, const uint64_t *words, size_t n) {
    const uint64_t now = dspec_tracer_stamp_(&lane->front.clock);
    if (is_full(lane) || !open_on(lane, path, now)) return DSPEC_UNAVAILABLE;
    show_on(lane, path, own);
    note_first(lane, path, event, words, n);
    return put_on(lane, path, event, words, n, now);
}

/* A path's first record, in the call on a lane that it is counted on. own: it is the thread's own lane. DSPEC_UNAVAILABLE: there is no slot, so that it didn't begin. */
INTO_CALLER dspec_status begin_in(struct lane *lane, dspec_path *path, bool own, const dspec_event *event, uint64_t claim, const uint64_t *words, size_t n) {
    if (!LIKELY(!lane->tracer->options.keep_last)) return begin_keeping_last(lane, path, own, event, words, n);
    const uint64_t now = dspec_tracer_stamp_(&lane->front.clock);
    if (!LIKELY(open_on(lane, path, now))) return DSPEC_UNAVAILABLE;
    const dspec_status status = put_once(lane, path, claim, words, n, now);
    show_on(lane, path, own);
    return status;
}

/* The same from outside the lane: whether it began there. status: of the record, or why it didn't. */
INTO_CALLER bool begin_on(struct lane *lane, dspec_tracer_seat *seat, dspec_path *path, const dspec_event *event, const uint64_t *words, size_t n, dspec_status *status) {
    const bool own = &lane->front == seat->own;
    const way in = lane_enter(seat, lane);
    bool has_begun = false;
    seat->open += own;
    *status = DSPEC_STOPPED;
    if (LIKELY(in != NOT_IN)) {
        *status = begin_in(lane, path, own, event, dspec_tracer_claim_(event, lane->front.slot), words, n);
        has_begun = *status != DSPEC_UNAVAILABLE;
        lane_leave(lane, in);
    }
    if (!LIKELY(has_begun)) lane_path_off(seat, lane, own);
    return has_begun;
}

/* A path's first record of a thread that has no lane, on the one that it had last, where nobody is on that. DSPEC_UNAVAILABLE: it didn't begin, and all is as it was. The thread is in the tracer. */
INTO_CALLER dspec_status begin_on_last(dspec_tracer_seat *seat, dspec_path *path, const dspec_event *event, const uint64_t *words, size_t n) {
    dspec_status status = DSPEC_UNAVAILABLE;
    if (!LIKELY(path->lane == NULL)) return status;
    if (!LIKELY(seat->plain == LOAD(&path->tracer->run))) return status;
    struct lane *lane = lane_of(seat->last);
    const uint64_t claim = dspec_tracer_claim_(event, lane->front.slot);
    if (!LIKELY(claim > DSPEC_TRACER_OFF_) || !LIKELY(lane_claim_last(seat, lane))) return status;
    seat->open = 1;
    if (LIKELY(dspec_tracer_enter_(&lane->front))) {
        status = begin_in(lane, path, true, event, claim, words, n);
        dspec_tracer_leave_(&lane->front);
    }
    if (!LIKELY(status != DSPEC_UNAVAILABLE)) lane_path_off(seat, lane, true);
    return status;
}

/* The same from outside the tracer. */
INTO_CALLER dspec_status begin_quickly(dspec_path *path, const dspec_event *event, const uint64_t *words, size_t n) {
    dspec_tracer_seat *seat = dspec_tracer_seat_of_(path->tracer);
    if (!LIKELY(!seat->busy)) return DSPEC_UNAVAILABLE;
    seat_sits(seat);
    const dspec_status status = begin_on_last(seat, path, event, words, n);
    seat_leave(seat);
    return status;
}

/* On any lane, where the one that the thread would take has no slot. */
RARELY static bool begin_elsewhere(body *tracer, dspec_tracer_seat *seat, dspec_path *path, const dspec_event *event, const uint64_t *words, size_t n, dspec_status *status) {
    for (uint32_t number = 0; number < tracer->count && *status == DSPEC_UNAVAILABLE; number++) {
        struct lane *lane = lane_shared(tracer, number);
        if (lane != NULL && begin_on(lane, seat, path, event, words, n, status)) return true;
    }
    return false;
}

/* The first record of a path opens its speculation. Where there is none to be had, the path is refused as a whole. */
static dspec_status begin(body *tracer, dspec_tracer_seat *seat, dspec_path *path, const dspec_event *event, const uint64_t *words, size_t n) {
    dspec_status status = DSPEC_UNAVAILABLE;
    struct lane *lane = lane_for_path(tracer, seat);
    if (LIKELY(lane != NULL) && LIKELY(begin_on(lane, seat, path, event, words, n, &status))) return status;
    if (begin_elsewhere(tracer, seat, path, event, words, n, &status)) return status;
    is_over(path);
    STORE(&dspec_tracer_recent_7, REFUSED_PATH);
    if (!LOAD(&tracer->up)) return DSPEC_STOPPED;
    ADD(&tracer->no_slot, 1);
    ADD(&tracer->refused_records, 1);
    wants_room(tracer);
    return DSPEC_UNAVAILABLE;
}

/* A path is this thread's from now on: whether it is still open. The caller is in its lane. */
static bool adopt(struct lane *lane, const dspec_path *path) {
    if (dspec_paths_adopt(&lane->paths, path->place, path->id, dspec_tracer_token_7) != DSPEC_OK) return false;
    STORE(&lane->open[path->place].token, dspec_tracer_token_7);
    return true;
}

/* Whether the consumer has ended a path, and its thread hasn't. */
RARELY static bool is_ended(const struct lane *lane, uint64_t mark) {
    for (uint32_t i = 0; i < lane->ended_count; i++)
        if (lane->ended[i].mark == mark) return true;
    return false;
}

/* A further record of a path: one that comes from another thread, or whose lane several share or the consumer has. */
static dspec_status go_on(dspec_tracer_seat *seat, dspec_path *path, const dspec_event *event, const uint64_t *words, size_t n) {
    struct lane *lane = lane_of(path->lane);
    dspec_status status = DSPEC_VOID;
    const way in = lane_enter(seat, lane);
    if (in == NOT_IN) return DSPEC_STOPPED;
    if (adopt(lane, path)) {
        path->token = path->own && path->lane == seat->own ? dspec_tracer_token_7 : 0;
        status = put_on(lane, path, event, words, n, dspec_tracer_stamp_(&lane->front.clock));
    } else if (!is_ended(lane, path->mark)) {
        is_over(path);
    }
    lane_leave(lane, in);
    return status;
}

/* The tracer that a path is of; NULL: none is up, or the path is over. */
static body *body_of_path(const dspec_path *path) {
    if (path->over) return NULL;
    return path->lane != NULL ? lane_of(path->lane)->tracer : body_of(path->tracer);
}

/* A further record of a path that got no slot is counted; one of a path that began while the tracer was off isn't. */
RARELY static dspec_status refused(const dspec_path *path) {
    body *tracer = path->over == 1 ? body_of(path->tracer) : NULL;
    STORE(&dspec_tracer_recent_7, REFUSED_PATH);
    if (tracer != NULL && LOAD(&tracer->up)) {
        ADD(&tracer->refused_records, 1);
        consumer_stirs(tracer);
    }
    return DSPEC_UNAVAILABLE;
}

static dspec_status put_slowly(dspec_path *path, const dspec_event *event, const uint64_t *words, size_t n) {
    body *tracer = body_of_path(path);
    dspec_tracer_seat *seat;
    dspec_status status;
    if (tracer == NULL) return path->lane != NULL ? DSPEC_VOID : refused(path);
    if (!LIKELY(dspec_tracer_claim_(event, tracer->slot) > DSPEC_TRACER_OFF_)) return not_enabled(tracer, event);
    if ((status = seat_take(tracer, &seat)) != DSPEC_OK) return status;
    status = path->lane == NULL ? begin(tracer, seat, path, event, words, n) : go_on(seat, path, event, words, n);
    seat_leave(seat);
    return status;
}

/* A path's record that isn't made in its caller, as the first one. */
INTO_CALLER dspec_status put_first(dspec_path *path, const dspec_event *event, const uint64_t *words, size_t n) {
    const dspec_status status = LIKELY(path->tracer != NULL && !path->over) ? begin_quickly(path, event, words, n) : DSPEC_UNAVAILABLE;
    return LIKELY(status != DSPEC_UNAVAILABLE) ? status : put_slowly(path, event, words, n);
}

dspec_status dspec_path_put_slowly_(dspec_path *path, const dspec_event *event, const uint64_t *words, size_t n) { return put_first(path, event, words, n); }

dspec_status dspec_path_put_slowly_2_(dspec_path *path, const dspec_event *event, uint64_t w0, uint64_t w1) {
    const uint64_t words[] = { w0, w1 };
    return put_first(path, event, words, 2);
}

dspec_status dspec_path_put_slowly_3_(dspec_path *path, const dspec_event *event, uint64_t w0, uint64_t w1, uint64_t w2) {
    const uint64_t words[] = { w0, w1, w2 };
    return put_first(path, event, words, 3);
}

INTO_CALLER dspec_status put(dspec_path *path, const dspec_event *event, const uint64_t *words, size_t n) {
    dspec_status status;
    return LIKELY(dspec_event_goes_(event)) && dspec_path_try_(path, event, words, n, &status) ? status : dspec_path_put_slowly_(path, event, words, n);
}

dspec_status dspec_path_put(dspec_path *path, const dspec_event *event, const uint64_t *words, size_t n) { return put(path, event, words, n); }

dspec_status dspec_path_put_1(dspec_path *path, const dspec_event *event, uint64_t w0) { return put(path, event, &w0, 1); }

dspec_status dspec_path_put_2(dspec_path *path, const dspec_event *event, uint64_t w0, uint64_t w1) {
    const uint64_t words[] = { w0, w1 };
    return put(path, event, words, 2);
}

dspec_status dspec_path_put_3(dspec_path *path, const dspec_event *event, uint64_t w0, uint64_t w1, uint64_t w2) {
    const uint64_t words[] = { w0, w1, w2 };
    return put(path, event, words, 3);
}

/* A record that is in no path, and wasn't made. */
RARELY static void missed(body *tracer, const dspec_event *event, dspec_status status) {
    if (status == DSPEC_DROPPED) wants_room(tracer);
    if (status == DSPEC_BAD_RECORD && dspec_tracer_claim_(event, tracer->slot) <= DSPEC_TRACER_OFF_) count_missing(tracer, event);
}

RARELY dspec_status dspec_tracer_turn(dspec_tracer *tracer, const dspec_event *event, dspec_status status) {
    dspec_tracer_seat *seat = dspec_tracer_seat_of_(tracer);
    struct lane *lane = lane_of(seat->last);
    body *run = lane->tracer;
    const bool is_again = status == DSPEC_DROPPED && lane_makes_room(lane, A_RECORD);
    dspec_tracer_leave_kept_(&lane->front, seat->kept);
    __atomic_signal_fence(__ATOMIC_SEQ_CST);
    STORE(&seat->plain, seat->run);
    if (is_again) return DSPEC_TRACER_AGAIN_;
    missed(run, event, status);
    return status;
}

/* A record that is in no path, on a lane that the caller has: in the other buffer, where it finds the first one full. */
INTO_CALLER dspec_status fill(struct lane *lane, const dspec_event *event, const uint64_t *words, size_t n) {
    const uint64_t claim = dspec_tracer_claim_(event, lane->front.slot);
    const dspec_status status = dspec_tracer_fill_(&lane->front, claim, dspec_tracer_stamp_(&lane->front.clock), words, n);
    if (LIKELY(status != DSPEC_DROPPED) || !lane_makes_room(lane, A_RECORD)) return status;
    return dspec_tracer_fill_(&lane->front, claim, dspec_tracer_stamp_(&lane->front.clock), words, n);
}

/* A record that is in no path, on the lane that its thread had last and doesn't keep, where nobody is on that: whether it was made. A thread that hands its paths on keeps none. */
INTO_CALLER bool record_by_lock(dspec_tracer *tracer, const dspec_event *event, const uint64_t *words, size_t n, dspec_status *status) {
    dspec_tracer_seat *seat = dspec_tracer_seat_of_(tracer);
    uint32_t state = 0;
    if (seat->kept != 0 || !LIKELY(seat->plain == LOAD(&tracer->run)) || !LIKELY(!seat->busy)) return false;
    seat_sits(seat);
    struct lane *lane = lane_of(seat->last);
    const bool is_in = LIKELY(seat->own == NULL) && LIKELY(seat->kept == 0) && LIKELY(state_becomes(lane, &state, HELD));
    if (is_in) {
        *status = fill(lane, event, words, n);
        lane_leave_locked(lane);
        if (LIKELY(dspec_here.hands_on == 0) && LIKELY(!lane->tracer->by_thread) && !LIKELY(!lane_keeps(seat, lane, 0))) lane_rests(seat, lane);
    }
    seat_leave(seat);
    if (is_in && !LIKELY(*status == DSPEC_OK)) missed(lane->tracer, event, *status);
    return is_in;
}

/* A record that is in no path, on its thread's own lane, where nobody is in its way: whether it was made. */
INTO_CALLER bool record_on_own(dspec_tracer *tracer, const dspec_event *event, const uint64_t *words, size_t n, dspec_status *status) {
    dspec_tracer_seat *seat = dspec_tracer_seat_of_(tracer);
    bool is_made = false;
    if (!LIKELY(seat->run == LOAD(&tracer->run) && seat_enter(seat))) return false;
    struct lane *lane = lane_of(seat->own);
    if (LIKELY(lane != NULL) && dspec_tracer_enter_(&lane->front)) {
        *status = fill(lane, event, words, n);
        serve_if_asked(lane);
        dspec_tracer_leave_(&lane->front);
        if (!LIKELY(*status != DSPEC_DROPPED)) wants_room(lane->tracer);
        is_made = true;
    }
    seat_leave(seat);
    return is_made;
}

/* On a lane that has to be served, on another than the one that the thread had last, or where others are in the way. */
static dspec_status record_slowly(dspec_tracer *tracer, const dspec_event *event, const uint64_t *words, size_t n) {
    body *run = body_of(tracer);
    dspec_tracer_seat *seat;
    dspec_status status;
    bool as_path;
    if (run == NULL || LOAD(&tracer->run) == 0) return DSPEC_UNAVAILABLE;
    if (!LIKELY(dspec_tracer_claim_(event, run->slot) > DSPEC_TRACER_OFF_)) return not_enabled(run, event);
    if ((status = seat_take(run, &seat)) != DSPEC_OK) return status;
    struct lane *lane = lane_for_record(run, seat, &as_path);
    status = DSPEC_STOPPED;
    const way in = lane_enter(seat, lane);
    if (in != NOT_IN) {
        status = fill(lane, event, words, n);
        serve_if_asked(lane);
        lane_leave(lane, in);
        if (status == DSPEC_DROPPED) wants_room(run);
    }
    if (as_path) lane_path_off(seat, lane, true);
    seat_leave(seat);
    return status;
}

dspec_status dspec_tracer_put_slowly_(dspec_tracer *tracer, const dspec_event *event, const uint64_t *words, size_t n) {
    dspec_status status;
    if (LIKELY(dspec_event_goes_(event)) && (record_on_own(tracer, event, words, n, &status) || record_by_lock(tracer, event, words, n, &status))) return status;
    return record_slowly(tracer, event, words, n);
}

INTO_CALLER dspec_status record(dspec_tracer *tracer, const dspec_event *event, const uint64_t *words, size_t n) {
    dspec_status status;
    if (LIKELY(dspec_event_goes_(event)) && (record_by_lock(tracer, event, words, n, &status) || dspec_tracer_try_(tracer, event, words, n, &status))) return status;
    return dspec_tracer_put_slowly_(tracer, event, words, n);
}

dspec_status dspec_tracer_put(dspec_tracer *tracer, const dspec_event *event, const uint64_t *words, size_t n) { return record(tracer, event, words, n); }

dspec_status dspec_tracer_put_1(dspec_tracer *tracer, const dspec_event *event, uint64_t w0) { return record(tracer, event, &w0, 1); }

dspec_status dspec_tracer_put_2(dspec_tracer *tracer, const dspec_event *event, uint64_t w0, uint64_t w1) {
    const uint64_t words[] = { w0, w1 };
    return record(tracer, event, words, 2);
}

dspec_status dspec_tracer_put_3(dspec_tracer *tracer, const dspec_event *event, uint64_t w0, uint64_t w1, uint64_t w2) {
    const uint64_t words[] = { w0, w1, w2 };
    return record(tracer, event, words, 3);
}

/* Keeps a path that was to be thrown away, or parked, since its key is kept; the caller is in its lane. */
RARELY static dspec_status keep_by_key(struct lane *lane, uint32_t place, uint64_t id) {
    const dspec_status status = path_commit(lane, place, id, DSPEC_WHY_KEY, ANY_ROOM);
    if (status != DSPEC_OK) return status;
    STORE(&lane->kept, lane->kept + 1);
    return KEPT_BY_KEY;
}

INTO_CALLER dspec_status throw(struct lane *lane, uint32_t place, uint64_t id) {
    const dspec_status status = path_discard(lane, place, id);
    if (LIKELY(status == DSPEC_OK)) STORE(&lane->thrown, lane->thrown + 1);
    return status;
}

/* Notes the path whose records have just become the newest place. The place is shown last. */
INTO_CALLER void note_parked(parked_paths *parked, uint64_t tag, const dspec_passed *gone) {
    const uint64_t at = parked->next;
    parked->next = at + 1 < parked->tag_count ? at + 1 : 0;
    STORE(&parked->first, parked->first + gone->places);
    STORE(&parked->evicted, parked->evicted + gone->blocks);
    STORE(&parked->tags[at], tag);
    __atomic_store_n(&parked->end, parked->end + 1, __ATOMIC_RELEASE);
}

/* Its records go into the lane's ring, where it is open, and its speculation is thrown away. */
INTO_CALLER dspec_status park_open(struct lane *lane, uint32_t place, uint64_t id, uint64_t mark) {
    const open_path *opened = place_at(lane, place);
    dspec_passed gone;
    dspec_status status, thrown;
    if (!LIKELY(opened->mark == mark)) return DSPEC_VOID;
    status = dspec_parking_park(&lane->parked.ring, &lane->front.cpu, (uint32_t)(id % SLOTS), opened->key[0], opened->key[1], mark | opened->thread, &gone);
    if (LIKELY(status == DSPEC_OK)) note_parked(&lane->parked, opened->tag, &gone);
    thrown = dspec_paths_discard(&lane->paths, &lane->front.cpu, place, id);
    return LIKELY(status == DSPEC_OK) || thrown != DSPEC_OK ? thrown : THROWN_AWAY;
}

/* Parks a path, or throws it away where it has no key, or the lane no ring. One whose key is kept is kept. */
INTO_CALLER dspec_status park(struct lane *lane, uint32_t place, uint64_t id, uint64_t mark) {
    const open_path *opened = place_at(lane, place);
    dspec_status status;
    if (LIKELY(opened->key_state == HAS_KEY) && (LIKELY(lane->parked.is_simple) || park_notes_untold(&lane->parked, &lane->front.cpu, id))) status = park_open(lane, place, id, mark);
    else if (opened->key_state == IS_WANTED) return keep_by_key(lane, place, id);
    else status = path_discard(lane, place, id) == DSPEC_OK ? THROWN_AWAY : DSPEC_VOID;
    if (!LIKELY(status != THROWN_AWAY)) STORE(&lane->thrown, lane->thrown + 1);
    return status;
}

/* Decides the path of a place, a speculation and a mark, in its lane, which the caller is in: DSPEC_OK where it was decided so, KEPT_BY_KEY and THROWN_AWAY where otherwise, DSPEC_BUSY where
 * it waits for room, DSPEC_VOID where it isn't open. */
INTO_CALLER dspec_status end_at(struct lane *lane, uint32_t place, uint64_t id, uint64_t mark, ending as, bool waits, uint32_t why) {
    dspec_status status;
    if (as == PARKS) return park(lane, place, id, mark);
    if (as == DROPS && !LIKELY(place_at(lane, place)->key_state != IS_WANTED)) return keep_by_key(lane, place, id);
    if (as == DROPS) return throw(lane, place, id);
    status = path_commit(lane, place, id, why, waits ? WAITS_FOR_ROOM : ANY_ROOM);
    if (LIKELY(status == DSPEC_OK)) STORE(&lane->kept, lane->kept + 1);
    return status;
}

INTO_CALLER dspec_status decide(struct lane *lane, const dspec_path *path, ending as, bool waits, uint32_t why) {
    return end_at(lane, path->place, path->id, path->mark, as, waits, why);
}

/* Takes one from the list of what the consumer has ended, for whoever has the lane: its last one gets this place. The consumer may look at `mark` and `token` at any time. */
RARELY static void remove_ended(struct lane *lane, uint32_t i) {
    const ended_path last = lane->ended[lane->ended_count - 1];
    STORE(&lane->ended[i].mark, last.mark);
    STORE(&lane->ended[i].token, last.token);
    lane->ended[i].own = last.own;
    lane->ended[i].is_kept = last.is_kept;
    STORE(&lane->ended_count, lane->ended_count - 1);
}

/* What the consumer has ended meanwhile, and is taken from its list: whether it is there. */
RARELY static bool take_ended(struct lane *lane, uint64_t mark, ended_path *found) {
    for (uint32_t i = 0; i < lane->ended_count; i++) {
        if (lane->ended[i].mark != mark) continue;
        *found = lane->ended[i];
        remove_ended(lane, i);
        return true;
    }
    return false;
}

/* A path whose end can't get into its lane is thrown away by the next one that has it. */
RARELY static dspec_status leave_after(struct lane *lane, open_path *path, uint64_t mark) {
    if (state_of(lane) & GONE) return DSPEC_STOPPED;
    STORE(&path->left, mark);
    __atomic_store_n(&lane->left, 1, __ATOMIC_RELEASE);
    return DSPEC_STOPPED;
}

/* Counts for whoever has the lane as its own that others have ended a path of it. */
static inline void hand_back(struct lane *lane, bool was_own, bool own) {
    if (!LIKELY(was_own == own)) ADD(&lane->handed, 1);
}

/* Whether a path whose end came to this was lost, for want of room. */
static inline bool is_lost(dspec_status status) { return status != DSPEC_OK && status != KEPT_BY_KEY && status != THROWN_AWAY; }

/* The end of a path that isn't open, in its lane, which it leaves: whether the consumer has kept it. */
RARELY static dspec_status end_late(dspec_tracer_seat *seat, struct lane *lane, way in, const dspec_path *path, ending as, bool own) {
    ended_path found;
    const bool is_found = take_ended(lane, path->mark, &found);
    if (is_found) hand_back(lane, found.own, own);
    lane_leave(lane, in);
    if (is_found) lane_path_off(seat, lane, own);
    if (!is_found || !found.is_kept) return DSPEC_VOID;
    return as == KEEPS ? DSPEC_OK : KEPT_BY_KEY;
}

/* A path that waits for room, in its lane, which it leaves for a moment. */
RARELY static void wait_for_room(struct lane *lane, way in, const dspec_path *path) {
    adopt(lane, path); /* where the thread that had it ends meanwhile, it stays */
    lane_leave(lane, in);
    consumer_wakes(lane->tracer);
    sleep_for(1000);
}

/* Ends a path: what came of it. After a stop the stop has decided it, and at a thread's end that has. */
INTO_CALLER dspec_status end(dspec_tracer_seat *seat, dspec_path *path, ending as, uint32_t why) {
    struct lane *lane = lane_of(path->lane);
    open_path *const opened = place_at(lane, path->place);
    const bool own = path->own && path->lane == seat->own;
    const uint64_t most = as == KEEPS ? lane->tracer->options.keep_ms * UINT64_C(1000000) : 0, began = most > 0 ? dspec_monotonic() : 0;
    dspec_status status;
    way in;
    is_over(path);
    for (;;) {
        in = lane_enter(seat, lane);
        if (in == NOT_IN) return leave_after(lane, opened, path->mark);
        status = decide(lane, path, as, most > 0 && dspec_monotonic() - began < most, why);
        if (!LIKELY(status != DSPEC_VOID)) return end_late(seat, lane, in, path, as, own);
        serve_if_asked(lane);
        if (status != DSPEC_BUSY) break;
        wait_for_room(lane, in, path);
    }
    hand_back(lane, opened->own, own);
    place_clear(opened);
    lane_leave(lane, in);
    lane_path_off(seat, lane, own);
    if (is_lost(status)) wants_room(lane->tracer);
    return status;
}

static dspec_status end_slowly(dspec_path *path, ending as, uint32_t why) {
    body *tracer = body_of_path(path);
    dspec_tracer_seat *seat;
    dspec_status status;
    if (tracer == NULL || seat_take(tracer, &seat) != DSPEC_OK) return DSPEC_VOID;
    status = end(seat, path, as, why);
    seat_leave(seat);
    return status;
}

/* Throws a path away whose key nobody wants: whether it did. */
INTO_CALLER bool throws_quickly(struct lane *lane, const dspec_path *path, const open_path *opened) {
    return LIKELY(opened->key_state != IS_WANTED) && LIKELY(throw(lane, path->place, path->id) == DSPEC_OK);
}

/* The end of a path in the call on its thread's own lane: whether it came to one. */
INTO_CALLER bool end_in(struct lane *lane, dspec_path *path, ending as, uint32_t why, dspec_status *status) {
    open_path *const opened = place_at(lane, path->place);
    *status = DSPEC_OK;
    if (as == DROPS && !LIKELY(throws_quickly(lane, path, opened))) return false;
    if (as != DROPS) *status = decide(lane, path, as, lane->tracer->options.keep_ms > 0, why);
    if (!LIKELY(*status == DSPEC_OK) && is_lost(*status) && *status != DSPEC_LOST) return false;
    is_over(path);
    serve_if_asked(lane);
    hand_back(lane, opened->own, true);
    place_clear(opened);
    return true;
}

/* The end of a path of its thread's own lane, where nobody is in the way: whether it came to one, and what came of it. The thread is in the tracer. */
INTO_CALLER bool end_on_own(dspec_tracer_seat *seat, dspec_path *path, ending as, uint32_t why, dspec_status *status) {
    struct lane *lane = lane_of(path->lane);
    if (!LIKELY(seat->own == &lane->front) || !LIKELY(dspec_tracer_is_zero_(&lane->front.inside)) || !LIKELY(dspec_tracer_enter_(&lane->front))) return false;
    const bool is_done = end_in(lane, path, as, why, status);
    dspec_tracer_leave_(&lane->front);
    if (LIKELY(is_done)) lane_path_off(seat, lane, true);
    return is_done;
}

/* The same from outside the tracer. */
INTO_CALLER bool end_quickly(dspec_path *path, ending as, uint32_t why, dspec_status *status) {
    dspec_tracer_seat *seat;
    if (!LIKELY(dspec_path_is_here_(path))) return false;
    seat = dspec_tracer_seat_of_(path->tracer);
    if (!LIKELY(!seat->busy)) return false;
    seat_sits(seat);
    const bool is_done = end_on_own(seat, path, as, why, status);
    seat_leave(seat);
    return is_done;
}

INTO_CALLER dspec_status ends(dspec_path *path, ending as, uint32_t why) {
    dspec_status status;
    if (!LIKELY(end_quickly(path, as, why, &status))) return end_slowly(path, as, why);
    if (!LIKELY(status == DSPEC_OK) && is_lost(status)) wants_room(lane_of(path->lane)->tracer);
    return status;
}

bool dspec_path_keep(dspec_path *path) { return path->lane != NULL && ends(path, KEEPS, DSPEC_WHY_KEPT) == DSPEC_OK; }

bool dspec_path_keep_why(dspec_path *path, uint32_t why) { return path->lane != NULL && ends(path, KEEPS, why) == DSPEC_OK; }

bool dspec_path_park(dspec_path *path) {
    const dspec_status status = path->lane != NULL ? ends(path, PARKS, 0) : THROWN_AWAY;
    is_over(path);
    return status == DSPEC_OK || status == KEPT_BY_KEY;
}

/* Whether a path is one of so many, by its number alone: lanes count in steps, so the number is spread first. */
static bool is_sampled(const dspec_path *path, uint32_t sample) {
    const uint32_t spread = (uint32_t)(path->mark >> 32) * UINT32_C(2654435761);
    return sample > 0 && spread <= UINT32_MAX / sample;
}

bool dspec_path_end(dspec_path *path, bool failed, uint64_t slow_ns) {
    const dspec_tracer_options *options;
    if (path->lane == NULL || path->over) return !dspec_path_drop(path) && false;
    options = &lane_of(path->lane)->tracer->options;
    if (slow_ns == 0) slow_ns = options->slow_ns;
    if (failed) return ends(path, KEEPS, DSPEC_WHY_FAILED) == DSPEC_OK;
    if (slow_ns > 0 && dspec_path_took(path) >= slow_ns) return ends(path, KEEPS, DSPEC_WHY_SLOW) == DSPEC_OK;
    if (is_sampled(path, options->sample)) return ends(path, KEEPS, DSPEC_WHY_SAMPLED) == DSPEC_OK;
    return ends(path, DROPS, 0) == KEPT_BY_KEY;
}

uint64_t dspec_path_took(const dspec_path *path) {
    const body *tracer = path->lane != NULL ? lane_of(path->lane)->tracer : NULL;
    const uint64_t now = tracer != NULL ? stamp_of(tracer) : 0;
    return now > path->begun ? clock_nanoseconds(tracer, now - path->begun) : 0; /* two processors' counters may differ by some ticks */
}

/* With a ring the consumer may look for the key from now on. */
static void set_key(const struct lane *lane, open_path *path, const uint64_t *key) {
    memcpy(path->key, key, sizeof path->key);
    path->key_state = HAS_KEY;
    if (lane->tracer->keys != NULL) STORE(&path->tag, key_tag(key));
}

/* Makes a path this thread's, in its lane, and has the key noted where there is one: whether it is open. */
static bool take_over(dspec_path *path, const uint64_t *key) {
    body *tracer = path->lane != NULL ? body_of_path(path) : NULL;
    bool is_open = false;
    dspec_tracer_seat *seat;
    if (tracer == NULL || seat_take(tracer, &seat) != DSPEC_OK) return false;
    struct lane *lane = lane_of(path->lane);
    const way in = lane_enter(seat, lane);
    if (in != NOT_IN) {
        is_open = adopt(lane, path);
        if (is_open) path->token = path->own && path->lane == seat->own ? dspec_tracer_token_7 : 0;
        if (is_open) STORE(&dspec_tracer_recent_7, path->mark);
        if (is_open && key != NULL) set_key(lane, &lane->open[path->place], key);
        if (!is_open && !is_ended(lane, path->mark)) is_over(path);
        lane_leave(lane, in);
    }
    seat_leave(seat);
    return is_open;
}

bool dspec_path_adopt(dspec_path *path) { return take_over(path, NULL); }

bool dspec_path_key(dspec_path *path, uint64_t high, uint64_t low) {
    const uint64_t key[] = { high, low };
    return take_over(path, key);
}

/* A path that never began is over. */
RARELY static bool drop_none(dspec_path *path) {
    is_over(path);
    return true;
}

bool dspec_path_drop(dspec_path *path) {
    if (!LIKELY(dspec_path_is_here_(path)) && path->lane == NULL) return drop_none(path);
    return ends(path, DROPS, 0) == DSPEC_OK;
}

bool dspec_tracer_keep_key(dspec_tracer *tracer, uint64_t high, uint64_t low) {
    const uint64_t key[] = { high, low };
    body *run = body_of(tracer);
    if (run == NULL || run->keys == NULL || run->pid != getpid() || !LOAD(&run->up) || !keys_put(run->keys, key, TOLD_KEY)) return false;
    consumer_wakes(run);
    return true;
}

/* Throws away a path of a lane that the caller has; one of which a part is kept is kept as a whole, or what has no room of it is lost. */
static void throw_one(struct lane *lane, uint32_t place, uint64_t id) {
    open_path *path = &lane->open[place];
    if (end_at(lane, place, id, path->mark, DROPS, false, 0) == DSPEC_VOID) end_at(lane, place, id, path->mark, KEEPS, false, DSPEC_WHY_KEPT);
    if (path->own) ADD(&lane->handed, 1);
    place_clear(path);
}

/* Throws away the paths of a thread on one lane, which the caller is in: how many there were. */
static uint32_t throw_away(struct lane *lane, uint32_t token) {
    uint32_t found = 0;
    dspec_open_path path;
    for (uint32_t i = lane->ended_count; i-- > 0;) {
        if (lane->ended[i].token != token) continue;
        if (lane->ended[i].own) ADD(&lane->handed, 1);
        remove_ended(lane, i);
        found++;
    }
    for (uint32_t place = 0; place < MAX_OPEN; place++) {
        if (dspec_paths_open_of(&lane->paths, place, token, &path) != DSPEC_OK) continue;
        throw_one(lane, place, path.newest);
        found++;
    }
    return found;
}

/* A path whose end couldn't get into the lane: whether it was open, or ended by the consumer. Else its thread's end has thrown it away since. */
static bool throw_marked(struct lane *lane, uint32_t place, uint64_t mark) {
    dspec_open_path path;
    ended_path ended;
    if (lane->open[place].mark != mark) {
        const bool is_ended = take_ended(lane, mark, &ended);
        if (is_ended && ended.own) ADD(&lane->handed, 1);
        return is_ended;
    }
    if (dspec_paths_open_of(&lane->paths, place, 0, &path) != DSPEC_OK) return false;
    throw_one(lane, place, path.newest);
    return true;
}

void path_throw_left(struct lane *lane) {
    uint32_t found = 0;
    if (LIKELY(__atomic_exchange_n(&lane->left, 0, __ATOMIC_ACQUIRE) == 0)) return;
    for (uint32_t place = 0; place < MAX_OPEN; place++) {
        const uint64_t mark = __atomic_exchange_n(&lane->open[place].left, 0, __ATOMIC_RELAXED); /* the path that has this place now may be left at any time */
        if (mark != 0 && throw_marked(lane, place, mark)) found++;
    }
    __atomic_fetch_sub(&lane->front.state, found * USER, __ATOMIC_SEQ_CST);
}

/* A look without the lane: whether it may have a path of a thread. */
static bool has_path_of(const struct lane *lane, uint32_t token) {
    if (LOAD(&lane->ended_count) > 0) return true;
    for (uint32_t place = 0; place < MAX_OPEN; place++)
        if (LOAD(&lane->open[place].mark) != 0 && LOAD(&lane->open[place].token) == token) return true;
    return false;
}

void path_ends_with_thread(body *tracer, dspec_tracer_seat *seat, uint32_t token) {
    for (uint32_t i = 0; i < tracer->count; i++) {
        struct lane *lane = &tracer->lanes[i];
        uint32_t found;
        const way in = has_path_of(lane, token) ? lane_enter(seat, lane) : NOT_IN;
        if (in == NOT_IN) continue;
        found = throw_away(lane, token);
        lane_leave(lane, in);
        __atomic_fetch_sub(&lane->front.state, found * USER, __ATOMIC_SEQ_CST);
    }
    lanes_give_up(seat);
}
