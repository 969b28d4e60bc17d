/* consumer.c: the consumer's thread: rounds, crashes, flushes and the end. */
#include "survive.h"

#include <errno.h>
#include <fcntl.h>
#include <sys/prctl.h>
#include <unistd.h>

/* In a round a thread that runs has so long for a service of its own. A flush that has lanes left to drain tries them again so often. */
enum { SERVE_US = 1000, AGAIN_US = 1000 };
/* After a crash that ends the process no round is made for so long: what other threads still keep would push the crash out of a trace with a small bound. */
#define QUIET_NS UINT64_C(1000000000)
/* The tracer's own events are so far apart, but for those at a crash, a flush and the end. */
#define TELL_NS UINT64_C(1000000000)
/* A lane is found empty after so many services, where its thread doesn't hinder that: with one buffer sealed the other may be full. */
enum { MOST_SERVICES = 3 };

static uint64_t all_of(const body *tracer) { return (UINT64_C(1) << tracer->count) - 1; }

/* The C library's write would end the thread where it was cancelled. */
static void ring(body *tracer, uint32_t by) {
    __atomic_fetch_add(&tracer->rings, by, __ATOMIC_SEQ_CST);
    word_wakes(&tracer->rings);
}

void consumer_wakes(body *tracer) { ring(tracer, RING); }

void consumer_writes(body *tracer) { ring(tracer, FULL_RING); }

/* A caller has done before what the consumer looks at after it has said that it sleeps. One of those who find it asleep wakes it. */
void consumer_stirs(body *tracer) {
    __atomic_thread_fence(__ATOMIC_SEQ_CST);
    if (__atomic_load_n(&tracer->asleep, __ATOMIC_SEQ_CST) != 0 && __atomic_exchange_n(&tracer->asleep, 0, __ATOMIC_SEQ_CST) != 0) consumer_wakes(tracer);
}

/* Writes what threads have switched out since it was full; but what waits for the disk is tried again in a round. */
static void write_full(body *tracer) {
    if (dspec_monotonic() < tracer->quiet_until) return;
    for (uint32_t i = 0; i < tracer->count; i++) {
        struct lane *lane = &tracer->lanes[i];
        if (LOAD(&lane->waits_for_disk) || !LOAD(&lane->is_full)) continue;
        __atomic_exchange_n(&lane->is_full, 0, __ATOMIC_ACQUIRE);
        lane_write(tracer, lane);
    }
}

/* Sleeps until a ring comes that wasn't heard, or for so long. */
static void sleep_until_rung(body *tracer, uint64_t nanoseconds) {
    const uint32_t heard = tracer->heard;
    if (__atomic_load_n(&tracer->rings, __ATOMIC_ACQUIRE) == heard) word_waits(&tracer->rings, heard, nanoseconds);
    tracer->heard = __atomic_load_n(&tracer->rings, __ATOMIC_ACQUIRE);
}

/* Sleeps until somebody rings, or for so long: whether somebody has rung since the last time. What is switched out until then, since it is full, is written. */
static bool is_rung(body *tracer, uint64_t microseconds) {
    const uint64_t until = microseconds == FOREVER ? FOREVER : dspec_monotonic() + microseconds * 1000;
    const uint32_t first = tracer->heard;
    uint32_t before;
    do {
        const uint64_t now = until == FOREVER ? 0 : dspec_monotonic();
        before = tracer->heard;
        write_full(tracer);
        if (now < until) sleep_until_rung(tracer, until == FOREVER ? FOREVER : until - now);
    } while (tracer->heard != before && tracer->heard - first < RING);
    return tracer->heard - first >= RING;
}

bool consumer_served(body *tracer, uint32_t ticket, uint32_t timeout_ms) {
    const uint64_t until = dspec_tracer_now() + timeout_ms * UINT64_C(1000000);
    for (;;) {
        const uint32_t served = __atomic_load_n(&tracer->served, __ATOMIC_ACQUIRE);
        const uint64_t now = dspec_tracer_now();
        if ((int32_t)(served - ticket) >= 0) return true;
        if (now >= until) return false;
        word_waits(&tracer->served, served, until - now);
    }
}

/* Does something with lanes, those first that are free, so that one whose thread stays in a call delays itself alone; the rest is waited for, so long in all. Which ones are left over. */
static uint64_t each_lane(body *tracer, uint64_t which, uint64_t wait_us, bool (*does)(struct lane *lane, patience *left, void *with), void *with) {
    patience left = patience_of(0);
    for (int pass = 0; pass < 2; pass++, left = patience_of(wait_us))
        for (uint32_t i = 0; i < tracer->count; i++)
            if (which >> i & 1 && does(&tracer->lanes[i], &left, with)) which &= ~(UINT64_C(1) << i);
    return which;
}

/* Serves a lane and lets it go again: whether it was to be had. Its thread waits no longer than the service takes. */
static bool serve_between(struct lane *lane, patience *left, bool *is_empty) {
    if (!lane_take(lane, 0, left)) return false;
    path_throw_left(lane);
    lane_serve(lane, is_empty);
    lane_release(lane, *is_empty ? IDLE : 0);
    return true;
}

/* Whether all that a lane had goes into the folder, or waits for room on the disk. */
static bool drain_lane(struct lane *lane, patience *left, void *unused) {
    bool is_empty = (state_of(lane) & IDLE) != 0, is_served = true;
    (void)unused;
    if (LOAD(&lane->waits_for_disk)) lane_write(lane->tracer, lane);
    for (int services = 0; !is_empty && is_served && !LOAD(&lane->waits_for_disk) && services < MOST_SERVICES; services++) {
        is_served = serve_between(lane, left, &is_empty);
        lane_write(lane->tracer, lane);
    }
    return is_empty || LOAD(&lane->waits_for_disk);
}

static uint64_t drain(body *tracer, uint64_t which) {
    tracer->drained |= which;
    return each_lane(tracer, which, TAKE_US, drain_lane, NULL);
}

/* Drains all lanes: which ones have something still, since they can't be had or wait for the disk. */
static uint64_t write_all(body *tracer) {
    uint64_t left = drain(tracer, all_of(tracer));
    for (uint32_t i = 0; i < tracer->count; i++) left |= (uint64_t)LOAD(&tracer->lanes[i].waits_for_disk) << i;
    return left;
}

/* The keeper's turn. Where too many keys wait for their paths to be written, that is done first. Those whose paths can't be written now are told all the same, where they are too many still. */
static void turn_keeper(body *tracer) {
    if (keeper_is_full(tracer->keeper)) keeper_tells(tracer, write_all(tracer));
    if (keeper_is_full(tracer->keeper)) keeper_tells(tracer, 0);
    keeper_turns(tracer);
}

/* Hears all keys that came until now, but for those after one that is still being put. */
static void hear_all(body *tracer) {
    const uint64_t came = keys_count(tracer->keys);
    do turn_keeper(tracer);
    while (!keys_are_heard(tracer->keys, came) && keys_are_waiting(tracer->keys));
}

/* A flush is served as each lane was found empty since it was asked for; those that weren't are tried again in the next turn. */
static void serve_flush(body *tracer, uint32_t asked) {
    const bool is_new = tracer->flushed != asked;
    if (is_new) tracer->undrained = all_of(tracer);
    tracer->flushed = asked;
    tracer->undrained = drain(tracer, tracer->undrained);
    if (tracer->keeper != NULL && !keeper_flushes(tracer, is_new)) return;
    if (tracer->undrained != 0) return;
    STORE(&tracer->misses, tracer->folder.lost);
    __atomic_store_n(&tracer->served, asked, __ATOMIC_RELEASE);
    word_wakes(&tracer->served);
}

/* Asks the threads of those lanes that had calls since they were found empty to serve them: which ones. */
static uint64_t ask_busy(body *tracer) {
    uint64_t busy = 0;
    for (uint32_t i = 0; i < tracer->count; i++) {
        if (LOAD(&tracer->lanes[i].waits_for_disk)) { /* nothing is switched out meanwhile */
            state_clear(&tracer->lanes[i], SERVE);
            busy |= UINT64_C(1) << i;
            continue;
        }
        if (state_of(&tracer->lanes[i]) & IDLE) continue;
        state_set(&tracer->lanes[i], SERVE);
        busy |= UINT64_C(1) << i;
    }
    return busy;
}

/* Serves a lane whose thread has made no service since it was asked, and writes what it had before that; false: some of it is left. A service switches nothing while a full buffer is out, so that is
 * written first. */
static bool finish_lane(body *tracer, struct lane *lane) {
    const bool is_asked = !LOAD(&lane->waits_for_disk);
    patience none = patience_of(0);
    bool is_served = false, is_empty = true;
    lane_write(tracer, lane);
    if (!LOAD(&lane->waits_for_disk)) {
        is_served = (is_asked && !(state_of(lane) & SERVE)) || serve_between(lane, &none, &is_empty);
        lane_write(tracer, lane);
    }
    lane_clean(lane);
    return is_served && is_empty && !LOAD(&lane->waits_for_disk);
}

/* Threads that run serve their lanes themselves, where nobody wants room meanwhile; those that made no service are in no hurry, and wait if they come now. What stood sealed until the next
 * round would be lost with a kill. Which lanes had calls; unwritten: of these those that have something still of what they had before. */
static uint64_t make_round(body *tracer, bool is_pressed, uint64_t *unwritten) {
    uint64_t busy;
    write_full(tracer);
    busy = ask_busy(tracer);
    *unwritten = 0;
    if (busy == 0) return 0;
    if (!is_pressed) tracer->is_pressed = is_rung(tracer, SERVE_US);
    for (uint32_t i = 0; i < tracer->count; i++)
        if (busy >> i & 1 && !finish_lane(tracer, &tracer->lanes[i])) *unwritten |= UINT64_C(1) << i;
    return busy;
}

/* A round, and what is to be done with parked paths before it and after it. */
static void make_turn(body *tracer, bool is_pressed) {
    uint64_t unwritten;
    const uint64_t busy = make_round(tracer, is_pressed, &unwritten);
    if (tracer->keeper == NULL) return;
    keeper_looks(tracer, busy);
    keeper_tells(tracer, unwritten);
}

/* A path is over, and its thread hasn't ended it yet: that finds here what came of it. */
static void leave_ended(struct lane *lane, uint32_t place, bool is_kept) {
    open_path *path = &lane->open[place];
    if (lane->ended_count < MAX_OPEN) {
        lane->ended[lane->ended_count] = (ended_path){ .mark = path->mark, .token = path->token, .own = path->own, .is_kept = is_kept };
        STORE(&lane->ended_count, lane->ended_count + 1);
    }
    place_clear(path);
}

/* Keeps the open paths of a thread, or with 0 all, on a lane that the consumer has: how many. Each finds its buffer empty. */
static uint32_t keep_paths(body *tracer, struct lane *lane, uint32_t token, uint32_t why) {
    const uint64_t missed = tracer->folder.first.records;
    dspec_open_path path;
    uint32_t kept = 0;
    for (uint32_t place = 0; place < MAX_OPEN; place++) {
        if (dspec_paths_open_of(&lane->paths, place, token, &path) != DSPEC_OK) continue;
        const bool is_kept = path_commit(lane, place, path.newest, why, EMPTY_ROOM) == DSPEC_OK;
        leave_ended(lane, place, is_kept);
        kept += is_kept;
    }
    lane->saved += kept;
    lane_empty(tracer, lane);
    return tracer->folder.first.records == missed ? kept : 0; /* what a write lost isn't told as kept */
}

static uint64_t lanes_with(const body *tracer, uint32_t token) {
    uint64_t found = 0;
    for (uint32_t i = 0; i < tracer->count; i++)
        for (uint32_t k = 0; k < MAX_OPEN; k++) {
            const open_path *path = &tracer->lanes[i].open[k];
            if (LOAD(&path->mark) != 0 && (token == 0 || LOAD(&path->token) == token)) found |= UINT64_C(1) << i;
        }
    return found;
}

/* Whose paths are saved, why, and how many were. */
struct saving {
    uint32_t token, why, kept;
};

static bool save_lane(struct lane *lane, patience *left, void *with) {
    struct saving *saving = with;
    if (!lane_take(lane, 0, left)) return false;
    saving->kept += keep_paths(lane->tracer, lane, saving->token, saving->why);
    lane_release(lane, 0);
    return true;
}

/* Keeps and writes the open paths of a thread, or with 0 of all. stuck: how many lanes it couldn't have, in half of the time that a handler waits. */
static uint32_t save_paths(body *tracer, uint32_t token, uint32_t why, uint32_t *stuck) {
    struct saving with = { token, why, 0 };
    const uint64_t rest = each_lane(tracer, lanes_with(tracer, token), (uint64_t)tracer->options.crash_ms * 500, save_lane, &with);
    tracer->report.crash_paths += with.kept;
    *stuck = (uint32_t)__builtin_popcountll(rest);
    return with.kept;
}

/* Whether an earlier crash of a thread kept the path to which it recorded last. */
static bool has_kept(const struct lane *lane, const struct crash *of_thread) {
    for (uint32_t i = 0; i < LOAD(&lane->ended_count); i++)
        if (LOAD(&lane->ended[i].mark) == of_thread->recent && LOAD(&lane->ended[i].token) == of_thread->token) return true;
    return false;
}

/* The number of the path in which a thread crashed: that to which it recorded last, if it is open or an earlier crash kept it. Else it is the only path that the thread has. 0: it is in none,
 * in one that was refused, or nobody knows in which. */
static uint32_t recent_of(const body *tracer, const struct crash *of_thread) {
    uint64_t only = 0;
    uint32_t count = 0;
    for (uint32_t i = 0; i < tracer->count; i++) {
        if (has_kept(&tracer->lanes[i], of_thread)) return (uint32_t)(of_thread->recent >> 32);
        for (uint32_t k = 0; k < MAX_OPEN; k++) {
            const open_path *path = &tracer->lanes[i].open[k];
            const uint64_t mark = LOAD(&path->mark);
            if (mark == 0 || LOAD(&path->token) != of_thread->token) continue;
            if (mark == of_thread->recent) return (uint32_t)(mark >> 32);
            only = mark;
            count++;
        }
    }
    return count == 1 && of_thread->recent != REFUSED_PATH ? (uint32_t)(only >> 32) : 0;
}

/* A record of the tracer's own, on the consumer's lane, where nobody is in the way. A kill in its middle may come between its bytes and its count, so that dspec_salvage has to know of it. */
static void enter_own(struct lane *own) {
    __atomic_store_n(&own->front.inside, 1, __ATOMIC_RELAXED);
    __atomic_signal_fence(__ATOMIC_SEQ_CST);
}

static void leave_own(struct lane *own, dspec_status status) {
    __atomic_signal_fence(__ATOMIC_SEQ_CST);
    STORE(&own->front.answered, own->front.answered + (status == DSPEC_OK));
    dspec_tracer_leave_(&own->front);
}

static void put_own(body *tracer, uint64_t claim, uint64_t at, const uint64_t *words, size_t n) {
    struct lane *own = &tracer->lanes[tracer->count];
    enter_own(own);
    leave_own(own, dspec_put(&own->front.cpu, claim, at, words, n));
}

static void trace_own(body *tracer, uint32_t epid, uint64_t at, const uint64_t *values, size_t n) {
    struct lane *own = &tracer->lanes[tracer->count];
    enter_own(own);
    leave_own(own, dspec_trace(&own->front.cpu, epid, at, values, n));
}

/* What the tracer's own lane tells of: threads that came, paths and records that were refused, and how many paths were decided. */
typedef struct news {
    uint64_t paths, records, waited, missing, kept, thrown;
    uint32_t threads;
    dspec_tracer_report parked;
    bool is_refused, is_counted, is_parked, is_any; /* since it was told last */
} news;

static void tell_keys(const body *tracer, dspec_tracer_report *report) {
    report->park_least_ms = keeper_least_ms(tracer->keeper);
    report->key_missed = keeper_missed(tracer->keeper);
    report->keys_refused = keys_refused(tracer->keys);
}

/* The counts of parked paths and their keys. */
static void add_parked(const body *tracer, dspec_tracer_report *sum) {
    for (uint32_t i = 0; i < tracer->count; i++) lane_add_parked(&tracer->lanes[i], sum);
    tell_keys(tracer, sum);
}

/* What became of parked paths is news of the others too. How long those were parked that were evicted may be known a turn after that they were. */
static bool has_parked_news(const body *tracer, news *is) {
    const dspec_tracer_report *told = &tracer->told_parked;
    add_parked(tracer, &is->parked);
    is->kept += is->parked.park_kept;
    is->thrown += is->parked.park_evicted + is->parked.park_expired;
    return is->parked.parked != told->parked || is->parked.park_kept != told->park_kept || is->parked.park_evicted != told->park_evicted || is->parked.park_expired != told->park_expired ||
           is->parked.key_missed != told->key_missed || is->parked.keys_refused != told->keys_refused || (told->park_evicted > 0 && is->parked.park_least_ms != told->park_least_ms);
}

static news news_of(const body *tracer) {
    news is = { .paths = LOAD(&tracer->no_slot), .records = LOAD(&tracer->refused_records), .waited = LOAD(&tracer->waited), .missing = LOAD(&tracer->missing), .kept = tracer->report.crash_paths,
                .threads = (uint32_t)LOAD(&tracer->threads) };
    for (uint32_t i = 0; i < tracer->count; i++) is.kept += LOAD(&tracer->lanes[i].kept), is.thrown += LOAD(&tracer->lanes[i].thrown);
    is.is_parked = tracer->keeper != NULL && has_parked_news(tracer, &is);
    is.is_refused = is.paths != tracer->told_paths || is.records != tracer->told_records || is.waited != tracer->told_waited || is.missing != tracer->told_missing;
    is.is_counted = is.kept != tracer->told_kept || is.thrown != tracer->told_thrown;
    is.is_any = is.is_refused || is.is_counted || is.is_parked || is.threads != tracer->told_threads;
    return is;
}

static void tell_threads(body *tracer, uint64_t at, uint32_t threads) {
    if (threads - tracer->told_threads > MAX_SEEN) tracer->told_threads = threads - MAX_SEEN;
    for (; tracer->told_threads != threads; tracer->told_threads++) {
        seen_thread *seen = &tracer->seen[tracer->told_threads % MAX_SEEN];
        uint64_t words[4] = { 0 };
        words[1] = __atomic_exchange_n(&seen->thread, 0, __ATOMIC_ACQUIRE);
        memcpy(&words[2], seen->name, 16);
        if (words[1] == 0) break; /* it is being written */
        put_own(tracer, tracer->claim_of_thread, at, words, 4);
    }
}

static void tell_refused(body *tracer, uint64_t at, const news *is) {
    const uint64_t words[] = { 0, is->paths - tracer->told_paths, is->records - tracer->told_records, is->waited - tracer->told_waited, is->missing - tracer->told_missing };
    put_own(tracer, tracer->claim_of_refused, at, words, 5);
    tracer->told_paths = is->paths;
    tracer->told_records = is->records;
    tracer->told_waited = is->waited;
    tracer->told_missing = is->missing;
}

static void tell_decided(body *tracer, uint64_t at, const news *is) {
    const uint64_t words[] = { 0, is->kept - tracer->told_kept, is->thrown - tracer->told_thrown };
    put_own(tracer, tracer->claim_of_counts, at, words, 3);
    tracer->told_kept = is->kept;
    tracer->told_thrown = is->thrown;
}

static void tell_parked(body *tracer, uint64_t at, const dspec_tracer_report *is) {
    dspec_tracer_report *told = &tracer->told_parked;
    const uint64_t words[] = { 0, is->parked - told->parked, is->park_kept - told->park_kept, is->park_evicted - told->park_evicted, is->park_expired - told->park_expired,
                               is->key_missed - told->key_missed, is->keys_refused - told->keys_refused, is->park_least_ms };
    put_own(tracer, tracer->claim_of_parked, at, words, 8);
    *told = *is;
}

/* The news are told at most once a second and at the end. */
static void tell_own(body *tracer, bool at_once) {
    struct lane *own = &tracer->lanes[tracer->count];
    const uint64_t now = dspec_monotonic(), at = stamp_of(tracer);
    const news is = news_of(tracer);
    if (LOAD(&own->waits_for_disk)) lane_write(tracer, own);
    if (!is.is_any || (!at_once && now - tracer->told_at < TELL_NS)) return;
    tracer->told_at = now;
    tell_threads(tracer, at, is.threads);
    if (is.is_refused) tell_refused(tracer, at, &is);
    if (is.is_counted) tell_decided(tracer, at, &is);
    if (is.is_parked) tell_parked(tracer, at, &is.parked);
    lane_empty(tracer, own);
}

/* Tells of a signal that another process sent: which one, who sent it, and how many paths were open and are kept. */
static void tell_signal(body *tracer, int32_t signal, const sender *by, uint32_t kept, uint32_t stuck) {
    const uint64_t values[] = { 0, (uint32_t)signal, (uint32_t)by->code, (uint32_t)by->process, by->user, by->thread, kept, stuck };
    trace_own(tracer, tracer->epid_of_signal, by->at, values, sizeof values / sizeof values[0]);
    lane_empty(tracer, &tracer->lanes[tracer->count]);
}

/* Tells how many threads have crashed whose paths aren't saved, where that is another number than was told last. */
static void tell_unsaved(body *tracer, uint32_t saved) {
    const uint64_t unsaved = __atomic_load_n(&tracer->unsaved, __ATOMIC_SEQ_CST) - saved + LOAD(&tracer->never_saved);
    if (unsaved == tracer->told_unsaved) return;
    const uint64_t values[] = { 0, unsaved };
    tracer->told_unsaved = unsaved;
    trace_own(tracer, tracer->epid_of_unsaved, stamp_of(tracer), values, 2);
    lane_empty(tracer, &tracer->lanes[tracer->count]);
}

/* Tells where an address is: which file, and how far from where that begins. frame: 0 of the program counter, else of the so many-th caller, whose call ends before the address. */
static void tell_place(body *tracer, const struct crash *of_thread, uint32_t path, uint32_t frame, uint64_t address) {
    uint64_t values[8] = { path, frame };
    code_place at;
    if (!place_of(frame > 0 ? address - 1 : address, &at)) return;
    values[2] = at.offset;
    memcpy(&values[3], at.file, sizeof at.file);
    trace_own(tracer, tracer->epid_of_place, of_thread->at, values, 8);
}

/* Saves what a thread that crashed had open, and tells of it. */
static void save(body *tracer, const struct crash *of_thread) {
    struct lane *own = &tracer->lanes[tracer->count];
    const uint32_t recent = recent_of(tracer, of_thread);
    uint32_t stuck, kept = save_paths(tracer, tracer->options.keep_all ? 0 : of_thread->token, DSPEC_WHY_CRASH, &stuck);
    const uint64_t values[] = { recent, (uint32_t)of_thread->signal, (uint32_t)of_thread->code, of_thread->thread, of_thread->address, of_thread->pc, kept, stuck };
    uint64_t callers[MOST_CALLERS];
    trace_own(tracer, tracer->epid_of_crash, of_thread->at, values, sizeof values / sizeof values[0]);
    lane_empty(tracer, own);
    tell_place(tracer, of_thread, recent, 0, of_thread->pc);
    for (size_t i = 0, count = callers_of(of_thread, callers); i < count; i++) tell_place(tracer, of_thread, recent, (uint32_t)i + 1, callers[i]);
    lane_empty(tracer, own);
}

static void save_signal(body *tracer, const struct crash *sent) {
    uint32_t stuck, kept = save_paths(tracer, 0, DSPEC_WHY_SIGNAL, &stuck);
    tell_signal(tracer, sent->signal, &sent->by, kept, stuck);
}

static bool has_crash(const body *tracer) {
    for (uint32_t i = 0; i < MAX_CRASHES; i++)
        if (__atomic_load_n(&tracer->crashes[i].state, __ATOMIC_ACQUIRE) == CRASH_READY) return true;
    return false;
}

/* What is on its way of other threads, and the keys of that, which are heard before it is written. */
static void write_others(body *tracer) {
    if (tracer->keeper != NULL) hear_all(tracer);
    drain(tracer, all_of(tracer));
}

/* With a bound nothing of other threads is written after a crash: so of the keys that are heard then, those of the crash alone are told. Once the others are told, there is room for as many as may wait to be heard. */
static void tell_keys_of_crash(body *tracer) {
    keeper_tells(tracer, 0);
    hear_all(tracer);
    keeper_tells(tracer, all_of(tracer));
}

/* What all threads that crashed had open is written before one of their handlers goes on. The crash comes before what is on its way of other threads, so that it is there where the time is over;
 * with a bound on disk it comes after that, which might push it out. */
static void save_crashes(body *tracer) {
    const bool is_bounded = tracer->options.max_bytes > 0;
    bool is_saved[MAX_CRASHES] = { false };
    uint32_t saved = 0;
    if (!has_crash(tracer)) return;
    if (is_bounded) write_others(tracer);
    for (uint32_t i = 0; i < MAX_CRASHES; i++) {
        const struct crash *crash = &tracer->crashes[i];
        if (__atomic_load_n(&crash->state, __ATOMIC_ACQUIRE) != CRASH_READY) continue;
        if (crash->is_from_outside) save_signal(tracer, crash);
        else save(tracer, crash);
        if (crash->is_last) tracer->quiet_until = dspec_monotonic() + QUIET_NS;
        is_saved[i] = true;
        saved++;
    }
    tell_unsaved(tracer, saved);
    tell_own(tracer, true);
    if (!is_bounded) write_others(tracer);
    if (tracer->keeper != NULL && is_bounded) tell_keys_of_crash(tracer);
    else if (tracer->keeper != NULL) keeper_tells(tracer, 0);
    for (uint32_t i = 0; i < MAX_CRASHES; i++)
        if (is_saved[i]) crash_is_saved(tracer, &tracer->crashes[i]);
}

/* ---- The end. ---- */

/* Decides what is open on a lane that the consumer has. */
static void decide_rest(body *tracer, struct lane *lane) {
    dspec_open_path path;
    for (uint32_t place = 0; place < MAX_OPEN; place++) {
        if (dspec_paths_open_of(&lane->paths, place, 0, &path) != DSPEC_OK) continue;
        const bool is_wanted = lane->open[place].key_state == IS_WANTED;
        if ((is_wanted || lane->open[place].waits) && path_commit(lane, place, path.newest, is_wanted ? DSPEC_WHY_KEY : DSPEC_WHY_KEPT, EMPTY_ROOM) == DSPEC_OK) {
            STORE(&lane->kept, lane->kept + 1);
            continue;
        }
        tracer->report.undecided++;
        if (!tracer->options.keep_open) path_discard(lane, place, path.newest);
    }
    if (tracer->options.keep_open) keep_paths(tracer, lane, 0, DSPEC_WHY_UNDECIDED);
}

void tell_counts(const body *tracer, dspec_tracer_report *report) {
    const dspec_folder *folder = &tracer->folder;
    report->no_slot = LOAD(&tracer->no_slot);
    report->nested = LOAD(&tracer->nested);
    report->refused_records = LOAD(&tracer->refused_records);
    report->missing = LOAD(&tracer->missing);
    report->late = LOAD(&tracer->late);
    report->waited = LOAD(&tracer->waited);
    report->threads = LOAD(&tracer->threads);
    if (tracer->keeper != NULL) tell_keys(tracer, report);
    report->gone_folders = folder->gone;
    report->gone_records = folder->gone_records;
    if (__atomic_load_n(&tracer->missing_state, __ATOMIC_ACQUIRE) == 2)
        snprintf(report->why, sizeof report->why, "probe `%s` records, but isn't among the tracer's events", tracer->missing_name);
    if (!folder->lost) return;
    report->not_written = folder->first.records;
    report->code = folder->first.code;
    if (report->code == EBADF) snprintf(report->why, sizeof report->why, "the program closed the trace's descriptors: start the tracer after that");
    else snprintf(report->why, sizeof report->why, "%s", report->code != 0 ? strerror(report->code) : dspec_status_text(folder->first.status));
}

/* A lane that the consumer has for good: whether its session ended. Its table has counted its paths; those that the stop throws away, and those that the consumer kept, are told apart. */
static bool end_taken(body *tracer, struct lane *lane) {
    dspec_path_counts before = { 0 }, counts = { 0 };
    path_throw_left(lane);
    if (tracer->keeper != NULL && lane->number < tracer->count) keeper_ends_lane(tracer, lane);
    dspec_paths_counts(&lane->paths, &before);
    decide_rest(tracer, lane);
    dspec_paths_counts(&lane->paths, &counts);
    park_settle(lane);
    tracer->report.kept += counts.kept - lane->saved;
    tracer->report.thrown += before.thrown_away - park_over(&lane->parked);
    tracer->report.cut += lane->cut;
    tracer->report.cut_records += lane->cut_records;
    return lane_end(tracer, lane);
}

static bool end_lane(struct lane *lane, patience *left, void *unused) {
    (void)unused;
    if (!lane_take(lane, GONE, left)) return false;
    if (!end_taken(lane->tracer, lane)) lane->tracer->report.stuck_lanes++;
    return true;
}

/* Takes all lanes for good, and ends each by itself. One whose thread didn't come out of its call stays as it is: that thread may be in its memory. */
static void end_all(body *tracer) {
    int code;
    STORE(&tracer->up, 0);
    STORE(&tracer->front->up, 0);
    write_others(tracer);
    for (uint32_t i = 0; i < tracer->count; i++) state_set(&tracer->lanes[i], GONE);
    tracer->report.stuck_lanes += (uint32_t)__builtin_popcountll(each_lane(tracer, all_of(tracer), CLOSE_US, end_lane, NULL));
    tell_own(tracer, true);
    tell_unsaved(tracer, 0);
    if (!end_taken(tracer, &tracer->lanes[tracer->count])) tracer->report.stuck_lanes++;
    code = clock_tell(tracer, true);
    tracer->whole = dspec_folder_end(&tracer->folder) && tracer->report.stuck_lanes == 0;
    if (tracer->keeper != NULL) keeper_ends(tracer);
    events_forget(tracer);
    dspec_schema_drop(&tracer->schema);
    tell_counts(tracer, &tracer->report);
    if (code != 0 && tracer->report.why[0] == 0) snprintf(tracer->report.why, sizeof tracer->report.why, "the metadata's clock is as it was measured before the end: %.60s", strerror(code));
    survive_over(tracer);
    STORE(&tracer->misses, !tracer->whole);
    __atomic_store_n(&tracer->served, __atomic_load_n(&tracer->asked, __ATOMIC_ACQUIRE), __ATOMIC_RELEASE);
    word_wakes(&tracer->served);
}

/* One turn: whether it was the last. A signal from outside may have come into the middle of a call, so its handler left all to this thread. */
static bool turn(body *tracer) {
    const uint32_t asked = __atomic_load_n(&tracer->asked, __ATOMIC_ACQUIRE), deferred = __atomic_load_n(&tracer->deferred, __ATOMIC_ACQUIRE);
    const bool is_last = __atomic_load_n(&tracer->stop, __ATOMIC_ACQUIRE) || deferred != 0, is_pressed = tracer->is_pressed;
    uint32_t kept = 0, stuck = 0;
    tracer->is_pressed = false;
    clock_tell(tracer, false);
    save_crashes(tracer);
    if (tracer->keeper != NULL && !is_last && dspec_monotonic() >= tracer->quiet_until) turn_keeper(tracer);
    tell_own(tracer, asked != tracer->flushed);
    if (asked != tracer->served) serve_flush(tracer, asked);
    if (!is_last && dspec_monotonic() >= tracer->quiet_until) make_turn(tracer, is_pressed);
    if (signal_is_crash((int)deferred)) kept = save_paths(tracer, 0, DSPEC_WHY_SIGNAL, &stuck);
    if (deferred != 0) tell_signal(tracer, (int32_t)deferred, &tracer->sent, kept, stuck);
    if (is_last) end_all(tracer);
    return is_last;
}

/* A signal that was left to this thread ends the process now. A handler that tells one later finds that nobody hears it. */
void consumer_ends_by_signal(body *tracer) {
    uint32_t deferred;
    __atomic_store_n(&tracer->ended, 1, __ATOMIC_SEQ_CST);
    deferred = __atomic_exchange_n(&tracer->deferred, NO_MORE_SIGNALS, __ATOMIC_SEQ_CST);
    if (deferred != 0) signals_end((int)deferred);
}

/* ---- Between two turns. ---- */

/* How long rounds would find nothing, in microseconds, if nobody stirs: each lane was found empty after its last call, and there is no news, or it is too early for it. 0: one is due. */
static uint64_t idle_for(const body *tracer) {
    uint64_t since;
    if (tracer->undrained != 0 || lanes_wait_for_disk(tracer) || keeper_is_due(tracer)) return 0;
    for (uint32_t i = 0; i < tracer->count; i++)
        if (!(state_of(&tracer->lanes[i]) & IDLE)) return 0;
    if (!news_of(tracer).is_any) return FOREVER;
    since = dspec_monotonic() - tracer->told_at;
    return since < TELL_NS ? (TELL_NS - since) / 1000 + 1 : 0;
}

/* Sleeps as long as rounds would find nothing. Who stirs the consumer has just begun: the next turn comes by its period. What else rings is heard at once. */
static void sleep_idle(body *tracer) {
    const uint32_t heard = tracer->heard;
    uint64_t most;
    bool is_stirred;
    if (idle_for(tracer) == 0) return;
    __atomic_store_n(&tracer->asleep, 1, __ATOMIC_SEQ_CST);
    __atomic_thread_fence(__ATOMIC_SEQ_CST);
    most = idle_for(tracer);
    if (most > 0) is_rung(tracer, most);
    is_stirred = __atomic_exchange_n(&tracer->asleep, 0, __ATOMIC_SEQ_CST) == 0;
    tracer->is_pressed = (tracer->heard - heard) / RING > is_stirred;
    if (tracer->keeper != NULL) keeper_wakes(tracer->keeper);
}

void *consumer_runs(void *of_tracer) {
    body *tracer = of_tracer;
    dspec_here.consumer = true;
    prctl(PR_SET_NAME, "dspec");
    do {
        const bool is_waited_for = tracer->undrained != 0 && __atomic_load_n(&tracer->flushing, __ATOMIC_ACQUIRE) != 0;
        if (!tracer->is_pressed) sleep_idle(tracer);
        if (!tracer->is_pressed) tracer->is_pressed = is_rung(tracer, is_waited_for ? AGAIN_US : tracer->options.period_ms * UINT64_C(1000));
    } while (!turn(tracer));
    consumer_ends_by_signal(tracer);
    return NULL;
}
