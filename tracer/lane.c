/* lane.c: how a thread gets into a call on a lane and out of it, and how the consumer gets between two calls. */
#include "body.h"

#include <errno.h>
#include <sys/syscall.h>
#include <unistd.h>

/* So many paths of a thread that hands them on are begun on a lane of all. */
enum { HANDS_ON = 64 };
/* A lane that one thread had alone for so many paths or records in a row is kept by it: what they spare is what it costs another thread to take it over. A test has fewer. */
#ifndef DSPEC_KEPT_AFTER
#define DSPEC_KEPT_AFTER 64
#endif
/* So long after a store no processor keeps it to itself any more, by far. */
enum { STORED_US = 2000 };

/* The system's numbers for membarrier(2), as <linux/membarrier.h> has them, which isn't there beside each C library. */
enum { MEMBARRIER_QUERY = 0, MEMBARRIER_PRIVATE_EXPEDITED = 8, MEMBARRIER_REGISTER_PRIVATE_EXPEDITED = 16 };

bool barrier_is_there(void) {
    long known = syscall(SYS_membarrier, MEMBARRIER_QUERY, 0, 0);
    if (known < 0 || (known & MEMBARRIER_PRIVATE_EXPEDITED) == 0) return false;
    return syscall(SYS_membarrier, MEMBARRIER_REGISTER_PRIVATE_EXPEDITED, 0, 0) == 0;
}

/* Has each thread of the process come to an order with what this one did before. A system that refuses that since the start, as by a filter of system calls, has lanes taken by their locks from
 * now on; for the threads that are on one without its lock, time brings the order. */
static void order(body *tracer) {
    const int saved = errno;
    if (LOAD(&tracer->locked) || syscall(SYS_membarrier, MEMBARRIER_PRIVATE_EXPEDITED, 0, 0) != 0) {
        STORE(&tracer->locked, 1);
        sleep_for(STORED_US);
    }
    errno = saved;
}

static bool is_inside(const struct lane *lane) { return __atomic_load_n(&lane->front.inside, __ATOMIC_ACQUIRE) != 0; }

/* Whether a lane of this state has an owner, who takes no lock. */
static bool is_alone(uint32_t state) { return state >= USER && !(state & SHARED); }

/* Whether the thread whose lane this is has left its call; the caller has set HELD. */
static bool is_left(const struct lane *lane, patience *left) {
    order(lane->tracer);
    while (is_inside(lane)) {
        if (is_spent(left)) return false;
        wait_on(left);
    }
    return true;
}

/* Into a call on the thread's own lane, once more: whether nobody was in the way. */
static bool enter_alone(struct lane *lane, uint32_t state) {
    if (state & IDLE) {
        state_clear(lane, IDLE); /* the consumer has to look again */
        consumer_stirs(lane->tracer);
    }
    return dspec_tracer_enter_(&lane->front);
}

/* Into a call by the lane's lock: whether it was free. Where the lane was one thread's alone, that one takes the lock from now on. */
static bool enter_locked(struct lane *lane, uint32_t state, patience *left) {
    const bool was_alone = is_alone(state);
    if (!state_becomes(lane, &state, (state & ~(uint32_t)IDLE) | HELD | (was_alone ? SHARED : 0u))) return false;
    if (state & IDLE) consumer_stirs(lane->tracer);
    if (!was_alone || is_left(lane, left)) return true;
    state_clear(lane, HELD | SHARED);
    return false;
}

way lane_enter_slowly(dspec_tracer_seat *seat, struct lane *lane) {
    patience left = patience_of(ENTER_US);
    for (;;) {
        const uint32_t state = state_of(lane);
        if (state & GONE) {
            ADD(&lane->tracer->late, 1);
            return NOT_IN;
        }
        if (!(state & (HELD | WANTED))) {
            const way how = &lane->front != seat->own || state & SHARED ? BY_LOCK : ALONE;
            if (how == BY_LOCK ? enter_locked(lane, state, &left) : enter_alone(lane, state)) return how;
        }
        if (is_spent(&left)) break;
        wait_on(&left);
    }
    ADD(&lane->tracer->waited, 1);
    consumer_stirs(lane->tracer);
    return NOT_IN;
}

/* ---- Which lane. ---- */

/* The lane so many after the one that the thread had last. */
static struct lane *lane_after(body *tracer, const dspec_tracer_seat *seat, uint32_t many) {
    uint32_t at = lane_of(seat->last)->number + many;
    return &tracer->lanes[at < tracer->count ? at : at - tracer->count];
}

/* A lane's state, once it is a thread's own: nobody shares it, but where each call takes the lock. */
static uint32_t as_own(const body *tracer, uint32_t state) { return LOAD(&tracer->locked) ? state : state & ~(uint32_t)SHARED; }

/* Makes a lane that nobody is on the thread's own: whether it is. users: its own claim, and that of a path where it is for one. */
INTO_CALLER bool claims(const body *tracer, dspec_tracer_seat *seat, struct lane *lane, uint32_t users) {
    uint32_t state = LOAD(&lane->front.state);
    while (state < USER && !(state & GONE)) {
        if (!LIKELY(state_becomes(lane, &state, as_own(tracer, state) + users * USER))) continue;
        STORE(&lane->handed, 0);
        seat->last = &lane->front;
        seat_owns(seat, &lane->front);
        return true;
    }
    return false;
}

/* ---- A lane that is kept between paths. ---- */

/* A flag that no thread has, which is in use from now on; NULL: each is some thread's. */
static uint8_t *free_flag(struct lane *lane) {
    for (size_t number = 1; number <= FLAGS; number++) {
        uint8_t is = FREE_FLAG;
        if (__atomic_compare_exchange_n(&lane->front.uses[number], &is, IN_USE, false, __ATOMIC_SEQ_CST, __ATOMIC_SEQ_CST)) return &lane->front.uses[number];
    }
    return NULL;
}

static void flag_free(uint8_t *flag) { __atomic_exchange_n(flag, FREE_FLAG, __ATOMIC_SEQ_CST); }

/* Whether a thread had a lane alone for so many paths or records in a row. That one isn't asked again for as many. Threads that make records there by turns may count at once. */
static bool is_due(struct lane *lane) {
    const uint32_t before = LOAD(&lane->had_by) == dspec_tracer_token_7 ? LOAD(&lane->in_a_row) : 0;
    const bool is = before + 1 >= DSPEC_KEPT_AFTER;
    STORE(&lane->had_by, dspec_tracer_token_7);
    STORE(&lane->in_a_row, is ? 0 : before + 1);
    return is;
}

bool lane_keeps(dspec_tracer_seat *seat, struct lane *lane, uint32_t state) {
    uint8_t *flag;
    if (LIKELY(!is_due(lane)) || LOAD(&lane->tracer->locked) || (flag = free_flag(lane)) == NULL) return false;
    const uint32_t kept = AT_REST + (uint32_t)(flag - lane->front.uses) * FLAG;
    if (state_becomes(lane, &state, kept)) {
        STORE(&lane->handed, 0);
        seat->kept = (uint16_t)kept;
    } else {
        flag_free(flag);
    }
    return seat->kept != 0;
}

/* The thread keeps a lane no longer, and so many are counted off it: whether it was kept until now. Where another thread is taking it, that comes to an end first: it may leave it. */
static bool lane_unkeep(dspec_tracer_seat *seat, uint32_t users) {
    struct lane *lane = lane_of(seat->last);
    uint8_t *flag = dspec_tracer_flag_(&lane->front, seat->kept);
    const uint32_t kept = seat->kept & KEPT;
    uint32_t state = state_of(lane);
    patience left = patience_of(ENTER_US);
    seat->kept = 0;
    while ((state & KEPT) == kept || (state & (HELD | GONE)) == HELD) {
        if ((state & KEPT) != kept) {
            if (is_spent(&left)) return false; /* the flag stays taken: the lane may still come back to it, and then it is others' to take */
            wait_on(&left);
            state = state_of(lane);
        } else if (state_becomes(lane, &state, state - kept - users * USER)) {
            flag_free(flag);
            return true;
        }
    }
    flag_free(flag);
    return false;
}

/* Makes a lane that another thread keeps and doesn't use the thread's own, as for a path: whether it is. */
static bool takes_over(body *tracer, dspec_tracer_seat *seat, struct lane *lane) {
    uint32_t state = state_of(lane);
    const uint32_t kept = state & KEPT;
    const uint8_t *flag = &lane->front.uses[kept / FLAG];
    if (kept == 0 || state / USER != AT_REST / USER || state & (HELD | GONE | WANTED) || LOAD(flag) == IN_USE) return false;
    if (!state_becomes(lane, &state, (as_own(tracer, state) - kept) | HELD)) return false;
    order(tracer);
    if (__atomic_load_n(flag, __ATOMIC_ACQUIRE) == IN_USE) {
        __atomic_fetch_add(&lane->front.state, kept - HELD, __ATOMIC_SEQ_CST);
        return false;
    }
    STORE(&lane->handed, 0);
    seat->last = &lane->front;
    seat_owns(seat, &lane->front);
    state_clear(lane, HELD);
    return true;
}

/* Any lane that another thread keeps and doesn't use. */
static struct lane *take_any_over(body *tracer, dspec_tracer_seat *seat) {
    for (uint32_t i = 0; i < tracer->count; i++) {
        struct lane *lane = lane_after(tracer, seat, i);
        if (takes_over(tracer, seat, lane)) return lane;
    }
    return NULL;
}

/* Of any lane, the one that the thread had last before others, and those that are free before those that are kept; NULL: somebody is on each. */
static struct lane *claim(body *tracer, dspec_tracer_seat *seat, uint32_t users) {
    for (uint32_t i = 0; i < tracer->count; i++) {
        struct lane *lane = lane_after(tracer, seat, i);
        if (claims(tracer, seat, lane, users)) return lane;
    }
    return take_any_over(tracer, seat);
}

void lanes_give_up(dspec_tracer_seat *seat) {
    struct lane *own = lane_of(seat->own);
    if (seat->kept != 0) lane_unkeep(seat, own != NULL ? 1 : 2);
    else if (own != NULL) __atomic_fetch_sub(&own->front.state, USER, __ATOMIC_SEQ_CST);
    seat_owns(seat, NULL); /* a handler's record may come from here on */
}

/* Makes the lane its own again that a thread keeps, also where the consumer has something to do there: whether it is. */
static bool resumes_kept(dspec_tracer_seat *seat) { return lane_resumes(seat, lane_of(seat->last), HELD | GONE | SERVE | IDLE | WANTED); }

/* Whether the lane that a thread keeps is its own again, for a path: it may be taken, wanted or shared. */
RARELY static bool is_own_again(dspec_tracer_seat *seat) {
    if (!resumes_kept(seat) && lane_unkeep(seat, 0)) seat_owns(seat, seat->last);
    return seat->own != NULL;
}

/* The lane that the fewest are on. */
static struct lane *least(body *tracer) {
    struct lane *found = &tracer->lanes[0];
    for (uint32_t i = 1; i < tracer->count; i++)
        if (LOAD(&tracer->lanes[i].front.state) / USER < LOAD(&found->front.state) / USER) found = &tracer->lanes[i];
    return found;
}

static bool has_room(const body *tracer, const struct lane *lane) { return LOAD(&lane->front.state) / USER <= tracer->options.paths; }

struct lane *lane_shared(body *tracer, uint32_t number) {
    struct lane *lane = &tracer->lanes[number];
    if (!has_room(tracer, lane)) return NULL;
    __atomic_fetch_add(&lane->front.state, USER, __ATOMIC_SEQ_CST);
    return lane;
}

/* What other threads ended of this one's paths is counted now. A lane that they ended the last path of is nobody's own, and a thread that hands its paths on claims none for the next ones: it
 * would keep it while it waits for work. */
RARELY static void take_back(dspec_tracer_seat *seat, struct lane *lane) {
    seat->open = (uint16_t)(seat->open - __atomic_exchange_n(&lane->handed, 0, __ATOMIC_RELAXED));
    if (seat->open != 0 || lane->tracer->by_thread) return;
    lanes_give_up(seat);
    dspec_here.hands_on = HANDS_ON;
}

struct lane *lane_for_path(body *tracer, dspec_tracer_seat *seat) {
    struct lane *lane = lane_of(seat->own);
    if (lane == NULL && seat->kept != 0 && is_own_again(seat)) return lane_of(seat->own);
    if (lane == NULL && LIKELY(dspec_here.hands_on == 0) && LIKELY(claims(tracer, seat, lane_of(seat->last), 2))) return lane_of(seat->last);
    if (lane != NULL && !LIKELY(LOAD(&lane->handed) == 0)) {
        take_back(seat, lane);
        lane = lane_of(seat->own);
    }
    if (lane == NULL && !LIKELY(dspec_here.hands_on == 0)) dspec_here.hands_on--;
    else if (lane == NULL && (lane = claim(tracer, seat, 2)) != NULL) return lane;
    return lane_shared(tracer, lane == NULL || !has_room(tracer, lane) ? least(tracer)->number : lane->number);
}

/* The lane that a thread keeps, or one that nobody is on, before one that another thread keeps and doesn't use. */
static struct lane *quiet_lane(body *tracer, dspec_tracer_seat *seat) {
    if (seat->kept != 0 && resumes_kept(seat)) return lane_of(seat->last);
    lanes_give_up(seat); /* one that another thread wants */
    for (uint32_t i = 0; i < tracer->count; i++) {
        struct lane *lane = lane_after(tracer, seat, i);
        const uint32_t state = LOAD(&lane->front.state);
        if (state < USER && !(state & (HELD | WANTED))) return seat->last = &lane->front, lane;
    }
    return take_any_over(tracer, seat);
}

struct lane *lane_for_record(body *tracer, dspec_tracer_seat *seat, bool *as_path) {
    struct lane *lane = lane_of(seat->own);
    *as_path = false;
    if (lane != NULL || (tracer->by_thread && (lane = claim(tracer, seat, 1)) != NULL)) return lane;
    lane = quiet_lane(tracer, seat);
    *as_path = seat->own != NULL;
    seat->open += *as_path;
    return lane != NULL ? lane : lane_of(seat->last);
}

/* ---- The consumer. ---- */

bool lane_take(struct lane *lane, uint32_t bits, patience *left) {
    bool is_held = false, alone = false, has;
    left->since = 0; /* a nap on one lane would keep the thread of the next one waiting */
    for (;;) {
        const bool is_last = is_spent(left);
        if (!is_held) {
            const uint32_t was = state_set(lane, HELD | WANTED | bits);
            is_held = !(was & HELD);
            alone = is_held && is_alone(was);
            if (alone) order(lane->tracer);
        }
        has = is_held && !(alone && is_inside(lane));
        if (has || is_last) break;
        wait_on(left);
    }
    if (has && alone && LOAD(&lane->tracer->locked)) state_set(lane, SHARED);
    state_clear(lane, is_held && !has ? WANTED | HELD : WANTED);
    return has;
}

void lane_release(struct lane *lane, uint32_t set) {
    if (set != 0) state_set(lane, set);
    state_clear(lane, HELD | SERVE);
}
