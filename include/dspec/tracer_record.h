/* dspec/tracer_record.h: what a record of dspec_tracer.h does in its caller, when nobody is in its thread's way; else dspec_path_put or dspec_tracer_put does it. No program
 * includes it, or uses anything of it but dspec_path_record and dspec_tracer_record. tracer/body.h tells how a lane is taken. */
#ifndef DSPEC_TRACER_RECORD_H
#define DSPEC_TRACER_RECORD_H

#include "dspec_tracer.h"

#include <time.h>

#ifdef __cplusplus
extern "C" {
#endif

#define DSPEC_TRACER_APART_ __attribute__((aligned(128)))
#define DSPEC_TRACER_LIKELY_(IS) __builtin_expect(!!(IS), 1)
#define DSPEC_TRACER_INTO_CALLER_ __attribute__((always_inline, unused)) DSPEC_INLINE
/* A function of another library is called without a jump in between, where the compiler knows how. */
#if defined(__has_attribute)
#if __has_attribute(noplt)
#define DSPEC_TRACER_NO_PLT_ __attribute__((noplt))
#endif
#endif
#ifndef DSPEC_TRACER_NO_PLT_
#define DSPEC_TRACER_NO_PLT_
#endif

/* Of a lane's state: six bits; three more, which say who keeps it between paths; and above them how many paths are on it, and 1 more where it is a thread's own (tracer/body.h). */
#define DSPEC_TRACER_HELD_ 1u
#define DSPEC_TRACER_LOOK_ 59u /* with one of these a thread doesn't get into a call on its own lane without a closer look */
/* The number of the flag by which a thread keeps a lane is counted in these; and what is counted above it while the lane is at rest. */
#define DSPEC_TRACER_FLAG_ 64u
#define DSPEC_TRACER_FLAGS_ 7
#define DSPEC_TRACER_AT_REST_ 1024u
/* Of a flag that a thread has: that doesn't use the lane, or does. */
#define DSPEC_TRACER_RESTS_ 1u
#define DSPEC_TRACER_IN_USE_ 2u

/* What a record has to know of a lane. */
typedef struct dspec_tracer_lane {
    DSPEC_TRACER_APART_ uint32_t state;
    DSPEC_TRACER_APART_ uint32_t inside; /* the thread whose lane it is, is in a call; no other writes it */
    uint32_t slot;
    uint32_t commits;  /* the call that is made is a commit */
    uint64_t answered; /* records in the principal buffer whose calls have come back; both are for dspec_salvage */
    dspec_cpu cpu;
    uint32_t clock; /* of its stamps: DSPEC_CLOCK_MONOTONIC or DSPEC_CLOCK_TSC */
    uint8_t uses[DSPEC_TRACER_FLAGS_ + 1]; /* the flags of threads that keep it, by their numbers, which begin with 1 */
} dspec_tracer_lane;

/* And of its thread in a tracer. */
typedef struct dspec_tracer_seat {
    dspec_tracer_lane *last; /* the lane that it had last; where it keeps that, a record is tried there that is in no path */
    dspec_tracer_lane *own;  /* its own, or NULL */
    uint32_t run;            /* of the tracer; another's is stale */
    uint32_t plain;          /* the same; DSPEC_TRACER_NONE_ where the thread has a lane of its own, and in the middle of a record that is in no path */
    uint16_t open;           /* paths that it began on its own lane and hasn't ended */
    bool busy;               /* in the middle of the tracer, where a signal's handler may come */
    uint16_t kept;           /* where it keeps the lane that it had last between its paths, the state of that while nobody wants it; else 0 */
} dspec_tracer_seat;

/* No tracer has this run. One that isn't started has 0. */
#define DSPEC_TRACER_NONE_ 1u

/* What records of an event claim that is switched off. */
#define DSPEC_TRACER_OFF_ 1u

/* In place of a record's status: it is made once more. */
#define DSPEC_TRACER_AGAIN_ DSPEC_AS(dspec_status, 43)

/* A number that no other thread has or had, and not 0. A handler may look at it: it is where the thread's memory is, and is never made at its first use. That room is scarce where a library is loaded
 * late. The number in the name goes up with each change of what is laid out here or in dspec_tracer.h, so that a program which was compiled with another one finds no library. */
extern __thread uint32_t dspec_tracer_token_7 __attribute__((tls_model("initial-exec")));
/* The number of the path to which the thread recorded last, in the upper half. */
extern __thread uint64_t dspec_tracer_recent_7 __attribute__((tls_model("initial-exec")));

/* A record that isn't made in its caller: the first of a path, one on another thread, or one that somebody is in the way of. Few words go in registers. */
dspec_status dspec_path_put_slowly_(dspec_path *path, const dspec_event *event, const uint64_t *words, size_t n) DSPEC_NOEXCEPT;
dspec_status dspec_path_put_slowly_2_(dspec_path *path, const dspec_event *event, uint64_t w0, uint64_t w1) DSPEC_NOEXCEPT;
dspec_status dspec_path_put_slowly_3_(dspec_path *path, const dspec_event *event, uint64_t w0, uint64_t w1, uint64_t w2) DSPEC_NOEXCEPT;
dspec_status dspec_tracer_put_slowly_(dspec_tracer *tracer, const dspec_event *event, const uint64_t *words, size_t n) DSPEC_NOEXCEPT;

/* After a record that wasn't made. Of one in a path, in the call on its lane: whether it is made once more. Of another one, in the call on the lane that its thread keeps, which this leaves: what came of it,
 * or that it is made once more. */
bool dspec_path_turn(dspec_path *path, const dspec_event *event, dspec_status status) DSPEC_NOEXCEPT;
dspec_status dspec_tracer_turn(dspec_tracer *tracer, const dspec_event *event, dspec_status status) DSPEC_NOEXCEPT;

/* clock_gettime, which <time.h> shows only to programs that ask for POSIX. */
int dspec_tracer_clock_(int clock, struct timespec *at) DSPEC_NOEXCEPT __asm__("clock_gettime") DSPEC_TRACER_NO_PLT_;

/* A commit takes some 3,600 bytes of stack (docs/REFERENCE.md), and a stack that ends here ends before the call, where a crash can still keep the path, and not in the middle of it. */
DSPEC_INLINE void dspec_tracer_reach_(void) DSPEC_NOEXCEPT {
#if defined(__x86_64__)
    __asm__ volatile("testb $0, -6144(%%rsp)" : : : "cc");
#else
    (void)*(DSPEC_AS(const volatile char *, __builtin_frame_address(0)) - 6144);
#endif
}

/* A thread's seats have the same distance from this place in each thread. */
DSPEC_INLINE char *dspec_tracer_thread_(void) DSPEC_NOEXCEPT {
    char *at;
#if defined(__x86_64__)
    __asm__("movq %%fs:0, %0" : "=r"(at));
#else
    at = DSPEC_AS(char *, DSPEC_AS(void *, &dspec_tracer_token_7));
#endif
    return at;
}

DSPEC_INLINE dspec_tracer_seat *dspec_tracer_seat_of_(const dspec_tracer *tracer) DSPEC_NOEXCEPT {
    return DSPEC_AS(dspec_tracer_seat *, DSPEC_AS(void *, dspec_tracer_thread_() + DSPEC_AS(ptrdiff_t, __atomic_load_n(&tracer->seat, __ATOMIC_RELAXED))));
}

/* Whether a path is open on its thread's own lane, and this is its thread. */
DSPEC_INLINE bool dspec_path_is_here_(const dspec_path *path) DSPEC_NOEXCEPT { return path->token == dspec_tracer_token_7; }

/* Whether the thread's record that is in no path can be tried on the lane that it had last. */
DSPEC_INLINE bool dspec_tracer_is_plain_(const dspec_tracer *tracer) DSPEC_NOEXCEPT {
    return dspec_tracer_seat_of_(tracer)->plain == __atomic_load_n(&tracer->run, __ATOMIC_RELAXED);
}

/* Into a call on the thread's own lane, where nobody wants it: whether it is in. */
DSPEC_INLINE bool dspec_tracer_enter_(dspec_tracer_lane *lane) DSPEC_NOEXCEPT {
    __atomic_store_n(&lane->inside, 1, __ATOMIC_RELAXED);
    __atomic_signal_fence(__ATOMIC_SEQ_CST);
    if (DSPEC_TRACER_LIKELY_(!(__atomic_load_n(&lane->state, __ATOMIC_ACQUIRE) & DSPEC_TRACER_LOOK_))) return true;
    __atomic_store_n(&lane->inside, 0, __ATOMIC_RELEASE);
    return false;
}

DSPEC_INLINE void dspec_tracer_leave_(dspec_tracer_lane *lane) DSPEC_NOEXCEPT { __atomic_store_n(&lane->inside, 0, __ATOMIC_RELEASE); }

/* The flag of the thread that keeps a lane, by the lane's state at rest. */
DSPEC_INLINE uint8_t *dspec_tracer_flag_(dspec_tracer_lane *lane, size_t kept) DSPEC_NOEXCEPT {
    return &lane->uses[kept / DSPEC_TRACER_FLAG_ - DSPEC_TRACER_AT_REST_ / DSPEC_TRACER_FLAG_];
}

/* The lane that the thread keeps is at rest. Others see what it did there, once they see the flag. */
DSPEC_INLINE void dspec_tracer_rests_(dspec_tracer_lane *lane, uint32_t kept) DSPEC_NOEXCEPT {
    __atomic_store_n(dspec_tracer_flag_(lane, kept), DSPEC_TRACER_RESTS_, __ATOMIC_RELEASE);
}

/* Uses the lane again that the thread keeps: whether nobody has taken it, is on it or wants it. but: bits of its state that are no matter. */
DSPEC_INLINE bool dspec_tracer_uses_(dspec_tracer_lane *lane, uint32_t kept, uint32_t but) DSPEC_NOEXCEPT {
    __atomic_store_n(dspec_tracer_flag_(lane, kept), DSPEC_TRACER_IN_USE_, __ATOMIC_RELAXED);
    __atomic_signal_fence(__ATOMIC_SEQ_CST);
    if (DSPEC_TRACER_LIKELY_((__atomic_load_n(&lane->state, __ATOMIC_ACQUIRE) & ~but) == kept)) return true;
    dspec_tracer_rests_(lane, kept);
    return false;
}

/* Whether a word is 0, which others may write. A compiler loads an atomic word before it compares it; this compares it where it is. */
DSPEC_TRACER_INTO_CALLER_ bool dspec_tracer_is_zero_(const uint32_t *word) DSPEC_NOEXCEPT {
#if defined(__x86_64__)
    bool is_zero;
    __asm__ volatile("cmpl $0, %1" : "=@cce"(is_zero) : "m"(*word));
    return is_zero;
#else
    return __atomic_load_n(word, __ATOMIC_RELAXED) == 0;
#endif
}

/* A stamp of the clock that this word says. */
DSPEC_TRACER_INTO_CALLER_ uint64_t dspec_tracer_stamp_(const uint32_t *clock) DSPEC_NOEXCEPT {
    struct timespec at;
#if defined(__x86_64__)
    if (!DSPEC_TRACER_LIKELY_(dspec_tracer_is_zero_(clock))) return __builtin_ia32_rdtsc();
#else
    (void)clock;
#endif
    dspec_tracer_clock_(1 /* CLOCK_MONOTONIC */, &at);
    return DSPEC_AS(uint64_t, at.tv_sec) * 1000000000u + DSPEC_AS(uint64_t, at.tv_nsec);
}

/* Whether each tracer that has an event records it. */
DSPEC_TRACER_INTO_CALLER_ bool dspec_event_goes_(const dspec_event *event) DSPEC_NOEXCEPT { return dspec_tracer_is_zero_(&event->look); }

/* What a record of an event claims in a tracer. */
DSPEC_INLINE uint64_t dspec_tracer_claim_(const dspec_event *event, uint32_t slot) DSPEC_NOEXCEPT { return __atomic_load_n(&event->claims[slot], __ATOMIC_RELAXED); }

/* A record of several words, of which the first is another. */
dspec_status dspec_tracer_put_long(dspec_cpu *cpu, uint64_t id, uint64_t claim, uint64_t now, uint64_t first, const uint64_t *words, size_t n) DSPEC_NOEXCEPT;

/* A record's words, into a path's speculation, with the path's number in the first, or alone; few of them go in registers. */
DSPEC_INLINE dspec_status dspec_tracer_put_in_(dspec_cpu *cpu, uint64_t id, uint64_t claim, uint64_t now, uint64_t first, const uint64_t *words, size_t n) DSPEC_NOEXCEPT {
    switch (n) {
    case 1: return dspec_put_in_1(cpu, id, claim, now, first);
    case 2: return dspec_put_in_2(cpu, id, claim, now, first, words[1]);
    case 3: return dspec_put_in_3(cpu, id, claim, now, first, words[1], words[2]);
    default: return dspec_tracer_put_long(cpu, id, claim, now, first, words, n);
    }
}

DSPEC_INLINE dspec_status dspec_tracer_put_(dspec_cpu *cpu, uint64_t claim, uint64_t now, const uint64_t *words, size_t n) DSPEC_NOEXCEPT {
    switch (n) {
    case 1: return dspec_put_1(cpu, claim, now, words[0]);
    case 2: return dspec_put_2(cpu, claim, now, words[0], words[1]);
    case 3: return dspec_put_3(cpu, claim, now, words[0], words[1], words[2]);
    default: return dspec_put(cpu, claim, now, words, n);
    }
}

/* A record, in the call on a lane, that is in no path. */
DSPEC_INLINE dspec_status dspec_tracer_fill_(dspec_tracer_lane *lane, uint64_t claim, uint64_t now, const uint64_t *words, size_t n) DSPEC_NOEXCEPT {
    const dspec_status status = dspec_tracer_put_(&lane->cpu, claim, now, words, n);
    __atomic_signal_fence(__ATOMIC_SEQ_CST);
    __atomic_store_n(&lane->answered, lane->answered + (status == DSPEC_OK), __ATOMIC_RELAXED);
    return status;
}

/* Of a path that is open on its thread's own lane: whether it was made, and what came of it. A handler that comes in between finds `inside`. A record that finds room in another speculation is made
 * once more, with a stamp of its own, so that nothing has to be remembered for that. */
DSPEC_TRACER_INTO_CALLER_ bool dspec_path_try_(dspec_path *path, const dspec_event *event, const uint64_t *words, size_t n, dspec_status *status) DSPEC_NOEXCEPT {
    dspec_tracer_lane *lane;
    uint64_t now, mark;
    bool is_made = true;
    if (!DSPEC_TRACER_LIKELY_(dspec_path_is_here_(path))) return false;
    __asm__ volatile("" : : : "memory"); /* a handler that comes in between may begin this path: its lane is looked at after its token */
    lane = path->lane;
    __asm__("" : "+r"(lane)); /* a compiler that sees that a path has no lane yet doesn't know that no thread has its token */
    if (!DSPEC_TRACER_LIKELY_(dspec_tracer_is_zero_(&lane->inside))) return false;
    dspec_tracer_reach_();
    if (!DSPEC_TRACER_LIKELY_(dspec_tracer_enter_(lane))) return false;
    now = dspec_tracer_stamp_(&lane->clock);
    mark = path->mark;
    __atomic_store_n(&dspec_tracer_recent_7, mark, __ATOMIC_RELAXED);
    *status = dspec_tracer_put_in_(&lane->cpu, path->id, dspec_tracer_claim_(event, lane->slot), now, words[0] | mark, words, n);
    if (!DSPEC_TRACER_LIKELY_(*status == DSPEC_OK)) is_made = !dspec_path_turn(path, event, *status);
    dspec_tracer_leave_(lane);
    return is_made;
}

/* Into a call on the lane that the thread keeps, and out of it. `inside` is another's where that has taken the lane, so the flag is set before it, and the state looked at. */
DSPEC_INLINE bool dspec_tracer_enter_kept_(dspec_tracer_lane *lane, uint32_t kept) DSPEC_NOEXCEPT {
    if (!DSPEC_TRACER_LIKELY_(dspec_tracer_uses_(lane, kept, 0))) return false;
    if (DSPEC_TRACER_LIKELY_(dspec_tracer_enter_(lane))) return true;
    dspec_tracer_rests_(lane, kept);
    return false;
}

DSPEC_INLINE void dspec_tracer_leave_kept_(dspec_tracer_lane *lane, uint32_t kept) DSPEC_NOEXCEPT {
    dspec_tracer_leave_(lane);
    dspec_tracer_rests_(lane, kept);
}

/* Of no path, on the lane that the thread keeps, where nobody is in its way. A handler that comes in between finds that `plain` is no run. One that comes before that may change which lane that is, or
 * leave a path open there: then the lane is the thread's own. */
DSPEC_TRACER_INTO_CALLER_ bool dspec_tracer_try_(dspec_tracer *tracer, const dspec_event *event, const uint64_t *words, size_t n, dspec_status *status) DSPEC_NOEXCEPT {
    dspec_tracer_seat *seat = dspec_tracer_seat_of_(tracer);
    dspec_tracer_lane *lane;
    const uint32_t run = __atomic_load_n(&tracer->run, __ATOMIC_RELAXED);
    uint32_t kept;
    bool is_in;
    if (!DSPEC_TRACER_LIKELY_(seat->plain == run)) return false;
    dspec_tracer_reach_();
    __atomic_store_n(&seat->plain, DSPEC_TRACER_NONE_, __ATOMIC_RELAXED);
    __atomic_signal_fence(__ATOMIC_SEQ_CST);
    if (!DSPEC_TRACER_LIKELY_(seat->own == NULL)) return false;
    lane = seat->last;
    kept = seat->kept;
    is_in = DSPEC_TRACER_LIKELY_(kept != 0) && DSPEC_TRACER_LIKELY_(dspec_tracer_enter_kept_(lane, kept));
    if (DSPEC_TRACER_LIKELY_(is_in)) {
        const uint64_t now = dspec_tracer_stamp_(&lane->clock);
        *status = dspec_tracer_fill_(lane, dspec_tracer_claim_(event, lane->slot), now, words, n);
        if (!DSPEC_TRACER_LIKELY_(*status == DSPEC_OK)) {
            *status = dspec_tracer_turn(tracer, event, *status);
            return *status != DSPEC_TRACER_AGAIN_;
        }
        dspec_tracer_leave_kept_(lane, kept);
    }
    __atomic_signal_fence(__ATOMIC_SEQ_CST);
    __atomic_store_n(&seat->plain, run, __ATOMIC_RELAXED);
    return is_in;
}

/* Of a path, where nothing was tried in the caller. */
DSPEC_TRACER_INTO_CALLER_ dspec_status dspec_path_record_slowly_(dspec_path *path, const dspec_event *event, const uint64_t *words, size_t n) DSPEC_NOEXCEPT {
    switch (n) {
    case 2: return dspec_path_put_slowly_2_(path, event, words[0], words[1]);
    case 3: return dspec_path_put_slowly_3_(path, event, words[0], words[1], words[2]);
    default: return dspec_path_put_slowly_(path, event, words, n);
    }
}

/* Of an event that each tracer records which has it. */
DSPEC_TRACER_INTO_CALLER_ dspec_status dspec_path_record_(dspec_path *path, const dspec_event *event, const uint64_t *words, size_t n) DSPEC_NOEXCEPT {
    dspec_status status;
    if (DSPEC_TRACER_LIKELY_(dspec_path_try_(path, event, words, n, &status))) return status;
    switch (n) {
    case 1: return dspec_path_put_1(path, event, words[0]);
    case 2: return dspec_path_put_2(path, event, words[0], words[1]);
    case 3: return dspec_path_put_3(path, event, words[0], words[1], words[2]);
    default: return dspec_path_put(path, event, words, n);
    }
}

DSPEC_TRACER_INTO_CALLER_ dspec_status dspec_path_record(dspec_path *path, const dspec_event *event, const uint64_t *words, size_t n) DSPEC_NOEXCEPT {
    return DSPEC_TRACER_LIKELY_(dspec_event_goes_(event)) ? dspec_path_record_(path, event, words, n) : dspec_path_put_slowly_(path, event, words, n);
}

DSPEC_TRACER_INTO_CALLER_ dspec_status dspec_tracer_record_(dspec_tracer *tracer, const dspec_event *event, const uint64_t *words, size_t n) DSPEC_NOEXCEPT {
    dspec_status status;
    if (DSPEC_TRACER_LIKELY_(dspec_tracer_try_(tracer, event, words, n, &status))) return status;
    switch (n) {
    case 1: return dspec_tracer_put_1(tracer, event, words[0]);
    case 2: return dspec_tracer_put_2(tracer, event, words[0], words[1]);
    case 3: return dspec_tracer_put_3(tracer, event, words[0], words[1], words[2]);
    default: return dspec_tracer_put(tracer, event, words, n);
    }
}

DSPEC_TRACER_INTO_CALLER_ dspec_status dspec_tracer_record(dspec_tracer *tracer, const dspec_event *event, const uint64_t *words, size_t n) DSPEC_NOEXCEPT {
    return DSPEC_TRACER_LIKELY_(dspec_event_goes_(event)) ? dspec_tracer_record_(tracer, event, words, n) : dspec_tracer_put_slowly_(tracer, event, words, n);
}

#ifdef __cplusplus
} /* extern "C" */
#endif
#endif
