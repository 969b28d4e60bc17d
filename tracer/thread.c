/* thread.c: what a thread has in each tracer, from its first record to its end, and a stack for handlers. */
#include "body.h"

#include <sys/mman.h>
#include <sys/prctl.h>
#include <sys/syscall.h>
#include <time.h>
#include <unistd.h>

enum { STACK_SIZE = 65536, GUARD_SIZE = 4096 };
/* So many threads of a process may record: one that had another's number would be on its lanes without their locks. A test has fewer. */
#ifndef DSPEC_MOST_TOKENS
#define DSPEC_MOST_TOKENS (NO_TOKEN - 1)
#endif

__thread struct here dspec_here __attribute__((tls_model("initial-exec")));
#define FREE_SEAT { .run = DSPEC_TRACER_NONE_, .plain = DSPEC_TRACER_NONE_ }
__thread dspec_tracer_seat dspec_seats[DSPEC_MAX_TRACERS] __attribute__((tls_model("initial-exec"))) = { FREE_SEAT, FREE_SEAT, FREE_SEAT, FREE_SEAT, FREE_SEAT, FREE_SEAT, FREE_SEAT, FREE_SEAT };
static_assert(DSPEC_MAX_TRACERS == 8, "a free seat for each");
__thread uint32_t dspec_tracer_token_7 __attribute__((tls_model("initial-exec"))) = NO_TOKEN;
__thread uint64_t dspec_tracer_recent_7 __attribute__((tls_model("initial-exec")));

static pthread_key_t key;
static bool has_key;
static uint32_t tokens; /* how many were given */

/* A stack that overflowed has no room for a handler, so a thread that has no other stack for that gets one. */
void stack_on(void) {
    stack_t now, ours;
    if (dspec_here.stack != NULL || sigaltstack(NULL, &now) != 0 || !(now.ss_flags & SS_DISABLE)) return;
    char *at = mmap(NULL, STACK_SIZE + GUARD_SIZE, PROT_READ | PROT_WRITE, MAP_PRIVATE | MAP_ANONYMOUS | MAP_NORESERVE, -1, 0);
    if (at == MAP_FAILED) return;
    mprotect(at, GUARD_SIZE, PROT_NONE);
    ours = (stack_t){ .ss_sp = at + GUARD_SIZE, .ss_size = STACK_SIZE };
    if (sigaltstack(&ours, NULL) != 0) munmap(at, STACK_SIZE + GUARD_SIZE);
    else dspec_here.stack = at;
}

void stack_off(void) {
    stack_t now;
    char *at = dspec_here.stack;
    dspec_here.stack = NULL;
    if (at == NULL || sigaltstack(NULL, &now) != 0) return;
    if (now.ss_sp == at + GUARD_SIZE) {
        const stack_t none = { .ss_flags = SS_DISABLE };
        if (sigaltstack(&none, NULL) != 0) return;
    }
    munmap(at, STACK_SIZE + GUARD_SIZE);
}

bool stack_is_ours(const stack_t *stack) { return dspec_here.stack != NULL && stack->ss_sp == (char *)dspec_here.stack + GUARD_SIZE; }

/* The thread has no seat, and is none that has been. A handler that comes in between finds a seat that is busy or no run's. */
static void forget(void) {
    dspec_tracer_token_7 = NO_TOKEN;
    dspec_tracer_recent_7 = 0;
    for (uint32_t slot = 0; slot < DSPEC_MAX_TRACERS; slot++) {
        dspec_tracer_seat *seat = &dspec_seats[slot];
        seat->run = DSPEC_TRACER_NONE_;
        seat->kept = 0;
        seat_owns(seat, NULL);
        seat_leave(seat);
    }
}

/* Into the tracer of a slot: whether the thread has a seat there and got in. The seat of a tracer that is gone says nothing of the one there now, and its lane's memory is gone. */
static bool enter_at(uint32_t slot) {
    dspec_tracer_seat *seat = &dspec_seats[slot];
    const body *tracer = tracer_at(slot);
    if (tracer != NULL && seat->run == tracer->run) return seat_enter(seat);
    seat_sits(seat);
    return false;
}

/* The thread ends: what it left undecided is thrown away, and its lanes are others'. It is in each tracer meanwhile, and has no token, so that a handler's call finds nothing of it. */
static void detach(void *unused) {
    const uint32_t token = dspec_tracer_token_7;
    bool is_in[DSPEC_MAX_TRACERS];
    (void)unused;
    tracers_lock();
    /* A seat that is in a call still was thrown out of it by a signal's handler: its lane stays as it is. */
    for (uint32_t slot = 0; slot < DSPEC_MAX_TRACERS; slot++) is_in[slot] = enter_at(slot);
    dspec_tracer_token_7 = NO_TOKEN;
    for (uint32_t slot = 0; slot < DSPEC_MAX_TRACERS; slot++) {
        dspec_tracer_seat *seat = &dspec_seats[slot];
        body *tracer = tracer_at(slot);
        if (tracer != NULL && seat->run == tracer->run && LOAD(&tracer->up) && is_in[slot]) path_ends_with_thread(tracer, seat, token);
    }
    forget();
    tracers_unlock();
    stack_off();
}

void threads_begin(void) { has_key = pthread_key_create(&key, detach) == 0; }

/* A library that is unloaded leaves no thread that would call it at its end. */
__attribute__((destructor)) static void unloaded(void) {
    if (has_key) pthread_key_delete(key);
}

void threads_in_child(void) {
    forget();
    dspec_here.thread = 0;
}

/* Has the consumer tell what the thread is called. */
static void see(body *tracer) {
    seen_thread *at = &tracer->seen[ADD(&tracer->threads, 1) % MAX_SEEN];
    prctl(PR_GET_NAME, at->name, 0, 0, 0);
    __atomic_store_n(&at->thread, dspec_here.thread, __ATOMIC_RELEASE);
    consumer_stirs(tracer);
}

/* Whether the thread has a number that no other has or had; one is taken where it has none. */
static bool has_token(void) {
    uint32_t given = LOAD(&tokens);
    if (dspec_tracer_token_7 != NO_TOKEN) return true;
    do {
        if (given == DSPEC_MOST_TOKENS) return false;
    } while (!__atomic_compare_exchange_n(&tokens, &given, given + 1, false, __ATOMIC_RELAXED, __ATOMIC_RELAXED));
    dspec_tracer_token_7 = given + 1;
    return true;
}

/* The thread is in the tracer meanwhile, so that no handler comes in between. */
static void attach(body *tracer, dspec_tracer_seat *seat) {
    seat->open = 0;
    seat->last = &tracer->lanes[dspec_tracer_token_7 % tracer->count].front;
    if (!tracer->options.no_crash) stack_on();
    if (has_key) pthread_setspecific(key, &dspec_here);
    if (dspec_here.thread == 0) dspec_here.thread = (uint32_t)syscall(SYS_gettid);
    see(tracer);
    seat->run = tracer->run;
    seat->kept = 0;
    seat_owns(seat, NULL);
}

RARELY dspec_status seat_take_slowly(body *tracer, dspec_tracer_seat *seat) {
    const bool is_new = seat->run != tracer->run;
    if (is_new && !LOAD(&tracer->up)) {
        ADD(&tracer->late, 1);
        return DSPEC_STOPPED;
    }
    /* What an earlier tracer left in the seat says nothing of this one, but for `busy`: the thread may be making the seat. */
    if (!is_new || seat->busy) {
        ADD(&tracer->nested, 1);
        return DSPEC_BUSY;
    }
    dspec_tracer_reach_();
    seat->busy = true;
    __atomic_signal_fence(__ATOMIC_SEQ_CST);
    if (!has_token()) {
        seat_leave(seat);
        ADD(&tracer->refused_records, 1);
        consumer_stirs(tracer);
        return DSPEC_UNAVAILABLE;
    }
    attach(tracer, seat);
    return DSPEC_OK;
}
