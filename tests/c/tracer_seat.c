/* What a thread has in a tracer. `tracer_seat FOLDER steps`: a signal's handler comes after each of the first instructions of a record, and begins a path of its own or ends it. The thread isn't in
 * the tracer there, so its record is made all the same. Then it comes after each second instruction of a path's first record, and makes a record in no path: the lane that has the path is in use after that. This
 * needs a processor that traps after each instruction. `tracer_seat FOLDER tokens`, over a library that has so many numbers for threads as
 * TOKENS says: threads after these are refused, and counted. The last line counts the checks. */
#define _GNU_SOURCE
#include "dspec/tracer_record.h"

#include "check.h"

#include <pthread.h>
#include <signal.h>
#include <ucontext.h>

#ifndef TOKENS
#define TOKENS 1000
#endif

DSPEC_PROBE(query, uint64_t, request, uint32_t, step);
DSPEC_PROBE(tick, uint64_t, number);

enum { MOST = 300, MOST_OF_A_BEGIN = 5000, PATHS_BEFORE = 200 };
/* What the handler does with its path; or it makes a record in none. */
typedef enum deed { BEGINS, ENDS, BEGINS_AND_ENDS, RECORDS } deed;

static dspec_tracer tracer;
static dspec_path handlers; /* the handler's path */
static deed due;
static int at, wanted; /* instructions: how many there were, and after which one the handler acts */
static bool was_refused;

/* From here on, or no longer, the processor traps after each instruction. */
static inline void step(bool is_on) {
#if defined(__x86_64__)
    if (is_on) __asm__ volatile("pushfq\n\torq $0x100, (%%rsp)\n\tpopfq" ::: "memory", "cc");
    else __asm__ volatile("pushfq\n\tandq $~0x100, (%%rsp)\n\tpopfq" ::: "memory", "cc");
#else
    (void)is_on;
#endif
}

static void no_more_steps(ucontext_t *context) {
#if defined(__x86_64__)
    context->uc_mcontext.gregs[REG_EFL] &= ~0x100;
#else
    (void)context;
#endif
}

static void on_step(int signal, siginfo_t *info, void *context) {
    (void)signal, (void)info;
    if (++at != wanted) return;
    no_more_steps(context);
    if (due == RECORDS) {
        tick_now(&tracer, 5);
        return;
    }
    if (due != ENDS) was_refused = query_in(&handlers, 1, 0) != DSPEC_OK;
    if (due != BEGINS) was_refused = !dspec_path_drop(&handlers);
}

/* A record in a path that begins with it, or in none, before a path of the same thread. */
static dspec_status records(bool in_path) {
    dspec_path path = dspec_path_begin(&tracer);
    dspec_status status;
    at = 0;
    step(true);
    status = in_path ? query_in(&path, 2, 0) : tick_now(&tracer, 3);
    step(false);
    if (!in_path) CHECK(query_in(&path, 4, 0) == DSPEC_OK && query_in(&path, 4, 1) == DSPEC_OK);
    CHECK(dspec_path_drop(&path));
    return status;
}

/* The handler comes after each instruction in turn, until it finds the thread in the tracer: how often it came before that. */
static int comes_anywhere(bool in_path, deed what) {
    int count = 0;
    for (due = what, wanted = 1; wanted < MOST; wanted++, count++) {
        dspec_status status;
        handlers = dspec_path_begin(&tracer);
        if (what == ENDS) query_in(&handlers, 1, 0);
        was_refused = false;
        status = records(in_path);
        if (!CHECK(was_refused || at < wanted || status == DSPEC_OK)) printf("after instruction %d (in a path: %d, deed %d): %s\n", wanted, in_path, what, dspec_status_text(status));
        dspec_path_drop(&handlers);
        if (was_refused || at < wanted) break;
    }
    return count;
}

/* Whether a path's lane is its thread's own, and nobody takes it over. */
static bool is_in_use(const dspec_path *path) {
    const dspec_tracer_seat *seat = dspec_tracer_seat_of_(&tracer);
    return seat->own == path->lane && (seat->kept == 0 || *dspec_tracer_flag_(path->lane, seat->kept) == DSPEC_TRACER_IN_USE_);
}

/* On a lane that the thread keeps, also where the consumer has found that empty. */
static void stays_in_use(bool is_idle) {
    enum { IDLE = 8 }; /* of a lane's state */
    const dspec_tracer_seat *seat = dspec_tracer_seat_of_(&tracer);
    for (int i = 0; i < PATHS_BEFORE; i++) {
        dspec_path path = dspec_path_begin(&tracer);
        CHECK(query_in(&path, 2, 0) == DSPEC_OK && dspec_path_drop(&path));
    }
    at = wanted = 1;
    for (due = RECORDS; at == wanted && wanted < MOST_OF_A_BEGIN;) {
        dspec_path path = dspec_path_begin(&tracer);
        dspec_status status;
        CHECK(seat->kept != 0);
        if (is_idle) __atomic_fetch_or(&seat->last->state, IDLE, __ATOMIC_SEQ_CST);
        wanted += 2;
        at = 0;
        step(true);
        status = query_in(&path, 2, 0);
        step(false);
        if (!CHECK(status == DSPEC_OK && is_in_use(&path))) printf("a record after instruction %d of a path's begin (idle: %d): %s, in use %d\n", wanted, is_idle, dspec_status_text(status), is_in_use(&path));
        CHECK(dspec_path_drop(&path));
    }
    CHECK(wanted > MOST && wanted < MOST_OF_A_BEGIN);
}

static void steps(void) {
#if defined(__x86_64__)
    struct sigaction action = { .sa_flags = SA_SIGINFO };
    action.sa_sigaction = on_step;
    sigaction(SIGTRAP, &action, NULL);
    tick_now(&tracer, 0);
    for (int in_path = 0; in_path < 2; in_path++)
        for (int what = BEGINS; what <= BEGINS_AND_ENDS; what++) CHECK(comes_anywhere(in_path, (deed)what) > 10);
    stays_in_use(false);
    stays_in_use(true);
#else
    printf("left out: how this processor traps after an instruction isn't known here\n");
    CHECK(true);
#endif
}

/* A thread's record in no path, and a path of it: whether both are made. */
static void *records_both(void *made) {
    dspec_path path = dspec_path_begin(&tracer);
    const bool is_out = tick_now(&tracer, 1) == DSPEC_OK, is_in = query_in(&path, 1, 0) == DSPEC_OK, is_kept = dspec_path_keep(&path);
    if (CHECK(is_out == is_in && is_in == is_kept)) *(bool *)made = is_out;
    return NULL;
}

enum { REFUSED = 3 };

/* One thread after another. */
static void gives_tokens(void) {
    for (int number = 1; number <= TOKENS + REFUSED; number++) {
        pthread_t thread;
        bool made = false;
        if (!CHECK(pthread_create(&thread, NULL, records_both, &made) == 0)) return;
        pthread_join(thread, NULL);
        if (!CHECK(made == (number <= TOKENS))) printf("thread %d: made %d\n", number, made);
    }
}

int main(int words, char **word) {
    dspec_tracer_report report;
    bool is_tokens;
    if (words != 3) return 2;
    is_tokens = strcmp(word[2], "tokens") == 0;
    const dspec_tracer_options options = { .lanes = is_tokens ? 2 : 1, .period_ms = 100000 }; /* a lane that is lost leaves none */
    if (!dspec_tracer_start(&tracer, word[1], &options, DSPEC_PROBES(query, tick))) {
        printf("%s\n0 passed, 1 failed\n", tracer.why);
        return 1;
    }
    if (is_tokens) gives_tokens();
    else steps();
    CHECK(dspec_tracer_stop(&tracer, &report));
    CHECK(report.no_slot == 0 && report.waited == 0);
    if (is_tokens) CHECK(report.kept == TOKENS && report.refused_records == 2 * REFUSED && report.threads == TOKENS);
    return check_end();
}
