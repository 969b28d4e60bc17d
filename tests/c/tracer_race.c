/* The lanes' locks of a tracer, raced: `tracer_race FOLDER SEED [OPTION=NUMBER ..]`. Eight threads share two lanes while a signal's handler yields, spins or
 * sleeps inside their calls; where the processor can step, some calls are interrupted after each of their instructions. Paths go from thread to thread, and
 * a thread flushes meanwhile. With alone=1 each thread has a lane of its own, takes no lock, makes plain records inside its paths too, and steps half of its
 * requests, while another thread flushes all the time: then the consumer comes to lanes whose threads are in a call. With records=1 the threads make plain
 * records, many in a row, and a path now and then. With forbidden=1 the system refuses membarrier(2) from some time on. Printed are the records of each kept path
 * that were made, as bits, and what the stop tells; tests/c/tracer compares both with the trace. */
#define _GNU_SOURCE
#include "dspec_tracer.h"
#include "dice.h"
#include "forbid.h"

#include <inttypes.h>
#include <pthread.h>
#include <sched.h>
#include <signal.h>
#include <stdatomic.h>
#include <stdio.h>
#include <stdlib.h>
#include <string.h>
#include <unistd.h>

DSPEC_PROBE(query, uint64_t, request, uint32_t, step);
DSPEC_PROBE(tick, uint64_t, number);

enum { THREADS = 8, REQUESTS = 150, REQUESTS_ALONE = 30, STEPS = 5, BURSTS = 60, MOST_IN_A_BURST = 200, NUMBERS = 1 << 20 };

/* A path, and which of its records were answered DSPEC_OK, a bit each: one that waited too long for its lane is refused, and the next may be made. */
typedef struct request {
    dspec_path path;
    uint64_t number;
    uint32_t made;
} request;

static dspec_tracer tracer;
static pthread_t threads[THREADS];
static pthread_mutex_t desk = PTHREAD_MUTEX_INITIALIZER, out = PTHREAD_MUTEX_INITIALIZER;
static request waiting;
static bool one_waits;
static atomic_int running = THREADS;
static _Atomic uint64_t ticks, refused;
static uint64_t seed;
static bool alone, in_bursts, is_forbidden;
static _Thread_local dice interrupted;

static void on_interrupt(int signal) {
    (void)signal;
    switch (below(&interrupted, 5)) {
    case 0:
    case 1: sched_yield(); break;
    case 2: usleep(below(&interrupted, 60)); break;
    case 3: for (volatile int i = 0; i < 3000; i++) {} break;
    default: break;
    }
}

static void on_step(int signal) {
    (void)signal;
    if (!one_in(&interrupted, 48)) return;
    if (one_in(&interrupted, 6)) usleep(below(&interrupted, 40));
    else sched_yield();
}

/* From here on, or no longer, the processor traps after each instruction. ThreadSanitizer blocks that signal in its own code, where it would end the process. */
static inline void step(bool is_on) {
#if defined(__x86_64__) && !defined(__SANITIZE_THREAD__)
    if (is_on) __asm__ volatile("pushfq\n\torq $0x100, (%%rsp)\n\tpopfq" ::: "memory", "cc");
    else __asm__ volatile("pushfq\n\tandq $~0x100, (%%rsp)\n\tpopfq" ::: "memory", "cc");
#else
    (void)is_on;
#endif
}

static void record(request *r, uint32_t at, dice *d) {
    const bool steps = one_in(d, 24);
    if (steps) step(true);
    const dspec_status status = query_in(&r->path, r->number, at);
    if (steps) step(false);
    if (status == DSPEC_OK) r->made |= 1u << at;
    else atomic_fetch_add(&refused, 1);
}

/* The path is left for another thread, and one that was left there is taken on. */
static void exchange(request *r) {
    pthread_mutex_lock(&desk);
    const request other = waiting;
    waiting = *r;
    if (one_waits) *r = other;
    else r->number = UINT64_MAX;
    one_waits = true;
    pthread_mutex_unlock(&desk);
}

static void end(request *r, dice *d) {
    const bool steps = one_in(d, 24);
    if (r->number % 3 == 0) {
        if (steps) step(true);
        const bool is_kept = dspec_path_keep(&r->path);
        if (steps) step(false);
        pthread_mutex_lock(&out);
        if (r->made > 0) printf("%s %" PRIu64 " %u\n", is_kept ? "kept" : "lost", r->number, r->made);
        pthread_mutex_unlock(&out);
    } else {
        if (steps) step(true);
        dspec_path_drop(&r->path);
        if (steps) step(false);
    }
}

static void plain(uint64_t number) {
    if (tick_now(&tracer, number) == DSPEC_OK) atomic_fetch_add(&ticks, 1);
    else atomic_fetch_add(&refused, 1);
}

/* A request on a lane of the thread's own, with plain records among the path's. */
static void serve_alone(uint64_t number, dice *d) {
    request r = { dspec_path_begin(&tracer), number, 0 };
    const bool steps = one_in(d, 2);
    for (uint32_t at = 0; at < STEPS; at++) {
        if (steps) step(true);
        if (query_in(&r.path, number, at) == DSPEC_OK) r.made |= 1u << at;
        plain(number);
        if (steps) step(false);
    }
    end(&r, d);
}

/* A request that may go on in another thread. */
static void serve(uint64_t number, dice *d) {
    request r = { dspec_path_begin(&tracer), number, 0 };
    uint32_t at = 0;
    for (; at < 2; at++) record(&r, at, d);
    if (one_in(d, 3)) exchange(&r);
    if (r.number != UINT64_MAX) {
        for (; at < STEPS; at++) record(&r, at, d);
        end(&r, d);
    }
    if (one_in(d, 4) && tick_now(&tracer, number) == DSPEC_OK) atomic_fetch_add(&ticks, 1);
}

/* Plain records, many in a row, each with a number of its own; and a path of one record now and then. */
static void serve_in_bursts(uint64_t thread, dice *d) {
    uint64_t number = thread * NUMBERS;
    for (uint64_t i = 0; i < BURSTS; i++) {
        const bool steps = one_in(d, 8);
        const uint64_t until = number + 1 + below(d, steps ? 3 : MOST_IN_A_BURST);
        if (steps) step(true);
        while (number < until) plain(number++);
        if (steps) step(false);
        if (!one_in(d, 4)) continue;
        request r = { dspec_path_begin(&tracer), i * THREADS + thread, 0 };
        for (uint32_t at = 0; at < STEPS; at++) record(&r, at, d);
        end(&r, d);
    }
}

static void *work(void *number) {
    const uint64_t thread = (uint64_t)(uintptr_t)number;
    dice d = { seed * 64 + thread };
    interrupted = (dice){ seed * 64 + 32 + thread };
    if (in_bursts) serve_in_bursts(thread, &d);
    for (uint64_t i = 0; !in_bursts && i < (alone ? REQUESTS_ALONE : REQUESTS); i++) {
        if (alone) serve_alone(i * THREADS + thread, &d);
        else serve(i * THREADS + thread, &d);
    }
    atomic_fetch_sub(&running, 1);
    return NULL;
}

int main(int count, char **words) {
    dspec_tracer_options options = { .lanes = 2, .period_ms = 1, .keep_ms = 1000 };
    if (count < 3) return 2;
    seed = strtoull(words[2], NULL, 10);
    for (int i = 3; i < count; i++) {
        if (strcmp(words[i], "no_membarrier=1") == 0) options.no_membarrier = true;
        else if (strcmp(words[i], "forbidden=1") == 0) is_forbidden = true;
        else if (strcmp(words[i], "alone=1") == 0) alone = true, options.lanes = THREADS;
        else if (strcmp(words[i], "records=1") == 0) in_bursts = true, options.bufsize = 1 << 20;
        else if (strcmp(words[i], "by_thread=1") == 0) options.by_thread = true;
        else if (strcmp(words[i], "keep_last=1") == 0) options.keep_last = true, options.paths = 31;
        else return 2;
    }
    struct sigaction interrupt = { .sa_handler = on_interrupt, .sa_flags = SA_RESTART }, trap = { .sa_handler = on_step, .sa_flags = SA_RESTART };
    sigaction(SIGUSR2, &interrupt, NULL);
    sigaction(SIGTRAP, &trap, NULL);
    if (!dspec_tracer_start(&tracer, words[1], &options, DSPEC_PROBES(query, tick))) {
        printf("%s\n", tracer.why);
        return 3;
    }
    for (uintptr_t i = 0; i < THREADS; i++) pthread_create(&threads[i], NULL, work, (void *)i);
    dice d = { seed };
    if (is_forbidden) forbid_barriers();
    while (atomic_load(&running) > 0) {
        pthread_kill(threads[below(&d, THREADS)], SIGUSR2);
        if (alone || one_in(&d, 200)) dspec_tracer_flush(&tracer, 1);
        if (alone) usleep(2000 + below(&d, 4000));
        else if (one_in(&d, 3)) usleep(below(&d, 50));
    }
    for (size_t i = 0; i < THREADS; i++) pthread_join(threads[i], NULL);
    dspec_tracer_report report;
    const bool is_whole = dspec_tracer_stop(&tracer, &report);
    printf("whole=%d accepted=%" PRIu64 " dropped=%" PRIu64 " specdropped=%" PRIu64 " lost=%" PRIu64 " discarded=%" PRIu64 " void=%" PRIu64 " kept=%" PRIu64
           " undecided=%" PRIu64 " no_slot=%" PRIu64 " nested=%" PRIu64 " waited=%" PRIu64 " stuck=%" PRIu64 " ticks=%" PRIu64 " not_ok=%" PRIu64 "\n",
           is_whole, report.accepted, report.dropped, report.specdropped, report.lost, report.discarded, report.void_, report.kept, report.undecided, report.no_slot,
           report.nested, report.waited, report.stuck_lanes, atomic_load(&ticks), atomic_load(&refused));
    return 0;
}
