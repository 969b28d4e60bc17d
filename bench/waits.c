/* waits.c: how long a thread that records waits beside the consumer: `waits FOLDER PATHS [ROW]`. Each row is a tracer in a folder of its own, and a thread that begins a path of three records each ten
 * microseconds, so many. A path's time is what its calls took together. The rows:
 *
 *   clock                 the control: no tracer is there, and the thread reads the clock as often. What it waits, the machine makes it wait
 *   thrown away, kept     beside rounds each millisecond
 *   beside flushes        a flush after another, so that the consumer has the lane as often as can be
 *   three threads         two further ones that make paths without a rest
 *
 * moved: paths in which the system took a thread of the process off its processor, since the path before began; they stand apart. slept: paths in which the thread waited by a nap. Then how many of the
 * others took 50 microseconds or more, the longest of them, and the longest of all. The last line counts how often the consumer of a tracer wakes that nobody records with. tools/waits runs it. */
#define _GNU_SOURCE
#include "dspec_tracer.h"

#include <pthread.h>
#include <stdio.h>
#include <stdlib.h>
#include <string.h>
#include <sys/resource.h>
#include <unistd.h>

DSPEC_PROBE(step, uint32_t, request, uint32_t, number, uint64_t, value);

enum { RECORDS = 3, LONG_NS = 50000, EACH_NS = 10000, IDLE_S = 2 };

/* kept: of so many paths one is, or with 0 none. */
typedef struct way {
    const char *name;
    bool has_tracer, flushes;
    uint32_t kept, others;
    dspec_tracer_options options;
} way;

static const way ways[] = {
    { "clock", false, false, 0, 0, { .period_ms = 1 } },
    { "thrown away", true, false, 0, 0, { .period_ms = 1 } },
    { "kept", true, false, 1, 0, { .period_ms = 1 } },
    { "kept, buffers of 4,096 bytes", true, false, 1, 0, { .bufsize = 4096, .period_ms = 1 } },
    { "one of ten kept, three threads", true, false, 10, 2, { .period_ms = 1 } },
    { "beside flushes", true, true, 0, 0, { .period_ms = 1 } },
    { "kept beside flushes", true, true, 1, 0, { .period_ms = 1 } },
    { "three threads on one lane, flushes", true, true, 10, 2, { .lanes = 1, .period_ms = 1 } },
};

typedef struct found {
    uint64_t moved, slept, over, longest, longest_moved;
} found;

static dspec_tracer tracer;
static uint64_t paths;
static uint32_t is_over;

static void path_of(uint32_t request, bool keeps) {
    dspec_path path = dspec_path_begin(&tracer);
    for (uint32_t i = 0; i < RECORDS; i++) step_in(&path, request, i, i);
    keeps ? dspec_path_keep(&path) : dspec_path_drop(&path);
}

static void clock_of(uint32_t request) {
    for (uint32_t i = 0; i < RECORDS + 2; i++) (void)dspec_tracer_now();
    (void)request;
}

static struct rusage used(int whose) {
    struct rusage is;
    getrusage(whose, &is);
    return is;
}

/* Who holds the lane may have been taken off its processor in front of the path, so that a look reaches back to the begin of the path before. */
static void work(const way *of, found *sum) {
    long before = used(RUSAGE_SELF).ru_nivcsw;
    uint64_t next = dspec_tracer_now();
    for (uint32_t i = 0; i < paths; i++, next += EACH_NS) {
        long turns, naps;
        uint64_t began, took;
        bool is_moved;
        while (dspec_tracer_now() < next) continue;
        if (dspec_tracer_now() - next > 100 * EACH_NS) next = dspec_tracer_now(); /* it was off its processor */
        turns = used(RUSAGE_SELF).ru_nivcsw;
        naps = used(RUSAGE_THREAD).ru_nvcsw;
        began = dspec_tracer_now();
        if (of->has_tracer) path_of(i, of->kept > 0 && i % of->kept == 0);
        else clock_of(i);
        took = dspec_tracer_now() - began;
        is_moved = used(RUSAGE_SELF).ru_nivcsw != before;
        before = turns;
        sum->slept += used(RUSAGE_THREAD).ru_nvcsw != naps;
        sum->moved += is_moved;
        if (took > sum->longest_moved) sum->longest_moved = took;
        if (is_moved) continue;
        sum->over += took >= LONG_NS;
        if (took > sum->longest) sum->longest = took;
    }
}

static void *works(void *of) {
    for (uint32_t i = 0; !__atomic_load_n(&is_over, __ATOMIC_RELAXED); i++) path_of(i, ((const way *)of)->kept > 0 && i % ((const way *)of)->kept == 0);
    return NULL;
}

static void *flushes(void *unused) {
    while (!__atomic_load_n(&is_over, __ATOMIC_RELAXED)) dspec_tracer_flush(&tracer, 1000);
    return unused;
}

static void play(const way *of, const char *folder) {
    found sum = { 0 };
    pthread_t others[8];
    uint32_t count = 0;
    if (of->has_tracer && !dspec_tracer_start(&tracer, folder, &of->options, DSPEC_PROBES(step))) {
        fprintf(stderr, "waits: %s\n", tracer.why);
        exit(1);
    }
    is_over = 0;
    for (uint32_t i = 0; i < of->others; i++) count += pthread_create(&others[count], NULL, works, (void *)(uintptr_t)of) == 0;
    if (of->flushes) count += pthread_create(&others[count], NULL, flushes, NULL) == 0;
    work(of, &sum);
    __atomic_store_n(&is_over, 1, __ATOMIC_RELAXED);
    while (count > 0) pthread_join(others[--count], NULL);
    printf("%-36s %8llu %7llu %7llu %7llu %9.1f %11.1f\n", of->name, (unsigned long long)paths, (unsigned long long)sum.moved, (unsigned long long)sum.slept, (unsigned long long)sum.over,
           (double)sum.longest / 1000, (double)sum.longest_moved / 1000);
    fflush(stdout);
    if (of->has_tracer) dspec_tracer_drop(&tracer);
}

/* How often the threads of a process wake in a second in which nobody records. */
static void idle(const char *folder) {
    struct rusage before, after;
    if (!dspec_tracer_start(&tracer, folder, NULL, DSPEC_PROBES(step))) exit(1);
    path_of(0, true);
    dspec_tracer_flush(&tracer, 1000);
    getrusage(RUSAGE_SELF, &before);
    sleep(IDLE_S);
    getrusage(RUSAGE_SELF, &after);
    printf("idle: %ld wakeups a second\n", (after.ru_nvcsw - before.ru_nvcsw - 1) / IDLE_S);
    dspec_tracer_drop(&tracer);
}

int main(int argc, char **argv) {
    char folder[4096];
    paths = argc > 2 ? strtoull(argv[2], NULL, 10) : 100000;
    if (argc < 2) return 2;
    printf("%-36s %8s %7s %7s %7s %9s %11s\n", "", "paths", "moved", "slept", "50 us", "longest", "of all");
    for (size_t i = 0; i < sizeof ways / sizeof *ways; i++) {
        if (argc > 3 && strcmp(argv[3], ways[i].name) != 0) continue;
        snprintf(folder, sizeof folder, "%s/%zu", argv[1], i);
        play(&ways[i], folder);
    }
    snprintf(folder, sizeof folder, "%s/idle", argv[1]);
    idle(folder);
    return 0;
}
