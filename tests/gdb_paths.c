/* A tracer for a debugger to look at: `gdb_paths FOLDER MODE [survive]`. Three threads have a path open, of 4, 5 and 6 records, with keys; with MODE `parked` each has parked one before. They say when
 * that is so, and wait. With MODE `busy` they make paths all the time instead, of records whose steps count from 0; with `none` there is no tracer. */
#define _GNU_SOURCE
#include "dspec_tracer.h"

#include <pthread.h>
#include <stdio.h>
#include <string.h>
#include <sys/prctl.h>
#include <unistd.h>

DSPEC_PROBE(query, uint64_t, request, uint32_t, step);

enum { THREADS = 3, KEY_HIGH = 7, PARKED = 100 };
static dspec_tracer tracer;
static pthread_barrier_t all_there;
static const char *mode;

static dspec_path path_of(uint64_t request, uint32_t records) {
    dspec_path path = dspec_path_begin(&tracer);
    for (uint32_t step = 0; step < records; step++) query_in(&path, request, step);
    dspec_path_key(&path, KEY_HIGH, request);
    return path;
}

static void *serve(void *number) {
    const uint64_t request = (uint64_t)(uintptr_t)number;
    char name[16];
    dspec_path path;
    snprintf(name, sizeof name, "worker-%d", (int)request);
    prctl(PR_SET_NAME, name);
    if (strcmp(mode, "parked") == 0) {
        path = path_of(PARKED + request, 2);
        dspec_path_park(&path);
    }
    if (strcmp(mode, "none") != 0) path = path_of(request, 3 + (uint32_t)request);
    pthread_barrier_wait(&all_there);
    for (uint64_t next = request; strcmp(mode, "busy") == 0; next += THREADS) {
        path = path_of(next, (uint32_t)(next % 20));
        dspec_path_drop(&path);
    }
    pause();
    return NULL;
}

int main(int argc, char **argv) {
    pthread_t threads[THREADS];
    if (argc < 3) return 2;
    mode = argv[2];
    const dspec_tracer_options options = { .lanes = 4, .park_bytes = strcmp(mode, "parked") == 0 ? 65536 : 0, .survive = argc > 3 };
    if (strcmp(mode, "none") != 0 && !dspec_tracer_start(&tracer, argv[1], &options, DSPEC_PROBES(query))) return fprintf(stderr, "gdb_paths: %s\n", tracer.why), 1;
    if (pthread_barrier_init(&all_there, NULL, THREADS + 1) != 0) return 1;
    for (uintptr_t i = 0; i < THREADS; i++)
        if (pthread_create(&threads[i], NULL, serve, (void *)(i + 1)) != 0) return 1;
    pthread_barrier_wait(&all_there);
    puts("ready");
    fflush(stdout);
    pause();
    return 0;
}
