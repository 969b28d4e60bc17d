/* A program that has its tracer's system calls fail (fail_call.c): `failing FOLDER WAY` starts one, records, keeps and drops paths, flushes, and ends: by a stop, by a crash, or by SIGKILL. It prints what
 * each call answered, and what stayed after the end; tests/failing-calls compares that with the folder. `failing FOLDER salvage MEMORY` reads the memory that a killed one left.
 *
 * The linker's --wrap counts the blocks of memory. */
#define _GNU_SOURCE
#include "dspec_tracer.h"

#include <dirent.h>
#include <inttypes.h>
#include <pthread.h>
#include <signal.h>
#include <stdio.h>
#include <stdlib.h>
#include <string.h>
#include <sys/wait.h>
#include <unistd.h>

DSPEC_PROBE(query, uint64_t, request, uint32_t, step);

static dspec_tracer tracer;
static _Atomic long blocks;

void *__real_malloc(size_t bytes);
void *__real_calloc(size_t count, size_t bytes);
void *__real_realloc(void *held, size_t bytes);
void __real_free(void *held);
int __real_posix_memalign(void **held, size_t multiple, size_t bytes);
void *__wrap_malloc(size_t bytes);
void *__wrap_calloc(size_t count, size_t bytes);
void *__wrap_realloc(void *held, size_t bytes);
void __wrap_free(void *held);
int __wrap_posix_memalign(void **held, size_t multiple, size_t bytes);

static void *counted(void *held) {
    blocks += held != NULL;
    return held;
}

void *__wrap_malloc(size_t bytes) { return counted(__real_malloc(bytes)); }
void *__wrap_calloc(size_t count, size_t bytes) { return counted(__real_calloc(count, bytes)); }
void *__wrap_realloc(void *held, size_t bytes) {
    void *moved = __real_realloc(held, bytes);
    return held == NULL ? counted(moved) : moved;
}
void __wrap_free(void *held) {
    blocks -= held != NULL;
    __real_free(held);
}
int __wrap_posix_memalign(void **held, size_t multiple, size_t bytes) {
    const int code = __real_posix_memalign(held, multiple, bytes);
    blocks += code == 0;
    return code;
}

static int entries(const char *path) {
    DIR *folder = opendir(path);
    int found = 0;
    if (folder == NULL) return -1;
    while (readdir(folder) != NULL) found++;
    closedir(folder);
    return found;
}

/* How many threads there are; one that was joined may still be on its way out. */
static int threads_but(int others) {
    int found = entries("/proc/self/task") - others;
    for (int tries = 0; found > 0 && tries < 10000; tries++) {
        usleep(1000);
        found = entries("/proc/self/task") - others;
    }
    return found;
}

/* What stays of so many blocks, descriptors and threads, and whether there is a child that nobody has waited for. */
static void tell_what_stays(long held, int files, int tasks) {
    const bool has_child = waitpid(-1, NULL, WNOHANG) >= 0;
    printf("stays %ld blocks %d files %d threads %d children\n", blocks - held, entries("/proc/self/fd") - files, threads_but(tasks), has_child);
}

static void counts_begin(void) { close(-777); }
static void counts_end(void) { close(-778); }

/* A path of three records: how many were made, or with its end 10 more where that went well. */
static int path_of(uint64_t request, bool keep) {
    dspec_path path = dspec_path_begin(&tracer);
    int made = 0;
    for (uint32_t step = 0; step < 3; step++) made += query_in(&path, request, step) == DSPEC_OK;
    return made + ((keep ? dspec_path_keep(&path) : dspec_path_drop(&path)) ? 10 : 0);
}

static void *on_another_thread(void *made) {
    *(int *)made = path_of(2, true);
    return NULL;
}

static void serve(void) {
    pthread_t thread;
    int first, second = 0, dropped;
    first = path_of(1, true);
    dropped = path_of(100, false);
    if (pthread_create(&thread, NULL, on_another_thread, &second) == 0) pthread_join(thread, NULL);
    printf("kept 1 %d\nkept 2 %d\ndropped 100 %d\n", first, second, dropped);
    printf("alone %d\n", query_now(&tracer, 3, 0) == DSPEC_OK);
    printf("flushed %d\n", dspec_tracer_flush(&tracer, 2000));
    printf("kept 4 %d\n", path_of(4, true));
    fflush(stdout);
}

static void ends(void) {
    dspec_tracer_report report;
    const bool whole = dspec_tracer_stop(&tracer, &report);
    printf("whole %d accepted %" PRIu64 " own %" PRIu64 " not_written %" PRIu64 " dropped %" PRIu64 " gone %" PRIu64 " code %d why %s\n", whole, report.accepted, report.own, report.not_written,
           report.dropped + report.lost, report.gone_records, report.code, report.why);
}

static void crashes(void) {
    dspec_path path = dspec_path_begin(&tracer);
    for (uint32_t step = 0; step < 3; step++) query_in(&path, 5, step);
    printf("crashes\n");
    fflush(stdout);
    raise(SIGSEGV);
}

static int salvages(const char *folder, const char *memory) {
    static dspec_salvaged told;
    const long held = blocks;
    const int files = entries("/proc/self/fd"), tasks = entries("/proc/self/task");
    counts_begin();
    const bool is_whole = dspec_salvage(memory, folder, &told);
    counts_end();
    printf("whole %d unreadable %u why %s\n", is_whole, told.unreadable, told.why);
    tell_what_stays(held, files, tasks);
    return 0;
}

int main(int argc, char **argv) {
    const char *way = argc > 2 ? argv[2] : "";
    dspec_tracer_options options = { .lanes = 2, .period_ms = 2, .survive = strcmp(way, "survive") == 0 || strcmp(way, "kill") == 0 };
    if (argc < 3) return 2;
    if (strcmp(way, "salvage") == 0 && argc > 3) return salvages(argv[1], argv[3]);
    if (strcmp(way, "bound") == 0) options.max_bytes = 100000;
    const long held = blocks;
    const int files = entries("/proc/self/fd"), tasks = entries("/proc/self/task");
    counts_begin();
    const bool started = dspec_tracer_start(&tracer, argv[1], &options, DSPEC_PROBES(query));
    printf("started %d %s\n", started, tracer.why);
    if (started) {
        serve();
        if (strcmp(way, "crash") == 0) crashes();
        if (strcmp(way, "kill") == 0) kill(getpid(), SIGKILL);
        ends();
    }
    dspec_tracer_drop(&tracer);
    counts_end();
    tell_what_stays(held, files, tasks);
    return 0;
}
