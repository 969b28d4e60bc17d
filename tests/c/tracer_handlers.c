/* What tests/c/tracer_handlers plays and looks at: signals, cancelled threads, threads that end and children, over a tracer.
 *
 *     tracer_handlers FOLDER MODE */
#define _GNU_SOURCE
#include "dspec_tracer.h"
#include "../../tracer/paths.h"

#include <errno.h>
#include <pthread.h>
#include <setjmp.h>
#include <signal.h>
#include <stdatomic.h>
#include <stdio.h>
#include <stdlib.h>
#include <sys/syscall.h>
#include <sys/wait.h>
#include <unistd.h>

DSPEC_PROBE(step, uint32_t, request, uint32_t, number);

enum { MANY = 40, LEAST_OF_A_FILE = 1024 };

static dspec_tracer tracer;
static dspec_tracer_options options = { .crash_ms = 60000 };
static const char *folder;
static int *volatile nowhere;
static _Atomic int arrived, over;
static pthread_barrier_t all_are_there;

static void needs(bool is_well, const char *what) {
    if (is_well) return;
    fprintf(stderr, "%s\n", what);
    exit(9);
}

static void begin(void) { needs(dspec_tracer_start(&tracer, folder, &options, DSPEC_PROBES(step)), tracer.why); }

static int end(void) {
    dspec_tracer_report r;
    const bool whole = dspec_tracer_stop(&tracer, &r);
    printf("whole=%d kept=%llu thrown=%llu crash_paths=%llu nested=%llu stuck=%llu waited=%llu no_slot=%llu\n", whole, (unsigned long long)r.kept, (unsigned long long)r.thrown,
           (unsigned long long)r.crash_paths, (unsigned long long)r.nested, (unsigned long long)r.stuck_lanes, (unsigned long long)r.waited, (unsigned long long)r.no_slot);
    return 0;
}

/* ---- Many threads crash at once. ---- */

/* Each record on a disk that hangs waits until this is over. The linker's --wrap leads each write through here. */
static _Atomic bool hangs;
ssize_t __real_write(int file, const void *bytes, size_t len);
ssize_t __wrap_write(int file, const void *bytes, size_t len);

ssize_t __wrap_write(int file, const void *bytes, size_t len) {
    while (hangs && len >= LEAST_OF_A_FILE) usleep(1000);
    return __real_write(file, bytes, len);
}

static __thread sigjmp_buf back;

/* The last one that comes ends the process. */
static void wait_for_all(int signal) {
    (void)signal;
    if (atomic_fetch_add(&arrived, 1) + 1 == MANY) _exit(40);
    for (;;) usleep(1000);
}

static void go_back(int signal) {
    if (atomic_fetch_add(&arrived, 1) + 1 == MANY) hangs = false;
    siglongjmp(back, signal);
}

static void *crashes(void *number) {
    dspec_path path = dspec_path_begin(&tracer);
    needs(step_in(&path, (uint32_t)(uintptr_t)number, 0) == DSPEC_OK, "no record");
    pthread_barrier_wait(&all_are_there);
    if (sigsetjmp(back, 1) == 0) *nowhere = 1;
    dspec_path_drop(&path);
    return NULL;
}

static void run(size_t count, void *(*body)(void *)) {
    pthread_t threads[MANY];
    for (size_t i = 0; i < count; i++) needs(pthread_create(&threads[i], NULL, body, (void *)(i + 1)) == 0, "no thread");
    for (size_t i = 0; i < count; i++) pthread_join(threads[i], NULL);
}

static int mode_all(void) {
    signal(SIGSEGV, wait_for_all);
    pthread_barrier_init(&all_are_there, NULL, MANY);
    begin();
    run(MANY, crashes);
    return 9;
}

/* The disk hangs until the last handler has given up or has waited in vain. */
static int mode_in_vain(void) {
    signal(SIGSEGV, go_back);
    options.crash_ms = 300;
    pthread_barrier_init(&all_are_there, NULL, MANY);
    begin();
    hangs = true;
    run(MANY, crashes);
    return end();
}

/* Without a handler the process ends when the first one is saved and no other comes. */
static int mode_default(void) {
    pthread_barrier_init(&all_are_there, NULL, MANY);
    begin();
    run(MANY, crashes);
    return 9;
}

/* ---- A signal that another process sends. ---- */

static void note(int signal) { arrived = signal; }

static void *waits(void *number) {
    dspec_path path = dspec_path_begin(&tracer);
    step_in(&path, (uint32_t)(uintptr_t)number, 0);
    arrived++;
    while (!over) usleep(1000);
    dspec_path_drop(&path);
    return NULL;
}

/* Three threads are in a path each. */
static int be_sent(int signal) {
    pthread_t threads[3];
    begin();
    for (size_t i = 0; i < 3; i++) pthread_create(&threads[i], NULL, waits, (void *)(i + 1));
    while (arrived != 3) usleep(1000);
    const pid_t child = fork();
    if (child == 0) {
        kill(getppid(), signal);
        _exit(0);
    }
    printf("%d\n", child);
    fflush(stdout);
    waitpid(child, NULL, 0);
    while (arrived != signal) usleep(1000);
    over = 1;
    for (size_t i = 0; i < 3; i++) pthread_join(threads[i], NULL);
    dspec_path path = dspec_path_begin(&tracer);
    needs(step_in(&path, 4, 0) == DSPEC_OK && dspec_path_keep(&path), "the tracer isn't up");
    return end();
}

static int mode_abort(void) { return be_sent(SIGABRT); }

static int mode_term(void) { return be_sent(SIGTERM); }

static int mode_abort_handled(void) {
    signal(SIGABRT, note);
    return be_sent(SIGABRT);
}

/* ---- Threads that are cancelled. ---- */

/* Buffers that are full have it wake the consumer and wait for room, where the C library's calls would be points of cancellation. */
static void *records_for_ever(void *unused) {
    for (uint32_t i = 0;; i++) {
        dspec_path path = dspec_path_begin(&tracer);
        for (uint32_t k = 0; k < 10; k++) step_in(&path, i, k);
        dspec_path_keep(&path);
        pthread_testcancel();
    }
    return unused;
}

static int mode_cancel(void) {
    options = (dspec_tracer_options){ .lanes = 4, .paths = 8, .bufsize = 4096, .specsize = 1024, .keep_ms = 100 };
    begin();
    for (int i = 0; i < 30; i++) {
        pthread_t threads[4];
        for (int k = 0; k < 4; k++) needs(pthread_create(&threads[k], NULL, records_for_ever, NULL) == 0, "no thread");
        usleep(5000);
        for (int k = 0; k < 4; k++) pthread_cancel(threads[k]);
        for (int k = 0; k < 4; k++) pthread_join(threads[k], NULL);
    }
    needs(dspec_tracer_flush(&tracer, 60000), "no flush");
    for (uint32_t i = 0; i < 20; i++) {
        dspec_path path = dspec_path_begin(&tracer);
        needs(step_in(&path, 1000000 + i, 0) == DSPEC_OK && dspec_path_keep(&path), "a path is refused");
    }
    return end();
}

/* ---- A thread that ends while a handler of its records. ---- */

static dspec_path handed;
static __thread bool is_ending;
static _Atomic int answers[2][3], came;

/* The tracer throws away the paths of a thread that ends: the linker's --wrap leads that through here, and a signal comes. The shared object doesn't show that call. */
#ifndef SHARED
dspec_status __real_dspec_paths_discard(dspec_paths *paths, dspec_cpu *cpu, uint32_t place, uint64_t id);
dspec_status __wrap_dspec_paths_discard(dspec_paths *paths, dspec_cpu *cpu, uint32_t place, uint64_t id);

dspec_status __wrap_dspec_paths_discard(dspec_paths *paths, dspec_cpu *cpu, uint32_t place, uint64_t id) {
    if (is_ending && came < 2) raise(SIGUSR2);
    return __real_dspec_paths_discard(paths, cpu, place, id);
}
#endif

static void makes_path(int signal) {
    const int time = came++;
    (void)signal;
    dspec_path path = dspec_path_begin(&tracer);
    answers[time][0] = step_in(&path, 3, 0);
    dspec_path_drop(&path);
    answers[time][1] = step_in(&handed, 3, 1);
    answers[time][2] = step_now(&tracer, 3, 2);
}

/* The path was begun by another thread, on its lane, and is this one's when it ends. */
static void *takes_path(void *unused) {
    dspec_path path = dspec_path_begin(&tracer);
    needs(step_in(&path, 1, 0) == DSPEC_OK && step_in(&handed, 2, 0) == DSPEC_OK, "no record");
    is_ending = true;
    return unused;
}

static int mode_ends(void) {
    const struct sigaction action = { .sa_handler = makes_path };
    pthread_t ending;
    options = (dspec_tracer_options){ .lanes = 2, .paths = 63, .period_ms = 100000 };
    sigaction(SIGUSR2, &action, NULL);
    begin();
    dspec_path path = dspec_path_begin(&tracer);
    step_in(&path, 1, 0);
    handed = dspec_path_begin(&tracer);
    step_in(&handed, 1, 0);
    needs(pthread_create(&ending, NULL, takes_path, NULL) == 0, "no thread");
    pthread_join(ending, NULL);
    for (int time = 0; time < 2; time++) printf("answers %d %d %d\n", answers[time][0], answers[time][1], answers[time][2]);
    printf("held %u\n", __atomic_load_n(&path.lane->state, __ATOMIC_SEQ_CST) & DSPEC_TRACER_HELD_);
    needs(step_in(&path, 1, 1) == DSPEC_OK && dspec_path_keep(&path), "the lane isn't free");
    return end();
}

/* ---- Children that pthread_atfork isn't told of. ---- */

static int ended(pid_t child) {
    int status = 0;
    waitpid(child, &status, 0);
    return status;
}

/* What clone(2) makes where the C library isn't asked. */
static pid_t raw_fork(void) { return (pid_t)syscall(SYS_clone, SIGCHLD, 0, 0, 0, 0); }

static void play_children(void) {
    static dspec_tracer own;
    char where[4096];
    dspec_path path = dspec_path_begin(&tracer);
    step_in(&path, 7, 0);
    pid_t child = raw_fork();
    if (child == 0) exit(5);
    printf("exits %x\n", (unsigned)ended(child));
    child = raw_fork();
    if (child == 0) *nowhere = 1;
    printf("crashes %x\n", (unsigned)ended(child));
    child = raw_fork();
    if (child == 0) {
        snprintf(where, sizeof where, "%s.child", folder);
        if (!dspec_tracer_start(&own, where, &options, DSPEC_PROBES(step)) || step_now(&own, 9, 0) != DSPEC_OK) _exit(1);
        exit(dspec_tracer_stop(&own, NULL) ? 0 : 2);
    }
    printf("starts %x\n", (unsigned)ended(child));
    child = vfork();
    if (child == 0) *nowhere = 1;
    printf("crashes %x\n", (unsigned)ended(child));
    needs(step_in(&path, 7, 1) == DSPEC_OK && dspec_path_keep(&path), "the path is over");
    fflush(stdout);
}

static int mode_children(void) {
    setvbuf(stdout, NULL, _IONBF, 0);
    begin();
    play_children();
    return end();
}

static int mode_children_survive(void) {
    options.survive = true;
    return mode_children();
}

static void leave(int signal) {
    (void)signal;
    _exit(6);
}

static int mode_children_handled(void) {
    signal(SIGSEGV, leave);
    return mode_children();
}

/* ---- One that starts and stops. ---- */

static int mode_short(void) {
    begin();
    step_now(&tracer, 1, 0);
    return end();
}

static const struct {
    const char *name;
    int (*run)(void);
} modes[] = {
    { "all", mode_all }, { "in_vain", mode_in_vain }, { "default", mode_default }, { "abort", mode_abort }, { "term", mode_term }, { "abort_handled", mode_abort_handled },
    { "cancel", mode_cancel }, { "ends", mode_ends }, { "children", mode_children }, { "children_survive", mode_children_survive }, { "children_handled", mode_children_handled },
    { "short", mode_short },
};

int main(int argc, char **argv) {
    if (argc != 3) return 2;
    folder = argv[1];
    for (size_t i = 0; i < sizeof modes / sizeof modes[0]; i++)
        if (strcmp(modes[i].name, argv[2]) == 0) return modes[i].run();
    return 2;
}
