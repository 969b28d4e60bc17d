/* What tests/c/tracer plays and looks at: a made-up server over a tracer, which crashes, is killed, forks, or ends in some way.
 *
 *     tracer FOLDER MODE [WORD ..] [OPTION=NUMBER ..]
 *
 * A request has five records; one in a hundred is kept. What stop tells is printed in a line. */
#define _GNU_SOURCE
#include "dspec_tracer.h"

#include <fcntl.h>
#include <inttypes.h>
#include <pthread.h>
#include <semaphore.h>
#include <setjmp.h>
#include <signal.h>
#include <stdatomic.h>
#include <stdio.h>
#include <stdlib.h>
#include <sys/mman.h>
#include <sys/resource.h>
#include <sys/time.h>
#include <sys/wait.h>
#include <unistd.h>

DSPEC_PROBE(query, uint64_t, request, uint32_t, step);
DSPEC_PROBE(tick, uint64_t, number);

enum { STEPS = 5, CRASH_STEP = 3, MOST_THREADS = 1000 };

static dspec_tracer tracer;
static dspec_tracer_options options = { .crash_ms = 5000 }; /* the machine may have much else to do */
static const char *folder;
static _Atomic uint64_t requests;
static _Atomic bool goes_on = true;
static size_t number = 8;
static pthread_t threads[MOST_THREADS];
static int *volatile nowhere;
static volatile int zero, endless = 1 << 30;

/* Of a crash. */
static const char *kind = "";
static uint64_t crash_at = UINT64_MAX;
static bool storm;
static uint64_t crashed_at;

/* How many paths were kept, where a file is named for it: it outlives the process. */
/* How many paths a keep answered, and after that the request of each. */
enum { MOST_TOLD = 131072 };
static _Atomic uint64_t *told;

static bool is(const char *one, const char *other) { return strcmp(one, other) == 0; }

static void fail(const char *what) {
    printf("%s\n", what);
    exit(3);
}

/* ---- Crashes. ---- */

__attribute__((noinline)) static int deep(int at) {
    volatile char room[512];
    room[at % 512] = (char)at;
    return at < endless ? deep(at + 1) + room[(at * 7) % 512] : 0;
}

/* A recursion with a path at each level, which takes more of the stack than the level, so that the stack would end in the middle of the tracer. */
__attribute__((noinline)) static int deep_recording(dspec_path *path, uint64_t request, int at) {
    volatile char room[512];
    room[at % 512] = (char)at;
    if (at < 60) {
        query_in(path, request, CRASH_STEP);
    } else {
        dspec_path inner = dspec_path_begin(&tracer);
        query_in(&inner, request, CRASH_STEP);
        dspec_path_drop(&inner);
    }
    return at < endless ? deep_recording(path, request, at + 1) + room[(at * 7) % 512] : 0;
}

/* malloc's own abort, of a heap that was written over, in the middle of its lock. */
static void smash_heap(void) {
    char *volatile one = malloc(2000), *other = malloc(2000), *third = malloc(2000);
    memset(one, 0x41, 2000 + (size_t)zero + 64);
    free(other);
    free(one);
    free(third);
    for (size_t i = 0; i < 100; i++) free(malloc(3000 + 100 * i));
    abort();
}

static void crash(dspec_path *path, uint64_t request) {
    char line[64];
    int len = snprintf(line, sizeof line, "crash %" PRIu64 "\n", request);
    crashed_at = dspec_tracer_now();
    if (write(1, line, (size_t)len) != len) _exit(9);
    if (is(kind, "segv")) *nowhere = 1;
    if (is(kind, "fpe")) zero = 100 / zero;
    if (is(kind, "ill")) __builtin_trap();
    if (is(kind, "bus")) raise(SIGBUS);
    if (is(kind, "stack")) zero = deep(0);
    if (is(kind, "recording")) zero = deep_recording(path, request, 0);
    if (is(kind, "heap")) smash_heap();
    abort();
}

/* ---- The server. ---- */

static void spin(unsigned count) {
    for (volatile unsigned i = 0; i < count; i++) {}
}

static void one_request(uint64_t request) {
    dspec_path path = dspec_path_begin(&tracer);
    for (uint32_t step = 0; step < STEPS; step++) {
        if (step == CRASH_STEP && (request == crash_at || (storm && request > crash_at))) crash(&path, request);
        query_in(&path, request, step);
        spin(50);
    }
    if (request % 100 != 13) {
        dspec_path_drop(&path);
    } else if (dspec_path_keep(&path) && told != NULL) {
        const uint64_t at = atomic_fetch_add(told, 1) + 1;
        if (at < MOST_TOLD) told[at] = request;
    }
}

static void *serve(void *unused) {
    while (atomic_load_explicit(&goes_on, memory_order_relaxed)) one_request(atomic_fetch_add(&requests, 1) + 1);
    return unused;
}

static void *serve_once(void *unused) {
    one_request(atomic_fetch_add(&requests, 1) + 1);
    return unused;
}

static void start_in(dspec_tracer *one, const char *where) {
    if (!dspec_tracer_start(one, where, &options, DSPEC_PROBES(query, tick))) fail(one->why);
}

static void begin(void) { start_in(&tracer, folder); }

static void run_threads(size_t count, void *(*body)(void *)) {
    for (size_t i = 0; i < count; i++)
        if (pthread_create(&threads[i], NULL, body, NULL) != 0) fail("no thread is made");
}

static void join_threads(size_t count) {
    for (size_t i = 0; i < count; i++) pthread_join(threads[i], NULL);
}

static int end(dspec_tracer *one) {
    dspec_tracer_report r;
    bool whole = dspec_tracer_stop(one, &r);
    printf("whole=%d accepted=%" PRIu64 " dropped=%" PRIu64 " specdropped=%" PRIu64 " lost=%" PRIu64 " discarded=%" PRIu64 " void=%" PRIu64 " refused=%" PRIu64, whole, r.accepted,
           r.dropped, r.specdropped, r.lost, r.discarded, r.void_, r.refused);
    printf(" kept=%" PRIu64 " thrown=%" PRIu64 " undecided=%" PRIu64 " crash_paths=%" PRIu64 " no_slot=%" PRIu64 " nested=%" PRIu64 " late=%" PRIu64 " waited=%" PRIu64, r.kept, r.thrown,
           r.undecided, r.crash_paths, r.no_slot, r.nested, r.late, r.waited);
    printf(" threads=%" PRIu64 " stuck=%" PRIu64 " not_written=%" PRIu64 " own=%" PRIu64 " cut=%" PRIu64 " cut_records=%" PRIu64 " gone=%" PRIu64 " gone_folders=%" PRIu64, r.threads, r.stuck_lanes,
           r.not_written, r.own, r.cut, r.cut_records, r.gone_records, r.gone_folders);
    printf(" requests=%" PRIu64 " why=%s\n", (uint64_t)requests, r.why);
    return whole ? 0 : 4;
}

/* A disk that hangs: the linker's --wrap leads each write through here, and those of files wait from then on. */
static _Atomic bool hangs;
ssize_t __real_write(int file, const void *bytes, size_t len);
ssize_t __wrap_write(int file, const void *bytes, size_t len);

ssize_t __wrap_write(int file, const void *bytes, size_t len) {
    while (hangs && len >= 1024) sleep(1000);
    return __real_write(file, bytes, len);
}

/* ---- Modes. ---- */

/* Four threads, until one of them crashes or somebody ends the process. */
static int mode_serve(void) {
    begin();
    run_threads(4, serve);
    join_threads(4);
    return 2;
}

static int mode_main(void) {
    begin();
    serve(NULL);
    return 2;
}

/* A keep that waits for room on a disk that hangs waits keep_ms, and its records are lost then. */
static int mode_patient(void) {
    begin();
    hangs = true;
    for (;;) {
        uint64_t began;
        dspec_path path = dspec_path_begin(&tracer);
        for (uint32_t step = 0; step < STEPS; step++) query_in(&path, 13, step);
        began = dspec_tracer_now();
        if (dspec_path_keep(&path)) continue;
        printf("waited=%" PRIu64 "\n", (dspec_tracer_now() - began) / 1000000);
        fflush(stdout);
        _exit(0);
    }
}

/* A crash beside a disk that hangs ends the process all the same. */
static int mode_hang(void) {
    begin();
    one_request(13);
    hangs = true;
    serve(NULL);
    return 2;
}

static int mode_churn(void) {
    begin();
    for (size_t made = 0; made < 1000; made += number) {
        run_threads(number, serve_once);
        join_threads(number);
    }
    return end(&tracer);
}

/* A thread that ends with a path undecided, which is nobody's then. */
static void *leaves_path(void *unused) {
    dspec_path path = dspec_path_begin(&tracer);
    query_in(&path, 1, 0);
    return unused;
}

static dspec_path left;

static void *leaves_it_to_main(void *unused) {
    left = dspec_path_begin(&tracer);
    query_in(&left, 1, 0);
    return unused;
}

/* Such a path that another thread knows: it is over, and the lane is as it was. */
static void find_left(void) {
    run_threads(1, leaves_it_to_main);
    join_threads(1);
    if (query_in(&left, 1, 1) != DSPEC_VOID || dspec_path_keep(&left) || dspec_path_drop(&left)) fail("a path whose thread has ended goes on");
}

static int mode_left(void) {
    begin();
    for (int i = 0; i < 10; i++) find_left();
    for (size_t made = 0; made < 200; made += number) {
        run_threads(number, leaves_path);
        join_threads(number);
    }
    return end(&tracer);
}

static void *crowded(void *unused) {
    for (int i = 0; i < 100; i++) {
        one_request(atomic_fetch_add(&requests, 1) + 1);
        usleep(500);
    }
    return unused;
}

static void *waiting(void *unused) {
    for (int i = 0; i < 50; i++) {
        uint64_t request = atomic_fetch_add(&requests, 1) + 1;
        dspec_path path = dspec_path_begin(&tracer);
        query_in(&path, request, 0);
        usleep(500);
        if (request % 100 == 13) for (uint32_t step = 1; step < STEPS; step++) query_in(&path, request, step);
        request % 100 == 13 ? dspec_path_keep(&path) : dspec_path_drop(&path);
        usleep(2000);
    }
    return unused;
}

static int run_all(void *(*body)(void *)) {
    begin();
    run_threads(number, body);
    join_threads(number);
    return end(&tracer);
}

static int mode_crowd(void) { return run_all(crowded); }
static int mode_waiting(void) { return run_all(waiting); }

static void *sleeper(void *unused) {
    dspec_path path = dspec_path_begin(&tracer);
    query_in(&path, 1, 0);
    dspec_path_drop(&path);
    sleep(1000);
    return unused;
}

/* Paths that go over two threads, by turns. */
static dspec_path passed;
static sem_t there, here;

static void *other_half(void *unused) {
    while (sem_wait(&there) == 0 && goes_on) {
        query_in(&passed, 1, 1);
        sem_post(&here);
    }
    return unused;
}

static int mode_sleep(void) {
    sem_init(&there, 0, 0);
    sem_init(&here, 0, 0);
    begin();
    run_threads(3, sleeper);
    pthread_create(&threads[3], NULL, other_half, NULL);
    for (uint32_t i = 0; i < 1000; i++) {
        passed = dspec_path_begin(&tracer);
        query_in(&passed, 1, 0);
        sem_post(&there);
        sem_wait(&here);
        if (query_in(&passed, 1, 2) == DSPEC_OK) requests++;
        dspec_path_drop(&passed);
        usleep(500);
    }
    goes_on = false;
    sem_post(&there);
    pthread_join(threads[3], NULL);
    return end(&tracer);
}

/* A stop, or an exit, beside threads that run. */
static int mode_stop(void) {
    int status;
    begin();
    run_threads(4, serve);
    usleep((unsigned)number);
    status = end(&tracer);
    usleep(2000);
    goes_on = false;
    join_threads(4);
    return status;
}

static int mode_exit(void) {
    begin();
    run_threads(4, serve);
    usleep((unsigned)number);
    exit(0);
}

/* More records than there is room for on the disk, or below a limit on files. */
static int mode_full(void) {
    if (is(kind, "limit")) {
        const struct rlimit limit = { 20000, 20000 };
        if (setrlimit(RLIMIT_FSIZE, &limit) != 0) fail("no limit on files");
    }
    begin();
    for (uint64_t i = 0; i < 100000; i++) {
        tick_now(&tracer, i);
        if (i == 0 && !dspec_tracer_flush(&tracer, 60000)) fail("the first record isn't written");
        if (i % 1000 == 0) usleep(2000);
    }
    return end(&tracer);
}

/* All paths are kept, faster than the consumer comes. */
static int mode_lost(void) {
    begin();
    for (uint64_t i = 0; i < 20000; i++) {
        dspec_path path = dspec_path_begin(&tracer);
        for (uint32_t step = 0; step < STEPS; step++) query_in(&path, 13, step);
        requests += dspec_path_keep(&path);
    }
    return end(&tracer);
}

/* ---- Paths that have more records than fit. ---- */

/* Request 5 crashes where that is asked. */
static void long_request(uint64_t request, size_t steps) {
    dspec_path path = dspec_path_begin(&tracer);
    for (uint32_t step = 0; step < steps; step++) {
        if (request == 5 && step == 700) {
            if (is(kind, "segv")) crash(&path, request);
            if (is(kind, "open")) return;
        }
        if (query_in(&path, request, step) != DSPEC_OK && options.keep_last) fail("a record of a long path is refused");
    }
    if (request % 10 == 3 && !dspec_path_keep(&path)) fail("a long path isn't kept");
    else if (request % 10 != 3 && !dspec_path_drop(&path)) fail("a long path isn't thrown away");
}

static void *long_requests(void *unused) {
    for (int i = 0; i < 50; i++) long_request(atomic_fetch_add(&requests, 1) + 100, number);
    return unused;
}

/* Request 3 and the tenth after it fit into one speculation and into two; then some of so many records, on this thread and on four. */
static int mode_long(void) {
    begin();
    long_request(3, 16);
    long_request(13, 32);
    long_request(4, number);
    long_request(23, number);
    long_request(5, number);
    run_threads(4, long_requests);
    join_threads(4);
    return end(&tracer);
}

static int child(void) {
    static dspec_tracer own;
    char where[4096];
    dspec_path path = dspec_path_begin(&tracer);
    bool refused = query_in(&path, 99, 0) != DSPEC_OK && tick_now(&tracer, 99) != DSPEC_OK && !dspec_path_keep(&path) && !dspec_tracer_stop(&tracer, NULL);
    if (!refused) fail("the child's tracer is up");
    if (is(kind, "crash")) abort();
    snprintf(where, sizeof where, "%s.child", folder);
    start_in(&own, where);
    tick_now(&own, 7);
    return end(&own);
}

static int mode_fork(void) {
    int status, of_child;
    begin();
    run_threads(4, serve);
    usleep(5000);
    fflush(stdout);
    pid_t pid = fork();
    if (pid == 0) exit(child());
    waitpid(pid, &of_child, 0);
    printf("child %x\n", (unsigned)of_child);
    status = end(&tracer);
    goes_on = false;
    join_threads(4);
    return status;
}

static void own_handler(int signal) {
    char line[64];
    int len = snprintf(line, sizeof line, "handler %" PRIu64 " us\n", (dspec_tracer_now() - crashed_at) / 1000);
    if (write(1, line, (size_t)len) != len) _exit(9);
    _exit(50 + signal);
}

/* A program's own handler comes after the tracer's. */
static int mode_handler(void) {
    signal(SIGSEGV, own_handler);
    return mode_main();
}

static sigjmp_buf back;
static void jump(int signal) { siglongjmp(back, signal); }

/* The end of a path that a crash kept. */
static void end_kept(dspec_path *path, bool keep) {
    if (keep != (keep ? dspec_path_keep(path) : dspec_path_drop(path))) fail("a path that a crash kept was thrown away");
}

/* A program that lives on after its faults, of which each path has two. It ends that path before it begins another one, which gets its place, or after it. */
static int mode_recover(void) {
    signal(SIGSEGV, jump);
    begin();
    for (uint64_t i = 0; i < 20; i++) {
        dspec_path path = dspec_path_begin(&tracer), next;
        query_in(&path, i, 0);
        for (volatile int again = 0; again < 2; again++)
            if (sigsetjmp(back, 1) == 0) *nowhere = 1;
        if (query_in(&path, i, 1) != DSPEC_VOID) fail("a path that a crash kept goes on");
        if (i % 4 < 2) end_kept(&path, i % 2 == 0);
        next = dspec_path_begin(&tracer);
        query_in(&next, 1000 + i, 0);
        if (i % 4 >= 2) end_kept(&path, i % 2 == 0);
        if (!dspec_path_drop(&next)) fail("no path after a crash");
    }
    return end(&tracer);
}

/* Ticks that were answered DSPEC_OK and have to be there; and those of the path that this thread is in. */
static _Atomic uint64_t ticked, in_path;
static dspec_path *volatile current;

static void tick(void) {
    if (tick_now(&tracer, 1) == DSPEC_OK) atomic_fetch_add(&ticked, 1);
}

static void on_alarm(int signal) {
    dspec_path *outer = current, inner = dspec_path_begin(&tracer);
    (void)signal;
    tick();
    query_in(&inner, 1, 0);
    tick();
    dspec_path_drop(&inner);
    if (outer != NULL && tick_in(outer, 2) == DSPEC_OK) atomic_fetch_add(&in_path, 1);
}

static void ticking_request(bool is_kept) {
    dspec_path path = dspec_path_begin(&tracer);
    in_path = 0;
    current = &path;
    for (uint32_t step = 0; step < STEPS; step++)
        if (tick_in(&path, 2) == DSPEC_OK) atomic_fetch_add(&in_path, 1);
    tick();
    if (!is_kept && !dspec_path_drop(&path)) fail("a path isn't thrown away");
    if (is_kept && dspec_path_keep(&path)) atomic_fetch_add(&ticked, in_path);
    current = NULL;
}

/* A handler that records, in the middle of the tracer too: in no path, in one of its own, and in the one that the thread is in. */
static int mode_nested(void) {
    const struct sigaction action = { .sa_handler = on_alarm, .sa_flags = SA_RESTART };
    const struct itimerval often = { { 0, 100 }, { 0, 100 } };
    begin();
    sigaction(SIGALRM, &action, NULL);
    setitimer(ITIMER_REAL, &often, NULL);
    for (int i = 0; i < 100000; i++) {
        one_request(atomic_fetch_add(&requests, 1) + 1);
        ticking_request(i % 10 == 0);
        tick();
    }
    signal(SIGALRM, SIG_IGN);
    printf("ticked=%" PRIu64 " ", (uint64_t)ticked);
    return end(&tracer);
}

/* A handler that comes into the middle of a call, once, and crashes there or stays for longer than a stop waits. */
static _Atomic bool is_within;

static void within(int signal) {
    (void)signal;
    if (is_within || tick_now(&tracer, 1) != DSPEC_BUSY) return;
    is_within = true;
    if (is(kind, "segv")) *nowhere = 1;
    if (write(1, "within\n", 7) != 7) _exit(9);
    sleep(is(kind, "stopped") ? 2 : 7);
}

static int mode_within(void) {
    const struct sigaction action = { .sa_handler = within, .sa_flags = SA_RESTART };
    int status;
    begin();
    sigaction(SIGUSR1, &action, NULL);
    run_threads(1, serve);
    while (!is_within) {
        pthread_kill(threads[0], SIGUSR1);
        usleep(100);
    }
    status = end(&tracer);
    goes_on = false;
    join_threads(1);
    return status;
}

/* What the consumer costs beside threads that sleep. */
static int mode_idle(void) {
    struct rusage use;
    begin();
    run_threads(4, sleeper);
    sleep((unsigned)number);
    getrusage(RUSAGE_SELF, &use);
    printf("idle: %ld us of processor in %zu s, %ld KB\n", (long)((use.ru_utime.tv_sec + use.ru_stime.tv_sec) * 1000000 + use.ru_utime.tv_usec + use.ru_stime.tv_usec), number,
           use.ru_maxrss);
    return end(&tracer);
}

/* Two tracers at once, and one after another in the same place. */
static int mode_two(void) {
    static dspec_tracer other;
    char where[4096];
    begin();
    snprintf(where, sizeof where, "%s.other", folder);
    if (!dspec_tracer_start(&other, where, NULL, DSPEC_PROBES(tick))) fail(other.why);
    if (dspec_tracer_start(&other, where, NULL, DSPEC_PROBES(tick))) fail("started twice");
    for (uint64_t i = 0; i < 100; i++) {
        dspec_path one = dspec_path_begin(&tracer), two = dspec_path_begin(&other);
        query_in(&one, 113, (uint32_t)(i % STEPS));
        tick_in(&two, i);
        if (query_in(&two, i, 0) != DSPEC_BAD_RECORD) fail("a record of a probe that isn't enabled there");
        tick_now(&other, 1000 + i);
        if (i % 2 == 0) dspec_path_keep(&two);
        else dspec_path_drop(&two);
        if (i < STEPS) dspec_path_keep(&one);
        else dspec_path_drop(&one);
    }
    if (end(&other) != 0) return 5;
    dspec_tracer_drop(&other);
    snprintf(where, sizeof where, "%s.again", folder);
    start_in(&other, where);
    tick_now(&other, 7);
    if (end(&other) != 0) return 5;
    dspec_tracer_drop(&other);
    return end(&tracer);
}

/* What was kept until a flush is in the folder when the process is killed after it. */
static int mode_flush(void) {
    options.period_ms = 100000;
    begin();
    for (uint32_t step = 0; step < STEPS; step++) {
        dspec_path path = dspec_path_begin(&tracer);
        query_in(&path, 13, step);
        dspec_path_keep(&path);
    }
    if (!dspec_tracer_flush(&tracer, 60000)) fail("no flush");
    return raise(SIGKILL);
}

static const struct {
    const char *name;
    int (*run)(void);
} modes[] = {
    { "serve", mode_serve }, { "main", mode_main }, { "churn", mode_churn }, { "crowd", mode_crowd }, { "waiting", mode_waiting }, { "sleep", mode_sleep },
    { "stop", mode_stop }, { "exit", mode_exit }, { "full", mode_full }, { "lost", mode_lost }, { "fork", mode_fork }, { "handler", mode_handler },
    { "recover", mode_recover }, { "nested", mode_nested }, { "idle", mode_idle }, { "two", mode_two }, { "flush", mode_flush }, { "hang", mode_hang }, { "left", mode_left },
    { "long", mode_long }, { "within", mode_within }, { "patient", mode_patient },
};

static void option(const char *word) {
    const char *value = strchr(word, '=') + 1;
    const uint32_t given = (uint32_t)strtoul(value, NULL, 10);
    if (strncmp(word, "lanes=", 6) == 0) options.lanes = given;
    if (strncmp(word, "paths=", 6) == 0) options.paths = given;
    if (strncmp(word, "bufsize=", 8) == 0) options.bufsize = given;
    if (strncmp(word, "specsize=", 9) == 0) options.specsize = given;
    if (strncmp(word, "keep_ms=", 8) == 0) options.keep_ms = given;
    if (strncmp(word, "crash_ms=", 9) == 0) options.crash_ms = given;
    if (strncmp(word, "period_ms=", 10) == 0) options.period_ms = given;
    if (strncmp(word, "max_bytes=", 10) == 0) options.max_bytes = given;
    if (strncmp(word, "keep_last=", 10) == 0) options.keep_last = given != 0;
    if (strncmp(word, "by_thread=", 10) == 0) options.by_thread = given != 0;
    if (strncmp(word, "exchange=", 9) == 0) options.no_membarrier = given != 0;
    if (strncmp(word, "keep_all=", 9) == 0) options.keep_all = given != 0;
    if (strncmp(word, "keep_open=", 10) == 0) options.keep_open = given != 0;
    if (strncmp(word, "survive=", 8) == 0) options.survive = given != 0;
    if (strncmp(word, "at=", 3) == 0) crash_at = strtoull(value, NULL, 10);
    if (strncmp(word, "storm=", 6) == 0) storm = given != 0;
    if (strncmp(word, "number=", 7) == 0) number = given;
}

static void tell_into(const char *name) {
    int file = open(name, O_RDWR | O_CREAT | O_TRUNC, 0600);
    if (file < 0 || ftruncate(file, MOST_TOLD * sizeof *told) != 0) fail("no file for what is told");
    told = mmap(NULL, MOST_TOLD * sizeof *told, PROT_READ | PROT_WRITE, MAP_SHARED, file, 0);
}

int main(int argc, char **argv) {
    if (argc < 3) return 2;
    folder = argv[1];
    for (int i = 3; i < argc; i++) {
        if (strncmp(argv[i], "told=", 5) == 0) tell_into(argv[i] + 5);
        else if (strchr(argv[i], '=') != NULL) option(argv[i]);
        else kind = argv[i];
    }
    for (size_t i = 0; i < sizeof modes / sizeof modes[0]; i++)
        if (is(modes[i].name, argv[2])) return modes[i].run();
    return 2;
}
