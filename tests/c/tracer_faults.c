/* What hinders a tracer's consumer: threads that stay in their calls, a disk with a limit, a program that closes descriptors, a system that forbids a call, stacks that are small.
 * `tracer_faults FOLDER MODE [FILE]` counts its checks in its last line, or into the file where it has no stdout. */
#define _GNU_SOURCE
#include "dspec/tracer_record.h"

#include "check.h"
#include "forbid.h"

#include <dirent.h>
#include <errno.h>
#include <fcntl.h>
#include <pthread.h>
#include <semaphore.h>
#include <setjmp.h>
#include <signal.h>
#include <stdarg.h>
#include <stdatomic.h>
#include <sys/resource.h>
#include <sys/stat.h>
#include <sys/syscall.h>
#include <unistd.h>

#ifndef LOCALS
#define LOCALS 1
#endif

DSPEC_PROBE(query, uint64_t, request, uint32_t, step);
DSPEC_PROBE(tick, uint64_t, number);

enum { USERS = 64 }; /* a lane's state divided by this is how many are on it */

static dspec_tracer tracer;
static const char *folder;
static __thread volatile char locals[LOCALS];

static void begin(dspec_tracer_options options) {
    if (CHECK(dspec_tracer_start(&tracer, folder, &options, DSPEC_PROBES(query, tick)))) return;
    printf("%s\n", tracer.why);
    exit(check_end());
}

static dspec_tracer_report ended(bool whole) {
    dspec_tracer_report report;
    const bool is_whole = dspec_tracer_stop(&tracer, &report);
    if (!CHECK(is_whole == whole)) printf("whole %d, stuck %llu, not written %llu: %s\n", is_whole, (unsigned long long)report.stuck_lanes, (unsigned long long)report.not_written, report.why);
    return report;
}

static bool keeps(uint64_t request) {
    dspec_path path = dspec_path_begin(&tracer);
    query_in(&path, request, 0);
    return dspec_path_keep(&path);
}

/* ---- A thread that stays in its call: a signal's handler comes into the middle of a record, and waits there. ---- */

static pthread_t caller;
static dspec_path callers;
static _Atomic bool has_begun, is_inside, may_leave, is_over;

/* By the lane as its own, or by its lock, which nobody else takes meanwhile. On a lane that is shared `inside` says nothing: a thread sets it for a moment, before it takes the lock. */
static bool is_in_call(void) {
    const uint32_t state = __atomic_load_n(&callers.lane->state, __ATOMIC_RELAXED);
    if (!(state & DSPEC_TRACER_LOOK_)) return __atomic_load_n(&callers.lane->inside, __ATOMIC_RELAXED);
    return state & DSPEC_TRACER_HELD_ && tick_now(&tracer, 1) == DSPEC_BUSY;
}

static void stay(int signal) {
    (void)signal;
    if (!has_begun || is_inside || !is_in_call()) return;
    is_inside = true;
    while (!may_leave) usleep(1000);
}

static void *calls_on(void *unused) {
    has_begun = true;
    while (!is_over) query_in(&callers, 1, 0);
    dspec_path_drop(&callers);
    return unused;
}

static void *calls(void *unused) {
    callers = dspec_path_begin(&tracer);
    query_in(&callers, 1, 0);
    return calls_on(unused);
}

static void start_caller(void *(*runs)(void *)) {
    const struct sigaction action = { .sa_handler = stay, .sa_flags = SA_RESTART };
    sigaction(SIGUSR1, &action, NULL);
    pthread_create(&caller, NULL, runs, NULL);
    while (!has_begun) usleep(100);
}

static void make_caller_stay(void) {
    if (!has_begun) start_caller(calls);
    while (!is_inside) {
        pthread_kill(caller, SIGUSR1);
        usleep(100);
    }
}

static void let_caller_leave(void) {
    may_leave = true;
    is_over = true;
    pthread_join(caller, NULL);
}

/* A flush beside such a thread isn't true until that has left; what is kept on other lanes is written meanwhile. */
static void mode_flush(void) {
    begin((dspec_tracer_options){ .period_ms = 100000 });
    make_caller_stay();
    for (uint64_t request = 100; request < 105; request++) CHECK(keeps(request));
    CHECK(!dspec_tracer_flush(&tracer, 300));
    may_leave = true;
    CHECK(dspec_tracer_flush(&tracer, 60000));
    check_end();
    fflush(stdout);
    raise(SIGKILL);
}

/* A stop beside such a thread gives its lane up, and tells so; what other lanes have is whole. */
static void mode_stuck(void) {
    dspec_tracer_report report;
    begin((dspec_tracer_options){ .period_ms = 100000 });
    make_caller_stay();
    CHECK(keeps(100));
    report = ended(false);
    CHECK(report.stuck_lanes == 1 && report.kept == 1 && report.not_written == 0);
    let_caller_leave();
}

static _Atomic bool are_flushed;

static void *flushes(void *unused) {
    for (int flush = 0; flush < 40; flush++) dspec_tracer_flush(&tracer, 25);
    are_flushed = true;
    return unused;
}

/* It delays no other lane: beside flushes that wait for it, another one is hardly ever found held. */
static void mode_others(void) {
    int looks = 0, held = 0;
    pthread_t flusher;
    dspec_path mine;
    begin((dspec_tracer_options){ .period_ms = 100000 });
    make_caller_stay();
    mine = dspec_path_begin(&tracer);
    query_in(&mine, 2, 0);
    pthread_create(&flusher, NULL, flushes, NULL);
    for (; !are_flushed; looks++) {
        held += (__atomic_load_n(&mine.lane->state, __ATOMIC_SEQ_CST) & DSPEC_TRACER_HELD_) != 0;
        usleep(200);
    }
    if (!CHECK(2 * held < looks)) printf("another lane was held in %d of %d looks\n", held, looks);
    pthread_join(flusher, NULL);
    let_caller_leave();
    dspec_path_drop(&mine);
    ended(true);
}

/* A record on the same lane waits for it for a second, and not until it has left, which it does after that record alone. */
static void mode_waits(void) {
    dspec_tracer_report report;
    dspec_path path;
    begin((dspec_tracer_options){ .lanes = 1, .period_ms = 100000 });
    make_caller_stay();
    path = dspec_path_begin(&tracer);
    CHECK(query_in(&path, 3, 0) != DSPEC_OK);
    CHECK(dspec_tracer_counts(&tracer, &report) && report.waited == 1);
    let_caller_leave();
    ended(true);
}

/* A path whose end gave up waiting is thrown away, and its place is another's. */
static void mode_left(void) {
    dspec_tracer_report report;
    dspec_path path;
    begin((dspec_tracer_options){ .lanes = 1, .paths = 2, .period_ms = 100000 });
    start_caller(calls);
    path = dspec_path_begin(&tracer);
    CHECK(query_in(&path, 4, 0) == DSPEC_OK);
    make_caller_stay();
    CHECK(!dspec_path_keep(&path));
    may_leave = true;
    CHECK(dspec_tracer_flush(&tracer, 60000));
    path = dspec_path_begin(&tracer);
    CHECK(query_in(&path, 5, 0) == DSPEC_OK && dspec_path_keep(&path));
    let_caller_leave();
    report = ended(true);
    CHECK(report.no_slot == 0 && report.kept == 1 && report.undecided == 0);
}

/* ---- A write that stands still, or finds no room: the linker's --wrap leads each one through here. ---- */

ssize_t __real_write(int file, const void *bytes, size_t len);
ssize_t __wrap_write(int file, const void *bytes, size_t len);
static _Atomic bool writes_stand, is_writing, is_full;
static void (*_Atomic before_write)(const uint8_t *bytes, size_t len);
static sem_t may_go, has_gone;

/* Another thread does something before the write. */
static void let_go(const uint8_t *bytes, size_t len) {
    (void)bytes, (void)len;
    before_write = NULL;
    sem_post(&may_go);
    sem_wait(&has_gone);
}

ssize_t __wrap_write(int file, const void *bytes, size_t len) {
    if (before_write != NULL && len >= 1024) before_write(bytes, len);
    while (writes_stand && len >= 1024) {
        is_writing = true;
        usleep(1000);
    }
    if (is_full && len >= 1024) {
        errno = ENOSPC;
        return -1;
    }
    return __real_write(file, bytes, len);
}

enum { PART = 8 }; /* records of a speculation, which is full then */
static _Atomic bool has_answer, is_kept;

static void *keeps_half(void *unused) {
    dspec_path path = dspec_path_begin(&tracer);
    for (uint32_t step = 0; step < 2 * PART - 4; step++) query_in(&path, 5, step);
    is_kept = dspec_path_keep(&path);
    has_answer = true;
    while (!is_over) usleep(1000); /* nothing is thrown away by its end */
    return unused;
}

/* The older records of a path are kept, its last ones wait for room, and it can't get into its lane again: the path is kept, what has no room of it is lost, and its place is another's. */
static void mode_half(void) {
    dspec_tracer_report report;
    dspec_path others[2];
    uint64_t before;
    pthread_t keeper;
    begin((dspec_tracer_options){ .lanes = 1, .paths = 2, .bufsize = 512, .specsize = 256, .keep_last = true, .keep_ms = 600000, .period_ms = 1000000 });
    start_caller(calls);
    CHECK(tick_now(&tracer, 1) == DSPEC_OK && dspec_tracer_flush(&tracer, 60000)); /* the tracer has told of its threads, and has nothing else to write */
    writes_stand = true;
    CHECK(tick_now(&tracer, 1) == DSPEC_OK && !dspec_tracer_flush(&tracer, 1));
    while (!is_writing) usleep(1000); /* one buffer of the lane is out now */
    for (uint64_t i = 0; i < 5; i++) CHECK(tick_now(&tracer, i) == DSPEC_OK);
    before = __atomic_load_n(&callers.lane->answered, __ATOMIC_RELAXED);
    pthread_create(&keeper, NULL, keeps_half, NULL);
    while (__atomic_load_n(&callers.lane->answered, __ATOMIC_RELAXED) < before + PART) usleep(1000);
    make_caller_stay();
    while (!has_answer) usleep(1000);
    CHECK(!is_kept);
    let_caller_leave();
    pthread_join(keeper, NULL);
    writes_stand = false;
    CHECK(dspec_tracer_flush(&tracer, 60000));
    CHECK(dspec_tracer_counts(&tracer, &report) && report.kept == 1);
    for (size_t i = 0; i < 2; i++) others[i] = dspec_path_begin(&tracer);
    for (uint32_t step = 0; step < 2 * PART - 4; step++) CHECK(query_in(&others[0], 6, step) == DSPEC_OK && query_in(&others[1], 7, step) == DSPEC_OK);
    CHECK(dspec_path_drop(&others[0]) && dspec_path_drop(&others[1]));
    report = ended(true);
    CHECK(report.undecided == 0 && report.kept == 1 && report.thrown == 3 && report.no_slot == 0);
}

/* ---- Threads that hand their paths on. ---- */

static dspec_path handed;
static sem_t is_given, is_taken;

static void *works(void *unused) {
    while (sem_wait(&is_given) == 0 && !is_over) {
        query_in(&handed, 6, 1);
        dspec_path_drop(&handed);
        sem_post(&is_taken);
    }
    return unused;
}

static void hand_one(void) {
    handed = dspec_path_begin(&tracer);
    query_in(&handed, 6, 0);
    sem_post(&is_given);
    sem_wait(&is_taken);
}

/* Such a thread keeps no lane, and its count of open paths doesn't go round. */
static void mode_handed(void) {
    pthread_t worker;
    dspec_tracer_report report;
    begin((dspec_tracer_options){ .lanes = 2 });
    sem_init(&is_given, 0, 0);
    sem_init(&is_taken, 0, 0);
    pthread_create(&worker, NULL, works, NULL);
    for (int i = 0; i < 2; i++) hand_one();
    /* The worker has answered, and its last step off the lane may come a little later. */
    for (int tries = 0; tries < 10000 && __atomic_load_n(&handed.lane->state, __ATOMIC_SEQ_CST) / USERS != 0; tries++) usleep(1000);
    CHECK(__atomic_load_n(&handed.lane->state, __ATOMIC_SEQ_CST) / USERS == 0);
    for (int i = 2; i < 70000; i++) hand_one();
    CHECK(keeps(100));
    is_over = true;
    sem_post(&is_given);
    pthread_join(worker, NULL);
    report = ended(true);
    CHECK(report.kept == 1 && report.thrown == 70000 && report.no_slot == 0 && report.undecided == 0);
}

/* ---- Descriptors, and what the system refuses. ---- */

/* A limit on files, below which nothing is written any more: no flush is true after that. */
static void mode_limit(void) {
    const struct rlimit none = { 0, 0 };
    begin((dspec_tracer_options){ .period_ms = 100000 });
    CHECK(keeps(100) && dspec_tracer_flush(&tracer, 60000));
    CHECK(keeps(101));
    setrlimit(RLIMIT_FSIZE, &none);
    CHECK(!dspec_tracer_flush(&tracer, 60000));
    CHECK(!dspec_tracer_flush(&tracer, 60000));
    CHECK(ended(false).code == EFBIG);
}

/* Without stdin, stdout and stderr, and with lines that go there all the same. */
static void mode_without(void) {
    for (int file = 0; file < 3; file++) close(file);
    begin((dspec_tracer_options){ .lanes = 2 });
    for (int file = 0; file < 3; file++) CHECK(fcntl(file, F_GETFD) == -1);
    for (uint64_t request = 100; request < 200; request++) {
        CHECK(keeps(request));
        CHECK(write(STDOUT_FILENO, "a line\n", 7) == -1);
        CHECK(write(STDERR_FILENO, "a line\n", 7) == -1);
        if (request % 10 == 0) dspec_tracer_flush(&tracer, 60000);
    }
    ended(true);
}

static long micros_used(void) {
    struct rusage use;
    getrusage(RUSAGE_SELF, &use);
    return (long)(use.ru_utime.tv_sec + use.ru_stime.tv_sec) * 1000000 + (long)(use.ru_utime.tv_usec + use.ru_stime.tv_usec);
}

/* A program that closes all descriptors, and opens files of its own by their numbers. */
static void closes(dspec_tracer_options options) {
    enum { MANY = 100 };
    int files[MANY];
    char name[4200];
    long used;
    begin(options);
    for (int file = 3; file < 1024; file++) close(file);
    snprintf(name, sizeof name, "%s.own", folder);
    mkdir(name, 0700);
    for (int i = 0; i < MANY; i++) {
        snprintf(name, sizeof name, "%s.own/%d", folder, i);
        files[i] = open(name, O_RDWR | O_CREAT | O_TRUNC | O_CLOEXEC, 0600);
        CHECK(write(files[i], "mine", 4) == 4);
    }
    CHECK(keeps(100));
    CHECK(!dspec_tracer_flush(&tracer, 60000));
    used = micros_used();
    usleep(1000000);
    if (!CHECK(micros_used() - used < 200000)) printf("%ld us in a second of sleep\n", micros_used() - used);
    CHECK(strstr(ended(false).why, "closed the trace's descriptors") != NULL);
    dspec_tracer_drop(&tracer);
    for (int i = 0; i < MANY; i++) {
        struct stat is;
        CHECK(fstat(files[i], &is) == 0 && is.st_size == 4);
        close(files[i]);
    }
}

static void mode_closed(void) { closes((dspec_tracer_options){ .lanes = 4 }); }

static void mode_closed_bound(void) { closes((dspec_tracer_options){ .lanes = 4, .max_bytes = 200000 }); }
static void mode_closed_survive(void) { closes((dspec_tracer_options){ .lanes = 4, .survive = true }); }

static _Atomic int kept_paths;

static void *keeps_hundred(void *first) {
    dspec_path open_still = dspec_path_begin(&tracer);
    query_in(&open_still, 1, 0);
    for (uint64_t i = 0; i < 100; i++) {
        kept_paths += keeps(*(uint64_t *)first + i);
        usleep(500);
    }
    pause();
    return NULL;
}

/* Threads with lanes of their own, of which each is in an open path, and a system that refuses the order between them and the consumer: nothing is lost, and a crash saves what is open. */
static void mode_forbidden(void) {
    static uint64_t firsts[] = { 1000, 2000, 3000, 4000 };
    pthread_t threads[4];
    dspec_tracer_report report;
    dspec_path path;
    begin((dspec_tracer_options){ .crash_ms = 60000 });
    if (!forbid_barriers()) {
        printf("no system call can be forbidden here: left out\n");
        return;
    }
    for (int i = 0; i < 4; i++) pthread_create(&threads[i], NULL, keeps_hundred, &firsts[i]);
    do usleep(10000);
    while (dspec_tracer_counts(&tracer, &report) && report.kept < 400);
    CHECK(dspec_tracer_flush(&tracer, 60000));
    CHECK(kept_paths == 400 && report.waited == 0);
    path = dspec_path_begin(&tracer);
    query_in(&path, 5000, 0);
    check_end();
    fflush(stdout);
    raise(SIGSEGV);
}

/* ---- The consumer's thread. ---- */

static bool has_thread(const char *due) {
    DIR *tasks = opendir("/proc/self/task");
    bool found = false;
    for (struct dirent *one; (one = readdir(tasks)) != NULL;) {
        char path[300], name[32] = "";
        int file;
        snprintf(path, sizeof path, "/proc/self/task/%s/comm", one->d_name);
        file = open(path, O_RDONLY);
        if (file < 0) continue;
        found |= read(file, name, sizeof name - 1) > 0 && strcmp(name, due) == 0;
        close(file);
    }
    closedir(tasks);
    return found;
}

/* Its name, and its stack, of which the C library takes the program's thread-local variables. */
static void mode_thread(void) {
    locals[LOCALS - 1] = 1;
    begin((dspec_tracer_options){ 0 });
    for (uint64_t request = 100; request < 200; request++) CHECK(keeps(request));
    CHECK(dspec_tracer_flush(&tracer, 60000));
    CHECK(has_thread("dspec\n"));
    ended(true);
}

/* ---- A full disk, and more keys of kept paths than may wait until these are written. ---- */

enum { LANES = 12, KEYS_A_LANE = 700, KEY_HIGH = 0xabc, HANGS_AFTER_SECONDS = 60, MAY_WAIT_MS = 600000 }; /* a flush that waits for so long hangs */

int __real_fallocate(int file, int mode, off_t from, off_t len);
int __wrap_fallocate(int file, int mode, off_t from, off_t len);
static _Atomic uint32_t times_told[LANES * KEYS_A_LANE], refusals;
static pthread_barrier_t all_there;

int __wrap_fallocate(int file, int mode, off_t from, off_t len) {
    if (!is_full) return __real_fallocate(file, mode, from, len);
    refusals++;
    errno = ENOSPC;
    return -1;
}

static void note_told(void *unused, uint64_t high, uint64_t low) {
    (void)unused;
    if (CHECK(high == KEY_HIGH && low < LANES * KEYS_A_LANE)) times_told[low]++;
}

static void hangs(int signal) {
    static const char what[] = "it hangs: a flush or a stop doesn't end on a disk that is full\n";
    (void)signal;
    _exit(write(STDOUT_FILENO, what, sizeof what - 1) > 0 ? 1 : 2);
}

static void end_within_limit(void) {
    signal(SIGALRM, hangs);
    alarm(HANGS_AFTER_SECONDS);
}

/* An open path has the lane stay this thread's, which has room for all of these in one buffer. */
static void *keeps_keys(void *number) {
    const uint64_t first = (uint64_t)(uintptr_t)number * KEYS_A_LANE;
    dspec_path open = dspec_path_begin(&tracer);
    CHECK(tick_in(&open, first) == DSPEC_OK);
    pthread_barrier_wait(&all_there);
    for (uint64_t request = first; request < first + KEYS_A_LANE; request++) {
        dspec_path path = dspec_path_begin(&tracer);
        CHECK(query_in(&path, request, 0) == DSPEC_OK && dspec_path_key(&path, KEY_HIGH, request) && dspec_path_keep(&path));
    }
    pthread_barrier_wait(&all_there);
    dspec_path_drop(&open);
    return NULL;
}

/* More than 4,096 wait, and as many as that may not be taken. */
static void keep_on_full_disk(void) {
    pthread_t threads[LANES];
    begin((dspec_tracer_options){ .lanes = LANES, .period_ms = 1, .park_bytes = 65536, .survive = true, .on_keep = note_told });
    CHECK(tick_now(&tracer, 1) == DSPEC_OK && dspec_tracer_flush(&tracer, 60000));
    is_full = true;
    MUST(pthread_barrier_init(&all_there, NULL, LANES) == 0 ? DSPEC_OK : DSPEC_NO_MEMORY);
    for (uintptr_t i = 0; i < LANES; i++) MUST(pthread_create(&threads[i], NULL, keeps_keys, (void *)i) == 0 ? DSPEC_OK : DSPEC_NO_MEMORY);
    for (size_t i = 0; i < LANES; i++) pthread_join(threads[i], NULL);
    end_within_limit();
}

/* Each key was told once, but for those that were refused. */
static void are_told(const dspec_tracer_report *report) {
    uint64_t told = 0, most = 0;
    for (size_t i = 0; i < LANES * KEYS_A_LANE; i++) {
        told += times_told[i];
        if (times_told[i] > most) most = times_told[i];
    }
    CHECK(most == 1 && report->kept == LANES * KEYS_A_LANE && told + report->keys_refused == report->kept);
}

/* The stop ends, and says that it didn't write all. */
static void mode_full_stop(void) {
    dspec_tracer_report report;
    keep_on_full_disk();
    report = ended(false);
    are_told(&report);
    CHECK(report.not_written > 0);
}

/* The disk has room again: all is written. */
static void mode_full_for_a_while(void) {
    dspec_tracer_report report;
    keep_on_full_disk();
    is_full = false;
    CHECK(dspec_tracer_flush(&tracer, 60000));
    report = ended(true);
    are_told(&report);
}

/* ---- A key is told after its path is written, which the callback looks for in the lanes' files of the trace. ---- */

enum { OF_PATHS = 0x1000000, IN_FULL_BUFFERS = 20000, FULL_PLAYS = 6, FULL_TIMES = 5, TOLD_WITHIN_MS = 60000, FILE_SIZE = 1 << 22 }; /* the first of the requests, which no other number in the file is like */
static _Atomic uint32_t told_keys, told_early;
enum { MOST_FILES = 2 };
static size_t found_before[MOST_FILES]; /* so many bytes of each file */
static const char *part = ""; /* after the folder's name, with a bound */

static const uint8_t *find_number(const uint8_t *from, const uint8_t *end, uint64_t number) { return from == NULL || from >= end ? NULL : memmem(from, (size_t)(end - from), &number, sizeof number); }

/* Whether a lane's file has a request's record, and then the event of its path, which has the request as its key. Each path is after the one before it. */
static bool file_has_path(size_t number, uint64_t request) {
    static uint8_t bytes[FILE_SIZE];
    char path[4400];
    snprintf(path, sizeof path, "%s%s/cpu_%zu_0", folder, part, number);
    const int file = open(path, O_RDONLY | O_CLOEXEC);
    const ssize_t len = pread(file, bytes, sizeof bytes, (off_t)found_before[number]);
    const uint8_t *const end = bytes + (len > 0 ? len : 0), *const record = find_number(bytes, end, request);
    const uint8_t *const event = record == NULL ? NULL : find_number(record + sizeof request, end, request);
    close(file);
    if (event != NULL) found_before[number] += (size_t)(event - bytes);
    return event != NULL;
}

static bool has_path(uint64_t request) {
    for (size_t number = 0; number < MOST_FILES; number++)
        if (file_has_path(number, request)) return true;
    return false;
}

static void looks_for_path(void *unused, uint64_t high, uint64_t low) {
    (void)unused;
    (void)high;
    told_early += !has_path(low);
    told_keys++;
}

static void keep_with_key(uint64_t request) {
    dspec_path path = dspec_path_begin(&tracer);
    CHECK(query_in(&path, request, 0) == DSPEC_OK && dspec_path_key(&path, KEY_HIGH, request) && dspec_path_keep(&path));
}

static void all_are_told(uint32_t due) {
    for (int waits = 0; told_keys < due && waits < TOLD_WITHIN_MS; waits++) usleep(1000);
    if (!CHECK(told_keys == due && told_early == 0)) printf("%u told, of which %u before their path was written\n", told_keys, told_early);
}

/* Buffers get full one after another, and their thread begins the other one itself or is asked for that. A path's event has no room among its records, and now and then none in their buffer. */
static void fills_buffers(void) {
    found_before[0] = told_keys = 0;
    begin((dspec_tracer_options){ .lanes = 1, .paths = 2, .specsize = 64, .bufsize = 1024, .period_ms = 1, .keep_ms = TOLD_WITHIN_MS, .park_bytes = 4096, .on_keep = looks_for_path });
    for (uint64_t i = 0; i < IN_FULL_BUFFERS; i++) keep_with_key(OF_PATHS + i);
    all_are_told(IN_FULL_BUFFERS);
    ended(true);
    dspec_tracer_drop(&tracer);
}

/* Several times, each in a folder of its own: a key that is told too early is so in some of them only. */
static void mode_told_of_full_buffers(void) {
    const char *const top = folder;
    char path[4300];
    for (int play = 0; play < FULL_PLAYS; play++) {
        snprintf(path, sizeof path, "%s-%d", top, play);
        folder = path;
        fills_buffers();
    }
    folder = top;
}

/* The disk is full: one path is in the buffer that waits for it, and the next one in the other. When there is room again, that one is written before its key is told. */
static void mode_told_after_full_disk(void) {
    uint32_t due = 0;
    begin((dspec_tracer_options){ .lanes = 1, .paths = 2, .period_ms = 1, .survive = true, .park_bytes = 4096, .on_keep = looks_for_path });
    for (int times = 0; times < FULL_TIMES; times++) {
        keep_with_key(OF_PATHS + due++);
        all_are_told(due);
        refusals = 0;
        is_full = true;
        keep_with_key(OF_PATHS + due);
        for (int waits = 0; refusals == 0 && waits < TOLD_WITHIN_MS; waits++) usleep(1000); /* a round finds no room; a flush would find that before it */
        CHECK(refusals > 0 && !dspec_tracer_flush(&tracer, MAY_WAIT_MS));
        keep_with_key(OF_PATHS + due + 1);
        CHECK(!dspec_tracer_flush(&tracer, MAY_WAIT_MS) && told_keys == due); /* the key was heard */
        is_full = false;
        due += 2;
        all_are_told(due);
    }
    ended(true);
}

/* ---- Parked paths whose keys are told while the disk is full: they stay in their ring. ---- */

enum { PARKED = 150 }; /* more than a turn keeps */

static void tell(uint64_t request) { CHECK(dspec_tracer_keep_key(&tracer, KEY_HIGH, request)); }

static dspec_path with_key(uint64_t request) {
    dspec_path path = dspec_path_begin(&tracer);
    CHECK(query_in(&path, request, 0) == DSPEC_OK && dspec_path_key(&path, KEY_HIGH, request));
    return path;
}

static void park(uint64_t request) {
    dspec_path path = with_key(request);
    CHECK(dspec_path_park(&path));
}

static dspec_tracer_report counts(void) {
    dspec_tracer_report report = { 0 };
    CHECK(dspec_tracer_counts(&tracer, &report));
    return report;
}

/* The disk gets full, and then the keys of some that are parked are told. */
static void begin_parking(dspec_tracer_options options, uint64_t parked, uint64_t keys) {
    options.survive = true;
    options.lanes = options.period_ms = 1;
    begin(options);
    for (uint64_t request = 0; request < parked; request++) park(request);
    CHECK(dspec_tracer_flush(&tracer, MAY_WAIT_MS));
    end_within_limit();
    is_full = true;
    for (uint64_t request = 0; request < keys; request++) tell(request);
    CHECK(dspec_tracer_flush(&tracer, MAY_WAIT_MS) == (parked == 0));
}

/* It has room again when the time of their keys has long been over: all of them are written, without a call that would have the consumer look. */
static void mode_parked_for_a_while(void) {
    dspec_tracer_report report;
    begin_parking((dspec_tracer_options){ .park_bytes = 65536, .park_ms = 3600000, .remember_ms = 1 }, PARKED + 5, PARKED);
    usleep(20000);
    CHECK(!dspec_tracer_flush(&tracer, MAY_WAIT_MS));
    report = counts();
    CHECK(report.park_kept == 0 && report.park_left == PARKED + 5 && report.not_written == 0);
    is_full = false;
    while (counts().park_kept < PARKED) usleep(1000);
    CHECK(dspec_tracer_flush(&tracer, MAY_WAIT_MS) && dspec_tracer_flush(&tracer, MAY_WAIT_MS));
    park(0); /* nothing waited any more in a turn, so that its key is forgotten */
    report = ended(true);
    CHECK(report.park_kept == PARKED && report.park_left == 6 && report.kept == PARKED && report.key_missed == 0);
}

/* It has none by the stop, which ends and counts them: of each path a record and its event. */
static void mode_parked_stop(void) {
    dspec_tracer_report report;
    begin_parking((dspec_tracer_options){ .park_bytes = 65536 }, PARKED, PARKED);
    report = ended(false);
    CHECK(report.park_kept == PARKED && report.park_left == 0 && report.not_written >= 2 * PARKED && report.code == ENOSPC);
}

/* Newer paths take their room meanwhile: nine places are in a ring of 1,024 bytes. A path that is open as its key is told is kept at its end, as on any disk. */
static void mode_parked_evicted(void) {
    dspec_tracer_report report;
    dspec_path open_path;
    begin_parking((dspec_tracer_options){ .specsize = 1024, .park_bytes = 1024, .park_ms = 3600000 }, 5, 5);
    open_path = with_key(PARKED);
    tell(PARKED);
    CHECK(!dspec_tracer_flush(&tracer, MAY_WAIT_MS) && dspec_path_park(&open_path));
    for (uint64_t request = 100; request < 109; request++) park(request);
    CHECK(!dspec_tracer_flush(&tracer, MAY_WAIT_MS));
    is_full = false;
    CHECK(dspec_tracer_flush(&tracer, MAY_WAIT_MS));
    report = ended(true);
    CHECK(report.key_missed == 5 && report.park_evicted == 5 && report.park_kept == 0 && report.kept == 1);
}

/* Or their time is over. */
static void mode_parked_expired(void) {
    dspec_tracer_report report;
    begin_parking((dspec_tracer_options){ .park_bytes = 65536, .park_ms = 100, .remember_ms = 3600000 }, 0, 5);
    for (uint64_t request = 0; request < 5; request++) park(request);
    while (counts().park_expired < 5) usleep(1000);
    is_full = false;
    CHECK(dspec_tracer_flush(&tracer, MAY_WAIT_MS));
    report = ended(true);
    CHECK(report.key_missed == 5 && report.park_expired == 5 && report.park_kept == 0 && report.kept == 0);
}

/* ---- Paths whose key was told before, in the middle of a turn that serves a flush: the consumer has looked at what is parked, and finds their lane empty after that. ---- */

static dspec_path left_open;

static void *parks_in_turn(void *unused) {
    sem_wait(&may_go);
    park(1);
    left_open = with_key(1);
    sem_post(&has_gone);
    sem_wait(&may_go); /* what it has open is thrown away by its end */
    return unused;
}

/* One is parked, and one is thrown away later: both are kept. Nobody else wakes the consumer. */
static void mode_parked_beside_flush(void) {
    pthread_t thread;
    dspec_tracer_report report;
    dspec_path path;
    begin((dspec_tracer_options){ .lanes = 1, .paths = 2, .period_ms = 1000000, .park_bytes = 65536 });
    sem_init(&may_go, 0, 0);
    sem_init(&has_gone, 0, 0);
    pthread_create(&thread, NULL, parks_in_turn, NULL);
    tell(1);
    CHECK(dspec_tracer_flush(&tracer, MAY_WAIT_MS));
    path = with_key(2);
    CHECK(dspec_path_drop(&path)); /* the flush tells that one was thrown away: that is the write in its turn */
    before_write = let_go;
    CHECK(dspec_tracer_flush(&tracer, MAY_WAIT_MS) && before_write == NULL);
    for (int waits = 0; counts().park_kept == 0 && waits < TOLD_WITHIN_MS; waits++) usleep(1000);
    CHECK(!dspec_path_drop(&left_open));
    sem_post(&may_go);
    pthread_join(thread, NULL);
    report = ended(true);
    CHECK(report.park_kept == 1 && report.kept == 2 && report.thrown == 1 && report.key_missed == 0);
}

/* ---- The consumer stays in the callback until the program goes on to a crash or a stop: so many keys wait to be heard by then. ---- */

long __real_syscall(long number, ...);
long __wrap_syscall(long number, ...);
static _Atomic bool goes_on, is_going; /* the thread that set this wakes the consumer next when that has something to do */
static _Atomic uint32_t blocked;       /* so many times */

long __wrap_syscall(long number, ...) {
    va_list rest;
    long words[6];
    va_start(rest, number);
    for (size_t i = 0; i < 6; i++) words[i] = va_arg(rest, long);
    va_end(rest);
    if (is_going && number == SYS_futex) goes_on = true;
    return __real_syscall(number, words[0], words[1], words[2], words[3], words[4], words[5]);
}

static void block(void) {
    blocked++;
    while (!goes_on) usleep(1000);
    goes_on = false;
}

static void until_blocked(uint32_t times) {
    for (int waits = 0; blocked < times && waits < TOLD_WITHIN_MS; waits++) usleep(1000);
    if (CHECK(blocked == times)) return;
    exit(check_end());
}

/* ---- A crash, with a bound on disk: what other threads keep meanwhile is written after it, and then its key is told. ---- */

enum { FIRST = OF_PATHS, BEFORE_CRASH, IN_CRASH, BESIDE_CRASH };
static _Atomic uint32_t told_times[4];
static sigjmp_buf after_crash;

static void looks_in_crash(void *unused, uint64_t high, uint64_t low) {
    looks_for_path(unused, high, low);
    told_times[low - FIRST]++;
    if (low == FIRST) block();
}

static void *keeps_beside(void *unused) {
    sem_wait(&may_go);
    keep_with_key(BESIDE_CRASH);
    sem_post(&has_gone);
    while (!is_over) usleep(1000);
    return unused;
}

/* The crash's path is being written, so that its thread's lane is the consumer's, and the other one is free. */
static void keep_beside_crash(const uint8_t *bytes, size_t len) {
    if (find_number(bytes, bytes + len, IN_CRASH) != NULL) let_go(bytes, len);
}

static void recovers(int signal) {
    is_going = false;
    siglongjmp(after_crash, signal);
}

/* The keys of what was kept before the crash, and of the crash's own path, are told before the program's handler goes on. */
static void mode_told_in_bounded_crash(void) {
    const struct sigaction action = { .sa_handler = recovers };
    static char own[4300];
    pthread_t beside;
    dspec_path path;
    snprintf(own, sizeof own, "%s-%d", folder, (int)getpid()); /* the first of its folders is number 0 */
    folder = own;
    part = ".0";
    sem_init(&may_go, 0, 0);
    sem_init(&has_gone, 0, 0);
    sigaction(SIGSEGV, &action, NULL);
    begin((dspec_tracer_options){ .lanes = 2, .period_ms = 1, .crash_ms = TOLD_WITHIN_MS, .max_bytes = 10 << 20, .park_bytes = 4096, .on_keep = looks_in_crash });
    pthread_create(&beside, NULL, keeps_beside, NULL);
    keep_with_key(FIRST);
    until_blocked(1);
    keep_with_key(BEFORE_CRASH);
    path = dspec_path_begin(&tracer);
    CHECK(query_in(&path, IN_CRASH, 0) == DSPEC_OK && dspec_path_key(&path, KEY_HIGH, IN_CRASH));
    before_write = keep_beside_crash;
    is_going = true;
    if (sigsetjmp(after_crash, 1) == 0) raise(SIGSEGV);
    CHECK(told_times[BEFORE_CRASH - FIRST] == 1 && told_times[IN_CRASH - FIRST] == 1 && before_write == NULL);
    all_are_told(4);
    dspec_path_drop(&path);
    is_over = true;
    pthread_join(beside, NULL);
    ended(true);
}

/* ---- A stop that finds more keys than may wait to be told, of which some are on a lane that can't be had. ---- */

enum { ON_STUCK = 300, AT_STOP = 4096, LAST_BLOCK = OF_PATHS + ON_STUCK + 1, ALL_KEYS = 1 + ON_STUCK + 1 + AT_STOP };

static void looks_at_stop(void *unused, uint64_t high, uint64_t low) {
    looks_for_path(unused, high, low);
    if (low == OF_PATHS || low == LAST_BLOCK) {
        block();
    } else {
        may_leave = true;
        is_over = true;
    }
}

static void *keeps_and_calls(void *unused) {
    callers = dspec_path_begin(&tracer);
    query_in(&callers, 1, 0);
    for (uint64_t i = 1; i <= ON_STUCK; i++) keep_with_key(OF_PATHS + i);
    return calls_on(unused);
}

/* The thread in whose call the lane is leaves it as soon as a key is told. So all is written before its keys are told. What is parked by the key that comes last is kept too. */
static void mode_told_at_stop(void) {
    dspec_tracer_report report;
    begin((dspec_tracer_options){ .lanes = 2, .bufsize = 1 << 20, .period_ms = 1, .park_bytes = 4096, .on_keep = looks_at_stop });
    park(LAST_BLOCK + AT_STOP);
    keep_with_key(OF_PATHS);
    until_blocked(1);
    start_caller(keeps_and_calls);
    make_caller_stay();
    keep_with_key(LAST_BLOCK);
    goes_on = true;
    until_blocked(2);
    for (uint64_t i = 1; i <= AT_STOP; i++) keep_with_key(LAST_BLOCK + i);
    is_going = true;
    report = ended(true);
    let_caller_leave();
    CHECK(report.keys_refused == 0 && report.kept == ALL_KEYS + 1 && report.park_kept == 1);
    all_are_told(ALL_KEYS);
}

static const struct {
    const char *name;
    void (*run)(void);
} modes[] = {
    { "flush", mode_flush }, { "others", mode_others }, { "waits", mode_waits }, { "left", mode_left }, { "half", mode_half }, { "handed", mode_handed }, { "limit", mode_limit },
    { "stuck", mode_stuck }, { "without", mode_without }, { "closed", mode_closed }, { "closed_bound", mode_closed_bound }, { "closed_survive", mode_closed_survive },
    { "forbidden", mode_forbidden }, { "thread", mode_thread }, { "full_stop", mode_full_stop }, { "full_for_a_while", mode_full_for_a_while },
    { "told_of_full_buffers", mode_told_of_full_buffers }, { "told_after_full_disk", mode_told_after_full_disk },
    { "told_in_bounded_crash", mode_told_in_bounded_crash }, { "told_at_stop", mode_told_at_stop },
    { "parked_for_a_while", mode_parked_for_a_while }, { "parked_stop", mode_parked_stop }, { "parked_evicted", mode_parked_evicted }, { "parked_expired", mode_parked_expired },
    { "parked_beside_flush", mode_parked_beside_flush },
};

int main(int argc, char **argv) {
    if (argc < 3) return 2;
    folder = argv[1];
    for (size_t i = 0; i < sizeof modes / sizeof modes[0]; i++) {
        if (strcmp(modes[i].name, argv[2]) != 0) continue;
        modes[i].run();
        if (argc > 3 && freopen(argv[3], "w", stdout) == NULL) return 2;
        return check_end();
    }
    return 2;
}
