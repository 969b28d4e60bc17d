/* What a tracer's calls answer and its report tells, each number worked out by hand: paths that are kept, thrown away, refused, cut, open at the stop, handed on, left by a thread that ends, or saved in a crash that the
 * program recovers from; events that are off or not the tracer's; two tracers at once. `tracer_counts FOLDER`; its last line counts its checks. */
#define _GNU_SOURCE
#include "dspec_tracer.h"

#include "check.h"

#include "../../tracer/watch.h"

#include <dirent.h>
#include <errno.h>
#include <fcntl.h>
#include <pthread.h>
#include <setjmp.h>
#include <signal.h>
#include <sys/mman.h>
#include <sys/stat.h>
#include <sys/syscall.h>
#include <sys/wait.h>
#include <unistd.h>

DSPEC_PROBE(query, uint64_t, request, uint32_t, step);
DSPEC_PROBE(tick, uint64_t, number);
DSPEC_PROBE(three, uint64_t, first, uint64_t, second, uint64_t, third);
DSPEC_PROBE(stranger, uint32_t, number);

static dspec_tracer tracer, second;
static dspec_tracer_report report;
static const char *folder;

static void without_folder(void) {
    char words[8300];
    snprintf(words, sizeof words, "rm -rf '%.2000s' '%.2000s.two' '%.2000s.salvaged' '%.2000s-memory'", folder, folder, folder, folder);
    if (system(words) != 0) exit(2);
}

static void begin(dspec_tracer_options options) {
    without_folder();
    if (options.period_ms == 0) options.period_ms = 1000000;
    memset(&tracer, 0, sizeof tracer);
    if (!CHECK(dspec_tracer_start(&tracer, folder, &options, DSPEC_PROBES(query, tick, three)))) {
        printf("%s\n", tracer.why);
        exit(2);
    }
}

static void stop(void) {
    CHECK(dspec_tracer_stop(&tracer, &report));
    CHECK(report.dropped == 0 && report.lost == 0 && report.stuck_lanes == 0 && report.not_written == 0 && report.waited == 0);
    dspec_tracer_drop(&tracer);
}

/* A path of so many records. */
static dspec_path path_of(uint32_t records) {
    dspec_path path = dspec_path_begin(&tracer);
    for (uint32_t step = 0; step < records; step++) CHECK(query_in(&path, 1, step) == DSPEC_OK);
    return path;
}

static void *in_thread(void *(*does)(void *), void *with) {
    pthread_t thread;
    void *made = NULL;
    if (CHECK(pthread_create(&thread, NULL, does, with) == 0)) pthread_join(thread, &made);
    return made;
}

/* ---- Decisions. ---- */

static void decided(void) {
    dspec_path kept, other, dropped, left;
    begin((dspec_tracer_options){ .lanes = 2, .paths = 4 });
    kept = path_of(3);
    other = path_of(1);
    dropped = path_of(2);
    left = path_of(4);
    CHECK(dspec_path_keep(&kept) && dspec_path_keep(&other) && dspec_path_drop(&dropped) && dspec_path_is_open(&left));
    CHECK(tick_now(&tracer, 1) == DSPEC_OK && tick_now(&tracer, 2) == DSPEC_OK);
    CHECK(dspec_tracer_counts(&tracer, &report) && report.kept == 2 && report.accepted == 0 && report.discarded == 0); /* the lane wasn't served yet */
    CHECK(dspec_tracer_flush(&tracer, 60000));
    CHECK(dspec_tracer_counts(&tracer, &report) && report.kept == 2 && report.thrown == 1 && report.threads == 1 && report.accepted == 3 + 1 + 2);
    stop();
    CHECK(report.kept == 2 && report.thrown == 1 && report.undecided == 1 && report.threads == 1);
    CHECK(report.accepted == 3 + 1 + 2 && report.discarded == 2 + 4 && report.specdropped == 0 && report.void_ == 0 && report.refused == 0);
    CHECK(report.own == 2 + 1 + 1); /* each kept path's event; the thread; the counts, at the flush */
    CHECK(report.no_slot == 0 && report.refused_records == 0 && report.nested == 0 && report.late == 0 && report.missing == 0 && report.cut == 0 && report.cut_records == 0);
}

static void open_paths(void) {
    for (int keeps = 0; keeps < 2; keeps++) {
        begin((dspec_tracer_options){ .lanes = 1, .paths = 4, .keep_open = keeps == 1 });
        path_of(2);
        path_of(3);
        stop();
        CHECK(report.undecided == 2 && report.accepted == (keeps == 1 ? 5 : 0) && report.discarded == (keeps == 1 ? 0 : 5));
    }
}

/* A call on a path that is over, by a copy of it. */
static void over(void) {
    dspec_path path, copy;
    begin((dspec_tracer_options){ .lanes = 1, .paths = 2 });
    for (int round = 0; round < 5; round++) {
        path = path_of(1);
        copy = path;
        CHECK(dspec_path_keep(&path) && !dspec_path_is_open(&path) && query_in(&path, 1, 1) == DSPEC_VOID && !dspec_path_keep(&path));
        CHECK(!dspec_path_keep(&copy) && !dspec_path_adopt(&copy) && !dspec_path_drop(&copy));
    }
    path = path_of(1);
    copy = path_of(1);
    CHECK(dspec_path_keep(&path) && dspec_path_drop(&copy));
    stop();
    CHECK(report.kept == 6 && report.thrown == 1 && report.no_slot == 0);
}

/* ---- No room. ---- */

static void refused(void) {
    begin((dspec_tracer_options){ .lanes = 1, .paths = 2 });
    for (uint64_t round = 1; round <= 20; round++) {
        dspec_path first = path_of(1), other = path_of(1), none = dspec_path_begin(&tracer);
        CHECK(query_in(&none, 1, 0) == DSPEC_UNAVAILABLE && query_in(&none, 1, 1) == DSPEC_UNAVAILABLE && !dspec_path_is_open(&none) && !dspec_path_keep(&none));
        CHECK(dspec_path_drop(&none) && dspec_path_keep(&first) && dspec_path_drop(&other));
        CHECK(dspec_tracer_counts(&tracer, &report) && report.no_slot == round && report.refused_records == 2 * round);
    }
    stop();
    CHECK(report.no_slot == 20 && report.refused_records == 40 && report.kept == 20 && report.thrown == 20 && report.accepted == 20);
}

static long bytes_of_own(void) {
    char path[4200];
    struct stat is;
    snprintf(path, sizeof path, "%.4000s/cpu_1_0", folder);
    return stat(path, &is) == 0 ? (long)is.st_size : -1;
}

/* What was refused is told once. */
static void told_once(void) {
    dspec_path first, other, none;
    long told;
    begin((dspec_tracer_options){ .lanes = 1, .paths = 2 });
    first = path_of(1);
    other = path_of(1);
    none = dspec_path_begin(&tracer);
    CHECK(query_in(&none, 1, 0) == DSPEC_UNAVAILABLE && dspec_path_keep(&first) && dspec_path_keep(&other) && dspec_tracer_flush(&tracer, 60000));
    told = bytes_of_own();
    CHECK(told > 0 && dspec_tracer_flush(&tracer, 60000) && bytes_of_own() == told);
    stop();
}

static void *keeps(void *path) { return dspec_path_keep(path) ? path : NULL; }

/* Whether a path has room for so many records, which need three speculations. */
static bool goes_on(uint32_t records) {
    dspec_path path = dspec_path_begin(&tracer);
    uint32_t made = 0;
    for (uint32_t step = 0; step < records; step++) made += query_in(&path, 1, step) == DSPEC_OK;
    CHECK(dspec_path_drop(&path));
    return made == records;
}

/* With keep_last a lane has more speculations than paths: one that finds no place gives its speculation back, until the consumer's next round, and leaves the lane. */
static void without_place(void) {
    dspec_path path, none;
    bool is_free = false;
    begin((dspec_tracer_options){ .lanes = 1, .paths = 1, .specsize = 512, .bufsize = 8192, .keep_last = true, .period_ms = 5 });
    path = path_of(1);
    CHECK(in_thread(keeps, &path) != NULL);
    for (int round = 0; round < 10; round++) {
        path = path_of(1); /* the lane is all threads' now */
        none = dspec_path_begin(&tracer);
        CHECK(query_in(&none, 1, 0) == DSPEC_UNAVAILABLE);
        CHECK(dspec_path_keep(&path));
    }
    for (int tries = 0; tries < 6000 && !is_free; tries++, usleep(10000)) is_free = goes_on(100);
    CHECK(is_free);
    for (int i = 0; i < 70; i++) {
        path = path_of(1);
        CHECK(dspec_path_keep(&path));
    }
    CHECK(path.own); /* a thread that hands its paths on has lanes of its own again some time later */
    stop();
    CHECK(report.no_slot == 10 && report.kept == 81 && report.cut == 0);
}

/* ---- Long paths. ---- */

static void cut(void) {
    dspec_path path;
    begin((dspec_tracer_options){ .lanes = 1, .paths = 2, .specsize = 512, .bufsize = 8192, .keep_last = true });
    path = path_of(100);
    CHECK(dspec_path_keep(&path));
    path = path_of(5);
    CHECK(dspec_path_keep(&path));
    path = path_of(100);
    CHECK(dspec_path_drop(&path));
    stop();
    CHECK(report.kept == 2 && report.cut == 1 && report.cut_records > 50 && report.specdropped == 0 && report.accepted + report.cut_records == 105);
    CHECK(report.accepted + report.discarded + report.specdropped == 205 + 1); /* the first record of the one that was cut is made twice */
    begin((dspec_tracer_options){ .lanes = 1, .paths = 2, .specsize = 64, .bufsize = 8192 });
    path = dspec_path_begin(&tracer);
    CHECK(query_in(&path, 1, 0) == DSPEC_OK && query_in(&path, 1, 1) == DSPEC_OK && query_in(&path, 1, 2) == DSPEC_DROPPED && query_in(&path, 1, 3) == DSPEC_DROPPED);
    CHECK(dspec_path_keep(&path)); /* its event has no room among its records */
    stop();
    CHECK(report.kept == 1 && report.cut == 1 && report.cut_records == 0 && report.specdropped == 2 && report.accepted == 2);
}

/* A path that is prepared for its end, and then thrown away: its event was in it, and is no record of the program. */
static void thrown_after_all(void) {
    dspec_path path;
    begin((dspec_tracer_options){ .lanes = 1, .paths = 2, .specsize = 512, .bufsize = 512, .keep_ms = 1 });
    path = path_of(12);
    CHECK(dspec_path_keep(&path));
    CHECK(dspec_tracer_stop(&tracer, &report) && report.accepted == 12 && report.discarded == 0 && report.kept == 1);
    dspec_tracer_drop(&tracer);
}

/* ---- The event of a path that has no room for it. ---- */

/* While this is set the consumer waits in its next write to a file, and the buffer that it is writing isn't given back. */
static uint32_t is_held;
int fallocate(int file, int mode, off_t offset, off_t len) {
    while (__atomic_load_n(&is_held, __ATOMIC_ACQUIRE)) usleep(100);
    return (int)syscall(SYS_fallocate, file, mode, offset, len);
}

static void hold(bool holds) { __atomic_store_n(&is_held, holds, __ATOMIC_RELEASE); }

/* The end of a tracer that had no room for so many records of the program, and kept so many paths: each has its event. others: those of the thread and of the counts; 0: nobody knows. */
static void stop_full(uint64_t kept, uint64_t lost, uint64_t others) {
    CHECK(dspec_tracer_stop(&tracer, &report) && report.dropped == 0 && report.stuck_lanes == 0 && report.not_written == 0);
    CHECK(report.kept == kept && (others == 0 || report.own == kept + others) && report.lost + report.cut_records == lost);
    dspec_tracer_drop(&tracer);
}

/* A path of so many records of 40 bytes. */
static dspec_path wide_path(uint32_t records) {
    dspec_path path = dspec_path_begin(&tracer);
    for (uint64_t number = 0; number < records; number++) CHECK(three_in(&path, number, number, number) == DSPEC_OK);
    return path;
}

/* An event has 56 bytes, and comes after its path's records where `specsize` has no room for it; with the next buffer where this one has none. */
static void after_its_path(void) {
    dspec_path path;
    for (int flushes_it = 0; flushes_it < 2; flushes_it++) {
        begin((dspec_tracer_options){ .lanes = 1, .paths = 1, .specsize = 192, .bufsize = 4096 });
        for (int i = 0; i < 19; i++) { /* the last one leaves 48 bytes */
            path = wide_path(4);
            CHECK(dspec_path_keep(&path));
        }
        path = wide_path(1);
        CHECK(flushes_it == 0 || dspec_tracer_flush(&tracer, 60000));
        CHECK(dspec_path_drop(&path));
        CHECK(flushes_it == 0 || (dspec_tracer_counts(&tracer, &report) && report.accepted == 19 * 4));
        stop_full(19, 0, flushes_it == 1 ? 3 : 2);
    }
    begin((dspec_tracer_options){ .lanes = 1, .paths = 2, .specsize = 64, .bufsize = 144 });
    hold(true);
    for (int i = 0; i < 3; i++) { /* the third begins the other buffer, after the event of the second */
        path = wide_path(1);
        CHECK(dspec_path_keep(&path));
    }
    path = wide_path(1); /* its record has room, and its event would have none */
    CHECK(!dspec_path_keep(&path));
    hold(false);
    stop_full(3, 1, 2);
    begin((dspec_tracer_options){ .lanes = 1, .paths = 2, .specsize = 64, .bufsize = 88, .keep_ms = 60000 });
    for (int i = 0; i < 3; i++) {
        path = wide_path(1);
        CHECK(dspec_path_keep(&path));
    }
    stop_full(3, 0, 0);
}

/* A path of two parts, of which the second has no room after the first: what is kept has its event, at once or with the next buffer. */
static void first_part(void) {
    static const uint32_t sizes[] = { 200, 168 };
    enum { SHORT = 96 }; /* bytes of a path of one record */
    dspec_path path;
    for (int i = 0; i < 2; i++) {
        const uint32_t bufsize = sizes[i] + SHORT, before = bufsize / SHORT + 1; /* of the paths before it the last one is in the other buffer */
        begin((dspec_tracer_options){ .lanes = 1, .paths = 2, .specsize = 128, .bufsize = bufsize, .keep_last = true });
        hold(true);
        for (uint32_t k = 0; k < before; k++) {
            path = wide_path(1);
            CHECK(dspec_path_keep(&path));
        }
        path = wide_path(4);
        CHECK(dspec_path_keep(&path));
        hold(false);
        CHECK(dspec_tracer_stop(&tracer, &report) && report.kept == before + 1 && report.own == before + 3 && report.accepted == before + 3 && report.lost == 1 && report.cut == 1 && report.dropped == 0);
        dspec_tracer_drop(&tracer);
        begin((dspec_tracer_options){ .lanes = 1, .paths = 2, .specsize = 128, .bufsize = sizes[i], .keep_last = true, .keep_ms = 60000 });
        path = wide_path(4);
        CHECK(dspec_path_keep(&path));
        path = wide_path(4);
        CHECK(dspec_path_keep(&path));
        stop_full(2, 0, 0);
        CHECK(report.accepted == 8 && report.cut == 0);
    }
}

/* How many bytes a lane's file has. */
static long long written(void) {
    struct stat is = { 0 };
    char path[4300];
    snprintf(path, sizeof path, "%s/cpu_0_0", folder);
    return stat(path, &is) == 0 ? (long long)is.st_size : -1;
}

/* A path that finds its buffer full goes into the other one, and the full one is written, though no round comes. Where the consumer hasn't written that, the next such path is lost. */
static void full_buffer(void) {
    enum { BUFFER = 4096, SHORT = 96, IN_A_BUFFER = BUFFER / SHORT, MOST_WAITS = 20000 };
    for (int holds = 0; holds < 2; holds++) {
        begin((dspec_tracer_options){ .lanes = 1, .paths = 2, .specsize = 128, .bufsize = BUFFER });
        hold(holds == 1);
        for (int i = 0; i <= IN_A_BUFFER; i++) {
            dspec_path path = wide_path(1);
            CHECK(dspec_path_keep(&path));
        }
        for (int waits = 0; holds == 0 && written() <= 0 && waits < MOST_WAITS; waits++) usleep(1000);
        CHECK((written() > 0) == (holds == 0));
        for (int i = 1; holds == 1 && i <= IN_A_BUFFER; i++) {
            dspec_path path = wide_path(1);
            CHECK(dspec_path_keep(&path) == (i < IN_A_BUFFER));
        }
        hold(false);
        stop_full(holds == 1 ? 2 * IN_A_BUFFER : IN_A_BUFFER + 1, (uint64_t)holds, 2);
    }
}

/* How many records the packets of a lane's file tell as missed. */
static uint64_t missed_in(const char *file) {
    enum { PACKET = 1024, DISCARDED = 56 };
    uint8_t packet[PACKET];
    uint64_t missed = 0;
    const int at = open(file, O_RDONLY | O_CLOEXEC);
    while (read(at, packet, sizeof packet) == (ssize_t)sizeof packet) memcpy(&missed, packet + DISCARDED, sizeof missed);
    close(at);
    return missed;
}

/* Records that are in no path, until both buffers are full: how many. */
static uint64_t fill_both(void) {
    uint64_t made = 0;
    while (tick_now(&tracer, made) == DSPEC_OK) made++;
    return made;
}

enum { OF_RECORDS = 4096, LEAST_RECORDS = 2 * (OF_RECORDS / 32), MORE = 3 };

/* Of records that are in no path none is dropped while the other buffer has room. One that is dropped is told once, in the report and in the trace. */
static void full_of_records(void) {
    char file[4300];
    for (int by_thread = 0; by_thread < 2; by_thread++) {
        begin((dspec_tracer_options){ .lanes = 1, .paths = 2, .specsize = 128, .bufsize = OF_RECORDS, .by_thread = by_thread == 1 });
        hold(true);
        const uint64_t made = fill_both();
        CHECK(made > LEAST_RECORDS && made % 2 == 0);
        for (int i = 0; i < MORE; i++) CHECK(tick_now(&tracer, 0) == DSPEC_DROPPED);
        hold(false);
        CHECK(dspec_tracer_stop(&tracer, &report) && report.accepted == made && report.dropped == 1 + MORE && report.lost == 0 && report.waited == 0 && report.nested == 0);
        dspec_tracer_drop(&tracer);
        snprintf(file, sizeof file, "%s/cpu_0_0", folder);
        CHECK(missed_in(file) == 1 + MORE);
    }
}

/* The same of a program that is killed with one buffer out and the other one begun: its trace misses nothing. */
static void killed_with_a_full_buffer(void) {
    static dspec_salvaged told;
    char memory[4300], out[4300], file[4400];
    int status;
    const pid_t child = fork();
    if (child == 0) {
        uint64_t made = 0;
        begin((dspec_tracer_options){ .lanes = 1, .paths = 2, .specsize = 128, .bufsize = OF_RECORDS, .survive = true });
        hold(true);
        while (made < LEAST_RECORDS && tick_now(&tracer, made) == DSPEC_OK) made++;
        raise(made == LEAST_RECORDS ? SIGKILL : SIGABRT);
    }
    CHECK(child > 0 && waitpid(child, &status, 0) == child && WIFSIGNALED(status) && WTERMSIG(status) == SIGKILL);
    snprintf(memory, sizeof memory, "%s-memory", folder);
    snprintf(out, sizeof out, "%s.salvaged", folder);
    snprintf(file, sizeof file, "%s/kept/cpu_0_0", out);
    CHECK(dspec_salvage(memory, out, &told) && told.unreadable == 0 && told.kept >= LEAST_RECORDS && missed_in(file) == 0);
}

/* ---- The rule. ---- */

static void ruled(void) {
    uint32_t kept = 0;
    dspec_path path;
    begin((dspec_tracer_options){ .lanes = 2, .paths = 4, .sample = 10, .period_ms = 5, .slow_ns = UINT64_C(3600000000000) });
    for (int i = 0; i < 1000; i++) {
        path = path_of(1);
        kept += dspec_path_end(&path, false, 0);
    }
    CHECK(kept >= 50 && kept <= 200);
    path = path_of(1);
    CHECK(dspec_path_end(&path, true, 0));
    path = path_of(1);
    CHECK(dspec_path_took(&path) > 0 && dspec_path_end(&path, false, 1));
    stop();
    CHECK(report.kept == kept + 2 && report.thrown == 1000 - kept);
    begin((dspec_tracer_options){ .lanes = 1, .paths = 2, .period_ms = 5 });
    for (int i = 0; i < 100; i++) {
        path = path_of(1);
        CHECK(!dspec_path_end(&path, false, 0));
    }
    stop();
    CHECK(report.kept == 0 && report.thrown == 100);
    begin((dspec_tracer_options){ .lanes = 1, .paths = 2, .slow_ns = 1 });
    path = path_of(1);
    CHECK(dspec_path_end(&path, false, 0));
    stop();
    CHECK(report.kept == 1);
}

/* ---- Threads. ---- */

static void *leaves_two(void *unused) {
    path_of(1);
    path_of(2);
    return unused;
}

static void *records(void *path) { return query_in(path, 1, 9) == DSPEC_OK ? path : NULL; }

static void *ticks(void *unused) {
    CHECK(tick_now(&tracer, 1) == DSPEC_OK);
    return unused;
}

/* What a thread leaves goes with it, and its lane is another's then; a path is the thread's that recorded last. */
static void threads(void) {
    dspec_path path;
    begin((dspec_tracer_options){ .lanes = 1, .paths = 2 });
    for (int round = 0; round < 20; round++) in_thread(leaves_two, NULL);
    CHECK(dspec_tracer_counts(&tracer, &report) && report.thrown == 40 && report.threads == 20);
    path = path_of(1);
    in_thread(ticks, NULL);
    CHECK(path.own && dspec_path_keep(&path));
    path = path_of(1);
    CHECK(in_thread(records, &path) != NULL && query_in(&path, 1, 1) == DSPEC_VOID && !dspec_path_keep(&path));
    path = path_of(1);
    CHECK(dspec_path_keep(&path));
    stop();
    CHECK(report.kept == 2 && report.thrown == 41 && report.threads == 23 && report.accepted == 3 && report.discarded == 60 + 2 && report.no_slot == 0);
}

/* A thread records to a path that is over: the path that has its place since isn't that thread's, and doesn't go with it. */
static void places(void) {
    dspec_path path, over;
    begin((dspec_tracer_options){ .lanes = 1, .paths = 2 });
    path = path_of(1);
    over = path;
    CHECK(dspec_path_keep(&path));
    path = path_of(2);
    CHECK(in_thread(records, &over) == NULL && dspec_path_keep(&path));
    stop();
    CHECK(report.kept == 2 && report.accepted == 3 && report.thrown == 0);
}

/* ---- Events. ---- */

static void events(void) {
    dspec_path path;
    begin((dspec_tracer_options){ .lanes = 1, .paths = 2 });
    path = path_of(1);
    CHECK(stranger_in(&path, 1) == DSPEC_BAD_RECORD && stranger_now(&tracer, 1) == DSPEC_BAD_RECORD);
    tick_switch(&tracer, false);
    CHECK(tick_in(&path, 1) == DSPEC_VOID && tick_now(&tracer, 1) == DSPEC_VOID);
    tick_switch(&tracer, true);
    CHECK(tick_in(&path, 1) == DSPEC_OK && tick_now(&tracer, 1) == DSPEC_OK && dspec_path_keep(&path));
    CHECK(!dspec_tracer_add(&tracer, DSPEC_PROBES(stranger)) && dspec_tracer_add(&tracer, DSPEC_PROBES(tick)));
    stop();
    CHECK(report.missing == 2 && strstr(report.why, "`stranger`") != NULL && report.accepted == 3 && report.refused == 0 && report.void_ == 0);
}

/* Whether a file of the folder has these bytes. */
static bool has_bytes(const void *bytes, size_t size) {
    static char all[1 << 20];
    char path[4200];
    ssize_t count;
    int file;
    snprintf(path, sizeof path, "%.4000s/cpu_0_0", folder);
    file = open(path, O_RDONLY);
    count = file < 0 ? -1 : read(file, all, sizeof all);
    if (file >= 0) close(file);
    return count > 0 && memmem(all, (size_t)count, bytes, size) != NULL;
}

/* A record of other words than its event has is refused, and counted; a flush brings what was recorded before it, each time. */
static void flushes(void) {
    bool is_there = true;
    begin((dspec_tracer_options){ .lanes = 1, .paths = 2, .bufsize = 1024, .specsize = 512 });
    CHECK(dspec_tracer_put_1(&tracer, &dspec_event_of_three, 5) == DSPEC_BAD_RECORD && dspec_tracer_put_1(&tracer, &dspec_event_of_tick, 5) == DSPEC_BAD_RECORD);
    for (uint64_t i = 0; i < 10 && is_there; i++) {
        CHECK(tick_now(&tracer, 0x0102030405060700 + i) == DSPEC_OK);
        is_there = CHECK(dspec_tracer_flush(&tracer, 60000) && has_bytes((const uint64_t[]){ 0x0102030405060700 + i }, 8));
    }
    stop();
    CHECK(report.accepted == 10 && report.refused == 2);
}

static bool starts_second(const dspec_enabling *const *of) {
    const dspec_tracer_options options = { .lanes = 1, .paths = 2, .period_ms = 1000000 };
    char path[4200];
    snprintf(path, sizeof path, "%.4000s.two", folder);
    memset(&second, 0, sizeof second);
    return dspec_tracer_start(&second, path, &options, of);
}

/* An event that is off in one tracer goes on in another; and what a tracer claimed that stopped, the next one in its place doesn't. */
static void two_tracers(void) {
    begin((dspec_tracer_options){ .lanes = 1, .paths = 2 });
    CHECK(starts_second(DSPEC_PROBES(tick)));
    tick_switch(&tracer, false);
    CHECK(tick_now(&tracer, 1) == DSPEC_VOID && tick_now(&second, 1) == DSPEC_OK);
    tick_switch(&tracer, true);
    CHECK(tick_now(&tracer, 2) == DSPEC_OK && tick_now(&second, 2) == DSPEC_OK && query_now(&second, 1, 1) == DSPEC_BAD_RECORD);
    stop();
    CHECK(report.accepted == 1);
    CHECK(dspec_tracer_stop(&second, &report) && report.accepted == 2 && report.missing == 1);
    dspec_tracer_drop(&second);
    without_folder();
    CHECK(starts_second(DSPEC_PROBES(tick)) && query_now(&second, 1, 1) == DSPEC_BAD_RECORD && tick_now(&second, 1) == DSPEC_OK);
    CHECK(dspec_tracer_stop(&second, &report) && report.accepted == 1 && report.missing == 1);
    dspec_tracer_drop(&second);
}

/* Each value is where it belongs, in a path and outside of one. */
static void values(void) {
    const uint64_t in_path[] = { 0x1112131415161718, 0x2122232425262728, 0x3132333435363738 }, outside[] = { 0x4142434445464748, 0x5152535455565758, 0x6162636465666768 };
    dspec_path path;
    begin((dspec_tracer_options){ .lanes = 1, .paths = 2 });
    path = dspec_path_begin(&tracer);
    CHECK(query_in(&path, 0x7172737475767778, 0x81828384) == DSPEC_OK && query_in(&path, 0x7172737475767779, 0x91929394) == DSPEC_OK);
    CHECK(three_in(&path, in_path[0], in_path[1], in_path[2]) == DSPEC_OK && dspec_path_keep(&path));
    CHECK(three_now(&tracer, outside[0], outside[1], outside[2]) == DSPEC_OK && tick_now(&tracer, 0xa1a2a3a4a5a6a7a8) == DSPEC_OK);
    stop();
    CHECK(has_bytes(in_path, sizeof in_path) && has_bytes(outside, sizeof outside));
    CHECK(has_bytes("\x79\x77\x76\x75\x74\x73\x72\x71\x94\x93\x92\x91", 12) && has_bytes("\xa8\xa7\xa6\xa5\xa4\xa3\xa2\xa1", 8));
}

/* ---- Crashes that the program recovers from. ---- */

enum { LONG_MS = 600000 };

static sigjmp_buf back;
static _Atomic int stage;

static void recovers(int signal) {
    (void)signal;
    siglongjmp(back, 1);
}

static int descriptors(void) {
    DIR *names = opendir("/proc/self/fd");
    int count = 0;
    while (names != NULL && readdir(names) != NULL) count++;
    if (names != NULL) closedir(names);
    return count;
}

static void *holds_a_path(void *kept) {
    dspec_path path = path_of(2);
    stage = 1;
    while (stage != 2) usleep(1000);
    *(bool *)kept = dspec_path_keep(&path);
    return NULL;
}

/* A thread crashes twice in one path: it is saved once, and stays kept; no other thread's is, and no lane and no descriptor stays. */
static void crashes(void) {
    const struct sigaction ours = { .sa_handler = recovers };
    static bool other_is_kept;
    pthread_t other;
    volatile int before = 0;
    sigaction(SIGFPE, &ours, NULL);
    begin((dspec_tracer_options){ .lanes = 1, .paths = 4, .crash_ms = LONG_MS }); /* whoever waits for all of that is seen by the time that this takes */
    stage = 0;
    if (!CHECK(pthread_create(&other, NULL, holds_a_path, &other_is_kept) == 0)) return;
    while (stage != 1) usleep(1000);
    for (volatile int round = 0; round < 6; round++) {
        static dspec_path path;
        path = path_of(2);
        for (volatile int again = 0; again < 2; again++)
            if (sigsetjmp(back, 1) == 0) raise(SIGFPE);
        CHECK(dspec_path_keep(&path));
        if (round == 0) before = descriptors();
    }
    CHECK(descriptors() == before);
    CHECK(dspec_tracer_counts(&tracer, &report) && report.crash_paths == 6);
    stage = 2;
    pthread_join(other, NULL);
    CHECK(other_is_kept);
    stop();
    CHECK(report.crash_paths == 6 && report.kept == 1 && report.accepted == 6 * 2 + 2 && report.thrown == 0 && report.undecided == 0);
    signal(SIGFPE, SIG_DFL);
}

/* A record by the name of a path that is over doesn't make the path that has its place since its thread's: a crash saves that. */
static void crashes_after_another(void) {
    const struct sigaction ours = { .sa_handler = recovers };
    static dspec_path path, over;
    sigaction(SIGFPE, &ours, NULL);
    begin((dspec_tracer_options){ .lanes = 1, .paths = 2, .crash_ms = LONG_MS });
    path = path_of(1);
    over = path;
    CHECK(dspec_path_keep(&path));
    path = path_of(2);
    CHECK(in_thread(records, &over) == NULL);
    if (sigsetjmp(back, 1) == 0) raise(SIGFPE);
    CHECK(dspec_path_keep(&path));
    stop();
    CHECK(report.crash_paths == 1 && report.kept == 1 && report.accepted == 3 && report.undecided == 0);
    signal(SIGFPE, SIG_DFL);
}

static char *page;
static _Atomic bool is_watched;

static void mends(int signal) {
    (void)signal;
    CHECK(errno == EDOM && mprotect(page, 4096, PROT_READ | PROT_WRITE) == 0);
}

static void changes_errno(uint64_t *where) {
    where[0] = where[1] = 7;
    errno = EIO;
}

/* Saves what a watch tells, as the layer for Rust does. */
static void *watches(void *of) {
    dspec_watched told = { 0 };
    while (!is_watched) {
        dspec_watch_sleep(of, UINT64_C(1000000000));
        for (dspec_watched next; dspec_watch_next(of, &next); dspec_watch_saved(of, told.place)) told = next;
    }
    CHECK(told.signal == SIGSEGV && told.address == (uintptr_t)page && told.here[0] == 7 && told.here[1] == 7);
    return NULL;
}

/* A program that mends a fault goes on with the errno that it had, whatever a watch's call did. */
static void errors(void) {
    const struct sigaction ours = { .sa_handler = mends }, plain = { .sa_handler = SIG_DFL };
    dspec_watch *watch;
    pthread_t consumer;
    page = mmap(NULL, 4096, PROT_NONE, MAP_PRIVATE | MAP_ANONYMOUS, -1, 0);
    sigaction(SIGSEGV, &ours, NULL);
    watch = dspec_watch_begin(LONG_MS, changes_errno);
    if (!CHECK(page != MAP_FAILED && watch != NULL && pthread_create(&consumer, NULL, watches, watch) == 0)) return;
    errno = EDOM;
    *(volatile char *)page = 1;
    CHECK(errno == EDOM && *page == 1);
    is_watched = true;
    dspec_watch_ring(watch);
    pthread_join(consumer, NULL);
    CHECK(dspec_watch_signal(watch) == 0);
    dspec_watch_end(watch);
    sigaction(SIGSEGV, &plain, NULL);
    munmap(page, 4096);
}

/* ---- What the program has. ---- */

/* The mask of the thread of this name, as the system tells it. */
static uint64_t mask_of(const char *name) {
    DIR *tasks = opendir("/proc/self/task");
    uint64_t found = 0;
    for (struct dirent *one; tasks != NULL && (one = readdir(tasks)) != NULL;) {
        char path[300], line[256], called[64] = "";
        unsigned long long mask = 0;
        FILE *file;
        snprintf(path, sizeof path, "/proc/self/task/%.200s/status", one->d_name);
        file = fopen(path, "r");
        while (file != NULL && fgets(line, sizeof line, file) != NULL)
            if (sscanf(line, "Name: %63s", called) != 1) sscanf(line, "SigBlk: %llx", &mask);
        if (file != NULL) fclose(file);
        if (strcmp(called, name) == 0) found = mask;
    }
    if (tasks != NULL) closedir(tasks);
    return found;
}

static bool is_default(int number) {
    struct sigaction is;
    return sigaction(number, NULL, &is) == 0 && !(is.sa_flags & SA_SIGINFO) && is.sa_handler == SIG_DFL;
}

/* A start that is refused leaves no event and no handler; the most lanes that there may be are taken. */
static void starts(void) {
    const dspec_tracer_options most = { .lanes = DSPEC_MAX_LANES, .paths = 1, .bufsize = 512, .specsize = 256 };
    begin((dspec_tracer_options){ .lanes = 1, .paths = 2, .no_crash = true, .no_term = true });
    memset(&second, 0, sizeof second);
    CHECK(!dspec_tracer_start(&second, folder, NULL, DSPEC_PROBES(stranger)) && dspec_event_of_stranger.look == DSPEC_LOOK_NONE && is_default(SIGSEGV) && is_default(SIGTERM));
    stop();
    CHECK(dspec_event_of_tick.look == DSPEC_LOOK_NONE);
    begin(most);
    CHECK(!is_default(SIGSEGV) && !is_default(SIGTERM));
    stop();
    CHECK(is_default(SIGSEGV) && is_default(SIGTERM));
}

/* A handler that the program installs over the tracer's stays after it. */
static void handlers(void) {
    const struct sigaction ours = { .sa_handler = recovers }, plain = { .sa_handler = SIG_DFL };
    struct sigaction is;
    begin((dspec_tracer_options){ .lanes = 1, .paths = 2 });
    sigaction(SIGFPE, &ours, NULL);
    sigaction(SIGHUP, &ours, NULL);
    stop();
    CHECK(sigaction(SIGFPE, &plain, &is) == 0 && is.sa_handler == recovers);
    CHECK(sigaction(SIGHUP, &plain, &is) == 0 && is.sa_handler == recovers);
}

/* The consumer's thread has all signals blocked, and the program's as it had them. */
static void masks(void) {
    const uint64_t some = UINT64_C(1) << (SIGTERM - 1) | UINT64_C(1) << (SIGUSR1 - 1) | UINT64_C(1) << (SIGSEGV - 1) | UINT64_C(1) << (SIGXFSZ - 1);
    sigset_t before, after;
    sigemptyset(&before);
    pthread_sigmask(SIG_SETMASK, NULL, &before);
    begin((dspec_tracer_options){ .lanes = 1, .paths = 2 });
    pthread_sigmask(SIG_SETMASK, NULL, &after);
    for (int one = 1; one < 32; one++) CHECK(sigismember(&before, one) == sigismember(&after, one));
    for (int tries = 0; tries < 10000 && mask_of("dspec") == 0; tries++) usleep(1000);
    CHECK((mask_of("dspec") & some) == some);
    stop();
}

int main(int argc, char **argv) {
    if (argc != 2) return 2;
    folder = argv[1];
    alarm(1200); /* a lock that stays is a fault and no wait for ever */
    masks();
    starts();
    handlers();
    decided();
    open_paths();
    over();
    refused();
    told_once();
    without_place();
    cut();
    thrown_after_all();
    after_its_path();
    first_part();
    full_buffer();
    full_of_records();
    killed_with_a_full_buffer();
    ruled();
    threads();
    places();
    events();
    flushes();
    two_tracers();
    values();
    crashes();
    crashes_after_another();
    errors();
    without_folder();
    return check_end();
}
