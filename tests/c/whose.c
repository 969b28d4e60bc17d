/* An event loop for tests/c/whose: one thread has 64 requests at a time, records to them in any order, hands them to 8 workers and gets them back. `whose FOLDER TRUTH SEED END`, where END is
 * `stop`, `crash`, `kill`, which goes on until it is killed, or `quiet`, which refuses most requests, ends its work and waits to be killed. A record says nothing of its request but a number of its own. TRUTH, a file that outlives the process, has what the trace is to be compared with: to which request each
 * record went, what became of it, and how each request ended. */
#define _GNU_SOURCE
#include "dspec_tracer.h"

#include <fcntl.h>
#include <inttypes.h>
#include <pthread.h>
#include <sched.h>
#include <signal.h>
#include <stdatomic.h>
#include <stdio.h>
#include <stdlib.h>
#include <string.h>
#include <sys/mman.h>
#include <sys/syscall.h>
#include <unistd.h>

enum { OPEN = 64, WORKERS = 8, MOST_REQUESTS = 4096, MOST_RECORDS = 65536 };
/* Of a record: it is being made, it was made, had no room in its path, or was refused with its path. */
enum { BEGUN = 0, MADE = 1, DROPPED = 2, REFUSED = 3, OTHER = 4 };
/* Of a request: it is open, it is being ended, it was kept, thrown away, or neither as far as its end says: that was refused, or the rule doesn't tell. */
enum { IS_OPEN = 0, ENDS = 1, KEPT = 2, THROWN = 3, NOT_KEPT = 4 };

DSPEC_PROBE(step, uint64_t, serial);
DSPEC_PROBE(said, uint32_t, serial, dspec_text16, what);
DSPEC_PROBE(wide, uint64_t, serial, uint64_t, twice, uint32_t, half);

typedef struct noted_record {
    uint32_t request, thread, fate, padding;
    uint64_t before, after; /* times around the call */
} noted_record;

typedef struct noted_request {
    uint32_t fate, why, thread, by;
    uint64_t key[2], before, after; /* times around the call that ended it */
} noted_request;

/* All that the program knows, at fixed places: tests/c/whose reads it. */
static struct truth {
    atomic_uint records, requests, refused_paths, refused_records;
    uint32_t state; /* 1: the tracer is up; 2: the work is done */
    uint32_t crashed_request, crashed_thread, crash_signal, refused_paths_then, refused_records_then;
    uint64_t crashed_at;
    noted_request request[MOST_REQUESTS];
    noted_record record[MOST_RECORDS];
} *truth;

typedef struct job {
    dspec_path path;
    uint32_t number;
    bool is_begun, is_out, is_over, is_refused;
} job;

static dspec_tracer tracer;
static job jobs[OPEN];
static pthread_mutex_t mutex = PTHREAD_MUTEX_INITIALIZER;
static pthread_cond_t given = PTHREAD_COND_INITIALIZER;
static job *waiting[OPEN];
static uint32_t waits;
static bool is_over;
static uint32_t crash_at = UINT32_MAX;
static unsigned crash_way;
static uint64_t seed;
static volatile uintptr_t nowhere = 8;

static __thread uint64_t dice;
static __thread uint32_t self;

static uint32_t thrown(uint32_t sides) {
    dice ^= dice << 13;
    dice ^= dice >> 7;
    dice ^= dice << 17;
    return (uint32_t)(dice >> 33) % sides;
}

static void begin_dice(uint64_t number, uint64_t thread) {
    dice = (number * 64 + thread + 1) * UINT64_C(0x9e3779b97f4a7c15);
    for (int i = 0; i < 8; i++) thrown(2);
    self = (uint32_t)syscall(SYS_gettid);
}

__attribute__((noinline)) static void crashes(job *of) {
    truth->crashed_request = of->number;
    truth->crashed_thread = self;
    truth->crashed_at = dspec_tracer_now();
    truth->crash_signal = crash_way == 0 ? SIGABRT : crash_way == 1 ? SIGSEGV : SIGILL;
    truth->refused_paths_then = truth->refused_paths;
    truth->refused_records_then = truth->refused_records;
    if (crash_way == 0) abort();
    if (crash_way == 1) *(volatile int *)nowhere = 1;
    __builtin_trap();
}

static dspec_status put(job *of, uint32_t serial) {
    char text[16];
    switch (thrown(3)) {
    case 0: return step_in(&of->path, serial);
    case 1: return said_in(&of->path, serial, dspec_text16_of(text, (size_t)snprintf(text, sizeof text, "%u", serial)));
    default: return wide_in(&of->path, serial, 2 * (uint64_t)serial, serial / 2);
    }
}

static void records(job *of) {
    const uint32_t serial = atomic_fetch_add(&truth->records, 1);
    if (serial >= MOST_RECORDS) return;
    noted_record *noted = &truth->record[serial];
    noted->request = of->number;
    noted->thread = self;
    noted->before = dspec_tracer_now();
    const dspec_status status = put(of, serial);
    noted->after = dspec_tracer_now();
    atomic_thread_fence(memory_order_seq_cst);
    noted->fate = status == DSPEC_OK ? MADE : status == DSPEC_DROPPED ? DROPPED : status == DSPEC_UNAVAILABLE ? REFUSED : OTHER;
    if (status == DSPEC_UNAVAILABLE) {
        if (!of->is_refused) atomic_fetch_add(&truth->refused_paths, 1);
        of->is_refused = true;
        atomic_fetch_add(&truth->refused_records, 1);
    }
    if (serial >= crash_at && __atomic_exchange_n(&crash_at, UINT32_MAX, __ATOMIC_SEQ_CST) != UINT32_MAX) crashes(of);
}

/* Ends a request in one of the ways there are; its reason where it is kept. */
static void ends(job *of) {
    static const uint32_t whys[] = { DSPEC_WHY_FAILED, DSPEC_WHY_SLOW, DSPEC_WHY_ASKED, DSPEC_WHY_OWN, DSPEC_WHY_OWN + 1 };
    noted_request *noted = &truth->request[of->number];
    const uint32_t way = thrown(6);
    bool is_kept = false, is_thrown = false;
    noted->by = self;
    noted->why = way == 0 ? DSPEC_WHY_KEPT : way == 1 ? whys[thrown(5)] : way == 2 ? DSPEC_WHY_FAILED : DSPEC_WHY_SAMPLED;
    noted->before = dspec_tracer_now();
    noted->fate = ENDS;
    atomic_thread_fence(memory_order_seq_cst);
    if (way == 0) is_kept = dspec_path_keep(&of->path);
    else if (way == 1) is_kept = dspec_path_keep_why(&of->path, noted->why);
    else if (way == 2) is_kept = dspec_path_end(&of->path, true, 0);
    else if (way == 3) is_thrown = dspec_path_drop(&of->path);
    else is_kept = dspec_path_end(&of->path, false, 0);
    noted->after = dspec_tracer_now();
    atomic_thread_fence(memory_order_seq_cst);
    noted->fate = is_kept ? KEPT : is_thrown ? THROWN : NOT_KEPT;
    of->is_over = true;
}

static void works(job *of) {
    if (thrown(2) == 0) dspec_path_adopt(&of->path);
    for (uint32_t left = 1 + thrown(3); left > 0; left--) records(of);
    if (thrown(8) == 0) ends(of);
}

static void *worker(void *number) {
    begin_dice(seed, (uint64_t)(uintptr_t)number);
    pthread_mutex_lock(&mutex);
    for (;;) {
        while (waits == 0 && !is_over) pthread_cond_wait(&given, &mutex);
        if (waits == 0) break;
        job *of = waiting[--waits];
        pthread_mutex_unlock(&mutex);
        works(of);
        pthread_mutex_lock(&mutex);
        of->is_out = false;
    }
    pthread_mutex_unlock(&mutex);
    return NULL;
}

static bool is_back(const job *of) {
    pthread_mutex_lock(&mutex);
    const bool is_here = !of->is_out;
    pthread_mutex_unlock(&mutex);
    return is_here;
}

static void gives(job *of) {
    pthread_mutex_lock(&mutex);
    of->is_out = true;
    waiting[waits++] = of;
    pthread_cond_signal(&given);
    pthread_mutex_unlock(&mutex);
}

/* A new request in the place of one that is over: whether there is one. */
static bool accepts(job *of) {
    const uint32_t number = atomic_fetch_add(&truth->requests, 1);
    if (number >= MOST_REQUESTS) {
        atomic_fetch_sub(&truth->requests, 1);
        return false;
    }
    *of = (job){ .path = dspec_path_begin(&tracer), .number = number, .is_begun = true };
    truth->request[number].thread = self;
    records(of);
    if (thrown(4) == 0 && dspec_path_key(&of->path, number + 1, ~(uint64_t)number)) memcpy(truth->request[number].key, (uint64_t[]){ number + 1, ~(uint64_t)number }, 16);
    return true;
}

static void turn(job *of) {
    if (!is_back(of)) return;
    if (!of->is_begun || of->is_over) {
        of->is_begun = accepts(of);
        return;
    }
    switch (thrown(5)) {
    case 0: ends(of); break;
    case 1: case 2: records(of); break;
    default: gives(of);
    }
}

/* So many records, in all; and what is open is ended before the workers are, since a thread that ends throws away what it had last. */
static void runs(uint32_t most) {
    pthread_t threads[WORKERS];
    for (uintptr_t i = 0; i < WORKERS; i++) pthread_create(&threads[i], NULL, worker, (void *)(i + 1));
    while (atomic_load(&truth->records) < most && atomic_load(&truth->requests) < MOST_REQUESTS - 1) turn(&jobs[thrown(OPEN)]);
    for (int i = 0; i < OPEN; i++) {
        while (!is_back(&jobs[i])) sched_yield();
        if (jobs[i].is_begun && !jobs[i].is_over) ends(&jobs[i]);
    }
    pthread_mutex_lock(&mutex);
    is_over = true;
    pthread_cond_broadcast(&given);
    pthread_mutex_unlock(&mutex);
    for (int i = 0; i < WORKERS; i++) pthread_join(threads[i], NULL);
}

static bool map_truth(const char *name) {
    const int file = open(name, O_RDWR | O_CREAT | O_TRUNC, 0600);
    if (file < 0 || ftruncate(file, sizeof *truth) != 0) return false;
    truth = mmap(NULL, sizeof *truth, PROT_READ | PROT_WRITE, MAP_SHARED, file, 0);
    close(file);
    return truth != MAP_FAILED;
}

/* The seed says how many lanes and paths there are: with few of both paths are refused, with small ones records have no room. */
static bool starts(const char *folder, bool survives, bool refuses) {
    static const uint32_t lanes[] = { 1, 2, 4, 8, 16 }, paths[] = { 8, 16, 32, 63 }, sizes[] = { 192, 512, 4096, 4096 };
    static const char *const texts[] = { "by_hand", "for_later" };
    static const size_t count = sizeof texts / sizeof texts[0];
    static const dspec_labels whys = { texts, &count };
    dspec_tracer_options options = {
        .lanes = lanes[thrown(5)], .paths = paths[thrown(4)], .specsize = sizes[thrown(4)], .sample = 3, .survive = survives, .whys = &whys, .crash_ms = 60000, .keep_ms = thrown(2) * 1000,
    };
    if (refuses) options.lanes = 1, options.paths = 8;
    return dspec_tracer_start(&tracer, folder, &options, DSPEC_PROBES(step, said, wide));
}

int main(int argc, char **argv) {
    dspec_tracer_report report;
    if (argc < 5 || !map_truth(argv[2])) return 2;
    const bool is_killed = strcmp(argv[4], "kill") == 0, is_crash = strcmp(argv[4], "crash") == 0, is_quiet = strcmp(argv[4], "quiet") == 0;
    seed = strtoull(argv[3], NULL, 10);
    begin_dice(seed, 0);
    if (!starts(argv[1], is_killed, is_quiet)) {
        fprintf(stderr, "whose: %s\n", tracer.why);
        return 2;
    }
    __atomic_store_n(&truth->state, 1, __ATOMIC_SEQ_CST);
    const uint32_t most = 500 + thrown(3500);
    if (is_crash) crash_at = 200 + thrown(most - 250);
    crash_way = thrown(3);
    runs(is_killed ? MOST_RECORDS : most);
    __atomic_store_n(&truth->state, 2, __ATOMIC_SEQ_CST);
    while (is_killed || is_quiet) pause();
    if (!dspec_tracer_stop(&tracer, &report)) return 1;
    printf("kept=%" PRIu64 " thrown=%" PRIu64 " refused=%" PRIu64 " refused_records=%" PRIu64 "\n", report.kept, report.thrown, report.no_slot, report.refused_records);
    return 0;
}
