/* beside.c: what a path costs in the tracer, beside the same in a hand-written ring (ring.h), under one mutex (mutex.h) and, with LTTNG, by LTTng-UST. A record has a stamp and 24 bytes: fields of 1, 2, 4 and 8
 * bytes, in the tracer the number of its path besides. Each is made in a function of its own, as programs have many places.
 *
 *   beside FOLDER times THREADS SLICES   all ways by turns on that many threads, in slices of 20: the least and the middle of them in nanoseconds, as a mean over the threads
 *   beside FOLDER steps WAY NUMBER       a way so many times between two breakpoints, for steps.c
 *   beside FOLDER ways                   the names of the ways
 */
#define _GNU_SOURCE
#include "dspec_tracer.h"

#include "mutex.h"
#include "ring.h"

#include <sys/stat.h>
#include <time.h>
#ifdef LTTNG
#define LTTNG_UST_TRACEPOINT_CREATE_PROBES
#define LTTNG_UST_TRACEPOINT_DEFINE
#include "../peers/lttng_events.h"
#endif

DSPEC_PROBE(step, uint8_t, one, uint16_t, two, uint32_t, four, uint64_t, eight);

#define CALL __attribute__((noinline)) static

enum { ONE = 200, TWO = 60000, IN_A_SLICE = 20, FEW = 3, MANY = 20 };
static const uint64_t EIGHT = UINT64_C(9000000000000000000);

static dspec_tracer by_clock, by_counter;

static inline uint64_t monotonic(void) {
    struct timespec now;
    clock_gettime(CLOCK_MONOTONIC, &now);
    return (uint64_t)now.tv_sec * UINT64_C(1000000000) + (uint64_t)now.tv_nsec;
}
static inline uint64_t counter(void) { return __builtin_ia32_rdtsc(); }

typedef struct ring_record {
    uint32_t event;
    uint8_t one;
    uint16_t two;
    uint64_t stamp;
    uint32_t four;
    uint64_t eight;
} ring_record;

/* ---- A record of each. ---- */

CALL void record_in_tracer(dspec_path *path, uint32_t four) { step_in(path, ONE, TWO, four, EIGHT); }
CALL void record_by_clock(uint32_t four) { step_now(&by_clock, ONE, TWO, four, EIGHT); }
CALL void record_by_counter(uint32_t four) { step_now(&by_counter, ONE, TWO, four, EIGHT); }
#define RING_RECORDS(CLOCK)                                                                \
    CALL void ring_record_##CLOCK(uint32_t four) {                                         \
        ring_record record = { 1, ONE, TWO, CLOCK(), four, EIGHT };                        \
        ring_put(&record, sizeof record);                                                  \
    }                                                                                      \
    CALL void ring_alone_##CLOCK(uint32_t four) {                                          \
        ring_record record = { 1, ONE, TWO, CLOCK(), four, EIGHT };                        \
        ring_out(ring_of_thread(), &record, sizeof record);                                \
    }
RING_RECORDS(monotonic)
RING_RECORDS(counter)
CALL void record_under_mutex(uint32_t four) {
    shared_record record = { shared_request, monotonic(), EIGHT, 1, four, TWO, ONE };
    shared_put(&record);
}
CALL void read_monotonic(uint32_t unused) {
    uint64_t now = monotonic();
    (void)unused;
    __asm__ volatile("" : : "r"(now)); /* it is used */
}
CALL void read_counter(uint32_t unused) {
    uint64_t now = counter();
    (void)unused;
    __asm__ volatile("" : : "r"(now)); /* it is used */
}
#ifdef LTTNG
CALL void record_by_lttng(uint32_t four) { lttng_ust_tracepoint(dspec_peers, bytes_24, ONE, TWO, four, EIGHT); }
#endif

/* ---- The ways: a path of so many records and its end, or a record alone. ---- */

#define TRACER_PATH(NAME, TRACER, RECORDS, END)                                            \
    static void NAME(void) {                                                               \
        dspec_path path = dspec_path_begin(&TRACER);                                       \
        for (uint32_t i = 0; i < RECORDS; i++) record_in_tracer(&path, i);                 \
        dspec_path_##END(&path);                                                           \
    }
TRACER_PATH(clock_few_drop, by_clock, FEW, drop)
TRACER_PATH(clock_few_keep, by_clock, FEW, keep)
TRACER_PATH(clock_many_drop, by_clock, MANY, drop)
TRACER_PATH(counter_few_drop, by_counter, FEW, drop)
TRACER_PATH(counter_few_keep, by_counter, FEW, keep)
TRACER_PATH(counter_many_drop, by_counter, MANY, drop)
#define RING_PATHS(CLOCK)                                                                  \
    static void ring_##CLOCK##_few_drop(void) {                                            \
        ring_path();                                                                       \
        for (uint32_t i = 0; i < FEW; i++) ring_record_##CLOCK(i);                         \
    }                                                                                      \
    static void ring_##CLOCK##_few_keep(void) {                                            \
        uint64_t from = ring_path();                                                       \
        for (uint32_t i = 0; i < FEW; i++) ring_record_##CLOCK(i);                         \
        ring_keep(from);                                                                   \
    }                                                                                      \
    static void ring_##CLOCK##_many_drop(void) {                                           \
        ring_path();                                                                       \
        for (uint32_t i = 0; i < MANY; i++) ring_record_##CLOCK(i);                        \
    }
RING_PATHS(monotonic)
RING_PATHS(counter)
static void mutex_few_drop(void) {
    shared_path();
    for (uint32_t i = 0; i < FEW; i++) record_under_mutex(i);
}
static void mutex_few_keep(void) {
    uint64_t from = shared_path();
    for (uint32_t i = 0; i < FEW; i++) record_under_mutex(i);
    shared_keep(from);
}
static void mutex_many_drop(void) {
    shared_path();
    for (uint32_t i = 0; i < MANY; i++) record_under_mutex(i);
}
#define ALONE(NAME, RECORD) static void NAME(void) { RECORD(7); }
ALONE(clock_alone, record_by_clock)
ALONE(counter_alone, record_by_counter)
ALONE(ring_clock_alone, ring_alone_monotonic)
ALONE(ring_counter_alone, ring_alone_counter)
ALONE(monotonic_alone, read_monotonic)
ALONE(counter_read_alone, read_counter)
#ifdef LTTNG
ALONE(lttng_alone, record_by_lttng)
static void lttng_few(void) {
    for (uint32_t i = 0; i < FEW; i++) record_by_lttng(i);
}
static void lttng_many(void) {
    for (uint32_t i = 0; i < MANY; i++) record_by_lttng(i);
}
#endif

/* A row of the table: of 3 records thrown away, of 3 kept, of 20 thrown away, a record alone; NULL: there is none. */
enum { COLUMNS = 4 };
static const char *const columns[COLUMNS] = { "3-dropped", "3-kept", "20-dropped", "alone" };
typedef struct row {
    const char *name;
    void (*run[COLUMNS])(void);
} row;
static const row rows[] = {
    { "clock", { NULL, NULL, NULL, monotonic_alone } },
    { "tracer", { clock_few_drop, clock_few_keep, clock_many_drop, clock_alone } },
    { "ring", { ring_monotonic_few_drop, ring_monotonic_few_keep, ring_monotonic_many_drop, ring_clock_alone } },
    { "mutex", { mutex_few_drop, mutex_few_keep, mutex_many_drop, NULL } },
    { "counter", { NULL, NULL, NULL, counter_read_alone } },
    { "tracer-counter", { counter_few_drop, counter_few_keep, counter_many_drop, counter_alone } },
    { "ring-counter", { ring_counter_few_drop, ring_counter_few_keep, ring_counter_many_drop, ring_counter_alone } },
#ifdef LTTNG
    { "lttng", { NULL, lttng_few, lttng_many, lttng_alone } },
#endif
};
enum { ROWS = sizeof rows / sizeof rows[0] };

/* ---- Times. ---- */

static unsigned slices;
static pthread_barrier_t together;
static double *taken[RING_THREADS];

static double *slice_of(long thread, int one, int column) { return taken[thread] + (one * COLUMNS + column) * (int)slices; }

static void *takes_times(void *number) {
    const long thread = (long)number;
    shared_request = (uint64_t)thread;
    for (unsigned slice = 0; slice < slices; slice++) {
        for (int one = 0; one < (int)ROWS; one++)
            for (int column = 0; column < COLUMNS; column++) {
                void (*run)(void) = rows[one].run[column];
                if (run == NULL) continue;
                pthread_barrier_wait(&together);
                run();
                const uint64_t began = monotonic();
                for (int i = 0; i < IN_A_SLICE; i++) run();
                slice_of(thread, one, column)[slice] = (double)(monotonic() - began) / IN_A_SLICE;
            }
        if (thread == 0 && slice % 4 == 3) usleep(2000); /* the consumers get their turns */
    }
    return NULL;
}

static int compared(const void *one, const void *other) {
    const double left = *(const double *)one, right = *(const double *)other;
    return left < right ? -1 : left > right;
}

static void print_times(long threads) {
    printf("%-15s", "nanoseconds");
    for (int column = 0; column < COLUMNS; column++) printf("  %10s (middle)", columns[column]);
    printf("\n");
    for (int one = 0; one < (int)ROWS; one++) {
        printf("%-15s", rows[one].name);
        for (int column = 0; column < COLUMNS; column++) {
            double least = 0, middle = 0;
            for (long thread = 0; thread < threads; thread++) {
                qsort(slice_of(thread, one, column), slices, sizeof(double), compared);
                least += slice_of(thread, one, column)[0] / (double)threads;
                middle += slice_of(thread, one, column)[slices / 2] / (double)threads;
            }
            if (rows[one].run[column] == NULL) printf("  %10s %8s", "-", "");
            else printf("  %10.1f (%6.1f)", least, middle);
        }
        printf("\n");
    }
}

static void times(long threads) {
    pthread_t made[RING_THREADS];
    pthread_barrier_init(&together, NULL, (unsigned)threads);
    for (long thread = 0; thread < threads; thread++) {
        taken[thread] = calloc((size_t)ROWS * COLUMNS * slices, sizeof(double));
        ring_must(taken[thread] != NULL && pthread_create(&made[thread], NULL, takes_times, (void *)thread) == 0);
    }
    for (long thread = 0; thread < threads; thread++) pthread_join(made[thread], NULL);
    print_times(threads);
}

/* ---- Steps. ---- */

/* The way called ROW.COLUMN, or NULL. */
static void (*way_of(const char *name))(void) {
    for (int one = 0; one < (int)ROWS; one++)
        for (int column = 0; column < COLUMNS; column++) {
            char its[64];
            snprintf(its, sizeof its, "%s.%s", rows[one].name, columns[column]);
            if (strcmp(its, name) == 0) return rows[one].run[column];
        }
    return NULL;
}

static int steps(const char *name, unsigned number) {
    void (*run)(void) = way_of(name);
    if (run == NULL) return 2;
    for (int i = 0; i < 100; i++) run();
    usleep(50000); /* what the consumer has to do is done */
    for (int i = 0; i < 5; i++) run();
    __asm__ volatile("int3");
    for (unsigned i = 0; i < number; i++) run();
    __asm__ volatile("int3");
    return 0;
}

static void start(dspec_tracer *tracer, const char *folder, const char *name, uint64_t clock, uint32_t period_ms) {
    const dspec_tracer_options options = { .bufsize = DSPEC_MAX_BUFFER, .clock = clock, .period_ms = period_ms };
    char path[4096];
    snprintf(path, sizeof path, "%s/%s", folder, name);
    if (dspec_tracer_start(tracer, path, &options, DSPEC_PROBES(step))) return;
    fprintf(stderr, "beside: %s: %s\n", name, tracer->why);
    exit(1);
}

int main(int argc, char **argv) {
    if (argc < 3) return 2;
    static char folder[4096];
    const bool is_stepped = strcmp(argv[2], "steps") == 0;
    snprintf(folder, sizeof folder, "%s/ring", argv[1]);
    if (mkdir(argv[1], 0700) != 0 && access(argv[1], W_OK) != 0) return 2;
    mkdir(folder, 0700);
    if (strcmp(argv[2], "ways") == 0) {
        for (int one = 0; one < (int)ROWS; one++)
            for (int column = 0; column < COLUMNS; column++)
                if (rows[one].run[column] != NULL) printf("%s.%s\n", rows[one].name, columns[column]);
        return 0;
    }
    ring_start(folder);
    ring_path();
    start(&by_clock, argv[1], "clock", DSPEC_CLOCK_MONOTONIC, is_stepped ? 100000 : 0);
    start(&by_counter, argv[1], "counter", DSPEC_CLOCK_TSC, is_stepped ? 100000 : 0);
    if (is_stepped) _exit(argc > 4 ? steps(argv[3], (unsigned)atoi(argv[4])) : 2);
    slices = argc > 4 ? (unsigned)atoi(argv[4]) : 0;
    if (slices < 4 || atol(argv[3]) < 1 || atol(argv[3]) > RING_THREADS) return 2;
    times(atol(argv[3]));
    ring_stop();
    if (!dspec_tracer_stop(&by_clock, NULL) || !dspec_tracer_stop(&by_counter, NULL)) fprintf(stderr, "beside: a tracer didn't write all that it kept\n");
    return 0;
}
