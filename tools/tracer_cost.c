/* What a tracer's calls cost beside the library's own: `tracer_cost FOLDER WAY NUMBER [CPUS]` makes so many paths, or records, for a tool that counts instructions;
 * `tracer_cost FOLDER times [CPUS]` takes all ways by turns, in slices shorter than a turn on a processor, and prints the 5th percentile of each, in nanoseconds. raw is a session of so many CPUs (1),
 * with the monotonic clock, with a service a path; boxed is the tracer, with CLOCK=tsc by the time stamp counter. keyed3 and parked3 are of a tracer with rings: paths with a key that are thrown away, and
 * parked. */
#include "dspec_system.h"
#include "dspec_tracer.h"

#include <stdio.h>
#include <stdlib.h>
#include <unistd.h>

DSPEC_PROBE(query, uint64_t, request, uint32_t, step);

static dspec_tracer tracer;
static dspec_cpu cpu;
static query_probe query;

static void raw_path(uint32_t records) {
    uint64_t id;
    uint32_t count;
    bool sealed;
    dspec_speculation(&cpu, &id);
    for (uint32_t i = 0; i < records; i++) query_speculate(&query, &cpu, id, dspec_monotonic(), 1, i);
    dspec_discard(&cpu, id, &count);
    dspec_service(&cpu, &sealed, &count);
}

static void boxed_path(uint32_t records) {
    dspec_path path = dspec_path_begin(&tracer);
    for (uint32_t i = 0; i < records; i++) query_in(&path, 1, i);
    dspec_path_drop(&path);
}

static void keep_path(uint32_t records) {
    dspec_path path = dspec_path_begin(&tracer);
    for (uint32_t i = 0; i < records; i++) query_in(&path, 1, i);
    dspec_path_keep(&path);
}

/* As many paths as a ring has room for make room for each further one. */
static dspec_path keyed(void) {
    static uint64_t number;
    dspec_path path = dspec_path_begin(&tracer);
    query_in(&path, 1, 0);
    dspec_path_key(&path, 1, number++);
    for (uint32_t i = 1; i < 3; i++) query_in(&path, 1, i);
    return path;
}

static void keyed3(void) {
    dspec_path path = keyed();
    dspec_path_drop(&path);
}

static void parked3(void) {
    dspec_path path = keyed();
    dspec_path_park(&path);
}

static void raw20(void) { raw_path(20); }
static void boxed20(void) { boxed_path(20); }
static void raw3(void) { raw_path(3); }
static void boxed3(void) { boxed_path(3); }
static void kept3(void) { keep_path(3); }
static void raw(void) { query_trace(&query, &cpu, dspec_monotonic(), 1, 1); }
static void boxed(void) { query_now(&tracer, 1, 1); }

static const struct {
    const char *name;
    void (*run)(void);
} ways[] = { { "raw20", raw20 }, { "boxed20", boxed20 }, { "raw3", raw3 }, { "boxed3", boxed3 }, { "kept3", kept3 }, { "raw", raw }, { "boxed", boxed }, { "keyed3", keyed3 }, { "parked3", parked3 } };

enum { WAYS = sizeof ways / sizeof ways[0], SLICES = 2000, IN_A_SLICE = 20 };

static void must(dspec_status status) {
    if (status == DSPEC_OK) return;
    fprintf(stderr, "tracer_cost: %s\n", dspec_status_text(status));
    exit(1);
}

static void start_raw(uint32_t cpus) {
    static dspec_session session;
    static dspec_layout layout = { .stamped = true };
    dspec_schema schema = DSPEC_EMPTY;
    const dspec_config config = {
        .cpus = cpus, .nspec = 32, .bufsize = DSPEC_MAX_BUFFER, .specsize = 4096, .max_issues = DSPEC_MAX_ISSUES, .max_calls = DSPEC_MAX_CALLS, .policy = DSPEC_POLICY_SWITCH,
    };
    must(dspec_schema_new(&schema));
    must(dspec_schema_stamp(&schema));
    must(query_enable(&query, &layout, &schema));
    must(dspec_start(&config, &schema, &session));
    must(dspec_cpu_of(&session, 0, &cpu));
}

static int compared(const void *one, const void *other) {
    double left = *(const double *)one, right = *(const double *)other;
    return left < right ? -1 : left > right;
}

static void times(void) {
    static double taken[WAYS][SLICES];
    for (int slice = 0; slice < SLICES; slice++)
        for (int way = 0; way < (int)WAYS; way++) {
            uint64_t began = dspec_tracer_now();
            for (int i = 0; i < IN_A_SLICE; i++) ways[way].run();
            taken[way][slice] = (double)(dspec_tracer_now() - began) / IN_A_SLICE;
        }
    for (int way = 0; way < (int)WAYS; way++) {
        qsort(taken[way], SLICES, sizeof taken[way][0], compared);
        printf("%-8s %7.0f ns\n", ways[way].name, taken[way][SLICES / 20]);
    }
}

int main(int argc, char **argv) {
    dspec_tracer_options options = { .bufsize = DSPEC_MAX_BUFFER, .period_ms = 100000, .by_thread = getenv("BY_THREAD") != NULL, .no_membarrier = getenv("EXCHANGE") != NULL };
    const char *way = argc > 2 ? argv[2] : "", *cpus = "1";
    if (strcmp(way, "keyed3") == 0 || strcmp(way, "parked3") == 0 || strcmp(way, "times") == 0) options.park_bytes = 1 << 16;
    if (argc > 3 && strcmp(way, "times") == 0) cpus = argv[3];
    if (argc > 4) cpus = argv[4];
    if (getenv("CLOCK") != NULL && strcmp(getenv("CLOCK"), "tsc") == 0) options.clock = DSPEC_CLOCK_TSC;
    if (!dspec_tracer_start(&tracer, argv[1], &options, DSPEC_PROBES(query))) {
        fprintf(stderr, "tracer_cost: %s\n", tracer.why);
        return 1;
    }
    start_raw((uint32_t)strtoul(cpus, NULL, 10));
    if (strcmp(way, "times") == 0) times();
    for (int i = 0; i < (int)WAYS; i++) {
        if (strcmp(way, ways[i].name) != 0) continue;
        for (unsigned long number = argc > 3 ? strtoul(argv[3], NULL, 10) : 0; number > 0; number--) ways[i].run();
    }
    fflush(stdout);
    _exit(0); /* what the end costs isn't asked */
}
