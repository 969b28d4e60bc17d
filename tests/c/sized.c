/* Options and reports that are larger or smaller than this header has them, as programs have them that were compiled with another version. Each lies before memory that can't be touched:
 * `sized FOLDER`. Its last line counts its checks. */
#define _GNU_SOURCE
#include "dspec_tracer.h"

#include "check.h"

#include <stdlib.h>
#include <sys/mman.h>
#include <unistd.h>

DSPEC_PROBE(tick, uint64_t, number);

/* As a later version may have them. */
typedef struct longer_options {
    dspec_tracer_options known;
    uint64_t later;
} longer_options;
typedef struct longer_report {
    dspec_tracer_report known;
    uint64_t later;
} longer_report;

static dspec_tracer tracer;
static const char *folder;
static int runs;

/* So many bytes, after which nothing may be read or written. */
static void *before_the_end(size_t size) {
    const size_t page = (size_t)sysconf(_SC_PAGESIZE);
    char *memory = mmap(NULL, 2 * page, PROT_READ | PROT_WRITE, MAP_PRIVATE | MAP_ANONYMOUS, -1, 0);
    if (memory == MAP_FAILED || mprotect(memory + page, page, PROT_NONE) != 0) exit(2);
    return memory + page - size;
}

static const char *next_folder(void) {
    static char name[4096];
    snprintf(name, sizeof name, "%s-%d", folder, runs++);
    setenv("DSPEC_TRACE", name, 1);
    return name;
}

static bool starts(const void *options, size_t size, bool by_environment) {
    const char *name = next_folder();
    if (by_environment) return dspec_tracer_start_env_sized(&tracer, options, size, DSPEC_PROBES(tick), NULL, NULL);
    return dspec_tracer_start_sized(&tracer, name, options, size, DSPEC_PROBES(tick), NULL, NULL);
}

static void stops(void) {
    CHECK(dspec_tracer_stop(&tracer, NULL));
    dspec_tracer_drop(&tracer);
}

/* Of an older program's options what it has is heeded, and no byte after it is looked at. */
static void shorter(bool by_environment) {
    const size_t size = offsetof(dspec_tracer_options, max_bytes);
    dspec_tracer_options *options = before_the_end(size);
    const dspec_tracer_options known = { .lanes = 2, .specsize = 256 };
    memcpy((void *)options, &known, size);
    if (CHECK(starts(options, size, by_environment))) stops();
    options->lanes = 64;
    CHECK(!starts(options, size, by_environment) && strstr(tracer.why, "lanes") != NULL);
    dspec_tracer_drop(&tracer);
}

/* A newer program's are taken where it sets nothing that isn't known here. */
static void longer(bool by_environment) {
    longer_options *options = before_the_end(sizeof *options);
    *options = (longer_options){ .known = { .lanes = 2 } };
    if (CHECK(starts(options, sizeof *options, by_environment))) stops();
    options->later = UINT64_C(1) << 63;
    CHECK(!starts(options, sizeof *options, by_environment) && strstr(tracer.why, "compiled with a newer header") != NULL);
    dspec_tracer_drop(&tracer);
}

/* An older program's report gets its beginning, and a newer one's is zero where nothing is known here. */
static void reports(void) {
    const size_t size = offsetof(dspec_tracer_report, kept);
    dspec_tracer_report *small = before_the_end(size);
    longer_report *large = before_the_end(sizeof *large);
    if (!CHECK(starts(NULL, 0, false))) return;
    CHECK(tick_now(&tracer, 1) == DSPEC_OK && tick_now(&tracer, 2) == DSPEC_OK);
    CHECK(dspec_tracer_flush(&tracer, 60000));
    memset((void *)small, 255, size);
    CHECK(dspec_tracer_counts_sized(&tracer, small, size) && small->accepted == 2 && small->refused == 0);
    memset(large, 255, sizeof *large);
    CHECK(dspec_tracer_counts_sized(&tracer, &large->known, sizeof *large) && large->known.accepted == 2 && large->known.threads == 1 && large->later == 0);
    memset((void *)small, 255, size);
    CHECK(dspec_tracer_stop_sized(&tracer, small, size) && small->accepted == 2 && small->refused == 0);
    memset(large, 255, sizeof *large);
    CHECK(dspec_tracer_stop_sized(&tracer, &large->known, sizeof *large) && large->known.accepted == 2 && large->later == 0 && large->known.why[0] == 0);
    dspec_tracer_drop(&tracer);
    memset(large, 255, sizeof *large);
    CHECK(!dspec_tracer_counts_sized(&tracer, &large->known, sizeof *large) && large->known.accepted == 0 && large->later == 0);
}

int main(int argc, char **argv) {
    if (argc < 2) return 2;
    folder = argv[1];
    for (int by_environment = 0; by_environment < 2; by_environment++) {
        shorter(by_environment != 0);
        longer(by_environment != 0);
    }
    reports();
    return check_end();
}
