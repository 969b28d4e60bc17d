/* The clock of a tracer's stamps. `clocks FOLDER MODE`; where the processor's time stamp counter can't be had, it says why and its status is 77.
 *
 *   alternate [BYTES]  records by turns into FOLDER/monotonic and FOLDER/counter, in no path and in paths, each with its number; a line for each: its number and what the monotonic clock showed before and
 *                      after it. With BYTES the second has a bound.
 *   crash, kill        a path that crashes, and kept records that a kill leaves in the memory; likewise
 *   durations          what dspec_path_took says, and which paths dspec_path_end takes for slow ones
 *   words              clocks that can't be had, and what DSPEC_TRACE says
 *   unknown            over a library whose system keeps its time by another clock
 *   removed            the metadata isn't there at the end
 * The last three count their checks in their last line. */
#define _GNU_SOURCE
#include "dspec_tracer.h"

#include "check.h"

#include <inttypes.h>
#include <signal.h>
#include <sys/prctl.h>
#include <unistd.h>

/* Further apart than what the tools may be wrong by, for both clocks. */
enum { APART_NS = 5000, RECORDS = 300, NOT_THERE = 77 };

DSPEC_PROBE(said, uint64_t, number);

static dspec_tracer monotonic, counter;
static const char *folder;
static uint64_t number;

static const char *within(const char *name) {
    static char path[4200];
    snprintf(path, sizeof path, "%s/%s", folder, name);
    return path;
}

static void must_start(dspec_tracer *tracer, const char *name, dspec_tracer_options options) {
    if (dspec_tracer_start(tracer, within(name), &options, DSPEC_PROBES(said))) return;
    printf("%s\n", tracer->why);
    exit(strncmp(tracer->why, "the options: clock: ", 20) == 0 ? NOT_THERE : 2);
}

static void wait_until(uint64_t at) {
    while (dspec_tracer_now() < at) continue;
}

/* Tells of a record when it was made. */
static void tell(uint64_t before) {
    printf("%" PRIu64 " %" PRIu64 " %" PRIu64 "\n", number, before, dspec_tracer_now());
    fflush(stdout);
    wait_until(dspec_tracer_now() + APART_NS);
}

static void record_now(dspec_tracer *tracer) {
    const uint64_t before = dspec_tracer_now();
    if (said_now(tracer, ++number) != DSPEC_OK) exit(2);
    tell(before);
}

/* As many records of a path as are asked for, which is kept then. */
static void record_path(dspec_tracer *tracer, int records) {
    dspec_path path = dspec_path_begin(tracer);
    while (records-- > 0) {
        const uint64_t before = dspec_tracer_now();
        if (said_in(&path, ++number) != DSPEC_OK) exit(2);
        tell(before);
    }
    if (!dspec_path_keep(&path)) exit(2);
}

static int alternate(uint64_t bytes) {
    must_start(&monotonic, "monotonic", (dspec_tracer_options){ .keep_ms = 60000 });
    must_start(&counter, "counter", (dspec_tracer_options){ .clock = DSPEC_CLOCK_TSC, .keep_ms = 60000, .max_bytes = bytes, .lanes = 2 });
    for (int i = 0; i < RECORDS / 5; i++) {
        record_now(&monotonic);
        record_path(&counter, 2);
        record_now(&counter);
        record_path(&monotonic, 1);
        if (i % 10 == 0) usleep(10000);
    }
    return !dspec_tracer_stop(&monotonic, NULL) || !dspec_tracer_stop(&counter, NULL);
}

static int crash(void) {
    must_start(&counter, "counter", (dspec_tracer_options){ .clock = DSPEC_CLOCK_TSC, .crash_ms = 60000 });
    dspec_path path = dspec_path_begin(&counter);
    const uint64_t before = dspec_tracer_now();
    if (said_in(&path, ++number) != DSPEC_OK) return 2;
    tell(before);
    raise(SIGSEGV);
    return 2;
}

static int killed(void) {
    must_start(&counter, "counter", (dspec_tracer_options){ .clock = DSPEC_CLOCK_TSC, .survive = true, .period_ms = 3600000 });
    wait_until(dspec_tracer_now() + 50000000);
    if (!dspec_tracer_flush(&counter, 600000)) return 2;
    for (int i = 0; i < 20; i++) record_now(&counter);
    kill(getpid(), SIGKILL);
    return 2;
}

/* What a path took lies between what the monotonic clock says of the inner and of the outer ends, but for a thousandth and a microsecond. */
static bool is_between(uint64_t took, uint64_t inner, uint64_t outer) { return took + took / 1000 + 1000 >= inner && took <= outer + outer / 1000 + 1000; }

static void durations(dspec_tracer *tracer, uint64_t nanoseconds) {
    dspec_path path = dspec_path_begin(tracer);
    uint64_t outer = dspec_tracer_now(), inner, before, after, took;
    CHECK(dspec_path_took(&path) == 0);
    ANSWERS(said_in(&path, ++number), DSPEC_OK);
    inner = dspec_tracer_now();
    wait_until(inner + nanoseconds);
    before = dspec_tracer_now();
    took = dspec_path_took(&path);
    after = dspec_tracer_now();
    CHECK(is_between(took, before - inner, after - outer));
    /* Between what it took and 2.5 times so many ticks. */
    before = dspec_tracer_now();
    if (dspec_path_end(&path, false, nanoseconds * 3 / 2)) CHECK(is_between(nanoseconds * 3 / 2, 0, dspec_tracer_now() - outer));
    else CHECK(is_between(nanoseconds * 3 / 2, before - inner, UINT64_MAX / 2));
}

static int all_durations(void) {
    must_start(&counter, "counter", (dspec_tracer_options){ .clock = DSPEC_CLOCK_TSC });
    for (uint64_t nanoseconds = 1000; nanoseconds <= 50000000; nanoseconds *= 7) durations(&counter, nanoseconds);
    CHECK(dspec_tracer_stop(&counter, NULL));
    return check_end();
}

/* ---- Starts. ---- */

static void refuses(uint64_t clock, const char *words) {
    const dspec_tracer_options options = { .clock = clock };
    CHECK(!dspec_tracer_start(&counter, within("refused"), &options, DSPEC_PROBES(said)));
    if (!CHECK(strstr(counter.why, words) != NULL)) printf("why: %s, due: %s\n", counter.why, words);
    CHECK(access(within("refused"), F_OK) != 0);
}

/* Whether the trace's clock has nanoseconds, as the system's monotonic one. */
static bool has_nanoseconds(const char *name) {
    char path[4300], line[200];
    bool found = false;
    snprintf(path, sizeof path, "%s/metadata", within(name));
    FILE *file = fopen(path, "r");
    while (file != NULL && fgets(line, sizeof line, file) != NULL) found |= strcmp(line, "\tfreq = 1000000000;\n") == 0;
    if (file != NULL) fclose(file);
    return found;
}

static void takes(uint64_t clock, const char *name, bool in_nanoseconds) {
    must_start(&counter, name, (dspec_tracer_options){ .clock = clock });
    ANSWERS(said_now(&counter, 1), DSPEC_OK);
    CHECK(dspec_tracer_stop(&counter, NULL));
    CHECK(has_nanoseconds(name) == in_nanoseconds);
    dspec_tracer_drop(&counter);
}

/* By the variable, over options that want a clock. */
static void by_word(const char *word, uint64_t clock, const char *refusal, bool in_nanoseconds) {
    const dspec_tracer_options options = { .clock = clock };
    char all[4300];
    snprintf(all, sizeof all, "%s%s%s", within(word[0] != 0 ? word : "none"), word[0] != 0 ? ",clock=" : "", word);
    setenv("DSPEC_TRACE", all, 1);
    const bool is_up = dspec_tracer_start_env(&counter, &options, DSPEC_PROBES(said));
    CHECK(is_up == (refusal == NULL));
    if (refusal != NULL && !CHECK(strstr(counter.why, refusal) != NULL)) printf("why: %s, due: %s\n", counter.why, refusal);
    if (is_up) CHECK(dspec_tracer_stop(&counter, NULL) && has_nanoseconds(word[0] != 0 ? word : "none") == in_nanoseconds);
    dspec_tracer_drop(&counter);
}

static int words(void) {
    takes(DSPEC_CLOCK_TSC, "counter", false);
    takes(DSPEC_CLOCK_AUTO, "either", false);
    takes(DSPEC_CLOCK_MONOTONIC, "default", true);
    refuses(3, "DSPEC_CLOCK_AUTO");
    refuses(UINT64_MAX, "DSPEC_CLOCK_AUTO");
    by_word("tsc", DSPEC_CLOCK_MONOTONIC, NULL, false);
    by_word("auto", DSPEC_CLOCK_MONOTONIC, NULL, false);
    by_word("monotonic", DSPEC_CLOCK_TSC, NULL, true);
    by_word("", DSPEC_CLOCK_TSC, NULL, false);
    by_word("hpet", DSPEC_CLOCK_MONOTONIC, "a clock is monotonic, tsc or auto", true);
    CHECK(prctl(PR_SET_TSC, PR_TSC_SIGSEGV, 0, 0, 0) == 0);
    refuses(DSPEC_CLOCK_TSC, "PR_SET_TSC");
    CHECK(prctl(PR_SET_TSC, PR_TSC_ENABLE, 0, 0, 0) == 0);
    return check_end();
}

static int unknown(void) {
    refuses(DSPEC_CLOCK_TSC, "the system doesn't keep its time by the time stamp counter");
    takes(DSPEC_CLOCK_AUTO, "either", true);
    takes(DSPEC_CLOCK_MONOTONIC, "default", true);
    by_word("tsc", DSPEC_CLOCK_MONOTONIC, "auto takes the monotonic clock then", true);
    by_word("auto", DSPEC_CLOCK_TSC, NULL, true);
    return check_end();
}

/* What is recorded is there all the same, and the report says what isn't as it should be. */
static int removed(void) {
    dspec_tracer_report report;
    must_start(&counter, "counter", (dspec_tracer_options){ .clock = DSPEC_CLOCK_TSC });
    ANSWERS(said_now(&counter, 1), DSPEC_OK);
    CHECK(unlink(within("counter/metadata")) == 0);
    CHECK(dspec_tracer_stop(&counter, &report) && report.not_written == 0);
    if (!CHECK(strstr(report.why, "the metadata's clock is as it was measured before the end") != NULL)) printf("why: %s\n", report.why);
    CHECK(access(within("counter/metadata"), F_OK) != 0);
    return check_end();
}

int main(int argc, char **argv) {
    if (argc < 3) return 2;
    folder = argv[1];
    if (strcmp(argv[2], "alternate") == 0) return alternate(argc > 3 ? strtoull(argv[3], NULL, 10) : 0);
    if (strcmp(argv[2], "crash") == 0) return crash();
    if (strcmp(argv[2], "kill") == 0) return killed();
    if (strcmp(argv[2], "durations") == 0) return all_durations();
    if (strcmp(argv[2], "words") == 0) return words();
    if (strcmp(argv[2], "unknown") == 0) return unknown();
    if (strcmp(argv[2], "removed") == 0) return removed();
    return 2;
}
