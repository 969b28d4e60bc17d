/* A tracer without work makes no wakeups, and hears of work again. `asleep FOLDER [kept]`; its last line counts its checks. kept: those alone that are for threads that keep their lanes.
 *
 * The consumer's thread is found by its name. How often it has woken is what the system counts as its voluntary switches. Nothing here has to be done in a time but waits of a minute, after which it is
 * taken for lost. */
#define _GNU_SOURCE
#include "dspec_tracer.h"

#include "check.h"

#include <dirent.h>
#include <inttypes.h>
#include <pthread.h>
#include <unistd.h>

/* How often each way to record is tried, and how many threads come at once. */
enum { TRIES = 40, THREADS = 4, STORMS = 200 };
#define MINUTE_NS UINT64_C(60000000000)

DSPEC_PROBE(tick, uint64_t, number);
DSPEC_PROBE(other, uint64_t, number);

static dspec_tracer tracer;
static const char *folder;
static int runs;

/* A word of a file of the consumer's thread, of this process; 0: there is none. */
static bool says(const char *thread, const char *file, const char *word, char *value, size_t size) {
    char path[300], line[300];
    bool found = false;
    snprintf(path, sizeof path, "/proc/self/task/%.20s/%s", thread, file);
    FILE *opened = fopen(path, "r");
    while (!found && opened != NULL && fgets(line, sizeof line, opened) != NULL) {
        found = strncmp(line, word, strlen(word)) == 0;
        if (found) snprintf(value, size, "%.100s", line + strlen(word));
    }
    if (opened != NULL) fclose(opened);
    return found;
}

static uint64_t wakeups(void) {
    char value[128];
    uint64_t found = 0;
    DIR *threads = opendir("/proc/self/task");
    for (struct dirent *one; threads != NULL && (one = readdir(threads)) != NULL;)
        if (says(one->d_name, "comm", "dspec\n", value, sizeof value) && says(one->d_name, "status", "voluntary_ctxt_switches:", value, sizeof value)) found = strtoull(value, NULL, 10);
    if (threads != NULL) closedir(threads);
    return found;
}

/* Whether the consumer wakes at most once in a second, within a minute. */
static bool falls_asleep(void) {
    for (int tries = 0; tries < 60; tries++) {
        const uint64_t before = wakeups();
        sleep(1);
        if (before > 0 && wakeups() - before <= 1) return true;
    }
    return false;
}

/* Whether so many records are served, within a minute. No call that asks wakes the consumer. */
static bool are_served(uint64_t records) {
    const uint64_t until = dspec_tracer_now() + MINUTE_NS;
    dspec_tracer_report report;
    do {
        if (!dspec_tracer_counts(&tracer, &report)) return false;
        if (report.accepted == records) return true;
        usleep(1000);
    } while (dspec_tracer_now() < until);
    printf("%" PRIu64 " of %" PRIu64 " records are served\n", report.accepted, records);
    return false;
}

static void start(dspec_tracer_options options) {
    char path[4200];
    snprintf(path, sizeof path, "%s-%d", folder, runs++);
    if (CHECK(dspec_tracer_start(&tracer, path, &options, DSPEC_PROBES(tick)))) return;
    printf("%s\n", tracer.why);
    exit(check_end());
}

static void stop(void) {
    dspec_tracer_report report;
    CHECK(dspec_tracer_stop(&tracer, &report) && report.dropped == 0 && report.lost == 0);
    dspec_tracer_drop(&tracer);
}

/* ---- One thread. ---- */

static void kept_path(void) {
    dspec_path path = dspec_path_begin(&tracer);
    ANSWERS(tick_in(&path, 1), DSPEC_OK);
    usleep(2000);
    ANSWERS(tick_in(&path, 2), DSPEC_OK);
    CHECK(dspec_path_keep(&path));
}

/* A consumer that has found all lanes empty hears of the next record, whichever way it is made. */
static void one_by_one(dspec_tracer_options options) {
    uint64_t records = 0;
    start(options);
    CHECK(falls_asleep());
    for (int i = 0; i < TRIES; i++) {
        ANSWERS(tick_now(&tracer, 1), DSPEC_OK);
        CHECK(are_served(++records));
        kept_path();
        CHECK(are_served(records += 2));
        usleep((unsigned)i * 500);
    }
    CHECK(falls_asleep());
    stop();
}

/* A thread that keeps its lane makes records in a row, some of them as the consumer falls asleep, and then none. */
static void records_in_a_row(void) {
    enum { ROWS = 200, IN_A_ROW = 3 };
    uint64_t records = 0;
    start((dspec_tracer_options){ .lanes = 1, .period_ms = 1 });
    for (unsigned row = 0; row < ROWS; row++) {
        for (int i = 0; i < IN_A_ROW; i++) ANSWERS(tick_now(&tracer, records++), DSPEC_OK);
        if (!CHECK(are_served(records))) break;
        usleep(row * 25);
    }
    CHECK(falls_asleep());
    ANSWERS(tick_now(&tracer, records++), DSPEC_OK);
    CHECK(are_served(records) && falls_asleep());
    stop();
}

/* What is told once a second is told, though no lane has a record: a path that finds no slot, and a record of a probe that the tracer doesn't have. */
static void told_in_time(void) {
    char path[4300];
    dspec_path first, second;
    start((dspec_tracer_options){ .lanes = 1, .paths = 1 });
    first = dspec_path_begin(&tracer);
    second = dspec_path_begin(&tracer);
    ANSWERS(tick_in(&first, 1), DSPEC_OK);
    CHECK(falls_asleep());
    snprintf(path, sizeof path, "%s-%d/cpu_1_0", folder, runs - 1);
    for (int what = 0; what < 2; what++) {
        const uint64_t until = dspec_tracer_now() + MINUTE_NS;
        long before = -1, now = -1;
        FILE *file = fopen(path, "r");
        if (file != NULL && fseek(file, 0, SEEK_END) == 0) before = ftell(file);
        if (what == 0) ANSWERS(tick_in(&second, 1), DSPEC_UNAVAILABLE);
        else ANSWERS(other_now(&tracer, 1), DSPEC_BAD_RECORD);
        while (file != NULL && (now = (fseek(file, 0, SEEK_END), ftell(file))) == before && dspec_tracer_now() < until) usleep(1000);
        CHECK(before >= 0 && now > before);
        if (file != NULL) fclose(file);
        CHECK(falls_asleep());
    }
    CHECK(dspec_path_drop(&first));
    CHECK(dspec_tracer_stop(&tracer, NULL));
    dspec_tracer_drop(&tracer);
}

/* ---- Several. ---- */

static uint64_t seed_of(uint64_t *seed) { return *seed = *seed * UINT64_C(6364136223846793005) + 1442695040888963407u; }

static void *records_sometimes(void *of) {
    uint64_t seed = *(uint64_t *)of;
    for (int i = 0; i < 3; i++) {
        usleep((unsigned)(seed_of(&seed) >> 52));
        if (seed >> 63) {
            ANSWERS(tick_now(&tracer, 1), DSPEC_OK);
        } else {
            dspec_path path = dspec_path_begin(&tracer);
            ANSWERS(tick_in(&path, 1), DSPEC_OK);
            CHECK(dspec_path_keep(&path));
        }
    }
    return NULL;
}

/* Threads whose records come as the consumer falls asleep, and then none: all that they made is served. */
static void storms(dspec_tracer_options options) {
    uint64_t seeds[THREADS] = { 1, 2, 3, 4 };
    start(options);
    for (int storm = 1; storm <= STORMS; storm++) {
        pthread_t threads[THREADS];
        for (int i = 0; i < THREADS; i++) seed_of(&seeds[i]), pthread_create(&threads[i], NULL, records_sometimes, &seeds[i]);
        for (int i = 0; i < THREADS; i++) pthread_join(threads[i], NULL);
        if (!CHECK(are_served((uint64_t)storm * THREADS * 3))) break;
    }
    stop();
}

/* ---- Parked paths. ---- */

/* Whether the consumer doesn't wake for two seconds, within a minute. */
static bool stays_asleep(void) {
    for (int tries = 0; tries < 30; tries++) {
        const uint64_t before = wakeups();
        sleep(2);
        if (before > 0 && wakeups() == before) return true;
    }
    return false;
}

/* Whether so many paths are kept, within a minute: those as well that were open still when the consumer heard of their key. */
static bool are_kept(uint64_t paths) {
    const uint64_t until = dspec_tracer_now() + MINUTE_NS;
    dspec_tracer_report report;
    do {
        if (!dspec_tracer_counts(&tracer, &report)) return false;
        if (report.kept == paths) return true;
        usleep(1000);
    } while (dspec_tracer_now() < until);
    printf("%" PRIu64 " of %" PRIu64 " paths are kept\n", report.kept, paths);
    return false;
}

static void *parks(void *number) {
    uint64_t seed = *(uint64_t *)number;
    dspec_path path = dspec_path_begin(&tracer);
    usleep((unsigned)(seed_of(&seed) >> 52));
    ANSWERS(tick_in(&path, 1), DSPEC_OK);
    CHECK(dspec_path_key(&path, 1, *(uint64_t *)number) && dspec_path_park(&path));
    return NULL;
}

static void *tells(void *number) {
    uint64_t seed = *(uint64_t *)number * 7;
    usleep((unsigned)(seed_of(&seed) >> 52));
    CHECK(dspec_tracer_keep_key(&tracer, 1, *(uint64_t *)number));
    return NULL;
}

/* Paths that are parked wake nobody, however old they get. */
static void old_paths(void) {
    uint64_t number = 1;
    start((dspec_tracer_options){ .park_bytes = 65536, .park_ms = 100 });
    for (; number <= 5; number++) parks(&number);
    CHECK(stays_asleep());
    tells(&(uint64_t){ 1 });
    parks(&number);
    tells(&number);
    CHECK(are_kept(1) && stays_asleep());
    stop();
}

/* Keys that come as the consumer falls asleep, before their path is parked or after it. */
static void keys_in_storms(void) {
    start((dspec_tracer_options){ .park_bytes = 65536 });
    for (uint64_t storm = 1; storm <= STORMS; storm++) {
        pthread_t first, second;
        pthread_create(&first, NULL, parks, &storm);
        pthread_create(&second, NULL, tells, &storm);
        pthread_join(first, NULL);
        pthread_join(second, NULL);
        if (!CHECK(are_kept(storm))) break;
    }
    stop();
}

int main(int argc, char **argv) {
    if (argc < 2) return 2;
    folder = argv[1];
    if (argc > 2) {
        records_in_a_row();
        one_by_one((dspec_tracer_options){ .lanes = 1 });
        storms((dspec_tracer_options){ .period_ms = 1 });
        storms((dspec_tracer_options){ .period_ms = 1, .lanes = 2 });
        return check_end();
    }
    one_by_one((dspec_tracer_options){ 0 });
    one_by_one((dspec_tracer_options){ .by_thread = true, .period_ms = 1 });
    one_by_one((dspec_tracer_options){ .no_membarrier = true, .lanes = 1 });
    told_in_time();
    storms((dspec_tracer_options){ .period_ms = 1 });
    storms((dspec_tracer_options){ .period_ms = 1, .lanes = 2, .no_membarrier = true });
    old_paths();
    keys_in_storms();
    return check_end();
}
