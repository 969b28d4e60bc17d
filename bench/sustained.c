/* sustained.c: how many records a second are kept without a loss, and how many nanoseconds of its consumer's processor each takes: of a tracer by its defaults, of a hand-written ring with its writer's thread
 * (beside/ring.h) and, with LTTNG, of LTTng-UST by its defaults. A record has a stamp and 24 bytes.
 *
 *   sustained FOLDER SECONDS [WAY]
 *
 * On one thread and on three, records are made at a rate for so many seconds, each path when it is due. The rate is doubled until something is lost in two plays of two, and is looked for more closely then. Printed
 * is the highest one at which nothing was lost, as it was really made, and the consumer's time at it, in nanoseconds a record and in percent of a processor. `+`: the threads can't make more. tools/sustained
 * runs it. */
#define _GNU_SOURCE
#include "dspec_tracer.h"

#include "beside/ring.h"

#include <dirent.h>
#include <sys/stat.h>
#include <time.h>
#ifdef LTTNG
#define LTTNG_UST_TRACEPOINT_CREATE_PROBES
#define LTTNG_UST_TRACEPOINT_DEFINE
#include "peers/lttng_events.h"
#endif

DSPEC_PROBE(step, uint8_t, one, uint16_t, two, uint32_t, four, uint64_t, eight);

enum { ONE = 200, TWO = 60000, FEW = 3, MANY = 20, MOST_THREADS = 3, CLOSER = 3, STEP_NS = 200000, BEHIND_NS = 1000000 };
static const uint64_t EIGHT = UINT64_C(9000000000000000000), SECOND = UINT64_C(1000000000);
static const double FIRST_RATE = 125000, LAST_RATE = 64000000;

static void must(bool is_well, const char *what) {
    if (is_well) return;
    fprintf(stderr, "sustained: %s\n", what);
    exit(1);
}

static uint64_t nanoseconds_of(clockid_t clock) {
    struct timespec now = { 0, 0 };
    clock_gettime(clock, &now);
    return (uint64_t)now.tv_sec * SECOND + (uint64_t)now.tv_nsec;
}

/* ---- The tracer. ---- */

static dspec_tracer tracer;
static clockid_t consumer; /* the clock of its processor's time */

/* The clock of the thread of this process that has this name, as the system makes one of a thread's number. */
static clockid_t clock_of(const char *name) {
    enum { OF_A_THREAD = 6, NUMBER_AT = 3 };
    clockid_t found = CLOCK_REALTIME;
    DIR *tasks = opendir("/proc/self/task");
    must(tasks != NULL, "/proc/self/task isn't there");
    for (struct dirent *task; (task = readdir(tasks)) != NULL;) {
        char path[300], its[32] = "";
        FILE *file;
        snprintf(path, sizeof path, "/proc/self/task/%s/comm", task->d_name);
        file = fopen(path, "r");
        if (file == NULL) continue;
        if (fscanf(file, "%31s", its) == 1 && strcmp(its, name) == 0) found = (clockid_t)(~(unsigned)atoi(task->d_name) << NUMBER_AT | OF_A_THREAD);
        fclose(file);
    }
    closedir(tasks);
    must(found != CLOCK_REALTIME, "the consumer isn't there");
    return found;
}

static void path_of(uint32_t records) {
    dspec_path path = dspec_path_begin(&tracer);
    for (uint32_t i = 0; i < records; i++) step_in(&path, ONE, TWO, i, EIGHT);
    dspec_path_keep(&path);
}
static void tracer_few(void) { path_of(FEW); }
static void tracer_many(void) { path_of(MANY); }
static void tracer_alone(void) { step_now(&tracer, ONE, TWO, 7, EIGHT); }

static void tracer_begins(const char *folder) {
    must(dspec_tracer_start(&tracer, folder, NULL, DSPEC_PROBES(step)), tracer.why);
    tracer_few();
    must(dspec_tracer_flush(&tracer, 1000), "a flush failed");
    consumer = clock_of("dspec");
}

static uint64_t tracer_took(void) { return nanoseconds_of(consumer); }

static uint64_t tracer_lost(void) {
    dspec_tracer_report report;
    dspec_tracer_stop(&tracer, &report);
    dspec_tracer_drop(&tracer);
    return report.dropped + report.specdropped + report.lost + report.refused_records + report.no_slot + report.waited + report.not_written;
}

/* ---- The ring. ---- */

typedef struct ring_record {
    uint32_t event;
    uint8_t one;
    uint16_t two;
    uint64_t stamp;
    uint32_t four;
    uint64_t eight;
} ring_record;

static void ring_path_of(uint32_t records) {
    const uint64_t from = ring_path();
    for (uint32_t i = 0; i < records; i++) {
        const ring_record record = { 1, ONE, TWO, nanoseconds_of(CLOCK_MONOTONIC), i, EIGHT };
        ring_put(&record, sizeof record);
    }
    ring_keep(from);
}
static void ring_few(void) { ring_path_of(FEW); }
static void ring_many(void) { ring_path_of(MANY); }
static void ring_alone(void) {
    const ring_record record = { 1, ONE, TWO, nanoseconds_of(CLOCK_MONOTONIC), 7, EIGHT };
    ring_out(ring_of_thread(), &record, sizeof record);
}

static void ring_begins(const char *folder) {
    must(mkdir(folder, 0700) == 0, folder);
    atomic_store(&ring_count, 0);
    atomic_store(&ring_stops, false);
    ring_start(folder);
    must(pthread_getcpuclockid(ring_writer, &consumer) == 0, "the writer has no clock");
}

static uint64_t ring_lost(void) {
    uint64_t lost = 0;
    ring_stop();
    for (uint32_t i = 0; i < ring_count; i++) {
        lost += rings[i]->lost;
        munmap(rings[i]->bytes, (size_t)2 * RING_BYTES);
        munmap(rings[i]->outbox, (size_t)2 * OUTBOX_BYTES);
        close(rings[i]->file);
        free(rings[i]);
        rings[i] = NULL;
    }
    return lost;
}

/* ---- LTTng-UST, whose session is made anew for each play. ---- */

#ifdef LTTNG
static char session[64];

/* Runs a command of lttng's: the number that it prints, or 0. */
static uint64_t lttng(const char *format, const char *word) {
    char command[4600];
    unsigned long long number = 0;
    FILE *out;
    snprintf(command, sizeof command, format, session, word);
    out = popen(command, "r");
    must(out != NULL, command);
    if (fscanf(out, "%llu", &number) != 1) number = 0;
    must(pclose(out) == 0, command);
    return number;
}

static void lttng_few(void) {
    for (uint32_t i = 0; i < FEW; i++) lttng_ust_tracepoint(dspec_peers, bytes_24, ONE, TWO, i, EIGHT);
}
static void lttng_many(void) {
    for (uint32_t i = 0; i < MANY; i++) lttng_ust_tracepoint(dspec_peers, bytes_24, ONE, TWO, i, EIGHT);
}
static void lttng_alone(void) { lttng_ust_tracepoint(dspec_peers, bytes_24, ONE, TWO, 7, EIGHT); }

static void lttng_begins(const char *folder) {
    static const char begin[] = "s=%s; { lttng create $s --output='%s' && lttng enable-channel -u -s $s channel && lttng enable-event -u -s $s -c channel 'dspec_peers:*' && lttng start $s; } > /dev/null";
    lttng(begin, folder);
    usleep(100000); /* the program hears of it */
}

/* What the processes of its consumer took, in nanoseconds; the system tells it by a hundredth of a second. */
static uint64_t lttng_took(void) {
    static const char took[] = "cat $(pgrep -x lttng-consumerd | sed 's|.*|/proc/&/stat|') | awk '{ sum += $14 + $15 } END { printf \"%%d\", sum }' # %s%s";
    return lttng(took, "") * (SECOND / (uint64_t)sysconf(_SC_CLK_TCK));
}

static uint64_t lttng_lost(void) {
    lttng("lttng stop %s > /dev/null # %s", "");
    const uint64_t lost = lttng("lttng list %s | sed -n 's/.*Discarded events: *//p' # %s", "");
    lttng("lttng destroy %s > /dev/null # %s", "");
    return lost;
}
#endif

/* ---- The ways. ---- */

typedef struct way {
    const char *name;
    uint32_t records; /* of a run */
    void (*run)(void);
    void (*begins)(const char *folder);
    uint64_t (*took)(void); /* nanoseconds of the consumer until now */
    uint64_t (*lost)(void); /* ends it */
} way;

static const way ways[] = {
    { "tracer, paths of 3", FEW, tracer_few, tracer_begins, tracer_took, tracer_lost },
    { "tracer, paths of 20", MANY, tracer_many, tracer_begins, tracer_took, tracer_lost },
    { "tracer, records alone", 1, tracer_alone, tracer_begins, tracer_took, tracer_lost },
    { "ring, paths of 3", FEW, ring_few, ring_begins, tracer_took, ring_lost },
    { "ring, paths of 20", MANY, ring_many, ring_begins, tracer_took, ring_lost },
    { "ring, records alone", 1, ring_alone, ring_begins, tracer_took, ring_lost },
#ifdef LTTNG
    { "lttng, 3 records", FEW, lttng_few, lttng_begins, lttng_took, lttng_lost },
    { "lttng, 20 records", MANY, lttng_many, lttng_begins, lttng_took, lttng_lost },
    { "lttng, records alone", 1, lttng_alone, lttng_begins, lttng_took, lttng_lost },
#endif
};

/* ---- A play: so many seconds at a rate. ---- */

typedef struct play {
    const way *of;
    uint64_t each_ns, until; /* a thread's run begins so often */
    uint64_t made;           /* records */
} play;

/* A thread wakes each STEP_NS and makes what is due. One that was off its processor makes up for a millisecond and no more: a burst is another question. */
static void *makes(void *with) {
    play *is = with;
    uint64_t now = nanoseconds_of(CLOCK_MONOTONIC), next = now, runs = 0;
    while (now < is->until) {
        const struct timespec step = { 0, STEP_NS };
        for (; next <= now; next += is->each_ns, runs++) is->of->run();
        nanosleep(&step, NULL);
        now = nanoseconds_of(CLOCK_MONOTONIC);
        if (now > next + BEHIND_NS) next = now - BEHIND_NS;
    }
    __atomic_fetch_add(&is->made, runs * is->of->records, __ATOMIC_RELAXED);
    return NULL;
}

typedef struct outcome {
    double rate, nanoseconds, share;
    uint64_t lost;
} outcome;

static outcome play_at(const way *of, const char *folder, uint32_t threads, double rate, double seconds) {
    static unsigned number;
    char path[4200], command[4300];
    pthread_t made[MOST_THREADS];
    play is = { .of = of, .each_ns = (uint64_t)(1e9 * of->records * threads / rate) };
    outcome came;
    snprintf(path, sizeof path, "%s/%u", folder, number++);
    of->begins(path);
    const uint64_t began = nanoseconds_of(CLOCK_MONOTONIC), had = of->took();
    is.until = nanoseconds_of(CLOCK_MONOTONIC) + (uint64_t)(seconds * 1e9);
    for (uint32_t i = 0; i < threads; i++) must(pthread_create(&made[i], NULL, makes, &is) == 0, "a thread isn't made");
    for (uint32_t i = 0; i < threads; i++) pthread_join(made[i], NULL);
    usleep(50000); /* the consumer gets what it hasn't yet */
    const double took = (double)(of->took() - had), lasted = (double)(nanoseconds_of(CLOCK_MONOTONIC) - began);
    came.lost = of->lost();
    came.rate = (double)is.made / seconds;
    came.nanoseconds = took / (double)is.made;
    came.share = 100 * took / lasted;
    snprintf(command, sizeof command, "rm -rf '%s'", path);
    must(system(command) == 0, command);
    return came;
}

/* Whether nothing is lost at a rate, in one of two plays. */
static bool is_kept(const way *of, const char *folder, uint32_t threads, double rate, double seconds, outcome *best) {
    for (int tries = 0; tries < 2; tries++) {
        const outcome came = play_at(of, folder, threads, rate, seconds);
        if (came.lost > 0) continue;
        if (came.rate > best->rate) *best = came;
        return true;
    }
    return false;
}

static void print_highest(const way *of, const char *folder, uint32_t threads, double seconds) {
    outcome best = { 0, 0, 0, 0 };
    double kept = 0, lost = FIRST_RATE;
    bool is_all = false;
    while (!is_all && lost <= LAST_RATE && is_kept(of, folder, threads, lost, seconds, &best)) {
        kept = lost;
        lost *= 2;
        is_all = best.rate < 0.9 * kept; /* the threads can't make more */
    }
    for (int i = 0; !is_all && kept > 0 && i < CLOSER; i++) {
        const double between = (kept + lost) / 2;
        if (is_kept(of, folder, threads, between, seconds, &best)) kept = between;
        else lost = between;
        is_all = kept == between && best.rate < 0.9 * kept;
    }
    printf("%-24s %7u %12.0f%s %8.0f %8.0f\n", of->name, (unsigned)threads, best.rate, is_all ? "+" : " ", best.nanoseconds, best.share);
    fflush(stdout);
}

int main(int argc, char **argv) {
    if (argc < 3) return 2;
#ifdef LTTNG
    snprintf(session, sizeof session, "dspec_sustained_%d", (int)getpid());
#endif
    printf("%-24s %7s %13s %8s %8s\n", "kept without a loss", "threads", "a second", "ns each", "percent");
    for (size_t i = 0; i < sizeof ways / sizeof ways[0]; i++)
        for (uint32_t threads = 1; threads <= MOST_THREADS; threads += 2)
            if (argc < 4 || strstr(ways[i].name, argv[3]) != NULL) print_highest(&ways[i], argv[1], threads, atof(argv[2]));
    return 0;
}
