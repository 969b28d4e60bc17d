/* memory.c: what a tracer takes of memory, beside a hand-written ring (beside/ring.h) and, with LTTNG, LTTng-UST as its session is configured.
 *
 *   memory FOLDER
 *
 * Each row is of a process of its own. Counted is its writable memory, less what it had before the start: what was asked of the system, and the pages of it that are there. The columns are, in KB: asked;
 * there after the start; there after each lane's thread has kept MANY records of 24 bytes; and of the last two what one lane more, or one thread more, takes. Memory that is mapped twice counts once. Of
 * LTTng-UST that is its sub-buffers, which are there for each processor. tools/memory runs it. */
#define _GNU_SOURCE
#include "dspec_tracer.h"

#include "beside/ring.h"

#include <sys/stat.h>
#ifdef LTTNG
#define LTTNG_UST_TRACEPOINT_CREATE_PROBES
#define LTTNG_UST_TRACEPOINT_DEFINE
#include "peers/lttng_events.h"
#endif

DSPEC_PROBE(step, uint8_t, one, uint16_t, two, uint32_t, four, uint64_t, eight);

enum { MANY = 20000, A_PATH = 20, MOST_THREADS = 16, MB = 1048576, ONE = 200, TWO = 60000 };
static const uint64_t EIGHT = UINT64_C(9000000000000000000);

static dspec_tracer tracer;

static void must(bool is_well, const char *what) {
    if (is_well) return;
    fprintf(stderr, "memory: %s\n", what);
    exit(1);
}

/* ---- What a process has. ---- */

typedef struct memory {
    double asked, there; /* KB */
} memory;

/* A mapping, as the first line of its part of /proc/self/smaps tells it. */
typedef struct mapping {
    unsigned long long from, to, offset, inode;
    char may[8], file[256];
} mapping;

static bool is_mapping(const char *line, mapping *found) {
    found->file[0] = 0;
    return sscanf(line, "%llx-%llx %7s %llx %*s %llu %255s", &found->from, &found->to, found->may, &found->offset, &found->inode, found->file) >= 5;
}

/* The second of two mappings of the same bytes. */
static bool is_again(const mapping *one, const mapping *before) { return one->inode != 0 && one->inode == before->inode && one->offset == before->offset; }

/* The writable memory of this process; of_file: only that whose file's name has this. */
static memory memory_now(const char *of_file) {
    char line[1024];
    mapping now = { 0 }, before;
    memory sum = { 0, 0 };
    bool counts = false;
    FILE *maps = fopen("/proc/self/smaps", "r");
    must(maps != NULL, "/proc/self/smaps isn't there");
    while (fgets(line, sizeof line, maps) != NULL) {
        double there;
        before = now;
        if (is_mapping(line, &now)) {
            counts = now.may[1] == 'w' && !is_again(&now, &before) && (of_file == NULL || strstr(now.file, of_file) != NULL);
            if (counts) sum.asked += (double)(now.to - now.from) / 1024;
        } else {
            now = before;
            if (counts && sscanf(line, "Rss: %lf kB", &there) == 1) sum.there += there;
        }
    }
    fclose(maps);
    return sum;
}

static memory less(memory of, memory before) { return (memory){ of.asked - before.asked, of.there - before.there }; }

/* ---- What keeps records. ---- */

static void nothing(void) {}

static void keep_by_tracer(void) {
    for (uint32_t i = 0; i < MANY / A_PATH; i++) {
        dspec_path path = dspec_path_begin(&tracer);
        for (uint32_t k = 0; k < A_PATH; k++) step_in(&path, ONE, TWO, k, EIGHT);
        dspec_path_keep(&path);
    }
}

static void keep_by_ring(void) {
    struct { uint64_t stamp, values[2]; } record = { 0, { 0, 0 } };
    for (uint32_t i = 0; i < MANY / A_PATH; i++) {
        const uint64_t from = ring_path();
        for (uint32_t k = 0; k < A_PATH; k++) ring_put(&record, sizeof record);
        ring_keep(from);
    }
}

#ifdef LTTNG
static void keep_by_lttng(void) {
    for (uint32_t i = 0; i < MANY; i++) lttng_ust_tracepoint(dspec_peers, bytes_24, ONE, TWO, i, EIGHT);
}
#endif

static pthread_barrier_t together;

/* Keeps records beside other threads; a path is open meanwhile, so that each thread has a lane of its own. */
static void *keeps(void *with) {
    void (*const keep)(void) = *(void (**)(void))with;
    dspec_path open = { 0 };
    if (keep == keep_by_tracer) open = dspec_path_begin(&tracer);
    pthread_barrier_wait(&together);
    keep();
    pthread_barrier_wait(&together);
    if (keep == keep_by_tracer) dspec_path_drop(&open);
    return NULL;
}

static void keep_on(uint32_t threads, void (*keep)(void)) {
    pthread_t made[MOST_THREADS];
    pthread_barrier_init(&together, NULL, threads);
    for (uint32_t i = 0; i < threads; i++) must(pthread_create(&made[i], NULL, keeps, &keep) == 0, "a thread isn't made");
    for (uint32_t i = 0; i < threads; i++) pthread_join(made[i], NULL);
    pthread_barrier_destroy(&together);
}

/* ---- The rows. ---- */

/* What a process has after the start, and after it has kept records. */
typedef struct found {
    memory started, used;
} found;

typedef struct way {
    const char *name;
    found (*measure)(const char *folder, const dspec_tracer_options *options, uint32_t lanes);
    dspec_tracer_options options;
} way;

static found of_tracer(const char *folder, const dspec_tracer_options *options, uint32_t lanes) {
    dspec_tracer_options all = *options;
    found is;
    all.lanes = lanes;
    keep_on(lanes, nothing); /* what the C library takes for threads is there from here on */
    const memory before = memory_now(NULL);
    must(dspec_tracer_start(&tracer, folder, &all, DSPEC_PROBES(step)), tracer.why);
    is.started = less(memory_now(NULL), before);
    keep_on(lanes, keep_by_tracer);
    dspec_tracer_flush(&tracer, 1000);
    is.used = less(memory_now(NULL), before);
    dspec_tracer_drop(&tracer);
    return is;
}

static found of_ring(const char *folder, const dspec_tracer_options *options, uint32_t threads) {
    found is;
    (void)options;
    must(mkdir(folder, 0700) == 0, folder);
    keep_on(threads, nothing);
    const memory before = memory_now(NULL);
    ring_start(folder);
    is.started = less(memory_now(NULL), before);
    keep_on(threads, keep_by_ring);
    is.used = less(memory_now(NULL), before);
    ring_stop();
    return is;
}

#ifdef LTTNG
/* What begins the program has registered it with the session by now. */
static found of_lttng(const char *folder, const dspec_tracer_options *options, uint32_t threads) {
    static const char sub_buffers[] = "shm-ust-consumer";
    found is;
    (void)folder;
    (void)options;
    is.started = memory_now(sub_buffers);
    keep_on(threads, keep_by_lttng);
    is.used = memory_now(sub_buffers);
    return is;
}
#endif

static const way ways[] = {
    { "tracer", of_tracer, { .lanes = 0 } },
    { "tracer, survive", of_tracer, { .survive = true } },
    { "tracer, keep_last", of_tracer, { .keep_last = true } },
    { "tracer, park_bytes of 1 MB", of_tracer, { .park_bytes = MB } },
    { "ring", of_ring, { .lanes = 0 } },
#ifdef LTTNG
    { "lttng", of_lttng, { .lanes = 0 } },
#endif
};

/* Measures a way in a process of its own, which this program is in its turn. */
static found measured(const char *program, const char *folder, size_t number, uint32_t lanes) {
    char command[9000];
    found is;
    FILE *out;
    snprintf(command, sizeof command, "'%s' '%s/%zu-%u' %zu %u", program, folder, number, (unsigned)lanes, number, (unsigned)lanes);
    out = popen(command, "r");
    must(out != NULL && fscanf(out, "%lf %lf %lf %lf", &is.started.asked, &is.started.there, &is.used.asked, &is.used.there) == 4 && pclose(out) == 0, ways[number].name);
    return is;
}

static void print_rows(const char *program, const char *folder, size_t number) {
    const found one = measured(program, folder, number, 1), all = measured(program, folder, number, MOST_THREADS);
    printf("%-28s %5d %8.0f %8.0f %8.0f\n", ways[number].name, 1, one.used.asked, one.started.there, one.used.there);
    printf("%-28s %5d %8.0f %8.0f %8.0f %8.0f %8.0f\n", "", MOST_THREADS, all.used.asked, all.started.there, all.used.there, (all.used.asked - one.used.asked) / (MOST_THREADS - 1),
           (all.used.there - one.used.there) / (MOST_THREADS - 1));
    fflush(stdout);
}

int main(int argc, char **argv) {
    if (argc == 4) {
        const size_t number = strtoul(argv[2], NULL, 10);
        const found is = ways[number].measure(argv[1], &ways[number].options, (uint32_t)strtoul(argv[3], NULL, 10));
        printf("%f %f %f %f\n", is.started.asked, is.started.there, is.used.asked, is.used.there);
        return 0;
    }
    if (argc != 2) return 2;
    printf("%-28s %5s %8s %8s %8s %8s %8s\n", "KB", "lanes", "asked", "started", "used", "one more", "of used");
    for (size_t number = 0; number < sizeof ways / sizeof ways[0]; number++) print_rows(argv[0], argv[1], number);
    return 0;
}
