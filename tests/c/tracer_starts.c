/* Starts of a tracer that go well and that don't: options, probes and names that can't be, a folder in the way, and what the system gives refused in turn: a block of memory, a
 * thread, a descriptor. Each says why; none keeps a block, a descriptor or a file. `tracer_starts FOLDER`; its last line counts its checks.
 *
 * The linker's --wrap leads the calls below through functions that count and refuse. */
#define _GNU_SOURCE
#include "dspec_tracer.h"

#include "check.h"

#include <dirent.h>
#include <errno.h>
#include <pthread.h>
#include <sys/stat.h>
#include <unistd.h>

DSPEC_PROBE(p00, uint8_t, v); DSPEC_PROBE(p01, uint8_t, v); DSPEC_PROBE(p02, uint8_t, v); DSPEC_PROBE(p03, uint8_t, v); DSPEC_PROBE(p04, uint8_t, v); DSPEC_PROBE(p05, uint8_t, v); DSPEC_PROBE(p06, uint8_t, v); DSPEC_PROBE(p07, uint8_t, v);
DSPEC_PROBE(p10, uint8_t, v); DSPEC_PROBE(p11, uint8_t, v); DSPEC_PROBE(p12, uint8_t, v); DSPEC_PROBE(p13, uint8_t, v); DSPEC_PROBE(p14, uint8_t, v); DSPEC_PROBE(p15, uint8_t, v); DSPEC_PROBE(p16, uint8_t, v); DSPEC_PROBE(p17, uint8_t, v);
DSPEC_PROBE(p20, uint8_t, v); DSPEC_PROBE(p21, uint8_t, v); DSPEC_PROBE(p22, uint8_t, v); DSPEC_PROBE(p23, uint8_t, v); DSPEC_PROBE(p24, uint8_t, v); DSPEC_PROBE(p25, uint8_t, v); DSPEC_PROBE(p26, uint8_t, v); DSPEC_PROBE(p27, uint8_t, v);
DSPEC_PROBE(p30, uint8_t, v); DSPEC_PROBE(p31, uint8_t, v); DSPEC_PROBE(p32, uint8_t, v); DSPEC_PROBE(p33, uint8_t, v); DSPEC_PROBE(p34, uint8_t, v); DSPEC_PROBE(p35, uint8_t, v); DSPEC_PROBE(p36, uint8_t, v); DSPEC_PROBE(p37, uint8_t, v);
DSPEC_PROBE(p40, uint8_t, v); DSPEC_PROBE(p41, uint8_t, v); DSPEC_PROBE(p42, uint8_t, v); DSPEC_PROBE(p43, uint8_t, v); DSPEC_PROBE(p44, uint8_t, v); DSPEC_PROBE(p45, uint8_t, v); DSPEC_PROBE(p46, uint8_t, v); DSPEC_PROBE(p47, uint8_t, v);
DSPEC_PROBE(p50, uint8_t, v); DSPEC_PROBE(p51, uint8_t, v); DSPEC_PROBE(p52, uint8_t, v); DSPEC_PROBE(p53, uint8_t, v); DSPEC_PROBE(p54, uint8_t, v); DSPEC_PROBE(p55, uint8_t, v); DSPEC_PROBE(p56, uint8_t, v); DSPEC_PROBE(p57, uint8_t, v);
DSPEC_PROBE(p60, uint8_t, v); DSPEC_PROBE(p61, uint8_t, v); DSPEC_PROBE(p62, uint8_t, v); DSPEC_PROBE(p63, uint8_t, v); DSPEC_PROBE(p64, uint8_t, v); DSPEC_PROBE(p65, uint8_t, v); DSPEC_PROBE(p66, uint8_t, v); DSPEC_PROBE(p67, uint8_t, v);
DSPEC_PROBE(p70, uint8_t, v); DSPEC_PROBE(p71, uint8_t, v); DSPEC_PROBE(p72, uint8_t, v); DSPEC_PROBE(p73, uint8_t, v); DSPEC_PROBE(p74, uint8_t, v); DSPEC_PROBE(p75, uint8_t, v); DSPEC_PROBE(p76, uint8_t, v); DSPEC_PROBE(p77, uint8_t, v);
#define MANY p00, p01, p02, p03, p04, p05, p06, p07, p10, p11, p12, p13, p14, p15, p16, p17, p20, p21, p22, p23, p24, p25, p26, p27, \
    p30, p31, p32, p33, p34, p35, p36, p37, p40, p41, p42, p43, p44, p45, p46, p47, p50, p51, p52, p53, p54, p55, p56, p57, \
    p60, p61, p62, p63, p64, p65, p66, p67

DSPEC_PROBE(event, uint32_t, stream, int32_t, clock);
DSPEC_PROBE(once, uint32_t, a, uint32_t, _event, uint32_t, event);
DSPEC_PROBE(twice, uint32_t, _clock, uint32_t, clock);
/* One whose field has the name of the tracer's own. */
static dspec_event taken;
static const char *const fields_of_taken[] = { "dspec_path" };
static const uint8_t widths_of_taken[] = { 4 }, kinds_of_taken[] = { DSPEC_KIND_UNSIGNED };
static const dspec_enabling enabling_of_taken = { &taken, "taken", fields_of_taken, widths_of_taken, kinds_of_taken, 1, NULL, NULL };

/* Which call of the system is refused, from 1 on; 0 none. Those of the consumer's thread are counted too, but none of them is refused. */
static _Atomic long calls, refused, blocks;
static _Thread_local bool is_starting;

static bool is_refused(void) { return is_starting && ++calls == refused; }

#define WRAPPED(NAME) __wrap_##NAME
#define REAL(NAME) __real_##NAME
void *REAL(malloc)(size_t bytes);
void *REAL(calloc)(size_t count, size_t bytes);
void *REAL(realloc)(void *held, size_t bytes);
void REAL(free)(void *held);
int REAL(posix_memalign)(void **held, size_t multiple, size_t bytes);
int REAL(pthread_create)(pthread_t *thread, const pthread_attr_t *how, void *(*body)(void *), void *of);
void *WRAPPED(malloc)(size_t bytes);
void *WRAPPED(calloc)(size_t count, size_t bytes);
void *WRAPPED(realloc)(void *held, size_t bytes);
void WRAPPED(free)(void *held);
int WRAPPED(posix_memalign)(void **held, size_t multiple, size_t bytes);
int WRAPPED(pthread_create)(pthread_t *thread, const pthread_attr_t *how, void *(*body)(void *), void *of);

static void *counted(void *held) {
    blocks += held != NULL;
    return held;
}

void *WRAPPED(malloc)(size_t bytes) { return is_refused() ? NULL : counted(REAL(malloc)(bytes)); }

void *WRAPPED(calloc)(size_t count, size_t bytes) { return is_refused() ? NULL : counted(REAL(calloc)(count, bytes)); }

void *WRAPPED(realloc)(void *held, size_t bytes) {
    if (is_refused()) return NULL;
    void *moved = REAL(realloc)(held, bytes);
    return held == NULL ? counted(moved) : moved;
}

void WRAPPED(free)(void *held) {
    blocks -= held != NULL;
    REAL(free)(held);
}

int WRAPPED(posix_memalign)(void **held, size_t multiple, size_t bytes) {
    int code = is_refused() ? ENOMEM : REAL(posix_memalign)(held, multiple, bytes);
    blocks += code == 0;
    return code;
}

int WRAPPED(pthread_create)(pthread_t *thread, const pthread_attr_t *how, void *(*body)(void *), void *of) { return is_refused() ? EAGAIN : REAL(pthread_create)(thread, how, body, of); }

/* ---- What is left. ---- */

static int entries(const char *path) {
    DIR *folder = opendir(path);
    int found = 0;
    if (folder == NULL) return -1;
    while (readdir(folder) != NULL) found++;
    closedir(folder);
    return found;
}

static const char *folder;

static void empty_folder(void) {
    char path[4200];
    snprintf(path, sizeof path, "%s/metadata", folder);
    unlink(path);
    for (int cpu = 0; cpu < 64; cpu++) {
        snprintf(path, sizeof path, "%s/cpu_%d_0", folder, cpu);
        unlink(path);
    }
    rmdir(folder);
}

static bool starts(dspec_tracer *tracer, const dspec_tracer_options *options, const dspec_enabling *const *events) {
    bool started;
    is_starting = true;
    started = dspec_tracer_start(tracer, folder, options, events);
    is_starting = false;
    return started;
}

/* A start that is refused, whose reason has these words, and that leaves nothing. */
static void refuses(const dspec_tracer_options *options, const dspec_enabling *const *events, const char *words) {
    dspec_tracer tracer = { 0 };
    const long held = blocks;
    const int files = entries("/proc/self/fd");
    if (!CHECK(!starts(&tracer, options, events)) || !CHECK(strstr(tracer.why, words) != NULL)) printf("why: %s, due: %s\n", tracer.why, words);
    CHECK(blocks == held);
    CHECK(entries("/proc/self/fd") == files);
    CHECK(entries(folder) <= 2);
    CHECK(tracer.body == NULL && !dspec_tracer_stop(&tracer, NULL));
    empty_folder();
}

/* One that goes well, and leaves nothing after its drop. */
static void goes_well(const dspec_tracer_options *options, const dspec_enabling *const *events) {
    dspec_tracer tracer = { 0 };
    const long held = blocks;
    const int files = entries("/proc/self/fd");
    dspec_tracer_report report;
    if (!CHECK(starts(&tracer, options, events))) printf("why: %s\n", tracer.why);
    CHECK(!starts(&tracer, options, events) && strstr(tracer.why, "started before") != NULL);
    CHECK(dspec_tracer_stop(&tracer, &report) && report.stuck_lanes == 0);
    CHECK(dspec_tracer_stop(&tracer, NULL));
    dspec_tracer_drop(&tracer);
    CHECK(tracer.body == NULL);
    CHECK(blocks == held);
    CHECK(entries("/proc/self/fd") == files);
    empty_folder();
}

static void options(void) {
    refuses(&(dspec_tracer_options){ .lanes = 64 }, DSPEC_PROBES(p00), "lanes");
    refuses(&(dspec_tracer_options){ .paths = 64 }, DSPEC_PROBES(p00), "nspec");
    refuses(&(dspec_tracer_options){ .bufsize = 4095 }, DSPEC_PROBES(p00), "specsize");
    refuses(&(dspec_tracer_options){ .bufsize = 8193 }, DSPEC_PROBES(p00), "bufsize");
    refuses(&(dspec_tracer_options){ .specsize = 100 + 1 }, DSPEC_PROBES(p00), "specsize");
    refuses(&(dspec_tracer_options){ .specsize = 48 }, DSPEC_PROBES(p00), "specsize is below 56");
    refuses(&(dspec_tracer_options){ .keep_last = true, .paths = 32 }, DSPEC_PROBES(p00), "paths is not 1 to 31");
    refuses(&(dspec_tracer_options){ .keep_last = true, .specsize = 72 }, DSPEC_PROBES(p00), "specsize is below 80");
    refuses(&(dspec_tracer_options){ .max_folders = 2 }, DSPEC_PROBES(p00), "max_folders needs max_bytes");
    refuses(&(dspec_tracer_options){ .max_folders = 1, .max_bytes = 10000000 }, DSPEC_PROBES(p00), "max_folders is not 2 to 64");
    refuses(&(dspec_tracer_options){ .max_folders = 65, .max_bytes = 10000000 }, DSPEC_PROBES(p00), "max_folders is not 2 to 64");
    refuses(&(dspec_tracer_options){ .max_bytes = 100000 }, DSPEC_PROBES(p00), "the room is too small");
    goes_well(&(dspec_tracer_options){ .keep_last = true, .lanes = 1, .paths = 31, .specsize = 80 }, DSPEC_PROBES(p00));
    goes_well(&(dspec_tracer_options){ .lanes = 1, .paths = 1, .specsize = 56, .bufsize = 56 }, DSPEC_PROBES(p00));
    goes_well(&(dspec_tracer_options){ .lanes = 63, .paths = 63, .bufsize = 4096 }, DSPEC_PROBES(p00));
    goes_well(&(dspec_tracer_options){ .lanes = 1, .paths = 1, .bufsize = 256, .specsize = 256 }, NULL);
    goes_well(NULL, DSPEC_PROBES(p00, p01));
}

static void probes(void) {
    refuses(NULL, DSPEC_PROBES(MANY, p70), "too many enablings");
    goes_well(&(dspec_tracer_options){ .no_crash = true }, DSPEC_PROBES(MANY));
    goes_well(NULL, DSPEC_PROBES(event));
    goes_well(NULL, DSPEC_PROBES(once, twice));
    refuses(NULL, ((const dspec_enabling *const[]){ &enabling_of_taken, NULL }), "another field");
    refuses(NULL, DSPEC_PROBES(event, event), "another event");
}

static void folders(void) {
    const char *right = folder;
    char path[4200];
    FILE *file;
    mkdir(folder, 0777);
    snprintf(path, sizeof path, "%s/metadata", folder);
    file = fopen(path, "w");
    if (file != NULL) fclose(file);
    dspec_tracer tracer = { 0 };
    CHECK(!starts(&tracer, NULL, DSPEC_PROBES(p00)) && strstr(tracer.why, "File exists") != NULL);
    empty_folder();
    folder = "/no/such/folder";
    refuses(NULL, DSPEC_PROBES(p00), "there is no such folder");
    folder = right;
}

/* Each thing that the system gives, refused in turn. */
static long each_refused(const dspec_tracer_options *options) {
    char first[4200];
    snprintf(first, sizeof first, "%s.0", folder);
    for (long at = 1; CHECK(at < 10000); at++) {
        calls = 0;
        refused = 0;
        dspec_tracer tracer = { 0 };
        const long held = blocks;
        const int files = entries("/proc/self/fd");
        refused = at;
        bool started = starts(&tracer, options, DSPEC_PROBES(p00, event));
        refused = 0;
        if (started) {
            dspec_tracer_drop(&tracer);
            empty_folder();
            return at - 1;
        }
        CHECK(tracer.why[0] != 0);
        CHECK(blocks == held);
        CHECK(entries("/proc/self/fd") == files);
        CHECK(entries(folder) <= 2 && entries(first) == -1);
        empty_folder();
    }
    return 0;
}

/* As many tracers as can be up. */
static void many(void) {
    static dspec_tracer tracers[DSPEC_MAX_TRACERS + 1];
    char path[4200];
    const char *right = folder;
    for (uint32_t i = 0; i <= DSPEC_MAX_TRACERS; i++) {
        snprintf(path, sizeof path, "%s.%u", right, i);
        folder = path;
        CHECK(starts(&tracers[i], &(dspec_tracer_options){ .lanes = 1 }, DSPEC_PROBES(p00)) == (i < DSPEC_MAX_TRACERS));
    }
    for (uint32_t i = 0; i < DSPEC_MAX_TRACERS; i++) {
        snprintf(path, sizeof path, "%s.%u", right, i);
        dspec_tracer_drop(&tracers[i]);
        empty_folder();
    }
    folder = right;
}

/* A tracer that isn't started, and a path that was never begun: nothing is done. */
static void nothing(void) {
    dspec_tracer tracer = { 0 };
    dspec_path none = { 0 }, path = dspec_path_begin(&tracer);
    CHECK(p00_in(&none, 1) == DSPEC_UNAVAILABLE && !dspec_path_keep(&none) && dspec_path_drop(&none));
    CHECK(p00_in(&path, 1) == DSPEC_UNAVAILABLE && !dspec_path_keep(&path) && dspec_path_drop(&path));
    CHECK(p00_now(&tracer, 1) == DSPEC_UNAVAILABLE && !dspec_tracer_flush(&tracer, 0) && !dspec_tracer_stop(&tracer, NULL));
    dspec_tracer_drop(&tracer);
}

int main(int argc, char **argv) {
    if (argc < 2) return 2;
    folder = argv[1];
    nothing();
    goes_well(NULL, DSPEC_PROBES(p00)); /* the system's own first calls are after it */
    options();
    probes();
    folders();
    many();
    printf("%ld refused\n", each_refused(&(dspec_tracer_options){ .lanes = 2 }));
    printf("%ld refused below a bound\n", each_refused(&(dspec_tracer_options){ .lanes = 2, .max_bytes = 1000000 }));
    return check_end();
}
