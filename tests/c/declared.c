/* What a program declares and what a tracer makes of it: names with underscores, probes that a start wasn't handed, a plugin's probes, probes and tracers that are off, the rule by which paths end, and
 * the variable DSPEC_TRACE. `declared FOLDER WAY [PLUGIN]`; its last line counts its checks, and tests/c/declarations looks at the folder. */
#define _GNU_SOURCE
#include "dspec_tracer.h"

#include "check.h"

#include <dlfcn.h>
#include <unistd.h>

DSPEC_PROBE(named, uint32_t, _x, uint32_t, x, uint32_t, event);
DSPEC_PROBE(step, uint64_t, request, dspec_text16, what);
DSPEC_PROBE(absent, uint64_t, number);

static dspec_tracer tracer;
static const char *folder;

static bool starts(const dspec_tracer_options *options, const dspec_enabling *const *events) {
    const bool is_up = dspec_tracer_start(&tracer, folder, options, events);
    if (!CHECK(is_up)) printf("why: %s\n", tracer.why);
    return is_up;
}

static void ends(uint64_t accepted) {
    dspec_tracer_report report;
    CHECK(dspec_tracer_stop(&tracer, &report));
    if (!CHECK(report.accepted == accepted)) printf("%llu accepted\n", (unsigned long long)report.accepted);
    dspec_tracer_drop(&tracer);
}

static void underscores(void) {
    if (!starts(NULL, DSPEC_PROBES(named))) return;
    CHECK(named_now(&tracer, 1, 2, 3) == DSPEC_OK);
    ends(1);
}

/* A probe that the start wasn't handed is named at once, its records are refused, counted and told. */
static void missing(void) {
    dspec_tracer_report report;
    dspec_path path;
    if (!starts(NULL, DSPEC_PROBES(step))) return;
    CHECK(strstr(tracer.why, "absent") != NULL && strstr(tracer.why, "step") == NULL);
    path = dspec_path_begin(&tracer);
    CHECK(step_in(&path, 1, dspec_text16_of("one", 3)) == DSPEC_OK);
    CHECK(absent_in(&path, 1) == DSPEC_BAD_RECORD && absent_in(&path, 2) == DSPEC_BAD_RECORD && absent_now(&tracer, 3) == DSPEC_BAD_RECORD);
    CHECK(dspec_path_keep(&path));
    CHECK(dspec_tracer_counts(&tracer, &report) && report.missing == 3);
    CHECK(dspec_tracer_stop(&tracer, &report) && report.missing == 3 && report.refused == 0 && report.accepted == 1);
    CHECK(strstr(report.why, "absent") != NULL);
}

/* A plugin's probe of the host's name and fields is taken once it is added; one of its own isn't. */
static void plugin(const char *file) {
    void *loaded = dlopen(file, RTLD_NOW);
    unsigned long (*work)(dspec_tracer *, dspec_path *) = NULL;
    dspec_path path;
    if (!CHECK(loaded != NULL)) return;
    memcpy(&work, &(void *){ dlsym(loaded, "plugin_work") }, sizeof work);
    if (!CHECK(work != NULL) || !starts(NULL, DSPEC_PROBES(step, named))) return;
    path = dspec_path_begin(&tracer);
    CHECK(step_in(&path, 1, dspec_text16_of("host", 4)) == DSPEC_OK);
    CHECK(work(&tracer, &path) == 0);
    CHECK(dspec_path_keep(&path));
    CHECK(dlclose(loaded) == 0);
    ends(3);
}

static void switches(void) {
    dspec_path path, later;
    CHECK(!dspec_tracer_is_up(&tracer));
    later = dspec_path_begin(&tracer);
    CHECK(step_in(&later, 1, dspec_text16_of("early", 5)) == DSPEC_UNAVAILABLE && !dspec_path_keep(&later));
    if (!starts(NULL, DSPEC_PROBES(step, named))) return;
    CHECK(dspec_tracer_is_up(&tracer));
    path = dspec_path_begin(&tracer);
    CHECK(!dspec_path_is_open(&path) && dspec_path_took(&path) == 0);
    CHECK(step_in(&path, 1, dspec_text16_of("on", 2)) == DSPEC_OK && dspec_path_is_open(&path));
    step_switch(&tracer, false);
    CHECK(step_in(&path, 2, dspec_text16_of("off", 3)) == DSPEC_VOID && step_now(&tracer, 2, dspec_text16_of("off", 3)) == DSPEC_VOID);
    CHECK(named_now(&tracer, 1, 2, 3) == DSPEC_OK);
    step_switch(&tracer, true);
    dspec_tracer_switch(&tracer, false);
    CHECK(!dspec_tracer_is_up(&tracer));
    CHECK(step_in(&path, 3, dspec_text16_of("goes on", 7)) == DSPEC_OK && dspec_path_keep(&path) && !dspec_path_is_open(&path));
    later = dspec_path_begin(&tracer);
    CHECK(step_in(&later, 4, dspec_text16_of("off", 3)) == DSPEC_UNAVAILABLE && step_now(&tracer, 4, dspec_text16_of("off", 3)) == DSPEC_UNAVAILABLE);
    CHECK(!dspec_path_keep(&later));
    dspec_tracer_switch(&tracer, true);
    CHECK(dspec_tracer_is_up(&tracer) && step_now(&tracer, 5, dspec_text16_of("again", 5)) == DSPEC_OK);
    ends(4);
    CHECK(!dspec_tracer_is_up(&tracer));
}

static bool ends_by_rule(uint64_t request, bool failed, uint64_t slow_ns) {
    dspec_path path = dspec_path_begin(&tracer);
    CHECK(step_in(&path, request, dspec_text16_of("", 0)) == DSPEC_OK);
    return dspec_path_end(&path, failed, slow_ns);
}

/* The trace of the first tracer, for the second one's in its place. */
static bool moves_aside(void) {
    char aside[4200];
    snprintf(aside, sizeof aside, "%s.first", folder);
    return CHECK(rename(folder, aside) == 0);
}

/* Requests 1 and 2 failed and were slow, 3 wasn't; of 4,000 others one in four is sampled, on each lane. */
static void rule(void) {
    static const char *const texts[] = { "vip", "canary" };
    static const size_t count = 2;
    static const dspec_labels whys = { texts, &count };
    uint64_t sampled = 0;
    dspec_path path;
    if (!starts(&(dspec_tracer_options){ .slow_ns = UINT64_C(3600000000000), .sample = 0, .whys = &whys }, DSPEC_PROBES(step))) return;
    CHECK(ends_by_rule(1, true, 0) && ends_by_rule(2, false, 1) && !ends_by_rule(3, false, 0));
    path = dspec_path_begin(&tracer);
    CHECK(step_in(&path, 4, dspec_text16_of("", 0)) == DSPEC_OK && dspec_path_key(&path, 7, 8) && dspec_path_keep_why(&path, DSPEC_WHY_OWN + 1));
    path = dspec_path_begin(&tracer);
    CHECK(!dspec_path_end(&path, true, 0));
    ends(3);
    if (!moves_aside() || !starts(&(dspec_tracer_options){ .lanes = 4, .bufsize = 1048576, .sample = 4, .by_thread = true }, DSPEC_PROBES(step))) return;
    for (uint64_t i = 0; i < 4000; i++) sampled += ends_by_rule(i, false, 0);
    if (!CHECK(sampled > 900 && sampled < 1100)) printf("%llu sampled\n", (unsigned long long)sampled);
    ends(sampled);
}

static void refuses(const char *value, const char *words) {
    setenv("DSPEC_TRACE", value, 1);
    if (!CHECK(!dspec_tracer_start_env(&tracer, NULL, DSPEC_PROBES(step, named))) || !CHECK(strstr(tracer.why, words) != NULL)) printf("%s: %s\n", value, tracer.why);
}

static void environment(void) {
    char value[5000];
    dspec_tracer_report report;
    unsetenv("DSPEC_TRACE");
    CHECK(!dspec_tracer_start_env(&tracer, NULL, DSPEC_PROBES(step)) && strcmp(tracer.why, "DSPEC_TRACE isn't set") == 0);
    refuses("", "isn't set");
    refuses(",slow=5ms", "begins with the folder");
    refuses("x,slwo=5ms", "`slwo=5ms`: no such word; there are slow, sample");
    refuses("x,slow=5", "`slow=5`: a time is a number with ns, us, ms or s");
    refuses("x,slow=", "`slow=`: a time");
    refuses("x,slow=99999999999s", "`slow=99999999999s`: a time");
    refuses("x,max=64X", "`max=64X`: a size is a number, or one with K, M or G");
    refuses("x,max=18446744073709551617", "`max=18446744073709551617`: a size is a number");
    refuses("x,sample=-1", "`sample=-1`: this is no count");
    refuses("x,sample", "`sample`: this word has a value");
    refuses("x,survive=1", "`survive=1`: this word has no value");
    refuses("x,period=1500us", "with ms or s here");
    refuses("x,off=nothing", "`nothing`: no such probe");
    refuses("x,,", "``: no such word");
    refuses("x,lanes=64", "lanes is not 1 to 63");
    snprintf(value, sizeof value, "%s,slow=5ms,sample=1,lanes=2,bufsize=16K,period=1s,keep_open,off=named", folder);
    setenv("DSPEC_TRACE", value, 1);
    if (!CHECK(dspec_tracer_start_env(&tracer, NULL, DSPEC_PROBES(step, named)))) printf("why: %s\n", tracer.why);
    CHECK(named_now(&tracer, 1, 2, 3) == DSPEC_VOID);
    CHECK(ends_by_rule(1, false, 0));
    CHECK(dspec_tracer_stop(&tracer, &report) && report.kept == 1 && report.accepted == 1);
}

/* By the variable that the program was started with. */
static void outside(void) {
    printf("started %d: %s\n", dspec_tracer_start_env(&tracer, NULL, DSPEC_PROBES(step)), tracer.why);
    dspec_tracer_stop(&tracer, NULL);
}

int main(int argc, char **argv) {
    const char *way = argc > 2 ? argv[2] : "";
    if (argc < 3) return 2;
    folder = argv[1];
    if (strcmp(way, "underscores") == 0) underscores();
    else if (strcmp(way, "missing") == 0) missing();
    else if (strcmp(way, "plugin") == 0 && argc > 3) plugin(argv[3]);
    else if (strcmp(way, "switches") == 0) switches();
    else if (strcmp(way, "rule") == 0) rule();
    else if (strcmp(way, "environment") == 0) environment();
    else if (strcmp(way, "outside") == 0) outside();
    else return 2;
    return check_end();
}
