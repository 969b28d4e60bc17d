/* A tracer whose kept paths are shown by tests/paths-shown: paths_shown FOLDER SEED PATHS STEPS [crash]. So many paths over three threads, some of which are open at once; each has up to
 * so many steps, some of them within one another; some are thrown away; some have a key. Their texts are markup, quotes, characters for control and bytes that are no UTF-8. */
#include "dspec_tracer.h"

#include <pthread.h>
#include <signal.h>
#include <stdio.h>
#include <stdlib.h>
#include <string.h>

enum { THREADS = 3, AT_ONCE = 4 };

DSPEC_PROBE(request, uint64_t, number, dspec_text48, page);
DSPEC_PROBE(step_begin, uint32_t, number);
DSPEC_PROBE(step_end, uint32_t, number, int32_t, code);
DSPEC_PROBE(query_begin, dspec_text32, words);
DSPEC_PROBE(query_end, uint16_t, rows);
DSPEC_PROBE(note, uint8_t, kind, double, share);
DSPEC_LABELS(note, kind, "quiet", "</script><b>", "loud & clear");
DSPEC_PROBE(tick, uint32_t, number);

static const char *const texts[] = {
    "/orders/new", "</script><script>hacked()</script>", "<img src=http://leak.invalid/x>", "\"quoted\" & 'quoted' \\ \\u003c", "tab\t line\n bell\a escape\x1b[31m delete\x7f",
    "bad \xff\xfe\xc3 utf", "separators \xe2\x80\xa8 and \xe2\x80\xa9", "<!-- --> ]]> <script", "\xf0\x9f\x9a\x80 \xc3\xa9t\xc3\xa9", "", "javascript:hacked()", "{\"a\":[1,2]}",
    "<svg onload=hacked()>", "'\"><a href=javascript:hacked()>", "<iframe srcdoc='<script>hacked()'>", "<style>*{display:none}</style>", "<base href=//leak.invalid>", "<meta http-equiv=refresh content=0>",
    "&lt;img src=x onerror=hacked()&gt; &#60;", "\\u003cscript\\u003ehacked()", "${hacked()} {{hacked()}}", "__proto__", "<a onfocus=hacked() autofocus tabindex=1>", "\xc0\xbcscript\xc0\xbe",
};
static const char *const why_texts[] = { "own <why>", "own&why" };
static const size_t why_count = 2;
static const dspec_labels whys = { why_texts, &why_count };

static dspec_tracer tracer;
static uint64_t seed;
static unsigned paths_due, steps_due, crash_at;
static unsigned begun;

static uint32_t dice(uint64_t *state, uint32_t below) {
    *state = *state * UINT64_C(6364136223846793005) + UINT64_C(1442695040888963407);
    return (uint32_t)(*state >> 33) % below;
}

static void step(uint64_t *state, dspec_path *path, unsigned depth) {
    const char *text = texts[dice(state, sizeof texts / sizeof *texts)];
    uint32_t number = dice(state, 1000);
    switch (dice(state, 5)) {
    case 0:
        step_begin_in(path, number);
        if (depth < 3) step(state, path, depth + 1);
        if (dice(state, 5) > 0) step_end_in(path, number, -(int32_t)number);
        break;
    case 1:
        query_begin_in(path, dspec_text32_of(text, strlen(text)));
        if (depth < 3) step(state, path, depth + 1);
        query_end_in(path, (uint16_t)number);
        break;
    case 2:
        query_end_in(path, (uint16_t)number);
        break;
    default:
        note_in(path, (uint8_t)dice(state, 4), number == 0 ? 0.0 / number : number / 7.0);
        break;
    }
}

static void decide(uint64_t *state, dspec_path *path) {
    static const uint32_t reasons[] = { DSPEC_WHY_FAILED, DSPEC_WHY_SLOW, DSPEC_WHY_ASKED, DSPEC_WHY_OWN, DSPEC_WHY_OWN + 1 };
    if (dice(state, 3) == 0) dspec_path_key(path, UINT64_C(0x4bf92f3577b34da6), (uint64_t)dice(state, 100) + 1);
    if (dice(state, 4) == 0) dspec_path_drop(path);
    else if (dice(state, 3) == 0) dspec_path_keep(path);
    else dspec_path_keep_why(path, reasons[dice(state, sizeof reasons / sizeof *reasons)]);
}

static void *serve(void *place) {
    dspec_path open[AT_ONCE] = { 0 };
    uint64_t state = seed * 1000 + (uint64_t)(size_t)place;
    char name[16];
    snprintf(name, sizeof name, "<b>worker-%zu", (size_t)place);
    pthread_setname_np(pthread_self(), name);
    for (unsigned number; (number = __atomic_add_fetch(&begun, 1, __ATOMIC_RELAXED)) <= paths_due;) {
        unsigned at = dice(&state, AT_ONCE);
        const char *page = texts[dice(&state, sizeof texts / sizeof *texts)];
        if (dspec_path_is_open(&open[at])) decide(&state, &open[at]);
        open[at] = dspec_path_begin(&tracer);
        request_in(&open[at], number, dspec_text48_of(page, strlen(page)));
        for (unsigned steps = dice(&state, steps_due + 1); steps > 0; steps--) step(&state, &open[dspec_path_is_open(&open[steps % AT_ONCE]) ? steps % AT_ONCE : at], 0);
        if (dice(&state, 20) == 0) tick_now(&tracer, number);
        if (number == crash_at) raise(SIGSEGV);
    }
    for (unsigned at = 0; at < AT_ONCE; at++)
        if (dspec_path_is_open(&open[at])) decide(&state, &open[at]);
    return NULL;
}

int main(int argc, char **argv) {
    pthread_t threads[THREADS];
    dspec_tracer_options options = { .lanes = THREADS + 1, .whys = &whys, .bufsize = 1 << 20, .keep_ms = 2000 };
    dspec_tracer_report report;
    if (argc < 5) return fprintf(stderr, "usage: paths_shown FOLDER SEED PATHS STEPS [crash]\n"), 2;
    seed = strtoull(argv[2], NULL, 10);
    paths_due = (unsigned)atoi(argv[3]);
    steps_due = (unsigned)atoi(argv[4]);
    if (argc > 5) crash_at = paths_due / 2;
    if (!dspec_tracer_start(&tracer, argv[1], &options, DSPEC_PROBES(request, step_begin, step_end, query_begin, query_end, note, tick))) return fprintf(stderr, "%s\n", tracer.why), 1;
    for (size_t place = 0; place < THREADS; place++) pthread_create(&threads[place], NULL, serve, (void *)place);
    for (size_t place = 0; place < THREADS; place++) pthread_join(threads[place], NULL);
    dspec_tracer_stop(&tracer, &report);
    printf("%llu\n", (unsigned long long)report.kept);
    return 0;
}
