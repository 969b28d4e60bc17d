/* Texts, labels and literals of a tracer: `tracer_texts FOLDER stop`, or with `kill` it ends by SIGKILL, with a path that is open. tests/c/tracer looks at what is in the folder, and at
 * what is salvaged. */
#define _GNU_SOURCE
#include "dspec_tracer.h"

#include <signal.h>
#include <stdio.h>
#include <string.h>
#include <unistd.h>

DSPEC_PROBE(said, uint64_t, request, dspec_text32, what, uint8_t, outcome);
DSPEC_LABELS(said, outcome, "done", "aborted", "slow");
DSPEC_PROBE(step, dspec_text8, name, uint32_t, place, int16_t, state);
DSPEC_LABELS(step, state, "begun", "gone on");
DSPEC_PROBE(note, dspec_text40, first, dspec_text16, second);

static dspec_literals places;
DSPEC_LITERALS(step, place, places);

static dspec_text32 what(const char *text) { return dspec_text32_of(text, strlen(text)); }

int main(int argc, char **argv) {
    static dspec_tracer tracer;
    const bool is_killed = argc > 2 && strcmp(argv[2], "kill") == 0;
    const dspec_tracer_options options = { .survive = is_killed, .no_crash = true, .period_ms = 100000 };
    const uint32_t parse = dspec_literal(&places, "parse.c: no number"), emit = dspec_literal(&places, "emit.c"), again = dspec_literal(&places, "parse.c: no number");
    dspec_path kept, dropped, open;
    bool is_well = parse == 0 && emit == 1 && again == 0;
    if (argc < 3 || !dspec_tracer_start(&tracer, argv[1], &options, DSPEC_PROBES(said, step, note))) {
        printf("%s\n", tracer.why);
        return 1;
    }
    kept = dspec_path_begin(&tracer);
    is_well &= said_in(&kept, 1, what("select \"page\"\nfrom visits"), 2) == DSPEC_OK;
    is_well &= step_in(&kept, dspec_text8_of("", 0), emit, 1) == DSPEC_OK && dspec_path_keep(&kept);
    dropped = dspec_path_begin(&tracer);
    is_well &= said_in(&dropped, 2, what("never seen"), 0) == DSPEC_OK && dspec_path_drop(&dropped);
    is_well &= note_now(&tracer, dspec_text40_of("forty-six letters of ASCII, and then one more: \xe2\x82\xac", 50), dspec_text16_of("\xff\x01", 2)) == DSPEC_OK;
    is_well &= step_now(&tracer, dspec_text8_of("more than eight", 15), parse, -1) == DSPEC_OK;
    open = dspec_path_begin(&tracer);
    is_well &= said_in(&open, 3, what("an open path"), 1) == DSPEC_OK;
    if (!is_well) return 1;
    if (is_killed) kill(getpid(), SIGKILL);
    return !dspec_tracer_stop(&tracer, NULL);
}
