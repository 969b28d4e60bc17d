/* A tracer whose folder is followed by tests/paths-followed: paths_followed FOLDER MAX_BYTES. For each line of its input, a count, it makes so many requests, which are numbered from 1 on. Of
 * three in a row the first fails, the second is asked for, and the third is thrown away. Request N has N % 4 steps. Once what was kept is in the folder it says so in a line. */
#include "dspec_tracer.h"

#include <inttypes.h>
#include <stdio.h>
#include <stdlib.h>

enum { STEPS = 4, PATIENCE_MS = 60000 };

DSPEC_PROBE(request, uint64_t, number);
DSPEC_PROBE(step, uint64_t, number, uint32_t, place);

static dspec_tracer tracer;

static void serve(uint64_t number) {
    dspec_path path = dspec_path_begin(&tracer);
    request_in(&path, number);
    for (uint32_t place = 0; place < number % STEPS; place++) step_in(&path, number, place);
    switch (number % 3) {
    case 1: dspec_path_keep_why(&path, DSPEC_WHY_FAILED); break;
    case 2: dspec_path_keep_why(&path, DSPEC_WHY_ASKED); break;
    default: dspec_path_drop(&path); break;
    }
}

int main(int argc, char **argv) {
    dspec_tracer_options options = { .lanes = 1, .keep_ms = 10000 };
    uint64_t number = 0, count;
    if (argc < 3) return fprintf(stderr, "usage: paths_followed FOLDER MAX_BYTES\n"), 2;
    options.max_bytes = strtoull(argv[2], NULL, 10);
    if (!dspec_tracer_start(&tracer, argv[1], &options, DSPEC_PROBES(request, step))) return fprintf(stderr, "%s\n", tracer.why), 1;
    while (scanf("%" SCNu64, &count) == 1) {
        for (; count > 0; count--) serve(++number);
        puts(dspec_tracer_flush(&tracer, PATIENCE_MS) ? "written" : "not written");
        fflush(stdout);
    }
    dspec_tracer_stop(&tracer, NULL);
    return 0;
}
