/* A plugin of declared.c: a probe that the host has too, and one of its own. */
#include "dspec_tracer.h"

#include "check.h"

DSPEC_PROBE(step, uint64_t, request, dspec_text16, what);
DSPEC_PROBE(plugged, uint64_t, request);

unsigned long plugin_work(dspec_tracer *tracer, dspec_path *path);

/* How many checks failed. */
unsigned long plugin_work(dspec_tracer *tracer, dspec_path *path) {
    CHECK(step_in(path, 2, dspec_text16_of("unknown", 7)) == DSPEC_BAD_RECORD);
    CHECK(!dspec_tracer_add(tracer, DSPEC_PROBES(step, plugged)) && strstr(tracer->why, "plugged: a tracer's events are those of its start") != NULL);
    CHECK(step_in(path, 3, dspec_text16_of("none added", 10)) == DSPEC_BAD_RECORD);
    CHECK(dspec_tracer_add(tracer, DSPEC_PROBES(step)) && dspec_tracer_add(tracer, DSPEC_PROBES(step)));
    CHECK(step_in(path, 4, dspec_text16_of("plugin", 6)) == DSPEC_OK && step_now(tracer, 5, dspec_text16_of("alone", 5)) == DSPEC_OK);
    dspec_tracer_remove(tracer, DSPEC_PROBES(step));
    CHECK(step_in(path, 6, dspec_text16_of("removed", 7)) == DSPEC_BAD_RECORD);
    return checks_failed + (checks_passed == 0);
}
