/* What dspec.h has beside the library, in C11 and in C++17: the macros for values that are spelled out, the texts, the drops. Compiled as
 * either, included twice. */
#include "dspec_ctf.h"
#include "dspec_labels.h"
#include "dspec_text.h"
#include "dspec_traceparent.h"
#include "dspec_tracer.h"

#include "dspec.h"
#include "dspec_ctf.h"
#include "dspec_labels.h"
#include "dspec_text.h"
#include "dspec_traceparent.h"
#include "dspec_tracer.h"

#include <stdio.h>
#include <string.h>

static int passed, failed;

static void check(bool is_well, const char *what) {
    if (is_well) {
        passed++;
    } else {
        failed++;
        printf("%s\n", what);
    }
}

#define CHECK(what) check((what), #what)

/* A session of one CPU over records of no field, of one, and of eight. */
static void start(dspec_session *session, dspec_cpu *cpu, bool stamped) {
    static const uint8_t ones[8] = { 1, 1, 1, 1, 1, 1, 1, 1 };
    dspec_schema schema = DSPEC_EMPTY;
    dspec_config config;
    uint32_t epid = 0;
    memset(&config, 0, sizeof config);
    config.cpus = 1;
    config.nspec = 1;
    config.bufsize = 128;
    config.specsize = 128;
    config.max_issues = DSPEC_MAX_ISSUES;
    config.max_calls = DSPEC_MAX_CALLS;
    config.policy = DSPEC_POLICY_FILL;
    CHECK(dspec_schema_new(&schema) == DSPEC_OK);
    for (size_t n = 0; n < 3; n++) CHECK(dspec_schema_enable(&schema, ones, n == 2 ? DSPEC_MAX_FIELDS : n, &epid) == DSPEC_OK);
    if (stamped) CHECK(dspec_schema_stamp(&schema) == DSPEC_OK);
    CHECK(dspec_start(&config, &schema, session) == DSPEC_OK);
    CHECK(dspec_cpu_of(session, 0, cpu) == DSPEC_OK);
    dspec_schema_drop(&schema);
}

static void ends_with(dspec_session *session, dspec_cpu *cpu, const uint8_t *bytes, size_t len) {
    dspec_closed closed = DSPEC_EMPTY;
    dspec_batch batch;
    CHECK(dspec_cpu_home(cpu) == DSPEC_OK);
    CHECK(dspec_finish(session, &closed) == DSPEC_OK);
    CHECK(dspec_rest(&closed, 0, true, &batch) == DSPEC_OK);
    CHECK(batch.len == len && memcmp(batch.bytes, bytes, len) == 0);
    dspec_closed_drop(&closed);
    dspec_session_drop(session);
    dspec_cpu_drop(cpu);
}

static void plain(void) {
    static const uint8_t due[] = { 1, 0, 0, 0, 2, 0, 0, 0, 9, 0, 0, 0, 3, 0, 0, 0, 1, 2, 3, 4, 5, 6, 7, 8, 1, 0, 0, 0, 2, 0, 0, 0, 7, 0, 0, 0 };
    dspec_session session = DSPEC_EMPTY;
    dspec_cpu cpu = DSPEC_EMPTY;
    uint64_t id = 0;
    uint32_t count = 0, evaluated = 8;
    dspec_report report;
    start(&session, &cpu, false);
    CHECK(DSPEC_TRACE(&cpu, 1) == DSPEC_OK);
    CHECK(DSPEC_TRACE(&cpu, 2, ++evaluated) == DSPEC_OK);
    CHECK(evaluated == 9);
    CHECK(DSPEC_TRACE(&cpu, 3, 1, 2, 3, 4, 5, 6, 7, 8) == DSPEC_OK);
    CHECK(DSPEC_TRACE(&cpu, 3, 1, 2, 3, 4, 5, 6, 7) == DSPEC_BAD_RECORD);
    CHECK(DSPEC_TRACE(&cpu, 3, 1, 2, 3, 4, 5, 6, 7, 8, 9) == DSPEC_BAD_RECORD);
    CHECK(DSPEC_TRACE_AT(&cpu, 1, 1) == DSPEC_BAD_RECORD);
    CHECK(DSPEC_TRACE(&cpu, (UINT64_C(1) << 32) + 1) == DSPEC_BAD_RECORD);
    CHECK(DSPEC_TRACE_AT(&cpu, (UINT64_C(1) << 32) + 1, 0) == DSPEC_BAD_RECORD);
    CHECK(dspec_speculation(&cpu, &id) == DSPEC_OK);
    CHECK(DSPEC_SPECULATE(&cpu, id, 1) == DSPEC_OK);
    CHECK(DSPEC_SPECULATE(&cpu, id, 2, 7) == DSPEC_OK);
    CHECK(DSPEC_SPECULATE(&cpu, id, 2, 256) == DSPEC_BAD_RECORD);
    CHECK(DSPEC_SPECULATE(&cpu, id, (UINT64_C(1) << 32) + 1) == DSPEC_BAD_RECORD);
    CHECK(DSPEC_SPECULATE_AT(&cpu, id, (UINT64_C(1) << 32) + 1, 0) == DSPEC_BAD_RECORD);
    CHECK(dspec_cpu_report(&cpu, &report) == DSPEC_OK && report.refused == 8 && report.offered == 5);
    CHECK(dspec_commit(&cpu, id, &count) == DSPEC_OK && count == 2);
    ends_with(&session, &cpu, due, sizeof due);
}

static void stamped(void) {
    static const uint8_t due[] = { 1, 0, 0, 0, 5, 0, 0, 0, 0, 0, 0, 0, 2, 0, 0, 0, 6, 0, 0, 0, 0, 0, 0, 0, 9, 0, 0, 0,
                                   0, 0, 0, 0, 2, 0, 0, 0, 8, 0, 0, 0, 0, 0, 0, 0, 7, 0, 0, 0, 1, 0, 0, 0, 9, 0, 0, 0, 0, 0, 0, 0 };
    dspec_session session = DSPEC_EMPTY;
    dspec_cpu cpu = DSPEC_EMPTY;
    uint64_t id = 0;
    uint32_t count = 0;
    start(&session, &cpu, true);
    CHECK(DSPEC_TRACE_AT(&cpu, 1, 5) == DSPEC_OK);
    CHECK(DSPEC_TRACE_AT(&cpu, 2, 6, 9) == DSPEC_OK);
    CHECK(DSPEC_TRACE_AT(&cpu, 2, 6) == DSPEC_BAD_RECORD);
    CHECK(dspec_speculation(&cpu, &id) == DSPEC_OK);
    CHECK(DSPEC_SPECULATE_AT(&cpu, id, 2, 8, 7) == DSPEC_OK);
    CHECK(DSPEC_SPECULATE_AT(&cpu, id, 1, 9) == DSPEC_OK);
    CHECK(DSPEC_SPECULATE_AT(&cpu, id, 1, 9, 1) == DSPEC_BAD_RECORD);
    CHECK(dspec_commit(&cpu, id, &count) == DSPEC_OK && count == 2);
    ends_with(&session, &cpu, due, sizeof due);
}

int main(void) {
    plain();
    stamped();
    CHECK(dspec_version() == DSPEC_VERSION);
    CHECK(strcmp(dspec_status_text(DSPEC_BUSY), "busy") == 0);
    printf("%d passed, %d failed\n", passed, failed);
    return failed > 0 || passed == 0;
}
