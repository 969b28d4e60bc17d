/* Misuse of arguments: records, schemas and configurations that are refused, at both ends of each range. Each answers its status, and
 * changes nothing, but that a CPU counts each record that was refused. */
#include "check.h"

static void refuses_record(check_all *a, uint64_t id, uint32_t epid, uint64_t stamp, const uint64_t *values, size_t n) {
    dspec_report before, after;
    MUST(dspec_cpu_report(&a->cpu, &before));
    ANSWERS(dspec_trace(&a->cpu, epid, stamp, values, n), DSPEC_BAD_RECORD);
    ANSWERS(dspec_speculate(&a->cpu, id, epid, stamp, values, n), DSPEC_BAD_RECORD);
    MUST(dspec_cpu_report(&a->cpu, &after));
    before.refused += 2;
    CHECK(check_same_report(&before, &after));
}

/* What isn't a record of the schema: one field of 4; none; 1, 2 and 8. */
static void records(void) {
    static const uint64_t most[] = { 0xff, 0xffff, UINT64_MAX, 0, 0, 0, 0, 0, 0 };
    static const uint64_t wide[][3] = { { 0x100, 0, 0 }, { 0, 0x10000, 0 }, { UINT64_MAX, 0, 0 } };
    check_all a;
    uint64_t id;
    check_set_up(&a);
    MUST(dspec_speculation(&a.cpu, &id));
    refuses_record(&a, id, 0, 0, most, 0);
    refuses_record(&a, id, 4, 0, most, 0);
    refuses_record(&a, id, UINT32_MAX, 0, most, 1);
    for (size_t n = 0; n <= 9; n++) {
        if (n != 1) refuses_record(&a, id, 1, 0, most, n);
        if (n != 0) refuses_record(&a, id, 2, 0, most, n);
        if (n != 3) refuses_record(&a, id, 3, 0, most, n);
    }
    for (int i = 0; i < 3; i++) refuses_record(&a, id, 3, 0, wide[i], 3);
    refuses_record(&a, id, 1, 0, (const uint64_t[]){ UINT64_C(0x100000000) }, 1);
    refuses_record(&a, id, 1, 1, most, 1);
    refuses_record(&a, id, 2, UINT64_MAX, most, 0);
    ANSWERS(dspec_trace(&a.cpu, 3, 0, most, 3), DSPEC_OK);
    ANSWERS(dspec_speculate(&a.cpu, id, 3, 0, most, 3), DSPEC_OK);
    check_let_go(&a);
}

/* dspec.h asks for a pointer even where there is no element; what a null does is looked at all the same. */
static void null_of_none(void) {
    check_all a;
    uint32_t epid = 0;
    uint64_t id;
    check_set_up(&a);
    MUST(dspec_speculation(&a.cpu, &id));
    ANSWERS(dspec_trace(&a.cpu, 2, 0, NULL, 0), DSPEC_OK);
    ANSWERS(dspec_trace(&a.cpu, 1, 0, NULL, 0), DSPEC_BAD_RECORD);
    ANSWERS(dspec_speculate(&a.cpu, id, 2, 0, NULL, 0), DSPEC_OK);
    ANSWERS(dspec_schema_enable(&a.schema, NULL, 0, &epid), DSPEC_OK);
    CHECK(epid == 4);
    check_let_go(&a);
}

static void schemas(void) {
    static const uint8_t none[] = { 0, 3, 5, 6, 7, 9, 16, 255 };
    static const uint8_t nine[] = { 1, 1, 1, 1, 1, 1, 1, 1, 1 }, bad[] = { 3, 1, 1, 1, 1, 1, 1, 1, 1 };
    dspec_schema schema = DSPEC_EMPTY;
    uint32_t epid = 77;
    MUST(dspec_schema_new(&schema));
    for (size_t i = 0; i < sizeof none; i++) {
        ANSWERS(dspec_schema_enable(&schema, &none[i], 1, &epid), DSPEC_BAD_WIDTH);
        ANSWERS(dspec_schema_enable(&schema, (const uint8_t[]){ 1, 2, none[i] }, 3, &epid), DSPEC_BAD_WIDTH);
    }
    ANSWERS(dspec_schema_enable(&schema, nine, 9, &epid), DSPEC_TOO_MANY_FIELDS);
    ANSWERS(dspec_schema_enable(&schema, bad, 9, &epid), DSPEC_TOO_MANY_FIELDS);
    CHECK(epid == 77);
    for (uint32_t i = 1; i <= 64; i++) {
        ANSWERS(dspec_schema_enable(&schema, nine, 8, &epid), DSPEC_OK);
        CHECK(epid == i);
    }
    ANSWERS(dspec_schema_enable(&schema, nine, 1, &epid), DSPEC_TOO_MANY_ENABLINGS);
    ANSWERS(dspec_schema_enable(&schema, bad, 1, &epid), DSPEC_BAD_WIDTH);
    ANSWERS(dspec_schema_enable(&schema, bad, 9, &epid), DSPEC_TOO_MANY_FIELDS);
    CHECK(epid == 64);
    dspec_schema_drop(&schema);
}

/* A session takes the schema as it is at the start. */
static void later_schema(void) {
    check_all a;
    uint32_t epid;
    dspec_report report;
    check_set_up(&a);
    MUST(dspec_schema_enable(&a.schema, (const uint8_t[]){ 0 }, 0, &epid));
    MUST(dspec_schema_stamp(&a.schema));
    ANSWERS(DSPEC_TRACE(&a.cpu, epid), DSPEC_BAD_RECORD);
    ANSWERS(DSPEC_TRACE_AT(&a.cpu, 1, 1, 7), DSPEC_BAD_RECORD);
    ANSWERS(DSPEC_TRACE(&a.cpu, 1, 7), DSPEC_OK);
    MUST(dspec_cpu_report(&a.cpu, &report));
    CHECK(report.refused == 2 && report.offered == 1);
    /* Of a row that has no place for a stamp. */
    ANSWERS(DSPEC_TRACE_AT(&a.cpu, 1), DSPEC_BAD_RECORD);
    ANSWERS(DSPEC_SPECULATE_AT(&a.cpu, 1, 1), DSPEC_BAD_RECORD);
    MUST(dspec_cpu_report(&a.cpu, &report));
    CHECK(report.refused == 4 && report.offered == 1);
    check_let_go(&a);
}

static void starts(dspec_config given, dspec_status due) {
    dspec_schema schema = DSPEC_EMPTY;
    dspec_session session = DSPEC_EMPTY;
    MUST(dspec_schema_new(&schema));
    ANSWERS(dspec_start(&given, &schema, &session), due);
    CHECK(schema.held && session.held == (due == DSPEC_OK));
    dspec_session_drop(&session);
    CHECK(!session.held);
    dspec_schema_drop(&schema);
}

#define WITH(name, value, due)    \
    do {                          \
        dspec_config c_ = check_config; \
        c_.name = (value);        \
        starts(c_, (due));        \
    } while (0)

/* Each field at both ends of its range and past them; the policy is looked at first, and then field by field. */
static void configurations(void) {
    static const uint32_t sizes[] = { 0, 1, 7, 9, 12, 1048575, 1048577, 1048584, UINT32_MAX - 7, UINT32_MAX };
    WITH(cpus, 0, DSPEC_BAD_CPUS); WITH(cpus, 1, DSPEC_OK); WITH(cpus, 64, DSPEC_OK);
    WITH(cpus, 65, DSPEC_BAD_CPUS); WITH(cpus, UINT32_MAX, DSPEC_BAD_CPUS);
    WITH(nspec, 0, DSPEC_BAD_NSPEC); WITH(nspec, 1, DSPEC_OK); WITH(nspec, 63, DSPEC_OK);
    WITH(nspec, 64, DSPEC_BAD_NSPEC); WITH(nspec, UINT32_MAX, DSPEC_BAD_NSPEC);
    for (size_t i = 0; i < sizeof sizes / sizeof *sizes; i++) {
        WITH(bufsize, sizes[i], DSPEC_BAD_BUFSIZE);
        WITH(specsize, sizes[i], DSPEC_BAD_SPECSIZE);
    }
    WITH(bufsize, 8, DSPEC_OK); WITH(bufsize, DSPEC_MAX_BUFFER, DSPEC_OK);
    WITH(specsize, 8, DSPEC_OK); WITH(specsize, DSPEC_MAX_BUFFER, DSPEC_OK);
    WITH(max_issues, 0, DSPEC_BAD_MAX_ISSUES); WITH(max_issues, 1, DSPEC_OK); WITH(max_issues, DSPEC_MAX_ISSUES, DSPEC_OK);
    WITH(max_issues, DSPEC_MAX_ISSUES + 1, DSPEC_BAD_MAX_ISSUES); WITH(max_issues, UINT64_MAX, DSPEC_BAD_MAX_ISSUES);
    WITH(max_calls, 0, DSPEC_BAD_MAX_CALLS); WITH(max_calls, 1, DSPEC_OK); WITH(max_calls, DSPEC_MAX_CALLS, DSPEC_OK);
    WITH(max_calls, DSPEC_MAX_CALLS + 1, DSPEC_BAD_MAX_CALLS); WITH(max_calls, UINT64_MAX, DSPEC_BAD_MAX_CALLS);
    WITH(policy, 1, DSPEC_OK); WITH(policy, 2, DSPEC_BAD_POLICY); WITH(policy, UINT32_MAX, DSPEC_BAD_POLICY);
    dspec_config c = { .policy = 9 };
    starts(c, DSPEC_BAD_POLICY); c.policy = 0;
    starts(c, DSPEC_BAD_CPUS); c.cpus = 1;
    starts(c, DSPEC_BAD_NSPEC); c.nspec = 1;
    starts(c, DSPEC_BAD_BUFSIZE); c.bufsize = 8;
    starts(c, DSPEC_BAD_SPECSIZE); c.specsize = 8;
    starts(c, DSPEC_BAD_MAX_ISSUES); c.max_issues = 1;
    starts(c, DSPEC_BAD_MAX_CALLS); c.max_calls = 1;
    starts(c, DSPEC_OK);
}

/* Each status has a text of its own. */
static void texts(void) {
    for (int i = 0; i < 64; i++) {
        const char *text = dspec_status_text((dspec_status)i);
        for (int j = 0; j < i; j++) {
            const char *other = dspec_status_text((dspec_status)j);
            if (strcmp(text, other) == 0) CHECK(strcmp(text, "unknown status") == 0);
        }
    }
    CHECK(strcmp(dspec_status_text(DSPEC_LOST), "lost") == 0);
}

int main(void) {
    records();
    null_of_none();
    schemas();
    later_schema();
    configurations();
    texts();
    return check_end();
}
