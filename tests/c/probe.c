/* Typed probes of C: a record's values come back as they were handed in, by their types; negative numbers and floats keep their bits; and a
 * probe reads its own records alone. What is put has the bytes of what is traced, and a probe of another schema has no record. */
#include "check.h"
#include "dspec_probe.h"

DSPEC_PROBE(narrow, int8_t, a, bool, b, uint16_t, c);
DSPEC_PROBE(wide, int64_t, a, double, b, float, c, int32_t, d, uint8_t, e, bool, f, int16_t, g, uint32_t, h);
DSPEC_PROBE(single, uint64_t, a);
DSPEC_PROBE(word, uint32_t, a);
DSPEC_PROBE(pair, uint64_t, a, uint64_t, b);
DSPEC_PROBE(mixed, uint64_t, a, int32_t, b);

typedef struct lane {
    dspec_layout layout;
    narrow_probe narrow;
    wide_probe wide;
    single_probe single;
    dspec_session session;
    dspec_cpu cpu;
    dspec_consumer consumer;
    dspec_closed closed;
} lane;

static void start(lane *l, bool stamped) {
    dspec_schema schema = DSPEC_EMPTY;
    const dspec_config config = {
        .cpus = 1, .nspec = 1, .bufsize = 4096, .specsize = 1024,
        .max_issues = DSPEC_MAX_ISSUES, .max_calls = DSPEC_MAX_CALLS, .policy = DSPEC_POLICY_SWITCH,
    };
    *l = (lane){ .layout = { .stamped = stamped } };
    MUST(dspec_schema_new(&schema));
    if (stamped) MUST(dspec_schema_stamp(&schema));
    MUST(narrow_enable(&l->narrow, &l->layout, &schema));
    MUST(wide_enable(&l->wide, &l->layout, &schema));
    MUST(single_enable(&l->single, &l->layout, &schema));
    CHECK(l->narrow.epid == 1 && l->wide.epid == 2 && l->single.epid == 3);
    MUST(dspec_start(&config, &schema, &l->session));
    MUST(dspec_cpu_of(&l->session, 0, &l->cpu));
    MUST(dspec_consumer_of(&l->session, &l->consumer));
    dspec_schema_drop(&schema);
}

static void end(lane *l, dspec_batch *batch) {
    MUST(dspec_cpu_home(&l->cpu));
    MUST(dspec_consumer_home(&l->consumer));
    MUST(dspec_finish(&l->session, &l->closed));
    MUST(dspec_rest(&l->closed, 0, true, batch));
}

/* The next record, read by each probe: which reads it, and what. */
static void reads(lane *l, const dspec_batch *batch, size_t *at, dspec_record *one) {
    narrow_values n = { 0 };
    wide_values w = { 0 };
    single_values s = { 0 };
    CHECK(dspec_read(&l->layout, batch->bytes, batch->len, at, one) == DSPEC_READ);
    CHECK(narrow_read(&l->narrow, one, &n) == (one->epid == 1));
    CHECK(wide_read(&l->wide, one, &w) == (one->epid == 2));
    CHECK(single_read(&l->single, one, &s) == (one->epid == 3));
}

static void values_come_back(bool stamped) {
    lane l;
    dspec_batch batch;
    dspec_record one;
    narrow_values n = { 0 };
    wide_values w = { 0 };
    single_values s = { 0 };
    uint64_t id, stamp = stamped ? 77 : 0;
    uint32_t count;
    size_t at = 0;
    start(&l, stamped);
    ANSWERS(narrow_trace(&l.narrow, &l.cpu, stamp, -128, true, 65535), DSPEC_OK);
    MUST(dspec_speculation(&l.cpu, &id));
    ANSWERS(wide_speculate(&l.wide, &l.cpu, id, stamp, INT64_MIN, -0.5, 1.25f, -1, 255, false, -32768, 4294967295u), DSPEC_OK);
    MUST(dspec_commit(&l.cpu, id, &count));
    ANSWERS(single_trace(&l.single, &l.cpu, stamp, UINT64_MAX), DSPEC_OK);
    end(&l, &batch);
    reads(&l, &batch, &at, &one);
    CHECK(one.stamp == stamp && narrow_read(&l.narrow, &one, &n) && n.a == -128 && n.b && n.c == 65535);
    CHECK(one.values[0] == 0x80 && one.values[1] == 1 && one.values[2] == 0xffff);
    reads(&l, &batch, &at, &one);
    CHECK(one.stamp == stamp && wide_read(&l.wide, &one, &w));
    CHECK(w.a == INT64_MIN && w.b == -0.5 && w.c == 1.25f && w.d == -1 && w.e == 255 && !w.f && w.g == -32768 && w.h == 4294967295u);
    CHECK(one.values[0] == UINT64_C(0x8000000000000000) && one.values[1] == UINT64_C(0xbfe0000000000000) && one.values[2] == 0x3fa00000);
    CHECK(one.values[3] == 0xffffffff && one.values[4] == 0xff && one.values[5] == 0 && one.values[6] == 0x8000 && one.values[7] == 0xffffffff);
    reads(&l, &batch, &at, &one);
    CHECK(one.stamp == stamp && single_read(&l.single, &one, &s) && s.a == UINT64_MAX);
    CHECK(dspec_read(&l.layout, batch.bytes, batch.len, &at, &one) == DSPEC_READ_ALL);
    dspec_closed_drop(&l.closed);
}

/* A probe that wasn't enabled has no record; a stamp where records have none is refused. */
static void refusals(void) {
    lane l;
    dspec_batch batch;
    dspec_report report;
    single_probe none = { 0 };
    start(&l, false);
    ANSWERS(single_trace(&none, &l.cpu, 0, 1), DSPEC_BAD_RECORD);
    ANSWERS(single_trace(&l.single, &l.cpu, 1, 1), DSPEC_BAD_RECORD);
    ANSWERS(single_speculate(&l.single, &l.cpu, 1, 0, 1), DSPEC_VOID);
    MUST(dspec_cpu_report(&l.cpu, &report));
    CHECK(report.offered == 1 && report.void_ == 1);
    end(&l, &batch);
    CHECK(batch.len == 0);
    dspec_closed_drop(&l.closed);
}

#define CLAIM(FIELDS, EPID) ((uint64_t)(FIELDS) << 32 | (EPID))

/* A probe of another schema has no record, whichever of its fields is another; each is counted as refused, and nothing else is done. */
static void other_schema(void) {
    lane l;
    dspec_batch batch;
    dspec_report report;
    const word_probe narrower = { 3, 0x4 };
    const pair_probe longer = { 3, 0x88 };
    const single_probe of_narrow = { 1, 0x8 }, after = { 4, 0x8 }, far = { UINT32_MAX, 0x8 };
    const mixed_probe none = { 0, 0x48 };
    start(&l, false);
    ANSWERS(word_trace(&narrower, &l.cpu, 0, 1), DSPEC_BAD_RECORD);
    ANSWERS(pair_trace(&longer, &l.cpu, 0, 1, 2), DSPEC_BAD_RECORD);
    ANSWERS(single_trace(&of_narrow, &l.cpu, 0, 1), DSPEC_BAD_RECORD);
    ANSWERS(single_trace(&after, &l.cpu, 0, 1), DSPEC_BAD_RECORD);
    ANSWERS(single_trace(&far, &l.cpu, 0, 1), DSPEC_BAD_RECORD);
    ANSWERS(mixed_trace(&none, &l.cpu, 0, 1, 2), DSPEC_BAD_RECORD);
    ANSWERS(word_speculate(&narrower, &l.cpu, 1, 0, 1), DSPEC_BAD_RECORD);
    MUST(dspec_cpu_report(&l.cpu, &report));
    CHECK(report.offered == 0 && report.refused == 7);
    ANSWERS(dspec_put(&l.cpu, CLAIM(0x8, 3), 0, (const uint64_t[]){ 0, 1, 2 }, 3), DSPEC_BAD_RECORD);
    ANSWERS(dspec_put(&l.cpu, CLAIM(0x8, 3), 0, NULL, 0), DSPEC_BAD_RECORD);
    ANSWERS(dspec_put_1(&l.cpu, CLAIM(0x8, 3), 0, 1), DSPEC_BAD_RECORD);
    ANSWERS(dspec_put_2(&l.cpu, CLAIM(0x8, 3) | 1 << 8, 0, 0, 1), DSPEC_BAD_RECORD);
    ANSWERS(dspec_put_1(&l.cpu, 0, 0, 1), DSPEC_BAD_RECORD);
    ANSWERS(dspec_put(&l.cpu, 0, 0, NULL, 0), DSPEC_BAD_RECORD);
    /* what stands in the EPID's place and in the gap after b counts for nothing */
    ANSWERS(dspec_put_1(&l.cpu, CLAIM(0x211, 1), 0, UINT64_C(0xffff01fffffffff)), DSPEC_OK);
    MUST(dspec_cpu_report(&l.cpu, &report));
    CHECK(report.offered == 1 && report.refused == 13);
    end(&l, &batch);
    dspec_closed_drop(&l.closed);
}

/* Each of these as a record of its own and by dspec_trace: the same bytes one after another. */
static void same_bytes(bool stamped) {
    static const uint8_t widths[][4] = { { 4 }, { 8 }, { 8, 8 }, { 8, 4 }, { 4, 4 }, { 1, 2, 4, 8 } };
    static const size_t counts[] = { 1, 1, 2, 2, 2, 4 };
    static const uint64_t most[] = { 0, 0xff, 0xffff, 0, 0xffffffff, 0, 0, 0, UINT64_MAX };
    dspec_schema schema = DSPEC_EMPTY;
    dspec_session session = DSPEC_EMPTY;
    dspec_closed closed = DSPEC_EMPTY;
    dspec_cpu cpus[2] = { DSPEC_EMPTY, DSPEC_EMPTY };
    dspec_batch batches[2];
    uint64_t ids[2], values[4], stamp = stamped ? UINT64_C(0x123456789a) : 0;
    uint32_t epid, copied;
    const dspec_config config = {
        .cpus = 2, .nspec = 2, .bufsize = 4096, .specsize = 1024,
        .max_issues = DSPEC_MAX_ISSUES, .max_calls = DSPEC_MAX_CALLS, .policy = DSPEC_POLICY_SWITCH,
    };
    MUST(dspec_schema_new(&schema));
    if (stamped) MUST(dspec_schema_stamp(&schema));
    for (size_t i = 0; i < 6; i++) MUST(dspec_schema_enable(&schema, widths[i], counts[i], &epid));
    MUST(dspec_start(&config, &schema, &session));
    for (uint32_t c = 0; c < 2; c++) MUST(dspec_cpu_of(&session, c, &cpus[c]));
    for (int c = 0; c < 2; c++) MUST(dspec_speculation(&cpus[c], &ids[c]));
    for (uint32_t i = 0; i < 6; i++) {
        uint32_t fields = 0;
        uint64_t words[9] = { 0 };
        size_t end = 4;
        for (size_t f = 0; f < counts[i]; f++) {
            fields |= (uint32_t)widths[i][f] << 4 * f;
            values[f] = most[widths[i][f]] - f;
            end = (end + widths[i][f] - 1) / widths[i][f] * widths[i][f];
            words[end / 8] |= values[f] << 8 * (end % 8);
            end += widths[i][f];
        }
        ANSWERS(dspec_put(&cpus[0], CLAIM(fields, i + 1), stamp, words, (end + 7) / 8), DSPEC_OK);
        ANSWERS(dspec_trace(&cpus[1], i + 1, stamp, values, counts[i]), DSPEC_OK);
        ANSWERS(dspec_put_in(&cpus[0], ids[0], CLAIM(fields, i + 1), stamp, words, (end + 7) / 8), DSPEC_OK);
        ANSWERS(dspec_speculate(&cpus[1], ids[1], i + 1, stamp, values, counts[i]), DSPEC_OK);
    }
    for (int c = 0; c < 2; c++) MUST(dspec_commit(&cpus[c], ids[c], &copied));
    for (int c = 0; c < 2; c++) MUST(dspec_cpu_home(&cpus[c]));
    MUST(dspec_finish(&session, &closed));
    for (uint32_t c = 0; c < 2; c++) MUST(dspec_rest(&closed, c, true, &batches[c]));
    CHECK(copied == 6 && batches[0].len == batches[1].len && batches[0].len > 100);
    CHECK(memcmp(batches[0].bytes, batches[1].bytes, batches[0].len) == 0);
    dspec_closed_drop(&closed);
    dspec_schema_drop(&schema);
}

/* What a bool reads of a number that isn't 0 or 1. */
static void odd_bool(void) {
    narrow_probe probe = { 4, 0x211 };
    narrow_values n = { 0 };
    const dspec_record one = { .epid = 4, .values = { 0xff, 2, 3 }, .fields = 3 };
    CHECK(narrow_read(&probe, &one, &n) && n.a == -1 && n.b == true && n.c == 3);
}

int main(void) {
    values_come_back(false);
    values_come_back(true);
    refusals();
    odd_bool();
    other_schema();
    same_bytes(false);
    same_bytes(true);
    return check_end();
}
