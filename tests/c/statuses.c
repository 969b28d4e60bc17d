/* What no contract of the library says to C: which status stands for which answer, which count stands in which field of a report, whose
 * bytes a batch has. One CPU is brought to a report whose fourteen counts are all different, so that no two can be exchanged. */
#include "check.h"

enum { KEPT = 5, BLOCK = 3, SPECDROPPED = 5, DISCARDED = 2, DROPPED = 6, VOID = 4, UNAVAILABLE = 9, BUSY = 10, STOPPED = 11, WORN = 12, REFUSED = 13 };

typedef struct lanes {
    dspec_session session;
    dspec_cpu cpu, other;
    dspec_consumer consumer;
    dspec_closed closed;
    uint32_t epid;
    uint64_t calls;
} lanes;

/* Principal buffers of 8 records, speculative ones of 3. */
static void start(lanes *l, uint64_t max_calls) {
    dspec_schema schema = DSPEC_EMPTY;
    const dspec_config config = {
        .cpus = 2, .nspec = 2, .bufsize = 64, .specsize = 24,
        .max_issues = DSPEC_MAX_ISSUES, .max_calls = max_calls, .policy = DSPEC_POLICY_SWITCH,
    };
    *l = (lanes){ .epid = 0 };
    MUST(dspec_schema_new(&schema));
    MUST(dspec_schema_enable(&schema, (const uint8_t[]){ 4 }, 1, &l->epid));
    MUST(dspec_start(&config, &schema, &l->session));
    MUST(dspec_cpu_of(&l->session, 0, &l->cpu));
    MUST(dspec_cpu_of(&l->session, 1, &l->other));
    MUST(dspec_consumer_of(&l->session, &l->consumer));
    dspec_schema_drop(&schema);
}

static void end(lanes *l) {
    MUST(dspec_cpu_home(&l->cpu));
    MUST(dspec_cpu_home(&l->other));
    MUST(dspec_consumer_home(&l->consumer));
    MUST(dspec_finish(&l->session, &l->closed));
}

static void traces(lanes *l, int n, uint64_t first, dspec_status due) {
    for (int i = 0; i < n; i++) ANSWERS(DSPEC_TRACE(&l->cpu, l->epid, first + (uint64_t)i), due);
    l->calls += (uint64_t)n;
}

static void offers(lanes *l, int n, uint64_t id, uint64_t first, dspec_status due) {
    for (int i = 0; i < n; i++) ANSWERS(DSPEC_SPECULATE(&l->cpu, id, l->epid, first + (uint64_t)i), due);
    l->calls += (uint64_t)n;
}

/* Records that the schema refuses: too large for its field, and of no enabling. No such call is one of the CPU's calls. */
static void refuses(lanes *l, int n) {
    for (int i = 0; i < n; i++) {
        if (i % 2 == 0) ANSWERS(DSPEC_TRACE(&l->cpu, l->epid, UINT64_C(1) << 32), DSPEC_BAD_RECORD);
        else ANSWERS(DSPEC_SPECULATE(&l->cpu, 1, l->epid + 1, 1), DSPEC_BAD_RECORD);
    }
}

static void dropped_in(lanes *l, uint64_t id, uint32_t n) {
    uint32_t count = 77;
    MUST(dspec_dropped_in(&l->cpu, id, &count));
    CHECK(count == n);
}

static uint64_t opens(lanes *l, int n, dspec_status due) {
    uint64_t id = 0;
    for (int i = 0; i < n; i++) ANSWERS(dspec_speculation(&l->cpu, &id), due);
    CHECK((id == 0) == (due != DSPEC_OK));
    l->calls += (uint64_t)n;
    return id;
}

static void commits(lanes *l, uint64_t id, uint32_t n, dspec_status due) {
    uint32_t count = 77;
    ANSWERS(dspec_commit(&l->cpu, id, &count), due);
    CHECK(count == n);
    l->calls++;
}

static void discards(lanes *l, uint64_t id, uint32_t n, dspec_status due) {
    uint32_t count = 77;
    ANSWERS(dspec_discard(&l->cpu, id, &count), due);
    CHECK(count == n);
    l->calls++;
}

/* All but the worn calls. Where a decision doesn't write its count, that is 77 as before. */
static void fill_report(lanes *l) {
    uint32_t count = 77, settled = 77;
    bool sealed = true;
    traces(l, KEPT, 1, DSPEC_OK);
    refuses(l, REFUSED - 3);
    uint64_t id = opens(l, 1, DSPEC_OK);
    offers(l, BLOCK, id, 11, DSPEC_OK);
    offers(l, SPECDROPPED, id, 21, DSPEC_DROPPED);
    dropped_in(l, id, SPECDROPPED);
    commits(l, id, BLOCK, DSPEC_OK);
    dropped_in(l, id, SPECDROPPED);
    commits(l, id, 77, DSPEC_VOID);
    id = opens(l, 1, DSPEC_OK);
    offers(l, DISCARDED, id, 31, DSPEC_OK);
    discards(l, id, DISCARDED, DSPEC_OK);
    discards(l, id, 77, DSPEC_VOID);
    id = opens(l, 1, DSPEC_OK);
    offers(l, BLOCK, id, 41, DSPEC_OK);
    dropped_in(l, id, 0);
    commits(l, id, BLOCK, DSPEC_LOST);
    traces(l, DROPPED, 51, DSPEC_DROPPED);
    offers(l, VOID, 0, 61, DSPEC_VOID);
    id = opens(l, 1, DSPEC_OK);
    offers(l, 1, id, 71, DSPEC_OK);
    id = opens(l, 1, DSPEC_OK);
    opens(l, UNAVAILABLE, DSPEC_UNAVAILABLE);
    ANSWERS(dspec_discard(&l->other, id, &count), DSPEC_OK);
    CHECK(count == 0);
    opens(l, BUSY, DSPEC_BUSY);
    MUST(dspec_service(&l->cpu, &sealed, &settled));
    CHECK(!sealed && settled == 1);
    ANSWERS(dspec_stop(&l->consumer), DSPEC_OK);
    refuses(l, 2);
    opens(l, STOPPED - 2, DSPEC_STOPPED);
    commits(l, id, 77, DSPEC_STOPPED);
    discards(l, id, 77, DSPEC_STOPPED);
}

static void wear(lanes *l) {
    refuses(l, 1);
    opens(l, WORN - 4, DSPEC_WORN);
    traces(l, 1, 81, DSPEC_WORN);
    offers(l, 1, 1, 91, DSPEC_WORN);
    commits(l, 1, 77, DSPEC_WORN);
    discards(l, 1, 77, DSPEC_WORN);
}

static void look_at(const dspec_report *r) {
    CHECK(r->offered == 29);
    CHECK(r->accepted == KEPT + BLOCK);
    CHECK(r->dropped == DROPPED);
    CHECK(r->specdropped == SPECDROPPED);
    CHECK(r->lost == BLOCK);
    CHECK(r->discarded == DISCARDED);
    CHECK(r->void_ == VOID);
    CHECK(r->held == 1);
    CHECK(r->drops == DROPPED + 1);
    CHECK(r->unavailable == UNAVAILABLE);
    CHECK(r->busy == BUSY);
    CHECK(r->stopped == STOPPED);
    CHECK(r->worn == WORN);
    CHECK(r->refused == REFUSED);
}

/* The eight records that were accepted: 1 to 5, and 11 to 13. */
static void look_at_text(lanes *l) {
    static const uint8_t text[] = {
        1, 0, 0, 0, 1, 0, 0, 0, 1, 0, 0, 0, 2, 0, 0, 0, 1, 0, 0, 0, 3, 0, 0, 0, 1, 0, 0, 0, 4, 0, 0, 0,
        1, 0, 0, 0, 5, 0, 0, 0, 1, 0, 0, 0, 11, 0, 0, 0, 1, 0, 0, 0, 12, 0, 0, 0, 1, 0, 0, 0, 13, 0, 0, 0,
    };
    dspec_batch batch;
    MUST(dspec_rest(&l->closed, 0, true, &batch));
    CHECK(check_has_bytes(&batch, text, sizeof text) && batch.cpu == 0 && batch.drops == DROPPED + 1);
    ANSWERS(dspec_rest(&l->closed, 0, false, &batch), DSPEC_NO_BATCH);
    MUST(dspec_rest(&l->closed, 1, true, &batch));
    CHECK(batch.len == 0 && batch.cpu == 1 && batch.drops == 0);
}

/* First to count the calls, then with as many as the most. */
static void reports(void) {
    lanes l;
    dspec_report told, closed;
    start(&l, DSPEC_MAX_CALLS);
    fill_report(&l);
    uint64_t calls = l.calls;
    end(&l);
    dspec_closed_drop(&l.closed);
    start(&l, calls);
    fill_report(&l);
    wear(&l);
    MUST(dspec_cpu_report(&l.cpu, &told));
    look_at(&told);
    end(&l);
    MUST(dspec_closed_report(&l.closed, 0, &closed));
    look_at(&closed);
    look_at_text(&l);
    dspec_closed_drop(&l.closed);
}

static void takes(lanes *l, uint32_t cpu, const uint8_t *text, size_t len, uint64_t drops) {
    dspec_batch batch;
    MUST(dspec_take(&l->consumer, cpu, &batch));
    CHECK(batch.cpu == cpu && batch.drops == drops && check_has_bytes(&batch, text, len));
}

static void switches(dspec_cpu *cpu, bool due) {
    bool sealed = !due;
    uint32_t settled = 77;
    MUST(dspec_service(cpu, &sealed, &settled));
    CHECK(sealed == due && settled == 0);
}

/* Batches of two CPUs that are out at once, each with its own bytes; what is left of each after them. */
static void batches(void) {
    static const uint8_t seven[] = { 1, 0, 0, 0, 7, 0, 0, 0 }, eight[] = { 1, 0, 0, 0, 8, 0, 0, 0 };
    static const uint8_t nine[] = { 1, 0, 0, 0, 9, 0, 0, 0 };
    lanes l;
    dspec_batch batch;
    start(&l, DSPEC_MAX_CALLS);
    MUST(DSPEC_TRACE(&l.cpu, l.epid, 7));
    MUST(DSPEC_TRACE(&l.other, l.epid, 8));
    switches(&l.cpu, false);
    MUST(dspec_ask(&l.consumer, 0));
    MUST(dspec_ask(&l.consumer, 1));
    switches(&l.cpu, true);
    switches(&l.other, true);
    MUST(DSPEC_TRACE(&l.other, l.epid, 9));
    takes(&l, 1, eight, sizeof eight, 0);
    takes(&l, 0, seven, sizeof seven, 0);
    MUST(dspec_give_back(&l.consumer, 1));
    MUST(dspec_ask(&l.consumer, 1));
    switches(&l.other, true);
    end(&l);
    MUST(dspec_rest(&l.closed, 1, false, &batch));
    CHECK(batch.cpu == 1 && check_has_bytes(&batch, nine, sizeof nine));
    MUST(dspec_rest(&l.closed, 1, true, &batch));
    CHECK(batch.cpu == 1 && batch.len == 0);
    dspec_closed_drop(&l.closed);
}

/* Of a batch with drops, and of one that begins with none again. */
static void drops(void) {
    lanes l;
    start(&l, DSPEC_MAX_CALLS);
    uint8_t text[64] = { 0 };
    for (uint8_t i = 0; i < 8; i++) {
        text[8 * i] = 1;
        text[8 * i + 4] = i;
    }
    traces(&l, 8, 0, DSPEC_OK);
    traces(&l, 3, 8, DSPEC_DROPPED);
    MUST(dspec_ask(&l.consumer, 0));
    switches(&l.cpu, true);
    takes(&l, 0, text, sizeof text, 3);
    MUST(dspec_give_back(&l.consumer, 0));
    MUST(dspec_ask(&l.consumer, 0));
    switches(&l.cpu, true);
    takes(&l, 0, text, 0, 0);
    end(&l);
    dspec_closed_drop(&l.closed);
}

/* A block of 8-byte fields with a stamp: gaps and padding stand as the header says. */
static void layouts(void) {
    static const uint8_t text[] = {
        1, 0, 0, 0, 8, 7, 6, 5, 4, 3, 2, 1, 0xfe, 0, 0, 0,                                     /* 1 byte, and zeros up to 4 */
        2, 0, 0, 0, 9, 0, 0, 0, 0, 0, 0, 0, 0xcd, 0xab, 0, 0, 0x88, 0x77, 0x66, 0x55, 0x44, 0x33, 0x22, 0x11, /* 2, a gap, 8 */
        3, 0, 0, 0, 10, 0, 0, 0, 0, 0, 0, 0,                                                   /* no field */
        0, 0, 0, 0,                                                                            /* padding */
        2, 0, 0, 0, 11, 0, 0, 0, 0, 0, 0, 0, 1, 0, 0, 0, 2, 0, 0, 0, 0, 0, 0, 0,
    };
    dspec_schema schema = DSPEC_EMPTY;
    dspec_session session = DSPEC_EMPTY;
    dspec_cpu cpu = DSPEC_EMPTY;
    dspec_closed closed = DSPEC_EMPTY;
    dspec_batch batch;
    uint32_t one, two, none;
    const dspec_config config = { .cpus = 1, .nspec = 1, .bufsize = 80, .specsize = 8, .max_issues = 1, .max_calls = 9, .policy = DSPEC_POLICY_FILL };
    MUST(dspec_schema_new(&schema));
    MUST(dspec_schema_enable(&schema, (const uint8_t[]){ 1 }, 1, &one));
    MUST(dspec_schema_stamp(&schema));
    MUST(dspec_schema_enable(&schema, (const uint8_t[]){ 2, 8 }, 2, &two));
    MUST(dspec_schema_enable(&schema, (const uint8_t[]){ 0 }, 0, &none));
    CHECK(one == 1 && two == 2 && none == 3);
    MUST(dspec_start(&config, &schema, &session));
    MUST(dspec_cpu_of(&session, 0, &cpu));
    ANSWERS(DSPEC_TRACE_AT(&cpu, one, UINT64_C(0x0102030405060708), 0xfe), DSPEC_OK);
    ANSWERS(DSPEC_TRACE_AT(&cpu, two, 9, 0xabcd, UINT64_C(0x1122334455667788)), DSPEC_OK);
    ANSWERS(DSPEC_TRACE_AT(&cpu, none, 10), DSPEC_OK);
    ANSWERS(DSPEC_TRACE_AT(&cpu, two, 11, 1, 2), DSPEC_OK);
    ANSWERS(DSPEC_TRACE_AT(&cpu, none, 12), DSPEC_DROPPED);
    MUST(dspec_cpu_home(&cpu));
    MUST(dspec_finish(&session, &closed));
    MUST(dspec_rest(&closed, 0, true, &batch));
    CHECK(check_has_bytes(&batch, text, sizeof text) && batch.drops == 1);
    dspec_closed_drop(&closed);
    dspec_schema_drop(&schema);
}

int main(void) {
    CHECK(dspec_version() == DSPEC_VERSION);
    reports();
    batches();
    drops();
    layouts();
    return check_end();
}
