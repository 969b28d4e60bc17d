/* A commit that isn't made where it would lose the CPU's records, and which speculations a CPU holds records of. Principal buffers of 8
 * records, speculative ones of 3, so 5 records leave room for a full path, and 6 don't. */
#include "check.h"

typedef struct lanes {
    dspec_session session;
    dspec_cpu cpu, other;
    dspec_consumer consumer;
    dspec_closed closed;
    uint32_t epid;
} lanes;

static void start(lanes *l, uint64_t max_calls, uint32_t policy) {
    dspec_schema schema = DSPEC_EMPTY;
    const dspec_config config = { .cpus = 2, .nspec = 3, .bufsize = 64, .specsize = 24, .max_issues = 9, .max_calls = max_calls, .policy = policy };
    *l = (lanes){ .epid = 0 };
    MUST(dspec_schema_new(&schema));
    MUST(dspec_schema_enable(&schema, (const uint8_t[]){ 4 }, 1, &l->epid));
    MUST(dspec_start(&config, &schema, &l->session));
    MUST(dspec_cpu_of(&l->session, 0, &l->cpu));
    MUST(dspec_cpu_of(&l->session, 1, &l->other));
    MUST(dspec_consumer_of(&l->session, &l->consumer));
    dspec_schema_drop(&schema);
}

static void end(lanes *l) {
    MUST(dspec_cpu_home(&l->cpu));
    MUST(dspec_cpu_home(&l->other));
    MUST(dspec_consumer_home(&l->consumer));
    MUST(dspec_finish(&l->session, &l->closed));
    dspec_closed_drop(&l->closed);
}

static void traces(lanes *l, int n) {
    for (int i = 0; i < n; i++) MUST(DSPEC_TRACE(&l->cpu, l->epid, 1));
}

static uint64_t path_of(lanes *l, dspec_cpu *cpu, int n) {
    uint64_t id = 0;
    MUST(dspec_speculation(cpu, &id));
    for (int i = 0; i < n; i++) MUST(DSPEC_SPECULATE(cpu, id, l->epid, 2));
    return id;
}

static void commits(dspec_cpu *cpu, uint64_t id, dspec_status due, uint32_t n) {
    uint32_t count = 77;
    ANSWERS(dspec_commit_if_room(cpu, id, &count), due);
    CHECK(count == n);
}

/* The call is DSPEC_BUSY, and the CPU counts and holds what it did before. */
static void stays(dspec_cpu *cpu, uint64_t id) {
    dspec_report before, after;
    uint64_t at = 0;
    MUST(dspec_cpu_report(cpu, &before));
    commits(cpu, id, DSPEC_BUSY, 77);
    MUST(dspec_cpu_report(cpu, &after));
    CHECK(check_same_report(&before, &after));
    MUST(dspec_open_at(cpu, (uint32_t)(id % 64), &at));
    CHECK(at == id);
}

/* The CPU holds records of these speculations, up to the first 0. */
static void open_in(dspec_cpu *cpu, uint64_t first, uint64_t second) {
    uint64_t ids[64] = { 0 };
    size_t n = 77;
    MUST(dspec_open_in(cpu, ids, &n));
    CHECK(n == (size_t)(first != 0) + (second != 0) && ids[0] == first && ids[1] == second);
}

static void services(dspec_cpu *cpu, bool is_sealed, uint32_t n) {
    bool sealed = !is_sealed;
    uint32_t settled = 77;
    MUST(dspec_service(cpu, &sealed, &settled));
    CHECK(sealed == is_sealed && settled == n);
}

/* A path waits for room, and is there whole in the next batch. */
static void waits(void) {
    static const uint8_t due[] = { 1, 0, 0, 0, 2, 0, 0, 0, 1, 0, 0, 0, 2, 0, 0, 0, 1, 0, 0, 0, 2, 0, 0, 0 };
    lanes l;
    dspec_batch batch;
    dspec_report report;
    start(&l, 99, DSPEC_POLICY_SWITCH);
    traces(&l, 6);
    uint64_t id = path_of(&l, &l.cpu, 3);
    open_in(&l.cpu, id, 0);
    stays(&l.cpu, id);
    stays(&l.cpu, id);
    MUST(dspec_ask(&l.consumer, 0));
    services(&l.cpu, true, 0);
    commits(&l.cpu, id, DSPEC_OK, 3);
    open_in(&l.cpu, 0, 0);
    commits(&l.cpu, id, DSPEC_VOID, 77);
    MUST(dspec_take(&l.consumer, 0, &batch));
    CHECK(batch.len == 48);
    MUST(dspec_give_back(&l.consumer, 0));
    MUST(dspec_ask(&l.consumer, 0));
    services(&l.cpu, true, 0);
    MUST(dspec_take(&l.consumer, 0, &batch));
    CHECK(check_has_bytes(&batch, due, sizeof due));
    MUST(dspec_cpu_report(&l.cpu, &report));
    CHECK(report.lost == 0 && report.drops == 0 && report.busy == 0 && report.accepted == 9 && report.held == 0);
    end(&l);
}

/* Where it just fits, and where this CPU has no records of it, or no such slot is there. */
static void fits(void) {
    lanes l;
    start(&l, 99, DSPEC_POLICY_SWITCH);
    traces(&l, 5);
    commits(&l.cpu, path_of(&l, &l.cpu, 3), DSPEC_OK, 3);
    commits(&l.cpu, path_of(&l, &l.other, 2), DSPEC_OK, 0);
    commits(&l.cpu, path_of(&l, &l.cpu, 0), DSPEC_OK, 0);
    commits(&l.cpu, 0, DSPEC_VOID, 77);
    commits(&l.cpu, UINT64_MAX, DSPEC_VOID, 77);
    services(&l.other, false, 1);
    end(&l);
}

/* Under DSPEC_POLICY_FILL a buffer that has refused takes no more, however small. */
static void closed(void) {
    lanes l;
    start(&l, 99, DSPEC_POLICY_FILL);
    traces(&l, 8);
    ANSWERS(DSPEC_TRACE(&l.cpu, l.epid, 1), DSPEC_DROPPED);
    stays(&l.cpu, path_of(&l, &l.cpu, 1));
    end(&l);
}

/* It is looked at before the stop, and after the last call. */
static void stopped_and_worn(void) {
    lanes l;
    start(&l, 13, DSPEC_POLICY_SWITCH);
    traces(&l, 7);
    uint64_t large = path_of(&l, &l.cpu, 2), small = path_of(&l, &l.cpu, 1);
    open_in(&l.cpu, large, small);
    stays(&l.cpu, large);
    MUST(dspec_stop(&l.consumer));
    stays(&l.cpu, large);
    commits(&l.cpu, small, DSPEC_STOPPED, 77);
    commits(&l.cpu, large, DSPEC_WORN, 77);
    open_in(&l.cpu, large, small);
    end(&l);
}

/* What another CPU decided is told until a service settles it. */
static void decided_elsewhere(void) {
    lanes l;
    uint32_t count = 77;
    start(&l, 99, DSPEC_POLICY_SWITCH);
    uint64_t first = path_of(&l, &l.cpu, 1), empty = path_of(&l, &l.cpu, 0), third = path_of(&l, &l.cpu, 2);
    MUST(DSPEC_SPECULATE(&l.other, third, l.epid, 3));
    open_in(&l.cpu, first, third);
    open_in(&l.other, third, 0);
    MUST(dspec_discard(&l.other, third, &count));
    CHECK(count == 1);
    open_in(&l.other, 0, 0);
    open_in(&l.cpu, first, third);
    services(&l.cpu, false, 1);
    open_in(&l.cpu, first, 0);
    MUST(dspec_discard(&l.cpu, empty, &count));
    CHECK(count == 0);
    for (uint32_t slot = 0; slot < 66; slot++) {
        uint64_t id = 77;
        MUST(dspec_open_at(&l.cpu, slot, &id));
        CHECK(id == (slot == first % 64 ? first : 0));
    }
    uint64_t id = 77;
    MUST(dspec_open_at(&l.cpu, UINT32_MAX, &id));
    CHECK(id == 0);
    end(&l);
    uint64_t ids[64] = { 77 };
    size_t n = 77;
    ANSWERS(dspec_open_in(&l.cpu, ids, &n), DSPEC_BAD_HANDLE);
    CHECK(n == 77 && ids[0] == 77);
}

int main(void) {
    waits();
    fits();
    closed();
    stopped_and_worn();
    decided_elsewhere();
    return check_end();
}
