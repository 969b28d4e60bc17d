/* How many slots wait for a CPU: of three CPUs one is out and makes no service. Each discard of an empty speculation and each path over two
 * CPUs that is decided leaves its slot waiting for that CPU, until all slots do, and openings are refused; one service of it frees them. */
#include "check.h"

enum { SLOTS = 8, IDLE = 2 };

static dspec_schema schema;
static dspec_session session;
static dspec_cpu cpus[3];
static dspec_consumer consumer;
static uint32_t epid;

static void begin(void) {
    const dspec_config config = { .cpus = 3, .nspec = SLOTS, .bufsize = 4096, .specsize = 256, .max_issues = DSPEC_MAX_ISSUES, .max_calls = DSPEC_MAX_CALLS };
    MUST(dspec_schema_new(&schema));
    MUST(dspec_schema_enable(&schema, (const uint8_t[]){ 8 }, 1, &epid));
    MUST(dspec_start(&config, &schema, &session));
    MUST(dspec_consumer_of(&session, &consumer));
    for (uint32_t cpu = 0; cpu < 3; cpu++) MUST(dspec_cpu_of(&session, cpu, &cpus[cpu]));
}

static void waits(uint32_t cpu, uint32_t slots) {
    uint32_t count = 99;
    ANSWERS(dspec_waiting_for(&consumer, cpu, &count), DSPEC_OK);
    CHECK(count == slots);
}

static void serve(uint32_t cpu, uint32_t slots) {
    bool sealed;
    uint32_t settled = 99;
    ANSWERS(dspec_service(&cpus[cpu], &sealed, &settled), DSPEC_OK);
    CHECK(settled == slots);
}

/* A path over CPUs 0 and 1, committed, or an empty one, discarded. */
static void decide(uint64_t id, bool is_empty) {
    const uint64_t value = 7;
    uint32_t count;
    for (int cpu = 0; cpu < 2 && !is_empty; cpu++) ANSWERS(dspec_speculate(&cpus[cpu], id, epid, 0, &value, 1), DSPEC_OK);
    ANSWERS(is_empty ? dspec_discard(&cpus[0], id, &count) : dspec_commit(&cpus[0], id, &count), DSPEC_OK);
}

int main(void) {
    uint64_t id;
    uint32_t released;
    begin();
    for (uint32_t cpu = 0; cpu < 3; cpu++) waits(cpu, 0);
    for (uint32_t at = 1; at <= SLOTS; at++) {
        ANSWERS(dspec_speculation(&cpus[0], &id), DSPEC_OK);
        waits(IDLE, at - 1);
        decide(id, at % 2 == 0);
        waits(0, 1);
        waits(1, 1);
        serve(0, 1);
        serve(1, 1);
        waits(0, 0);
        waits(1, 0);
        waits(IDLE, at);
        ANSWERS(dspec_clean(&consumer, &released), DSPEC_OK);
        CHECK(released == 0);
    }
    ANSWERS(dspec_speculation(&cpus[0], &id), DSPEC_BUSY);
    serve(IDLE, SLOTS);
    waits(IDLE, 0);
    ANSWERS(dspec_clean(&consumer, &released), DSPEC_OK);
    CHECK(released == SLOTS);
    ANSWERS(dspec_speculation(&cpus[0], &id), DSPEC_OK);
    dspec_consumer_drop(&consumer);
    for (int cpu = 0; cpu < 3; cpu++) dspec_cpu_drop(&cpus[cpu]);
    dspec_session_drop(&session);
    dspec_schema_drop(&schema);
    return check_end();
}
