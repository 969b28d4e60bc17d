/* Sessions in memory of the caller's (dspec_memory.h): what they take is there and nowhere else, where it doesn't suffice that is answered, and records come out of it. Each block that malloc gives is counted. */
#include "check.h"

#include "dspec_memory.h"
#include "dspec_reader.h"

#include <stdlib.h>

static size_t given;
void *__real_malloc(size_t size);
void *__wrap_malloc(size_t size);

void *__wrap_malloc(size_t size) {
    given++;
    return __real_malloc(size);
}

static const dspec_config config = { .cpus = 2, .nspec = 3, .bufsize = 4096, .specsize = 256, .max_issues = DSPEC_MAX_ISSUES, .max_calls = DSPEC_MAX_CALLS, .policy = DSPEC_POLICY_SWITCH };
static dspec_schema schema;
static uint32_t epid;

/* Starts a session with all its handles in a memory: the first refusal. */
static dspec_status start_all(void *memory, size_t bytes, dspec_session *session, dspec_consumer *consumer, dspec_cpu cpus[2]) {
    dspec_status status = dspec_start_in(&config, &schema, memory, bytes, session);
    void *before = dspec_memory_turn(status == DSPEC_OK ? memory : NULL);
    if (status == DSPEC_OK) status = dspec_consumer_of(session, consumer);
    for (uint32_t i = 0; status == DSPEC_OK && i < 2; i++) status = dspec_cpu_of(session, i, &cpus[i]);
    dspec_memory_turn(before);
    return status;
}

static void records_come_out(void *memory, size_t bytes) {
    const uint64_t values[] = { 7, 9 };
    dspec_session session = DSPEC_EMPTY;
    dspec_consumer consumer = DSPEC_EMPTY;
    dspec_cpu cpus[2] = { DSPEC_EMPTY, DSPEC_EMPTY };
    dspec_batch batch;
    dspec_closed closed = DSPEC_EMPTY;
    uint64_t id = 0;
    uint32_t count = 0;
    bool sealed = false;
    given = 0;
    CHECK(start_all(memory, bytes, &session, &consumer, cpus) == DSPEC_OK);
    CHECK(dspec_speculation(&cpus[1], &id) == DSPEC_OK && dspec_speculate(&cpus[1], id, epid, 0, values, 2) == DSPEC_OK && dspec_commit(&cpus[1], id, &count) == DSPEC_OK && count == 1);
    CHECK(dspec_ask(&consumer, 1) == DSPEC_OK && dspec_service(&cpus[1], &sealed, &count) == DSPEC_OK && sealed);
    CHECK(dspec_take(&consumer, 1, &batch) == DSPEC_OK && batch.len == 12);
    CHECK(batch.bytes >= (uint8_t *)memory && batch.bytes + batch.len <= (uint8_t *)memory + bytes);
    CHECK(dspec_number_at(batch.bytes, 4) == epid && dspec_number_at(batch.bytes + 4, 4) == 7 && dspec_number_at(batch.bytes + 8, 4) == 9);
    CHECK(dspec_give_back(&consumer, 1) == DSPEC_OK && given == 0);
    CHECK(dspec_cpu_home(&cpus[0]) == DSPEC_OK && dspec_cpu_home(&cpus[1]) == DSPEC_OK && dspec_consumer_home(&consumer) == DSPEC_OK);
    CHECK(dspec_finish(&session, &closed) == DSPEC_OK);
    dspec_closed_drop(&closed);
    dspec_memory_end(memory);
}

/* What the library calls where it grows a block (tracer/heap.c). */
typedef struct block {
    uint64_t is_there;
    void *at;
} block;
block rattle_alloc(size_t size, size_t align);
block rattle_realloc(void *at, size_t had, size_t size, size_t align);
void rattle_dealloc(void *at);

/* A block that grows keeps its bytes, in a memory and in malloc's; what malloc gave doesn't grow into a memory. */
static void grows(uint8_t *memory) {
    for (int inside = 0; inside < 2; inside++) {
        block one, more;
        if (inside == 1) CHECK(dspec_memory_begin(memory, 1024) == DSPEC_OK && dspec_memory_turn(memory) == NULL);
        one = rattle_alloc(24, 8);
        CHECK(one.is_there == 1 && (inside == 0 || ((uint8_t *)one.at > memory && (uint8_t *)one.at < memory + 1024)));
        memcpy(one.at, "twenty-four bytes of it", 24);
        more = rattle_realloc(one.at, 24, 200, 8);
        CHECK(more.is_there == 1 && memcmp(more.at, "twenty-four bytes of it", 24) == 0);
        if (inside == 1) CHECK(rattle_realloc(more.at, 200, 2000, 8).is_there == 0 && rattle_alloc(1000, 8).is_there == 0);
        dspec_memory_turn(NULL);
        rattle_dealloc(more.at);
    }
    dspec_memory_end(memory);
}

/* A session that isn't started takes no memory's place. */
static void refused_sessions(uint8_t *memory) {
    const dspec_config none = { 0 };
    for (uint32_t i = 0; i < 2 * DSPEC_MAX_MEMORIES; i++) {
        dspec_session session = DSPEC_EMPTY;
        CHECK(dspec_start_in(&none, &schema, memory, 4096, &session) == DSPEC_BAD_CPUS);
    }
}

int main(void) {
    const uint8_t widths[] = { 4, 4 };
    size_t bytes = 0;
    CHECK(dspec_schema_new(&schema) == DSPEC_OK && dspec_schema_enable(&schema, widths, 2, &epid) == DSPEC_OK);
    CHECK(dspec_memory_for(&config, &schema, &bytes) == DSPEC_OK && bytes > 2 * 2 * 4096);
    uint8_t *memory = aligned_alloc(16, (bytes + 15) / 16 * 16);
    records_come_out(memory, bytes);
    records_come_out(memory, bytes); /* once more in the same bytes */
    for (size_t less = 16; less <= bytes; less += bytes / 40 / 16 * 16) {
        dspec_session session = DSPEC_EMPTY;
        dspec_consumer consumer = DSPEC_EMPTY;
        dspec_cpu cpus[2] = { DSPEC_EMPTY, DSPEC_EMPTY };
        CHECK(start_all(memory, bytes - less, &session, &consumer, cpus) == DSPEC_NO_MEMORY);
        dspec_cpu_drop(&cpus[0]);
        dspec_cpu_drop(&cpus[1]);
        dspec_consumer_drop(&consumer);
        dspec_session_drop(&session);
        dspec_memory_end(memory);
    }
    CHECK(dspec_memory_begin(memory + 8, bytes - 8) == DSPEC_NO_MEMORY && dspec_memory_begin(memory, 63) == DSPEC_NO_MEMORY);
    const dspec_config none = { 0 };
    size_t left = 5;
    CHECK(dspec_memory_for(&none, &schema, &left) == DSPEC_BAD_CPUS && left == 5);
    static uint8_t many[DSPEC_MAX_MEMORIES + 1][64] __attribute__((aligned(16)));
    for (size_t i = 0; i < DSPEC_MAX_MEMORIES; i++) CHECK(dspec_memory_begin(many[i], 64) == DSPEC_OK);
    CHECK(dspec_memory_begin(many[DSPEC_MAX_MEMORIES], 64) == DSPEC_NO_MEMORY);
    for (size_t i = 0; i < DSPEC_MAX_MEMORIES; i++) dspec_memory_end(many[i]);
    CHECK(dspec_memory_begin(many[0], 64) == DSPEC_OK);
    dspec_memory_end(many[0]);
    CHECK(strlen(dspec_build()) == 32);
    grows(memory);
    refused_sessions(memory);
    dspec_schema_drop(&schema);
    free(memory);
    return check_end();
}
