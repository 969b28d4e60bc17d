/* heap.c: where the library takes memory: of malloc, or of a memory of the caller's (dspec_memory.h). The three calls stand in the place of those of the kit's `heap`. */
#include "dspec.h"
#include "dspec_memory.h"
#include "park.h"
#include "paths.h"

#include <assert.h>
#include <stdlib.h>
#include <string.h>

/* At the beginning of a memory: how many bytes there are, and how many are taken. */
struct front {
    uint64_t size, used;
};

/* Before what is taken: how many bytes. */
typedef struct taken {
    uint64_t size, unused;
} taken;

enum { STEP = 16 };
static_assert(sizeof(struct front) == STEP && sizeof(taken) == STEP, "what is taken begins at a multiple of 16");

#ifndef DSPEC_LIBRARY_TEXT
#define DSPEC_LIBRARY_TEXT DSPEC_VERSION_STRING
#endif

const char *dspec_version_text(void) { return DSPEC_LIBRARY_TEXT; }

static struct front *memories[DSPEC_MAX_MEMORIES];
static __thread struct front *from __attribute__((tls_model("initial-exec")));
static __thread size_t *counted __attribute__((tls_model("initial-exec")));

/* What a call of these answers: whether there is memory, and where. */
typedef struct given {
    uint64_t is_there;
    void *at;
} given;

static const char nothing[STEP];

static given answer(void *at) {
    given it = { at != NULL, at };
    if (at == NULL) memcpy(&it.at, &(const void *){ nothing }, sizeof it.at);
    return it;
}

static size_t room_for(size_t size) { return sizeof(taken) + (size + STEP - 1) / STEP * STEP; }

static void *take(struct front *front, size_t size) {
    taken *at;
    if (size > front->size || room_for(size) > front->size - front->used) return NULL;
    at = (taken *)(void *)((char *)front + front->used);
    at->size = size;
    front->used += room_for(size);
    return at + 1;
}

static bool is_in(const struct front *front, const void *at) { return (const char *)at >= (const char *)front && (size_t)((const char *)at - (const char *)front) < front->size; }

/* The memory that has this; NULL: it is malloc's. */
static struct front *memory_of(const void *at) {
    for (size_t i = 0; i < DSPEC_MAX_MEMORIES; i++) {
        struct front *front = __atomic_load_n(&memories[i], __ATOMIC_ACQUIRE);
        if (front != NULL && is_in(front, at)) return front;
    }
    return NULL;
}

given rattle_alloc(size_t size, size_t align);
given rattle_realloc(void *at, size_t had, size_t size, size_t align);
void rattle_dealloc(void *at);

given rattle_alloc(size_t size, size_t align) {
    const size_t least = size > 0 ? size : align;
    if (counted != NULL) *counted += room_for(least);
    return answer(from != NULL ? take(from, least) : malloc(least));
}

given rattle_realloc(void *at, size_t had, size_t size, size_t align) {
    const size_t least = size > 0 ? size : align;
    const struct front *front = memory_of(at);
    void *more;
    (void)had;
    if (counted != NULL) *counted += room_for(least);
    if (front == NULL && from == NULL) return answer(realloc(at, least));
    if (front == NULL) return answer(NULL); /* nothing that malloc gave grows into a memory */
    more = take(from != NULL ? from : (struct front *)front, least);
    if (more != NULL) memcpy(more, at, ((taken *)at - 1)->size < least ? (size_t)((taken *)at - 1)->size : least);
    return answer(more);
}

void rattle_dealloc(void *at) {
    if (memory_of(at) == NULL) free(at);
}

dspec_status dspec_memory_begin(void *memory, size_t bytes) {
    struct front *front = memory;
    if (bytes < 4 * STEP || (uintptr_t)memory % STEP != 0) return DSPEC_NO_MEMORY;
    front->size = bytes;
    front->used = sizeof *front;
    for (size_t i = 0; i < DSPEC_MAX_MEMORIES; i++) {
        struct front *none = NULL;
        if (__atomic_compare_exchange_n(&memories[i], &none, front, false, __ATOMIC_SEQ_CST, __ATOMIC_SEQ_CST)) return DSPEC_OK;
    }
    return DSPEC_NO_MEMORY;
}

void *dspec_memory_turn(void *memory) {
    struct front *before = from;
    from = memory;
    return before;
}

void dspec_memory_end(void *memory) {
    for (size_t i = 0; i < DSPEC_MAX_MEMORIES; i++) {
        struct front *front = memory;
        if (__atomic_compare_exchange_n(&memories[i], &front, NULL, false, __ATOMIC_SEQ_CST, __ATOMIC_SEQ_CST)) return;
    }
}

dspec_status dspec_start_in(const dspec_config *config, dspec_schema *schema, void *memory, size_t bytes, dspec_session *session) {
    dspec_status status = dspec_memory_begin(memory, bytes);
    void *before;
    if (status != DSPEC_OK) return status;
    before = dspec_memory_turn(memory);
    status = dspec_start(config, schema, session);
    dspec_memory_turn(before);
    if (status != DSPEC_OK) dspec_memory_end(memory);
    return status;
}

dspec_status dspec_memory_for(const dspec_config *config, dspec_schema *schema, size_t *bytes) {
    dspec_session session = DSPEC_EMPTY;
    dspec_consumer consumer = DSPEC_EMPTY;
    dspec_cpu cpus[DSPEC_MAX_CPUS];
    void *before = dspec_memory_turn(NULL);
    size_t sum = sizeof(struct front), *outer = counted;
    dspec_status status;
    memset(cpus, 0, sizeof cpus);
    counted = &sum;
    status = dspec_start(config, schema, &session);
    if (status == DSPEC_OK) status = dspec_consumer_of(&session, &consumer);
    for (uint32_t i = 0; status == DSPEC_OK && i < config->cpus; i++) status = dspec_cpu_of(&session, i, &cpus[i]);
    counted = outer;
    for (uint32_t i = 0; i < DSPEC_MAX_CPUS; i++) dspec_cpu_drop(&cpus[i]);
    dspec_consumer_drop(&consumer);
    dspec_session_drop(&session);
    dspec_memory_turn(before);
    if (status == DSPEC_OK) *bytes = sum;
    return status;
}

dspec_status paths_memory(size_t *bytes) {
    dspec_paths paths = DSPEC_EMPTY;
    void *before = dspec_memory_turn(NULL);
    size_t sum = 0, *outer = counted;
    dspec_status status;
    counted = &sum;
    status = dspec_paths_new(&paths);
    counted = outer;
    dspec_drop(&paths);
    dspec_memory_turn(before);
    if (status == DSPEC_OK) *bytes = sum;
    return status;
}

dspec_status parking_memory(size_t bytes, size_t most_blocks, size_t *all) {
    dspec_parking parking = DSPEC_EMPTY;
    void *before = dspec_memory_turn(NULL);
    size_t sum = 0, *outer = counted;
    dspec_status status;
    counted = &sum;
    status = dspec_parking_new(&parking, bytes, most_blocks);
    counted = outer;
    dspec_drop(&parking);
    dspec_memory_turn(before);
    if (status == DSPEC_OK) *all = sum;
    return status;
}

#ifndef DSPEC_BUILD
#define DSPEC_BUILD "a build without a name"
#endif

const char *dspec_build(void) { return DSPEC_BUILD; }
