/* Four CPUs and a consumer in five threads. Each thread counts for itself what its calls answered; at the end the reports and the
 * records that were taken, or left, have to say the same. It prints one line where all adds up, else what doesn't, and fails. */
#include "dspec.h"
#include "dspec_reader.h"

#include <inttypes.h>
#include <pthread.h>
#include <stdatomic.h>
#include <stdio.h>
#include <stdlib.h>

enum { CPUS = 4, ROUNDS = 20000 };

/* The schema: a round's number; and the number of a round with the speculation it was offered to. */
static dspec_layout known;
static uint32_t round_epid, path_epid;

/* How many workers haven't ended: the consumer goes on until none is left. */
static atomic_int running = CPUS;

static _Noreturn void wrong(const char *what) {
    fprintf(stderr, "four: %s\n", what);
    exit(1);
}

static _Noreturn void fail(const char *call, dspec_status status) {
    fprintf(stderr, "four: %s: %s\n", call, dspec_status_text(status));
    exit(1);
}

#define OK(call)                                       \
    do {                                               \
        dspec_status status_ = (call);                 \
        if (status_ != DSPEC_OK) fail(#call, status_); \
    } while (0)

/* A worker's CPU, and its own count of what it was answered. */
typedef struct worker {
    dspec_cpu cpu;
    dspec_report own;
} worker;

/* What the consumer, and main after it, found in the batches of a CPU. */
typedef struct reading {
    uint64_t records, drops, last_round, last_path;
} reading;

typedef struct reader {
    dspec_consumer consumer;
    reading of[CPUS];
} reader;

static void trace_round(worker *w, uint64_t round) {
    dspec_status status = DSPEC_TRACE(&w->cpu, round_epid, round);
    w->own.offered++;
    switch (status) {
    case DSPEC_OK: w->own.accepted++; break;
    case DSPEC_DROPPED: w->own.dropped++; w->own.drops++; break;
    default: fail("trace", status);
    }
}

static void offer_path(worker *w, uint64_t id, uint64_t round, uint64_t step) {
    dspec_status status = DSPEC_SPECULATE(&w->cpu, id, path_epid, round, step);
    w->own.offered++;
    if (status == DSPEC_DROPPED) w->own.specdropped++;
    else if (status != DSPEC_OK) fail("speculate", status);
}

static void commit(worker *w, uint64_t id) {
    uint32_t count;
    dspec_status status = dspec_commit(&w->cpu, id, &count);
    switch (status) {
    case DSPEC_OK: w->own.accepted += count; break;
    case DSPEC_LOST: w->own.lost += count; w->own.drops++; break;
    default: fail("commit", status);
    }
}

static void discard(worker *w, uint64_t id) {
    uint32_t count;
    OK(dspec_discard(&w->cpu, id, &count));
    w->own.discarded += count;
}

/* A path of up to twelve records, more than its buffer has room for; rounds that aren't even are committed. A discard of nothing, in
 * every eighth round, frees its slot only once all CPUs have made a service and the consumer a clean. */
static void speculate_round(worker *w, uint64_t round) {
    uint64_t id;
    dspec_status status = dspec_speculation(&w->cpu, &id);
    if (status == DSPEC_BUSY) {
        w->own.busy++;
        return;
    }
    if (status == DSPEC_UNAVAILABLE) {
        w->own.unavailable++;
        return;
    }
    if (status != DSPEC_OK) fail("speculation", status);
    if (round % 8 != 0) {
        for (uint64_t step = 0; step < round % 13; step++) offer_path(w, id, round, step);
    }
    if (round % 2 == 1) commit(w, id);
    else discard(w, id);
}

static void *work(void *arg) {
    worker *w = arg;
    for (uint64_t round = 1; round <= ROUNDS; round++) {
        bool sealed;
        uint32_t settled;
        trace_round(w, round);
        speculate_round(w, round);
        OK(dspec_service(&w->cpu, &sealed, &settled));
    }
    atomic_fetch_sub(&running, 1);
    return NULL;
}

/* Rounds rise, and so do the steps of a path; a path of an even round was discarded. */
static void read_record(reading *r, const dspec_record *one) {
    if (one->epid == round_epid) {
        if (one->values[0] <= r->last_round) wrong("a round again, or out of order");
        r->last_round = one->values[0];
    } else {
        uint64_t path = 16 * one->values[0] + one->values[1];
        if (one->values[0] % 2 == 0) wrong("a record of a discarded path");
        if (path <= r->last_path) wrong("a step again, or out of order");
        r->last_path = path;
    }
    r->records++;
}

static void read_batch(reading *r, const dspec_batch *batch) {
    dspec_record one;
    dspec_reading status;
    size_t at = 0;
    while ((status = dspec_read(&known, batch->bytes, batch->len, &at, &one)) == DSPEC_READ) read_record(r, &one);
    if (status != DSPEC_READ_ALL) wrong("a batch that isn't records");
    r->drops += batch->drops;
}

static void take_from(reader *r, uint32_t cpu) {
    dspec_batch batch;
    OK(dspec_ask(&r->consumer, cpu));
    dspec_status status = dspec_take(&r->consumer, cpu, &batch);
    if (status == DSPEC_NO_BATCH) return;
    if (status != DSPEC_OK) fail("take", status);
    if (batch.cpu != cpu) wrong("a batch of another CPU");
    read_batch(&r->of[cpu], &batch);
    OK(dspec_give_back(&r->consumer, cpu));
}

static void *consume(void *arg) {
    reader *r = arg;
    while (atomic_load(&running) > 0) {
        uint32_t released;
        for (uint32_t cpu = 0; cpu < CPUS; cpu++) take_from(r, cpu);
        OK(dspec_clean(&r->consumer, &released));
    }
    return NULL;
}

static void start(dspec_session *session) {
    dspec_schema schema = DSPEC_EMPTY;
    const dspec_config config = {
        .cpus = CPUS, .nspec = 8, .bufsize = 4096, .specsize = 256,
        .max_issues = DSPEC_MAX_ISSUES, .max_calls = DSPEC_MAX_CALLS, .policy = DSPEC_POLICY_SWITCH,
    };
    OK(dspec_schema_new(&schema));
    OK(dspec_layout_enable(&known, &schema, (const uint8_t[]){ 4 }, 1, &round_epid));
    OK(dspec_layout_enable(&known, &schema, (const uint8_t[]){ 8, 1 }, 2, &path_epid));
    OK(dspec_start(&config, &schema, session));
    dspec_schema_drop(&schema);
}

static void run_threads(worker workers[CPUS], reader *r) {
    pthread_t threads[CPUS + 1];
    for (int i = 0; i < CPUS; i++) {
        if (pthread_create(&threads[i], NULL, work, &workers[i]) != 0) wrong("a thread was refused");
    }
    if (pthread_create(&threads[CPUS], NULL, consume, r) != 0) wrong("a thread was refused");
    for (int i = 0; i <= CPUS; i++) pthread_join(threads[i], NULL);
}

/* The batch that nobody took, if there is one, and the last buffer. */
static void read_rest(dspec_closed *closed, uint32_t cpu, reading *r) {
    dspec_batch batch;
    dspec_status status = dspec_rest(closed, cpu, false, &batch);
    if (status == DSPEC_OK) read_batch(r, &batch);
    else if (status != DSPEC_NO_BATCH) fail("rest", status);
    OK(dspec_rest(closed, cpu, true, &batch));
    read_batch(r, &batch);
}

static void same(const char *what, uint32_t cpu, uint64_t one, uint64_t other) {
    if (one == other) return;
    fprintf(stderr, "four: cpu %" PRIu32 ": %s: %" PRIu64 " beside %" PRIu64 "\n", cpu, what, one, other);
    exit(1);
}

static void compare(uint32_t cpu, const dspec_report *told, const dspec_report *own, const reading *r) {
    uint64_t fates = told->accepted + told->dropped + told->specdropped + told->lost + told->discarded + told->void_ + told->held;
    same("offered, and the sum of its fates", cpu, told->offered, fates);
    same("offered", cpu, told->offered, own->offered);
    same("accepted", cpu, told->accepted, own->accepted);
    same("accepted, and records read", cpu, told->accepted, r->records);
    same("dropped", cpu, told->dropped, own->dropped);
    same("specdropped", cpu, told->specdropped, own->specdropped);
    same("lost", cpu, told->lost, own->lost);
    same("discarded", cpu, told->discarded, own->discarded);
    same("void", cpu, told->void_, 0);
    same("held", cpu, told->held, 0);
    same("drops", cpu, told->drops, own->drops);
    same("drops, and those of the batches", cpu, told->drops, r->drops);
    same("unavailable", cpu, told->unavailable, own->unavailable);
    same("busy", cpu, told->busy, own->busy);
    same("stopped", cpu, told->stopped, 0);
    same("worn", cpu, told->worn, 0);
}

int main(void) {
    static worker workers[CPUS];
    static reader r;
    dspec_session session = DSPEC_EMPTY;
    dspec_closed closed = DSPEC_EMPTY;
    dspec_cpu *cpus[CPUS];
    start(&session);
    for (uint32_t cpu = 0; cpu < CPUS; cpu++) {
        cpus[cpu] = &workers[cpu].cpu;
        OK(dspec_cpu_of(&session, cpu, cpus[cpu]));
    }
    OK(dspec_consumer_of(&session, &r.consumer));
    run_threads(workers, &r);
    OK(dspec_close(&session, cpus, CPUS, &r.consumer, &closed));
    for (uint32_t cpu = 0; cpu < CPUS; cpu++) {
        dspec_report told;
        OK(dspec_closed_report(&closed, cpu, &told));
        read_rest(&closed, cpu, &r.of[cpu]);
        compare(cpu, &told, &workers[cpu].own, &r.of[cpu]);
    }
    dspec_closed_drop(&closed);
    puts("4 CPUs, 80000 rounds: each record that was offered is accounted for");
    return 0;
}
