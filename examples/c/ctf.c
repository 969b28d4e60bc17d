/* A server of two workers: each request's steps are a path, kept where the request failed. What is kept goes into a trace of the Common Trace Format while the
 * server runs, which other tools open:
 *
 *     ctf FOLDER [ROUNDS]
 *
 * The last line says how many records the reports count as accepted, and how many the trace misses. */
#include "dspec_ctf.h"
#include "dspec_probe.h"

#include <inttypes.h>
#include <pthread.h>
#include <stdatomic.h>
#include <stdio.h>
#include <stdlib.h>

#define WORKERS 2u

#define OK(call)                                                                 \
    do {                                                                         \
        dspec_status status_ = (call);                                           \
        if (status_ != DSPEC_OK) {                                               \
            fprintf(stderr, "ctf: %s: %s\n", #call, dspec_status_text(status_)); \
            exit(1);                                                             \
        }                                                                        \
    } while (0)

/* A request begins, looks something up, and ends with a code. Each record has the number of its request. */
DSPEC_PROBE(begin, uint32_t, request, uint32_t, worker);
DSPEC_PROBE(lookup, uint32_t, request, uint64_t, key, bool, found);
DSPEC_PROBE(reply, uint32_t, request, int32_t, code);

static begin_probe begin;
static lookup_probe lookup;
static reply_probe reply;
static uint32_t rounds = 1000;
static atomic_uint done;

typedef struct worker {
    dspec_cpu cpu;
    uint32_t number;
    pthread_t thread;
} worker;

/* One request in ten fails, and keeps its path; where no slot is free it has none. */
static void serve(worker *me, uint32_t round) {
    uint32_t number = round * WORKERS + me->number;
    bool fails = round % 10 == 7;
    uint64_t id;
    uint32_t count;
    if (dspec_speculation(&me->cpu, &id) != DSPEC_OK) return;
    begin_speculate(&begin, &me->cpu, id, dspec_monotonic(), number, me->number);
    lookup_speculate(&lookup, &me->cpu, id, dspec_monotonic(), number, number * UINT64_C(2654435761), !fails);
    reply_speculate(&reply, &me->cpu, id, dspec_monotonic(), number, fails ? -2 : 0);
    if (fails) {
        dspec_commit(&me->cpu, id, &count);
    } else {
        dspec_discard(&me->cpu, id, &count);
    }
}

static void *work(void *of) {
    worker *me = of;
    bool sealed;
    uint32_t settled;
    for (uint32_t round = 0; round < rounds; round++) {
        serve(me, round);
        dspec_service(&me->cpu, &sealed, &settled);
    }
    atomic_fetch_add(&done, 1);
    return NULL;
}

/* Says what the last batch lost; the server goes on. */
static void tell(dspec_folder *folder) {
    const dspec_loss *loss = &folder->last;
    fprintf(stderr, "ctf: cpu_%" PRIu32 "_%zu: %s: %" PRIu64 " records aren't written\n", loss->cpu, loss->file, dspec_folder_why(folder), loss->records);
}

/* One round of the consumer: what has come of each worker goes into the trace. */
static void consume(dspec_consumer *consumer, dspec_folder *folder, const dspec_layout *layout) {
    dspec_batch batch;
    uint32_t released;
    for (uint32_t cpu = 0; cpu < WORKERS; cpu++) {
        OK(dspec_ask(consumer, cpu));
        if (dspec_take(consumer, cpu, &batch) != DSPEC_OK) continue;
        if (!dspec_folder_take(folder, layout, &batch)) tell(folder);
        OK(dspec_give_back(consumer, cpu));
    }
    OK(dspec_clean(consumer, &released));
}

/* How many records the workers accepted. */
static uint64_t accepted_by(dspec_closed *closed) {
    dspec_report report;
    uint64_t sum = 0;
    for (uint32_t cpu = 0; cpu < WORKERS; cpu++) {
        OK(dspec_closed_report(closed, cpu, &report));
        sum += report.accepted;
    }
    return sum;
}

int main(int argc, char **argv) {
    static dspec_folder folder;
    static dspec_names names;
    static worker workers[WORKERS];
    dspec_schema schema = DSPEC_EMPTY;
    dspec_session session = DSPEC_EMPTY;
    dspec_consumer consumer = DSPEC_EMPTY;
    dspec_closed closed = DSPEC_EMPTY;
    dspec_layout layout = { .stamped = true };
    dspec_identity identity;
    dspec_cpu *cpus[WORKERS];
    const dspec_config config = dspec_config_of_cpus(WORKERS);
    char host[DSPEC_HOST_SIZE];
    if (argc < 2) {
        fprintf(stderr, "usage: ctf FOLDER [ROUNDS]\n");
        return 2;
    }
    if (argc > 2) rounds = (uint32_t)strtoul(argv[2], NULL, 10);

    OK(dspec_schema_new(&schema));
    OK(dspec_schema_stamp(&schema));
    OK(begin_enable(&begin, &layout, &schema));
    OK(lookup_enable(&lookup, &layout, &schema));
    OK(reply_enable(&reply, &layout, &schema));
    begin_name(&names);
    lookup_name(&names);
    reply_name(&names);
    if (!dspec_identity_of_system(&identity, "ctf", host)) {
        perror("ctf: the system doesn't say who this is");
        return 1;
    }
    if (!dspec_folder_begin(&folder, argv[1], &schema, WORKERS, &identity, &names)) {
        fprintf(stderr, "ctf: %s: %s\n", argv[1], dspec_folder_why(&folder));
        return 1;
    }

    OK(dspec_start(&config, &schema, &session));
    OK(dspec_consumer_of(&session, &consumer));
    for (uint32_t number = 0; number < WORKERS; number++) {
        workers[number].number = number;
        cpus[number] = &workers[number].cpu;
        OK(dspec_cpu_of(&session, number, cpus[number]));
        if (pthread_create(&workers[number].thread, NULL, work, &workers[number]) != 0) return 1;
    }
    while (atomic_load(&done) < WORKERS) consume(&consumer, &folder, &layout);
    for (uint32_t number = 0; number < WORKERS; number++) pthread_join(workers[number].thread, NULL);
    OK(dspec_close(&session, cpus, WORKERS, &consumer, &closed));
    bool whole = dspec_folder_close(&folder, &layout, &closed);
    printf("accepted %" PRIu64 ", not written %" PRIu64 "\n", accepted_by(&closed), whole ? 0 : folder.first.records);
    dspec_closed_drop(&closed);
    dspec_schema_drop(&schema);
    return 0;
}
