/* A server of four workers whose buffers are too small: `server FOLDER` keeps the paths of requests that fail or take long, in a trace. It prints how
 * many records its reports count as dropped, specdropped and lost, which is what the trace has to tell; each of the three is some. */
#include "dspec_ctf.h"
#include "dspec_probe.h"

#include <inttypes.h>
#include <pthread.h>
#include <stdatomic.h>
#include <stdio.h>
#include <stdlib.h>
#include <time.h>

#define WORKERS 4u
#define REQUESTS 2000u

#define OK(call)                                                                    \
    do {                                                                            \
        dspec_status status_ = (call);                                              \
        if (status_ != DSPEC_OK) {                                                  \
            fprintf(stderr, "server: %s: %s\n", #call, dspec_status_text(status_)); \
            exit(1);                                                                \
        }                                                                           \
    } while (0)

DSPEC_PROBE(begin, uint64_t, request, uint32_t, rows, uint8_t, outcome);
DSPEC_PROBE(element, uint64_t, request, uint32_t, line, uint16_t, depth, bool, opens);
DSPEC_PROBE(finish, uint64_t, request, uint8_t, outcome, double, micros);
DSPEC_PROBE(heartbeat, uint32_t, worker, int64_t, balance);

static struct {
    begin_probe begin;
    element_probe element;
    finish_probe finish;
    heartbeat_probe heartbeat;
} probes;
static atomic_uint next_request, at_work = WORKERS;

typedef struct worker {
    dspec_cpu cpu;
    uint32_t number;
    pthread_t thread;
} worker;

enum outcome { FINE, FAILED, SLOW };

static uint64_t now(void) {
    struct timespec at;
    clock_gettime(CLOCK_MONOTONIC, &at);
    return (uint64_t)at.tv_sec * UINT64_C(1000000000) + (uint64_t)at.tv_nsec;
}

/* A slow request has more steps than a speculative buffer has room for. */
static void serve(worker *me, uint64_t request) {
    enum outcome outcome = request % 50 == 7 ? FAILED : request % 100 == 31 ? SLOW : FINE;
    uint32_t rows = outcome == SLOW ? 60 : 5 + (uint32_t)(request % 7), count;
    uint64_t id, begun = now();
    if (dspec_speculation(&me->cpu, &id) != DSPEC_OK) return;
    begin_speculate(&probes.begin, &me->cpu, id, begun, request, rows, (uint8_t)outcome);
    for (uint32_t row = 0; row < rows; row++) {
        element_speculate(&probes.element, &me->cpu, id, now(), request, row, 1, true);
        element_speculate(&probes.element, &me->cpu, id, now(), request, row, 1, false);
    }
    finish_speculate(&probes.finish, &me->cpu, id, now(), request, (uint8_t)outcome, (double)(now() - begun) / 1000);
    if (outcome == FINE) {
        dspec_discard(&me->cpu, id, &count);
    } else {
        dspec_commit(&me->cpu, id, &count);
    }
}

static void *work(void *of) {
    worker *me = of;
    bool sealed;
    uint32_t settled, request;
    while ((request = atomic_fetch_add(&next_request, 1)) < REQUESTS) {
        serve(me, request);
        if (request % 16 == 0) heartbeat_trace(&probes.heartbeat, &me->cpu, now(), me->number, -(int64_t)request);
        dspec_service(&me->cpu, &sealed, &settled);
    }
    /* More than a principal buffer has room for, and after it paths that are kept: some are dropped, and some are lost. */
    for (int64_t beat = 0; beat < 300; beat++) heartbeat_trace(&probes.heartbeat, &me->cpu, now(), me->number, beat);
    for (uint64_t number = 0; number < 5; number++) serve(me, 10007 + 50 * number);
    atomic_fetch_sub(&at_work, 1);
    return NULL;
}

static void start_trace(dspec_folder *folder, const char *path, dspec_schema *schema, dspec_layout *layout) {
    static dspec_names names;
    dspec_identity identity = { .pid = (uint32_t)getpid(), .hertz = UINT64_C(1000000000), .host = { "here", 4 }, .name = { "server", 6 } };
    memcpy(identity.uuid, "a server in C...", 16);
    OK(dspec_schema_new(schema));
    OK(dspec_schema_stamp(schema));
    OK(begin_enable(&probes.begin, layout, schema));
    OK(element_enable(&probes.element, layout, schema));
    OK(finish_enable(&probes.finish, layout, schema));
    OK(heartbeat_enable(&probes.heartbeat, layout, schema));
    begin_name(&names);
    element_name(&names);
    finish_name(&names);
    heartbeat_name(&names);
    if (dspec_folder_begin(folder, path, schema, WORKERS, &identity, &names)) return;
    fprintf(stderr, "server: %s: %s\n", path, dspec_folder_why(folder));
    exit(1);
}

/* The consumer's rounds until no worker is at work, with a pause between them. */
static void consume(dspec_consumer *consumer, dspec_folder *folder, const dspec_layout *layout) {
    const struct timespec pause = { 0, 2000000 };
    dspec_batch batch;
    uint32_t released;
    while (atomic_load(&at_work) > 0) {
        for (uint32_t cpu = 0; cpu < WORKERS; cpu++) {
            OK(dspec_ask(consumer, cpu));
            if (dspec_take(consumer, cpu, &batch) != DSPEC_OK) continue;
            dspec_folder_take(folder, layout, &batch);
            OK(dspec_give_back(consumer, cpu));
        }
        OK(dspec_clean(consumer, &released));
        nanosleep(&pause, NULL);
    }
}

/* What the reports count as dropped, specdropped and lost, and how many records weren't written. */
static void print_missed(dspec_closed *closed, const dspec_folder *folder) {
    uint64_t accepted = 0, dropped = 0, specdropped = 0, lost = 0, unwritten = folder->lost ? folder->first.records : 0;
    dspec_report report;
    for (uint32_t cpu = 0; cpu < WORKERS; cpu++) {
        OK(dspec_closed_report(closed, cpu, &report));
        accepted += report.accepted;
        dropped += report.dropped;
        specdropped += report.specdropped;
        lost += report.lost;
    }
    printf("accepted %" PRIu64 " dropped %" PRIu64 " specdropped %" PRIu64 " lost %" PRIu64 " unwritten %" PRIu64 "\n", accepted, dropped, specdropped, lost, unwritten);
}

int main(int argc, char **argv) {
    static dspec_folder folder;
    static worker workers[WORKERS];
    dspec_cpu *cpus[WORKERS];
    dspec_schema schema = DSPEC_EMPTY;
    dspec_session session = DSPEC_EMPTY;
    dspec_consumer consumer = DSPEC_EMPTY;
    dspec_closed closed = DSPEC_EMPTY;
    dspec_layout layout = { .stamped = true };
    const dspec_config config = {
        .cpus = WORKERS, .nspec = 16, .bufsize = 4096, .specsize = 1024,
        .max_issues = DSPEC_MAX_ISSUES, .max_calls = DSPEC_MAX_CALLS, .policy = DSPEC_POLICY_SWITCH,
    };
    if (argc != 2) return 2;
    start_trace(&folder, argv[1], &schema, &layout);
    OK(dspec_start(&config, &schema, &session));
    OK(dspec_consumer_of(&session, &consumer));
    for (uint32_t number = 0; number < WORKERS; number++) {
        workers[number].number = number;
        cpus[number] = &workers[number].cpu;
        OK(dspec_cpu_of(&session, number, cpus[number]));
        if (pthread_create(&workers[number].thread, NULL, work, &workers[number]) != 0) return 1;
    }
    consume(&consumer, &folder, &layout);
    for (uint32_t number = 0; number < WORKERS; number++) pthread_join(workers[number].thread, NULL);
    OK(dspec_close(&session, cpus, WORKERS, &consumer, &closed));
    dspec_folder_close(&folder, &layout, &closed);
    print_missed(&closed, &folder);
    dspec_closed_drop(&closed);
    dspec_schema_drop(&schema);
    return 0;
}
