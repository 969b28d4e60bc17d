/* A CPU that makes no service must not use up the slots of the others: CPU 2 is home, was never handed out, was handed out again and again, or its
 * thread has ended, and the session's handle tends. Paths over CPUs 0 and 1, and empty discards, are opened 1,000 times with 8 slots, none refused;
 * without the tending all but the first 8 are. Then the same in threads: the consumer cleans, the main thread tends, and each opening comes; beside
 * them a thread that blocks parks its CPU by dspec_cpu_home, and has it back by dspec_cpu_of. */
#include "check.h"

#include <pthread.h>
#include <sched.h>
#include <stdatomic.h>

enum { PATHS = 1000, SLOTS = 8, PARKS = 5, TRIES = 100000000 };

typedef enum idle { NEVER_OUT, HOME, PARKED, THREAD_ENDED, IDLES } idle;

typedef struct idling {
    dspec_schema schema;
    dspec_session session;
    dspec_cpu cpus[3];
    dspec_consumer consumer;
    uint32_t epid;
    atomic_bool done;
    int missed, woken;
    pthread_mutex_t lock; /* of the session, where two threads call it */
} idling;

/* A thread that traces, and ends without a thought of its CPU. */
static void *trace_one(void *given) {
    idling *i = given;
    const uint64_t value = 1;
    MUST(dspec_trace(&i->cpus[2], i->epid, 0, &value, 1));
    return NULL;
}

/* CPU 2 wakes for one record and for its share of a path, and is parked again. */
static void wake(idling *i, uint64_t id) {
    const uint64_t value = 3;
    MUST(dspec_cpu_of(&i->session, 2, &i->cpus[2]));
    MUST(dspec_trace(&i->cpus[2], i->epid, 0, &value, 1));
    MUST(dspec_speculate(&i->cpus[2], id, i->epid, 0, &value, 1));
    MUST(dspec_cpu_home(&i->cpus[2]));
    i->woken++;
}

static void begin(idling *i, idle kind) {
    const dspec_config config = { .cpus = 3, .nspec = SLOTS, .bufsize = 4096, .specsize = 256, .max_issues = DSPEC_MAX_ISSUES, .max_calls = DSPEC_MAX_CALLS };
    pthread_t thread;
    MUST(dspec_schema_new(&i->schema));
    MUST(dspec_schema_enable(&i->schema, (const uint8_t[]){ 8 }, 1, &i->epid));
    MUST(dspec_start(&config, &i->schema, &i->session));
    MUST(dspec_consumer_of(&i->session, &i->consumer));
    for (uint32_t cpu = 0; cpu < (kind == NEVER_OUT ? 2u : 3u); cpu++) MUST(dspec_cpu_of(&i->session, cpu, &i->cpus[cpu]));
    if (kind == NEVER_OUT) return;
    if (kind == THREAD_ENDED) {
        if (!CHECK(pthread_create(&thread, NULL, trace_one, i) == 0)) exit(2);
        pthread_join(thread, NULL);
    }
    MUST(dspec_cpu_home(&i->cpus[2]));
    for (int at = 0; at < PARKS && kind == PARKED; at++) {
        MUST(dspec_cpu_of(&i->session, 2, &i->cpus[2]));
        MUST(dspec_cpu_home(&i->cpus[2]));
    }
}

static void end(idling *i) {
    dspec_closed closed = DSPEC_EMPTY;
    for (int cpu = 0; cpu < 2; cpu++) MUST(dspec_cpu_home(&i->cpus[cpu]));
    MUST(dspec_consumer_home(&i->consumer));
    MUST(dspec_finish(&i->session, &closed));
    for (uint32_t cpu = 0; cpu < 3; cpu++) {
        dspec_report report;
        MUST(dspec_closed_report(&closed, cpu, &report));
        CHECK(report.offered == report.accepted + report.dropped + report.specdropped + report.lost + report.discarded + report.void_ && report.held == 0);
        if (i->woken > 0 && cpu == 2) CHECK(report.offered == 2u * (uint32_t)i->woken && report.discarded == (uint32_t)i->woken);
    }
    dspec_closed_drop(&closed);
    dspec_schema_drop(&i->schema);
}

/* One path, which has been opened: its records, if any, its discard, and the services of the CPUs that are out. */
static void walk(idling *i, uint64_t id, bool is_empty) {
    const uint64_t value = 7;
    uint32_t count;
    bool sealed;
    for (int cpu = 0; cpu < 2 && !is_empty; cpu++) ANSWERS(dspec_speculate(&i->cpus[cpu], id, i->epid, 0, &value, 1), DSPEC_OK);
    ANSWERS(dspec_discard(&i->cpus[1], id, &count), DSPEC_OK);
    for (int cpu = 0; cpu < 2; cpu++) ANSWERS(dspec_service(&i->cpus[cpu], &sealed, &count), DSPEC_OK);
}

/* How many openings are refused. */
static int refused(idle kind, bool is_empty, bool tends) {
    idling i = { .epid = 0 };
    int none = 0;
    begin(&i, kind);
    for (int at = 0; at < PATHS; at++) {
        uint64_t id, settled;
        uint32_t released;
        if (dspec_speculation(&i.cpus[0], &id) == DSPEC_OK) {
            if (kind == PARKED && at % 10 == 0) wake(&i, id);
            walk(&i, id, is_empty);
        } else {
            none++;
        }
        if (tends) ANSWERS(dspec_tend(&i.session, &settled), DSPEC_OK);
        ANSWERS(dspec_clean(&i.consumer, &released), DSPEC_OK);
    }
    end(&i);
    return none;
}

static void *clean_on(void *given) {
    idling *i = given;
    uint32_t released;
    while (!atomic_load(&i->done)) {
        if (dspec_clean(&i->consumer, &released) != DSPEC_OK) exit(2);
        sched_yield();
    }
    return NULL;
}

static void *walk_all(void *given) {
    idling *i = given;
    for (int at = 0; at < PATHS; at++) {
        uint64_t id;
        long tries = 0;
        while (dspec_speculation(&i->cpus[0], &id) != DSPEC_OK && tries++ < TRIES) {
            bool sealed;
            uint32_t count;
            for (int cpu = 0; cpu < 2; cpu++) dspec_service(&i->cpus[cpu], &sealed, &count);
            sched_yield();
        }
        if (tries < TRIES) walk(i, id, at % 2 == 0);
        else i->missed++;
    }
    atomic_store(&i->done, true);
    return NULL;
}

static void tend(idling *i) {
    uint64_t settled;
    pthread_mutex_lock(&i->lock);
    dspec_status status = dspec_tend(&i->session, &settled);
    pthread_mutex_unlock(&i->lock);
    if (status != DSPEC_OK) exit(2);
}

/* A thread that has work now and then: it takes its CPU back, traces, and parks it before it blocks. */
static void *sleep_on(void *given) {
    idling *i = given;
    const uint64_t value = 5;
    while (!atomic_load(&i->done)) {
        bool sealed;
        uint32_t count;
        pthread_mutex_lock(&i->lock);
        dspec_status status = dspec_cpu_of(&i->session, 2, &i->cpus[2]);
        pthread_mutex_unlock(&i->lock);
        if (status != DSPEC_OK || dspec_trace(&i->cpus[2], i->epid, 0, &value, 1) == DSPEC_BAD_HANDLE) exit(2);
        if (dspec_service(&i->cpus[2], &sealed, &count) != DSPEC_OK || dspec_cpu_home(&i->cpus[2]) != DSPEC_OK) exit(2);
        sched_yield();
    }
    return NULL;
}

static void in_threads(idle kind) {
    static idling i;
    pthread_t cleans, walks, sleeps;
    i = (idling){ .epid = 0 };
    begin(&i, kind);
    if (!CHECK(pthread_mutex_init(&i.lock, NULL) == 0)) exit(2);
    if (!CHECK(pthread_create(&cleans, NULL, clean_on, &i) == 0) || !CHECK(pthread_create(&walks, NULL, walk_all, &i) == 0)) exit(2);
    if (kind == PARKED && !CHECK(pthread_create(&sleeps, NULL, sleep_on, &i) == 0)) exit(2);
    while (!atomic_load(&i.done)) {
        tend(&i);
        sched_yield();
    }
    pthread_join(cleans, NULL);
    pthread_join(walks, NULL);
    if (kind == PARKED) pthread_join(sleeps, NULL);
    pthread_mutex_destroy(&i.lock);
    CHECK(i.missed == 0);
    end(&i);
}

int main(void) {
    dspec_session none = DSPEC_EMPTY;
    uint64_t settled = 5;
    ANSWERS(dspec_tend(&none, &settled), DSPEC_BAD_HANDLE);
    CHECK(settled == 5);
    for (idle kind = NEVER_OUT; kind < IDLES; kind++) {
        for (int is_empty = 0; is_empty < 2; is_empty++) {
            CHECK(refused(kind, is_empty, true) == 0);
            /* a parked CPU that wakes for a record settles nothing of the paths before */
            CHECK(refused(kind, is_empty, false) == PATHS - SLOTS);
        }
        in_threads(kind);
    }
    return check_end();
}
