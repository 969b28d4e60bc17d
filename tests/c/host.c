/* What a program around the library may do: trace from a signal handler by a CPU of its own, fork, exit with a session open, and unload the
 * shared object, whose path is the first word. */
#define _GNU_SOURCE
#include "check.h"

#include <dlfcn.h>
#include <signal.h>
#include <sys/time.h>
#include <sys/wait.h>
#include <unistd.h>

enum { ROUNDS = 100, RECORDS = 2000, LOADS = 20 };

static dspec_session session;
static dspec_cpu cpus[2];
static dspec_consumer consumer;
static dspec_closed closed;
static uint32_t epid;
static volatile sig_atomic_t hits;

static void start(uint32_t count) {
    dspec_schema schema = DSPEC_EMPTY;
    const dspec_config config = {
        .cpus = count, .nspec = 2, .bufsize = 1 << 16, .specsize = 1024,
        .max_issues = DSPEC_MAX_ISSUES, .max_calls = DSPEC_MAX_CALLS, .policy = DSPEC_POLICY_SWITCH,
    };
    MUST(dspec_schema_new(&schema));
    MUST(dspec_schema_enable(&schema, (const uint8_t[]){ 4, 4 }, 2, &epid));
    MUST(dspec_start(&config, &schema, &session));
    for (uint32_t i = 0; i < count; i++) MUST(dspec_cpu_of(&session, i, &cpus[i]));
    MUST(dspec_consumer_of(&session, &consumer));
    dspec_schema_drop(&schema);
}

static void end(uint32_t count) {
    for (uint32_t i = 0; i < count; i++) MUST(dspec_cpu_home(&cpus[i]));
    MUST(dspec_consumer_home(&consumer));
    MUST(dspec_finish(&session, &closed));
}

static uint64_t offered(uint32_t cpu) {
    dspec_report r;
    MUST(dspec_closed_report(&closed, cpu, &r));
    CHECK(r.offered == r.accepted + r.dropped + r.specdropped + r.lost + r.discarded + r.void_ + r.held);
    return r.offered;
}

/* A path on the handler's own CPU: two records, kept. */
static void on_signal(int number) {
    uint64_t id;
    uint32_t count, settled;
    bool sealed;
    (void)number;
    if (dspec_speculation(&cpus[1], &id) != DSPEC_OK) return;
    DSPEC_SPECULATE(&cpus[1], id, epid, 7, 7);
    DSPEC_SPECULATE(&cpus[1], id, epid, 7, 7);
    dspec_commit(&cpus[1], id, &count);
    dspec_service(&cpus[1], &sealed, &settled);
    hits++;
}

/* How many records of the batch aren't two equal numbers. */
static uint64_t torn_in(const dspec_batch *batch) {
    uint64_t torn = batch->len % 12 != 0;
    for (size_t at = 0; at + 12 <= batch->len; at += 12) {
        uint32_t words[3];
        memcpy(words, batch->bytes + at, sizeof words);
        torn += words[0] != epid || words[1] != words[2];
    }
    return torn;
}

static uint64_t torn_taken(uint32_t cpu) {
    dspec_batch batch;
    uint64_t torn = 0;
    dspec_ask(&consumer, cpu);
    while (dspec_take(&consumer, cpu, &batch) == DSPEC_OK) {
        torn += torn_in(&batch);
        dspec_give_back(&consumer, cpu);
    }
    return torn;
}

/* A timer's signal comes into the middle of calls on CPU 0, and its handler calls on CPU 1. */
static void signals(void) {
    const struct itimerval often = { { 0, 500 }, { 0, 500 } }, never = { { 0, 0 }, { 0, 0 } };
    uint64_t torn = 0;
    uint32_t settled, released;
    bool sealed;
    start(2);
    signal(SIGPROF, on_signal);
    setitimer(ITIMER_PROF, &often, NULL);
    for (uint32_t round = 0; round < ROUNDS || (hits < 5 && round < 1000 * ROUNDS); round++) {
        for (uint32_t i = 0; i < RECORDS; i++) DSPEC_TRACE(&cpus[0], epid, i, i);
        dspec_service(&cpus[0], &sealed, &settled);
        torn += torn_taken(0) + torn_taken(1);
        dspec_clean(&consumer, &released);
    }
    setitimer(ITIMER_PROF, &never, NULL);
    signal(SIGPROF, SIG_IGN);
    end(2);
    CHECK(torn == 0);
    CHECK(hits >= 5);
    CHECK(offered(1) == 2 * (uint64_t)hits);
    CHECK(offered(0) >= ROUNDS * RECORDS);
    dspec_closed_drop(&closed);
}

/* The child has a copy of the session: what it traces is in no report of the parent's, and the other way round. */
static void forks(void) {
    int status = 0;
    start(1);
    for (uint32_t i = 0; i < 3; i++) ANSWERS(DSPEC_TRACE(&cpus[0], epid, i, i), DSPEC_OK);
    pid_t child = fork();
    if (child == 0) {
        dspec_report r;
        for (uint32_t i = 0; i < 2; i++) DSPEC_TRACE(&cpus[0], epid, i, i);
        dspec_cpu_home(&cpus[0]);
        dspec_consumer_home(&consumer);
        _exit(dspec_finish(&session, &closed) == DSPEC_OK && dspec_closed_report(&closed, 0, &r) == DSPEC_OK && r.offered == 5 ? 0 : 1);
    }
    ANSWERS(DSPEC_TRACE(&cpus[0], epid, 3, 3), DSPEC_OK);
    CHECK(waitpid(child, &status, 0) == child && WIFEXITED(status) && WEXITSTATUS(status) == 0);
    end(1);
    CHECK(offered(0) == 4);
    dspec_closed_drop(&closed);
}

/* A process ends with a session open: nothing waits, and nothing is written. */
static void exits(void) {
    int status = 0;
    start(1);
    ANSWERS(DSPEC_TRACE(&cpus[0], epid, 1, 1), DSPEC_OK);
    fflush(stdout);
    pid_t child = fork();
    if (child == 0) exit(0);
    CHECK(waitpid(child, &status, 0) == child && WIFEXITED(status) && WEXITSTATUS(status) == 0);
    end(1);
    dspec_closed_drop(&closed);
}

/* The library has no thread and nothing to be done at its end: once the handles are let go it can be unloaded, and loaded again. */
static void loads(const char *object) {
    for (int i = 0; i < LOADS; i++) {
        void *library = dlopen(object, RTLD_NOW | RTLD_LOCAL);
        if (!CHECK(library != NULL)) return;
        uint32_t (*version)(void);
        dspec_status (*schema_new)(dspec_schema *);
        void (*drop)(void *);
        dspec_schema schema = DSPEC_EMPTY;
        *(void **)&version = dlsym(library, "dspec_version");
        *(void **)&schema_new = dlsym(library, "dspec_schema_new");
        *(void **)&drop = dlsym(library, "dspec_drop");
        CHECK(version() == DSPEC_VERSION);
        CHECK(schema_new(&schema) == DSPEC_OK);
        drop(&schema);
        CHECK(dlclose(library) == 0);
    }
}

int main(int argc, char **argv) {
    signals();
    forks();
    exits();
    if (argc > 1) loads(argv[1]);
    return check_end();
}
