/* What the threads of a race leave for its account: each call as it was answered, the records that came of each CPU, and its report. */
#ifndef C_RACE_H
#define C_RACE_H

#include "dice.h"

#include <pthread.h>

enum { RACE_CPUS = 8, RACE_SLOTS = 12 };

typedef enum race_call { RACE_TRACE, RACE_OPEN, RACE_OFFER, RACE_COMMIT, RACE_DISCARD, RACE_SERVICE, RACE_CALLS } race_call;

/* A call. Where the race is timed, it has when it began and when it had ended, in nanoseconds. */
typedef struct race_entry {
    race_call call;
    dspec_status status;
    bool sealed;
    uint32_t count; /* what a decision or a service told */
    uint64_t id, serial, began, ended;
} race_entry;

/* A record that came: the call that traced or offered it, and its speculation, 0 for a traced one. */
typedef struct race_record {
    uint64_t serial, id;
} race_record;

typedef struct race_worker {
    struct race *race;
    dspec_cpu cpu;
    pthread_t thread;
    dice dice;
    uint32_t number, weights[RACE_CALLS], pauses, traps; /* one call in so many pauses, or is interrupted at each step; 0: none */
    race_entry *log;
    race_record *came;
    size_t records, room;
    uint64_t drops, batches; /* of the batches that came; the last buffer is no batch */
    dspec_report report;
} race_worker;

typedef struct race {
    uint64_t seed;
    dspec_config config;
    uint32_t calls; /* of each CPU */
    bool is_timed, is_stamped, is_lazy;
    uint32_t stop_after;                                /* so many rounds of the consumer; 0: no stop */
    uint64_t stop_began, stop_ended;                    /* 0: it wasn't made */
    race_worker workers[RACE_CPUS];
    uint32_t flaws;
} race;

/* Compares what came and what was reported with what the calls were answered; each flaw is told and counted. */
void race_account(race *r);

/* Tells a flaw, of this CPU, with the numbers that it is about. */
void race_flaw(race *r, uint32_t cpu, const char *what, uint64_t one, uint64_t other);

#endif
