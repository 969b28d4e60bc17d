/* mutex.h: one ring of records for the process, under one mutex. A request that failed is looked for by its number from where it began, and copied to another ring under the same mutex. */
#ifndef DSPEC_BESIDE_MUTEX_H
#define DSPEC_BESIDE_MUTEX_H

#include <pthread.h>
#include <stdint.h>

enum { SHARED_RECORDS = 4096, SHARED_KEPT = 1 << 14 };

typedef struct shared_record {
    uint64_t request, stamp, eight;
    uint32_t event, four;
    uint16_t two;
    uint8_t one;
} shared_record;

static shared_record shared_ring[SHARED_RECORDS], shared_kept[SHARED_KEPT];
static uint64_t shared_written, shared_kept_count;
static pthread_mutex_t shared_lock = PTHREAD_MUTEX_INITIALIZER;
static _Thread_local uint64_t shared_request;

static inline uint64_t shared_path(void) {
    shared_request += 64; /* the threads begin with numbers of their own below that */
    return __atomic_load_n(&shared_written, __ATOMIC_RELAXED);
}

static inline void shared_put(const shared_record *record) {
    pthread_mutex_lock(&shared_lock);
    shared_ring[shared_written++ % SHARED_RECORDS] = *record;
    pthread_mutex_unlock(&shared_lock);
}

static inline void shared_keep(uint64_t from) {
    pthread_mutex_lock(&shared_lock);
    if (shared_written - from > SHARED_RECORDS) from = shared_written - SHARED_RECORDS;
    for (; from < shared_written; from++)
        if (shared_ring[from % SHARED_RECORDS].request == shared_request) shared_kept[shared_kept_count++ % SHARED_KEPT] = shared_ring[from % SHARED_RECORDS];
    pthread_mutex_unlock(&shared_lock);
}

#endif
