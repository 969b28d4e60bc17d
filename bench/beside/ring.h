/* ring.h: what a good engineer writes in an afternoon to keep only the requests that failed. Each thread has a ring of bytes. A request that failed is copied into the thread's outbox, which a writer's
 * thread appends to a file every 10 ms. One request at a time is open in a thread. It bounds and counts little: a request that is longer than the ring keeps its last half, and what has no room in the outbox
 * is counted as a request. A crash loses all of it, and no request goes to another thread. */
#ifndef DSPEC_BESIDE_RING_H
#define DSPEC_BESIDE_RING_H

#include <fcntl.h>
#include <pthread.h>
#include <stdatomic.h>
#include <stdbool.h>
#include <stdint.h>
#include <stdio.h>
#include <stdlib.h>
#include <string.h>
#include <sys/mman.h>
#include <unistd.h>

enum { RING_BYTES = 1 << 16, OUTBOX_BYTES = 1 << 20, RING_THREADS = 64, RING_LINE = 128, WRITER_US = 10000 };

typedef struct ring {
    uint8_t *bytes; /* each of the two is mapped twice in a row, so that a copy is one memcpy */
    uint8_t *outbox;
    uint64_t written, seen, lost;
    int file;
    _Alignas(RING_LINE) _Atomic uint64_t filled; /* bytes that the thread has put into its outbox */
    _Alignas(RING_LINE) _Atomic uint64_t emptied; /* and that the writer has taken from it */
} ring;

static ring *rings[RING_THREADS];
static _Atomic uint32_t ring_count;
static _Atomic bool ring_stops;
static _Thread_local ring *own_ring;
static const char *ring_folder;
static pthread_t ring_writer;

static void ring_must(bool is_well) {
    if (is_well) return;
    perror("ring");
    exit(1);
}

static uint8_t *mapped_twice(size_t size) {
    int file = memfd_create("ring", MFD_CLOEXEC);
    ring_must(file >= 0 && ftruncate(file, (off_t)size) == 0);
    uint8_t *at = mmap(NULL, 2 * size, PROT_NONE, MAP_PRIVATE | MAP_ANONYMOUS, -1, 0);
    ring_must(at != MAP_FAILED);
    for (int half = 0; half < 2; half++)
        ring_must(mmap(at + (size_t)half * size, size, PROT_READ | PROT_WRITE, MAP_SHARED | MAP_FIXED | MAP_POPULATE, file, 0) != MAP_FAILED);
    close(file);
    return at;
}

static __attribute__((noinline, cold)) ring *ring_begin(void) {
    char name[4096];
    ring *made = aligned_alloc(RING_LINE, sizeof *made);
    uint32_t number = atomic_fetch_add(&ring_count, 1);
    ring_must(made != NULL && number < RING_THREADS);
    memset(made, 0, sizeof *made);
    made->bytes = mapped_twice(RING_BYTES);
    made->outbox = mapped_twice(OUTBOX_BYTES);
    snprintf(name, sizeof name, "%s/%u", ring_folder, number);
    made->file = open(name, O_CREAT | O_TRUNC | O_WRONLY | O_CLOEXEC, 0600);
    ring_must(made->file >= 0);
    __atomic_store_n(&rings[number], made, __ATOMIC_RELEASE);
    return own_ring = made;
}

static inline ring *ring_of_thread(void) { return __builtin_expect(own_ring != NULL, 1) ? own_ring : ring_begin(); }

static void ring_empty(ring *one) {
    uint64_t filled = atomic_load_explicit(&one->filled, memory_order_acquire), emptied = atomic_load_explicit(&one->emptied, memory_order_relaxed);
    while (emptied < filled) {
        ssize_t put = write(one->file, one->outbox + emptied % OUTBOX_BYTES, filled - emptied);
        if (put <= 0) return;
        emptied += (uint64_t)put;
        atomic_store_explicit(&one->emptied, emptied, memory_order_release);
    }
}

static void *ring_writes(void *unused) {
    for (bool stops = false; !stops;) {
        stops = atomic_load(&ring_stops);
        for (uint32_t i = 0; i < RING_THREADS; i++) {
            ring *one = __atomic_load_n(&rings[i], __ATOMIC_ACQUIRE);
            if (one != NULL) ring_empty(one);
        }
        if (!stops) usleep(WRITER_US);
    }
    return unused;
}

static void ring_start(const char *folder) {
    ring_folder = folder;
    ring_must(pthread_create(&ring_writer, NULL, ring_writes, NULL) == 0);
}

static void ring_stop(void) {
    atomic_store(&ring_stops, true);
    pthread_join(ring_writer, NULL);
}

/* A request begins here in the ring. */
static inline uint64_t ring_path(void) { return ring_of_thread()->written; }

static inline void ring_put(const void *record, size_t size) {
    ring *mine = own_ring;
    memcpy(mine->bytes + mine->written % RING_BYTES, record, size);
    mine->written += size;
}

/* Whether there was room. */
static inline bool ring_out(ring *mine, const void *bytes, size_t size) {
    uint64_t filled = atomic_load_explicit(&mine->filled, memory_order_relaxed);
    if (__builtin_expect(filled + size - mine->seen > OUTBOX_BYTES, 0)) {
        mine->seen = atomic_load_explicit(&mine->emptied, memory_order_acquire);
        if (filled + size - mine->seen > OUTBOX_BYTES) {
            mine->lost++;
            return false;
        }
    }
    memcpy(mine->outbox + filled % OUTBOX_BYTES, bytes, size);
    atomic_store_explicit(&mine->filled, filled + size, memory_order_release);
    return true;
}

static inline bool ring_keep(uint64_t from) {
    ring *mine = own_ring;
    if (mine->written - from > RING_BYTES) from = mine->written - RING_BYTES / 2;
    return ring_out(mine, mine->bytes + from % RING_BYTES, mine->written - from);
}

#endif
