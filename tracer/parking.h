/* parking.h: a lane's ring of parked paths, which the library has (the crate dspec_parking): copies of their records, by key. What these calls do is proved. Whoever calls one has the ring;
 * who parks has the lane too. Only dspec_parking_new takes memory. */
#ifndef DSPEC_TRACER_PARKING_H
#define DSPEC_TRACER_PARKING_H

#include "dspec.h"

typedef struct dspec_parking { bool held; void *at; } dspec_parking;

/* A block that is parked. */
typedef struct dspec_parked {
    uint64_t key_high, key_low; /* the first and the last eight bytes of its key */
    uint64_t stamp;             /* when it was parked, in the unit of whoever parked it */
    size_t length;              /* how many bytes it has */
} dspec_parked;

/* What the ring's tail passed. */
typedef struct dspec_passed {
    size_t places; /* so many of the oldest places: those that are left have numbers less by as many */
    size_t blocks; /* so many of their blocks were there still; the others were kept before */
} dspec_passed;

/* What became of the blocks that were parked: parked is the sum of the others. */
typedef struct dspec_parked_counts {
    uint64_t parked;
    uint64_t kept;     /* came out */
    uint64_t evicted;  /* made room for newer ones */
    uint64_t expired;  /* were too old */
    uint64_t standing; /* are there still */
} dspec_parked_counts;

/* Fills an empty handle with a ring of this many bytes, and at most this many blocks: DSPEC_OK, DSPEC_NO_MEMORY. dspec_drop lets it go. DSPEC_FULL_HANDLE. */
dspec_status dspec_parking_new(dspec_parking *parking, size_t bytes, size_t most_blocks);

/* Parks a copy of the records that the CPU has of a slot's speculation (dspec_open_at), as the newest block; where it has none, a block of no bytes. The CPU stays as it is. The fewest of
 * the oldest blocks make room; gone says what the tail passed. DSPEC_TOO_LONG: the block is longer than the ring, or the ring has no places. DSPEC_WORN: 2^64 - 1 blocks were parked before.
 * At both nothing has changed. DSPEC_BAD_HANDLE. */
dspec_status dspec_parking_park(dspec_parking *parking, dspec_cpu *cpu, uint32_t slot, uint64_t key_high, uint64_t key_low, uint64_t stamp, dspec_passed *gone);

/* How many places there are, numbered from 0, the oldest first. The place of a block that was kept stays until the tail passes it. DSPEC_OK, DSPEC_BAD_HANDLE. */
dspec_status dspec_parking_places(dspec_parking *parking, size_t *count);

/* The block at a place: DSPEC_VOID where there is no such place, or its block was kept. DSPEC_BAD_HANDLE. */
dspec_status dspec_parking_at(dspec_parking *parking, size_t place, dspec_parked *block);

/* Keeps the block at a place: it comes out into a room of `size` bytes, and is told. DSPEC_VOID as above. DSPEC_TOO_SMALL: the block is told, and nothing else has changed; its length says
 * how many bytes the room needs. DSPEC_BAD_HANDLE. */
dspec_status dspec_parking_take(dspec_parking *parking, size_t place, uint8_t *room, size_t size, dspec_parked *block);

/* The tail passes the oldest places whose blocks were kept, or have a stamp before this one: up to the first other, and at most `most`. Those that were there still expire. DSPEC_OK, and gone
 * says what the tail passed. DSPEC_BAD_HANDLE. */
dspec_status dspec_parking_expire(dspec_parking *parking, uint64_t before, size_t most, dspec_passed *gone);

/* The counts so far: DSPEC_OK, DSPEC_BAD_HANDLE. */
dspec_status dspec_parking_counts(dspec_parking *parking, dspec_parked_counts *counts);

#endif
