/* paths.h: the table of a lane's open paths, which the library has (the crate dspec_paths): which speculations are whose, and what becomes of them. What these calls do is proved.
 * Whoever calls one has the lane. */
#ifndef DSPEC_TRACER_PATHS_H
#define DSPEC_TRACER_PATHS_H

#include "dspec.h"

/* The places of a table, which has this many at most. */
enum { MAX_OPEN = 64 };

/* What a part of a path is answered, beside DSPEC_OK, DSPEC_LOST, DSPEC_BUSY and DSPEC_VOID. */
#define DSPEC_GOES_ON ((dspec_status)39)   /* its older records were kept; its last ones are kept by a further call */
#define DSPEC_PATH_LOST ((dspec_status)40) /* its older records had no room, so its last ones were thrown away too */

typedef struct dspec_paths { bool held; void *at; } dspec_paths;

/* A path that is open. */
typedef struct dspec_open_path {
    uint64_t newest; /* the speculation that its records go into */
    uint64_t older;  /* with keep_last the one before, which is full; 0: none */
    uint64_t begun;  /* the stamp of its first record */
    uint32_t number, thread; /* thread: the token of that which recorded last */
    uint32_t cut;    /* so many of its first records were thrown away for later ones */
    bool is_kept;    /* its older records were kept, and the others wait for room */
} dspec_open_path;

/* How many paths there were, each number modulo 2^64. */
typedef struct dspec_path_counts {
    uint64_t began;
    uint64_t kept;        /* a part of theirs at least */
    uint64_t thrown_away;
    uint64_t lost;        /* they were to be kept, and nothing of theirs was */
} dspec_path_counts;

/* Fills an empty handle with a table without paths: DSPEC_OK, DSPEC_NO_MEMORY. dspec_drop lets it go. */
dspec_status dspec_paths_new(dspec_paths *paths);

/* How many bytes of memory a table takes (dspec_memory.h). */
__attribute__((visibility("hidden"))) dspec_status paths_memory(size_t *bytes);

/* A path begins, in a speculation that is opened for it: DSPEC_OK, and its place and that; DSPEC_UNAVAILABLE: there is none. */
dspec_status dspec_paths_begin(dspec_paths *paths, dspec_cpu *cpu, uint32_t number, uint32_t thread, uint64_t begun, uint32_t *place, uint64_t *id);

/* A path whose speculation is full goes on in a new one, which is its new id. The one before the full one is thrown away, and its records are counted as cut. DSPEC_UNAVAILABLE: there is none. */
dspec_status dspec_paths_turn(dspec_paths *paths, dspec_cpu *cpu, uint32_t place, uint64_t id, uint64_t *newest);

/* Keeps a part of a path: its older records, where it has such (DSPEC_GOES_ON), else its last ones (DSPEC_OK, DSPEC_LOST). With waits one that would be lost is DSPEC_BUSY, and nothing is done.
 * count: the records that were kept, or lost, or with DSPEC_PATH_LOST thrown away. DSPEC_VOID: no path of that name is open. */
dspec_status dspec_paths_keep_part(dspec_paths *paths, dspec_cpu *cpu, uint32_t place, uint64_t id, bool waits, uint32_t *count);

/* Throws a path away: DSPEC_VOID where none of that name is open, or a part of it is kept. */
dspec_status dspec_paths_discard(dspec_paths *paths, dspec_cpu *cpu, uint32_t place, uint64_t id);

/* The same of a path that was to be kept, and for which the caller has no room: it is lost as a whole. */
dspec_status dspec_paths_lose(dspec_paths *paths, dspec_cpu *cpu, uint32_t place, uint64_t id);

/* How many paths began, and what became of those that are over: what began is what is open, was kept, was thrown away or is lost. */
dspec_status dspec_paths_counts(dspec_paths *paths, dspec_path_counts *counts);

/* A path is this thread's from now on: DSPEC_VOID where none of that name is open. */
dspec_status dspec_paths_adopt(dspec_paths *paths, uint32_t place, uint64_t id, uint32_t thread);

/* The path that is open at a place, of this thread, or with 0 of any: DSPEC_VOID where there is none. */
dspec_status dspec_paths_open_of(dspec_paths *paths, uint32_t place, uint32_t thread, dspec_open_path *path);

#endif
