/* park.h: parked paths and the keys that decide them. A path that is over and undecided has its records in a ring of its lane (parking.h), and no place of its lane. The consumer alone looks for
 * keys: so no thread that records has an index to keep. */
#ifndef DSPEC_TRACER_PARK_H
#define DSPEC_TRACER_PARK_H

#include "dspec_reader.h"
#include "parking.h"

struct dspec_tracer_body;
struct lane;
struct keys;
struct keeper;

/* A ring has a place for each so many bytes. There are more tags than places, so that a key that comes too late is noticed. */
enum { BYTES_A_PLACE = 128, TAGS_A_PLACE = 2 };

/* What is parked on a lane. Places are numbered from the first path on that was parked there, and their tags are found by that, modulo how many there are. Whoever has the lane writes
 * this; anybody may look at tags, numbers and counts at any time. */
typedef struct parked_paths {
    dspec_parking ring;  /* the stamp of a block: the path's number in the upper half, and the thread in which it began in the lower */
    uint64_t tag_count;  /* TAGS_A_PLACE for each place; 0: the lane has no ring */
    uint64_t next;       /* where the tag of the next one is */
    uint64_t *tags;      /* of their keys; 0: it was kept */
    uint32_t *untold;    /* beside each tag: how many records of the path are missed; all are 0, and none is written, as long as the lane is simple */
    bool is_simple;      /* there is a ring, and no path of the lane can have missed a record for want of room in its speculation */
    uint64_t first, end; /* the numbers of the oldest place and of the next one */
    uint64_t kept, evicted, expired, records; /* records: of those that were kept */
} parked_paths;

/* A path that was taken out of its ring to be kept. */
typedef struct taken_path {
    uint64_t key[2];
    uint32_t number, thread, untold; /* what its event tells beside its key and its stamp */
    uint64_t at, length; /* where its records are among the bytes; NO_NEXT: there is none */
} taken_path;
#define NO_NEXT UINT64_MAX

/* Paths that were taken out of a lane's ring and aren't written yet. With `survive` this and the bytes are in the file. */
typedef struct taken_paths {
    uint32_t state, lane, cpu; /* cpu: of the folder, as whose records they are written */
    uint64_t count, used; /* so many paths, each with the event that tells of it, are in so many bytes */
    uint64_t before;      /* how many records the folder had before it got them */
    taken_path next;      /* at `used`: it is being taken, and has no event yet */
    uint8_t *bytes;
    uint64_t size;
    uint64_t *chains; /* of each CPU of the folder so many times up to which such paths were written, each in files of its own */
    uint64_t folder;  /* that these are of: the number that the next one gets */
} taken_paths;
enum { NOTHING_TAKEN = 0, IS_TAKING = 1, IS_WRITING = 2 };
/* Stamps don't fall in a file of the trace, and a CPU has 64 files. So many of them are for what is kept by keys, since these come in any order. */
enum { MOST_CHAINS = 24 };

/* ---- keys.c: the keys that are kept. Any thread puts one in, and a handler too; the rest is the consumer's. ---- */

/* So many keys are heard in a turn. */
enum { KEYS_AT_ONCE = 256 };
/* In place of a lane's number: the program told the key. */
#define TOLD_KEY UINT32_MAX

typedef struct heard_key {
    uint64_t key[2], tag;
    uint32_t lane; /* on which a path of it was kept */
} heard_key;

struct keys *keys_new(uint64_t remember_ms);
void keys_drop(struct keys *keys);
uint64_t key_tag(const uint64_t key[2]); /* never 0 */
bool keys_put(struct keys *keys, const uint64_t key[2], uint32_t lane); /* whether there was room; else it is counted */
/* Takes keys that came, at most so many: how many of them are new, each of which is remembered from now on. */
size_t keys_hear(struct keys *keys, uint64_t now_ms, size_t most, heard_key heard[KEYS_AT_ONCE]);
/* Forgets those whose time is over. are_needed: while there is room for as many as a turn hears, none. */
void keys_forget(struct keys *keys, uint64_t now_ms, bool are_needed);
bool keys_are_any(const struct keys *keys);   /* whether one is remembered */
uint64_t keys_count(const struct keys *keys); /* how many were put in */
bool keys_are_heard(const struct keys *keys, uint64_t count); /* whether so many were heard */
bool keys_are_waiting(const struct keys *keys); /* whether one came that wasn't heard */
bool keys_have_tag(const struct keys *keys, uint64_t tag);
bool keys_have(const struct keys *keys, const uint64_t key[2]);
uint64_t keys_refused(const struct keys *keys);

/* ---- park.c: what is parked. ---- */

uint64_t park_places(uint64_t park_bytes); /* how many places a ring has */
/* How many bytes of memory a ring takes (dspec_memory.h), and one of so many bytes and blocks (heap.c). */
dspec_status park_memory(uint64_t park_bytes, size_t *bytes);
__attribute__((visibility("hidden"))) dspec_status parking_memory(size_t bytes, size_t most_blocks, size_t *all);
dspec_status park_begin(struct lane *lane, uint64_t park_bytes);
bool park_notes_begin(struct lane *lane, uint64_t park_bytes, uint32_t specsize); /* in memory of malloc's */
void park_settle(struct lane *lane); /* its end: what is parked still is thrown away, and the counts are the ring's */
void park_drop(struct lane *lane);
uint64_t park_over(const parked_paths *parked); /* how many were kept, evicted or too old */
uint64_t park_left(const parked_paths *parked); /* how many are parked now */
/* Where a lane isn't simple: how many records the path misses that is parked next, by its speculation. Whether there is a ring. The caller has the lane. */
bool park_notes_untold(parked_paths *parked, dspec_cpu *cpu, uint64_t id);

/* ---- taken.c: what was taken out of a ring, on its way to the folder. The consumer's. ---- */

bool taken_begin(struct dspec_tracer_body *tracer); /* whether there is memory */
void taken_drop(struct dspec_tracer_body *tracer);
bool taken_has_room(const taken_paths *taken, size_t length); /* for a path of so many bytes and its event */
bool taken_has_disk(struct dspec_tracer_body *tracer, uint32_t lane, size_t paths); /* whether so many paths of a lane may be written, or lost: with `survive` not on a full disk */
/* A path of so many bytes is about to be taken, to the first free byte; it was taken, and has its event now; or it can't be taken. */
void taken_begins(taken_paths *taken, uint32_t lane, const taken_path *path);
void taken_adds(struct dspec_tracer_body *tracer);
void taken_gives_up(taken_paths *taken);
/* Puts the event of a path after its records, as the library lays it out, at a multiple of eight bytes: where it ends. */
uint64_t taken_put_event(const dspec_layout *layout, uint64_t claim, const taken_path *path, uint64_t stamp, uint8_t *bytes);
void taken_writes(struct dspec_tracer_body *tracer, struct lane *lane); /* as a batch of the lane that they were on */

/* ---- keeper.c: the consumer keeps what is parked. ---- */

struct keeper *keeper_new(const struct dspec_tracer_body *tracer);
void keeper_drop(struct keeper *keeper);
/* Whether fewer keys may wait to be told than are heard in a turn: then some are to be told before the next one. */
bool keeper_is_full(const struct keeper *keeper);
/* Before the lanes are served: hears keys, keeps what is parked by them, and has what is too old expire. What finds no room on the disk stays parked. */
void keeper_turns(struct dspec_tracer_body *tracer);
/* After that: keeps what was parked meanwhile on these lanes. A lane that was found empty gets a call before anything more is parked there. */
void keeper_looks(struct dspec_tracer_body *tracer, uint64_t busy);
/* Whether all keys are done with that came before a flush was asked for. is_new: it has just been. */
bool keeper_flushes(struct dspec_tracer_body *tracer, bool is_new);
/* Tells the program of the keys that were kept here and are written: of all lanes but these. */
void keeper_tells(struct dspec_tracer_body *tracer, uint64_t unwritten);
/* The consumer slept, and nothing was parked meanwhile. */
void keeper_wakes(struct keeper *keeper);
void keeper_ends(struct dspec_tracer_body *tracer); /* after all lanes: tells the rest */
void keeper_ends_lane(struct dspec_tracer_body *tracer, struct lane *lane); /* for the last time; the consumer has the lane */
bool keeper_is_due(const struct dspec_tracer_body *tracer); /* whether a turn is to come without a call of a thread */
bool keeper_waits_for_disk(const struct dspec_tracer_body *tracer); /* any thread may ask */
uint64_t keeper_missed(const struct keeper *keeper);
uint64_t keeper_least_ms(const struct keeper *keeper);

#endif
