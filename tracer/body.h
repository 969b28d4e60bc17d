/* body.h: what a tracer is made of; of include/dspec_tracer.h, and seen by its own files alone.
 *
 * A lane's state is one word. HELD is its lock: the consumer has the lane between two calls of its thread, or a thread that shares it is in a call. A lane that nobody shares
 * belongs to one thread, which takes no lock: it sets `inside`, looks at the state, and makes its call. Whoever else wants the lane sets HELD, has every processor come to an order by
 * membarrier(2), and waits until `inside` is 0; so the order is paid where it is rarely needed. SHARED says that all take the lock, that thread too. Of a lane that is nobody's own or
 * SHARED the lock is enough.
 *
 * A thread that had a lane alone for many paths keeps it between them. Such a lane counts its owner and one path, which is none while the lane is at rest: so the thread's next path begins, and its last
 * one ends, without a locked instruction. The thread has a flag in `uses` for that, and the lane's state has the flag's number. The flag says whether the thread uses the lane: it sets the flag, and
 * looks whether the state is still what it left. Another thread that finds no lane that is free takes one that is kept: it sets HELD and takes the number out, has every processor come to an order, and
 * looks at the flag. Where that is in use, the number comes back. A thread whose lane was taken finds another state, and has its flag until then. A record that is in no path uses the lane as a path
 * does, and is in a call there meanwhile.
 */
#ifndef DSPEC_TRACER_BODY_H
#define DSPEC_TRACER_BODY_H

#ifndef _GNU_SOURCE
#define _GNU_SOURCE
#endif

#include "dspec_tracer.h"
#include "folder.h"
#include "park.h"
#include "paths.h"

#include <errno.h>
#include <pthread.h>
#include <signal.h>
#include <stdio.h>
#include <stdlib.h>
#include <string.h>

#pragma GCC visibility push(hidden)

typedef struct dspec_tracer_body body;


/* Of a lane's state: six bits; the number of the flag by which a thread keeps it; and above them how many paths are on it, and 1 more where it is a thread's own. WANTED has threads that share a lane
 * hold back, so that the consumer gets its turn. */
enum { HELD = DSPEC_TRACER_HELD_, GONE = 2, SERVE = 4, IDLE = 8, SHARED = 16, WANTED = 32, FLAG = DSPEC_TRACER_FLAG_, FLAGS = DSPEC_TRACER_FLAGS_, KEPT = FLAGS * FLAG, USER = 512 };
/* A lane that is kept and that nobody wants counts its owner and one path. */
enum { AT_REST = 2 * USER };
static_assert(KEPT + AT_REST <= UINT16_MAX, "a seat has it");
static_assert(AT_REST == DSPEC_TRACER_AT_REST_ && KEPT < USER, "the header's numbers are these");
/* Of a flag: it is nobody's; its thread doesn't use the lane, or does. */
typedef enum use { FREE_FLAG = 0, RESTS = DSPEC_TRACER_RESTS_, IN_USE = DSPEC_TRACER_IN_USE_ } use;
static_assert((HELD | GONE | IDLE | SHARED | WANTED) == DSPEC_TRACER_LOOK_, "the header's LOOK is these");
/* Within these bounds somebody waits for lanes, in microseconds: a thread for one, the consumer in a turn of a flush and at the end for all; in a round for none. */
enum { ENTER_US = 1000000, TAKE_US = 20000, CLOSE_US = 5000000 };
enum { MAX_CRASHES = 16 };
/* The most bytes of a batch that the folder gets: a buffer, or parked paths with their events, of which the last one may be aligned. */
#define MOST_BATCH(OPTIONS) ((OPTIONS)->bufsize + 2 * (size_t)BYTES_OF_PATH)
/* In place of the number of the path to which a thread recorded last, where that path got no slot. */
#define REFUSED_PATH UINT64_C(1)
/* A record's text in words of eight bytes, at most, and how many bytes a record has at most. */
enum { MOST_WORDS = 9, MOST_OF_A_RECORD = 80 };
/* Of the event that tells of a path, in words and in bytes. */
enum { WORDS_OF_PATH = 6, BYTES_OF_PATH = 56 };
/* How a path ends, and what is answered where it ended otherwise: it was kept since its key is, or thrown away since it can't be parked. */
typedef enum ending { DROPS = 0, KEEPS = 1, PARKS = 2 } ending;
#define KEPT_BY_KEY ((dspec_status)41)
#define THROWN_AWAY ((dspec_status)42)
/* A speculation's number has its slot in its lowest bits. */
enum { SLOTS = 64 };
/* Of a path's key: there is none, there is one, and that one is kept, so that the path is kept at its end. */
enum { NO_KEY = 0, HAS_KEY = 1, IS_WANTED = 2 };
/* After the tracers stand watches (watch.h), which signals know as tracers without lanes. */
enum { MAX_WATCHES = 64, MAX_SLOTS = DSPEC_MAX_TRACERS + MAX_WATCHES };
enum { CACHE_LINES = 128 };

#define APART __attribute__((aligned(CACHE_LINES)))
static_assert(_Alignof(dspec_tracer_lane) == CACHE_LINES, "what a record looks at has lines of its own");

/* What a lane has of an open path beside its table, at the same place; whoever has the lane writes it. Others may look at `mark`, `token` and `tag` at any time. */
typedef struct open_path {
    uint64_t mark;   /* its number, in the upper half; 0: none is open here */
    uint64_t left;   /* the mark of a path whose end couldn't get into its lane, and which is to be thrown away; set from outside the lane */
    uint32_t token;  /* of the thread that recorded last, as the table has it */
    uint32_t thread; /* the system's number of the thread in which it began */
    uint32_t untold; /* where it is prepared: its records that aren't kept with it */
    uint32_t cut;    /* and those of them that were thrown away for later ones */
    bool own;        /* it began on its thread's own lane */
    bool waits;      /* it is being kept, as soon as there is room */
    bool is_prepared, has_event; /* for its commit, where its event is among its records or had no room there */
    bool has_part;   /* its older records are kept */
    uint8_t key_state;
    bool has_first;
    uint8_t first_words; /* with keep_last its first record */
    uint64_t key[2];
    uint64_t tag; /* with park_bytes that of the key, or of the key of a path that was here before; 0: there is nothing to look for */
    uint64_t first_claim, first[MOST_WORDS];
} open_path;

/* A path that the consumer has ended, and whose thread has still to do that. */
typedef struct ended_path {
    uint64_t mark;
    uint32_t token;
    bool own, is_kept;
} ended_path;

struct lane {
    dspec_tracer_lane front; /* first: what the header knows of a lane is at the same place */
    uint32_t number;
    uint32_t opened; /* the number of the path that was opened last */
    body *tracer;
    uint32_t had_by, in_a_row; /* the token of the thread that had it alone last, and for how many paths or records in a row; written by that */
    dspec_paths paths;
    parked_paths parked; /* with park_bytes */
    uint64_t kept, thrown, cut, cut_records; /* kept, thrown: until now, which others may look at at any time; the last word is the table's */
    uint64_t saved; /* paths that the consumer has kept, for a crash or because the stop keeps what is open */
    uint32_t handed; /* how many paths of the thread whose own it is others have ended since that looked */
    uint32_t left;   /* whether one is to be thrown away */
    dspec_report latest; /* at the last service, of the program's records */
    uint64_t turned; /* records that one speculation refused and the next one took, and paths' events that had no room in theirs */
    uint64_t own_accepted, own_lost, own_discarded; /* of the counts of its CPU the paths' events, which are no records of the program */
    uint32_t owes;
    uint64_t owed_at, owed[WORDS_OF_PATH]; /* the event of a path whose records are kept, where it has had no room after them: the next buffer begins with it */
    uint32_t is_full; /* a full buffer was switched out, and the consumer hasn't come for it yet */
    uint32_t again[2]; /* of the batch that is out, by its number from the first one on, modulo 2: so many of its drops are records that were offered again after it, */
    uint64_t all_again; /* and of all batches */
    dspec_batch out; /* which the folder is getting, where `bringing` says so */
    uint64_t before; /* how many records the folder had before it */
    uint32_t bringing;
    bool waits_for_disk; /* with `survive`: it is taken, and stays here until the disk has room */
    /* Where the memory is a file, or as one is: whether a service is made, where the two buffers are and which one is filled, how many batches were switched out, taken and given back, what the CPU
     * had accepted at the last switch and how many records that switched out, and how many were in the buffer before the service. */
    uint32_t serving, filled;
    const uint8_t *buffers[2];
    uint64_t switched, taken, given, accepted, sealed, standing;
    uint32_t ended_count;
    ended_path ended[MAX_OPEN];
    APART open_path open[MAX_OPEN];
    dspec_session session;
    dspec_consumer consumer;
};

/* Of a batch: none is out, the folder is getting it, the library is getting it back, the library is asked for it, the library has handed it out. */
enum { NOT_OUT = 0, IS_BROUGHT = 1, WAS_BROUGHT = 2, IS_TAKEN = 3, WAS_TAKEN = 4 };
/* What a lane owes: nothing, a path's event, or the event of a path whose first part is kept and whose last waits for room. */
enum { OWES_NOTHING = 0, OWES_EVENT = 1, IS_CLAIMED = 2 };
/* Of a service: none is made, the library makes it, it has switched. */
enum { NOT_SERVED = 0, IS_SERVED = 1, HAS_SWITCHED = 2 };
/* What a batch is before the library's answer: no field of a whole one is like these. */
static const dspec_batch nothing_out = { NULL, SIZE_MAX, UINT64_MAX, 0 };

/* Who sent a signal, and which thread got it. */
typedef struct sender {
    int32_t process, code;
    uint32_t user, thread;
    uint64_t at;
} sender;

/* What a handler tells the consumer of a thread that crashed. */
typedef enum crash_state { CRASH_FREE = 0, CRASH_FILLING = 1, CRASH_READY = 2 } crash_state;
struct crash {
    uint32_t state;
    int32_t signal, code;
    uint64_t address, at, pc;
    uint64_t recent;       /* the number of the path to which it recorded last, in the upper half */
    uint64_t stack, frame; /* the pointers of its stack and its frame; 0 where they aren't known of the machine */
    uint32_t token, thread;
    bool is_from_outside; /* another process sent the signal, and all paths are kept */
    bool is_last;         /* the signal ends the process */
    sender by;
    uint64_t here[2]; /* what a watch asked of the thread */
};

/* What is added to the rings: by a thread that has switched a full buffer out, which is written between two turns, and by all others. */
enum { FULL_RING = 1, RING = 256 };

/* A consumer that has ended hears of no signal. */
#define NO_MORE_SIGNALS UINT32_MAX

/* A thread that recorded: its number is written last. */
typedef struct seen_thread {
    uint32_t thread;
    char name[16];
} seen_thread;
enum { MAX_SEEN = 256, MAX_WHYS = 64 };

/* The file of a memory that outlives the process (survive.h), and the folder that has it: by descriptors, since a program may change its root or its user. */
typedef struct memory_file {
    int at, parent; /* -1: not open */
    uint64_t device, inode, parent_device, parent_inode;
    uint32_t aside; /* the number of what an earlier run left; 0: nothing */
    bool is_made;
    char name[288];
} memory_file;

/* What the time stamp counter and the system's monotonic clock showed at one moment. */
typedef struct moment {
    uint64_t ticks, nanoseconds;
} moment;

struct dspec_tracer_body {
    uint32_t slot; /* among the process's tracers */
    uint32_t run;  /* which no other tracer of the process has or had */
    uint32_t count;
    bool by_thread;
    uint32_t clock; /* of its stamps: DSPEC_CLOCK_MONOTONIC, which a watch has, or DSPEC_CLOCK_TSC */
    uint32_t locked; /* each lane is taken by its lock, since there is no membarrier(2) */
    uint32_t up;
    pid_t pid;
    dspec_tracer_options options;
    const dspec_enabling **events;
    dspec_event **added; /* of plugins (dspec_tracer_add) */
    size_t added_count;
    dspec_layout layout;
    dspec_schema schema;
    dspec_folder folder;
    dspec_tracer_report report;
    pthread_t thread;
    uint32_t heard; /* of the rings, by the consumer */
    bool whole, joined, is_pressed; /* is_pressed: somebody rang, so that the next round waits for nothing */
    uint32_t epid_of_crash, epid_of_place, epid_of_signal, epid_of_unsaved;
    uint64_t told_unsaved; /* the consumer's, of dspec_unsaved */
    moment started;       /* where the stamps are the counter's: when it was looked at first, */
    uint64_t origin;      /* where the monotonic clock began, in nanoseconds since 1970, */
    uint64_t hertz;       /* what the metadata says, for threads that ask how long something took, */
    uint64_t measured;    /* and the consumer's: how many ticks after the start that was measured */
    uint64_t quiet_until;  /* the consumer's: it makes no rounds until then */
    sender sent; /* who sent the signal that `deferred` is */
    uint64_t claim_of_path, claim_of_thread, claim_of_counts, claim_of_refused;
    uint64_t told_at, told_paths, told_records, told_waited, told_missing, told_kept, told_thrown; /* the consumer's, of dspec_refused */
    uint64_t claim_of_parked;
    dspec_tracer_report told_parked; /* as dspec_parked told it last */
    uint32_t told_threads;
    dspec_tracer *front; /* the program's */
    struct keys *keys;   /* both with park_bytes */
    struct keeper *keeper;
    taken_paths taken;
    uint64_t claims[DSPEC_MAX_ENABLINGS];
    uint32_t missing_state; /* of the name: 0 none is noted, 1 it is being written, 2 it is there */
    char missing_name[64];  /* the first event that records and isn't the tracer's */
    const char *why_texts[MAX_WHYS];
    size_t why_count;
    dspec_labels whys;
    const dspec_labels *labels[7];
    seen_thread seen[MAX_SEEN];
    struct crash crashes[MAX_CRASHES];
    void (*here)(uint64_t *); /* a watch's */
    struct saved_head *saved; /* where the tracer's memory is a file, or as a file is (survive.h) */
    void *memory;
    memory_file file;
    APART uint32_t stop, rings, asleep, deferring, deferred, ended; /* asleep: the consumer makes no rounds until it is stirred; deferred: the signal that is left to it; 0: none yet */
    uint32_t unsaved, never_saved; /* threads that crashed: whose handler waits, and those whose handler waited in vain */
    uint32_t asked, served, flushing; /* tickets of flushes: the last one that was asked for and that was served; and how many threads wait for one */
    uint32_t flushed;                 /* the ticket that is being served, */
    uint64_t undrained;               /* and the lanes that stay for it */
    uint64_t drained;                 /* lanes that may have been found empty since their paths were looked at (keeper.c) */
    uint32_t misses;                  /* whether the folder misses something that was kept */
    APART uint64_t no_slot, no_room, nested, late, waited, threads, refused_records, missing;
    struct lane lanes[]; /* `count`, and one more of the consumer's own */
};

/* ---- thread.c: what a thread has in each tracer. ---- */

struct here {
    void *stack;
    bool consumer;
    uint32_t thread; /* the system's number */
    int32_t again;   /* the signal that comes a second time (signals.c), or 0; and what its context has to have then */
    uint64_t mask;
    stack_t other;
    uint32_t hands_on; /* so many paths are begun on a lane that isn't its own, since others end them */
};
/* A handler may look at these, as at the token (dspec/tracer_record.h). */
extern __thread struct here dspec_here __attribute__((tls_model("initial-exec")));
extern __thread dspec_tracer_seat dspec_seats[DSPEC_MAX_TRACERS] __attribute__((tls_model("initial-exec")));

/* No thread has this token, and a thread has it that has none yet. */
#define NO_TOKEN UINT32_MAX

dspec_status seat_take_slowly(body *tracer, dspec_tracer_seat *seat); /* makes it where it isn't there; else counted: DSPEC_BUSY in a handler, DSPEC_STOPPED where the tracer is down */
void threads_begin(void);  /* once a process */
void threads_in_child(void);
void stack_on(void);
void stack_off(void);
bool stack_is_ours(const stack_t *stack);

/* ---- wait.c ---- */

/* While the word is this, until it is woken, at the most for so long. */
#define FOREVER UINT64_MAX
void word_waits(const uint32_t *word, uint32_t was, uint64_t nanoseconds);
void word_wakes(const uint32_t *word);
void sleep_for(uint64_t microseconds);
/* How long somebody waits: so many microseconds from the first wait on, and for good for some naps too: a process that stood still, stopped or frozen, has its time over and no thread
 * has had a turn. What is waited for is looked at once more when it is over. */
typedef struct patience {
    uint64_t most, began;
    uint64_t since; /* when it began to wait for what it waits for now; 0: not yet */
    unsigned naps;
} patience;
patience patience_of(uint64_t microseconds);
bool is_spent(const patience *left);
void wait_on(patience *left);

/* ---- lane.c: into a call and out of it. ---- */

/* How a thread is in a call: as the one whose lane it is, or by the lane's lock. */
typedef enum way { NOT_IN = 0, ALONE = 1, BY_LOCK = 2 } way;
way lane_enter_slowly(dspec_tracer_seat *seat, struct lane *lane);
struct lane *lane_for_path(body *tracer, dspec_tracer_seat *seat); /* one more path is on it; NULL where none has room */
struct lane *lane_shared(body *tracer, uint32_t number); /* likewise, on this one */
struct lane *lane_for_record(body *tracer, dspec_tracer_seat *seat, bool *as_path); /* as_path: it is the thread's own for this record, as for a path, and is let go as after one */
bool lane_keeps(dspec_tracer_seat *seat, struct lane *lane, uint32_t state); /* whether the thread keeps the lane that it had alone last, from now on; it is in use until it rests; state: the lane's, where nobody else is on it */
void lanes_give_up(dspec_tracer_seat *seat); /* the thread's own lane, and the one that it keeps */
/* The consumer's: whether it has the lane, between two calls. With GONE in bits no thread gets in any more. */
bool lane_take(struct lane *lane, uint32_t bits, patience *left);
void lane_release(struct lane *lane, uint32_t set);
bool barrier_is_there(void);

/* ---- path.c ---- */

void path_ends_with_thread(body *tracer, dspec_tracer_seat *seat, uint32_t token); /* token: of the thread, which has none any more */
void path_throw_left(struct lane *lane); /* the caller has the lane */

/* ---- keep.c: what a path that is kept needs beside the table's call. The caller has the lane. ---- */

/* Whether a path's records may be lost, wait for room, or find their buffer empty, as where the consumer commits them. */
typedef enum room { ANY_ROOM = 0, WAITS_FOR_ROOM = 1, EMPTY_ROOM = 2 } room;
/* Keeps the path of a place and a speculation: DSPEC_OK where its last records were kept; DSPEC_BUSY: there is no room yet; DSPEC_VOID: it isn't open. Else it is lost. */
dspec_status path_commit(struct lane *lane, uint32_t place, uint64_t id, uint32_t why, room has);
bool path_pays(struct lane *lane); /* puts what the lane owes into a buffer that was just begun: whether there was something */

/* ---- session.c: what a lane has of the library. ---- */

/* A program's options, of a header that may be older and knows fewer; false where it is newer and sets one that isn't known here. */
bool options_take(dspec_tracer *tracer, const dspec_tracer_options *options, size_t size, dspec_tracer_options *taken);
dspec_config lane_config(const dspec_tracer_options *options);
dspec_status lane_start(struct lane *lane, const dspec_tracer_options *options, dspec_schema *schema);
bool lane_serve(struct lane *lane, bool *is_empty); /* whether it has switched */
/* What a buffer has no room for: a record was dropped for that, and a path waits. Whether the other buffer was begun in its place, so that the record is offered again, and isn't counted as dropped before that.
 * The caller has the lane. */
typedef enum roomless { A_PATH = 0, A_RECORD = 1 } roomless;
bool lane_makes_room(struct lane *lane, roomless what);
void lane_write(body *tracer, struct lane *lane);
void lane_empty(body *tracer, struct lane *lane); /* both buffers; the caller has the lane */
void lane_clean(struct lane *lane);
/* Whether what is kept waits where the disk is full, as with `survive`. With a bound the oldest folder goes for it. */
bool kept_waits_for_disk(const body *tracer);
/* Beside those that the bytes of a batch fill it has so many packets at most: the last ones of its files, and what was missed. */
enum { LAST_PACKETS = 3 };
bool lanes_wait_for_disk(const body *tracer);
bool lane_end(body *tracer, struct lane *lane);
void lane_add(dspec_tracer_report *sum, const dspec_report *report);
void lane_counts(const struct lane *lane, dspec_report *report); /* takes out what is no record of the program */
void lane_add_parked(const struct lane *lane, dspec_tracer_report *sum); /* what became of the paths that were parked there, and of their records */
void lane_drop(struct lane *lane);

/* ---- clock.c ---- */

/* Puts a clock that can be had in the place of DSPEC_CLOCK_AUTO: NULL, or why the one that is wanted can't be had. */
const char *clock_choose(dspec_tracer_options *options);
void clock_start(body *tracer);
/* Has the trace's identity say of which clock its stamps are; before that it has the system's. Where that is the counter it waits until some milliseconds of its start are over. */
void clock_identify(body *tracer, dspec_identity *identity);
/* The consumer's: where it is due, or the end, has the metadata say what was measured until now: 0, or the errno where the one that is there stays as it was. */
int clock_tell(body *tracer, bool is_end);
uint64_t clock_nanoseconds(const body *tracer, uint64_t ticks); /* so many ticks of its stamps' clock */

/* ---- consumer.c ---- */

void *consumer_runs(void *of);
void consumer_wakes(body *tracer);
void consumer_writes(body *tracer); /* what was switched out since it was full */
/* Wakes a consumer that makes no rounds, after something that they are for: a lane that was found empty gets a call, or there is something to tell. */
void consumer_stirs(body *tracer);
void consumer_ends_by_signal(body *tracer);
void tell_counts(const body *tracer, dspec_tracer_report *report);
bool consumer_served(body *tracer, uint32_t ticket, uint32_t timeout_ms);

/* ---- place.c ---- */

enum { MOST_CALLERS = 4 };
typedef struct code_place {
    uint64_t offset, base; /* from where the file begins in memory, and where that is */
    bool runs;             /* it is code */
    char file[40];         /* its name without folders, or the begin of that */
} code_place;
bool place_of(uint64_t address, code_place *found);
/* To where the code returns in which a thread crashed, and the code there, and so on: by frame pointers, as far as there are any. The thread waits meanwhile. */
size_t callers_of(const struct crash *of_thread, uint64_t callers[MOST_CALLERS]);

/* ---- signals.c ---- */

void signals_hook(const dspec_tracer_options *options);
void signals_unhook(const dspec_tracer_options *options);
void crash_is_saved(body *tracer, struct crash *of_thread); /* its handler goes on */
void signals_end(int signal); /* does what the signal would have done; the last tracer that it closes ends the process */
bool signal_is_crash(int signal);
void signals_in_child(void);
bool signals_are_over(void); /* whether no handler looks at a tracer that is down, within a second */

/* ---- start.c ---- */

body *tracer_at(uint32_t slot); /* the tracer that is up there; a handler may call it */
void tracer_set(uint32_t slot, body *tracer);
void tracers_begin(void); /* once a process */
bool process_is_ours(void); /* whether this is the process whose tracers these are, and no child by _Fork or vfork */
void tracers_lock(void);        /* none begins or ends meanwhile, and no cancellation ends the thread */
void tracers_unlock(void);

/* ---- identity.c ---- */

struct naming;
struct whose {
    dspec_identity identity;
    char host[DSPEC_HOST_SIZE], name[256];
};
bool identify(body *tracer, struct whose *whose);
void event_claims(dspec_event *event, uint32_t slot, uint64_t claim);
bool event_adds(body *tracer, dspec_event *event, uint64_t claim); /* a plugin's, where the tracer doesn't have it; whether there is memory */
void event_goes(body *tracer, dspec_event *event);
void events_forget(body *tracer);
void enabling_widths(const dspec_enabling *enabling, uint8_t widths[DSPEC_MAX_FIELDS + 1], size_t *n); /* with the path's number as the first */
extern const dspec_enabling *const own_events[]; /* the tracer's */
size_t own_count(const dspec_tracer_options *options); /* so many of them it has */
dspec_status enable_all(body *tracer, const dspec_enabling *const *events, struct naming *naming);
struct naming *naming_new(void);
const dspec_names *naming_names(const struct naming *naming);

#pragma GCC visibility pop

/* ---- Words that several threads use. ---- */

#define LOAD(AT) __atomic_load_n((AT), __ATOMIC_RELAXED)
#define STORE(AT, VALUE) __atomic_store_n((AT), (VALUE), __ATOMIC_RELAXED)
#define ADD(AT, N) __atomic_fetch_add((AT), (N), __ATOMIC_RELAXED)

static inline uint32_t state_of(const struct lane *lane) { return __atomic_load_n(&lane->front.state, __ATOMIC_SEQ_CST); }
static inline uint32_t state_set(struct lane *lane, uint32_t bits) { return __atomic_fetch_or(&lane->front.state, bits, __ATOMIC_SEQ_CST); }
static inline uint32_t state_clear(struct lane *lane, uint32_t bits) { return __atomic_fetch_and(&lane->front.state, ~bits, __ATOMIC_SEQ_CST); }
static inline bool state_becomes(struct lane *lane, uint32_t *was, uint32_t is) {
    return __atomic_compare_exchange_n(&lane->front.state, was, is, false, __ATOMIC_SEQ_CST, __ATOMIC_SEQ_CST);
}

#define LIKELY(IS) __builtin_expect(!!(IS), 1)
#define RARELY __attribute__((noinline, cold))
#define INTO_CALLER __attribute__((always_inline)) static inline

/* Puts a number of `width` bytes, as dspec_number_at finds it. */
static inline void number_put(uint8_t *at, uint64_t number, size_t width) {
    for (size_t i = 0; i < width; i++) at[i] = (uint8_t)(number >> 8 * i);
}

static inline uint64_t stamp_of(const body *tracer) { return dspec_tracer_stamp_(&tracer->clock); }

/* ---- A path of a lane, which the caller has. ---- */

/* A place of a lane, which the compiler finds once. */
static inline open_path *place_at(struct lane *lane, uint32_t place) {
    open_path *path = &lane->open[place];
    __asm__("" : "+r"(path));
    return path;
}

/* Throws away the path of a place and a speculation: DSPEC_VOID where it isn't open, or a part of it is kept. */
static inline dspec_status path_discard(struct lane *lane, uint32_t place, uint64_t id) {
    const open_path *path = place_at(lane, place);
    const dspec_status status = dspec_paths_discard(&lane->paths, &lane->front.cpu, place, id);
    if (!LIKELY(!path->has_event)) lane->own_discarded += status == DSPEC_OK;
    return status;
}

/* A place whose path is over is nobody's. */
static inline void place_clear(open_path *path) {
    STORE(&path->token, 0);
    STORE(&path->mark, 0);
}

/* ---- Into the tracer, into a call on a lane, out of both. ---- */

static inline struct lane *lane_of(dspec_tracer_lane *front) { return (struct lane *)front; }

static inline dspec_tracer_seat *seat_at(uint32_t slot) {
    dspec_tracer_seat *seat = &dspec_seats[slot];
    __asm__("" : "+r"(seat)); /* its place is found once a call */
    return seat;
}

/* Whether the thread is in the middle of this tracer, as a handler's may be: between these calls, in one on its own lane, or in a record that is in no path. A handler that comes in between may
 * begin a path or end one, so a yes is looked at again where the thread has another lane by then. */
static inline bool seat_is_in(const dspec_tracer_seat *seat) {
    while (!seat->busy) {
        dspec_tracer_lane *const own = LOAD(&seat->own);
        const bool is_in = own != NULL ? LOAD(&own->inside) != 0 : LOAD(&seat->plain) == DSPEC_TRACER_NONE_;
        if (LIKELY(!is_in)) return false;
        __atomic_signal_fence(__ATOMIC_SEQ_CST);
        if (LOAD(&seat->own) == own) return true;
    }
    return true;
}

/* Into the tracer, of which the thread isn't in the middle. */
static inline void seat_sits(dspec_tracer_seat *seat) {
    dspec_tracer_reach_();
    seat->busy = true;
    __atomic_signal_fence(__ATOMIC_SEQ_CST);
}

static inline bool seat_enter(dspec_tracer_seat *seat) {
    if (!LIKELY(!seat_is_in(seat))) return false;
    seat_sits(seat);
    return true;
}

/* Into the tracer: DSPEC_OK, and where the thread's seat is. */
static inline dspec_status seat_take(body *tracer, dspec_tracer_seat **seat) {
    *seat = seat_at(tracer->slot);
    return LIKELY((*seat)->run == tracer->run) && seat_enter(*seat) ? DSPEC_OK : seat_take_slowly(tracer, *seat);
}

static inline void seat_leave(dspec_tracer_seat *seat) {
    __atomic_signal_fence(__ATOMIC_SEQ_CST);
    seat->busy = false;
}

/* Which lane is the thread's own now; NULL: none. */
static inline void seat_owns(dspec_tracer_seat *seat, dspec_tracer_lane *own) {
    seat->own = own;
    STORE(&seat->plain, own != NULL ? DSPEC_TRACER_NONE_ : seat->run);
}

static inline void lane_rests(const dspec_tracer_seat *seat, struct lane *lane) { dspec_tracer_rests_(&lane->front, seat->kept); }

/* After the last path that its thread began there: whether the thread keeps the lane for its next one. */
static inline bool lane_is_left(dspec_tracer_seat *seat, struct lane *lane) {
    if (!LIKELY(seat->kept != 0) && (lane->tracer->by_thread || !lane_keeps(seat, lane, AT_REST))) return false;
    seat_owns(seat, NULL);
    lane_rests(seat, lane);
    return true;
}

/* A path is over. own: whether its thread began it on its own lane. */
static inline void lane_path_off(dspec_tracer_seat *seat, struct lane *lane, bool own) {
    uint32_t users = 1;
    if (LIKELY(own) && LIKELY(--seat->open == 0)) {
        if (LIKELY(lane_is_left(seat, lane))) return;
        if (!lane->tracer->by_thread) {
            seat_owns(seat, NULL);
            users = 2;
        }
    }
    __atomic_fetch_sub(&lane->front.state, users * USER, __ATOMIC_SEQ_CST);
}

/* Makes the lane that a thread keeps its own again, as for a path: whether it is. A handler's record has that lane rest, so `plain` says first that there is no room for one. but: bits of its state that are no
 * matter. */
static inline bool lane_resumes(dspec_tracer_seat *seat, struct lane *lane, uint32_t but) {
    STORE(&seat->plain, DSPEC_TRACER_NONE_);
    __atomic_signal_fence(__ATOMIC_SEQ_CST);
    if (LIKELY(dspec_tracer_uses_(&lane->front, seat->kept, but))) {
        seat->own = &lane->front;
        return true;
    }
    STORE(&seat->plain, seat->run);
    return false;
}

/* Claims a lane for a path, where nobody is on it and none of its bits is set, and the thread doesn't hand its paths on: whether it has it. */
static inline bool lane_claim(struct lane *lane) {
    uint32_t state = 0;
    if (!LIKELY(dspec_here.hands_on == 0) || !LIKELY(state_becomes(lane, &state, 2 * USER))) return false;
    STORE(&lane->handed, 0);
    return true;
}

/* Makes the lane that a thread had last its own, for a path, where it keeps that or can claim it: whether it is. */
static inline bool lane_claim_last(dspec_tracer_seat *seat, struct lane *lane) {
    if (LIKELY(seat->kept != 0)) return lane_resumes(seat, lane, 0);
    if (!LIKELY(lane_claim(lane))) return false;
    seat->own = &lane->front;
    STORE(&seat->plain, DSPEC_TRACER_NONE_);
    return true;
}

static inline way lane_enter(dspec_tracer_seat *seat, struct lane *lane) {
    return LIKELY(&lane->front == seat->own) && dspec_tracer_enter_(&lane->front) ? ALONE : lane_enter_slowly(seat, lane);
}

static inline void lane_leave_locked(struct lane *lane) { state_clear(lane, HELD); }

static inline void lane_leave(struct lane *lane, way in) {
    if (in == BY_LOCK) lane_leave_locked(lane);
    else dspec_tracer_leave_(&lane->front);
}

#endif
