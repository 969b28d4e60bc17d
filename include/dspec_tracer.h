/* dspec_tracer.h: a tracer for programs in C11 and C++17 on Linux. It gives lanes to any number of threads, writes the trace into a folder from a thread of
 * its own, and saves the paths of a thread that crashes. C++ has dspec_tracer.hpp over it. The calls that it makes of dspec.h are proved. What this header
 * says beside them was tested, and isn't proved.
 *
 *     DSPEC_PROBE(query, uint64_t, request, uint32_t, micros);      as in dspec_probe.h, also in a header: one probe for all files of a program
 *
 *     dspec_tracer_start(&tracer, "folder", NULL, DSPEC_PROBES(query))
 *     dspec_path path = dspec_path_begin(&tracer);                  on any thread
 *     query_in(&path, request, micros);
 *     failed ? dspec_path_keep(&path) : dspec_path_drop(&path);
 *     query_now(&tracer, request, micros);                          a record that is always kept
 *     dspec_tracer_stop(&tracer, &report)
 *
 * THREADS. There may be any number, and none says that it begins or ends. A lane is a session of one CPU. A path takes a free lane. Where none is free it shares
 * one, by that lane's lock. A path is in one call at a time, and may go to another thread between two calls. If the thread of a path ends before another has
 * recorded to it, the path is thrown away. A thread that records waits only for another that is in a call on the same lane, for a second at most. With
 * keep_ms a thread that keeps a path waits for room too.
 *
 * CRASHES. These are SIGSEGV, SIGBUS, SIGFPE, SIGILL and SIGABRT of a thread of this process. Its open paths are kept and written. An event `dspec_crash` tells
 * of it, and one `dspec_crash_at` for its program counter and for each of up to four callers. Then the signal does what it would have done, with the flags, the mask
 * and the stack of the program's handler. Our handler makes no call of the library. The consumer's thread makes them, and the handler waits for it, for crash_ms at
 * most. A stack that overflows is seen too: each thread gets a stack for handlers with its first record. A thread that crashes in the middle of a call loses the
 * open paths of that lane.
 * If another process sends one of these signals, all open paths are kept, with an event `dspec_signal`. SIGTERM, SIGINT and SIGHUP that nobody handles, and exit,
 * stop the tracer, and then the signal ends the process. SIGKILL, _exit and quick_exit lose what wasn't written yet: what the last period_ms brought, and all
 * open paths. A handler that the program installs later has to call the one that it found. A signal that is blocked or ignored brings no handler, so nothing is saved.
 * A signal's handler may record, but it may not end the path to which its thread is recording. If it comes in the middle of a record of the same thread, or of
 * another call on a path, its own record may be refused, which is counted.
 *
 * THE TRACE. The first field of each record is the number of its path, `dspec_path`; it is 0 outside paths. `dspec_kept` ends each path. It tells the thread that
 * began it, the thread that decided it (0: the tracer), how many of its records are missing (`cut`), why it is kept, the stamp of its first record, and its key.
 * `dspec_crash` tells signal, code, thread, address, program counter, how many paths were kept, how many lanes couldn't be had, and the number of the path that
 * crashed. `dspec_crash_at` tells the file and the offset of the counter (frame 0) and of each caller. `dspec_thread` names a thread, as it was called at its
 * first record. `dspec_counts` and `dspec_refused` tell once a second what was kept, thrown away and refused since the last time. `dspec_signal` tells of a signal
 * from outside, `dspec_unsaved` of crashes that weren't saved.
 *
 * LONG PATHS. A path keeps its first records, those that fit into specsize bytes. With keep_last it keeps its last ones: at least specsize bytes less a record's,
 * and at most twice that. It then takes two speculations of its lane. So paths is 1 to 31, and 31 by default; specsize is 80 or more; and a lane has
 * 2 * paths + 1 times specsize bytes.
 *
 * A BOUND. With max_bytes the trace is in folders folder.0, folder.1, .. by age, each a trace of its own. Where all files would have more bytes than that, the
 * oldest folder goes (dspec_folder_limit).
 *
 * CLOCK. A stamp is nanoseconds of the system's monotonic clock. With DSPEC_CLOCK_TSC it is a reading of the processor's time stamp counter, which takes some 15
 * nanoseconds less. It is refused where the processor doesn't say that the counter is invariant, or where the system doesn't keep its own time by it. Nothing is
 * converted: the trace says how often the counter ticks and where it began. That is measured from the start on, and told anew each time that the tracer has run
 * an eighth longer, and at the end. So tools show the time of day within a microsecond of the monotonic clock, unless NTP slews that clock at another rate than
 * before, or the machine sleeps. After a kill the last measurement counts. What the program asks and sets stays in nanoseconds.
 *
 * FORK. The child's tracer is down, and leaves the folder alone. The child may start another. A child by _Fork, vfork or clone(2) may call dspec_tracer_start and
 * nothing else.
 *
 * CANCELLATION. No call here is a cancellation point. A thread that may be cancelled at any place (PTHREAD_CANCEL_ASYNCHRONOUS) makes none of these calls.
 *
 * ACROSS PROCESSES. A request may fail in one process when others that it went through have answered already. With park_bytes a path that has a key (dspec_path_key) is
 * parked at its end (dspec_path_park): its records are in a ring of its lane, and no slot is taken. A key that turns out to matter is told by dspec_tracer_keep_key, and
 * all paths of that key are kept, with DSPEC_WHY_KEY. on_keep tells the program of each key whose path was kept here for another reason, once while it is remembered, and
 * after the path is written. Where the disk is full, or a thread stays in a call on the path's lane, some 4,000 keys wait for that. Then they are told before their paths
 * are written, as they are in a crash and at a stop, which don't wait. A crash calls on_keep before the process ends, so that call is to take less than crash_ms. With
 * max_bytes what other threads keep meanwhile is written after the crash, and its keys are told then. The program tells the other processes. A path stays parked for
 * park_ms, and up to an eighth of that and a period longer, unless newer paths need its room. Where an idle tracer has paths that are too old, they go before the next
 * key is looked for. What is parked when a process ends is thrown away, and a crash keeps none of it.
 *
 * KILL -9. With survive all that the tracer has is in a file that outlives the process, FOLDER-memory, of mode 0600. dspec_salvage reads it. A stop takes the file
 * away; where it can't, the report's why says so. A crash takes it away if the folder has all that is in it. A start may find such a file of a run that didn't
 * stop. It puts that aside as FOLDER-memory-1 .., of which eight stay, and tracer->why says so though the start went well. On a full disk what was kept stays in
 * that memory until there is room, and dspec_tracer_flush answers false. A parked path whose key is told then stays parked, and is kept once there is room. Its key is
 * remembered meanwhile. Where it expires or is evicted before, it is missed.
 */
#ifndef DSPEC_TRACER_H
#define DSPEC_TRACER_H

#include "dspec.h"
#include "dspec_names.h"

#ifndef __cplusplus
#include "dspec_probe.h"
#endif

#ifdef __cplusplus
extern "C" {
#endif

/* The most lanes of a tracer, and the most tracers that are up in a process at a time. */
#define DSPEC_MAX_LANES 63u
#define DSPEC_MAX_TRACERS 8u

/* The clock of the stamps of a tracer's records. */
#define DSPEC_CLOCK_MONOTONIC 0u /* the system's monotonic one, in nanoseconds */
#define DSPEC_CLOCK_TSC 1u       /* the processor's time stamp counter (CLOCK) */
#define DSPEC_CLOCK_AUTO 2u      /* that counter where it can be had, else the monotonic one */

/* Tells the program of a key whose path was kept here, by the consumer's thread. */
typedef void dspec_on_keep(void *context, uint64_t high, uint64_t low);

/* A field that is 0 takes its default. */
typedef struct dspec_tracer_options {
    uint32_t lanes;      /* 16; 1 to DSPEC_MAX_LANES */
    uint32_t paths;      /* 32: how many paths are open on a lane at a time; 1 to 63, with keep_last 1 to 31 */
    uint32_t bufsize;    /* 65536: bytes of a principal buffer; each lane has two */
    uint32_t specsize;   /* 4096: bytes of a path; 56 or more, at most bufsize; each lane has `paths` times as many */
    uint32_t period_ms;  /* 10: how long the consumer sleeps between two rounds; where all lanes are empty it sleeps until one has a record, and a full buffer is written at once */
    uint32_t crash_ms;   /* 500: how long a crash waits until its paths are written */
    bool by_thread;      /* a lane belongs to a thread until that ends; else to a path until that is decided */
    bool no_crash;       /* SIGSEGV and the other crashes are left alone, and there is no event `dspec_crash` */
    bool no_term;        /* SIGTERM, SIGINT and SIGHUP are left alone */
    bool keep_all;       /* a crash keeps the open paths of all threads */
    bool keep_open;      /* stop, exit and SIGTERM keep what is undecided; else it is thrown away */
    bool no_membarrier;  /* each call takes its lane by an exchange, as on a system without membarrier(2): some nanoseconds more */
    bool keep_last;      /* a path that has more records than fit keeps its last ones (LONG PATHS); else its first */
    bool survive;        /* the tracer's memory is a file beside the folder (KILL -9) */
    uint64_t max_bytes;  /* a bound for the bytes of all files of the trace, which is in several folders then (A BOUND); 0: none */
    uint32_t max_folders; /* 4, where max_bytes is set; 2 to 64 */
    uint32_t keep_ms;    /* 0: how long a keep waits for the consumer to make room, before the path's records are lost */
    const dspec_labels *whys; /* names of the program's own reasons, DSPEC_WHY_OWN and up (dspec_path_keep_why); NULL: it has none */
    uint64_t slow_ns;    /* dspec_path_end keeps a path that took this many nanoseconds or more; 0: none */
    uint32_t sample;     /* and one of this many others, by its number; 0: none */
    uint64_t clock;      /* DSPEC_CLOCK_MONOTONIC; of 8 bytes, so that it isn't where an older version had padding */
    uint64_t park_bytes; /* 0: no path is parked; bytes of each lane's ring of parked paths (ACROSS PROCESSES), specsize or more; not with keep_last */
    uint32_t park_ms;    /* 10000, where park_bytes is set: how long a path stays parked */
    uint32_t remember_ms; /* park_ms: how long a kept key is remembered */
    dspec_on_keep *on_keep; /* NULL: the program isn't told */
    void *on_keep_context;
} dspec_tracer_options;

/* The counts of all lanes. */
typedef struct dspec_tracer_report {
    uint64_t accepted, dropped, specdropped, lost, discarded, void_, refused; /* records, as in dspec_report */
    uint64_t kept, thrown;      /* paths that were decided that way */
    uint64_t undecided;         /* paths that the stop decided */
    uint64_t crash_paths;       /* paths that crashes kept */
    uint64_t no_slot;           /* paths for which no lane had a slot; their records are in no count above */
    uint64_t nested;            /* calls of a signal's handler in the middle of the tracer's code, which were refused */
    uint64_t refused_records;   /* records of those paths, and of threads that came after 4,294,967,294 others */
    uint64_t missing;           /* records of probes that aren't among the tracer's events; `why` names the first */
    uint64_t own;               /* records of the tracer's own events; only not_written and gone_records count them too */
    uint64_t late;              /* calls after the stop, which were refused */
    uint64_t waited;            /* calls that gave up waiting for a lane */
    uint64_t threads;           /* threads that recorded */
    uint64_t stuck_lanes;       /* lanes whose thread was in a call for longer than the stop waited, or crashed in one: what they had isn't written */
    uint64_t not_written;       /* records that the folder misses */
    uint64_t cut;               /* paths that were kept without some of their records: with keep_last the first ones, else the last ones */
    uint64_t cut_records;       /* with keep_last the records that were thrown away for later ones; the trace tells them as missed, and `discarded` has them too */
    uint64_t gone_folders;      /* folders that went, by max_bytes or on a full disk */
    uint64_t gone_records;      /* and the records in them, which had been written */
    int code;                   /* the errno of the first loss, or 0 */
    char why[128];              /* the first loss in words, or empty */
    uint64_t parked;            /* paths that were parked; each is in one of the next four */
    uint64_t park_kept;         /* those of a key that was kept; `kept` has them too */
    uint64_t park_evicted;      /* those that made room for newer ones; `thrown` has them too */
    uint64_t park_expired;      /* those whose time was over; likewise */
    uint64_t park_left;         /* those that are parked still, and at the stop are thrown away */
    uint64_t park_least_ms;     /* so long was each path parked at the least that made room; 2^64 - 1: none did */
    uint64_t key_missed;        /* paths that had been parked and were gone when the consumer came to their key; a ring remembers twice as many as it has places */
    uint64_t keys_refused;      /* keys that found 4,096 others waiting, or 32,768 remembered: nothing is kept by them */
} dspec_tracer_report;

/* All zeros until it is started. It stays at its place, and outlives each thread that records, as a static one does. The program doesn't write to it. */
typedef struct dspec_tracer {
    struct dspec_tracer_body *body;
    size_t seat;   /* where a thread has what it needs for this tracer (dspec/tracer_record.h) */
    uint32_t run;  /* a number that no other tracer of the process has or had; 0: not started, or switched off */
    uint32_t up;   /* 1: it was started, and is neither stopped nor switched off */
    char why[256]; /* why the last start answered false */
} dspec_tracer;

/* A path. It takes nothing before its first record, so one without records costs nothing. The program doesn't write to the fields. */
typedef struct dspec_path {
    dspec_tracer *tracer;
    struct dspec_tracer_lane *lane; /* NULL until the first record */
    uint64_t id;                    /* its speculation */
    uint32_t token;                 /* of the thread whose lane it is, if that thread recorded last; else 0 */
    uint16_t place;                 /* among the open paths of its lane */
    bool own;                       /* it began on its thread's own lane */
    uint8_t over;                   /* 1: decided, or refused; 2: it began while the tracer wasn't up, or was switched off */
    uint64_t mark;                  /* its number, which each of its records has, in the upper half; 0 until the first one */
    uint64_t begun;                 /* the stamp of its first record, of its tracer's clock */
} dspec_path;

/* An event of a program. claims: what its records claim in each tracer (dspec_put). */
typedef struct dspec_event {
    uint64_t claims[DSPEC_MAX_TRACERS]; /* 0: it isn't among the tracer's; 1: it is switched off */
    const char *name;
    uint32_t look;                      /* DSPEC_LOOK_..: 0 where each tracer that has it records it */
} dspec_event;
#define DSPEC_LOOK_OFF 1u    /* each tracer that has it has switched it off */
#define DSPEC_LOOK_CLOSER 2u /* one of several has */
#define DSPEC_LOOK_NONE 3u   /* no tracer has it */

/* What a tracer has to know of an event: its name, and the names, widths in bytes and kinds of its n fields (dspec_names.h). A text is one field here, of 8 to 48 bytes. */
typedef struct dspec_enabling {
    dspec_event *event;
    const char *name;
    const char *const *fields;
    const uint8_t *widths;
    const uint8_t *kinds;
    size_t n;
    const dspec_labels *const *labels; /* of each field; NULL: none has any (dspec_labels.h) */
    const char *file;                  /* where it is declared, or NULL */
} dspec_enabling;

/* Why a path is kept. */
#define DSPEC_WHY_KEPT 0u      /* dspec_path_keep doesn't say */
#define DSPEC_WHY_FAILED 1u
#define DSPEC_WHY_SLOW 2u
#define DSPEC_WHY_ASKED 3u
#define DSPEC_WHY_SAMPLED 4u
#define DSPEC_WHY_CRASH 5u     /* the tracer: its thread crashed, or with keep_all another */
#define DSPEC_WHY_UNDECIDED 6u /* the tracer: it was open at the stop, with keep_open */
#define DSPEC_WHY_SIGNAL 7u    /* the tracer: another process sent a signal of those of crashes */
#define DSPEC_WHY_KEY 8u       /* the tracer: the path's key was kept (ACROSS PROCESSES) */
#define DSPEC_WHY_OWN 9u       /* the program's, by options.whys */

/* Starts a tracer that writes into a folder. The folder is made where it isn't there, and may have no trace yet. options may be NULL. events ends with NULL and has
 * at most 56 beside the tracer's own. An event or a field whose name is a word of the trace's metadata (dspec_names.h) gets an underscore in front. The call takes
 * memory and makes a thread. It answers whether the tracer is up. If not, tracer->why says why, and everything is as before, but for a folder that was made. */
DSPEC_INLINE bool dspec_tracer_start(dspec_tracer *tracer, const char *folder, const dspec_tracer_options *options, const dspec_enabling *const *events) DSPEC_NOEXCEPT;

/* The same, beside all probes that a program declares, from declared up to end. Two probes of one name with other fields are refused. Probes that aren't among the
 * events are named in tracer->why though the start went well. In C dspec_tracer_start does that for the program, or the shared object, that calls it. */
DSPEC_INLINE bool dspec_tracer_start_among(dspec_tracer *tracer, const char *folder, const dspec_tracer_options *options, const dspec_enabling *const *events,
                                           const dspec_enabling *const *declared, const dspec_enabling *const *end) DSPEC_NOEXCEPT;

/* Starts a tracer by the variable DSPEC_TRACE, as in DSPEC_TRACE=/tmp/trace,slow=5ms,sample=1000,max=64M,off=lookup: its folder, then words that change the
 * options (docs/REFERENCE.md has all). Nothing is started where the variable isn't set, or where the program has more rights than its user, by setuid for
 * example. It answers whether the tracer is up. If not, tracer->why says why. */
DSPEC_INLINE bool dspec_tracer_start_env(dspec_tracer *tracer, const dspec_tracer_options *options, const dspec_enabling *const *events) DSPEC_NOEXCEPT;
DSPEC_INLINE bool dspec_tracer_start_env_among(dspec_tracer *tracer, const dspec_tracer_options *options, const dspec_enabling *const *events, const dspec_enabling *const *declared,
                                               const dspec_enabling *const *end) DSPEC_NOEXCEPT;

/* Has a tracer take the records of a plugin's probes: DSPEC_PROBES(..) in the plugin. A tracer's events are those of its start, so it has to have each of them
 * since then, by this name and these fields. It answers whether the tracer takes all. If not, tracer->why names the one that it doesn't take, and none is
 * taken. Before the plugin is unloaded, dspec_tracer_remove forgets them. */
bool dspec_tracer_add(dspec_tracer *tracer, const dspec_enabling *const *events) DSPEC_NOEXCEPT;
void dspec_tracer_remove(dspec_tracer *tracer, const dspec_enabling *const *events) DSPEC_NOEXCEPT;

/* The counts until now, while the tracer runs. Those of records are from each lane's last service. */
DSPEC_INLINE bool dspec_tracer_counts(dspec_tracer *tracer, dspec_tracer_report *report) DSPEC_NOEXCEPT;

/* Switches a tracer off or on again. Off: paths that begin from now on have no records, and there is none outside a path. Paths that are open go on. */
void dspec_tracer_switch(dspec_tracer *tracer, bool on) DSPEC_NOEXCEPT;

/* The same for one event. Its records answer DSPEC_VOID while it is off. For a probe there is query_switch(&tracer, on). */
void dspec_tracer_switch_event(dspec_tracer *tracer, dspec_event *event, bool on) DSPEC_NOEXCEPT;

/* Stops a tracer while its threads may go on, writes all, and tells the counts; report may be NULL. A second call tells the same. A tracer is started once. It
 * starts again only after dspec_tracer_drop.
 * The call waits for the disk. It answers whether all that was accepted was written, and each lane came home. It answers false for a tracer that another process
 * has, or that was never started. */
DSPEC_INLINE bool dspec_tracer_stop(dspec_tracer *tracer, dspec_tracer_report *report) DSPEC_NOEXCEPT;

/* Stops a tracer, and gives back its memory, which stays after a stop so that late calls find it down. No thread may make a call with it any more, nor with a path of it. */
void dspec_tracer_drop(dspec_tracer *tracer) DSPEC_NOEXCEPT;

/* Has what was kept until now written into the folder, and waits for that, timeout_ms at most. It answers whether all of it is there. It answers false where a
 * thread stayed in a call for that long. It answers false from then on where something that was kept couldn't be written (not_written): a full disk, a limit,
 * descriptors that the program closed. */
bool dspec_tracer_flush(dspec_tracer *tracer, uint32_t timeout_ms) DSPEC_NOEXCEPT;

/* Options and reports grow from version to version. These calls take the size that they have in the program, by its header. The fields that smaller options don't
 * have are 0, and those that this library doesn't know have to be 0. A smaller report gets the beginning. size is at least that of version 0.1. The calls above are
 * inline and make these. */
bool dspec_tracer_start_sized(dspec_tracer *tracer, const char *folder, const dspec_tracer_options *options, size_t size, const dspec_enabling *const *events,
                              const dspec_enabling *const *declared, const dspec_enabling *const *end) DSPEC_NOEXCEPT;
bool dspec_tracer_start_env_sized(dspec_tracer *tracer, const dspec_tracer_options *options, size_t size, const dspec_enabling *const *events, const dspec_enabling *const *declared,
                                  const dspec_enabling *const *end) DSPEC_NOEXCEPT;
bool dspec_tracer_counts_sized(dspec_tracer *tracer, dspec_tracer_report *report, size_t size) DSPEC_NOEXCEPT;
bool dspec_tracer_stop_sized(dspec_tracer *tracer, dspec_tracer_report *report, size_t size) DSPEC_NOEXCEPT;

DSPEC_INLINE bool dspec_tracer_start_among(dspec_tracer *tracer, const char *folder, const dspec_tracer_options *options, const dspec_enabling *const *events,
                                           const dspec_enabling *const *declared, const dspec_enabling *const *end) DSPEC_NOEXCEPT {
    return dspec_tracer_start_sized(tracer, folder, options, sizeof *options, events, declared, end);
}
DSPEC_INLINE bool dspec_tracer_start(dspec_tracer *tracer, const char *folder, const dspec_tracer_options *options, const dspec_enabling *const *events) DSPEC_NOEXCEPT {
    return dspec_tracer_start_sized(tracer, folder, options, sizeof *options, events, NULL, NULL);
}
DSPEC_INLINE bool dspec_tracer_start_env_among(dspec_tracer *tracer, const dspec_tracer_options *options, const dspec_enabling *const *events, const dspec_enabling *const *declared,
                                               const dspec_enabling *const *end) DSPEC_NOEXCEPT {
    return dspec_tracer_start_env_sized(tracer, options, sizeof *options, events, declared, end);
}
DSPEC_INLINE bool dspec_tracer_start_env(dspec_tracer *tracer, const dspec_tracer_options *options, const dspec_enabling *const *events) DSPEC_NOEXCEPT {
    return dspec_tracer_start_env_sized(tracer, options, sizeof *options, events, NULL, NULL);
}
DSPEC_INLINE bool dspec_tracer_counts(dspec_tracer *tracer, dspec_tracer_report *report) DSPEC_NOEXCEPT { return dspec_tracer_counts_sized(tracer, report, sizeof *report); }
DSPEC_INLINE bool dspec_tracer_stop(dspec_tracer *tracer, dspec_tracer_report *report) DSPEC_NOEXCEPT { return dspec_tracer_stop_sized(tracer, report, sizeof *report); }

/* Whether the tracer was started, and is neither stopped nor switched off. */
DSPEC_INLINE bool dspec_tracer_is_up(const dspec_tracer *tracer) DSPEC_NOEXCEPT { return __atomic_load_n(&tracer->up, __ATOMIC_RELAXED) != 0; }

/* Begins a path. One that begins while the tracer isn't up has no records. A dspec_path of zeros never began: it may be ended, and a record of it is refused. End a
 * path that is open before you put another in its place. */
DSPEC_INLINE dspec_path dspec_path_begin(dspec_tracer *tracer) DSPEC_NOEXCEPT {
    dspec_path path = { tracer, NULL, 0, 0, 0, false, 0, 0, 0 };
    path.over = DSPEC_AS(uint8_t, (__atomic_load_n(&tracer->run, __ATOMIC_RELAXED) == 0) << 1);
    return path;
}

/* Ends a path. Keep answers whether its records are on their way to the folder. It answers false where there was no slot, where there was no room, within keep_ms or
 * at all, and after a stop. why is one of DSPEC_WHY_..; keep alone says DSPEC_WHY_KEPT. Drop answers whether none of its
 * records comes out: it keeps a path whose key is kept. */
bool dspec_path_keep(dspec_path *path) DSPEC_NOEXCEPT;
bool dspec_path_keep_why(dspec_path *path, uint32_t why) DSPEC_NOEXCEPT;
bool dspec_path_drop(dspec_path *path) DSPEC_NOEXCEPT;

/* Ends a path here, where it isn't decided. It is kept when its key is, within park_ms; else it is thrown away. Without a key, or without park_bytes, this is a drop. It
 * answers whether the path is parked, or kept already. */
bool dspec_path_park(dspec_path *path) DSPEC_NOEXCEPT;

/* Keeps all paths of a key: those that are parked, those that are open, at their end, and those that get the key within remember_ms. Any thread may call it, and a signal's handler. The
 * consumer's thread does it. It answers whether the key was taken. It answers false where the tracer is down or has no park_bytes, and where 4,096 keys wait (keys_refused). */
bool dspec_tracer_keep_key(dspec_tracer *tracer, uint64_t high, uint64_t low) DSPEC_NOEXCEPT;

/* Ends a path by the tracer's rule. It is kept if it failed, else if it took slow_ns or more (0: options.slow_ns), else if it is one of options.sample, and its reason
 * is the first of these that holds. It answers whether the path is kept. */
bool dspec_path_end(dspec_path *path, bool failed, uint64_t slow_ns) DSPEC_NOEXCEPT;

/* Whether a path has records and isn't decided; and how many nanoseconds ago its first record was, 0 where it has none. */
DSPEC_INLINE bool dspec_path_is_open(const dspec_path *path) DSPEC_NOEXCEPT { return path->lane != NULL && !path->over; }
uint64_t dspec_path_took(const dspec_path *path) DSPEC_NOEXCEPT;

/* Makes the path this thread's from now on, as its next record would. If this thread crashes, the path is kept; if the thread that had it ends, it stays. It answers
 * whether the path is open. */
bool dspec_path_adopt(dspec_path *path) DSPEC_NOEXCEPT;

/* Gives a path a key of sixteen bytes, which its event `dspec_kept` has, such as a trace id that another service sent. It answers whether the path is open. */
bool dspec_path_key(dspec_path *path, uint64_t high, uint64_t low) DSPEC_NOEXCEPT;

/* Records an event whose text is these n words (dspec_put), with the time as its stamp. They answer what dspec_put_in and dspec_put answer, and besides:
 * DSPEC_UNAVAILABLE where there is no slot or no lane, DSPEC_STOPPED where the tracer is down, DSPEC_BUSY in a signal's handler in the middle of another call,
 * DSPEC_VOID where the path is decided. query_in, query_now and dspec_tracer.hpp call dspec_path_record and dspec_tracer_record. These answer the same, and are
 * inline (dspec/tracer_record.h). */
dspec_status dspec_path_put(dspec_path *path, const dspec_event *event, const uint64_t *words, size_t n) DSPEC_NOEXCEPT;
dspec_status dspec_path_put_1(dspec_path *path, const dspec_event *event, uint64_t w0) DSPEC_NOEXCEPT;
dspec_status dspec_path_put_2(dspec_path *path, const dspec_event *event, uint64_t w0, uint64_t w1) DSPEC_NOEXCEPT;
dspec_status dspec_path_put_3(dspec_path *path, const dspec_event *event, uint64_t w0, uint64_t w1, uint64_t w2) DSPEC_NOEXCEPT;
dspec_status dspec_tracer_put(dspec_tracer *tracer, const dspec_event *event, const uint64_t *words, size_t n) DSPEC_NOEXCEPT;
dspec_status dspec_tracer_put_1(dspec_tracer *tracer, const dspec_event *event, uint64_t w0) DSPEC_NOEXCEPT;
dspec_status dspec_tracer_put_2(dspec_tracer *tracer, const dspec_event *event, uint64_t w0, uint64_t w1) DSPEC_NOEXCEPT;
dspec_status dspec_tracer_put_3(dspec_tracer *tracer, const dspec_event *event, uint64_t w0, uint64_t w1, uint64_t w2) DSPEC_NOEXCEPT;

/* What dspec_salvage found. */
typedef struct dspec_salvaged {
    uint64_t kept;        /* records that were kept, and that the run's own folder doesn't have */
    uint64_t paths;       /* paths that were open */
    uint64_t undecided;   /* the records of those paths */
    uint32_t lanes;       /* the lanes of the tracer, and its own */
    uint32_t in_call;     /* lanes whose thread was in a call, or which the consumer had: a record whose call hadn't answered may be missing */
    uint32_t unreadable;  /* lanes whose memory can't be that of a lane: what they had is missing */
    uint64_t lost;        /* records that the run itself couldn't write, and that are in no memory: nobody has them */
    uint64_t not_written; /* records that this call couldn't write: the file can be read once more, into another folder */
    uint64_t unsure;      /* those of `kept` that may be in the run's own folder too, since that wasn't found or couldn't be opened */
    char folder[4096];    /* the run's own folder, its whole path */
    char why[256];        /* why it answered false */
} dspec_salvaged;

/* Reads the file that a tracer with `survive` left when it was killed, and writes what the run's own folder doesn't have. The records that were kept go into
 * `folder`/kept, those of paths that were open into `folder`/undecided. There the name of each event begins with `undecided_`, and after each path is `dspec_kept`.
 * Both are traces. Nobody may use the file. It has to be this user's, and of the same build of the library (dspec_build). It is read once: it is marked when all of
 * it was read and what was written is on the disk. A copy of a file that is in use can be read. The call believes nothing of what a file says. Whatever its bytes
 * are, what doesn't fit is an error or a shorter trace. Each lane is read in a process of its own, which can write what it found and nothing else. The call answers
 * whether all lanes were read and written. If not, told->why says why. told may be NULL. */
bool dspec_salvage(const char *file, const char *folder, dspec_salvaged *told) DSPEC_NOEXCEPT;

/* Nanoseconds of the system's monotonic clock, whatever clock a tracer has. */
uint64_t dspec_tracer_now(void) DSPEC_NOEXCEPT;

#ifdef __cplusplus
} /* extern "C" */
#endif

#include "dspec/tracer_record.h"

#ifndef __cplusplus

#define DSPEC_PROBE_TEXT_(PROBE, TYPE, NAME) #NAME,
#define DSPEC_PROBE_KINDS_(PROBE, TYPE, NAME) DSPEC_KIND_OF(TYPE),
#define DSPEC_PROBE_ALL_LABELS_(PROBE, TYPE, NAME) &dspec_labels_of_##PROBE##_dspec_##NAME,

/* How many words a record's text takes: its fields are laid out as in a struct, after the EPID. */
#define DSPEC_PROBE_WORDS_(...) ((sizeof(struct { uint32_t dspec_epid_, dspec_path_; DSPEC_PROBE_EACH_(DSPEC_PROBE_FIELD_, dspec_, __VA_ARGS__) }) + 7) / 8)

/* The section of all probes of a program or of a shared object. A linker that throws away what nobody names keeps it. */
#if defined(__has_attribute)
#if __has_attribute(retain)
#define DSPEC_PROBE_DECLARED_ __attribute__((section("dspec_probes"), used, retain))
#endif
#endif
#ifndef DSPEC_PROBE_DECLARED_
#define DSPEC_PROBE_DECLARED_ __attribute__((section("dspec_probes"), used))
#endif

#define DSPEC_PROBE_PASSED_(PROBE, TYPE, NAME) , NAME

/* With DSPEC_SDT each record is a static probe of systemtap's sys/sdt.h too, dspec:query, which perf, bpftrace and gdb know. A text is passed by its address. */
#ifdef DSPEC_SDT
#define SDT_USE_VARIADIC 1
#include <sys/sdt.h>
#define DSPEC_PROBE_SDT_VALUE_(PROBE, TYPE, NAME) , DSPEC_IF_TEXT_(TYPE, (uintptr_t)&NAME, NAME)
#define DSPEC_PROBE_SDT_CALL_(...) STAP_PROBEV(__VA_ARGS__);
#define DSPEC_PROBE_SDT_(PROBE, ...) DSPEC_PROBE_SDT_CALL_(dspec, PROBE DSPEC_PROBE_EACH_(DSPEC_PROBE_SDT_VALUE_, PROBE, __VA_ARGS__))
#else
#define DSPEC_PROBE_SDT_(PROBE, ...)
#endif
#define DSPEC_PROBE_SLOW_ __attribute__((noinline, cold, unused)) static
/* A record's words. The number of its path goes into the second four bytes, its fields follow from the eighth byte on. */
#define DSPEC_PROBE_PACKS_(PROBE, ...)                                       \
    uint64_t dspec_words_[DSPEC_PROBE_WORDS_(__VA_ARGS__)] = { 0 };          \
    size_t dspec_end_ = 8;                                                   \
    DSPEC_PROBE_EACH_(DSPEC_PROBE_PACK_, PROBE, __VA_ARGS__)

/* What DSPEC_PROBE declares besides, where this header is included before it: the event, which is one for all files, and the functions of a tracer. */
#undef DSPEC_PROBE_MORE_
#define DSPEC_PROBE_MORE_(PROBE, ...)                                                                                                                                      \
    static_assert((0 DSPEC_PROBE_EACH_(DSPEC_PROBE_COUNT_, PROBE, __VA_ARGS__)) < DSPEC_MAX_FIELDS,                                                                        \
                  "beside dspec_tracer.h a probe has seven values, since the eighth is the number of the path; a text is one for each eight bytes: move a field to a second probe"); \
    __attribute__((weak)) dspec_event dspec_event_of_##PROBE = { { 0 }, #PROBE, DSPEC_LOOK_NONE };                                                                         \
    static const char *const dspec_fields_of_##PROBE[] = { DSPEC_PROBE_EACH_(DSPEC_PROBE_TEXT_, PROBE, __VA_ARGS__) };                                                     \
    static const uint8_t dspec_widths_of_##PROBE[] = { DSPEC_PROBE_EACH_(DSPEC_PROBE_WIDTH_, PROBE, __VA_ARGS__) };                                                        \
    static const uint8_t dspec_kinds_of_##PROBE[] = { DSPEC_PROBE_EACH_(DSPEC_PROBE_KINDS_, PROBE, __VA_ARGS__) };                                                         \
    static const dspec_labels *const dspec_labels_of_##PROBE[] = { DSPEC_PROBE_EACH_(DSPEC_PROBE_ALL_LABELS_, PROBE, __VA_ARGS__) };                                       \
    __attribute__((unused)) static const dspec_enabling dspec_enabling_of_##PROBE = {                                                                                      \
        &dspec_event_of_##PROBE, #PROBE, dspec_fields_of_##PROBE, dspec_widths_of_##PROBE, dspec_kinds_of_##PROBE, sizeof dspec_widths_of_##PROBE, dspec_labels_of_##PROBE, \
        __FILE__                                                                                                                                                           \
    };                                                                                                                                                                     \
    DSPEC_PROBE_DECLARED_ static const dspec_enabling *const dspec_declared_##PROBE = &dspec_enabling_of_##PROBE;                                                                             \
    DSPEC_PROBE_CALL_ void PROBE##_switch(dspec_tracer *dspec_tracer_, bool dspec_on_) { dspec_tracer_switch_event(dspec_tracer_, &dspec_event_of_##PROBE, dspec_on_); }                      \
    DSPEC_PROBE_SLOW_ dspec_status PROBE##_in_slowly_(dspec_path *dspec_path_ DSPEC_PROBE_EACH_(DSPEC_PROBE_ARGUMENT_, PROBE, __VA_ARGS__)) {                                                 \
        DSPEC_PROBE_PACKS_(PROBE, __VA_ARGS__)                                                                                                                                                \
        return dspec_path_record_slowly_(dspec_path_, &dspec_event_of_##PROBE, dspec_words_, (dspec_end_ + 7) / 8);                                                                                      \
    }                                                                                                                                                                                         \
    DSPEC_PROBE_CALL_ dspec_status PROBE##_in(dspec_path *dspec_path_ DSPEC_PROBE_EACH_(DSPEC_PROBE_ARGUMENT_, PROBE, __VA_ARGS__)) {                                                         \
        DSPEC_PROBE_SDT_(PROBE, __VA_ARGS__)                                                                                                                                                  \
        if (!DSPEC_TRACER_LIKELY_(dspec_event_goes_(&dspec_event_of_##PROBE)))                                                                                                                          \
            return __atomic_load_n(&dspec_event_of_##PROBE.look, __ATOMIC_RELAXED) == DSPEC_LOOK_OFF ? DSPEC_VOID : PROBE##_in_slowly_(dspec_path_ DSPEC_PROBE_EACH_(DSPEC_PROBE_PASSED_, PROBE, __VA_ARGS__));                   \
        if (!DSPEC_TRACER_LIKELY_(dspec_path_is_here_(dspec_path_)))                                                                                                                          \
            return dspec_path_->over == 2 ? DSPEC_UNAVAILABLE : PROBE##_in_slowly_(dspec_path_ DSPEC_PROBE_EACH_(DSPEC_PROBE_PASSED_, PROBE, __VA_ARGS__));                                   \
        DSPEC_PROBE_PACKS_(PROBE, __VA_ARGS__)                                                                                                                                                \
        return dspec_path_record_(dspec_path_, &dspec_event_of_##PROBE, dspec_words_, (dspec_end_ + 7) / 8);                                                                                   \
    }                                                                                                                                                                                         \
    DSPEC_PROBE_SLOW_ dspec_status PROBE##_now_slowly_(dspec_tracer *dspec_tracer_ DSPEC_PROBE_EACH_(DSPEC_PROBE_ARGUMENT_, PROBE, __VA_ARGS__)) {                                            \
        DSPEC_PROBE_PACKS_(PROBE, __VA_ARGS__)                                                                                                                                                \
        return dspec_tracer_put_slowly_(dspec_tracer_, &dspec_event_of_##PROBE, dspec_words_, (dspec_end_ + 7) / 8);                                                                                  \
    }                                                                                                                                                                                         \
    DSPEC_PROBE_CALL_ dspec_status PROBE##_now(dspec_tracer *dspec_tracer_ DSPEC_PROBE_EACH_(DSPEC_PROBE_ARGUMENT_, PROBE, __VA_ARGS__)) {                                                    \
        DSPEC_PROBE_SDT_(PROBE, __VA_ARGS__)                                                                                                                                                  \
        if (!DSPEC_TRACER_LIKELY_(dspec_event_goes_(&dspec_event_of_##PROBE)))                                                                                                                          \
            return __atomic_load_n(&dspec_event_of_##PROBE.look, __ATOMIC_RELAXED) == DSPEC_LOOK_OFF ? DSPEC_VOID : PROBE##_now_slowly_(dspec_tracer_ DSPEC_PROBE_EACH_(DSPEC_PROBE_PASSED_, PROBE, __VA_ARGS__));                \
        if (!DSPEC_TRACER_LIKELY_(dspec_tracer_is_plain_(dspec_tracer_)))                                                                                                                     \
            return __atomic_load_n(&dspec_tracer_->run, __ATOMIC_RELAXED) != 0 ? PROBE##_now_slowly_(dspec_tracer_ DSPEC_PROBE_EACH_(DSPEC_PROBE_PASSED_, PROBE, __VA_ARGS__)) : DSPEC_UNAVAILABLE;                     \
        DSPEC_PROBE_PACKS_(PROBE, __VA_ARGS__)                                                                                                                                                \
        return dspec_tracer_record_(dspec_tracer_, &dspec_event_of_##PROBE, dspec_words_, (dspec_end_ + 7) / 8);                                                                               \
    }

/* All probes that the program, or the shared object, declares. */
extern const dspec_enabling *const __start_dspec_probes[] __attribute__((weak, visibility("hidden")));
extern const dspec_enabling *const __stop_dspec_probes[] __attribute__((weak, visibility("hidden")));
static inline bool dspec_tracer_start_here_(dspec_tracer *tracer, const char *folder, const dspec_tracer_options *options, const dspec_enabling *const *events) {
    return dspec_tracer_start_among(tracer, folder, options, events, __start_dspec_probes, __stop_dspec_probes);
}
#define dspec_tracer_start(TRACER, FOLDER, OPTIONS, EVENTS) dspec_tracer_start_here_(TRACER, FOLDER, OPTIONS, EVENTS)
static inline bool dspec_tracer_start_env_here_(dspec_tracer *tracer, const dspec_tracer_options *options, const dspec_enabling *const *events) {
    return dspec_tracer_start_env_among(tracer, options, events, __start_dspec_probes, __stop_dspec_probes);
}
#define dspec_tracer_start_env(TRACER, OPTIONS, EVENTS) dspec_tracer_start_env_here_(TRACER, OPTIONS, EVENTS)

/* The events of these probes, at most 56, for dspec_tracer_start: DSPEC_PROBES(query, reply). The preprocessor takes one at a time, up to the mark `()()()` after the last of them. */
#define DSPEC_PROBES(...) ((const dspec_enabling *const[]){ DSPEC_PROBES_ALL_(DSPEC_PROBES_ONE_(__VA_ARGS__, ()()(), ()()(), 0)) NULL })
/* A macro isn't expanded within itself, so two of them take turns. The text is read 121 times, once for each probe. */
#define DSPEC_PROBES_ALL_(...) DSPEC_PROBES_40_(DSPEC_PROBES_40_(DSPEC_PROBES_40_(__VA_ARGS__)))
#define DSPEC_PROBES_40_(...) DSPEC_PROBES_13_(DSPEC_PROBES_13_(DSPEC_PROBES_13_(__VA_ARGS__)))
#define DSPEC_PROBES_13_(...) DSPEC_PROBES_4_(DSPEC_PROBES_4_(DSPEC_PROBES_4_(__VA_ARGS__)))
#define DSPEC_PROBES_4_(...) DSPEC_PROBES_READ_(DSPEC_PROBES_READ_(DSPEC_PROBES_READ_(__VA_ARGS__)))
#define DSPEC_PROBES_READ_(...) __VA_ARGS__
#define DSPEC_PROBES_ONE_(P, NEXT, ...) &dspec_enabling_of_##P, DSPEC_PROBES_LATER_(DSPEC_PROBES_NEXT_(NEXT, DSPEC_PROBES_OTHER_))(NEXT, __VA_ARGS__)
#define DSPEC_PROBES_OTHER_(P, NEXT, ...) &dspec_enabling_of_##P, DSPEC_PROBES_LATER_(DSPEC_PROBES_NEXT_(NEXT, DSPEC_PROBES_ONE_))(NEXT, __VA_ARGS__)
#define DSPEC_PROBES_LATER_(MACRO) MACRO DSPEC_PROBES_NOTHING_()
#define DSPEC_PROBES_NOTHING_()
/* The macro for the next one; after the last one DSPEC_PROBES_END_, which leaves nothing. */
#define DSPEC_PROBES_NEXT_(NEXT, MACRO) DSPEC_PROBES_PICK_(DSPEC_PROBES_MARK_ NEXT, MACRO)
#define DSPEC_PROBES_PICK_(MARK, MACRO) DSPEC_PROBES_LATER_(DSPEC_PROBES_SECOND_)(MARK, MACRO, 0)
#define DSPEC_PROBES_SECOND_(FIRST, SECOND, ...) SECOND
#define DSPEC_PROBES_MARK_(...) DSPEC_PROBES_MARK_2_
#define DSPEC_PROBES_MARK_2_(...) DSPEC_PROBES_MARK_3_
#define DSPEC_PROBES_MARK_3_() 0, DSPEC_PROBES_END_
#define DSPEC_PROBES_END_(...)

#endif
#endif
