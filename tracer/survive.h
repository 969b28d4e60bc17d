/* survive.h: the file of a tracer whose memory outlives its process, which dspec_salvage reads: a head, the tracer with its lanes, and what the library takes for them. All of it is
 * at one address in both processes, since it has pointers into itself. */
#ifndef DSPEC_TRACER_SURVIVE_H
#define DSPEC_TRACER_SURVIVE_H

#include "body.h"

#pragma GCC visibility push(hidden)

/* The addresses that a file may have: so far apart, from the first on. */
#define SURVIVE_FIRST UINT64_C(0x510000000000)
#define SURVIVE_APART UINT64_C(0x1000000000)
enum { SURVIVE_PLACES = 64, SURVIVE_VERSION = 9, SURVIVE_LABELS = 65536 };
#define SURVIVE_MAGIC UINT64_C(0x3176697673706564)

/* An event of the trace: its name and its fields', and the widths and kinds of their words, of which a text has several. */
typedef struct saved_event {
    char name[256];
    char fields[DSPEC_MAX_FIELDS][256];
    uint8_t widths[DSPEC_MAX_FIELDS], kinds[DSPEC_MAX_FIELDS], count, words;
    uint16_t labels[DSPEC_MAX_FIELDS]; /* how many each field has */
} saved_event;

/* Which process it is: its number may be another's later, or in another container. */
typedef struct saved_process {
    uint64_t began; /* in the system's ticks since its start; 0: not known */
    char boot[40];  /* which start of the system it is */
} saved_process;

/* Of which clock the stamps are. */
typedef struct saved_clock {
    uint64_t hertz, seconds, ticks;
} saved_clock;

/* The file's first bytes. What comes after the sum changes. */
typedef struct saved_head {
    uint64_t magic; /* set last: 0 while the file is being made */
    uint32_t version, head_size, body_size, lane_size;
    char build[64];
    uint64_t address, size, body_at, memory_at, park_bytes;
    uint32_t lanes, paths, bufsize, specsize, max_folders, events_count, pid;
    uint64_t device, inode; /* of this file: a copy has others */
    saved_process process;
    char host[256], program[256], folder[4096]; /* the folder's whole path */
    saved_event events[DSPEC_MAX_ENABLINGS];
    char labels[SURVIVE_LABELS]; /* those of all fields, a zero after each */
    uint64_t sum;
    uint64_t salvaged; /* not 0: dspec_salvage has read it, and what it wrote is on the disk */
    uint64_t clock;    /* which of these two holds, 0 or 1: the other may be half written */
    saved_clock clocks[2];
} saved_head;

uint64_t saved_sum(const saved_head *head);
/* The bytes of the tracer with its lanes; and after them, of parked paths that are on their way to the folder. */
uint64_t saved_body_size(uint32_t lanes);
uint64_t saved_taken_size(uint32_t bufsize, uint64_t park_bytes);

/* Makes the file of a tracer that is about to start, and the tracer in it; NULL: why says why not, and nothing is left. Where it isn't NULL, why has what the program should know, or nothing. */
body *survive_make(const char *folder, const dspec_tracer_options *options, const dspec_enabling *const *events, char *why, size_t size);
/* A tracer without a file, in memory of this process that is laid out as a file is: so a debugger finds it, and dspec_salvage reads a copy of it. NULL: there is no such memory, or why says
 * why the tracer can't be. */
body *survive_in_process(const char *folder, const dspec_tracer_options *options, const dspec_enabling *const *events, char *why, size_t size);
/* Tells whose trace it is, before its first record. */
void survive_tell(body *tracer, const struct whose *whose, const dspec_names *names);
/* Tells anew of which clock the stamps are. */
void survive_tell_clock(body *tracer, const dspec_identity *identity);
/* The start went well. Where older files have to go for that, why says so too. */
void survive_is_whole(body *tracer, char *why, size_t size);
/* The file goes; the memory stays until its end. Where the file stays, the report says so. */
void survive_over(body *tracer);
/* The process ends by a crash's signal: where nothing is in the memory that the folder hasn't, the file goes. A handler may call it. */
void survive_dies(body *tracer);
/* After that, or of a tracer that never came up: nothing is left, and a file that was put aside for it has its name again. */
void survive_free(body *tracer);
void survive_in_child(body *tracer);

/* ---- survive_file.c: the file's name, its lock, and those of earlier runs. ---- */

/* How many files of earlier runs stay. */
enum { SURVIVE_MOST_ASIDE = 8 };

/* Opens the folder that is to have the file, which is named there after the trace's. whole: the trace's whole path. 0 or the errno. */
int memory_file_place(memory_file *file, const char *folder, char whole[4096]);
/* Puts aside what an earlier run left: whether the name is free; else why says why not. */
bool memory_file_frees_name(memory_file *file, char *why, size_t size);
/* Makes the file, of so many bytes, which are on the disk before the first of them is used: a full disk is a refusal here and no fault later. 0 or the errno. */
int memory_file_make(memory_file *file, uint64_t size);
/* Has the older of the files go that were put aside, where there are too many: those first that were salvaged. How many that weren't. */
uint32_t memory_file_prunes(const memory_file *file);
/* Takes the file away: 0 or the errno. folder: the trace's whole path, for a program that has closed the descriptors. */
int memory_file_unlink(const memory_file *file, const char *folder);
/* What was put aside has its name again. */
void memory_file_puts_back(memory_file *file);
/* Closes both descriptors where they are still these files'. */
void memory_file_close(memory_file *file);
bool memory_file_is_ours(int file, uint64_t device, uint64_t inode);
/* Locks an open file: whether no process has it. It is the process's lock, which no child has and no mapping keeps. */
bool memory_file_lock(int file);
/* Whether the process that a head names still has this file, whatever became of its lock. */
bool memory_file_is_alive(const saved_head *head, uint64_t device, uint64_t inode);
saved_process memory_file_process(uint32_t pid);
/* Whether a tracer of this process has the file of this name. */
bool memory_file_is_this_process(const char *path);

/* ---- A write beyond RLIMIT_FSIZE is an error meanwhile, and doesn't end the process. ---- */

typedef struct held_limit {
    sigset_t before;
    bool is_pending;
} held_limit;
held_limit limit_hold(void);
void limit_release(const held_limit *held);

/* How many records the folder has got. */
uint64_t survive_brought(const dspec_folder *folder);

#pragma GCC visibility pop
#endif
