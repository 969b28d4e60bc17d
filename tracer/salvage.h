/* salvage.h: the parts of dspec_salvage: a memory's file as data (salvage_file.c), the records of one of its lanes (salvage_lane.c), parked paths on their way (salvage_taken.c), what the run's own folder has of them (salvage_written.c), the
 * folders that are written (salvage_folder.c), and the call (salvage.c). The file is data of whoever wrote it. The first two need a descriptor and nothing else, so that a fuzzer can call them. */
#ifndef DSPEC_TRACER_SALVAGE_H
#define DSPEC_TRACER_SALVAGE_H

#include "survive.h"

#pragma GCC visibility push(hidden)

/* ---- salvage_file.c ---- */

/* The most bytes of a principal buffer, and so of a batch. */
enum { SAVED_MOST_BYTES = 1048576 };

/* What a file says, copied out of it and checked; no pointer of the tracer's is followed. */
typedef struct saved_file {
    int at;
    uint64_t device, inode;
    saved_head *head;
    body *tracer;
    dspec_schema schema;
    dspec_layout layout;     /* of the events that the head tells */
    uint64_t latest;         /* the last stamp that a reader can place in time */
    dspec_folder scratch;    /* for a part of a batch (dspec_folder_part_of_) */
    const char *texts[SURVIVE_LABELS]; /* the labels that the head tells, */
    size_t counts[DSPEC_MAX_ENABLINGS * DSPEC_MAX_FIELDS];
    dspec_labels labels[DSPEC_MAX_ENABLINGS * DSPEC_MAX_FIELDS]; /* and those of each event's fields */
} saved_file;

/* Reads the file of a descriptor, which stays the caller's: NULL, or why it can't be read. */
const char *saved_file_read(saved_file *saved, int file);
void saved_file_drop(saved_file *file);
/* The events that the head tells, in a schema and its layout. */
dspec_status saved_file_enable(const saved_file *file, dspec_schema *schema, dspec_layout *layout);

/* ---- salvage_lane.c ---- */

/* Of a batch: the folder was getting it, it was kept, its path was open, or was parked. */
typedef enum found_kind { FOUND_BROUGHT = 1, FOUND_KEPT = 2, FOUND_OPEN = 3, FOUND_PARKED = 4 } found_kind;
typedef struct found_batch {
    found_kind kind;
    uint32_t place; /* of an open path */
    dspec_batch batch;
    uint64_t records;
    uint64_t key[2]; /* of a path that isn't decided */
    uint64_t path;   /* of a parked path the number */
    uint64_t before; /* of what the folder was getting: how many records that had before */
    uint32_t thread; /* in which it began; 0: it isn't known */
} found_batch;

/* Gets each batch of a lane; false: no more is wanted, and `to` knows why. */
typedef bool (*found_call)(void *to, found_batch *one);

/* Hands out what a lane has: NULL, or why not all of it could be read. */
const char *saved_lane_read(saved_file *file, uint32_t number, found_call get, void *to);
/* Whether a thread was in a call of the lane, or the consumer had it. */
bool saved_lane_is_in_call(const saved_file *file, uint32_t number);

/* ---- salvage_taken.c ---- */

/* Reads the parked paths that the consumer had taken out of a ring to keep them, as a batch of its lane. is_parked: the one that it was taking is in the ring still. NULL, or why they can't be
 * read; else the caller frees its bytes. */
const char *saved_taken_read(const saved_file *file, bool is_parked, found_batch *batch, uint8_t **bytes);

/* ---- salvage_written.c ---- */

/* How many records of the batch that the run's folder was getting of a lane it has. unsure: how many of the others may be there too, since the folder isn't found, or can't be opened: why is the
 * error of that. */
uint64_t written_records(const saved_file *saved, const char *file, const found_batch *batch, uint64_t *unsure, int *why);

/* ---- salvage_folder.c ---- */

/* What is told after the records of a path that isn't decided. */
typedef struct path_end {
    bool is_due; /* they were written, and perhaps not all of them */
    uint32_t lane, place, number, thread;
    bool is_parked;
    uint64_t begun, at, key[2];
} path_end;

/* A trace that is being written. */
typedef struct writing {
    dspec_folder folder;
    dspec_layout layout;
    dspec_schema schema;
    dspec_names names;
    char texts[DSPEC_MAX_ENABLINGS][280];
    uint32_t epid_of_path, epid_of_end;
    path_end end;
    uint64_t path_events, lost_events; /* the records that are no run's: those that were written, and that weren't */
    bool is_begun;
    const char *name; /* in the folder of both */
} writing;

/* Begins the trace of what was kept, or of the open paths: NULL, or why not. */
const char *writing_begin(writing *to, const saved_file *file, const char *folder, bool is_open);
/* Writes a batch without its first records. */
void writing_kept(writing *to, found_batch *batch, uint64_t without);
/* Writes the records of an open path, or of a parked one, after one that tells of it. After the last of them comes the event that ends it. */
bool writing_path(writing *to, const found_batch *batch);
/* Ends the trace, and has it on the disk with its folder: NULL, or why not. records, lost: how many were written, and how many weren't. */
const char *writing_end(writing *to, const char *folder, uint64_t *records, uint64_t *lost);

#pragma GCC visibility pop
#endif
