/* folder.h: what the files of a trace's folder call of each other, and the tracer of them: the calls (folder.c), batches (folder_batch.c), labels in the metadata (folder_labels.c), folders
 * and files (folder_files.c). They are an object of their own in the archive, so that a program which writes a folder without a tracer has no tracer in it. */
#ifndef DSPEC_TRACER_FOLDER_H
#define DSPEC_TRACER_FOLDER_H

#ifndef _GNU_SOURCE
#define _GNU_SOURCE
#endif

#include "dspec_ctf.h"

#pragma GCC visibility push(hidden)

/* Bytes that are kept for the last packets of a CPU, and how many these are at most. */
#define DSPEC_FOLDER_KEPT 4096
#define DSPEC_FOLDER_LAST 2u

static inline dspec_folder_part *dspec_folder_newest_(dspec_folder *folder) { return &folder->parts[(folder->oldest + folder->kept - 1) % DSPEC_FOLDER_MOST]; }

/* ---- folder.c ---- */

/* Lets go what a trace has that isn't begun, notes why, and answers false. */
bool dspec_folder_fails_(dspec_folder *folder, dspec_status status, int code, const dspec_names *names);

/* How many records a CPU missed that its batches don't tell, by its report: a batch tells each refused reservation, so a lost commit as one. */
uint64_t dspec_folder_untold_(const dspec_report *report);

/* ---- folder_batch.c ---- */

/* Moves past the next records of a batch, at most this many: how many there were. */
uint64_t dspec_folder_skips_(const dspec_layout *layout, const dspec_batch *batch, size_t *at, uint64_t most);

/* How many records a batch has. They are counted only where they are lost, since that takes as long as half of a write. */
uint64_t dspec_folder_counts_(const dspec_layout *layout, const dspec_batch *batch);

/* The next records of a batch that have at most this many bytes, or else one, as a batch of its own: how many. What isn't a record ends it, or is all of it. Its bytes are
 * NULL where there is no memory for them. */
uint64_t dspec_folder_part_of_(dspec_folder *folder, const dspec_layout *layout, const dspec_batch *batch, size_t *at, uint64_t most, dspec_batch *part);

/* ---- folder_files.c ---- */

/* Notes a loss, and answers false. */
bool dspec_folder_loses_(dspec_folder *folder, dspec_status status, int code, uint32_t cpu, size_t file, uint64_t records);

/* Has a new descriptor's number be none of stdin, stdout and stderr, to which a program may write that has closed them: the number, or -1 with errno. */
int dspec_folder_above_(int file);

/* A folder's descriptor, where the program has left it to us; else -1, and errno is EBADF. */
int dspec_folder_at_(const dspec_folder_part *part);

/* Closes a folder's descriptor. */
void dspec_folder_unlatches_(int *at, const dspec_folder_mark *mark);

/* Writes all these bytes, and answers 0 or the errno. */
int dspec_folder_write_(int file, const uint8_t *bytes, size_t len);

/* Has the system keep room after a file's end, for this many bytes and the last packet after them: 0, or the errno where there is none. Where the system
 * can't keep any, it is 0, and the write itself will tell. The file's size stays. */
int dspec_folder_keeps_(int file, uint64_t size, size_t len);

/* The name of a CPU's file. */
void dspec_folder_name_(char name[32], uint32_t cpu, size_t file);

/* The descriptor of a CPU's file that is open, where the program has left it to us; else -1, and errno is EBADF. */
int dspec_folder_file_(dspec_folder *folder, uint32_t cpu, size_t file);

/* Whether the disk has room for this many bytes more, whichever of the CPU's files they go to. Where the system can't tell, it is so, and the write itself will tell. */
bool dspec_folder_has_room_(dspec_folder *folder, uint32_t cpu, size_t len);

/* Makes room for this many bytes. */
bool dspec_folder_grows_(uint8_t **room, size_t *had, size_t size);

/* Writes the packet that is in the room, whole or not at all: 0 or the errno. */
int dspec_folder_appends_(dspec_folder *folder, uint32_t cpu, const dspec_packet *packet);

/* Closes all files. */
void dspec_folder_shuts_(dspec_folder *folder);

/* The identity of the trace in the folder of this number: each has a uuid of its own, which is put into the text too. */
dspec_identity dspec_folder_identity_(dspec_folder *folder, uint64_t number);

/* Removes the oldest folder: 0 or the errno, and then it stays. */
int dspec_folder_forgets_(dspec_folder *folder);

/* Where a disk is full, the oldest folder of a bound is removed, but not the last one: whether one was. */
bool dspec_folder_gives_room_(dspec_folder *folder, int code);

/* Takes away the newest folder, which was begun in vain. */
void dspec_folder_undoes_(dspec_folder *folder);

/* Begins the next folder, with its metadata and the first file of each CPU: whether that went well; else nothing of it is left. */
bool dspec_folder_enters_(dspec_folder *folder, dspec_status *status, int *code);

/* How many packets more the folder that is being written takes, so that the last ones of its CPUs have room: below a bound, or as many as there may be. */
uint64_t dspec_folder_left_(dspec_folder *folder);

/* Opens the folder that has those of a bound, and finds the number after those that are there, of other runs or planted: 0 or the errno. */
int dspec_folder_finds_(dspec_folder *folder);

#pragma GCC visibility pop
#endif
