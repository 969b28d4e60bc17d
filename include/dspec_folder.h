/* dspec_folder.h: writes the files of a trace, for dspec_ctf.h, which includes it. Nothing of it is proved. For C11 and C++17; the code is in the archive and in the shared object.
 *
 *     static dspec_folder folder;                                 all zeros, some 96 KB
 *     dspec_folder_limit(&folder, bytes, folders)                 where the trace has a bound
 *     dspec_folder_reserve(&folder, bufsize)                      where no memory may be taken later
 *     dspec_folder_begin(&folder, path, &schema, cpus, &identity, &names)
 *     dspec_folder_take(&folder, &layout, &batch)                 of each batch while the session runs
 *     dspec_folder_close(&folder, &layout, &closed)               after the session's end
 *
 * Each but the limit and the reservation answers whether all went well. Otherwise folder.last says in which file and why, and how many records weren't written; the
 * program goes on, the next batch is tried, and the trace tells what it misses. Files have whole packets of 1,024 bytes, of which none lies across a page. So a
 * process that is killed in a write leaves none torn, and what a failed write left is cut off. On Linux room for the last packet, which tells what
 * is missed, is kept after the end of each CPU's first file, so that a full disk doesn't take it.
 *
 * A BOUND. The trace is in folders path.0, path.1, .. then, in the order of their age, and there are never more of them than the bound says. Each is a trace of its own, with its own
 * uuid, which tools open alone or with the others. When the newest has its share of the bytes it is closed. The oldest is removed if there are as many as there may be, and the next is
 * begun. The sum of the sizes of their files is never above these bytes. Beside them the system keeps 4,096 bytes of each CPU for the newest, and what the folders themselves take. On a
 * full disk the oldest is removed too, but not the last one. What was removed is counted: folder.gone folders with folder.gone_records records. Folders of earlier runs stay, and the
 * numbers go on after theirs; a name that is taken is skipped.
 */
#ifndef DSPEC_FOLDER_H
#define DSPEC_FOLDER_H

#include "dspec_ctf.h"

#include <sys/types.h>

#ifdef __cplusplus
extern "C" {
#endif

/* The bytes of a packet of the format. */
#define DSPEC_FOLDER_PACKET 1024u
/* The most folders that a bound keeps. */
#define DSPEC_FOLDER_MOST 64u

/* Why something of a trace wasn't written. */
typedef struct dspec_loss {
    dspec_status status; /* what the library answered; DSPEC_OK where the system refused a write */
    int code;            /* the system's errno then; else 0 */
    uint32_t cpu;        /* of cpu_N_K the N, and the K; of `metadata` both are 0 */
    size_t file;
    uint64_t records;    /* how many records weren't written */
    dspec_text name;     /* where the status is DSPEC_BAD_NAME the first such name, */
    const char *why;     /* and why it isn't allowed; else NULL */
} dspec_loss;

/* Which file a descriptor is of: a program may close it, and open another file by its number. */
typedef struct dspec_folder_mark {
    dev_t device;
    ino_t inode;
} dspec_folder_mark;

/* One of the folders of a trace. */
typedef struct dspec_folder_part {
    uint64_t number;               /* of NAME.N the N */
    uint64_t bytes;                /* of its files; 0: it has no metadata of ours */
    uint64_t records;
    int at;                        /* its descriptor, by which its files are reached whatever becomes of its name; -1: it has none */
    dspec_folder_mark mark;
    dev_t device;                  /* of its files */
    uint8_t files[DSPEC_MAX_CPUS]; /* how many each CPU has */
} dspec_folder_part;

/* A trace in a folder, or with a bound in several. A program reads last, first, lost, gone and gone_records; the rest is the library's. */
typedef struct dspec_folder {
    uint32_t cpus;
    dspec_ctf ctf[DSPEC_MAX_CPUS];
    int files[DSPEC_MAX_CPUS][DSPEC_CTF_MAX_FILES];        /* descriptors plus 1; 0 is not open, -1 is given up */
    ino_t inodes[DSPEC_MAX_CPUS][DSPEC_CTF_MAX_FILES];     /* with the device of the newest folder's files the mark of each */
    uint64_t sizes[DSPEC_MAX_CPUS][DSPEC_CTF_MAX_FILES];   /* of their whole packets */
    uint8_t *room;                                         /* for one packet */
    size_t size;                                           /* of the room, in bytes */
    dspec_loss last;                                       /* what the last call lost, where it answered false */
    dspec_loss first;                                      /* what was lost first, with the records of all losses */
    bool lost;                                             /* whether anything was */
    bool ending;                                           /* whether the last packets are being written, for which room is kept */
    char path[4096];
    char words[512];                                       /* of dspec_folder_why */
    char *text;                                            /* of `metadata` */
    size_t text_size;
    dspec_schema *schema;
    dspec_identity identity;
    dspec_folder_part parts[DSPEC_FOLDER_MOST];            /* the folders that are there, by age: a ring */
    uint32_t oldest, kept;                                 /* where it begins, and how many there are */
    bool is_open;                                          /* whether the newest is being written */

    /* Of a bound; its folders are 0 where there is none. */
    uint64_t most_bytes;
    uint32_t most_folders;
    int parent;                                            /* the descriptor of the folder that has them; -1: it has none */
    dspec_folder_mark parent_mark;
    size_t name_at;                                        /* where its last name begins in the path */
    uint64_t number;                                       /* of the next folder */
    uint64_t gone, gone_records;                           /* how many folders were removed, and how many records with them */
    uint64_t untold[DSPEC_MAX_CPUS];                       /* records that were missed while no folder could be begun */
    uint64_t dated[DSPEC_MAX_CPUS];                        /* the last stamp of each CPU's packets, of all folders */
    uint8_t *copy;                                         /* for a part of a batch */
    size_t copy_size;
    size_t reserved;                                       /* bytes of the batches for which memory was taken */
    dspec_ctf reserve;                                     /* has that memory between two batches, whichever CPU's files have it meanwhile */
    dspec_packet writing;                                  /* the packet that is being written; all zeros where none is */
    uint32_t writing_cpu;                                  /* whose it is */
    uint64_t writing_at, writing_records;                  /* how many bytes its file had before it, and how many records the newest folder */
} dspec_folder;

/* Bounds the trace that is begun next to this sum of bytes and this number of folders, 2 to 64. The share of each is at least what its metadata takes, 2 KB a CPU, and 4 KB; else begin
 * answers false with DSPEC_TOO_SMALL. The schema stays until the end then. */
void dspec_folder_limit(dspec_folder *folder, uint64_t bytes, uint32_t folders) DSPEC_NOEXCEPT;

/* Has the trace that is begun next take memory for batches of this many bytes. Those are then written without taking any, unless the trace has a bound and its next folder begins. It is
 * some 9 times as much, whichever number of CPUs there are, and with a bound 11 times. The system gives what is used of it. */
void dspec_folder_reserve(dspec_folder *folder, size_t len) DSPEC_NOEXCEPT;

/* Begins a trace in a folder, which is made where it isn't there, and may have no trace yet. The CPUs are those of the session, 1 to 64, and each gets its first
 * file. names may be NULL: events and fields are numbered then. Where it answers false, nothing is to be ended, and no file is left. */
bool dspec_folder_begin(dspec_folder *folder, const char *path, dspec_schema *schema, uint32_t cpus, const dspec_identity *identity, const dspec_names *names) DSPEC_NOEXCEPT;

/* Why the last call answered false, in words: the system's, or the library's, or which name isn't allowed and why. They stay until the next call. */
const char *dspec_folder_why(dspec_folder *folder) DSPEC_NOEXCEPT;

/* Writes a batch, whose bytes may be given back after this call. layout is the schema's, by which the records of a batch are counted that can't be opened. */
bool dspec_folder_take(dspec_folder *folder, const dspec_layout *layout, const dspec_batch *batch) DSPEC_NOEXCEPT;

/* Tells what isn't told yet of what CPUs missed, and closes the files. Whether the whole trace was written; else folder.first says what was lost first,
 * and how many records in all. A program whose session has ended calls dspec_folder_close instead: what speculative buffers dropped, and how many records
 * lost commits had, is in no batch. */
bool dspec_folder_end(dspec_folder *folder) DSPEC_NOEXCEPT;

/* Writes what was left of each CPU of a session that has ended, tells what else its reports count as dropped, specdropped or lost, and ends the folder, as
 * dspec_folder_end does: whether the whole trace was written. So where each batch was handed to dspec_folder_take, the trace tells these three counts, and what wasn't
 * written. closed stays the caller's. Where it is empty or of another kind this answers false, folder.last says DSPEC_BAD_HANDLE, and nothing was done. */
bool dspec_folder_close(dspec_folder *folder, const dspec_layout *layout, dspec_closed *closed) DSPEC_NOEXCEPT;

/* Puts the text of a trace's metadata, as dspec_ctf_metadata has made it of these names, with their labels into a room: how many bytes the text has. Where the room has fewer, only
 * some of them are there. */
size_t dspec_labels_put(const dspec_names *names, const char *text, size_t len, char *room, size_t size) DSPEC_NOEXCEPT;

#ifdef __cplusplus
}
#endif

#endif
