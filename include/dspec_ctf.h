/* dspec_ctf.h: a trace of the Common Trace Format 1.8 that a program writes while it runs, beside dspec.h. For C11 and C++17.
 *
 * The library makes bytes, in memory of the caller: the text of the file `metadata`, and of each batch its packets. It opens no file and reads
 * no clock. That a packet is the format's, that each record of a batch is in exactly one packet, and that records which aren't written are counted
 * was proved. Writing the files was not: dspec_folder.h does it, which this header includes with dspec_system.h. With DSPEC_CTF_NO_FOLDER
 * both are left out, and with them their need of POSIX; in C they want this header before those of the system, or _POSIX_C_SOURCE.
 *
 * A CPU has files of its own, cpu_N_0, cpu_N_1, .. (N its number), 64 at most: its records aren't in the order of their stamps, since those of a
 * committed speculation are where it was committed, but those of each file are. Tools put the files together by time. The file cpu_N_0 tells how many a CPU missed:
 * those that its batches dropped, and those that weren't written.
 *
 * Each packet of the format has 1,024 bytes: its events, and zeros after them. Where all that is put goes to the ends of its files, one write each, a packet lies in one page of its
 * file, and a program that is killed in a write leaves whole packets.
 *
 *     where memory may be wanting:   dspec_ctf_reserve(&ctf, bufsize), and a room of dspec_ctf_room(bufsize) bytes; dspec_ctf_swap_rooms for several CPUs
 *     for each batch of a CPU:       dspec_ctf_batch(&ctf, &batch)
 *     until DSPEC_NO_PACKET:         dspec_ctf_put(&ctf, room, size, &packet), and its bytes to the end of file packet.file
 *     where they can't be written:   dspec_ctf_lose(&ctf, &records), and the next batch
 *
 * A handle dspec_ctf is in one call at a time; those of several CPUs may be on several threads. C owes what dspec.h says.
 */
#ifndef DSPEC_CTF_H
#define DSPEC_CTF_H

#if !defined(DSPEC_CTF_NO_FOLDER) && !defined(__cplusplus) && !defined(_GNU_SOURCE) && !defined(_POSIX_C_SOURCE)
#define _POSIX_C_SOURCE 200809L
#endif

#include "dspec.h"
#include "dspec_names.h"
#include "dspec_reader.h"

#ifdef __cplusplus
extern "C" {
#endif

/* The most files of a CPU. */
#define DSPEC_CTF_MAX_FILES 64u

/* The files of one CPU in a trace: a handle, as those of dspec.h. */
typedef struct dspec_ctf { bool held; void *at; } dspec_ctf;

/* Whose trace it is, and of which clock its stamps are. The texts are of 1 to 255 bytes of printable ASCII without quotes and backslashes. */
typedef struct dspec_identity {
    uint8_t uuid[16];  /* the trace's, which no other has: tools take folders of one uuid for one trace, and lose events in silence */
    uint8_t clock[16]; /* the clock's, where several processes read one clock */
    bool has_clock;    /* whether that is told */
    uint32_t pid;      /* the number of the process */
    uint64_t hertz;    /* how many ticks of the clock a second has */
    uint64_t seconds;  /* where the clock began: whole seconds from the beginning of 1970 on, */
    uint64_t ticks;    /* and this many ticks */
    dspec_text host;   /* the name of the machine */
    dspec_text name;   /* the name of the program */
} dspec_identity;

/* One write, in the caller's memory: a packet, or several one after another. */
typedef struct dspec_packet {
    size_t file;    /* the number of the CPU's file to whose end it goes */
    size_t size;    /* how many bytes it has: 1,024 for each packet of the format */
    size_t records; /* how many records are in it; none where it tells what was missed */
} dspec_packet;

/* Puts the text of the file `metadata` into a room of `size` bytes, and says in needed how many it has. count names are those of the schema's events, in the
 * order of their EPIDs, after each event's name those of its fields; with none events and fields are numbered. kinds says of each field what its
 * numbers mean (DSPEC_KIND_UNSIGNED ..). Takes memory, and gives it back.
 * DSPEC_OK. DSPEC_TOO_SMALL: needed says how many bytes, and nothing else was written. DSPEC_NO_STAMP, DSPEC_NO_FREQUENCY, DSPEC_BAD_NAME, DSPEC_BAD_NAME_COUNT,
 * DSPEC_BAD_KIND, DSPEC_BAD_IDENTITY, DSPEC_NO_MEMORY. DSPEC_BAD_HANDLE. */
dspec_status dspec_ctf_metadata(dspec_schema *schema, const dspec_identity *identity, const dspec_text *names, size_t count, const uint8_t *kinds,
                                size_t kind_count, uint8_t *room, size_t size, size_t *needed) DSPEC_NOEXCEPT;

/* The files of a CPU, of which there is none yet, in the trace with this identity's uuid. The schema is copied as it is now. Takes memory.
 * DSPEC_OK. DSPEC_NO_STAMP, DSPEC_NO_MEMORY. DSPEC_FULL_HANDLE (ctf), DSPEC_BAD_HANDLE (schema). */
dspec_status dspec_ctf_new(dspec_schema *schema, const dspec_identity *identity, uint32_t cpu, dspec_ctf *ctf) DSPEC_NOEXCEPT;

/* Bytes of a packet of the format, and how many of them are events in each packet of a run but its last, at the least. */
#define DSPEC_CTF_PACKET_ 1024u
#define DSPEC_CTF_FILLED_ 881u

/* How many bytes of a room are enough for each packet of a batch of this many bytes, and for what a CPU missed. */
DSPEC_INLINE size_t dspec_ctf_room(size_t len) DSPEC_NOEXCEPT { return (len / DSPEC_CTF_FILLED_ + 2) * DSPEC_CTF_PACKET_; }

/* Takes memory for batches of this many bytes, as a session's bufsize: dspec_ctf_open of one of these takes none from then on, nor does dspec_ctf_put of its packets. It is
 * some 8 times as much, and 4 KB. So a process that crashes can write what it has. Takes memory.
 * DSPEC_OK. DSPEC_NO_MEMORY: nothing is changed but that some of it may be there. DSPEC_BAD_HANDLE. */
dspec_status dspec_ctf_reserve(dspec_ctf *ctf, size_t len) DSPEC_NOEXCEPT;

/* Exchanges the rooms of the files of two CPUs, so that one room, as dspec_ctf_reserve takes it, serves batches of several in their turns. What either missed, and tells, stays. The
 * two are different handles. Takes no memory.
 * DSPEC_OK: neither has a batch open any more. DSPEC_BUSY: of a batch of either a record is left, or is in the packet that was put last; nothing is changed.
 * Another dspec_ctf_put until DSPEC_NO_PACKET, or dspec_ctf_lose, ends that batch. DSPEC_BAD_HANDLE (either). */
dspec_status dspec_ctf_swap_rooms(dspec_ctf *ctf, dspec_ctf *other) DSPEC_NOEXCEPT;

/* Opens the next batch of the CPU, whose bytes may be given back after this call. Records of the batch before that were in no packet are missed. Takes memory where
 * there is no room for as many records as its bytes may have, and keeps it for the next batch.
 * DSPEC_OK. DSPEC_BAD_RECORD: the bytes are no batch of the schema. DSPEC_WORN: more was missed than 64 bits count. DSPEC_NO_SUCH_CPU: it is another
 * CPU's. DSPEC_NO_MEMORY. DSPEC_BAD_HANDLE. */
dspec_status dspec_ctf_open(dspec_ctf *ctf, uint32_t cpu, uint64_t drops, const uint8_t *bytes, size_t len) DSPEC_NOEXCEPT;

DSPEC_INLINE dspec_status dspec_ctf_batch(dspec_ctf *ctf, const dspec_batch *batch) DSPEC_NOEXCEPT {
    return dspec_ctf_open(ctf, batch->cpu, batch->drops, batch->bytes, batch->len);
}

/* Puts the next packet of the batch into a room of `size` bytes: one write to one file. The count of missed records comes first, in two packets of the format, where that isn't told yet. The packet that was put before counts as
 * written from then on. Takes memory for the packet where there was none before or less, and keeps it for the next.
 * DSPEC_OK. DSPEC_NO_PACKET: none is left. DSPEC_TOO_SMALL: packet->size says how many bytes are needed; the call with that many puts that packet.
 * DSPEC_BAD_CLOCK: the rest of the batch has no packets, and dspec_ctf_lose gives it up. DSPEC_NO_MEMORY. DSPEC_BAD_HANDLE. */
dspec_status dspec_ctf_put(dspec_ctf *ctf, uint8_t *room, size_t size, dspec_packet *packet) DSPEC_NOEXCEPT;

/* Says that the packet that was put last wasn't written, and that those after it won't be: its records and the rest of the batch are missed; records says
 * how many they are. What it told isn't told. Where the last dspec_ctf_put answered something else than DSPEC_OK, it is the rest of the batch alone.
 * DSPEC_OK. DSPEC_BAD_HANDLE. */
dspec_status dspec_ctf_lose(dspec_ctf *ctf, uint64_t *records) DSPEC_NOEXCEPT;

/* Counts events that the CPU missed for another reason, as the records of a batch that wasn't opened; the next packets tell it.
 * DSPEC_OK. DSPEC_BAD_HANDLE. */
dspec_status dspec_ctf_miss(dspec_ctf *ctf, uint64_t count) DSPEC_NOEXCEPT;

DSPEC_INLINE void dspec_ctf_drop(dspec_ctf *ctf) DSPEC_NOEXCEPT { dspec_drop(ctf); }

#ifdef __cplusplus
}
#endif

#ifndef DSPEC_CTF_NO_FOLDER
#include "dspec_folder.h"
#include "dspec_system.h"
#endif

#endif
