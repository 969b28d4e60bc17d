/* dspec.h: the buffering half of DTrace, called from C11 and C++17.
 *
 * WHAT IT IS FOR. A tracer or an always-on diagnostic records a path at little cost, and keeps it only where it turned out to
 * matter. A session has 1 to 64 CPUs, which are lanes of the trace and no processors, and one consumer. Each CPU traces records
 * into its own principal buffer; or it offers them to a speculation, on any CPUs, which is committed or discarded later. The
 * consumer takes the principal buffers, batch by batch. No record of a discarded speculation gets into a batch, and each record
 * that was offered is in exactly one count of its CPU's report, as does each that the schema refused.
 *
 * HANDLES. A handle is two words of the caller's memory. All zeros is the empty handle, as DSPEC_EMPTY. The kinds have types of
 * their own, so that the compiler tells them apart; a call that is given an empty handle, or by a cast one of another kind,
 * answers DSPEC_BAD_HANDLE and does nothing. A call that fills a handle wants an empty one, else it answers DSPEC_FULL_HANDLE
 * before it does anything. What a handle holds moves with its two words: a copy is the handle from then on, and the old place is
 * set to DSPEC_EMPTY or never used again. Nobody writes to the fields.
 *
 * THREADS. A handle is in one call at a time. Different handles may be in calls at the same time, on any threads: each CPU's
 * handle goes to the thread that traces for that CPU, the consumer's to another. Who passes a handle to another thread orders
 * that by a thread's start or join, by a lock, or by a sequentially consistent atomic. No call waits, locks or sleeps. A signal handler
 * makes calls on a CPU of its own, whose handle nobody else uses: they take no lock and no memory. No call is made in the forked child of
 * a process with threads.
 *
 * MEMORY. The calls marked "Takes memory" take it from malloc, and answer DSPEC_NO_MEMORY where it is refused; then nothing has
 * changed, and the call may be made again. No other call takes any. Each call may free.
 *
 * STACK. Measured with the compiler that built this library, on x86-64, with what a thread itself takes: dspec_start,
 * dspec_finish and dspec_close take up to 128 KB of stack, however many CPUs there are, dspec_schema_new up to 64 KB, and each other
 * call up to 32 KB.
 *
 * WHAT C OWES. No pointer is NULL, not even that of an array of no elements. Each points to memory of its type, aligned, that
 * nothing else reads or writes during the call; no two pointers of a call point to the same memory. An array has as many elements
 * as the call is told. A handle is zero at first, and after that only calls write to it.
 *
 * STATUSES. Every call answers a dspec_status, but dspec_version and the drops. Where it isn't DSPEC_OK, nothing has changed and
 * no out parameter was written, unless the call or the status says otherwise.
 */
#ifndef DSPEC_H
#define DSPEC_H

#include <stdbool.h>
#include <stddef.h>
#include <stdint.h>

/* The version of this header; dspec_version tells the library's. */
#define DSPEC_VERSION_MAJOR 0
#define DSPEC_VERSION_MINOR 1
#define DSPEC_VERSION_PATCH 0
#define DSPEC_VERSION_STRING "0.1.0"
#define DSPEC_VERSION (DSPEC_VERSION_MAJOR * 65536u + DSPEC_VERSION_MINOR * 256u + DSPEC_VERSION_PATCH)

/* The ranges of a configuration, and the limits of a schema. */
#define DSPEC_MAX_CPUS 64u
#define DSPEC_MAX_NSPEC 63u
#define DSPEC_MAX_BUFFER 1048576u
#define DSPEC_MAX_ISSUES (UINT64_C(1) << 57)
#define DSPEC_MAX_CALLS (UINT64_C(1) << 62)
#define DSPEC_MAX_FIELDS 8u
#define DSPEC_MAX_ENABLINGS 64u

/* No call throws. In C++ an inline function is one for the whole program; in C each file has its own. A conversion is spelled as each language has it. */
#ifdef __cplusplus
#define DSPEC_NOEXCEPT noexcept
#define DSPEC_INLINE inline
#define DSPEC_AS(TYPE, VALUE) static_cast<TYPE>(VALUE)
extern "C" {
#else
#define DSPEC_NOEXCEPT
#define DSPEC_INLINE static inline
#define DSPEC_AS(TYPE, VALUE) ((TYPE)(VALUE))
#endif

typedef enum dspec_status {
    DSPEC_OK = 0,

    /* A configuration: its first field that is out of range. */
    DSPEC_BAD_CPUS = 1,       /* not 1 to 64 */
    DSPEC_BAD_NSPEC = 2,      /* not 1 to 63 */
    DSPEC_BAD_BUFSIZE = 3,    /* not a multiple of 8 from 8 to 1,048,576 */
    DSPEC_BAD_SPECSIZE = 4,   /* likewise */
    DSPEC_BAD_MAX_ISSUES = 5, /* not 1 to 2^57 */
    DSPEC_BAD_MAX_CALLS = 6,  /* not 1 to 2^62 */
    DSPEC_NO_MEMORY = 7,      /* memory was refused */
    DSPEC_BAD_POLICY = 8,     /* neither DSPEC_POLICY_SWITCH nor DSPEC_POLICY_FILL */

    /* A schema. */
    DSPEC_BAD_WIDTH = 9,            /* a field's width is none of 1, 2, 4 and 8 */
    DSPEC_TOO_MANY_FIELDS = 10,     /* more than 8 */
    DSPEC_TOO_MANY_ENABLINGS = 11,  /* there are 64 already */

    /* A trace (dspec_ctf.h). */
    DSPEC_NO_STAMP = 12,       /* records have no stamps */
    DSPEC_NO_FREQUENCY = 13,   /* a clock of no tick a second */
    DSPEC_BAD_NAME = 14,       /* a name of an event or of a field that isn't allowed, or is there twice, or a text that isn't UTF-8 */
    DSPEC_BAD_NAME_COUNT = 15, /* not a name for each event and each field, or not a kind for each field */

    /* What was asked can't be asked. */
    DSPEC_BAD_RECORD = 16,  /* not a record of the schema: EPID, number of values, a value too large for its field, or a stamp
                               where records have none; nothing was traced, and the report counts it as refused, and no more */
    DSPEC_BAD_HANDLE = 17,  /* empty, or of another kind */
    DSPEC_FULL_HANDLE = 18, /* a handle to be filled that isn't empty */
    DSPEC_NO_SUCH_CPU = 19, /* no CPU of this number */
    DSPEC_NOT_HOME = 20,    /* a CPU or the consumer hasn't come home */
    DSPEC_NO_BATCH = 21,    /* no batch has come, none is out, or none is left */
    DSPEC_OUT = 22,         /* out already: the CPU, the consumer, which is handed out once, or a batch that has to be given back first */

    /* A trace again. */
    DSPEC_TOO_SMALL = 23,    /* the room is too small; how many bytes it needs was told */
    DSPEC_NO_PACKET = 24,    /* no packet of the batch is left */
    DSPEC_BAD_CLOCK = 25,    /* the next record's stamp is before the last of each of 64 files: the CPU's stamps aren't those of one clock */
    DSPEC_TOO_LONG = 26,     /* a packet of 2^60 bytes or more */
    DSPEC_BAD_KIND = 27,     /* what numbers mean that is none of 0 to 4, or no word of a text */
    DSPEC_BAD_IDENTITY = 28, /* the name of a machine or of a program that can't be shown */

    /* What became of a call, as its CPU's report counts it. */
    DSPEC_DROPPED = 32,     /* no room for the record */
    DSPEC_STOPPED = 33,     /* the session was stopped */
    DSPEC_WORN = 34,        /* the CPU has made all its calls */
    DSPEC_VOID = 35,        /* the speculation isn't open: never given out, or decided already */
    DSPEC_UNAVAILABLE = 36, /* no slot is free for a speculation, and none waits for its release */
    DSPEC_BUSY = 37,        /* the thing that is asked for isn't free yet, and will be */
    DSPEC_LOST = 38         /* a commit whose records had no room in the principal buffer: all of them are lost */
} dspec_status;

/* What becomes of a full principal buffer: the consumer has it switched for a spare, or it stays as it is for good. */
#define DSPEC_POLICY_SWITCH 0u
#define DSPEC_POLICY_FILL 1u

/* The handles. */
typedef struct dspec_schema { bool held; void *at; } dspec_schema;
typedef struct dspec_session { bool held; void *at; } dspec_session;
typedef struct dspec_cpu { bool held; void *at; } dspec_cpu;
typedef struct dspec_consumer { bool held; void *at; } dspec_consumer;
typedef struct dspec_closed { bool held; void *at; } dspec_closed;
#define DSPEC_EMPTY { false, NULL }

/* What a session is started with. */
typedef struct dspec_config {
    uint32_t cpus;       /* how many CPUs, 1 to 64 */
    uint32_t nspec;      /* how many speculations at a time, 1 to 63 */
    uint32_t bufsize;    /* bytes of a principal buffer, a multiple of 8 from 8 to 1,048,576; each CPU has two */
    uint32_t specsize;   /* bytes of a speculative buffer, likewise; each CPU has one for each speculation */
    uint64_t max_issues; /* how many speculations a slot gives out, one after another, 1 to 2^57 */
    uint64_t max_calls;  /* how many calls a CPU makes, 1 to 2^62; later ones are answered DSPEC_WORN */
    uint32_t policy;     /* DSPEC_POLICY_SWITCH or DSPEC_POLICY_FILL */
} dspec_config;

/* So many CPUs, 8 speculations at a time, principal buffers of 64 KiB, speculative ones of 4 KiB, the greatest bounds, and DSPEC_POLICY_SWITCH. */
DSPEC_INLINE dspec_config dspec_config_of_cpus(uint32_t cpus) DSPEC_NOEXCEPT {
    const dspec_config config = { cpus, 8, 65536, 4096, DSPEC_MAX_ISSUES, DSPEC_MAX_CALLS, DSPEC_POLICY_SWITCH };
    return config;
}

/* A CPU's counts. Each record that was offered is in exactly one of accepted, dropped, specdropped, lost, discarded, void_
 * and held, and each that the schema refused in refused; the rest counts events. */
typedef struct dspec_report {
    uint64_t offered;     /* records handed to trace or speculate, by calls that weren't worn */
    uint64_t accepted;    /* records that the principal buffers took, those of copied speculations among them */
    uint64_t dropped;     /* traced records that the principal buffer had no room for */
    uint64_t specdropped; /* records that a speculative buffer had no room for */
    uint64_t lost;        /* records of commits that the principal buffer had no room for */
    uint64_t discarded;   /* records thrown away by a discard */
    uint64_t void_;       /* records offered after a stop, or to a speculation that wasn't open */
    uint64_t held;        /* records that wait in speculative buffers */
    uint64_t drops;       /* reservations that the principal buffer refused: one a dropped record, and one a lost commit */
    uint64_t unavailable; /* calls answered DSPEC_UNAVAILABLE */
    uint64_t busy;        /* calls of dspec_speculation answered DSPEC_BUSY */
    uint64_t stopped;     /* calls answered DSPEC_STOPPED */
    uint64_t worn;        /* calls answered DSPEC_WORN, of which nothing else is counted */
    uint64_t refused;     /* calls answered DSPEC_BAD_RECORD, whose records weren't offered; it stays at 2^64 - 1 */
} dspec_report;

/* A principal buffer: its records, one after another, all numbers little-endian. A record is its EPID in 4 bytes; with a stamped
 * schema, the stamp's low and high halves in 4 bytes each; then each value at the next multiple of its own width from the record's
 * start; and zeros up to a multiple of 4. A record with a field of 8 bytes begins at a multiple of 8, any other at a multiple of 4;
 * where 4 bytes are left out for that, they are zero, so an EPID 0 is to be skipped. */
typedef struct dspec_batch {
    const uint8_t *bytes; /* they stay where they are until the batch is given back, or its consumer or closed session let go */
    size_t len;           /* how many */
    uint64_t drops;       /* how many reservations the principal buffer has refused since it was last switched */
    uint32_t cpu;         /* whose it is */
} dspec_batch;

/* The library's version, as DSPEC_VERSION has the header's. */
uint32_t dspec_version(void) DSPEC_NOEXCEPT;

/* Whether the library that is loaded serves a program that was compiled with this header: it is of the same series, and not older. A series is a major version, and before version 1 a minor one. */
DSPEC_INLINE bool dspec_version_fits(void) DSPEC_NOEXCEPT {
    const uint32_t within = DSPEC_VERSION_MAJOR == 0 ? 256u : 65536u;
    return dspec_version() / within == DSPEC_VERSION / within && dspec_version() >= DSPEC_VERSION;
}

/* ---- Schemas: which records there are. One thread at a time. ---- */

/* A schema without enablings, whose records have no stamp. Takes memory.
 * DSPEC_FULL_HANDLE, DSPEC_NO_MEMORY. */
dspec_status dspec_schema_new(dspec_schema *schema) DSPEC_NOEXCEPT;

/* Enables records of n fields, n at most 8, of these widths in bytes, each 1, 2, 4 or 8. The EPIDs are 1, 2, .. up to 64.
 * DSPEC_BAD_HANDLE, DSPEC_TOO_MANY_FIELDS, DSPEC_BAD_WIDTH, DSPEC_TOO_MANY_ENABLINGS. */
dspec_status dspec_schema_enable(dspec_schema *schema, const uint8_t *widths, size_t n, uint32_t *epid) DSPEC_NOEXCEPT;

/* From now on records have a stamp: any 64 bits that the tracer hands in; the library reads no clock.
 * DSPEC_BAD_HANDLE. */
dspec_status dspec_schema_stamp(dspec_schema *schema) DSPEC_NOEXCEPT;

/* ---- A session. One thread at a time, beside its CPUs and its consumer on theirs. ---- */

/* Starts a session over the schema as it is now; the schema stays the caller's, and later changes of it are no matter to
 * the session. It takes all memory that the calls of the CPUs and of the consumer need. Takes memory.
 * DSPEC_FULL_HANDLE, DSPEC_BAD_HANDLE (the schema), DSPEC_BAD_POLICY, DSPEC_BAD_CPUS, DSPEC_BAD_NSPEC, DSPEC_BAD_BUFSIZE,
 * DSPEC_BAD_SPECSIZE, DSPEC_BAD_MAX_ISSUES, DSPEC_BAD_MAX_CALLS, DSPEC_NO_MEMORY, looked at in this order. */
dspec_status dspec_start(const dspec_config *config, dspec_schema *schema, dspec_session *session) DSPEC_NOEXCEPT;

/* Hands out the CPU of this number, from 0 on, which was never handed out or came home; it goes on as it was, with all its counts. So a
 * thread that is going to block parks its CPU by dspec_cpu_home, and gets it back here. Takes memory, and the CPU stays at home where that
 * is refused.
 * DSPEC_FULL_HANDLE, DSPEC_BAD_HANDLE (the session), DSPEC_NO_SUCH_CPU, DSPEC_OUT (it isn't home), DSPEC_NO_MEMORY. */
dspec_status dspec_cpu_of(dspec_session *session, uint32_t number, dspec_cpu *cpu) DSPEC_NOEXCEPT;

/* Hands out the consumer, once. Takes memory.
 * DSPEC_FULL_HANDLE, DSPEC_BAD_HANDLE (the session), DSPEC_OUT, DSPEC_NO_MEMORY. */
dspec_status dspec_consumer_of(dspec_session *session, dspec_consumer *consumer) DSPEC_NOEXCEPT;

/* Makes a service of each CPU that is home or was never handed out, as dspec_service does: a slot that was decided is freed only once every
 * CPU has settled it, and such a CPU makes no service of its own. settled: how many speculations they settled in all. A thread that has the
 * session's handle calls it now and then, beside the calls of the CPUs and of the consumer. A CPU that is out is its thread's own to serve.
 * DSPEC_OK. DSPEC_BAD_HANDLE. */
dspec_status dspec_tend(dspec_session *session, uint64_t *settled) DSPEC_NOEXCEPT;

/* ---- The calls of one CPU, on the thread that has its handle. ---- */

/* Traces the record with these n values into the principal buffer. stamp is 0 where records have none.
 * DSPEC_OK: it was kept. DSPEC_DROPPED: no room; the record and the drop were counted. DSPEC_STOPPED: it was counted void.
 * DSPEC_WORN. DSPEC_BAD_RECORD: it was counted as refused, and nothing else was done. DSPEC_BAD_HANDLE: nothing was done. */
dspec_status dspec_trace(dspec_cpu *cpu, uint32_t epid, uint64_t stamp, const uint64_t *values, size_t n) DSPEC_NOEXCEPT;

/* Traces the record whose text is these words: what a program packs that knows the record's fields when it is compiled. After four bytes
 * for the EPID comes each field at the next multiple of its width, the lowest byte first; a word is eight of these bytes, the first the
 * lowest. Bytes in the EPID's place and between fields count for nothing, and so no value is refused. claim is the EPID, and above
 * 32 bits how many bytes each field has, four bits a field, the first field lowest: (uint64_t)0x48 << 32 | epid is of a field of 8 bytes
 * and one of 4, whose words are three. Where the EPID has other fields, or isn't enabled, or there are more or fewer words than its fields
 * take, it is DSPEC_BAD_RECORD, and counted as refused; so is a record of no fields. dspec_probe.h declares probes whose records are put so.
 * Else as dspec_trace. */
dspec_status dspec_put_1(dspec_cpu *cpu, uint64_t claim, uint64_t stamp, uint64_t w0) DSPEC_NOEXCEPT;
dspec_status dspec_put_2(dspec_cpu *cpu, uint64_t claim, uint64_t stamp, uint64_t w0, uint64_t w1) DSPEC_NOEXCEPT;
dspec_status dspec_put_3(dspec_cpu *cpu, uint64_t claim, uint64_t stamp, uint64_t w0, uint64_t w1, uint64_t w2) DSPEC_NOEXCEPT;
dspec_status dspec_put(dspec_cpu *cpu, uint64_t claim, uint64_t stamp, const uint64_t *words, size_t n) DSPEC_NOEXCEPT;

/* Opens a speculation; its identifier goes to any CPU of the session, as a number.
 * DSPEC_OK. DSPEC_UNAVAILABLE, DSPEC_BUSY (clean, then try again), DSPEC_STOPPED, DSPEC_WORN: counted, and none was given.
 * DSPEC_BAD_HANDLE. */
dspec_status dspec_speculation(dspec_cpu *cpu, uint64_t *id) DSPEC_NOEXCEPT;

/* Offers the record to a speculation: it is kept in the CPU's speculative buffer until that is decided.
 * DSPEC_OK: it was kept there. DSPEC_DROPPED: no room there. DSPEC_VOID, DSPEC_STOPPED: it was counted void. DSPEC_WORN.
 * DSPEC_BAD_RECORD: it was counted as refused, and nothing else was done. DSPEC_BAD_HANDLE: nothing was done. */
dspec_status dspec_speculate(dspec_cpu *cpu, uint64_t id, uint32_t epid, uint64_t stamp, const uint64_t *values, size_t n) DSPEC_NOEXCEPT;

/* As dspec_speculate, of the record whose text is these words, as dspec_put_1 has them. */
dspec_status dspec_put_in_1(dspec_cpu *cpu, uint64_t id, uint64_t claim, uint64_t stamp, uint64_t w0) DSPEC_NOEXCEPT;
dspec_status dspec_put_in_2(dspec_cpu *cpu, uint64_t id, uint64_t claim, uint64_t stamp, uint64_t w0, uint64_t w1) DSPEC_NOEXCEPT;
dspec_status dspec_put_in_3(dspec_cpu *cpu, uint64_t id, uint64_t claim, uint64_t stamp, uint64_t w0, uint64_t w1, uint64_t w2) DSPEC_NOEXCEPT;
dspec_status dspec_put_in(dspec_cpu *cpu, uint64_t id, uint64_t claim, uint64_t stamp, const uint64_t *words, size_t n) DSPEC_NOEXCEPT;

/* Commits a speculation: this CPU's records of it go to its principal buffer, all or none; the other CPUs do the same with theirs
 * at their next service. count is the number of this CPU's records, and is written at DSPEC_OK and DSPEC_LOST.
 * DSPEC_OK: they were copied. DSPEC_LOST: no room; the drop was counted. DSPEC_VOID, DSPEC_STOPPED, DSPEC_WORN. DSPEC_BAD_HANDLE. */
dspec_status dspec_commit(dspec_cpu *cpu, uint64_t id, uint32_t *count) DSPEC_NOEXCEPT;

/* Commits a speculation as dspec_commit does, but not where this CPU's records of it would be lost: then it is DSPEC_BUSY, nothing was done
 * or counted, and the speculation is as it was. That is so after a stop too, and where another CPU has decided it. Room comes where dspec_service hands on a batch; under DSPEC_POLICY_FILL none does. It looks
 * at this CPU's records alone: those of other CPUs go or are lost as after dspec_commit, at their services. count is the number of this
 * CPU's records, and is written at DSPEC_OK.
 * DSPEC_OK: they were copied. DSPEC_BUSY: they would be lost now. DSPEC_VOID, DSPEC_STOPPED, DSPEC_WORN. DSPEC_BAD_HANDLE. */
dspec_status dspec_commit_if_room(dspec_cpu *cpu, uint64_t id, uint32_t *count) DSPEC_NOEXCEPT;

/* Discards a speculation: this CPU's records of it are thrown away; the other CPUs do the same with theirs at their next service.
 * count is the number of this CPU's records, and is written at DSPEC_OK.
 * DSPEC_OK. DSPEC_VOID, DSPEC_STOPPED, DSPEC_WORN. DSPEC_BAD_HANDLE. */
dspec_status dspec_discard(dspec_cpu *cpu, uint64_t id, uint32_t *count) DSPEC_NOEXCEPT;

/* To be called now and then between the CPU's other calls. Where the consumer asked for a batch and a spare buffer is there, the
 * principal buffer is switched and handed on; and what other CPUs have decided is settled. sealed: whether a batch was handed on;
 * settled: how many speculations were. It is never worn, and works after a stop too.
 * DSPEC_OK. DSPEC_BAD_HANDLE. */
dspec_status dspec_service(dspec_cpu *cpu, bool *sealed, uint32_t *settled) DSPEC_NOEXCEPT;

/* How many records of a speculation were dropped for want of room in this CPU's speculative buffer, since its first one: where there are
 * any, the end of the path is cut. It can be asked before the decision and after it; 0 where this CPU has offered none, and once it
 * has offered a record to a later speculation of the same slot. It stays at 2^32 - 1.
 * DSPEC_OK. DSPEC_BAD_HANDLE. */
dspec_status dspec_dropped_in(dspec_cpu *cpu, uint64_t id, uint32_t *count) DSPEC_NOEXCEPT;

/* The speculation of a slot, 1 to nspec, of which this CPU holds records: it is open, or another CPU has decided it and this CPU's next
 * service settles it. id is 0 where this CPU holds records of none of the slot, or there is no such slot. dspec_open_in(cpu, ids, &n), of the
 * header, writes those of all slots to ids, of which there are 64, and to n how many they are.
 * DSPEC_OK. DSPEC_BAD_HANDLE. */
dspec_status dspec_open_at(dspec_cpu *cpu, uint32_t slot, uint64_t *id) DSPEC_NOEXCEPT;

/* Those of all slots, the lowest slot first: n tells how many they are. Nothing is written where it isn't DSPEC_OK. */
static inline dspec_status dspec_open_in(dspec_cpu *cpu, uint64_t ids[64], size_t *n) DSPEC_NOEXCEPT {
    size_t found = 0;
    for (uint32_t slot = 1; slot < 64; slot++) {
        uint64_t id = 0;
        dspec_status status = dspec_open_at(cpu, slot, &id);
        if (status != DSPEC_OK) return status;
        if (id != 0) ids[found++] = id;
    }
    *n = found;
    return DSPEC_OK;
}

/* The CPU's counts so far.
 * DSPEC_OK. DSPEC_BAD_HANDLE. */
dspec_status dspec_cpu_report(dspec_cpu *cpu, dspec_report *report) DSPEC_NOEXCEPT;

/* Gives the CPU back to its session, whichever that is; the handle is empty then. dspec_tend makes its services from then on, and
 * dspec_cpu_of hands it out again. Neither waits, and this takes no memory.
 * DSPEC_OK. DSPEC_BAD_HANDLE. */
dspec_status dspec_cpu_home(dspec_cpu *cpu) DSPEC_NOEXCEPT;

/* ---- The calls of the consumer, on the thread that has its handle. ---- */

/* Asks a CPU for a batch more: its next service switches, where a spare buffer is there. Asking again before that batch was
 * taken asks for the same. Under DSPEC_POLICY_FILL no batch comes before the end.
 * DSPEC_OK. DSPEC_NO_SUCH_CPU. DSPEC_BAD_HANDLE. */
dspec_status dspec_ask(dspec_consumer *consumer, uint32_t cpu) DSPEC_NOEXCEPT;

/* Takes the next batch of a CPU. One at a time a CPU is out.
 * DSPEC_OK: batch was written. DSPEC_NO_BATCH: none has come. DSPEC_OUT: the last one wasn't given back. DSPEC_NO_SUCH_CPU.
 * DSPEC_BAD_HANDLE. */
dspec_status dspec_take(dspec_consumer *consumer, uint32_t cpu, dspec_batch *batch) DSPEC_NOEXCEPT;

/* Gives the batch of a CPU that is out back, as that CPU's spare. Its bytes are gone then.
 * DSPEC_OK. DSPEC_NO_BATCH: none is out. DSPEC_BUSY: there is no room on the way back yet, and the batch stays out.
 * DSPEC_NO_SUCH_CPU. DSPEC_BAD_HANDLE. */
dspec_status dspec_give_back(dspec_consumer *consumer, uint32_t cpu) DSPEC_NOEXCEPT;

/* Frees the slots of speculations that are decided and that every CPU has settled; released: how many.
 * DSPEC_OK. DSPEC_BAD_HANDLE. */
dspec_status dspec_clean(dspec_consumer *consumer, uint32_t *released) DSPEC_NOEXCEPT;

/* How many slots wait for a CPU: their speculations are decided, and that CPU has made no service since. They aren't given out again
 * before it makes one, or dspec_tend makes it. count is written at DSPEC_OK.
 * DSPEC_OK. DSPEC_NO_SUCH_CPU. DSPEC_BAD_HANDLE. */
dspec_status dspec_waiting_for(dspec_consumer *consumer, uint32_t cpu, uint32_t *count) DSPEC_NOEXCEPT;

/* Stops the session: from when a CPU is shown it, its calls answer DSPEC_STOPPED, but service. A second time changes nothing.
 * DSPEC_OK. DSPEC_BAD_HANDLE. */
dspec_status dspec_stop(dspec_consumer *consumer) DSPEC_NOEXCEPT;

/* Gives the consumer back to its session. The batches that are out are gone then, and so are their bytes; the handle is empty.
 * DSPEC_OK. DSPEC_BAD_HANDLE. */
dspec_status dspec_consumer_home(dspec_consumer *consumer) DSPEC_NOEXCEPT;

/* ---- The end. ---- */

/* Ends a session whose CPUs and consumer are all home, those that were never handed out among them. What was decided is settled,
 * and what nobody took is handed out by closed. The session's handle is empty then.
 * DSPEC_FULL_HANDLE, DSPEC_BAD_HANDLE (the session; finished before, say). DSPEC_NOT_HOME: a CPU or the consumer is out, and the
 * session goes on as it was. DSPEC_BUSY: all are home, but what they share is still somebody else's, and the session goes on as it
 * was; no way to this answer is known. */
dspec_status dspec_finish(dspec_session *session, dspec_closed *closed) DSPEC_NOEXCEPT;

/* The same in one call, for a program whose threads are joined before the end: sends home the CPUs that these count handles hold and the
 * consumer, and then ends the session as dspec_finish does. No handle is twice among them. A CPU that is home already, or was never
 * handed out, isn't among them; a program that never asked for the consumer calls dspec_finish. Takes no memory.
 * DSPEC_FULL_HANDLE (closed), DSPEC_BAD_HANDLE: the session's handle, the consumer's or one of the CPUs' is empty, or holds another kind,
 * and nothing has changed. Else all handles that were passed are empty but the session's, whatever comes of it. DSPEC_NOT_HOME: a CPU of
 * the session is neither home nor was among them, or the consumer was another session's; what was brought home is home, and the session goes
 * on: it ends by dspec_finish once the others are home. A CPU of another session goes home to that one. DSPEC_BUSY as of dspec_finish. */
dspec_status dspec_close(dspec_session *session, dspec_cpu *const *cpus, size_t count, dspec_consumer *consumer, dspec_closed *closed) DSPEC_NOEXCEPT;

/* What was left of a CPU: with last false the batch that was handed on and never taken, with last true its principal buffer.
 * The batches of a CPU are those that were taken, in order, then these two.
 * DSPEC_OK: batch was written. DSPEC_NO_BATCH: none was left untaken. DSPEC_NO_SUCH_CPU. DSPEC_BAD_HANDLE. */
dspec_status dspec_rest(dspec_closed *closed, uint32_t cpu, bool last, dspec_batch *batch) DSPEC_NOEXCEPT;

/* The counts of a CPU, to its end.
 * DSPEC_OK. DSPEC_NO_SUCH_CPU. DSPEC_BAD_HANDLE. */
dspec_status dspec_closed_report(dspec_closed *closed, uint32_t cpu, dspec_report *report) DSPEC_NOEXCEPT;

/* Lets go what a handle of any kind holds, at any time; an empty one stays empty. What was handed out of a session lives on: a CPU
 * may trace after its session was dropped. A CPU or the consumer that is dropped goes home, as by dspec_cpu_home and
 * dspec_consumer_home, so that its session can finish. The bytes of batches go with the consumer or the closed session that has them. */
void dspec_drop(void *handle) DSPEC_NOEXCEPT;

/* The same, with the types checked. */
DSPEC_INLINE void dspec_schema_drop(dspec_schema *schema) DSPEC_NOEXCEPT { dspec_drop(schema); }
DSPEC_INLINE void dspec_session_drop(dspec_session *session) DSPEC_NOEXCEPT { dspec_drop(session); }
DSPEC_INLINE void dspec_cpu_drop(dspec_cpu *cpu) DSPEC_NOEXCEPT { dspec_drop(cpu); }
DSPEC_INLINE void dspec_consumer_drop(dspec_consumer *consumer) DSPEC_NOEXCEPT { dspec_drop(consumer); }
DSPEC_INLINE void dspec_closed_drop(dspec_closed *closed) DSPEC_NOEXCEPT { dspec_drop(closed); }

/* ---- Beside the library. ---- */

/* The version of the library that is linked, in words, as a static text; that of a trial build says that nothing of it is proved. The header's is DSPEC_VERSION_STRING. */
const char *dspec_version_text(void) DSPEC_NOEXCEPT;

/* A status in words, as a static text; of a number that is none, "unknown status". */
DSPEC_INLINE const char *dspec_status_text(dspec_status status) DSPEC_NOEXCEPT {
    switch (status) {
    case DSPEC_OK: return "ok";
    case DSPEC_BAD_CPUS: return "cpus is not 1 to 64";
    case DSPEC_BAD_NSPEC: return "nspec is not 1 to 63";
    case DSPEC_BAD_BUFSIZE: return "bufsize is not a multiple of 8 from 8 to 1048576";
    case DSPEC_BAD_SPECSIZE: return "specsize is not a multiple of 8 from 8 to 1048576";
    case DSPEC_BAD_MAX_ISSUES: return "max_issues is not 1 to 2^57";
    case DSPEC_BAD_MAX_CALLS: return "max_calls is not 1 to 2^62";
    case DSPEC_NO_MEMORY: return "out of memory";
    case DSPEC_BAD_POLICY: return "no such policy";
    case DSPEC_BAD_WIDTH: return "the width of a field is none of 1, 2, 4 and 8";
    case DSPEC_TOO_MANY_FIELDS: return "too many fields";
    case DSPEC_TOO_MANY_ENABLINGS: return "too many enablings";
    case DSPEC_NO_STAMP: return "records have no stamps";
    case DSPEC_NO_FREQUENCY: return "a clock of no tick a second";
    case DSPEC_BAD_NAME: return "a name that isn't allowed";
    case DSPEC_BAD_NAME_COUNT: return "not a name for each event and field";
    case DSPEC_BAD_RECORD: return "not a record of the schema";
    case DSPEC_BAD_HANDLE: return "the handle is empty or of another kind";
    case DSPEC_FULL_HANDLE: return "the handle to be filled is not empty";
    case DSPEC_NO_SUCH_CPU: return "no such CPU";
    case DSPEC_NOT_HOME: return "a CPU or the consumer is not home";
    case DSPEC_NO_BATCH: return "no batch";
    case DSPEC_OUT: return "handed out already";
    case DSPEC_TOO_SMALL: return "the room is too small";
    case DSPEC_NO_PACKET: return "no packet is left";
    case DSPEC_BAD_CLOCK: return "stamps went back too often";
    case DSPEC_TOO_LONG: return "a packet is too long";
    case DSPEC_BAD_KIND: return "no such kind of numbers";
    case DSPEC_BAD_IDENTITY: return "a machine's or a program's name that can't be shown";
    case DSPEC_DROPPED: return "dropped";
    case DSPEC_STOPPED: return "stopped";
    case DSPEC_WORN: return "worn";
    case DSPEC_VOID: return "void";
    case DSPEC_UNAVAILABLE: return "unavailable";
    case DSPEC_BUSY: return "busy";
    case DSPEC_LOST: return "lost";
    default: return "unknown status";
    }
}

#ifndef __cplusplus

/* The EPID of a row: one that 32 bits don't hold is no EPID, as 0 is none. A row without a stamp's place is refused, and counted, as it is. */
static inline uint32_t dspec_row_epid(const uint64_t *row) { return row[0] > UINT32_MAX ? 0 : (uint32_t)row[0]; }

/* Of a row with the EPID, and the stamp where there is one, before the values. */
static inline dspec_status dspec_trace_row(dspec_cpu *cpu, const uint64_t *row, size_t n) {
    return dspec_trace(cpu, dspec_row_epid(row), 0, row + 1, n - 1);
}
static inline dspec_status dspec_trace_stamped_row(dspec_cpu *cpu, const uint64_t *row, size_t n) {
    return n < 2 ? dspec_trace(cpu, 0, 0, row, 0) : dspec_trace(cpu, dspec_row_epid(row), row[1], row + 2, n - 2);
}
static inline dspec_status dspec_speculate_row(dspec_cpu *cpu, uint64_t id, const uint64_t *row, size_t n) {
    return dspec_speculate(cpu, id, dspec_row_epid(row), 0, row + 1, n - 1);
}
static inline dspec_status dspec_speculate_stamped_row(dspec_cpu *cpu, uint64_t id, const uint64_t *row, size_t n) {
    return n < 2 ? dspec_speculate(cpu, id, 0, 0, row, 0) : dspec_speculate(cpu, id, dspec_row_epid(row), row[1], row + 2, n - 2);
}

/* A zero follows the row, so that its values never begin past its end. */
#define DSPEC_ROW_(...) ((const uint64_t[]){__VA_ARGS__, 0})
#define DSPEC_ROW_LENGTH_(...) (sizeof((const uint64_t[]){__VA_ARGS__}) / sizeof(uint64_t))
#define DSPEC_TRACE(cpu, ...) dspec_trace_row((cpu), DSPEC_ROW_(__VA_ARGS__), DSPEC_ROW_LENGTH_(__VA_ARGS__))
#define DSPEC_TRACE_AT(cpu, ...) dspec_trace_stamped_row((cpu), DSPEC_ROW_(__VA_ARGS__), DSPEC_ROW_LENGTH_(__VA_ARGS__))
#define DSPEC_SPECULATE(cpu, id, ...) dspec_speculate_row((cpu), (id), DSPEC_ROW_(__VA_ARGS__), DSPEC_ROW_LENGTH_(__VA_ARGS__))
#define DSPEC_SPECULATE_AT(cpu, id, ...) \
    dspec_speculate_stamped_row((cpu), (id), DSPEC_ROW_(__VA_ARGS__), DSPEC_ROW_LENGTH_(__VA_ARGS__))

#endif

#ifdef __cplusplus
} /* extern "C" */

/* An EPID that 32 bits don't hold is none, as 0 is. */
constexpr uint32_t dspec_row_epid(uint64_t epid) noexcept { return epid > UINT32_MAX ? 0 : static_cast<uint32_t>(epid); }

template <typename... Values> inline dspec_status dspec_trace_of(dspec_cpu *cpu, uint64_t epid, uint64_t stamp, Values... values) noexcept {
    const uint64_t row[] = {static_cast<uint64_t>(values)..., 0};
    return dspec_trace(cpu, dspec_row_epid(epid), stamp, row, sizeof...(values));
}
template <typename... Values> inline dspec_status dspec_trace_unstamped(dspec_cpu *cpu, uint64_t epid, Values... values) noexcept {
    return dspec_trace_of(cpu, epid, 0, values...);
}
template <typename... Values>
inline dspec_status dspec_speculate_of(dspec_cpu *cpu, uint64_t id, uint64_t epid, uint64_t stamp, Values... values) noexcept {
    const uint64_t row[] = {static_cast<uint64_t>(values)..., 0};
    return dspec_speculate(cpu, id, dspec_row_epid(epid), stamp, row, sizeof...(values));
}
template <typename... Values>
inline dspec_status dspec_speculate_unstamped(dspec_cpu *cpu, uint64_t id, uint64_t epid, Values... values) noexcept {
    return dspec_speculate_of(cpu, id, epid, 0, values...);
}

#define DSPEC_TRACE(cpu, ...) dspec_trace_unstamped((cpu), __VA_ARGS__)
#define DSPEC_TRACE_AT(cpu, ...) dspec_trace_of((cpu), __VA_ARGS__)
#define DSPEC_SPECULATE(cpu, id, ...) dspec_speculate_unstamped((cpu), (id), __VA_ARGS__)
#define DSPEC_SPECULATE_AT(cpu, id, ...) dspec_speculate_of((cpu), (id), __VA_ARGS__)
#endif

/* With the values spelled out, up to eight, each taken as a uint64_t; all arguments are evaluated once. They answer as dspec_trace
 * and dspec_speculate do.
 *
 *     DSPEC_TRACE(&cpu, epid, a, b)              DSPEC_TRACE_AT(&cpu, epid, stamp, a, b)
 *     DSPEC_SPECULATE(&cpu, id, epid, a, b)      DSPEC_SPECULATE_AT(&cpu, id, epid, stamp, a, b)
 */

#endif
