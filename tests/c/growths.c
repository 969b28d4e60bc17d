/* One session, for runs in which one growth of memory is refused (refuse.c). `c_growths again` asks a second time where it is answered
 * DSPEC_NO_MEMORY, and must then be served as if nothing had been; `c_growths once` lets everything go there. Either way each block is
 * freed at the end. It prints how many calls were refused: exactly one in a run in which a growth was.
 *
 * The linker's --wrap leads the library's calls of malloc, realloc and free through the three functions below, which count. */
#define DSPEC_CTF_NO_FOLDER
#include "dspec_ctf.h"

#include <stdio.h>
#include <stdlib.h>
#include <string.h>

void *__real_malloc(size_t bytes);
void *__real_realloc(void *held, size_t bytes);
void __real_free(void *held);
void *__wrap_malloc(size_t bytes);
void *__wrap_realloc(void *held, size_t bytes);
void __wrap_free(void *held);

/* Blocks that were given and not freed, and how many were asked for. */
static long blocks, asked;

void *__wrap_malloc(size_t bytes) {
    void *held = __real_malloc(bytes);
    asked++;
    blocks += held != NULL;
    return held;
}

void *__wrap_realloc(void *held, size_t bytes) {
    void *moved = __real_realloc(held, bytes);
    asked++;
    blocks += held == NULL && moved != NULL;
    return moved;
}

void __wrap_free(void *held) {
    blocks -= held != NULL;
    __real_free(held);
}

static bool asks_again;
static int refusals;

static dspec_schema schema;
static dspec_session session;
static dspec_cpu cpus[2];
static dspec_consumer consumer;
static dspec_closed closed;
static dspec_schema stamped;
static dspec_ctf ctf, roomy, guest;

static void let_go(void) {
    dspec_ctf_drop(&guest);
    dspec_ctf_drop(&roomy);
    dspec_ctf_drop(&ctf);
    dspec_schema_drop(&stamped);
    dspec_closed_drop(&closed);
    dspec_consumer_drop(&consumer);
    for (int i = 0; i < 2; i++) dspec_cpu_drop(&cpus[i]);
    dspec_session_drop(&session);
    dspec_schema_drop(&schema);
}

static _Noreturn void end(int status) {
    let_go();
    if (blocks != 0) printf("%ld blocks were not freed\n", blocks);
    printf("%d refused\n", refusals);
    exit(blocks == 0 ? status : 1);
}

static _Noreturn void fail(const char *what, dspec_status status) {
    printf("%s: %s\n", what, dspec_status_text(status));
    end(1);
}

/* Whether the call is to be made again. */
static bool is_refused(dspec_status status, const void *handle) {
    bool held;
    if (status != DSPEC_NO_MEMORY) return false;
    refusals++;
    memcpy(&held, handle, sizeof held);
    if (held) fail("a refused call filled its handle", status);
    if (!asks_again) end(0);
    return true;
}

#define ASK(call, handle)                                   \
    do {                                                    \
        dspec_status status_ = (call);                      \
        if (is_refused(status_, (handle))) status_ = (call); \
        if (status_ != DSPEC_OK) fail(#call, status_);      \
    } while (0)

#define OK(call)                                       \
    do {                                               \
        dspec_status status_ = (call);                 \
        if (status_ != DSPEC_OK) fail(#call, status_); \
    } while (0)

/* A CPU that came home takes memory to be handed out again, and stays at home where that is refused. */
static void park(void) {
    uint64_t settled;
    OK(dspec_cpu_home(&cpus[1]));
    OK(dspec_tend(&session, &settled));
    ASK(dspec_cpu_of(&session, 1, &cpus[1]), &cpus[1]);
}

static void start(void) {
    const dspec_config config = {
        .cpus = 2, .nspec = 3, .bufsize = 64, .specsize = 24, .max_issues = 9, .max_calls = 99, .policy = DSPEC_POLICY_SWITCH,
    };
    uint32_t epid;
    ASK(dspec_schema_new(&schema), &schema);
    OK(dspec_schema_enable(&schema, (const uint8_t[]){ 4 }, 1, &epid));
    ASK(dspec_start(&config, &schema, &session), &session);
    for (uint32_t i = 0; i < 2; i++) ASK(dspec_cpu_of(&session, i, &cpus[i]), &cpus[i]);
    ASK(dspec_consumer_of(&session, &consumer), &consumer);
    for (int times = 0; times < 2; times++) park();
}

/* A speculation of both CPUs, and a batch: from here on no call takes memory. */
static void record(void) {
    uint64_t id;
    uint32_t count;
    bool sealed;
    dspec_batch batch;
    OK(dspec_speculation(&cpus[0], &id));
    for (int i = 0; i < 2; i++) {
        OK(DSPEC_TRACE(&cpus[i], 1, 5));
        OK(DSPEC_SPECULATE(&cpus[i], id, 1, 6));
    }
    OK(dspec_commit(&cpus[0], id, &count));
    OK(dspec_ask(&consumer, 0));
    for (int i = 0; i < 2; i++) OK(dspec_service(&cpus[i], &sealed, &count));
    OK(dspec_clean(&consumer, &count));
    if (count != 1) fail("clean", DSPEC_OK);
    OK(dspec_take(&consumer, 0, &batch));
    if (batch.len != 16 || batch.bytes[4] != 5 || batch.bytes[12] != 6) fail("a batch", DSPEC_OK);
    OK(dspec_give_back(&consumer, 0));
}

static void finish(void) {
    dspec_report report;
    uint64_t settled;
    dspec_cpu *out[] = { &cpus[1] };
    OK(dspec_cpu_home(&cpus[0]));
    OK(dspec_tend(&session, &settled));
    OK(dspec_close(&session, out, 1, &consumer, &closed));
    for (uint32_t i = 0; i < 2; i++) {
        OK(dspec_closed_report(&closed, i, &report));
        if (report.offered != 2 || report.accepted != 2) fail("a report", DSPEC_OK);
    }
}

static const uint8_t two_records[] = { 1, 0, 0, 0, 9, 0, 0, 0, 0, 0, 0, 0, 7, 0, 0, 0, 1, 0, 0, 0, 8, 0, 0, 0, 0, 0, 0, 0, 6, 0, 0, 0 };
static dspec_identity identity = { .hertz = 1000, .host = { "here", 4 }, .name = { "growths", 7 } };

/* Puts all packets of a batch: how many records they have. */
static size_t put_all(dspec_ctf *of, uint8_t *room, size_t size) {
    dspec_packet packet;
    dspec_status status;
    size_t records = 0;
    while ((status = dspec_ctf_put(of, room, size, &packet)) == DSPEC_OK) records += packet.records;
    if (status != DSPEC_NO_PACKET) fail("a packet", status);
    return records;
}

/* Batches for which there is room: from there on no call takes memory. The last has as many records as so many bytes may have, as many files as a CPU
 * may have, and after them a run of several packets; each has what tells of its drops too. Another CPU has such a batch in the same room. */
static void trace_in_room(void) {
    enum { SMALLEST = 12, MANY = 400 };
    static const dspec_ctf nothing = DSPEC_EMPTY;
    static uint8_t many[MANY * SMALLEST], room[8192];
    uint64_t lost;
    uint32_t epid;
    OK(dspec_schema_enable(&stamped, two_records, 0, &epid));
    for (uint32_t i = 0; i < MANY; i++) {
        const uint32_t record[] = { epid, i < DSPEC_CTF_MAX_FILES ? DSPEC_CTF_MAX_FILES - i : 100 + i, 0 };
        memcpy(many + SMALLEST * i, record, sizeof record);
    }
    ASK(dspec_ctf_new(&stamped, &identity, 0, &roomy), &roomy);
    ASK(dspec_ctf_reserve(&roomy, sizeof many), &nothing);
    if (dspec_ctf_room(sizeof many) > sizeof room) fail("a room", DSPEC_OK);
    const long before = asked;
    OK(dspec_ctf_open(&roomy, 0, 1, many, sizeof many));
    if (put_all(&roomy, room, dspec_ctf_room(sizeof many)) != MANY) fail("the records of a batch", DSPEC_OK);
    OK(dspec_ctf_open(&roomy, 0, 1, many, sizeof many));
    OK(dspec_ctf_lose(&roomy, &lost));
    if (lost != MANY) fail("a batch that is lost", DSPEC_OK);
    if (asked != before) fail("a batch that has room asked for memory", DSPEC_OK);
    ASK(dspec_ctf_new(&stamped, &identity, 1, &guest), &guest);
    const long then = asked;
    OK(dspec_ctf_swap_rooms(&guest, &roomy));
    OK(dspec_ctf_open(&guest, 1, 1, many, sizeof many));
    if (put_all(&guest, room, dspec_ctf_room(sizeof many)) != MANY) fail("the records of a batch in another's room", DSPEC_OK);
    OK(dspec_ctf_swap_rooms(&roomy, &guest));
    OK(dspec_ctf_open(&roomy, 0, 1, many, sizeof many));
    OK(dspec_ctf_lose(&roomy, &lost));
    if (asked != then) fail("a batch in another's room asked for memory", DSPEC_OK);
}

/* The metadata of a trace, and two packets of a batch. */
static void trace(void) {
    static const dspec_text names[] = { { "step", 4 }, { "number", 6 } };
    static const uint8_t kinds[] = { DSPEC_KIND_UNSIGNED };
    static const dspec_ctf nothing = DSPEC_EMPTY;
    static uint8_t room[4096];
    dspec_packet packet;
    uint32_t epid;
    size_t size = 0;
    ASK(dspec_schema_new(&stamped), &stamped);
    OK(dspec_schema_stamp(&stamped));
    OK(dspec_schema_enable(&stamped, (const uint8_t[]){ 4 }, 1, &epid));
    ASK(dspec_ctf_metadata(&stamped, &identity, names, 2, kinds, 1, room, sizeof room, &size), &nothing);
    if (size < 1000 || memcmp(room + size - 5, "};\n};\n" + 1, 5) != 0) fail("the metadata", DSPEC_OK);
    ASK(dspec_ctf_new(&stamped, &identity, 0, &ctf), &ctf);
    ASK(dspec_ctf_open(&ctf, 0, 0, two_records, sizeof two_records), &nothing);
    for (size_t file = 0; file < 2; file++) {
        ASK(dspec_ctf_put(&ctf, room, sizeof room, &packet), &nothing);
        if (packet.file != file || packet.records != 1 || packet.size != 1024 || room[80] != 7 - file) fail("a packet", DSPEC_OK);
    }
    if (dspec_ctf_put(&ctf, room, sizeof room, &packet) != DSPEC_NO_PACKET) fail("the end of a batch", DSPEC_OK);
}

int main(int argc, char **argv) {
    static char buffer[4096];
    setvbuf(stdout, buffer, _IOFBF, sizeof buffer);
    asks_again = argc == 2 && strcmp(argv[1], "again") == 0;
    if (!asks_again && (argc != 2 || strcmp(argv[1], "once") != 0)) {
        fputs("usage: c_growths again|once\n", stderr);
        return 2;
    }
    trace();
    trace_in_room();
    start();
    long before = asked;
    record();
    finish();
    if (asked != before) fail("a call that takes no memory asked for some", DSPEC_OK);
    end(0);
}
