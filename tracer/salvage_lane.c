/* salvage_lane.c: the records of a lane, out of a memory's file. A lane has pointers, so it is read by calls of the library in a process of its own, which the system lets write to a pipe and do
 * nothing else. What comes through the pipe is checked again. */
#include "salvage.h"

#include <errno.h>
#include <fcntl.h>
#include <poll.h>
#include <sys/mman.h>
#include <sys/prctl.h>
#include <sys/resource.h>
#include <sys/syscall.h>
#include <sys/wait.h>
#include <unistd.h>

#ifndef MAP_FIXED_NOREPLACE
#define MAP_FIXED_NOREPLACE 0x100000
#endif

enum { READ_MS = 60000, READ_SECONDS = 1, MOST_PARTS = 8 + 4 * MAX_OPEN };
/* How the process of a lane ends. */
enum { IS_READ = 0, IS_NO_LANE = 1, HAS_NO_PLACE = 2 };

/* What the process of a lane tells: a batch (found_kind), that what comes may be half of something, or that it is through. */
enum { TELLS_END = 5, TELLS_TORN = 6 };
struct told {
    uint32_t what, place;
    uint64_t drops, length;
    uint64_t skipped, count;      /* so many records after so many others */
    uint32_t is_part, may_differ; /* other bytes come after them; a record was being made, which is counted before its bytes or after them */
    uint64_t key[2], path;        /* of a parked path the key and the number */
};

static const char no_lane[] = "its memory isn't what a lane's is", no_place[] = "the address that it was at isn't free in this process";

/* ---- The process that reads a lane. ---- */

struct reading {
    struct lane *lane;
    const uint8_t *buffers[2];
    size_t size;
    bool is_sent[2]; /* with what was kept: a buffer has that once */
    bool in_call, commits; /* a thread was in a call, which was a commit */
    int to;
    uint8_t *bytes; /* as many as a buffer has */
};

static void give_up(void) { syscall(SYS_exit, IS_NO_LANE); }

static void send_bytes(const struct reading *reading, const struct told *told, const uint8_t *bytes, size_t length) {
    if (dspec_folder_write_(reading->to, (const uint8_t *)told, sizeof *told) != 0) give_up();
    if (length > 0 && dspec_folder_write_(reading->to, bytes, length) != 0) give_up();
}

static void send_word(const struct reading *reading, uint32_t what) {
    const struct told told = { .what = what };
    send_bytes(reading, &told, NULL, 0);
}

/* A batch that has bytes has those of one of the lane's own buffers. */
static void note_sent(struct reading *reading, uint32_t what, const uint8_t *bytes, size_t length) {
    const uint32_t buffer = bytes == reading->buffers[1];
    if (length == 0) return;
    if (bytes != reading->buffers[buffer] || length > reading->size || (what != FOUND_OPEN && reading->is_sent[buffer])) give_up();
    reading->is_sent[buffer] |= what != FOUND_OPEN;
}

static void send_whole(struct reading *reading, uint32_t what, uint32_t place, uint64_t count, bool may_differ, const dspec_batch *batch) {
    const struct told told = { .what = what, .place = place, .drops = batch->drops, .length = batch->len, .count = count, .may_differ = may_differ };
    note_sent(reading, what, batch->bytes, batch->len);
    send_bytes(reading, &told, batch->bytes, batch->len);
}

/* Records of a buffer that the session can't hand out. */
static void send_raw(struct reading *reading, uint32_t what, uint32_t place, uint32_t buffer, uint64_t skipped, uint64_t count) {
    const struct told told = { .what = what, .place = place, .length = reading->size, .skipped = skipped, .count = count, .is_part = true };
    if (count == 0) return;
    note_sent(reading, what, reading->buffers[buffer & 1], reading->size);
    send_bytes(reading, &told, reading->buffers[buffer & 1], reading->size);
}

/* How many records the batch has that was switched out last, and wasn't given back: as many as were there before the service, where that hasn't noted it. */
static uint64_t switched_records(const struct lane *lane) { return lane->given == lane->switched ? lane->standing : lane->sealed; }

/* That batch. What it dropped and was offered again after it, isn't missed. */
static void send_last(struct reading *reading, uint32_t what, const dspec_batch *last) {
    const struct lane *lane = reading->lane;
    const uint32_t again = lane->again[lane->given % 2];
    dspec_batch batch = *last;
    batch.drops -= again < batch.drops ? again : batch.drops;
    if (batch.len > 0 || batch.drops > 0) send_whole(reading, what, 0, switched_records(lane), false, &batch);
}

/* Where nobody has taken it: whether there is one. */
static bool send_switched(struct reading *reading) {
    dspec_batch batch;
    if (dspec_take(&reading->lane->consumer, 0, &batch) != DSPEC_OK) return false;
    send_last(reading, FOUND_KEPT, &batch);
    dspec_give_back(&reading->lane->consumer, 0);
    return true;
}

/* What is in the buffer that is filled: whether it could be switched. */
static bool send_by_switch(struct reading *reading, uint32_t what, uint32_t place, uint64_t count, bool may_differ) {
    bool sealed = false;
    uint32_t settled;
    dspec_batch batch;
    dspec_ask(&reading->lane->consumer, 0);
    dspec_service(&reading->lane->front.cpu, &sealed, &settled);
    if (dspec_take(&reading->lane->consumer, 0, &batch) != DSPEC_OK) return false;
    if (batch.len > 0 || batch.drops > 0) send_whole(reading, what, place, count, may_differ, &batch);
    dspec_give_back(&reading->lane->consumer, 0);
    return sealed;
}

static bool is_whole(const dspec_batch *batch) { return batch->bytes != nothing_out.bytes && batch->len != nothing_out.len && batch->drops != nothing_out.drops; }

/* Whether what a lane says of its batches fits together, so that no word alone makes one of none. */
static bool fits_together(const struct lane *lane) {
    if (lane->bringing > WAS_TAKEN || lane->serving > HAS_SWITCHED || lane->taken - lane->given > 1 || lane->switched + 1 - lane->taken > 2) return false;
    if (lane->bringing == IS_BROUGHT && lane->taken == lane->given) return false;
    return (lane->bringing != IS_TAKEN && lane->bringing != WAS_TAKEN) || !is_whole(&lane->out) || lane->serving != NOT_SERVED || lane->switched == lane->taken + 1 || lane->taken == lane->given + 1;
}

/* The batch that the consumer was taking: whether there was one. */
static bool send_taken(struct reading *reading) {
    const struct lane *lane = reading->lane;
    if (send_switched(reading)) return true;
    if (is_whole(&lane->out)) {
        send_last(reading, FOUND_KEPT, &lane->out);
        return true;
    }
    if (lane->serving != NOT_SERVED || lane->switched != lane->taken + 1) return false;
    send_raw(reading, FOUND_KEPT, 0, lane->filled + 1, 0, lane->sealed); /* it was on its way */
    return true;
}

/* The batch that the consumer had, was taking or was giving back: whether there was one. The session gets it back where it handed it out as a whole. In the middle of that, and of giving it back, the session may
 * have a half of it, which no record may go into. */
static bool send_out(struct reading *reading) {
    struct lane *lane = reading->lane;
    if (lane->bringing == IS_TAKEN) return send_taken(reading);
    if (lane->bringing == IS_BROUGHT || lane->bringing == WAS_TAKEN) {
        send_last(reading, lane->bringing == IS_BROUGHT ? FOUND_BROUGHT : FOUND_KEPT, &lane->out);
        dspec_give_back(&lane->consumer, 0);
    }
    return lane->bringing != NOT_OUT;
}

/* The records of an open path, which a commit puts after the others. before: how many those are, where the buffer can't be switched; else NULL. */
static void send_path(struct reading *reading, uint32_t place, uint64_t id, uint64_t *before) {
    uint32_t count;
    if (id == 0 || dspec_commit(&reading->lane->front.cpu, id, &count) != DSPEC_OK) return;
    if (before == NULL) {
        send_by_switch(reading, FOUND_OPEN, place, count, true);
        return;
    }
    send_raw(reading, FOUND_OPEN, place, reading->lane->filled, *before, count);
    *before += count;
}

static void send_paths(struct reading *reading, uint64_t *before) {
    dspec_open_path path;
    for (uint32_t place = 0; place < MAX_OPEN; place++) {
        if (dspec_paths_open_of(&reading->lane->paths, place, 0, &path) != DSPEC_OK) continue;
        send_path(reading, place, path.older, before);
        send_path(reading, place, path.newest, before);
    }
}

/* ---- Parked paths. ---- */

/* Whether a path is open still: its thread was parking it. */
static bool is_open(struct lane *lane, uint64_t number) {
    dspec_open_path path;
    for (uint32_t place = 0; place < MAX_OPEN; place++)
        if (dspec_paths_open_of(&lane->paths, place, 0, &path) == DSPEC_OK && path.number == number) return true;
    return false;
}

/* Those that are parked, the oldest first. A thread that was parking one may have left the ring in the middle of something. */
static void send_parked(const struct reading *reading) {
    dspec_parking *ring = &reading->lane->parked.ring;
    dspec_parked block;
    size_t places;
    if (dspec_parking_places(ring, &places) != DSPEC_OK) return;
    if (reading->in_call) send_word(reading, TELLS_TORN);
    for (size_t place = 0; place < places; place++) {
        struct told told = { .what = FOUND_PARKED };
        if (dspec_parking_at(ring, place, &block) != DSPEC_OK || is_open(reading->lane, block.stamp >> 32)) continue;
        if (dspec_parking_take(ring, place, reading->bytes, reading->size, &block) != DSPEC_OK) give_up();
        told.length = block.length;
        told.key[0] = block.key_high;
        told.key[1] = block.key_low;
        told.path = block.stamp >> 32;
        send_bytes(reading, &told, reading->bytes, block.length);
    }
}

/* ---- All of a lane. ---- */

/* Whether the thread was in a service that hadn't switched, or was in the middle of it: then no buffer was out, and as many were taken as were switched. */
static bool is_torn(const struct lane *lane, bool is_out) { return lane->serving == IS_SERVED && !is_out && lane->taken == lane->switched; }

/* Of a lane in the middle of a switch what the buffer had is read by its records, which were counted before. The session may have two halves then, and what is told of open paths is compared with what
 * it counts. */
static void send_torn(struct reading *reading, uint64_t records) {
    if (records != reading->lane->standing) give_up();
    send_raw(reading, FOUND_KEPT, 0, reading->lane->filled, 0, reading->lane->standing);
    send_word(reading, TELLS_TORN);
    send_by_switch(reading, FOUND_OPEN, 0, 0, false); /* what is there is no path's, and is told already */
    send_paths(reading, NULL);
}

/* What the buffer has that is filled, and the open paths. uncertain: so many of its records are counted, and no call has answered them. A service that has just switched, and hasn't noted it, leaves that buffer empty. */
static void send_filled(struct reading *reading, uint64_t records, uint64_t uncertain) {
    const struct lane *lane = reading->lane;
    const bool has_switched = lane->serving != NOT_SERVED && lane->given == lane->switched;
    if (has_switched) records = 0;
    if (send_by_switch(reading, FOUND_KEPT, 0, records, reading->in_call) || has_switched) {
        send_paths(reading, NULL);
        return;
    }
    send_raw(reading, FOUND_KEPT, 0, lane->filled, 0, records - uncertain);
    if (!reading->commits && uncertain == 0) send_paths(reading, &records);
}

/* A buffer's offset is stored after the bytes that it counts, so a record that was being made isn't there. */
static void read_lane(struct reading *reading) {
    dspec_report is;
    uint64_t records, uncertain;
    bool is_out;
    if (!fits_together(reading->lane)) give_up();
    is_out = send_out(reading);
    is_out = send_switched(reading) || is_out;
    dspec_cpu_report(&reading->lane->front.cpu, &is); /* a service changes nothing that is counted here */
    records = is.accepted - reading->lane->accepted;
    uncertain = reading->in_call ? is.accepted - reading->lane->front.answered : 0;
    if (uncertain > records) give_up();
    if (is_torn(reading->lane, is_out)) send_torn(reading, records);
    else send_filled(reading, records, uncertain);
    send_parked(reading);
    send_word(reading, TELLS_END);
    syscall(SYS_exit, IS_READ);
}

/* The child of a fork: maps the memory for itself, gives up what it doesn't need, and reads. A handler of the program's has no business here. */
static void run_lane(const saved_file *file, uint32_t number, uint8_t *bytes, int to) {
    static const int faults[] = { SIGSEGV, SIGBUS, SIGFPE, SIGILL, SIGABRT, SIGXCPU };
    const struct rlimit time = { READ_SECONDS, READ_SECONDS }, none = { 0, 0 };
    const struct sigaction plain = { .sa_handler = SIG_DFL };
    const struct lane *copy = &file->tracer->lanes[number];
    void *wanted = (void *)(uintptr_t)file->head->address;
    struct reading reading = { .buffers = { copy->buffers[0], copy->buffers[1] }, .size = file->head->bufsize, .in_call = saved_lane_is_in_call(file, number), .to = to, .bytes = bytes };
    for (size_t i = 0; i < sizeof faults / sizeof faults[0]; i++) sigaction(faults[i], &plain, NULL);
    if (mmap(wanted, file->head->size, PROT_READ | PROT_WRITE, MAP_PRIVATE | MAP_NORESERVE | MAP_FIXED_NOREPLACE, file->at, 0) != wanted) syscall(SYS_exit, HAS_NO_PLACE);
    reading.commits = reading.in_call && copy->front.commits != 0;
    reading.lane = (struct lane *)(void *)((char *)wanted + file->head->body_at + offsetof(body, lanes)) + number;
    setrlimit(RLIMIT_CPU, &time);
    setrlimit(RLIMIT_CORE, &none);
    prctl(PR_SET_SECCOMP, 1); /* the strict mode: read, write, exit and a handler's return alone */
    read_lane(&reading);
}

/* ---- What it tells. ---- */

/* So many bytes of a pipe within a time: whether they came. */
static bool receive(int from, void *to, size_t size, uint64_t until) {
    uint8_t *at = to;
    while (size > 0) {
        struct pollfd one = { .fd = from, .events = POLLIN };
        const uint64_t now = dspec_monotonic() / 1000000;
        ssize_t count;
        if (now >= until) return false;
        if (poll(&one, 1, (int)(until - now)) < 0 && errno == EINTR) continue;
        count = one.revents != 0 ? read(from, at, size) : -1;
        if (count < 0 && errno == EINTR) continue;
        if (count <= 0) return false;
        at += count;
        size -= (size_t)count;
    }
    return true;
}

/* A record has an EPID and a stamp at least. */
enum { LEAST_OF_A_RECORD = 12 };

/* How many records a call may have counted whose bytes aren't there yet, or the other way round: those of a path that is being kept. No call had answered them. */
static uint64_t most_of_a_call(const saved_file *file) { return file->head->specsize / LEAST_OF_A_RECORD + 1; }

/* Whether each record was made at a time that a trace can tell: of a file with one that wasn't, babeltrace2 reads nothing. */
static bool has_times(const saved_file *file, const dspec_batch *batch) {
    dspec_record record;
    for (size_t at = 0; dspec_read(&file->layout, batch->bytes, batch->len, &at, &record) == DSPEC_READ;)
        if (record.stamp > file->latest) return false;
    return true;
}

/* A batch of the records that were meant, or none where there are others: whether it has those. So a file with a word changed has a lane that isn't read, and not records that it never had. */
static bool is_meant(saved_file *file, const struct told *told, dspec_batch *batch) {
    dspec_batch all = *batch;
    size_t from = 0, to;
    uint64_t count;
    batch->len = 0;
    if (dspec_folder_skips_(&file->layout, &all, &from, told->skipped) != told->skipped) return false;
    to = from;
    count = dspec_folder_skips_(&file->layout, &all, &to, told->is_part != 0 ? told->count : UINT64_MAX);
    if (told->is_part != 0 ? count != told->count : to != all.len) return false;
    if (told->may_differ != 0 ? count + most_of_a_call(file) < told->count || count > told->count + most_of_a_call(file) : count != told->count) return false;
    all.len = to;
    if (told->is_part == 0) *batch = all;
    else if (count > 0) dspec_folder_part_of_(&file->scratch, &file->layout, &all, &from, UINT64_MAX, batch);
    return batch->bytes != NULL && has_times(file, batch);
}

/* Whether all of a batch are records of one path. */
static bool is_of_path(const saved_file *file, uint64_t number, const dspec_batch *batch) {
    dspec_record record;
    size_t at = 0;
    while (dspec_read(&file->layout, batch->bytes, batch->len, &at, &record) == DSPEC_READ)
        if (record.values[0] != number) return false;
    return at == batch->len;
}

/* Of a parked path it isn't known how many records it has, but of which path they are. */
static bool is_told(saved_file *file, const struct told *told, dspec_batch *batch) {
    return told->what == FOUND_PARKED ? is_of_path(file, told->path, batch) && has_times(file, batch) : is_meant(file, told, batch);
}

/* A path's first record comes before its place is noted: until then that has what was noted of the path before. */
static bool hand_out(const saved_file *file, const struct told *told, const dspec_batch *batch, found_call get, void *to) {
    const open_path *opened = &file->tracer->lanes[batch->cpu].open[told->place];
    const bool is_noted = told->what == FOUND_OPEN && opened->mark != 0;
    size_t at = 0;
    found_batch found = { (found_kind)told->what, told->place, *batch, 0, { told->key[0], told->key[1] }, told->path, file->tracer->lanes[batch->cpu].before, 0 };
    if (is_noted && opened->key_state != NO_KEY) memcpy(found.key, opened->key, sizeof found.key);
    if (is_noted) found.thread = opened->thread;
    found.records = dspec_folder_skips_(&file->layout, batch, &at, UINT64_MAX);
    return get(to, &found);
}

/* More than a batch drops: one each nanosecond of a year. Of a packet that tells the most that 64 bits count, babeltrace2 ends. */
#define MOST_DROPS (UINT64_C(1) << 55)

/* Whether what is told of a batch is within its bounds. */
static bool is_within(const saved_file *file, const struct told *told) {
    return told->what >= FOUND_BROUGHT && told->what <= FOUND_PARKED && told->length <= file->head->bufsize && told->place < MAX_OPEN && told->drops <= MOST_DROPS;
}

/* Whether all that a lane's process tells is well. */
static bool hear(saved_file *file, int from, uint32_t number, uint8_t *bytes, found_call get, void *to) {
    const uint64_t until = dspec_monotonic() / 1000000 + READ_MS, most = MOST_PARTS + park_places(file->head->park_bytes);
    bool is_torn = false;
    for (uint64_t part = 0; part < most; part++) {
        dspec_batch batch = { bytes, 0, 0, number };
        struct told told;
        if (!receive(from, &told, sizeof told, until)) return is_torn;
        if (told.what == TELLS_END) return true;
        is_torn |= told.what == TELLS_TORN;
        if (told.what == TELLS_TORN) continue;
        if (!is_within(file, &told) || !receive(from, bytes, told.length, until)) return is_torn;
        batch.len = told.length;
        batch.drops = told.what >= FOUND_OPEN ? 0 : told.drops;
        if (is_told(file, &told, &batch)) {
            if (!hand_out(file, &told, &batch, get, to)) return false;
        } else if (!is_torn) {
            return false;
        }
    }
    return false;
}

/* ---- A lane. ---- */

bool saved_lane_is_in_call(const saved_file *file, uint32_t number) {
    const struct lane *lane = &file->tracer->lanes[number];
    return lane->front.inside != 0 || (lane->front.state & HELD) != 0;
}

/* Whether a lane's two buffers are in the memory, and no byte of them is in another one's: so none is read twice. */
static bool has_own_buffers(const saved_file *file, uint32_t number) {
    const uint64_t size = file->head->bufsize, first = file->head->address + file->head->memory_at, end = file->head->address + file->head->size;
    for (uint32_t mine = 0; mine < 2; mine++) {
        const uint64_t at = (uintptr_t)file->tracer->lanes[number].buffers[mine];
        if (at < first || at > end - size || end - first < size) return false;
        for (uint32_t other = 0; other < 2 * (file->head->lanes + 1); other++) {
            const uint64_t its = (uintptr_t)file->tracer->lanes[other / 2].buffers[other % 2];
            if (other != 2 * number + mine && its < at + size && at < its + size) return false;
        }
    }
    return true;
}

static bool is_place_free(const saved_head *head) {
    void *wanted = (void *)(uintptr_t)head->address, *at = mmap(wanted, head->size, PROT_NONE, MAP_PRIVATE | MAP_ANONYMOUS | MAP_NORESERVE | MAP_FIXED_NOREPLACE, -1, 0);
    if (at != MAP_FAILED) munmap(at, head->size);
    return at == wanted;
}

static const char *read_in_process(saved_file *file, uint32_t number, uint8_t *bytes, found_call get, void *to) {
    int ends[2], status = 0, code;
    bool is_well;
    pid_t child;
    if (pipe2(ends, O_CLOEXEC) != 0) return strerror(errno);
    child = fork();
    if (child == 0) {
        run_lane(file, number, bytes, ends[1]);
        _exit(IS_NO_LANE);
    }
    code = errno;
    close(ends[1]);
    is_well = child > 0 && hear(file, ends[0], number, bytes, get, to);
    close(ends[0]);
    if (child < 0) return strerror(code);
    if (!is_well) kill(child, SIGKILL);
    while (waitpid(child, &status, 0) < 0 && errno == EINTR) {}
    if (is_well) return NULL;
    return WIFEXITED(status) && WEXITSTATUS(status) == HAS_NO_PLACE ? no_place : no_lane;
}

const char *saved_lane_read(saved_file *file, uint32_t number, found_call get, void *to) {
    uint8_t *bytes;
    const char *why;
    if (file->tracer->lanes[number].number != number || !has_own_buffers(file, number)) return no_lane;
    if (!is_place_free(file->head)) return no_place;
    bytes = malloc(file->head->bufsize);
    if (bytes == NULL) return dspec_status_text(DSPEC_NO_MEMORY);
    why = read_in_process(file, number, bytes, get, to);
    free(bytes);
    return why;
}
