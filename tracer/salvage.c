/* salvage.c: dspec_salvage: what a tracer had that was killed, out of its file (survive.h), as traces. */
#include "salvage.h"

#include <errno.h>
#include <fcntl.h>
#include <sys/stat.h>
#include <unistd.h>

struct salvage {
    saved_file file;
    dspec_salvaged *told;
    const char *path, *folder;
    uint32_t last_lane, last_place; /* of the open path that was found last */
    bool is_owed; /* the event that the lane owes wasn't found among its records */
    bool is_parked; /* the path that the consumer was taking is in its ring still */
    int why_unsure; /* the error by which the run's folder couldn't be opened; 0 where it isn't there */
    writing kept, open;
};

/* The first reason is told. */
static bool fail(struct salvage *salvage, const char *what, const char *why) {
    if (salvage->told->why[0] == 0 && snprintf(salvage->told->why, sizeof salvage->told->why, "%.150s: %.90s", what, why) < 0) salvage->told->why[0] = 0;
    return false;
}

static bool is_without(struct salvage *salvage, const char *what, const char *why) { return why == NULL || fail(salvage, what, why); }

/* ---- What is found. ---- */

/* The event of a path for which its lane had no room, of the path's number. */
static uint64_t owed_path(const struct lane *lane) { return lane->owed[0] >> 32; }

/* A lane that was paying what it owes may have paid it. */
static void find_owed(struct salvage *salvage, const dspec_batch *batch) {
    const struct lane *lane = &salvage->file.tracer->lanes[batch->cpu];
    dspec_record record;
    for (size_t at = 0; salvage->is_owed && dspec_read(&salvage->file.layout, batch->bytes, batch->len, &at, &record) == DSPEC_READ;)
        salvage->is_owed = record.epid != (uint32_t)salvage->file.tracer->claim_of_path || record.stamp != lane->owed_at || record.values[0] != owed_path(lane);
}

/* Writes the event that a lane owes, after all of its records: its text is as the library has it. Whether it is the event that the head tells. */
static bool write_owed(struct salvage *salvage, uint32_t number) {
    const struct lane *lane = &salvage->file.tracer->lanes[number];
    found_batch batch = { .kind = FOUND_KEPT, .records = 1 };
    uint8_t bytes[BYTES_OF_PATH];
    dspec_record is;
    size_t at = 0;
    number_put(bytes, (uint32_t)salvage->file.tracer->claim_of_path, 4);
    number_put(bytes + 4, lane->owed_at, 8);
    number_put(bytes + 12, owed_path(lane), 4);
    for (size_t i = 1; i < WORDS_OF_PATH; i++) number_put(bytes + 8 + 8 * i, lane->owed[i], 8);
    batch.batch = (dspec_batch){ bytes, sizeof bytes, 0, number };
    if (dspec_read(&salvage->file.layout, bytes, sizeof bytes, &at, &is) != DSPEC_READ || at != sizeof bytes || is.stamp > salvage->file.latest)
        return fail(salvage, "a lane", "what it owes is no event of a path");
    writing_kept(&salvage->kept, &batch, 0);
    return true;
}

static bool get_kept(struct salvage *salvage, found_batch *batch) {
    uint64_t unsure = 0, without = batch->kind == FOUND_BROUGHT ? written_records(&salvage->file, salvage->path, batch, &unsure, &salvage->why_unsure) : 0;
    if (without > batch->records) return false;
    salvage->told->unsure += unsure;
    find_owed(salvage, &batch->batch);
    writing_kept(&salvage->kept, batch, without);
    return true;
}

/* Whether a parked path is the one that the consumer was taking out of this lane's ring. */
static bool is_next(const taken_paths *taken, const found_batch *batch) {
    return batch->kind == FOUND_PARKED && taken->lane == batch->batch.cpu && taken->next.number == batch->path;
}

static bool get_path(struct salvage *salvage, const found_batch *batch) {
    salvage->is_parked |= is_next(&salvage->file.tracer->taken, batch);
    if (batch->records == 0) return true;
    if (salvage->open.name == NULL) is_without(salvage, "undecided", writing_begin(&salvage->open, &salvage->file, salvage->folder, true));
    if (!salvage->open.is_begun) return false;
    if (batch->kind == FOUND_PARKED || batch->batch.cpu != salvage->last_lane || batch->place != salvage->last_place) salvage->told->paths++;
    salvage->last_lane = batch->batch.cpu;
    salvage->last_place = batch->place;
    return writing_path(&salvage->open, batch) || fail(salvage, "undecided", dspec_status_text(DSPEC_NO_MEMORY));
}

static bool get(void *to, found_batch *batch) { return batch->kind >= FOUND_OPEN ? get_path(to, batch) : get_kept(to, batch); }

/* What was taken out of a lane's ring to be kept, and isn't in the folder. */
static bool get_taken(struct salvage *salvage, uint32_t number, bool is_read) {
    const taken_paths *taken = &salvage->file.tracer->taken;
    found_batch batch;
    uint8_t *bytes;
    const char *why;
    bool is_well;
    if (taken->state == NOTHING_TAKEN || taken->lane != number) return true;
    why = saved_taken_read(&salvage->file, salvage->is_parked || !is_read, &batch, &bytes);
    salvage->told->unreadable += why != NULL;
    if (why != NULL) return fail(salvage, "paths that were being kept", why);
    is_well = batch.records == 0 || get_kept(salvage, &batch) || fail(salvage, "paths that were being kept", "the folder has more of them than there were");
    free(bytes);
    return is_well;
}

/* Whether a lane was in the middle of something: in a call, or the consumer had a batch of it. */
static bool is_busy(const saved_file *file, uint32_t number) {
    const taken_paths *taken = &file->tracer->taken;
    return saved_lane_is_in_call(file, number) || file->tracer->lanes[number].bringing != NOT_OUT || (taken->state != NOTHING_TAKEN && taken->lane == number);
}

static bool read_lanes(struct salvage *salvage) {
    bool is_whole = true;
    salvage->last_lane = salvage->last_place = UINT32_MAX;
    salvage->told->lanes = salvage->file.head->lanes + 1;
    for (uint32_t i = 0; i < salvage->told->lanes; i++) {
        const char *why;
        salvage->is_owed = salvage->file.tracer->lanes[i].owes == OWES_EVENT;
        salvage->is_parked = false;
        why = saved_lane_read(&salvage->file, i, get, salvage);
        if (why == NULL && salvage->is_owed) is_whole = write_owed(salvage, i) && is_whole;
        is_whole = get_taken(salvage, i, why == NULL) && is_whole;
        salvage->told->in_call += is_busy(&salvage->file, i);
        if (why == NULL) continue;
        salvage->told->unreadable++;
        is_whole = fail(salvage, "a lane", why);
    }
    return is_whole;
}

/* ---- The whole. ---- */

/* What the run's folder was getting may be in it too: says why that isn't known. */
static bool fail_unsure(struct salvage *salvage) {
    char why[90];
    snprintf(why, sizeof why, "%.40s, so what it was getting may be twice", salvage->why_unsure == 0 ? "it isn't found" : strerror(salvage->why_unsure));
    return fail(salvage, salvage->told->folder, why);
}

static bool end_all(struct salvage *salvage) {
    uint64_t lost[2] = { 0, 0 };
    bool is_whole = is_without(salvage, salvage->folder, writing_end(&salvage->kept, salvage->folder, &salvage->told->kept, &lost[0]));
    is_whole = is_without(salvage, salvage->folder, writing_end(&salvage->open, salvage->folder, &salvage->told->undecided, &lost[1])) && is_whole;
    salvage->told->not_written = lost[0] + lost[1];
    return (salvage->told->unsure == 0 || fail_unsure(salvage)) && is_whole;
}

static bool write_all(struct salvage *salvage) {
    bool is_whole;
    if (mkdir(salvage->folder, 0777) != 0 && errno != EEXIST) return fail(salvage, salvage->folder, strerror(errno));
    is_whole = is_without(salvage, "kept", writing_begin(&salvage->kept, &salvage->file, salvage->folder, false)) && read_lanes(salvage);
    return end_all(salvage) && is_whole;
}

/* It is marked after what was written of it is on the disk, by one byte, which is written or isn't. */
static bool mark(struct salvage *salvage, int file) {
    const uint8_t done = 1;
    ssize_t count;
    do count = pwrite(file, &done, sizeof done, offsetof(saved_head, salvaged));
    while (count < 0 && errno == EINTR);
    return count == (ssize_t)sizeof done || fail(salvage, salvage->path, strerror(errno));
}

static bool is_readable(struct salvage *salvage, int file) {
    struct stat is;
    if (fstat(file, &is) != 0 || !S_ISREG(is.st_mode)) return fail(salvage, salvage->path, "it is no file");
    if (is.st_uid != geteuid()) return fail(salvage, salvage->path, "it is another user's");
    if (!memory_file_lock(file)) return fail(salvage, salvage->path, errno == EAGAIN || errno == EACCES ? "a process uses it; a copy of it can be read" : strerror(errno));
    if (!is_without(salvage, salvage->path, saved_file_read(&salvage->file, file))) return false;
    if (memory_file_is_alive(salvage->file.head, salvage->file.device, salvage->file.inode)) return fail(salvage, salvage->path, "a process uses it; a copy of it can be read");
    return salvage->file.head->salvaged == 0 || fail(salvage, salvage->path, "it was salvaged before");
}

static bool salvages(struct salvage *salvage) {
    bool is_whole;
    int file;
    if (memory_file_is_this_process(salvage->path)) return fail(salvage, salvage->path, "this process uses it; a copy of it can be read");
    file = open(salvage->path, O_RDWR | O_NOFOLLOW | O_NONBLOCK | O_CLOEXEC);
    if (file < 0) return fail(salvage, salvage->path, errno == ELOOP ? "it is a link" : strerror(errno));
    is_whole = is_readable(salvage, file);
    if (is_whole) {
        snprintf(salvage->told->folder, sizeof salvage->told->folder, "%s", salvage->file.head->folder);
        salvage->told->lost = salvage->file.tracer->folder.lost ? salvage->file.tracer->folder.first.records : 0;
        is_whole = write_all(salvage) && mark(salvage, file);
    }
    saved_file_drop(&salvage->file);
    close(file);
    return is_whole;
}

bool dspec_salvage(const char *file, const char *folder, dspec_salvaged *told_of) {
    static dspec_salvaged unused;
    struct salvage *salvage = calloc(1, sizeof *salvage);
    held_limit held;
    bool is_whole;
    if (told_of == NULL) told_of = &unused;
    memset(told_of, 0, sizeof *told_of);
    if (salvage == NULL) {
        snprintf(told_of->why, sizeof told_of->why, "%s", dspec_status_text(DSPEC_NO_MEMORY));
        return false;
    }
    salvage->told = told_of;
    salvage->path = file;
    salvage->folder = folder;
    held = limit_hold();
    is_whole = salvages(salvage);
    limit_release(&held);
    free(salvage);
    return is_whole;
}
