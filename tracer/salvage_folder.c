/* salvage_folder.c: the traces that a salvage writes: of what was kept, and of the paths that were open. */
#include "salvage.h"

#include <dirent.h>
#include <errno.h>
#include <fcntl.h>
#include <unistd.h>

/* ---- Its events. ---- */

static void name_fields(const saved_file *file, dspec_names *names, uint32_t at) {
    const saved_event *event = &file->head->events[at];
    uint32_t named = 0;
    for (uint32_t i = 0; i < event->words; i++) {
        if (event->kinds[i] == DSPEC_KIND_TEXT_NEXT) {
            dspec_names_kind(names, DSPEC_KIND_TEXT_NEXT);
            continue;
        }
        dspec_names_field(names, event->fields[named], event->kinds[i]);
        dspec_names_labels(names, &file->labels[at * DSPEC_MAX_FIELDS + named++]);
    }
}

static void name_events(writing *to, const saved_file *file, const char *prefix) {
    for (uint32_t i = 0; i < file->head->events_count; i++) {
        snprintf(to->texts[i], sizeof to->texts[i], "%s%.200s", prefix, file->head->events[i].name);
        dspec_names_event(&to->names, to->texts[i]);
        name_fields(file, &to->names, i);
    }
}

/* The event that tells of an open path, where the schema has room for one more. */
static void enable_path(writing *to) {
    static const uint8_t widths[] = { 4, 4, 4, 4, 8, 8 };
    if (dspec_layout_enable(&to->layout, &to->schema, widths, sizeof widths, &to->epid_of_path) != DSPEC_OK) return;
    dspec_names_event(&to->names, "dspec_undecided");
    dspec_names_field(&to->names, "dspec_path", DSPEC_KIND_UNSIGNED);
    dspec_names_field(&to->names, "lane", DSPEC_KIND_UNSIGNED);
    dspec_names_field(&to->names, "records", DSPEC_KIND_UNSIGNED);
    dspec_names_field(&to->names, "parked", DSPEC_KIND_UNSIGNED);
    dspec_names_field(&to->names, "key_high", DSPEC_KIND_UNSIGNED);
    dspec_names_field(&to->names, "key_low", DSPEC_KIND_UNSIGNED);
}

/* Why a path is in this trace, by the numbers of the tracer's own reasons: it was open, or parked. */
enum { IS_PARKED = DSPEC_WHY_OWN, WHYS };
static const char *const why_texts[WHYS] = { "kept", "failed", "slow", "asked", "sampled", "crash", "undecided", "signal", "key", "parked" };
static const size_t why_count = WHYS;
static const dspec_labels whys = { why_texts, &why_count };

/* The event by which readers know a path, as a tracer's trace has it. */
static void enable_end(writing *to) {
    static const uint8_t widths[] = { 4, 4, 4, 4, 4, 8, 8, 8 };
    static const char *const fields[] = { "dspec_path", "thread", "by", "cut", "why", "begun", "key_high", "key_low" };
    if (dspec_layout_enable(&to->layout, &to->schema, widths, sizeof widths, &to->epid_of_end) != DSPEC_OK) return;
    dspec_names_event(&to->names, "dspec_kept");
    for (size_t i = 0; i < sizeof widths; i++) {
        dspec_names_field(&to->names, fields[i], DSPEC_KIND_UNSIGNED);
        if (strcmp(fields[i], "why") == 0) dspec_names_labels(&to->names, &whys);
    }
}

/* ---- Its beginning. ---- */

/* The run's identity with a number of its own. */
static bool identify_as(dspec_identity *identity, const saved_head *head) {
    char host[DSPEC_HOST_SIZE];
    const saved_clock *clock = &head->clocks[head->clock];
    dspec_identity own;
    if (!dspec_identity_of_system(&own, "dspec", host)) return false;
    *identity = (dspec_identity){ .pid = head->pid, .hertz = clock->hertz, .seconds = clock->seconds, .ticks = clock->ticks, .host = { head->host, strlen(head->host) },
                                  .name = { head->program, strlen(head->program) } };
    memcpy(identity->uuid, own.uuid, sizeof own.uuid);
    return true;
}

const char *writing_begin(writing *to, const saved_file *file, const char *folder, bool is_open) {
    char path[4200];
    dspec_identity identity;
    dspec_status status = saved_file_enable(file, &to->schema, &to->layout);
    to->name = is_open ? "undecided" : "kept";
    if (status != DSPEC_OK) return dspec_status_text(status);
    if (!identify_as(&identity, file->head)) return strerror(errno);
    name_events(to, file, is_open ? "undecided_" : "");
    if (is_open) enable_path(to);
    if (is_open) enable_end(to);
    snprintf(path, sizeof path, "%.4000s/%s", folder, to->name);
    to->is_begun = dspec_folder_begin(&to->folder, path, &to->schema, file->head->lanes + 1, &identity, &to->names);
    return to->is_begun ? NULL : dspec_folder_why(&to->folder);
}

/* ---- Its records. ---- */

void writing_kept(writing *to, found_batch *batch, uint64_t without) {
    const dspec_batch all = batch->batch;
    size_t at = 0;
    if (without > 0) {
        dspec_folder_skips_(&to->layout, &all, &at, without);
        if (at == all.len) return;
        dspec_folder_part_of_(&to->folder, &to->layout, &all, &at, UINT64_MAX, &batch->batch);
        if (batch->batch.bytes == NULL) {
            dspec_folder_loses_(&to->folder, DSPEC_NO_MEMORY, 0, all.cpu, 0, batch->records - without);
            return;
        }
    }
    dspec_folder_take(&to->folder, &to->layout, &batch->batch); /* what it loses is told at its end */
}

/* The bytes of the event that tells of an open path: a multiple of 8, so that records after it are as they were. */
enum { EVENT_BYTES = 48 };

/* A batch of the path's event, with the stamp and the path's number of its first record, and its records; NULL: no memory. */
static uint8_t *with_event(const writing *to, const found_batch *batch) {
    dspec_record first;
    size_t at = 0;
    uint8_t *bytes = malloc(EVENT_BYTES + batch->batch.len);
    if (bytes == NULL || dspec_read(&to->layout, batch->batch.bytes, batch->batch.len, &at, &first) != DSPEC_READ) {
        free(bytes);
        return NULL;
    }
    number_put(bytes, to->epid_of_path, 4);
    number_put(bytes + 4, first.stamp, 8);
    number_put(bytes + 12, first.values[0], 4);
    number_put(bytes + 16, batch->batch.cpu, 4);
    number_put(bytes + 20, batch->records, 4);
    number_put(bytes + 24, batch->kind == FOUND_PARKED, 4);
    number_put(bytes + 28, 0, 4);
    number_put(bytes + 32, batch->key[0], 8);
    number_put(bytes + 40, batch->key[1], 8);
    memcpy(bytes + EVENT_BYTES, batch->batch.bytes, batch->batch.len);
    return bytes;
}

/* Writes a batch in which one event is no record of the run's. */
static void write_counted(writing *to, const dspec_batch *batch) {
    const uint64_t before = to->folder.parts[0].records;
    dspec_folder_take(&to->folder, &to->layout, batch);
    if (to->folder.parts[0].records > before) to->path_events++;
    else to->lost_events++;
}

/* Writes the event that ends the path whose records were written last, where it is due. */
static void end_path(writing *to) {
    const path_end *end = &to->end;
    uint8_t bytes[BYTES_OF_PATH];
    const dspec_batch batch = { bytes, sizeof bytes, 0, end->lane };
    if (!end->is_due || to->epid_of_end == 0) return;
    number_put(bytes, to->epid_of_end, 4);
    number_put(bytes + 4, end->at, 8);
    number_put(bytes + 12, end->number, 4);
    number_put(bytes + 16, end->thread, 4);
    number_put(bytes + 20, 0, 8);
    number_put(bytes + 28, end->is_parked ? IS_PARKED : DSPEC_WHY_UNDECIDED, 4);
    number_put(bytes + 32, end->begun, 8);
    number_put(bytes + 40, end->key[0], 8);
    number_put(bytes + 48, end->key[1], 8);
    to->end.is_due = false;
    write_counted(to, &batch);
}

/* Whether a batch has more of the path whose records were written last. */
static bool goes_on(const path_end *end, const found_batch *batch) {
    return end->is_due && !end->is_parked && batch->kind == FOUND_OPEN && end->lane == batch->batch.cpu && end->place == batch->place;
}

/* Notes the end of a batch's path: it has the stamp of the last record. */
static void note_end(writing *to, const found_batch *batch) {
    path_end end = { .is_due = true, .lane = batch->batch.cpu, .place = batch->place, .thread = batch->thread, .is_parked = batch->kind == FOUND_PARKED, .key = { batch->key[0], batch->key[1] } };
    dspec_record record;
    size_t at = 0;
    bool is_first = !goes_on(&to->end, batch);
    if (!is_first) end.begun = to->end.begun;
    for (; dspec_read(&to->layout, batch->batch.bytes, batch->batch.len, &at, &record) == DSPEC_READ; is_first = false) {
        if (is_first) end.begun = record.stamp;
        end.at = record.stamp;
        end.number = (uint32_t)record.values[0];
    }
    to->end = end;
}

bool writing_path(writing *to, const found_batch *batch) {
    dspec_batch all = batch->batch;
    uint8_t *bytes = NULL;
    if (!goes_on(&to->end, batch)) end_path(to);
    note_end(to, batch);
    if (to->epid_of_path == 0) {
        dspec_folder_take(&to->folder, &to->layout, &all);
        return true;
    }
    bytes = with_event(to, batch);
    if (bytes == NULL) return false;
    all.bytes = bytes;
    all.len += EVENT_BYTES;
    write_counted(to, &all);
    free(bytes);
    return true;
}

/* ---- Its end. ---- */

/* Whether a file that can't be opened is none of the trace's: a link, a socket, or what this user may not read, as perhaps the folder above. */
static bool is_of_others(int code) { return code == EACCES || code == ELOOP || code == ENXIO; }

/* Has what a descriptor has on the disk, and closes it: 0 or the errno; of -1 that of its open. Some file systems can't, and have nothing to do. */
static int sync_closing(int file) {
    int code;
    if (file < 0) return is_of_others(errno) ? 0 : errno;
    code = fsync(file) == 0 || errno == EINVAL || errno == EROFS ? 0 : errno;
    close(file);
    return code;
}

/* The next name of a folder; NULL at its end, or where it can't be read, which is in the errno. */
static const struct dirent *next_name(DIR *names, int *code) {
    const struct dirent *one;
    errno = 0;
    one = readdir(names);
    if (one == NULL) *code = errno;
    return one;
}

static int sync_files(const char *path) {
    DIR *names = opendir(path);
    int code = names == NULL ? errno : 0;
    for (const struct dirent *one; names != NULL && code == 0 && (one = next_name(names, &code)) != NULL;)
        if (one->d_name[0] != '.') code = sync_closing(openat(dirfd(names), one->d_name, O_RDONLY | O_NOFOLLOW | O_NONBLOCK | O_CLOEXEC));
    if (names != NULL) closedir(names);
    return code;
}

/* The trace's files, its folder, and the names of both. */
static int sync_all(const char *folder, const char *name) {
    static const char *const ends[] = { "", "/.", "/.." };
    char path[4200];
    int code;
    snprintf(path, sizeof path, "%.4000s/%s", folder, name);
    code = sync_files(path);
    for (size_t i = 0; code == 0 && i < sizeof ends / sizeof ends[0]; i++) {
        if (i > 0) snprintf(path, sizeof path, "%.4000s%s", folder, ends[i]);
        code = sync_closing(open(path, O_RDONLY | O_DIRECTORY | O_CLOEXEC));
    }
    return code;
}

const char *writing_end(writing *to, const char *folder, uint64_t *records, uint64_t *lost) {
    const dspec_loss *first = &to->folder.first;
    bool is_whole = true;
    int code = 0;
    if (to->is_begun) {
        end_path(to);
        is_whole = dspec_folder_end(&to->folder);
    }
    *records = to->is_begun ? to->folder.parts[0].records - to->path_events : 0;
    *lost = to->is_begun ? first->records - to->lost_events : 0;
    dspec_schema_drop(&to->schema);
    if (!is_whole) return first->code != 0 ? strerror(first->code) : dspec_status_text(first->status);
    if (to->is_begun) code = sync_all(folder, to->name);
    return code == 0 ? NULL : strerror(code);
}
