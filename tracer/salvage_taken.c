/* salvage_taken.c: the parked paths that the consumer had taken out of a lane's ring to keep them, out of a memory's file. They are read as data, and checked. */
#include "salvage.h"

#include <unistd.h>

static const char no_paths[] = "they aren't whole paths with their events";

/* Reads the bytes that they are in; NULL: there is no memory, or the file ends before. */
static uint8_t *read_bytes(const saved_file *file, uint64_t size) {
    uint8_t *bytes = calloc(1, size);
    for (uint64_t at = 0; bytes != NULL && at < size;) {
        const ssize_t count = pread(file->at, bytes + at, size - at, (off_t)(file->head->body_at + file->head->body_size + at));
        if (count < 0 && errno == EINTR) continue;
        if (count <= 0) {
            free(bytes);
            return NULL;
        }
        at += (uint64_t)count;
    }
    return bytes;
}

/* Whether so many bytes are whole records, and when the last of them was made. */
static bool are_records(const dspec_layout *layout, const uint8_t *bytes, size_t length, uint64_t *stamp) {
    dspec_record record;
    size_t at = 0;
    while (dspec_read(layout, bytes, length, &at, &record) == DSPEC_READ) *stamp = record.stamp;
    return at == length;
}

/* Puts the event of the path that was being taken, of which all records are there: whether it is one. */
static bool add_next(const saved_file *file, taken_paths *taken, uint8_t *bytes) {
    const taken_path *next = &taken->next;
    uint64_t stamp = 0;
    if (next->length > taken->size || !taken_has_room(taken, next->length) || !are_records(&file->layout, bytes + next->at, next->length, &stamp)) return false;
    taken->used = taken_put_event(&file->layout, file->tracer->claim_of_path, next, stamp, bytes);
    taken->count++;
    return true;
}

/* Whether all bytes are paths, each with its event at its end: how many. */
static bool are_paths(const saved_file *file, const taken_paths *taken, const uint8_t *bytes, uint64_t *paths) {
    uint64_t number = 0;
    bool is_inside = false;
    dspec_record record;
    size_t at = 0;
    *paths = 0;
    while (dspec_read(&file->layout, bytes, taken->used, &at, &record) == DSPEC_READ) {
        const bool is_event = record.epid == (uint32_t)file->tracer->claim_of_path;
        if (record.stamp > file->latest || (is_inside && record.values[0] != number)) return false;
        number = record.values[0];
        is_inside = !is_event;
        *paths += is_event;
    }
    return at == taken->used && !is_inside;
}

/* Whether all that was taken is whole, with the one that was being taken. That one is counted a moment before it is there. */
static bool completes(const saved_file *file, bool is_parked, taken_paths *taken, uint8_t *bytes) {
    const bool has_next = taken->state == IS_TAKING && !is_parked && taken->next.at == taken->used;
    uint64_t paths;
    if (has_next && !add_next(file, taken, bytes)) return false;
    return are_paths(file, taken, bytes, &paths) && taken->count - paths <= has_next;
}

const char *saved_taken_read(const saved_file *file, bool is_parked, found_batch *batch, uint8_t **bytes) {
    taken_paths taken = file->tracer->taken;
    size_t at = 0;
    taken.size = file->head->bufsize + 2 * (uint64_t)BYTES_OF_PATH;
    if (taken.state > IS_WRITING || taken.used > taken.size || taken.cpu > file->head->lanes) return no_paths;
    *bytes = read_bytes(file, taken.size);
    if (*bytes == NULL) return dspec_status_text(DSPEC_NO_MEMORY);
    if (!completes(file, is_parked, &taken, *bytes)) {
        free(*bytes);
        return no_paths;
    }
    *batch = (found_batch){ .kind = taken.state == IS_WRITING ? FOUND_BROUGHT : FOUND_KEPT, .batch = { *bytes, taken.used, 0, taken.state == IS_WRITING ? taken.cpu : taken.lane }, .before = taken.before };
    batch->records = dspec_folder_skips_(&file->layout, &batch->batch, &at, UINT64_MAX);
    return NULL;
}
