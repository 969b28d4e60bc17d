/* salvage_file.c: a memory's file as data: its head and its tracer are read out of it and checked. Nothing is mapped, so that a hole or a full disk is no fault. */
#include "salvage.h"
#include "dspec_memory.h"

#include <errno.h>
#include <sys/stat.h>
#include <unistd.h>

static bool is_text(const char *text, size_t size) { return text[0] != 0 && memchr(text, 0, size) != NULL; }

static bool is_event(const saved_event *event) {
    bool is = is_text(event->name, sizeof event->name) && event->count >= 1 && event->count <= event->words && event->words <= DSPEC_MAX_FIELDS;
    uint32_t named = 0;
    for (uint32_t i = 0; is && i < event->count; i++) is = is_text(event->fields[i], sizeof event->fields[0]);
    for (uint32_t i = 0; is && i < event->words; i++) named += event->kinds[i] != DSPEC_KIND_TEXT_NEXT;
    return is && named == event->count && event->kinds[0] != DSPEC_KIND_TEXT_NEXT;
}

/* Readers count nanoseconds since 1970 in 63 bits: the second in which these end, and more ticks of a second than a clock has. */
#define LAST_SECOND UINT64_C(9223372035)
#define MOST_HERTZ UINT64_C(1000000000000)

static bool is_clock(const saved_clock *clock) {
    return clock->hertz > 0 && clock->hertz <= MOST_HERTZ && clock->seconds < LAST_SECOND && clock->ticks / clock->hertz < LAST_SECOND - clock->seconds;
}

/* The last stamp of a clock that a reader can place in time. */
static uint64_t latest_of(const saved_clock *clock) {
    const uint64_t seconds = LAST_SECOND - clock->seconds - clock->ticks / clock->hertz - 1;
    return seconds > UINT64_MAX / clock->hertz ? UINT64_MAX : seconds * clock->hertz;
}

static bool is_place(uint64_t address) {
    const uint64_t place = (address - SURVIVE_FIRST) / SURVIVE_APART;
    return address == SURVIVE_FIRST + place * SURVIVE_APART && place < SURVIVE_PLACES;
}

/* Whether the sizes and places of a head are those of a file that this library makes. */
static bool has_sizes(const saved_head *head, uint64_t size) {
    const uint64_t head_size = (sizeof *head + 4095) / 4096 * 4096;
    bool is = head->head_size == head_size && head->body_at == head_size && head->lane_size == sizeof(struct lane) && head->size == size && size <= SURVIVE_APART && is_place(head->address);
    is = is && head->lanes >= 1 && head->lanes <= DSPEC_MAX_LANES && head->body_size == saved_body_size(head->lanes);
    is = is && head->memory_at == head->body_at + head->body_size + saved_taken_size(head->bufsize, head->park_bytes) && head->memory_at < size;
    is = is && head->park_bytes <= UINT64_C(1) << 32;
    return is && head->bufsize >= 8 && head->bufsize <= SAVED_MOST_BYTES && head->bufsize % 8 == 0 && head->paths >= 1 && head->paths < MAX_OPEN;
}

static bool has_names(const saved_head *head) {
    bool is = head->events_count >= 1 && head->events_count <= DSPEC_MAX_ENABLINGS && head->clock <= 1 && is_clock(&head->clocks[head->clock]);
    is = is && is_text(head->host, sizeof head->host) && is_text(head->program, sizeof head->program) && is_text(head->folder, sizeof head->folder) && head->folder[0] == '/';
    for (uint32_t i = 0; is && i < head->events_count; i++) is = is_event(&head->events[i]);
    return is;
}

/* Finds the labels of all fields: whether they are as the head tells. */
static bool find_labels(saved_file *file) {
    const saved_head *head = file->head;
    size_t texts = 0, at = 0;
    for (uint32_t i = 0; i < head->events_count * DSPEC_MAX_FIELDS; i++) {
        file->counts[i] = head->events[i / DSPEC_MAX_FIELDS].labels[i % DSPEC_MAX_FIELDS];
        file->labels[i] = (dspec_labels){ file->texts + texts, &file->counts[i] };
        for (size_t k = 0; k < file->counts[i]; k++) {
            const char *end = at < sizeof head->labels ? memchr(head->labels + at, 0, sizeof head->labels - at) : NULL;
            if (end == NULL) return false;
            file->texts[texts++] = head->labels + at;
            at = (size_t)(end - head->labels) + 1;
        }
    }
    return true;
}

/* Reads so many bytes of a place: whether they are there. */
static bool read_at(int file, void *to, size_t size, uint64_t at) {
    uint8_t *next = to;
    while (size > 0) {
        const ssize_t count = pread(file, next, size, (off_t)at);
        if (count < 0 && errno == EINTR) continue;
        if (count <= 0) return false;
        next += count;
        at += (uint64_t)count;
        size -= (size_t)count;
    }
    return true;
}

static const char *read_head(saved_file *file, uint64_t size) {
    saved_head *head = file->head;
    if (!read_at(file->at, head, sizeof *head, 0)) return "it is no memory of a tracer, or was not made to its end";
    if (head->magic == 0) return "it was not made to its end: nothing had been recorded";
    if (head->magic != SURVIVE_MAGIC) return "it is no memory of a tracer";
    if (head->version != SURVIVE_VERSION || memchr(head->build, 0, sizeof head->build) == NULL || strcmp(head->build, dspec_build()) != 0)
        return "it is of another version of the library, or of another build, which alone reads it";
    if (head->sum != saved_sum(head) || !has_sizes(head, size) || !has_names(head) || !find_labels(file)) return "its head is damaged";
    return NULL;
}

dspec_status saved_file_enable(const saved_file *file, dspec_schema *schema, dspec_layout *layout) {
    dspec_status status = dspec_schema_new(schema);
    uint32_t epid;
    layout->stamped = true;
    if (status == DSPEC_OK) status = dspec_schema_stamp(schema);
    for (uint32_t i = 0; status == DSPEC_OK && i < file->head->events_count; i++)
        status = dspec_layout_enable(layout, schema, file->head->events[i].widths, file->head->events[i].words, &epid);
    return status;
}

const char *saved_file_read(saved_file *saved, int file) {
    struct stat is;
    const char *why;
    dspec_status status;
    void *us;
    if (fstat(file, &is) != 0 || !S_ISREG(is.st_mode)) return "it is no file";
    saved->at = file;
    saved->device = is.st_dev;
    saved->inode = is.st_ino;
    saved->head = calloc(1, sizeof *saved->head);
    if (saved->head == NULL) return dspec_status_text(DSPEC_NO_MEMORY);
    why = read_head(saved, (uint64_t)is.st_size);
    if (why != NULL) return why;
    saved->latest = latest_of(&saved->head->clocks[saved->head->clock]);
    if (posix_memalign(&us, CACHE_LINES, saved->head->body_size) != 0) return dspec_status_text(DSPEC_NO_MEMORY);
    saved->tracer = us;
    if (!read_at(file, saved->tracer, saved->head->body_size, saved->head->body_at)) return "its tracer can't be read";
    status = saved_file_enable(saved, &saved->schema, &saved->layout);
    return status == DSPEC_OK ? NULL : dspec_status_text(status);
}

void saved_file_drop(saved_file *file) {
    dspec_schema_drop(&file->schema);
    free(file->scratch.copy);
    free(file->tracer);
    free(file->head);
}
