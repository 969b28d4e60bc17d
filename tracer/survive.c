/* survive.c: a tracer's memory as a file beside its folder, FOLDER-memory, which an orderly stop takes away and a kill leaves. What that file is called and who has it: survive_file.c. */
#include "survive.h"
#include "dspec_memory.h"

#include <errno.h>
#include <sys/mman.h>
#include <sys/stat.h>
#include <unistd.h>

#ifndef MAP_FIXED_NOREPLACE
#define MAP_FIXED_NOREPLACE 0x100000
#endif

enum { PAGE = 4096 };

static uint64_t pages(uint64_t bytes) { return (bytes + PAGE - 1) / PAGE * PAGE; }

uint64_t saved_body_size(uint32_t lanes) { return pages(sizeof(body) + (lanes + 1) * sizeof(struct lane)); }

uint64_t saved_taken_size(uint32_t bufsize, uint64_t park_bytes) { return park_bytes > 0 ? pages(bufsize + 2 * (uint64_t)BYTES_OF_PATH) : 0; }

/* FNV-1a of all before the sum but the magic. */
uint64_t saved_sum(const saved_head *head) {
    const uint8_t *bytes = (const uint8_t *)head;
    uint64_t sum = UINT64_C(0xcbf29ce484222325);
    for (size_t i = sizeof head->magic; i < offsetof(saved_head, sum); i++) sum = (sum ^ bytes[i]) * UINT64_C(0x100000001b3);
    return sum;
}

static void *fail(char *why, size_t size, const char *what, const char *reason) {
    if (snprintf(why, size, "%s: %s", what, reason) < 0) why[0] = 0;
    return NULL;
}

/* The bytes of the sessions of all lanes. */
static dspec_status bytes_of(const dspec_tracer_options *options, const dspec_enabling *const *events, uint64_t *bytes) {
    const dspec_config config = lane_config(options);
    dspec_schema schema = DSPEC_EMPTY;
    dspec_status status = dspec_schema_new(&schema);
    dspec_layout layout = { .stamped = true };
    size_t each = 0, table = 0, ring = 0;
    uint32_t epid, signature;
    if (status == DSPEC_OK) status = dspec_schema_stamp(&schema);
    for (int which = 0; which < 2; which++) {
        const dspec_enabling *const *all = which == 0 ? events : own_events;
        for (size_t i = 0; status == DSPEC_OK && all != NULL && all[i] != NULL && (which == 0 || i < own_count(options)); i++) {
            uint8_t widths[DSPEC_MAX_FIELDS + 1];
            size_t n;
            enabling_widths(all[i], widths, &n);
            status = dspec_probe_enable(&layout, &schema, widths, n, &epid, &signature);
        }
    }
    if (status == DSPEC_OK) status = dspec_memory_for(&config, &schema, &each);
    dspec_schema_drop(&schema);
    if (status == DSPEC_OK) status = paths_memory(&table);
    if (status == DSPEC_OK && options->park_bytes > 0) status = park_memory(options->park_bytes, &ring);
    *bytes = 64 + ((uint64_t)each + table) * (options->lanes + 1) + (uint64_t)ring * options->lanes;
    return status;
}

/* An address that is free, and the file there, or memory of this process alone by -1; NULL: there is none. */
static void *map_at_a_place(int file, uint64_t size) {
    const int flags = MAP_FIXED_NOREPLACE | (file >= 0 ? MAP_SHARED : MAP_PRIVATE | MAP_ANONYMOUS);
    for (uint64_t place = 0; place < SURVIVE_PLACES; place++) {
        void *wanted = (void *)(uintptr_t)(SURVIVE_FIRST + place * SURVIVE_APART);
        void *at = mmap(wanted, size, PROT_READ | PROT_WRITE, flags, file, 0);
        if (at == wanted) return at;
        if (at != MAP_FAILED) munmap(at, size);
    }
    return NULL;
}

/* Takes away what was made of a file, and gives the name back. */
static void unmake(memory_file *file, const char *folder) {
    if (file->is_made) memory_file_unlink(file, folder);
    memory_file_puts_back(file);
    memory_file_close(file);
}

/* The head of a memory that has nothing yet. */
static void begin_head(saved_head *head, const dspec_tracer_options *options, const memory_file *file, const char *folder, uint64_t size) {
    const uint64_t head_size = pages(sizeof *head), body_size = saved_body_size(options->lanes);
    *head = (saved_head){ .version = SURVIVE_VERSION, .head_size = (uint32_t)head_size, .body_size = (uint32_t)body_size, .lane_size = sizeof(struct lane), .address = (uintptr_t)head, .size = size,
                          .body_at = head_size, .memory_at = head_size + body_size + saved_taken_size(options->bufsize, options->park_bytes), .lanes = options->lanes, .paths = options->paths, .bufsize = options->bufsize,
                          .specsize = options->specsize, .park_bytes = options->park_bytes, .max_folders = options->max_folders, .device = file->device, .inode = file->inode };
    snprintf(head->build, sizeof head->build, "%s", dspec_build());
    snprintf(head->folder, sizeof head->folder, "%s", folder);
}

/* A search for leaks looks here too, for what the tracer has of malloc's. */
__attribute__((weak)) void __lsan_register_root_region(const void *at, size_t size);
__attribute__((weak)) void __lsan_unregister_root_region(const void *at, size_t size);

/* The tracer in a file that was made, or in memory of this process alone; NULL: none of the addresses that it may have is free. */
static body *body_in_file(const memory_file *file, const dspec_tracer_options *options, const char *folder, uint64_t sessions, uint64_t size) {
    const uint64_t memory_at = size - pages(sessions);
    saved_head *head = map_at_a_place(file->at, size);
    body *tracer;
    if (head == NULL) return NULL;
    if (dspec_memory_begin((char *)head + memory_at, sessions) != DSPEC_OK) {
        munmap(head, size);
        return NULL;
    }
    begin_head(head, options, file, folder, size);
    if (__lsan_register_root_region != NULL) __lsan_register_root_region(head, size);
    tracer = (body *)(void *)((char *)head + head->body_at);
    tracer->saved = head;
    tracer->memory = (char *)head + head->memory_at;
    tracer->file = *file;
    return tracer;
}

/* So many bytes the head, the tracer and the sessions have. */
static uint64_t size_of_all(const dspec_tracer_options *options, uint64_t sessions) {
    return pages(sizeof(saved_head)) + saved_body_size(options->lanes) + saved_taken_size(options->bufsize, options->park_bytes) + pages(sessions);
}

body *survive_make(const char *folder, const dspec_tracer_options *options, const dspec_enabling *const *events, char *why, size_t size) {
    char whole[4096];
    uint64_t sessions = 0, all;
    memory_file file;
    body *tracer = NULL;
    dspec_status status = bytes_of(options, events, &sessions);
    int code;
    if (status != DSPEC_OK) return fail(why, size, "the session", dspec_status_text(status));
    all = size_of_all(options, sessions);
    if (all > SURVIVE_APART) return fail(why, size, "the memory", dspec_status_text(DSPEC_NO_MEMORY));
    code = memory_file_place(&file, folder, whole);
    if (code != 0) {
        memory_file_close(&file);
        return fail(why, size, folder, strerror(code));
    }
    if (!memory_file_frees_name(&file, why, size)) {
        memory_file_close(&file);
        return NULL;
    }
    code = memory_file_make(&file, all);
    if (code == 0) tracer = body_in_file(&file, options, whole, sessions, all);
    if (tracer != NULL) return tracer;
    unmake(&file, whole);
    if (code != 0 && snprintf(why, size, "%s: %s, for %llu bytes", file.name, code == EFBIG ? "RLIMIT_FSIZE (ulimit -f) is too low" : strerror(code), (unsigned long long)all) > 0) return NULL;
    return fail(why, size, file.name, "none of the addresses that it may have is free");
}

/* Whether a sanitizer has this process that knows of no memory at these addresses. */
__attribute__((weak)) void __tsan_init(void);
__attribute__((weak)) void __msan_init(void);
static bool is_sanitized(void) { return __tsan_init != NULL || __msan_init != NULL; }

/* A folder's whole path: whether it fits. */
static bool whole_path(const char *folder, char whole[4096]) {
    char here[4096] = "";
    int len;
    if (folder[0] != '/' && getcwd(here, sizeof here) == NULL) return false;
    len = snprintf(whole, 4096, "%s%s%s", here, here[0] != 0 ? "/" : "", folder);
    return len > 0 && len < 4096;
}

body *survive_in_process(const char *folder, const dspec_tracer_options *options, const dspec_enabling *const *events, char *why, size_t size) {
    const memory_file none = { .at = -1, .parent = -1 };
    char whole[4096];
    uint64_t sessions = 0;
    dspec_status status;
    if (is_sanitized() || !whole_path(folder, whole)) return NULL;
    status = bytes_of(options, events, &sessions);
    if (status != DSPEC_OK) return fail(why, size, "the session", dspec_status_text(status));
    if (size_of_all(options, sessions) > SURVIVE_APART) return NULL;
    return body_in_file(&none, options, whole, sessions, size_of_all(options, sessions));
}

/* How many labels of the name at a place the head tells after the bytes that it has: all, or where they have no room none. */
static uint16_t tell_labels(saved_head *head, const dspec_names *names, size_t at, size_t *bytes) {
    const size_t count = dspec_names_label_count(names, at);
    size_t end = *bytes;
    for (size_t i = 0; i < count && end <= sizeof head->labels; i++) end += strlen(names->labels[at]->texts[i]) + 1;
    if (end > sizeof head->labels || count > UINT16_MAX) return 0;
    for (size_t i = 0; i < count; i++) {
        const char *label = names->labels[at]->texts[i];
        memcpy(head->labels + *bytes, label, strlen(label) + 1);
        *bytes += strlen(label) + 1;
    }
    return (uint16_t)count;
}

/* Adds a name to the events that the head tells: an event's, or the next one's of the last event's fields, with the kinds of its words. */
static void tell_name(saved_head *head, const dspec_names *names, size_t at, size_t *kinds, size_t *bytes) {
    saved_event *event;
    head->events_count += names->events[at];
    event = &head->events[head->events_count - 1];
    if (names->events[at]) {
        snprintf(event->name, sizeof event->name, "%.*s", (int)names->texts[at].len, names->texts[at].bytes);
        return;
    }
    event->labels[event->count] = tell_labels(head, names, at, bytes);
    snprintf(event->fields[event->count++], sizeof event->fields[0], "%.*s", (int)names->texts[at].len, names->texts[at].bytes);
    do event->kinds[event->words++] = names->kinds[(*kinds)++];
    while (*kinds < names->kind_count && names->kinds[*kinds] == DSPEC_KIND_TEXT_NEXT);
}

void survive_tell(body *tracer, const struct whose *whose, const dspec_names *names) {
    saved_head *head = tracer->saved;
    size_t kinds = 0, bytes = 0;
    if (head == NULL) return;
    for (size_t i = 0; i < names->count; i++) tell_name(head, names, i, &kinds, &bytes);
    for (uint32_t i = 0; i < head->events_count; i++) memcpy(head->events[i].widths, tracer->layout.of[i].widths, sizeof head->events[i].widths);
    head->pid = whose->identity.pid;
    snprintf(head->host, sizeof head->host, "%.*s", (int)whose->identity.host.len, whose->identity.host.bytes);
    snprintf(head->program, sizeof head->program, "%s", whose->name);
    head->process = memory_file_process(head->pid);
    head->sum = saved_sum(head);
    survive_tell_clock(tracer, &whose->identity);
}

void survive_tell_clock(body *tracer, const dspec_identity *identity) {
    saved_head *head = tracer->saved;
    uint64_t next;
    if (head == NULL) return;
    next = head->clock ^ 1;
    head->clocks[next] = (saved_clock){ identity->hertz, identity->seconds, identity->ticks };
    __atomic_store_n(&head->clock, next, __ATOMIC_RELEASE);
}

void survive_is_whole(body *tracer, char *why, size_t size) {
    uint32_t unread;
    size_t len;
    if (tracer->saved == NULL) return;
    __atomic_store_n(&tracer->saved->magic, SURVIVE_MAGIC, __ATOMIC_RELEASE);
    unread = tracer->file.aside == 0 ? 0 : memory_file_prunes(&tracer->file);
    tracer->file.aside = 0;
    len = strlen(why);
    if (unread > 0) snprintf(why + len, size - len, "; the oldest of more than %d went, which nobody had read", SURVIVE_MOST_ASIDE);
}

void survive_over(body *tracer) {
    int code;
    if (tracer->saved == NULL || tracer->file.at < 0) return;
    code = memory_file_unlink(&tracer->file, tracer->saved->folder);
    if (code != 0 && tracer->report.why[0] == 0) snprintf(tracer->report.why, sizeof tracer->report.why, "the memory's file stays, %.80s: %s", tracer->file.name, strerror(code));
    memory_file_close(&tracer->file);
}

/* Whether the folder has all that the memory has. No thread gets into a lane any more; the consumer found each empty after its last call, and has written what it took. */
static bool is_settled(body *tracer) {
    bool is = true;
    for (uint32_t i = 0; i <= tracer->count; i++) {
        struct lane *lane = &tracer->lanes[i];
        const uint32_t state = state_set(lane, GONE);
        is = is && (state & (IDLE | HELD)) == IDLE && LOAD(&lane->front.inside) == 0 && LOAD(&lane->bringing) == NOT_OUT && LOAD(&lane->given) == LOAD(&lane->switched);
        for (uint32_t k = 0; k < MAX_OPEN; k++) is = is && LOAD(&lane->open[k].mark) == 0;
        is = is && park_left(&lane->parked) == 0;
    }
    return is && LOAD(&tracer->taken.state) == NOTHING_TAKEN;
}

void survive_dies(body *tracer) {
    const memory_file *file = &tracer->file;
    if (tracer->saved == NULL || !memory_file_is_ours(file->parent, file->parent_device, file->parent_inode)) return;
    if (is_settled(tracer)) memory_file_unlink(file, tracer->saved->folder);
}

void survive_free(body *tracer) {
    saved_head *head = tracer->saved;
    memory_file file = tracer->file;
    if (file.at >= 0) unmake(&file, head->folder);
    dspec_memory_end(tracer->memory);
    if (__lsan_unregister_root_region != NULL) __lsan_unregister_root_region(head, head->size);
    munmap(head, head->size);
}

/* A copy at the same address, which takes no descriptor. */
static void copy_in_place(saved_head *head, size_t size) {
    void *copy = mmap(NULL, size, PROT_READ | PROT_WRITE, MAP_PRIVATE | MAP_ANONYMOUS, -1, 0);
    if (copy == MAP_FAILED) return;
    memcpy(copy, head, size);
    if (mremap(copy, size, size, MREMAP_MAYMOVE | MREMAP_FIXED, head) == MAP_FAILED) munmap(copy, size);
}

/* What the child does to the memory is its own from now on; the lock is the parent's alone. */
void survive_in_child(body *tracer) {
    saved_head *head = tracer->saved;
    if (head == NULL || tracer->file.at < 0) return;
    if (!memory_file_is_ours(tracer->file.at, tracer->file.device, tracer->file.inode) ||
        mmap(head, head->size, PROT_READ | PROT_WRITE, MAP_PRIVATE | MAP_FIXED, tracer->file.at, 0) == MAP_FAILED)
        copy_in_place(head, head->size);
    memory_file_close(&tracer->file);
}

uint64_t survive_brought(const dspec_folder *folder) {
    uint64_t records = folder->gone_records;
    for (uint32_t i = 0; i < folder->kept; i++) records += folder->parts[(folder->oldest + i) % DSPEC_FOLDER_MOST].records;
    return records;
}
