/* fuzz_head.c: the head of a memory's file (salvage_file.c), as data of whoever wrote it. */
#include "memory.h"

int LLVMFuzzerInitialize(int *count, char ***words) {
    (void)count;
    (void)words;
    memory_begin();
    return 0;
}

/* What a head that was taken says is within the bounds that the other readers trust. */
static void is_sound(const saved_file *file) {
    const saved_head *head = file->head;
    const size_t texts_end = sizeof head->labels;
    MUST(head->lanes >= 1 && head->lanes <= DSPEC_MAX_LANES && head->bufsize <= SAVED_MOST_BYTES && head->memory_at < head->size && head->folder[0] == '/');
    MUST(file->layout.enablings == head->events_count && head->events_count <= DSPEC_MAX_ENABLINGS);
    for (uint32_t i = 0; i < head->events_count; i++) {
        const saved_event *event = &head->events[i];
        MUST(event->words <= DSPEC_MAX_FIELDS && file->layout.of[i].fields == event->words && strlen(event->name) < sizeof event->name);
        for (uint32_t field = 0; field < event->count; field++) MUST(strlen(event->fields[field]) < sizeof event->fields[0]);
    }
    for (uint32_t i = 0; i < head->events_count * DSPEC_MAX_FIELDS; i++)
        for (size_t k = 0; k < *file->labels[i].count; k++) {
            const size_t at = (size_t)(file->labels[i].texts[k] - head->labels);
            MUST(at < texts_end && memchr(head->labels + at, 0, texts_end - at) != NULL);
        }
}

int LLVMFuzzerTestOneInput(const uint8_t *data, size_t size) {
    static saved_file file;
    input from = { data, size };
    const char *why;
    memset(&file, 0, sizeof file);
    memory_becomes(&from);
    why = saved_file_read(&file, memory_at);
    MUST(why == NULL || why[0] != 0);
    if (why == NULL) is_sound(&file);
    saved_file_drop(&file);
    return 0;
}
