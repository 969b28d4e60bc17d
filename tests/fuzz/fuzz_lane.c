/* fuzz_lane.c: what the process of a lane tells through its pipe (salvage_lane.c). That process reads the memory of somebody else, and may have become his. */
#include "memory.h"

#include "../../tracer/salvage_lane.c"

int LLVMFuzzerInitialize(int *count, char ***words) { return (void)count, (void)words, 0; }

enum { ALL_RECORDS = 3 };
static const uint8_t first_widths[] = { 4, 8, 4 }, second_widths[] = { 4, 8, 8, 1 }, third_widths[] = { 1 };

static saved_file *file_of(input *from) {
    static saved_file file;
    static _Alignas(body) uint8_t of_tracer[sizeof(body) + sizeof(struct lane)];
    static saved_head head;
    memset(&file, 0, sizeof file);
    head.bufsize = (uint32_t)take(from, 2) / 8 * 8 + 8;
    head.specsize = (uint32_t)take(from, 2);
    file.head = &head;
    file.latest = UINT64_MAX / 2;
    file.layout.stamped = true;
    file.layout.enablings = ALL_RECORDS;
    memcpy(file.layout.of[0].widths, first_widths, sizeof first_widths);
    memcpy(file.layout.of[1].widths, second_widths, sizeof second_widths);
    memcpy(file.layout.of[2].widths, third_widths, sizeof third_widths);
    file.layout.of[0].fields = sizeof first_widths;
    file.layout.of[1].fields = sizeof second_widths;
    file.layout.of[2].fields = sizeof third_widths;
    file.tracer = (body *)(void *)of_tracer;
    return &file;
}

/* What is handed on of a lane are whole records, as many as is said, within the buffer. */
static bool is_whole_batch(void *of_file, found_batch *batch) {
    const saved_file *file = of_file;
    size_t at = 0;
    MUST(batch->kind >= FOUND_BROUGHT && batch->kind <= FOUND_PARKED && batch->place < MAX_OPEN && batch->batch.bytes != NULL);
    MUST(batch->kind < FOUND_OPEN || batch->batch.drops == 0);
    MUST(dspec_folder_skips_(&file->layout, &batch->batch, &at, UINT64_MAX) == batch->records && at == batch->batch.len);
    return batch->records % 16 != 15;
}

int LLVMFuzzerTestOneInput(const uint8_t *data, size_t size) {
    static int pipe_of = -1;
    input from = { data, size };
    saved_file *file = file_of(&from);
    uint8_t *bytes = malloc(file->head->bufsize);
    if (pipe_of < 0) pipe_of = memfd_create("pipe", MFD_CLOEXEC);
    MUST(bytes != NULL && pipe_of >= 0 && ftruncate(pipe_of, 0) == 0 && pwrite(pipe_of, from.at, from.left, 0) == (ssize_t)from.left && lseek(pipe_of, 0, SEEK_SET) == 0);
    hear(file, pipe_of, 0, bytes, is_whole_batch, file);
    free(file->scratch.copy);
    free(bytes);
    return 0;
}
