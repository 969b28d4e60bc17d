/* fuzz_taken.c: parked paths that were being kept (salvage_taken.c). What the memory says of them, and their bytes, may be anybody's. */
#include "memory.h"

#include "../../tracer/salvage_taken.c"

enum { MOST_BUFFER = 8 * 64, PROGRAM_EVENT = 1, PATH_EVENT = 2, LATEST = 1 << 20, AT = 16 };

static saved_file of;

int LLVMFuzzerInitialize(int *count, char ***words) {
    static const uint8_t of_program[] = { 4, 2, 8 }, of_path[] = { 4, 8, 8, 8, 8, 8 };
    (void)count;
    (void)words;
    top_begin();
    of.head = calloc(1, sizeof *of.head);
    of.tracer = calloc(1, sizeof *of.tracer + sizeof(struct lane));
    MUST(of.head != NULL && of.tracer != NULL);
    of.head->body_at = AT;
    of.at = memfd_create("taken", MFD_CLOEXEC);
    of.latest = LATEST;
    of.layout = (dspec_layout){ .stamped = true, .enablings = PATH_EVENT };
    memcpy(of.layout.of[PROGRAM_EVENT - 1].widths, of_program, sizeof of_program);
    of.layout.of[PROGRAM_EVENT - 1].fields = sizeof of_program;
    memcpy(of.layout.of[PATH_EVENT - 1].widths, of_path, sizeof of_path);
    of.layout.of[PATH_EVENT - 1].fields = sizeof of_path;
    of.tracer->claim_of_path = PATH_EVENT;
    return 0;
}

/* What the memory says: places and lengths are near its bounds, or anything. */
static void say(input *from) {
    taken_paths *taken = &of.tracer->taken;
    of.head->bufsize = (uint32_t)take(from, 1) % 65 * 8;
    *taken = (taken_paths){ .state = (uint32_t)take(from, 1) & 3, .count = take(from, 1), .used = take(from, 2) };
    taken->next.at = (take(from, 1) & 1) != 0 ? taken->used : take(from, 8);
    taken->next.length = (take(from, 1) & 1) != 0 ? take(from, 1) : take(from, 8);
    taken->next.number = (uint32_t)take(from, 1);
    taken->next.untold = (uint32_t)take(from, 1);
}

int LLVMFuzzerTestOneInput(const uint8_t *data, size_t size) {
    const uint64_t events_at = MOST_BUFFER;
    input from = { data, size };
    found_batch batch;
    uint8_t *bytes = NULL;
    dspec_record record;
    uint64_t records = 0, paths = 0;
    bool is_parked;
    size_t at = 0;
    say(&from);
    is_parked = (take(&from, 1) & 1) != 0;
    MUST(ftruncate(of.at, 0) == 0 && pwrite(of.at, from.at, from.left, AT) == (ssize_t)from.left);
    if (saved_taken_read(&of, is_parked, &batch, &bytes) != NULL) return 0;
    MUST(bytes != NULL && batch.batch.bytes == bytes && batch.batch.len <= of.head->bufsize + 2 * (size_t)BYTES_OF_PATH && batch.batch.len <= events_at + 2 * (size_t)BYTES_OF_PATH);
    MUST(batch.kind == (of.tracer->taken.state == IS_WRITING ? FOUND_BROUGHT : FOUND_KEPT));
    for (; dspec_read(&of.layout, bytes, batch.batch.len, &at, &record) == DSPEC_READ; records++) {
        MUST(record.stamp <= LATEST);
        paths += record.epid == PATH_EVENT;
    }
    MUST(at == batch.batch.len && records == batch.records && paths - of.tracer->taken.count <= 1);
    free(bytes);
    return 0;
}
