/* fuzz_written.c: what the run's own folder has of the batch that it was getting (salvage_written.c). Both that folder and what the memory says of it may be anybody's. */
#include "memory.h"

#include "../../tracer/salvage_written.c"

static saved_file of;
static int files_at, metadata_at;

int LLVMFuzzerInitialize(int *count, char ***words) {
    char path[128];
    (void)count;
    (void)words;
    top_begin();
    of.head = calloc(1, sizeof *of.head);
    of.tracer = calloc(1, sizeof *of.tracer + 2 * sizeof(struct lane));
    MUST(of.head != NULL && of.tracer != NULL);
    snprintf(path, sizeof path, "%s/run", fuzz_top);
    snprintf(of.head->folder, sizeof of.head->folder, "%s", path);
    MUST(mkdir(path, 0700) == 0);
    snprintf(path, sizeof path, "%s/run/metadata", fuzz_top);
    metadata_at = open(path, O_RDWR | O_CREAT | O_CLOEXEC, 0600);
    snprintf(path, sizeof path, "%s/run/cpu_0_0", fuzz_top);
    files_at = open(path, O_RDWR | O_CREAT | O_CLOEXEC, 0600);
    MUST(metadata_at >= 0 && files_at >= 0);
    return 0;
}

static void write_file(int file, const void *bytes, size_t size) { MUST(ftruncate(file, 0) == 0 && pwrite(file, bytes, size, 0) == (ssize_t)size); }

/* The layout, what the memory says of the folder, and whether that folder is the run's. */
static uint64_t folder_of(input *from) {
    dspec_folder *folder = &of.tracer->folder;
    char line[64] = "";
    uint64_t before;
    of.layout = (dspec_layout){ .stamped = true, .enablings = (uint32_t)take(from, 1) % 4 };
    for (uint32_t event = 0; event < of.layout.enablings; event++) {
        of.layout.of[event].fields = (uint8_t)(take(from, 1) % (DSPEC_MAX_FIELDS + 1));
        for (size_t i = 0; i < DSPEC_MAX_FIELDS; i++) of.layout.of[event].widths[i] = (uint8_t)(1u << (take(from, 1) & 3));
    }
    memset(&folder->writing, 0, sizeof folder->writing);
    folder->writing.size = take(from, 4);
    folder->writing.file = take(from, 1);
    folder->writing.records = take(from, 2);
    folder->writing_cpu = (uint32_t)take(from, 1) & 1;
    folder->writing_at = take(from, 8);
    folder->writing_records = take(from, 8);
    folder->oldest = (uint32_t)take(from, 1);
    folder->kept = (uint32_t)take(from, 1);
    for (size_t i = 0; i < DSPEC_FOLDER_MOST; i++) folder->parts[i].records = i;
    before = take(from, 8);
    of.head->max_folders = (uint32_t)take(from, 1) & 1;
    line_of(&of, folder->kept > 0 && folder->kept <= DSPEC_FOLDER_MOST && folder->oldest < DSPEC_FOLDER_MOST ? newest_of(folder)->number : 0, line);
    write_file(metadata_at, line, take(from, 1) & 1 ? 0 : strlen(line));
    return before;
}

int LLVMFuzzerTestOneInput(const uint8_t *data, size_t size) {
    input from = { data, size };
    found_batch batch = { .kind = FOUND_BROUGHT };
    const dspec_folder *folder = &of.tracer->folder;
    uint64_t unsure, records;
    int why = 0;
    batch.before = folder_of(&from);
    batch.batch.len = take(&from, 3);
    batch.records = take(&from, 2);
    write_file(files_at, from.at, from.left);
    records = written_records(&of, "/nowhere/run-memory", &batch, &unsure, &why);
    MUST(unsure <= batch.records);
    MUST(records == UINT64_MAX || (folder->kept <= DSPEC_FOLDER_MOST && folder->oldest < DSPEC_FOLDER_MOST));
    MUST(unsure == 0 || folder->writing.file < DSPEC_CTF_MAX_FILES);
    return 0;
}
