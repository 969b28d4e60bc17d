/* fuzz_memory.c: a memory's file as a whole, salvaged into a folder: dspec_salvage comes back, with a reason where it answers false, and finds no more records than there are. */
#include "memory.h"

#include <dirent.h>

static uint64_t most_kept, most_open;

static void without(const char *name) {
    static const char *const parts[] = { "kept", "undecided" };
    char path[128];
    for (int part = 0; part < 2; part++) {
        DIR *names;
        snprintf(path, sizeof path, "%s/%s/%s", fuzz_top, name, parts[part]);
        names = opendir(path);
        for (struct dirent *entry; names != NULL && (entry = readdir(names)) != NULL;) unlinkat(dirfd(names), entry->d_name, 0);
        if (names != NULL) closedir(names);
        rmdir(path);
    }
}

static bool salvages(dspec_salvaged *told) {
    char file[128], out[128];
    bool is_whole;
    snprintf(file, sizeof file, "%s/run-memory", fuzz_top);
    snprintf(out, sizeof out, "%s/out", fuzz_top);
    is_whole = dspec_salvage(file, out, told);
    without("out");
    return is_whole;
}

int LLVMFuzzerInitialize(int *count, char ***words) {
    dspec_salvaged told;
    (void)count;
    (void)words;
    memory_begin();
    if (!salvages(&told)) fprintf(stderr, "%s\n", told.why);
    MUST(told.why[0] == 0 && told.kept > 0 && told.undecided > 0);
    most_kept = told.kept + 5; /* those that the folder has */
    most_open = told.undecided;
    return 0;
}

int LLVMFuzzerTestOneInput(const uint8_t *data, size_t size) {
    dspec_salvaged told;
    input from = { data, size };
    bool is_whole;
    memory_becomes(&from);
    is_whole = salvages(&told);
    MUST(is_whole == (told.why[0] == 0) && told.unreadable <= told.lanes && told.in_call <= told.lanes);
    MUST(told.kept + told.undecided <= most_kept + most_open || !is_whole);
    return 0;
}
