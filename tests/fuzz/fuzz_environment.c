/* fuzz_environment.c: the text of the variable DSPEC_TRACE. */
#include "fuzz.h"

#include "../../tracer/environment.h"

int LLVMFuzzerInitialize(int *count, char ***words) { return (void)count, (void)words, 0; }

static settings *read_text(const char *text, bool *is_well) {
    settings *to = calloc(1, sizeof *to);
    MUST(to != NULL);
    *is_well = settings_read(to, text);
    MUST(*is_well == (to->why[0] == 0));
    MUST(memchr(to->why, 0, sizeof to->why) != NULL && memchr(to->folder, 0, sizeof to->folder) != NULL && to->off_count <= MAX_OFF);
    for (size_t i = 0; i < to->off_count; i++) MUST(to->off[i][0] != 0 && memchr(to->off[i], 0, sizeof to->off[i]) != NULL);
    return to;
}

/* Where the options of a text are read, each word by itself makes the same of them. */
static void read_by_words(const settings *all, const char *text) {
    settings *to = calloc(1, sizeof *to);
    const size_t folder = strcspn(text, ",");
    char *one = malloc(strlen(text) + 1);
    MUST(to != NULL && one != NULL && strncmp(all->folder, text, folder) == 0 && all->folder[folder] == 0);
    for (size_t at = folder; text[at] == ','; at += 1 + strcspn(text + at + 1, ",")) {
        const size_t len = strcspn(text + at + 1, ",");
        memcpy(one, text, folder);
        memcpy(one + folder, text + at, len + 1);
        one[folder + 1 + len] = 0;
        MUST(settings_read(to, one));
    }
    MUST(memcmp(&to->options, &all->options, sizeof to->options) == 0 && to->off_count == all->off_count && memcmp(to->off, all->off, sizeof to->off) == 0);
    free(one);
    free(to);
}

int LLVMFuzzerTestOneInput(const uint8_t *data, size_t size) {
    char *text = malloc(size + 1);
    bool is_well;
    settings *to;
    MUST(text != NULL);
    if (size > 0) memcpy(text, data, size);
    text[size] = 0;
    to = read_text(text, &is_well);
    if (is_well) read_by_words(to, text);
    free(to);
    free(text);
    return 0;
}
