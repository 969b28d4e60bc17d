/* play.c: plays each file of these folders once, in the order of their names: the fuzzers' `main` where libFuzzer isn't there. The last line says how many there were. */
#include "fuzz.h"

#include <dirent.h>

static uint8_t bytes[1 << 20];
static unsigned long played;

static void play(const char *folder, const char *name) {
    char path[4096];
    FILE *file;
    size_t size;
    snprintf(path, sizeof path, "%s/%s", folder, name);
    file = fopen(path, "rb");
    if (file == NULL) exit(2);
    size = fread(bytes, 1, sizeof bytes, file);
    fclose(file);
    LLVMFuzzerTestOneInput(bytes, size);
    played++;
}

int main(int count, char **words) {
    LLVMFuzzerInitialize(&count, &words);
    for (int i = 1; i < count; i++) {
        struct dirent **names;
        const int found = scandir(words[i], &names, NULL, alphasort);
        if (found < 0) return 2;
        for (int k = 0; k < found; k++) {
            if (names[k]->d_name[0] != '.') play(words[i], names[k]->d_name);
            free(names[k]);
        }
        free(names);
    }
    printf("played %lu\n", played);
    return 0;
}
