/* told FOLDER: how many events a trace tells as missed, by a reader of this test: of each file cpu_N_0 the count of its last packet. Each file of the folder is
 * packets from its beginning to its end, or it ends with status 1. */
#include <dirent.h>
#include <inttypes.h>
#include <stdint.h>
#include <stdio.h>
#include <stdlib.h>
#include <string.h>

/* The number of `width` bytes, the lowest first. */
static uint64_t number(const uint8_t *bytes, size_t width) {
    uint64_t value = 0;
    for (size_t i = width; i > 0; i--) value = value << 8 | bytes[i - 1];
    return value;
}

/* Goes over a file's packets: their count of missed events, by the last. */
static uint64_t told_by(const char *path) {
    uint8_t head[68];
    uint64_t told = 0;
    size_t read;
    FILE *file = fopen(path, "rb");
    if (file == NULL) exit(2);
    while ((read = fread(head, 1, sizeof head, file)) == sizeof head) {
        uint64_t bytes = number(head + 48, 8) / 8;
        if (number(head, 4) != 0xC1FC1FC1 || bytes < sizeof head || fseek(file, (long)(bytes - sizeof head), SEEK_CUR) != 0) exit(1);
        told = number(head + 56, 8);
    }
    long end = ftell(file);
    if (fseek(file, 0, SEEK_END) != 0 || ftell(file) != end || read != 0) {
        fprintf(stderr, "%s: its last packet isn't whole\n", path);
        exit(1);
    }
    fclose(file);
    return told;
}

int main(int argc, char **argv) {
    char path[4400];
    uint64_t sum = 0;
    DIR *folder = argc == 2 ? opendir(argv[1]) : NULL;
    if (folder == NULL) return 2;
    for (struct dirent *one; (one = readdir(folder)) != NULL;) {
        unsigned cpu, file;
        if (sscanf(one->d_name, "cpu_%u_%u", &cpu, &file) != 2) continue;
        snprintf(path, sizeof path, "%s/%s", argv[1], one->d_name);
        uint64_t told = told_by(path);
        if (file == 0) sum += told;
    }
    closedir(folder);
    printf("%" PRIu64 "\n", sum);
    return 0;
}
