/* Kills a program that writes a trace, and looks at what it left. `kill SEED BYTES FILE WORD ..` runs the program, waits until FILE has some number of bytes, below
   BYTES and by the seed, and kills it then, so that it dies in a write often: status 0, or 1 where it had ended before. `kill look FILE ..` sees that each file is whole packets of 1,024 bytes: the format's
   magic number, where the events go to, the size, and zeros after the events; it prints how many packets there are, or which of them is none, with status 1. */
#define _GNU_SOURCE
#include <signal.h>
#include <stdbool.h>
#include <stdint.h>
#include <stdio.h>
#include <stdlib.h>
#include <string.h>
#include <sys/stat.h>
#include <sys/wait.h>
#include <unistd.h>

enum { SIZE = 1024 };

static uint64_t number(const uint8_t *bytes, int width) {
    uint64_t sum = 0;
    while (width > 0) sum = sum * 256 + bytes[--width];
    return sum;
}

/* By time the size stands at byte 48, as taken at byte 32, and the number of bits up to which the events go before it. */
static bool is_packet(const uint8_t *packet, size_t place) {
    uint64_t content = number(packet + place - 8, 8);
    if (number(packet, 4) != 0xC1FC1FC1 || number(packet + place, 8) != 8 * SIZE) return false;
    if (content % 8 != 0 || content / 8 < place + 20 || content / 8 > SIZE) return false;
    for (size_t at = content / 8; at < SIZE; at++)
        if (packet[at] != 0) return false;
    return true;
}

/* How many packets a file has; -1 where it has something else, which is said. A trace by time has two numbers in the names of its files. */
static long packets_in(const char *path) {
    uint8_t packet[SIZE];
    const char *name = strrchr(path, '/');
    size_t place = strchr(strchr(name ? name : path, '_') + 1, '_') ? 48 : 32, count;
    long packets = 0;
    FILE *file = fopen(path, "rb");
    if (file == NULL) return -1;
    while ((count = fread(packet, 1, SIZE, file)) > 0 && count == SIZE && is_packet(packet, place)) packets++;
    fclose(file);
    if (count == 0) return packets;
    printf("%s: packet %ld: %zu bytes that are none\n", path, packets, count);
    return -1;
}

static int look(int count, char **paths) {
    long all = 0;
    for (int i = 0; i < count; i++) {
        long packets = packets_in(paths[i]);
        if (packets < 0) return 1;
        all += packets;
    }
    printf("%ld\n", all);
    return 0;
}

/* Whether the program has ended. */
static bool has_ended(pid_t program) {
    siginfo_t told = { .si_pid = 0 };
    return waitid(P_PID, (id_t)program, &told, WEXITED | WNOHANG | WNOWAIT) != 0 || told.si_pid != 0;
}

int main(int count, char **words) {
    struct stat told = { .st_size = 0 };
    pid_t program;
    long least;
    int status;
    if (count > 1 && strcmp(words[1], "look") == 0) return look(count - 2, words + 2);
    if (count < 5) return 2;
    srandom((unsigned)strtoul(words[1], NULL, 10));
    program = fork();
    if (program < 0) return 2;
    if (program == 0) {
        execv(words[4], words + 4);
        _exit(127);
    }
    least = random() % strtol(words[2], NULL, 10);
    while ((stat(words[3], &told) != 0 || told.st_size <= least) && !has_ended(program)) continue;
    kill(program, SIGKILL);
    if (waitpid(program, &status, 0) != program) return 2;
    return WIFSIGNALED(status) && WTERMSIG(status) == SIGKILL ? 0 : 1;
}
