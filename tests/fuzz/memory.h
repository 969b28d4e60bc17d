/* memory.h: the memory of a tracer that was killed, with two lanes: paths that were kept and that the folder has, one that it doesn't have, and one that is open. An input changes words of it. */
#ifndef FUZZ_MEMORY_H
#define FUZZ_MEMORY_H

#include "fuzz.h"

#include "../../tracer/salvage.h"

#include <fcntl.h>
#include <signal.h>
#include <sys/mman.h>
#include <sys/stat.h>
#include <sys/wait.h>
#include <unistd.h>

DSPEC_PROBE(query, uint64_t, request, uint32_t, step);
DSPEC_PROBE(said, dspec_text16, what, uint8_t, outcome);
DSPEC_LABELS(said, outcome, "done", "aborted");

/* The folder of a fuzzer's files, its memory as it was left and as an input makes it. */
static char fuzz_top[64];
static uint8_t *memory_whole, *memory_now;
static size_t memory_size;
static int memory_at;

static inline void ask_path(dspec_tracer *tracer, uint64_t request, bool keep) {
    dspec_path path = dspec_path_begin(tracer);
    for (uint32_t step = 0; step < 3; step++) query_in(&path, request, step);
    said_in(&path, dspec_text16_of("a text", 6), 1);
    if (keep) dspec_path_keep(&path);
}

/* Never comes back. */
static inline void leave_memory(const char *folder) {
    static dspec_tracer tracer;
    const dspec_tracer_options options = { .lanes = 2, .paths = 2, .bufsize = 1024, .specsize = 256, .period_ms = 1000000, .no_crash = true, .no_term = true, .survive = true };
    if (!dspec_tracer_start(&tracer, folder, &options, DSPEC_PROBES(query, said))) {
        fprintf(stderr, "%s\n", tracer.why);
        _exit(9);
    }
    ask_path(&tracer, 1, true);
    dspec_tracer_flush(&tracer, 60000);
    ask_path(&tracer, 2, true);
    ask_path(&tracer, 3, false);
    kill(getpid(), SIGKILL);
}

static inline void top_begin(void) {
    const char *temporary = getenv("TMPDIR");
    snprintf(fuzz_top, sizeof fuzz_top, "%.40s/dspec-fuzz-XXXXXX", temporary != NULL ? temporary : "/tmp");
    MUST(mkdtemp(fuzz_top) != NULL);
}

static inline void memory_begin(void) {
    char path[128];
    struct stat is;
    int status;
    pid_t child;
    top_begin();
    snprintf(path, sizeof path, "%s/run", fuzz_top);
    child = fork();
    if (child == 0) leave_memory(path);
    MUST(waitpid(child, &status, 0) == child && WIFSIGNALED(status));
    snprintf(path, sizeof path, "%s/run-memory", fuzz_top);
    memory_at = open(path, O_RDWR | O_CLOEXEC);
    MUST(memory_at >= 0 && fstat(memory_at, &is) == 0);
    memory_size = (size_t)is.st_size;
    memory_whole = malloc(memory_size);
    MUST(memory_whole != NULL && pread(memory_at, memory_whole, memory_size, 0) == (ssize_t)memory_size);
    memory_now = mmap(NULL, memory_size, PROT_READ | PROT_WRITE, MAP_SHARED, memory_at, 0);
    MUST(memory_now != MAP_FAILED);
}

/* The parts of the file whose words an input changes. */
typedef struct region {
    size_t at, size;
} region;

static inline region region_of(uint64_t which) {
    const size_t body_at = ((const saved_head *)(const void *)memory_whole)->body_at, lanes_at = body_at + offsetof(body, lanes);
    const size_t memory_from = ((const saved_head *)(const void *)memory_whole)->memory_at;
    const region all[] = {
        { 0, offsetof(saved_head, host) },
        { offsetof(saved_head, host), offsetof(saved_head, events) - offsetof(saved_head, host) },
        { offsetof(saved_head, events), 12 * sizeof(saved_event) },
        { offsetof(saved_head, labels), 64 },
        { body_at, offsetof(body, folder) },
        { body_at + offsetof(body, folder), offsetof(dspec_folder, parts) },
        { body_at + offsetof(body, folder) + offsetof(dspec_folder, parts), sizeof(dspec_folder) - offsetof(dspec_folder, parts) },
        { body_at + offsetof(body, folder) + offsetof(dspec_folder, writing), sizeof(dspec_folder) - offsetof(dspec_folder, writing) },
        { lanes_at, offsetof(struct lane, open) },
        { lanes_at + sizeof(struct lane), offsetof(struct lane, open) },
        { lanes_at + 2 * sizeof(struct lane), offsetof(struct lane, open) },
        { lanes_at + offsetof(struct lane, open), 4 * sizeof(open_path) },
        { lanes_at + offsetof(struct lane, session), sizeof(struct lane) - offsetof(struct lane, session) },
        { lanes_at + sizeof(struct lane) + offsetof(struct lane, session), sizeof(struct lane) - offsetof(struct lane, session) },
        { memory_from, (memory_size - memory_from) / 2 },
        { memory_from + (memory_size - memory_from) / 2, (memory_size - memory_from) / 2 },
    };
    return all[which % (sizeof all / sizeof all[0])];
}

/* A word of so many bytes becomes another one: what the input says, or that more or less, or another word of the file. */
static inline void change_word(input *from) {
    const uint64_t how = take(from, 1);
    const region in = region_of(how & 15);
    const size_t width = how & 16 ? 1 : how & 32 ? 4 : 8, at = in.at + take(from, 2) * width % in.size;
    uint64_t word = 0;
    if (at + width > memory_size) return;
    memcpy(&word, memory_now + at, width);
    switch (how >> 6) {
    case 0: word = take(from, width); break;
    case 1: word += (uint64_t)(int64_t)(int8_t)take(from, 1); break;
    case 2: word ^= UINT64_C(1) << take(from, 1) % 64; break;
    default: {
        const size_t other = take(from, 3) * width % (memory_size - width);
        word = 0;
        memcpy(&word, memory_whole + other, width);
    }
    }
    memcpy(memory_now + at, &word, width);
}

enum { MOST_CHANGES = 16, KEEPS_SUM = 1, ENDS_EARLY = 2 };

/* The file as an input has it: its first byte says whether the sum of the head is left as it was, and whether the file ends early. */
static inline void memory_becomes(input *from) {
    saved_head *head = (saved_head *)(void *)memory_now;
    const uint64_t how = take(from, 1);
    MUST(ftruncate(memory_at, (off_t)memory_size) == 0);
    memcpy(memory_now, memory_whole, memory_size);
    for (int i = 0; i < MOST_CHANGES && from->left > 0; i++) change_word(from);
    if (!(how & KEEPS_SUM)) head->sum = saved_sum(head);
    if (how & ENDS_EARLY) MUST(ftruncate(memory_at, (off_t)(take(from, 4) % (memory_size + 1))) == 0);
}

#endif
