/* place.c: where in the program a thread crashed: which file an address is mapped from, and from where the code there was called. All is read by the system, which refuses what isn't mapped; nothing
 * here takes memory, or a lock of the C library's, which the thread that crashed may have. */
#include "body.h"

#include <fcntl.h>
#include <unistd.h>

/* ---- Files. ---- */

typedef struct mapping {
    uint64_t from, to, base; /* base: where the file's first mapping begins, which comes before its others */
    bool runs;
    char *path; /* in the line */
} mapping;

static bool read_mapping(char *line, mapping *found) {
    unsigned long from, to, at;
    char rights[5];
    int path = 0;
    if (sscanf(line, "%lx-%lx %4s %lx %*s %*s %n", &from, &to, rights, &at, &path) < 4 || path == 0) return false;
    found->from = from;
    found->to = to;
    if (at == 0) found->base = from;
    found->runs = rights[2] == 'x';
    found->path = line + path;
    return true;
}

static void set_place(code_place *found, uint64_t address, const mapping *in) {
    const char *slash = strrchr(in->path, '/'), *name = slash != NULL ? slash + 1 : in->path;
    *found = (code_place){ .offset = address - in->base, .base = in->base, .runs = in->runs };
    memcpy(found->file, name, strnlen(name, sizeof found->file));
}

bool place_of(uint64_t address, code_place *found) {
    char bytes[4096], line[600];
    mapping in = { 0 };
    size_t len = 0;
    ssize_t got;
    bool is_found = false;
    const int maps = dspec_folder_above_(open("/proc/self/maps", O_RDONLY | O_CLOEXEC));
    if (maps < 0) return false;
    while (!is_found && (got = read(maps, bytes, sizeof bytes)) > 0)
        for (ssize_t i = 0; i < got && !is_found; i++) {
            if (bytes[i] != '\n') {
                if (len < sizeof line - 1) line[len++] = bytes[i];
                continue;
            }
            line[len] = 0;
            len = 0;
            is_found = read_mapping(line, &in) && address >= in.from && address < in.to;
            if (is_found) set_place(found, address, &in);
        }
    close(maps);
    return is_found;
}

/* ---- Calls. ---- */

/* A frame isn't larger, and a library's frames together have no more words on the stack. */
enum { MOST_OF_A_FRAME = 1 << 20, MOST_OF_A_LIBRARY = 256 };

static bool reads(int memory, uint64_t at, void *to, size_t len) { return pread(memory, to, len, (off_t)at) == (ssize_t)len; }

static uint64_t word_at(int memory, uint64_t at) {
    uint64_t word = 0;
    return reads(memory, at, &word, sizeof word) ? word : 0;
}

/* Whether the instruction before this address is a call. */
static bool is_after_call(int memory, uint64_t address) {
#if defined(__x86_64__)
    enum { LONGEST = 7, CALL = 0xe8, GROUP = 0xff, WHICH = 0x38, INDIRECT = 0x10 };
    uint8_t code[LONGEST];
    if (!reads(memory, address - LONGEST, code, LONGEST)) return false;
    if (code[LONGEST - 5] == CALL) return true;
    for (int length = 2; length <= LONGEST; length++)
        if (code[LONGEST - length] == GROUP && (code[LONGEST - length + 1] & WHICH) == INDIRECT) return true;
    return false;
#elif defined(__aarch64__)
    uint32_t code;
    return reads(memory, address - 4, &code, sizeof code) && ((code & 0xfc000000) == 0x94000000 || (code & 0xfffffc1f) == 0xd63f0000);
#else
    (void)memory;
    return address != 0;
#endif
}

static bool is_return(int memory, uint64_t address, code_place *in) { return is_after_call(memory, address) && place_of(address, in) && in->runs; }

/* From a frame pointer on, to the caller's, while each is above the one before: the addresses to which these frames return. */
static size_t follow(int memory, uint64_t frame, uint64_t stack, uint64_t *found, size_t most) {
    size_t count = 0;
    code_place in;
    while (count < most && frame >= stack && frame - stack <= MOST_OF_A_FRAME && frame % 8 == 0) {
        const uint64_t returns = word_at(memory, frame + 8);
        if (!is_return(memory, returns, &in)) break;
        found[count++] = returns;
        stack = frame + 16;
        frame = word_at(memory, frame);
    }
    return count;
}

#if defined(__x86_64__)
/* Where the call before this address goes to; 0: that isn't in its instruction. */
static uint64_t target_of(int memory, uint64_t address) {
    uint8_t code[12];
    int32_t distance;
    size_t at = 0;
    if (reads(memory, address - 6, code, 6) && code[0] == 0xff && code[1] == 0x15) {
        memcpy(&distance, code + 2, 4);
        return word_at(memory, address + (uint64_t)(int64_t)distance);
    }
    if (!reads(memory, address - 5, code, 5) || code[0] != 0xe8) return 0;
    memcpy(&distance, code + 1, 4);
    address += (uint64_t)(int64_t)distance;
    if (!reads(memory, address, code, sizeof code)) return 0;
    if (memcmp(code, "\xf3\x0f\x1e\xfa", 4) == 0) at = 4; /* the linker's stub: endbr64, bnd, and a jump by a word of its table */
    if (code[at] == 0xf2) at++;
    if (code[at] != 0xff || code[at + 1] != 0x25) return address;
    memcpy(&distance, code + at + 2, 4);
    return word_at(memory, address + at + 6 + (uint64_t)(int64_t)distance);
}

/* Where a library that keeps no frame pointers, as the C library, was called from: the first address on the stack that is another file's and returns from a call into this one. Its caller's frame
 * pointer is the word below it or still in the register. How many were found. */
static size_t scan(int memory, const struct crash *of_thread, const code_place *library, uint64_t *found, size_t most) {
    uint64_t words[MOST_OF_A_LIBRARY];
    code_place in, to;
    const ssize_t got = pread(memory, words, sizeof words, (off_t)of_thread->stack);
    for (size_t i = 0; got > 0 && i < (size_t)got / 8; i++) {
        const uint64_t at = of_thread->stack + 8 * i;
        size_t more;
        if (!is_return(memory, words[i], &in) || in.base == library->base) continue;
        if (!place_of(target_of(memory, words[i]), &to) || to.base != library->base) continue;
        found[0] = words[i];
        more = i > 0 ? follow(memory, words[i - 1], at + 8, found + 1, most - 1) : 0;
        return 1 + (more > 0 ? more : follow(memory, of_thread->frame, at + 8, found + 1, most - 1));
    }
    return 0;
}
#else
static size_t scan(int memory, const struct crash *of_thread, const code_place *library, uint64_t *found, size_t most) {
    (void)memory, (void)of_thread, (void)library, (void)found, (void)most;
    return 0;
}
#endif

size_t callers_of(const struct crash *of_thread, uint64_t callers[MOST_CALLERS]) {
    const int memory = dspec_folder_above_(open("/proc/self/mem", O_RDONLY | O_CLOEXEC));
    uint64_t scanned[MOST_CALLERS];
    size_t count, more = 0;
    code_place in, first;
    if (memory < 0) return 0;
    count = follow(memory, of_thread->frame, of_thread->stack, callers, MOST_CALLERS);
    if (place_of(of_thread->pc, &in) && !(count > 0 && place_of(callers[0], &first) && first.base == in.base)) more = scan(memory, of_thread, &in, scanned, MOST_CALLERS);
    if (more > 0) memcpy(callers, scanned, more * sizeof *scanned);
    close(memory);
    return more > 0 ? more : count;
}
