/* Files that dspec_salvage can't trust: `salvage FILE FOLDER COUNT SEED [OTHER]`; `salvage FILE HOW` makes FILE one of a kind, with a sum that fits, and `salvage FILE leak FOLDER` counts memory.
 *
 * FILE is what a killed tracer left, and OTHER what another one left, of the same options. Each time FILE is damaged (damages.h), and half of the damaged heads have a sum that fits. dspec_salvage has to come
 * back, with a word where it answers false, and else with no more kept records than there are. What it has written is read to its end, and by READER too, a program, where no folder before had the same. */
#define _GNU_SOURCE
#include "damages.h"
#include "read_folder.h"

#include "dspec_tracer.h"

#include <errno.h>
#include <inttypes.h>
#include <malloc.h>
#include <spawn.h>
#include <sys/mman.h>
#include <sys/stat.h>
#include <sys/wait.h>

/* A salvage that takes so long hangs: it reads a lane for a second of the processor, and a minute, at the most. */
enum { MOST_SECONDS = 600, MOST_SEEN = 1 << 20 };

static uint8_t *bytes, *whole;
static size_t size;
static char path[4096], out[4096];
static const char *reader;

/* Takes away a folder with all that it has. */
static void without(const char *folder) {
    static const char *const parts[] = { "kept", "undecided" };
    for (size_t part = 0; part < 2; part++) {
        char name[4200];
        DIR *names;
        snprintf(name, sizeof name, "%s/%s", folder, parts[part]);
        names = opendir(name);
        for (struct dirent *entry; names != NULL && (entry = readdir(names)) != NULL;)
            if (entry->d_name[0] != '.' && unlinkat(dirfd(names), entry->d_name, 0) != 0) exit(9);
        if (names != NULL) closedir(names);
        if (rmdir(name) != 0 && errno != ENOENT) exit(9);
    }
    if (rmdir(folder) != 0 && errno != ENOENT) exit(9);
}

/* ---- Files of a kind. ---- */

/* The write that was under way has no end, and neither has its file. */
static void make_endless(const saved_head *head, body *tracer) {
    char name[4200];
    int hole;
    tracer->folder.writing.size = (size_t)1 << 62;
    snprintf(name, sizeof name, "%s/cpu_%u_%zu", head->folder, tracer->folder.writing_cpu, tracer->folder.writing.file);
    hole = open(name, O_WRONLY);
    if (hole < 0 || ftruncate(hole, (off_t)1 << 42) != 0) exit(9);
    close(hole);
}

/* A lane, or its session alone, is another one's. */
static void make_twice(saved_head *head, body *tracer, uint32_t number, bool with_all) {
    const uint32_t from = number % head->lanes, to = (number + 1) % head->lanes;
    struct lane *copy = &tracer->lanes[to], *of = &tracer->lanes[from];
    const struct lane was = *copy;
    if (with_all) {
        *copy = *of;
        copy->number = was.number;
    } else {
        copy->session = of->session;
        copy->consumer = of->consumer;
        copy->front.cpu = of->front.cpu;
        copy->accepted = of->accepted;
        copy->standing = of->standing;
        copy->sealed = of->sealed;
        copy->switched = of->switched;
        copy->taken = of->taken;
        copy->given = of->given;
        copy->filled = of->filled;
        memcpy(copy->open, of->open, sizeof copy->open);
    }
}

/* A lane says that the folder is getting the first record of the buffer that it fills. */
static void make_again(const saved_head *head, body *tracer) {
    enum { QUERY_BYTES = 28 };
    for (uint32_t i = 0; i < head->lanes; i++) {
        struct lane *lane = &tracer->lanes[i];
        lane->bringing = IS_BROUGHT;
        lane->taken = lane->given + 1;
        lane->standing = lane->sealed = 1;
        lane->out = (dspec_batch){ lane->buffers[lane->filled & 1], QUERY_BYTES, 0, i };
        lane->before = 0;
        for (uint32_t k = 0; k < tracer->folder.kept; k++) lane->before += tracer->folder.parts[k].records;
    }
}

/* The records with a text have bytes after their last field, of which the library says that they are no records then. */
static void make_gaps(const saved_head *head) {
    enum { TEXT_BYTES = 16, FLOAT_BYTES = 4 };
    for (size_t at = head->memory_at; at + 32 < size; at++)
        if (memcmp(bytes + at, "a text", 7) == 0) bytes[at + TEXT_BYTES + FLOAT_BYTES + 1] = 1;
}

static int make(const char *how) {
    saved_head *head = (saved_head *)(void *)bytes;
    body *tracer = (body *)(void *)(bytes + head->body_at);
    const uint64_t body_at = head->body_at;
    int file;
    if (strcmp(how, "escapes") == 0) {
        strcpy(head->folder, "/\033]0;owned\007\033[31m");
        strcpy(head->program, "p\033[2J");
    }
    if (strcmp(how, "path") == 0) strcpy(head->folder, "/dev/full/../../proc/self/mem");
    if (strcmp(how, "endless") == 0) make_endless(head, tracer);
    if (strncmp(how, "lane", 4) == 0) make_twice(head, tracer, (uint32_t)atoi(how + 4), true);
    if (strncmp(how, "session", 7) == 0) make_twice(head, tracer, (uint32_t)atoi(how + 7), false);
    if (strcmp(how, "again") == 0) make_again(head, tracer);
    if (strcmp(how, "gaps") == 0) make_gaps(head);
    head->sum = head_sum(head);
    if (strcmp(how, "hole") != 0) return 0;
    file = open(path, O_RDWR);
    return file < 0 || ftruncate(file, (off_t)body_at) != 0 || ftruncate(file, (off_t)size) != 0;
}

/* A trace is where this one is to be, so that it can't begin: nothing is kept of 200 refusals. */
static int refuse_often(void) {
    static dspec_salvaged told;
    size_t before = 0, now;
    for (int i = 0; i < 200; i++) {
        if (dspec_salvage(path, out, &told)) return 1;
        if (i == 10) before = mallinfo2().uordblks;
    }
    now = mallinfo2().uordblks;
    printf("%zu bytes more, '%s'\n", now - before, told.why);
    return now > before + 8000;
}

/* ---- Damages. ---- */

/* What came of all of them. */
static struct {
    uint64_t answered[2], unreadable, folders, different, slowest_ms;
} all;

static int tells(FILE *to, uint64_t count) {
    return fprintf(to, "%" PRIu64 ": %" PRIu64 " read, %" PRIu64 " refused, %" PRIu64 " lanes unreadable; %" PRIu64 " folders, %" PRIu64 " of them unlike the others; at most %" PRIu64 " ms\n", count, all.answered[1],
                   all.answered[0], all.unreadable, all.folders, all.different, all.slowest_ms);
}

/* Whether no folder before had this sum. */
static bool is_new(uint64_t sum) {
    static uint64_t seen[MOST_SEEN];
    size_t at = sum % MOST_SEEN;
    if (sum == 0 || all.different == MOST_SEEN / 2) return false;
    while (seen[at] != 0 && seen[at] != sum) at = (at + 1) % MOST_SEEN;
    if (seen[at] == sum) return false;
    seen[at] = sum;
    all.different++;
    return true;
}

static bool is_read_by_program(const char *folder) {
    char *words[] = { (char *)(uintptr_t)reader, (char *)(uintptr_t)folder, NULL };
    posix_spawn_file_actions_t quiet;
    int status = -1;
    pid_t child;
    posix_spawn_file_actions_init(&quiet);
    posix_spawn_file_actions_addopen(&quiet, 1, "/dev/null", O_WRONLY, 0);
    posix_spawn_file_actions_addopen(&quiet, 2, "/dev/null", O_WRONLY, 0);
    if (posix_spawn(&child, reader, &quiet, NULL, words, environ) == 0) waitpid(child, &status, 0);
    posix_spawn_file_actions_destroy(&quiet);
    return status == 0;
}

/* What is wrong with a trace that should have so many events, of which the last two kinds aren't counted; NULL: nothing, or it wasn't begun. */
static const char *wrong_with(const char *name, bool is_due, uint64_t records, bool without_last) {
    char folder[4200];
    read_folder is;
    snprintf(folder, sizeof folder, "%s/%s", out, name);
    if (!is_due && access(folder, F_OK) != 0) return NULL;
    is = folder_read(folder);
    if (is.why != NULL) return is.why;
    all.folders++;
    if (is.events - (without_last ? is.found[is.known] + is.found[is.known - 1] : 0) != records) return "it doesn't have as many records as is told";
    return is_new(is.sum) && reader != NULL && !is_read_by_program(folder) ? "READER doesn't read it" : NULL;
}

/* What is wrong with an answer of dspec_salvage, and with what it wrote; NULL: nothing. */
static const char *wrong_in(bool is_whole, const dspec_salvaged *told, uint64_t most) {
    const char *why;
    if (is_whole != (told->why[0] == 0)) return "a word and an answer don't agree";
    if (told->unreadable > told->lanes || told->in_call > told->lanes || (is_whole && told->unreadable > 0)) return "a number of lanes is none";
    if (is_whole && told->kept > most) return "it has more records than there are";
    why = wrong_with("kept", is_whole, told->kept, false);
    return why != NULL ? why : wrong_with("undecided", told->undecided > 0, told->undecided, true);
}

static uint64_t milliseconds(void) {
    struct timespec now;
    clock_gettime(CLOCK_MONOTONIC, &now);
    return (uint64_t)now.tv_sec * 1000 + (uint64_t)now.tv_nsec / 1000000;
}

/* The most records that a salvage of a file as it was left finds: of a lane whose batch was on its way to the folder, this may have some. */
static uint64_t most_of(const uint8_t *file, const dspec_salvaged *told) {
    enum { LEAST_RECORD = 12 };
    const saved_head *head = (const saved_head *)(const void *)file;
    const body *tracer = (const body *)(const void *)(file + head->body_at);
    uint64_t most = told->kept;
    for (uint32_t i = 0; i <= head->lanes; i++)
        if (tracer->lanes[i].bringing != NOT_OUT) most += head->bufsize / LEAST_RECORD;
    return most;
}

/* A file as it was left is read whole, and is as it was then: the most records that one of its damages may have. */
static uint64_t begin_with(const char *left, const uint8_t *its) {
    static dspec_salvaged told;
    int file;
    without(out);
    if (!dspec_salvage(left, out, &told)) {
        printf("%s as it was: %s\n", left, told.why);
        exit(1);
    }
    without(out);
    file = open(left, O_WRONLY | O_CLOEXEC);
    if (file < 0 || pwrite(file, its, sizeof(saved_head), 0) != (ssize_t)sizeof(saved_head)) exit(9);
    close(file);
    return most_of(its, &told);
}

/* Damages the file so often: whether each time all was well. */
static bool damages(int file, const uint8_t *other, uint64_t count, uint64_t seed, uint64_t most, uint64_t most_of_other) {
    static dspec_salvaged told;
    const memory of = { bytes, whole, other, size };
    dice d = { seed };
    for (uint64_t i = 1; i <= count; i++) {
        const uint64_t began = milliseconds();
        const char *why;
        bool is_whole, is_mixed;
        uint64_t bound;
        memcpy(bytes, whole, size);
        if (ftruncate(file, (off_t)damage(&d, &of, &is_mixed)) != 0) exit(9);
        alarm(MOST_SECONDS);
        is_whole = dspec_salvage(path, out, &told);
        if (milliseconds() - began > all.slowest_ms) all.slowest_ms = milliseconds() - began;
        all.answered[is_whole]++;
        all.unreadable += told.unreadable;
        bound = is_mixed ? most + most_of_other : most;
        why = wrong_in(is_whole, &told, bound);
        if (why != NULL) {
            printf("%" PRIu64 ": %s: %d, '%s', %" PRIu64 " of %" PRIu64 " kept, %" PRIu64 " of %" PRIu64 " open paths\n", i, why, is_whole, told.why, told.kept, bound, told.undecided, told.paths);
            return false;
        }
        if (ftruncate(file, (off_t)size) != 0) exit(9);
        without(out);
        if (i % 1000 == 0) tells(stderr, i);
    }
    return tells(stdout, count) > 0;
}

/* The bytes of a file, which are the file's own where it isn't to be copied. */
static uint8_t *opened(const char *name, int *file, size_t *length, bool is_copied) {
    struct stat is;
    uint8_t *found, *copy;
    *file = open(name, O_RDWR | O_CLOEXEC);
    if (*file < 0 || fstat(*file, &is) != 0) exit(9);
    *length = (size_t)is.st_size;
    found = mmap(NULL, *length, PROT_READ | PROT_WRITE, MAP_SHARED, *file, 0);
    if (found == MAP_FAILED) exit(9);
    if (!is_copied) return found;
    copy = malloc(*length);
    if (copy == NULL) exit(9);
    memcpy(copy, found, *length);
    munmap(found, *length);
    close(*file); /* whoever closes a file gives its lock back, so it is none of the one that is salvaged */
    return copy;
}

int main(int count, char **words) {
    uint8_t *other = NULL;
    uint64_t most, most_of_other = 0;
    size_t other_size = 0;
    int file, another;
    if (count < 3 || count > 6) return 2;
    snprintf(path, sizeof path, "%s", words[1]);
    snprintf(out, sizeof out, "%s", words[count == 4 ? 3 : 2]);
    if (count == 4) return refuse_often();
    bytes = opened(path, &file, &size, false);
    if (count == 3) return make(words[2]);
    reader = getenv("READER");
    whole = malloc(size);
    if (whole == NULL) return 9;
    memcpy(whole, bytes, size);
    most = begin_with(path, whole);
    if (count == 6) {
        other = opened(words[5], &another, &other_size, true);
        most_of_other = begin_with(words[5], other);
    }
    if (count == 6 && other_size != size) return 9;
    return damages(file, other, strtoull(words[3], NULL, 10), strtoull(words[4], NULL, 10), most, most_of_other) ? 0 : 1;
}
