/* The memory that a folder takes before its batches (dspec_folder_reserve): one room for all CPUs, and no batch takes any, whatever becomes of it and of the one before.
 * `c_reserve FOLDER`, a folder that isn't there yet; others beside it have its name and a word more.
 *
 * The linker's --wrap leads the calls of malloc, calloc, realloc and free through the functions below, which count, and refuse what `refused` says. */
#include "dspec_ctf.h"

#include "check.h"

#include <errno.h>
#include <signal.h>
#include <sys/resource.h>

enum { CPUS = 8, RECORD = 16, LONG = 65536 / RECORD, BATCH = LONG * RECORD, FILES = 60 };
/* A CPU's handle has the schema, of some 12 KB, and takes far less than the room of a batch. */
enum { HANDLE = BATCH / 2 };

static const uint8_t FOUR[] = { 4 };
static dspec_schema schema = DSPEC_EMPTY;
static dspec_layout layout = { .stamped = true };
static dspec_identity identity = { .uuid = { 1 }, .hertz = 1000, .host = { "here", 4 }, .name = { "reserve", 7 } };
static dspec_folder folder;

/* ---- What is asked of the system. ---- */

/* Blocks that weren't freed; how many were asked for, how many bytes, and the largest of them; and the next that is refused: 0 is none. */
static long blocks, asked, refused;
static size_t bytes_asked, largest;

void *__real_malloc(size_t size);
void *__real_calloc(size_t count, size_t size);
void *__real_realloc(void *held, size_t size);
void __real_free(void *held);
void *__wrap_malloc(size_t size);
void *__wrap_calloc(size_t count, size_t size);
void *__wrap_realloc(void *held, size_t size);
void __wrap_free(void *held);

static bool is_refused(size_t size) {
    asked++;
    bytes_asked += size;
    if (size > largest) largest = size;
    return refused > 0 && --refused == 0;
}

static void *given(void *at) {
    blocks += at != NULL;
    return at;
}

void *__wrap_malloc(size_t size) { return is_refused(size) ? NULL : given(__real_malloc(size)); }

void *__wrap_calloc(size_t count, size_t size) { return is_refused(count * size) ? NULL : given(__real_calloc(count, size)); }

void *__wrap_realloc(void *held, size_t size) {
    if (is_refused(size)) return NULL;
    return held == NULL ? given(__real_realloc(held, size)) : __real_realloc(held, size);
}

void __wrap_free(void *held) {
    blocks -= held != NULL;
    __real_free(held);
}

static void count_anew(void) {
    asked = 0;
    bytes_asked = largest = 0;
}

/* ---- Batches. ---- */

static uint8_t bytes[BATCH];
static uint64_t stamp = 1;

static void put(size_t at, uint64_t number, size_t width) {
    for (size_t i = 0; i < width; i++) bytes[at + i] = (uint8_t)(number >> 8 * i);
}

/* Whether a batch of a CPU was written, of so many records. The stamps of a second half begin before those of the first, so that they go to another file. */
static bool takes(uint32_t cpu, size_t records, bool of_two_files) {
    const dspec_batch batch = { bytes, records * RECORD, 0, cpu };
    for (size_t i = 0; i < records; i++) {
        const bool is_second = of_two_files && i >= records / 2;
        put(i * RECORD, 1, 4);
        put(i * RECORD + 4, is_second ? stamp - records + i : stamp + i, 8);
        put(i * RECORD + 12, i, 4);
    }
    stamp += records;
    return dspec_folder_take(&folder, &layout, &batch);
}

/* The same of a batch of few bytes and many files: each record is older than the one before, and gets a packet of its own. */
static bool takes_files(uint32_t cpu) {
    const dspec_batch batch = { bytes, FILES * RECORD, 0, cpu };
    for (size_t i = 0; i < FILES; i++) {
        put(i * RECORD, 1, 4);
        put(i * RECORD + 4, stamp + FILES - i, 8);
        put(i * RECORD + 12, i, 4);
    }
    stamp += FILES + 1;
    return dspec_folder_take(&folder, &layout, &batch);
}

static bool takes_damaged(uint32_t cpu) {
    const dspec_batch batch = { bytes, RECORD - 1, 5, cpu };
    return dspec_folder_take(&folder, &layout, &batch);
}

/* After whatever came before, a whole batch of each CPU is written without any memory. */
static void all_take_none(void) {
    count_anew();
    for (uint32_t cpu = 0; cpu < CPUS; cpu++) CHECK(takes(cpu, LONG, cpu % 2 == 1));
    CHECK(asked == 0);
}

static bool begins(const char *path, const char *more, uint32_t cpus, size_t reserved, uint64_t most_bytes) {
    char name[4096];
    snprintf(name, sizeof name, "%s%s", path, more);
    memset(&folder, 0, sizeof folder);
    dspec_folder_limit(&folder, most_bytes, most_bytes > 0 ? 3 : 0);
    dspec_folder_reserve(&folder, reserved);
    count_anew();
    return dspec_folder_begin(&folder, name, &schema, cpus, &identity, NULL);
}

/* Sets how many bytes a file may have from now on, or how many descriptors there may be. */
static void limit(int of, rlim_t most) {
    struct rlimit at;
    if (getrlimit(of, &at) != 0) exit(2);
    at.rlim_cur = most < at.rlim_max ? most : at.rlim_max;
    if (setrlimit(of, &at) != 0) exit(2);
}

/* ---- The tests. ---- */

/* Seven CPUs more take their handles alone. */
static void one_room_for_all(const char *path) {
    const long before = blocks;
    size_t of_one;
    CHECK(begins(path, "-one", 1, BATCH, 0));
    of_one = bytes_asked;
    CHECK(of_one > 8 * BATCH && of_one < 10 * BATCH);
    CHECK(dspec_folder_end(&folder) && blocks == before);
    CHECK(begins(path, "", CPUS, BATCH, 0));
    CHECK(bytes_asked < of_one + (CPUS - 1) * HANDLE);
}

/* The batch of one CPU is lost each way that there is, and those of all have room then. */
static void whatever_is_lost(void) {
    struct rlimit files;
    if (getrlimit(RLIMIT_NOFILE, &files) != 0) exit(2);
    all_take_none();
    CHECK(!takes_damaged(1) && folder.last.status == DSPEC_BAD_RECORD);
    all_take_none();
    CHECK(!takes(CPUS, 2, false) && folder.last.status == DSPEC_NO_SUCH_CPU);
    all_take_none();
    limit(RLIMIT_FSIZE, 512);
    count_anew();
    CHECK(!takes(2, LONG, false) && folder.last.code == EFBIG && folder.last.records == LONG && asked == 0);
    limit(RLIMIT_FSIZE, RLIM_INFINITY);
    all_take_none();
    limit(RLIMIT_NOFILE, 3);
    count_anew();
    CHECK(!takes(4, LONG, true) && folder.last.code == EMFILE && folder.last.records == LONG / 2 && asked == 0);
    limit(RLIMIT_NOFILE, files.rlim_cur);
    all_take_none();
    CHECK(!dspec_folder_end(&folder) && folder.first.records == 2 + LONG + LONG / 2);
}

/* In a bound's next folder the same room serves, also where a batch is torn by the bound. Only the CPUs' handles are asked for there. */
static void next_folder(const char *path) {
    const long before = blocks;
    uint64_t taken = 0;
    CHECK(begins(path, "-bound", CPUS, BATCH, 6 * BATCH));
    count_anew();
    for (uint32_t round = 0; round < 20; round++) taken += takes(round % CPUS, LONG, round % 3 == 0) && takes_files((round + 3) % CPUS);
    CHECK(taken == 20 && folder.number > 5 && largest < HANDLE);
    CHECK(dspec_folder_end(&folder) && !folder.lost && blocks == before);
}

/* Without a reservation each CPU takes memory at its own batch, and keeps it. */
static void without_a_reserve(const char *path) {
    const long before = blocks;
    CHECK(begins(path, "-without", CPUS, 0, 0));
    CHECK(takes(3, LONG, false) && asked > 0);
    count_anew();
    CHECK(takes(3, LONG, false) && asked == 0);
    CHECK(takes(5, LONG, false) && asked > 0);
    CHECK(dspec_folder_end(&folder) && blocks == before);
}

/* Where a growth of memory is refused at the begin, nothing is begun and each block is freed. */
static void refused_begin(const char *path) {
    const long before = blocks;
    long growth = 1;
    for (;; growth++) {
        bool is_begun;
        refused = growth;
        is_begun = begins(path, "-refused", 2, BATCH, 0);
        if (is_begun) break;
        CHECK(folder.last.status == DSPEC_NO_MEMORY && blocks == before);
    }
    refused = 0;
    CHECK(growth > 6 && dspec_folder_end(&folder) && blocks == before);
}

int main(int argc, char **argv) {
    uint32_t epid;
    if (argc != 2) return 2;
    signal(SIGXFSZ, SIG_IGN);
    MUST(dspec_schema_new(&schema));
    MUST(dspec_schema_stamp(&schema));
    MUST(dspec_layout_enable(&layout, &schema, FOUR, 1, &epid));
    one_room_for_all(argv[1]);
    whatever_is_lost();
    next_folder(argv[1]);
    without_a_reserve(argv[1]);
    refused_begin(argv[1]);
    dspec_schema_drop(&schema);
    return check_end();
}
