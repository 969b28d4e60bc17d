/* A trace with a bound on disk: `limit FOLDER`, of which FOLDER.0, FOLDER.1 .. aren't there yet. Records of widths that end at each fourth byte, whose stamps go back where paths are
 * kept, go into it; the folders are looked at after each batch: never more bytes than the bound, nor more folders. Names that are taken, planted or moved away; folders that can't
 * be taken away or begun; bounds that can't be. tests/c/tracer reads what is left. The last line counts the checks.
 *
 * The linker's --wrap leads unlinkat, mkdirat and realloc through functions that refuse. */
#define _GNU_SOURCE
#include "dspec_reader.h"

#include <string.h>

/* How many records of batches are read, which takes as long as half of a write. */
static uint64_t read_records;

static dspec_reading read_and_count(const dspec_layout *layout, const uint8_t *bytes, size_t len, size_t *at, dspec_record *record) {
    const dspec_reading how = dspec_read(layout, bytes, len, at, record);
    read_records += how == DSPEC_READ;
    return how;
}
#define dspec_read read_and_count

/* With the files of a trace's folder in this program, it is their reading that is counted. */
#include "../../tracer/folder.c"
#include "../../tracer/folder_batch.c"
#include "../../tracer/folder_files.c"
#include "../../tracer/folder_labels.c"

#include "dspec_probe.h"

#include "check.h"

DSPEC_PROBE(four, uint32_t, number, uint32_t, more);
DSPEC_PROBE(wide, uint64_t, number);
DSPEC_PROBE(odd, uint32_t, number, uint16_t, a, uint8_t, b);

enum { CPUS = 2 };

static four_probe four;
static wide_probe wide;
static odd_probe odd;
static dspec_schema schema = DSPEC_EMPTY;
static dspec_layout layout = { .stamped = true };
static dspec_names names;
static dspec_identity identity;

/* What the system refuses. */
static int refused_unlink, refused_mkdir;
int __real_unlinkat(int at, const char *name, int how);
int __wrap_unlinkat(int at, const char *name, int how);
int __real_mkdirat(int at, const char *name, mode_t mode);
int __wrap_mkdirat(int at, const char *name, mode_t mode);

static bool refuses_copy;
void *__real_realloc(void *held, size_t size);
void *__wrap_realloc(void *held, size_t size);
static dspec_folder folder;

void *__wrap_realloc(void *held, size_t size) { return refuses_copy && held != NULL && held == folder.copy ? NULL : __real_realloc(held, size); }

static int refuse(int code) {
    errno = code;
    return -1;
}

int __wrap_unlinkat(int at, const char *name, int how) { return refused_unlink != 0 ? refuse(refused_unlink) : __real_unlinkat(at, name, how); }

int __wrap_mkdirat(int at, const char *name, mode_t mode) { return refused_mkdir != 0 ? refuse(refused_mkdir) : __real_mkdirat(at, name, mode); }

/* ---- What is on the disk. ---- */

typedef struct on_disk {
    uint64_t bytes, folders, first, last;
} on_disk;

static uint64_t bytes_in(const char *path) {
    uint64_t sum = 0;
    DIR *all = opendir(path);
    if (all == NULL) return 0;
    for (struct dirent *one; (one = readdir(all)) != NULL;) {
        struct stat of;
        if (fstatat(dirfd(all), one->d_name, &of, AT_SYMLINK_NOFOLLOW) == 0 && S_ISREG(of.st_mode)) sum += (uint64_t)of.st_size;
    }
    closedir(all);
    return sum;
}

/* The folders of the trace. */
static on_disk look(const char *path) {
    on_disk found = { 0, 0, UINT64_MAX, 0 };
    char name[4200];
    for (uint64_t number = folder.number > 100 ? folder.number - 100 : 0; number < folder.number; number++) {
        struct stat of;
        snprintf(name, sizeof name, "%s.%llu", path, (unsigned long long)number);
        if (lstat(name, &of) != 0 || !S_ISDIR(of.st_mode)) continue;
        found.bytes += bytes_in(name);
        found.folders++;
        if (found.first == UINT64_MAX) found.first = number;
        found.last = number;
    }
    return found;
}

/* ---- A session whose batches go there. ---- */

static dspec_session session = DSPEC_EMPTY;
static dspec_consumer consumer = DSPEC_EMPTY;
static dspec_cpu cpus[CPUS];
static uint64_t stamp;

static void start(void) {
    const dspec_config config = dspec_config_of_cpus(CPUS);
    MUST(dspec_start(&config, &schema, &session));
    MUST(dspec_consumer_of(&session, &consumer));
    for (uint32_t i = 0; i < CPUS; i++) MUST(dspec_cpu_of(&session, i, &cpus[i]));
}

/* Some records, one path in eight rounds kept, whose first record is older than what stands before it. */
static void record(dspec_cpu *cpu, uint32_t rounds) {
    static uint32_t round;
    uint64_t id;
    uint32_t count;
    for (uint32_t last = round + rounds; round != last; round++) {
        dspec_speculation(cpu, &id);
        wide_speculate(&wide, cpu, id, stamp++, round);
        for (uint32_t i = 0; i < 3 + round % 3; i++) four_trace(&four, cpu, stamp++, round, i);
        odd_trace(&odd, cpu, stamp++, round, 7, 8);
        wide_speculate(&wide, cpu, id, stamp++, round);
        round % 8 == 0 ? dspec_commit(cpu, id, &count) : dspec_discard(cpu, id, &count);
    }
}

/* So many runs of two records, each of which is older than the run before it: each takes a packet in a file of its own. */
static void record_runs(dspec_cpu *cpu, uint32_t runs) {
    for (uint32_t run = runs; run > 0; run--)
        for (uint32_t i = 0; i < 2; i++) four_trace(&four, cpu, stamp + 2 * run + i, run, i);
    stamp += 2 * runs + 2;
}

static bool take(uint32_t number) {
    dspec_batch batch;
    bool sealed, well = true;
    uint32_t count;
    MUST(dspec_ask(&consumer, number));
    MUST(dspec_service(&cpus[number], &sealed, &count));
    if (dspec_take(&consumer, number, &batch) != DSPEC_OK) return true;
    well = dspec_folder_take(&folder, &layout, &batch);
    MUST(dspec_give_back(&consumer, number));
    MUST(dspec_clean(&consumer, &count));
    return well;
}

/* Ends the session, and the trace: whether it was whole. accepted: how many records there were. */
static bool end(uint64_t *accepted) {
    dspec_cpu *const all[] = { &cpus[0], &cpus[1] };
    dspec_closed closed = DSPEC_EMPTY;
    dspec_report report;
    bool whole;
    *accepted = 0;
    MUST(dspec_close(&session, all, CPUS, &consumer, &closed));
    whole = dspec_folder_close(&folder, &layout, &closed);
    for (uint32_t i = 0; i < CPUS; i++) {
        MUST(dspec_closed_report(&closed, i, &report));
        *accepted += report.accepted;
    }
    dspec_closed_drop(&closed);
    return whole;
}

static bool begins(const char *path, uint64_t bytes, uint32_t folders) {
    memset(&folder, 0, sizeof folder);
    dspec_folder_limit(&folder, bytes, folders);
    return dspec_folder_begin(&folder, path, &schema, CPUS, &identity, &names);
}

/* The line by which tests/c/tracer knows what is due of a trace. */
static void tell(const char *path, uint64_t accepted) {
    printf("trace %s: accepted %llu, gone %llu, folders %llu\n", path, (unsigned long long)accepted, (unsigned long long)folder.gone_records, (unsigned long long)folder.gone);
}

/* A bound, and some so many times as many bytes of records: so many rounds of them a batch. */
static void bound(const char *path, uint64_t bytes, uint32_t folders, uint32_t rounds, uint32_t times) {
    uint64_t accepted, most = 0;
    on_disk found;
    CHECK(begins(path, bytes, folders));
    start();
    for (uint64_t written = 0; written < times * bytes; written += rounds * 200) {
        record(&cpus[written % 3 == 0], rounds);
        CHECK(take(written % 3 == 0));
        found = look(path);
        if (found.bytes > most) most = found.bytes;
        if (!CHECK(found.bytes <= bytes && found.folders <= folders && found.folders == found.last - found.first + 1)) break;
    }
    CHECK(end(&accepted) && !folder.lost);
    found = look(path);
    CHECK(found.bytes <= bytes && found.folders == folders && folder.gone == found.first && folder.gone_records > 0 && folder.gone_records < accepted);
    printf("%llu bytes in %u folders: at the most %llu\n", (unsigned long long)bytes, folders, (unsigned long long)most);
    tell(path, accepted);
}

/* Batches of few bytes and many runs: the bound is kept before each packet of a batch, and nothing is lost. */
static void runs_beyond_a_bound(const char *path) {
    enum { BATCHES = 20, RUNS = 40 };
    uint64_t accepted;
    CHECK(begins(path, 100000, 4));
    start();
    for (uint32_t i = 0; i < BATCHES; i++) {
        record_runs(&cpus[i % CPUS], RUNS);
        CHECK(take(i % CPUS));
        if (!CHECK(look(path).bytes <= 100000 && look(path).folders <= 4)) break;
    }
    CHECK(end(&accepted) && !folder.lost && accepted == 2 * BATCHES * RUNS && look(path).bytes <= 100000);
    tell(path, accepted);
}

/* ---- Enemies. ---- */

static void put(const char *folder_of, const char *name, const char *text) {
    char path[4400];
    FILE *file;
    snprintf(path, sizeof path, "%s/%s", folder_of, name);
    file = fopen(path, "w");
    if (file == NULL) exit(2);
    fputs(text, file);
    fclose(file);
}

static bool has(const char *folder_of, const char *name, const char *text) {
    char path[4400], found[64] = "";
    FILE *file;
    snprintf(path, sizeof path, "%s/%s", folder_of, name);
    file = fopen(path, "r");
    if (file == NULL) return false;
    if (fgets(found, sizeof found, file) == NULL) found[0] = 0;
    fclose(file);
    return strcmp(found, text) == 0;
}

static void names_that_are_taken(const char *path) {
    char victim[4200], link[4200], plain[4200], moved[4200], third[4200], fourth[4200];
    uint64_t accepted;
    snprintf(victim, sizeof victim, "%s.victim", path);
    snprintf(moved, sizeof moved, "%s.moved", path);
    snprintf(link, sizeof link, "%s.3", path);
    snprintf(plain, sizeof plain, "%s.5", path);
    snprintf(third, sizeof third, "%s.2", path);
    snprintf(fourth, sizeof fourth, "%s.4", path);
    if (mkdir(victim, 0777) != 0) exit(2);
    put(victim, "metadata", "mine");
    put(victim, "cpu_0_0", "mine too");
    CHECK(begins(path, 100000, 4) && look(path).first == 0);
    start();
    if (symlink(victim, link) != 0) exit(2);
    FILE *file = fopen(plain, "w");
    if (file == NULL) exit(2);
    fclose(file);
    while (folder.number < 5) {
        record(&cpus[0], 30);
        CHECK(take(0));
    }
    /* One that is written is moved away, and a link stands in its place: what becomes of it is its own. */
    CHECK(rename(fourth, moved) == 0 && symlink(victim, fourth) == 0);
    while (folder.number < 20) {
        record(&cpus[0], 30);
        CHECK(take(0));
    }
    CHECK(end(&accepted) && look(path).folders == 4 && folder.gone == folder.number - 4 - 2);
    CHECK(has(victim, "metadata", "mine") && has(victim, "cpu_0_0", "mine too") && bytes_in(victim) == 12);
    CHECK(bytes_in(moved) == 0 && bytes_in(third) == 0);
    struct stat of;
    CHECK(lstat(link, &of) == 0 && S_ISLNK(of.st_mode) && lstat(plain, &of) == 0 && S_ISREG(of.st_mode));
    /* A later run goes on after all names that are there, and leaves them alone. */
    const uint64_t next = folder.number;
    CHECK(begins(path, 100000, 4) && folder.parts[0].number == next && dspec_folder_end(&folder));
    tell(path, 0);
}

/* How many records the newest folder tells as missed by the first CPU: the count in the last packet of its first file. */
static uint64_t missed_told(const char *path) {
    uint8_t packet[DSPEC_FOLDER_PACKET] = { 0 };
    char name[4300];
    uint64_t count = UINT64_MAX;
    FILE *file;
    snprintf(name, sizeof name, "%s.%llu/cpu_0_0", path, (unsigned long long)look(path).last);
    file = fopen(name, "rb");
    if (file == NULL) exit(2);
    while (fread(packet, sizeof packet, 1, file) == 1) count = dspec_number_at(packet + 56, 8);
    fclose(file);
    return count;
}

/* Folders that can't be taken away, or not be begun: what can't be written is told, the bound holds, and it goes on where it can again. */
static void system_that_refuses(const char *path) {
    uint64_t accepted, missed = 0;
    CHECK(begins(path, 100000, 4));
    start();
    for (int i = 0; i < 100 && folder.last.status == DSPEC_OK; i++) {
        refuses_copy = folder.copy != NULL;
        folder.copy_size = 0;
        record(&cpus[0], 10 + (uint32_t)i * 7 % 50);
        if (!take(0)) CHECK(folder.last.status == DSPEC_NO_MEMORY && folder.last.records > 0);
    }
    CHECK(folder.lost && folder.last.status == DSPEC_NO_MEMORY);
    refuses_copy = false;
    on_disk before = look(path);
    refused_unlink = EACCES;
    for (int i = 0; i < 200; i++) {
        record(&cpus[0], 30);
        if (!take(0)) {
            if (!CHECK(folder.last.code == EACCES && folder.last.records > 0)) break;
            missed += folder.last.records;
        }
        if (!CHECK(look(path).bytes <= 100000 && look(path).folders <= 4)) break;
    }
    CHECK(!folder.is_open && look(path).first == before.first);
    const uint64_t gone = folder.gone;
    refused_unlink = 0;
    record(&cpus[0], 2);
    CHECK(take(0) && folder.is_open && folder.gone == gone + 1);
    CHECK(missed > 0 && missed_told(path) == missed);
    refused_mkdir = ENOENT;
    for (int i = 0; i < 100; i++) {
        record(&cpus[0], 30);
        if (!take(0) && !CHECK(folder.last.code == ENOENT)) break;
    }
    CHECK(!folder.is_open && look(path).folders == 3);
    refused_mkdir = ENOSPC; /* room comes of old folders, but of the last one */
    record(&cpus[0], 30);
    CHECK(!take(0) && folder.last.code == ENOSPC && look(path).folders == 1);
    refused_mkdir = 0;
    record(&cpus[0], 2);
    CHECK(take(0) && look(path).folders == 2);
    CHECK(!end(&accepted) && folder.first.status == DSPEC_NO_MEMORY && folder.first.records > 0 && folder.first.records < accepted);
    printf("trace %s: accepted %llu, gone %llu, folders %llu\n", path, (unsigned long long)(accepted - folder.first.records), (unsigned long long)folder.gone_records,
           (unsigned long long)folder.gone);
}

/* Records are read where they are lost or their batch is cut, and there alone: with a bound and without. */
static void records_that_are_read(const char *path, uint64_t bytes, uint32_t folders) {
    const dspec_batch torn = { (const uint8_t *)"\1\0\0\0\1\0\0\0\0\0\0\0\7\0\0\0\7\0\0\0\1\0\0", 23, 0, 0 }; /* a record, and three bytes of another */
    uint64_t accepted;
    CHECK(begins(path, bytes, folders));
    start();
    read_records = 0;
    for (int i = 0; i < 20; i++) {
        record(&cpus[0], 100);
        CHECK(take(0));
    }
    CHECK(read_records == 0);
    CHECK(!dspec_folder_take(&folder, &layout, &torn) && folder.last.status == DSPEC_BAD_RECORD && folder.last.records == 1 && read_records == 1);
    CHECK(!end(&accepted) && folder.first.records == 1);
}

/* A path that isn't from the root is that of the begin, wherever the process goes. */
static void process_that_moves(const char *path) {
    char here[4200];
    uint64_t accepted;
    snprintf(here, sizeof here, "%.*s", (int)(strrchr(path, '/') - path), path);
    CHECK(chdir(here) == 0 && begins(strrchr(path, '/') + 1, 100000, 4) && chdir("/") == 0);
    start();
    while (folder.number < 3) {
        record(&cpus[1], 30);
        CHECK(take(1));
    }
    CHECK(end(&accepted) && look(path).folders == 3 && folder.gone == 0);
    tell(path, accepted);
}

static void bounds_that_can_not_be(const char *path) {
    CHECK(!begins(path, 1000000, 1) && folder.last.status == DSPEC_TOO_SMALL);
    CHECK(!begins(path, 1000000, 65) && folder.last.status == DSPEC_TOO_SMALL);
    CHECK(!begins(path, 20000, 4) && folder.last.status == DSPEC_TOO_SMALL && strcmp(dspec_folder_why(&folder), "the room is too small") == 0);
    refused_mkdir = EACCES;
    CHECK(!begins(path, 1000000, 4) && folder.last.code == EACCES);
    refused_mkdir = 0;
    char first[4200];
    struct stat of;
    snprintf(first, sizeof first, "%s.0", path);
    CHECK(lstat(first, &of) != 0 && errno == ENOENT);
}

int main(int argc, char **argv) {
    char path[4096], host[DSPEC_HOST_SIZE];
    if (argc != 2) return 2;
    MUST(dspec_schema_new(&schema));
    MUST(dspec_schema_stamp(&schema));
    MUST(four_enable(&four, &layout, &schema));
    MUST(wide_enable(&wide, &layout, &schema));
    MUST(odd_enable(&odd, &layout, &schema));
    four_name(&names);
    wide_name(&names);
    odd_name(&names);
    CHECK(dspec_identity_of_system(&identity, "limit", host));
    snprintf(path, sizeof path, "%s.none", argv[1]);
    bounds_that_can_not_be(path);
    bound(argv[1], 100000, 4, 30, 10);
    snprintf(path, sizeof path, "%s.large", argv[1]);
    bound(path, 1000000, 3, 250, 4);
    snprintf(path, sizeof path, "%s.small", argv[1]);
    bound(path, 2 * 11000, 2, 250, 10);
    snprintf(path, sizeof path, "%s.runs", argv[1]);
    runs_beyond_a_bound(path);
    snprintf(path, sizeof path, "%s.taken", argv[1]);
    names_that_are_taken(path);
    snprintf(path, sizeof path, "%s.refused", argv[1]);
    system_that_refuses(path);
    snprintf(path, sizeof path, "%s.moves", argv[1]);
    process_that_moves(path);
    snprintf(path, sizeof path, "%s.read", argv[1]);
    records_that_are_read(path, 10000000, 2);
    snprintf(path, sizeof path, "%s.unbounded", argv[1]);
    records_that_are_read(path, 0, 0);
    dspec_schema_drop(&schema);
    return check_end();
}
