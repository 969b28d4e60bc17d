/* A trace that C writes: packets byte for byte, rooms that are too small, writes that fail, 64 files, calls that are refused. What packets are due says
 * an encoder of this test. `c_ctf FOLDER`, a folder that isn't there yet. */
#include "dspec_ctf.h"

#include "check.h"

#include <errno.h>
#include <signal.h>
#include <sys/resource.h>
#include <sys/stat.h>
#include <time.h>

static const uint8_t FOUR[] = { 4 };

static dspec_schema schema = DSPEC_EMPTY;
static dspec_layout layout = { .stamped = true };

static dspec_identity identity = {
    .uuid = { 1, 2, 3, 4, 5, 6, 7, 8, 9, 10, 11, 12, 13, 14, 15, 16 }, .pid = 77, .hertz = 1000, .seconds = 5, .ticks = 6,
    .host = { "here", 4 }, .name = { "server", 6 },
};

/* Bytes, one after another. */
typedef struct bytes {
    uint8_t of[8192];
    size_t len;
} bytes;

static void add(bytes *to, uint64_t number, size_t width) {
    for (size_t i = 0; i < width; i++) to->of[to->len++] = (uint8_t)(number >> 8 * i);
}

/* Records with these stamps, whose values are their stamps. */
static bytes text(const uint64_t *stamps, size_t count) {
    bytes made = { .len = 0 };
    for (size_t i = 0; i < count; i++) {
        add(&made, 1, 4);
        add(&made, stamps[i], 8);
        add(&made, stamps[i], 4);
    }
    return made;
}

/* The packet of those of CPU 3, as the format has it: zeros after its events, up to 1,024 bytes. */
static void packet(bytes *to, uint64_t begin, uint64_t end, uint64_t missed, const uint64_t *stamps, size_t count) {
    uint64_t bits = 8 * (68 + 16 * count);
    bytes events = text(stamps, count);
    add(to, 0xC1FC1FC1, 4);
    memcpy(to->of + to->len, identity.uuid, 16);
    to->len += 16;
    add(to, 0, 4);
    add(to, begin, 8);
    add(to, end, 8);
    add(to, bits, 8);
    add(to, 8 * 1024, 8);
    add(to, missed, 8);
    add(to, 3, 4);
    memcpy(to->of + to->len, events.of, events.len);
    to->len += 1024 - 68;
}

static dspec_status open_with(dspec_ctf *ctf, uint64_t drops, const uint64_t *stamps, size_t count) {
    bytes made = text(stamps, count);
    return dspec_ctf_open(ctf, 3, drops, made.of, made.len);
}

/* The next packet is this one, of so many records for this file. */
static void is_next(dspec_ctf *ctf, size_t file, size_t records, const bytes *due) {
    uint8_t room[8192];
    dspec_packet put = { 99, 99, 99 };
    ANSWERS(dspec_ctf_put(ctf, room, sizeof room, &put), DSPEC_OK);
    CHECK(put.file == file && put.records == records && put.size == due->len && memcmp(room, due->of, due->len) == 0);
}

static void runs_of_a_batch(void) {
    const uint64_t stamps[] = { 10, 20, 5, 15, 20, 30 };
    dspec_ctf ctf = DSPEC_EMPTY;
    dspec_packet put = { 1, 2, 3 };
    uint8_t room[8] = { 0 };
    bytes first = { .len = 0 }, second = { .len = 0 }, third = { .len = 0 };
    packet(&first, 10, 20, 0, stamps, 2);
    packet(&second, 5, 15, 0, stamps + 2, 2);
    packet(&third, 20, 30, 0, stamps + 4, 2);
    MUST(dspec_ctf_new(&schema, &identity, 3, &ctf));
    MUST(open_with(&ctf, 0, stamps, 6));
    ANSWERS(dspec_ctf_put(&ctf, room, sizeof room, &put), DSPEC_TOO_SMALL);
    CHECK(put.file == 1 && put.size == 1024 && put.records == 3 && room[0] == 0);
    is_next(&ctf, 0, 2, &first);
    is_next(&ctf, 1, 2, &second);
    is_next(&ctf, 0, 2, &third);
    put.size = 7;
    ANSWERS(dspec_ctf_put(&ctf, room, sizeof room, &put), DSPEC_NO_PACKET);
    CHECK(put.size == 7);
    dspec_ctf_drop(&ctf);
}

static void what_is_lost_is_told(void) {
    const uint64_t stamps[] = { 10, 20, 5, 30 }, later[] = { 40 };
    dspec_ctf ctf = DSPEC_EMPTY;
    uint64_t records = 99;
    bytes first = { .len = 0 }, second = { .len = 0 }, told = { .len = 0 }, last = { .len = 0 };
    packet(&first, 10, 20, 0, stamps, 2);
    packet(&second, 5, 5, 0, stamps + 2, 1);
    packet(&told, 20, 20, 0, NULL, 0);
    packet(&told, 20, 20, 7, NULL, 0);
    packet(&last, 40, 40, 7, later, 1);
    MUST(dspec_ctf_new(&schema, &identity, 3, &ctf));
    MUST(open_with(&ctf, 0, stamps, 4));
    is_next(&ctf, 0, 2, &first);
    is_next(&ctf, 1, 1, &second);
    ANSWERS(dspec_ctf_lose(&ctf, &records), DSPEC_OK);
    CHECK(records == 2);
    ANSWERS(dspec_ctf_miss(&ctf, 4), DSPEC_OK);
    MUST(open_with(&ctf, 1, later, 1));
    is_next(&ctf, 0, 0, &told);
    is_next(&ctf, 0, 1, &last);
    dspec_ctf_drop(&ctf);
}

/* Two CPUs' files take turns at their rooms. While a packet of a batch may be lost, or one is left, neither has the other's; what they missed is told as before. */
static void rooms_in_turns(void) {
    const uint64_t stamps[] = { 10, 20 }, other_stamp[] = { 9 }, later[] = { 30 };
    dspec_ctf ctf = DSPEC_EMPTY, other = DSPEC_EMPTY;
    dspec_packet put = { 1, 2, 3 };
    uint8_t room[8];
    uint64_t records = 99;
    bytes first = { .len = 0 }, told = { .len = 0 }, of_other = { .len = 0 }, second = { .len = 0 }, told_later = { .len = 0 };
    packet(&first, 10, 20, 0, stamps, 2);
    packet(&told, 0, 0, 0, NULL, 0);
    packet(&told, 0, 0, 4, NULL, 0);
    packet(&of_other, 9, 9, 4, other_stamp, 1);
    packet(&second, 30, 30, 0, later, 1);
    packet(&told_later, 9, 9, 4, NULL, 0);
    packet(&told_later, 9, 9, 5, NULL, 0);
    MUST(dspec_ctf_new(&schema, &identity, 3, &ctf));
    MUST(dspec_ctf_new(&schema, &identity, 3, &other));
    MUST(open_with(&ctf, 0, stamps, 2));
    MUST(open_with(&other, 4, other_stamp, 1));
    ANSWERS(dspec_ctf_swap_rooms(&ctf, &other), DSPEC_BUSY);
    is_next(&ctf, 0, 2, &first);
    ANSWERS(dspec_ctf_put(&ctf, room, sizeof room, &put), DSPEC_NO_PACKET);
    ANSWERS(dspec_ctf_swap_rooms(&ctf, &other), DSPEC_BUSY);
    is_next(&other, 0, 0, &told);
    is_next(&other, 0, 1, &of_other);
    ANSWERS(dspec_ctf_swap_rooms(&other, &ctf), DSPEC_BUSY);
    ANSWERS(dspec_ctf_lose(&other, &records), DSPEC_OK);
    CHECK(records == 1);
    ANSWERS(dspec_ctf_swap_rooms(&other, &ctf), DSPEC_OK);
    CHECK(ctf.held && other.held);
    MUST(open_with(&ctf, 0, later, 1));
    is_next(&ctf, 0, 1, &second);
    MUST(open_with(&other, 0, NULL, 0));
    is_next(&other, 0, 0, &told_later);
    ANSWERS(dspec_ctf_put(&other, room, sizeof room, &put), DSPEC_NO_PACKET);
    dspec_ctf_drop(&ctf);
    dspec_ctf_drop(&other);
}

/* The stamps 64, 63, .. 1 have a file each, and 0 would have one more. */
static void one_file_too_many(void) {
    uint64_t stamps[65], records = 99;
    uint8_t room[1024];
    dspec_packet put;
    dspec_ctf ctf = DSPEC_EMPTY;
    for (size_t i = 0; i < 65; i++) stamps[i] = 64 - i;
    MUST(dspec_ctf_new(&schema, &identity, 3, &ctf));
    MUST(open_with(&ctf, 0, stamps, 65));
    for (size_t file = 0; file < DSPEC_CTF_MAX_FILES; file++) {
        MUST(dspec_ctf_put(&ctf, room, sizeof room, &put));
        CHECK(put.file == file && put.records == 1 && put.size == 1024);
    }
    ANSWERS(dspec_ctf_put(&ctf, room, sizeof room, &put), DSPEC_BAD_CLOCK);
    ANSWERS(dspec_ctf_lose(&ctf, &records), DSPEC_OK);
    CHECK(records == 1);
    dspec_ctf_drop(&ctf);
}

static void refused(void) {
    uint8_t room[16];
    uint64_t records = 99;
    dspec_packet put = { 1, 2, 3 };
    dspec_ctf ctf = DSPEC_EMPTY, empty = DSPEC_EMPTY;
    dspec_schema bare = DSPEC_EMPTY;
    ANSWERS(dspec_ctf_put(&empty, room, sizeof room, &put), DSPEC_BAD_HANDLE);
    ANSWERS(dspec_ctf_open(&empty, 3, 0, room, 0), DSPEC_BAD_HANDLE);
    ANSWERS(dspec_ctf_reserve(&empty, 64), DSPEC_BAD_HANDLE);
    ANSWERS(dspec_ctf_swap_rooms(&empty, &ctf), DSPEC_BAD_HANDLE);
    ANSWERS(dspec_ctf_lose(&empty, &records), DSPEC_BAD_HANDLE);
    ANSWERS(dspec_ctf_miss(&empty, 1), DSPEC_BAD_HANDLE);
    ANSWERS(dspec_ctf_put((dspec_ctf *)&schema, room, sizeof room, &put), DSPEC_BAD_HANDLE);
    CHECK(records == 99 && put.size == 2);
    MUST(dspec_schema_new(&bare));
    ANSWERS(dspec_ctf_new(&bare, &identity, 3, &ctf), DSPEC_NO_STAMP);
    ANSWERS(dspec_ctf_new((dspec_schema *)&empty, &identity, 3, &ctf), DSPEC_BAD_HANDLE);
    CHECK(!ctf.held);
    MUST(dspec_ctf_new(&schema, &identity, 3, &ctf));
    ANSWERS(dspec_ctf_new(&schema, &identity, 3, &ctf), DSPEC_FULL_HANDLE);
    ANSWERS(dspec_ctf_swap_rooms(&ctf, &empty), DSPEC_BAD_HANDLE);
    ANSWERS(dspec_ctf_swap_rooms(&empty, &ctf), DSPEC_BAD_HANDLE);
    ANSWERS(dspec_ctf_swap_rooms(&ctf, (dspec_ctf *)&schema), DSPEC_BAD_HANDLE);
    ANSWERS(dspec_ctf_new((dspec_schema *)&ctf, &identity, 3, &empty), DSPEC_BAD_HANDLE);
    ANSWERS(dspec_ctf_open(&ctf, 2, 0, room, 0), DSPEC_NO_SUCH_CPU);
    ANSWERS(dspec_ctf_open(&ctf, 3, 0, (const uint8_t[]){ 9, 0, 0, 0 }, 4), DSPEC_BAD_RECORD);
    ANSWERS(dspec_ctf_open(&ctf, 3, UINT64_MAX, room, 0), DSPEC_OK);
    ANSWERS(dspec_ctf_open(&ctf, 3, 1, room, 0), DSPEC_WORN);
    dspec_ctf_drop(&ctf);
    dspec_schema_drop(&bare);
}

/* The metadata's status by these names. */
static dspec_status named(const dspec_identity *of, const char *const *names, size_t count, uint8_t kind, size_t kinds) {
    static uint8_t room[4096];
    dspec_text texts[4] = { { "", 0 } };
    const uint8_t given[2] = { kind, kind };
    size_t needed = 0;
    for (size_t i = 0; i < count; i++) texts[i] = (dspec_text){ names[i], strlen(names[i]) };
    return dspec_ctf_metadata(&schema, of, texts, count, given, kinds, room, sizeof room, &needed);
}

static void metadata(void) {
    static const char due[] = "\nevent {\n\tid = 1;\n\tname = \"step\";\n\tstream_id = 0;\n\tfields := struct {\n\t\tinteger { size = 32; align = 8; signed = true; } number;\n\t};\n};\n";
    static const char clock[] = "\tfreq = 1000;\n\toffset_s = 5;\n\toffset = 6;\n\tabsolute = true;\n";
    static const char process[] = "\thostname = \"here\";\n\tprocname = \"server\";\n\tvpid = 77;\n";
    static const char uuid[] = "uuid = \"01020304-0506-0708-090a-0b0c0d0e0f10\"";
    static uint8_t room[4096];
    const dspec_text names[] = { { "stepping", 4 }, { "number", 6 } };
    dspec_identity other = identity;
    size_t needed = 0, again = 0;
    room[0] = 'x';
    ANSWERS(dspec_ctf_metadata(&schema, &identity, names, 2, (const uint8_t[]){ DSPEC_KIND_SIGNED }, 1, room, 1, &needed), DSPEC_TOO_SMALL);
    CHECK(room[0] == 'x' && needed > 1000 && needed < sizeof room);
    ANSWERS(dspec_ctf_metadata(&schema, &identity, names, 2, (const uint8_t[]){ DSPEC_KIND_SIGNED }, 1, room, needed - 1, &again), DSPEC_TOO_SMALL);
    ANSWERS(dspec_ctf_metadata(&schema, &identity, names, 2, (const uint8_t[]){ DSPEC_KIND_SIGNED }, 1, room, needed, &again), DSPEC_OK);
    CHECK(again == needed && room[needed] == 0 && memcmp(room, "/* CTF 1.8 */", 13) == 0);
    CHECK(strstr((char *)room, due) && strstr((char *)room, clock) && strstr((char *)room, process) && strstr((char *)room, uuid));
    CHECK(strcmp((char *)room + needed - strlen(due), due) == 0);
    ANSWERS(named(&identity, NULL, 0, 0, 0), DSPEC_OK);
    ANSWERS(named(&identity, (const char *const[]){ "step" }, 1, 0, 1), DSPEC_BAD_NAME_COUNT);
    ANSWERS(named(&identity, (const char *const[]){ "step", "number" }, 2, 0, 2), DSPEC_BAD_NAME_COUNT);
    ANSWERS(named(&identity, (const char *const[]){ "step", "number", "more" }, 3, 0, 1), DSPEC_BAD_NAME_COUNT);
    ANSWERS(named(&identity, (const char *const[]){ "step", "number" }, 2, 3, 1), DSPEC_BAD_KIND);
    ANSWERS(named(&identity, (const char *const[]){ "event", "number" }, 2, 0, 1), DSPEC_BAD_NAME);
    ANSWERS(named(&identity, (const char *const[]){ "step", "2nd" }, 2, 0, 1), DSPEC_BAD_NAME);
    ANSWERS(named(&identity, (const char *const[]){ "step", "num\xff" }, 2, 0, 1), DSPEC_BAD_NAME);
    other.host = (dspec_text){ "", 0 };
    ANSWERS(named(&other, NULL, 0, 0, 0), DSPEC_BAD_IDENTITY);
    other = identity;
    other.hertz = 0;
    ANSWERS(named(&other, NULL, 0, 0, 0), DSPEC_NO_FREQUENCY);
}

/* The most bytes that a file may have from now on. */
static void limit(rlim_t most) {
    struct rlimit at;
    if (getrlimit(RLIMIT_FSIZE, &at) != 0) exit(2);
    at.rlim_cur = most < at.rlim_max ? most : at.rlim_max;
    if (setrlimit(RLIMIT_FSIZE, &at) != 0) exit(2);
}

static bool takes(dspec_folder *folder, uint64_t drops, const uint64_t *stamps, size_t count) {
    bytes made = text(stamps, count);
    const dspec_batch batch = { made.of, made.len, drops, 3 };
    return dspec_folder_take(folder, &layout, &batch);
}

/* The file has these bytes. */
static void has(const char *folder, const char *name, const bytes *due) {
    char path[4200];
    uint8_t found[8192];
    FILE *file;
    snprintf(path, sizeof path, "%s/%s", folder, name);
    file = fopen(path, "rb");
    CHECK(file != NULL);
    if (file == NULL) return;
    CHECK(fread(found, 1, sizeof found, file) == due->len && memcmp(found, due->of, due->len) == 0);
    fclose(file);
}

/* A file that may have no more than 1,100 bytes: the packet that goes past them is cut off, and its records are told as missed once there is room. */
static void writes_that_fail(const char *path) {
    static dspec_folder folder, second;
    const uint64_t first[] = { 10, 20 }, lost[] = { 30, 40, 35 }, last[] = { 50 };
    bytes due = { .len = 0 };
    signal(SIGXFSZ, SIG_IGN);
    limit(150);
    CHECK(!dspec_folder_begin(&folder, path, &schema, 4, &identity, NULL) && folder.last.code == EFBIG);
    limit(RLIM_INFINITY);
    CHECK(dspec_folder_begin(&folder, path, &schema, 4, &identity, NULL));
    CHECK(!dspec_folder_begin(&second, path, &schema, 4, &identity, NULL) && second.last.code == EEXIST);
    limit(1100);
    CHECK(takes(&folder, 0, first, 2));
    CHECK(!takes(&folder, 0, lost, 3));
    CHECK(folder.last.status == DSPEC_OK && folder.last.code == EFBIG && folder.last.cpu == 3 && folder.last.file == 0 && folder.last.records == 3);
    packet(&due, 10, 20, 0, first, 2);
    has(path, "cpu_3_0", &due);
    limit(RLIM_INFINITY);
    CHECK(takes(&folder, 2, last, 1));
    packet(&due, 40, 40, 0, NULL, 0);
    packet(&due, 40, 40, 5, NULL, 0);
    packet(&due, 50, 50, 5, last, 1);
    has(path, "cpu_3_0", &due);
    CHECK(!dspec_folder_end(&folder) && folder.first.records == 3 && folder.first.code == EFBIG);
}

/* A batch that isn't one: what it has before the damage, and its drops, are told as missed. */
static void batch_that_is_none(const char *path) {
    static dspec_folder folder;
    const uint64_t stamps[] = { 7, 8 };
    bytes made = text(stamps, 2), due = { .len = 0 };
    const dspec_batch batch = { made.of, made.len - 1, 4, 3 }, other = { made.of, made.len, 0, 9 };
    CHECK(dspec_folder_begin(&folder, path, &schema, 4, &identity, NULL));
    CHECK(!dspec_folder_take(&folder, &layout, &other) && folder.last.status == DSPEC_NO_SUCH_CPU && folder.last.records == 2);
    CHECK(!dspec_folder_take(&folder, &layout, &batch) && folder.last.status == DSPEC_BAD_RECORD && folder.last.records == 1);
    CHECK(!dspec_folder_end(&folder) && folder.first.status == DSPEC_NO_SUCH_CPU && folder.first.records == 3);
    packet(&due, 0, 0, 0, NULL, 0);
    packet(&due, 0, 0, 5, NULL, 0);
    has(path, "cpu_3_0", &due);
}

/* How many bytes of the disk a file takes. */
static uint64_t taken_by(const char *folder, const char *name) {
    char path[4200];
    struct stat of = { 0 };
    snprintf(path, sizeof path, "%s/%s", folder, name);
    CHECK(stat(path, &of) == 0);
    return (uint64_t)of.st_blocks * 512;
}

/* A file takes no more of the disk at the end than one with the same bytes that was written at once: the room that the system kept for its last packet is given back. */
static void room_that_was_kept(const char *path) {
    static dspec_folder folder;
    const uint64_t stamps[] = { 7, 8 };
    bytes due = { .len = 0 };
    char same[4200];
    FILE *file;
    packet(&due, 7, 8, 0, stamps, 2);
    CHECK(dspec_folder_begin(&folder, path, &schema, 4, &identity, NULL) && takes(&folder, 0, stamps, 2) && dspec_folder_end(&folder));
    has(path, "cpu_3_0", &due);
    snprintf(same, sizeof same, "%s/same", path);
    file = fopen(same, "wb");
    if (file == NULL || fwrite(due.of, 1, due.len, file) != due.len || fclose(file) != 0) exit(2);
    const uint64_t least = taken_by(path, "same");
    CHECK(taken_by(path, "cpu_3_0") <= (least > 4096 ? least : 4096));
}

/* What the system says of this process, and of its clock. */
static void of_system(void) {
    dspec_identity one, other;
    char host[DSPEC_HOST_SIZE], odd[16] = "a\"b\\c\n\x7f\xff d", none[16] = "";
    const uint64_t began = dspec_monotonic(), now = (uint64_t)time(NULL);
    CHECK(dspec_identity_of_system(&one, "server", host) && dspec_identity_of_system(&other, "server", host));
    CHECK(memcmp(one.uuid, other.uuid, 16) != 0 && (one.uuid[6] & 0xf0) == 0x40 && (one.uuid[8] & 0xc0) == 0x80);
    CHECK(one.pid == (uint32_t)getpid() && one.hertz == 1000000000 && !one.has_clock && one.ticks < one.hertz);
    CHECK(one.name.len == 6 && memcmp(one.name.bytes, "server", 6) == 0 && one.host.bytes == host && one.host.len == strlen(host) && one.host.len > 0);
    CHECK(one.seconds + began / one.hertz <= now + 2 && now <= one.seconds + began / one.hertz + 2);
    CHECK(dspec_monotonic() >= began && dspec_monotonic() - began < 60 * one.hertz);
    CHECK(dspec_shown(odd).len == 10 && strcmp(odd, "a_b_c___ d") == 0);
    CHECK(dspec_shown(none).len == 7 && strcmp(none, "unknown") == 0);
    const dspec_config config = dspec_config_of_cpus(3);
    CHECK(config.cpus == 3 && config.nspec == 8 && config.bufsize == 65536 && config.specsize == 4096 && config.max_issues == DSPEC_MAX_ISSUES);
    CHECK(config.max_calls == DSPEC_MAX_CALLS && config.policy == DSPEC_POLICY_SWITCH);
}

int main(int argc, char **argv) {
    char path[4096];
    uint32_t epid;
    if (argc != 2) return 2;
    MUST(dspec_schema_new(&schema));
    MUST(dspec_schema_stamp(&schema));
    MUST(dspec_layout_enable(&layout, &schema, FOUR, 1, &epid));
    runs_of_a_batch();
    what_is_lost_is_told();
    rooms_in_turns();
    one_file_too_many();
    refused();
    metadata();
    of_system();
    writes_that_fail(argv[1]);
    snprintf(path, sizeof path, "%s.none", argv[1]);
    batch_that_is_none(path);
    snprintf(path, sizeof path, "%s.room", argv[1]);
    room_that_was_kept(path);
    dspec_schema_drop(&schema);
    return check_end();
}
