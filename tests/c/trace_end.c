/* How a trace in a folder begins and ends: what no batch tells, files that stand in the way or stay empty, what is refused. `trace_end FOLDER`, a folder
 * that isn't there yet. */
#include "dspec_ctf.h"

#include "check.h"

#include <errno.h>

#define CPUS 3u

static const uint8_t FOUR[] = { 4 };
static const dspec_identity identity = { .uuid = { 1 }, .pid = 77, .hertz = 1000, .host = { "here", 4 }, .name = { "server", 6 } };

static dspec_schema schema = DSPEC_EMPTY;
static dspec_layout layout = { .stamped = true };
static uint32_t epid;
static const char *path;

static char *file_of(const char *name) {
    static char file[4200];
    snprintf(file, sizeof file, "%s/%s", path, name);
    return file;
}

static bool is_there(const char *name) { return access(file_of(name), F_OK) == 0; }

static uint64_t number(const uint8_t *bytes, size_t width) {
    uint64_t value = 0;
    for (size_t i = width; i > 0; i--) value = value << 8 | bytes[i - 1];
    return value;
}

/* The count of missed events in a file's last packet. */
static uint64_t told(const char *name) {
    uint8_t head[68];
    uint64_t count = 99;
    FILE *file = fopen(file_of(name), "rb");
    if (file == NULL) return 98;
    while (fread(head, 1, sizeof head, file) == sizeof head) {
        count = number(head + 56, 8);
        if (fseek(file, (long)(number(head + 48, 8) / 8 - sizeof head), SEEK_CUR) != 0) count = 97;
    }
    fclose(file);
    return count;
}

/* Takes all files away. */
static void clear(void) {
    unlink(file_of("metadata"));
    for (unsigned cpu = 0; cpu < CPUS; cpu++) {
        char name[32];
        snprintf(name, sizeof name, "cpu_%u_0", cpu);
        unlink(file_of(name));
    }
}

/* Of CPU 0 a path of five records has room for two, another that has is lost, and two traced records are dropped; CPU 1 has a record that is kept, and CPU 2 none. */
static void make_session(dspec_folder *folder, dspec_closed *closed) {
    const dspec_config config = {
        .cpus = CPUS, .nspec = 2, .bufsize = 32, .specsize = 32, .max_issues = 9, .max_calls = 99, .policy = DSPEC_POLICY_SWITCH,
    };
    dspec_session session = DSPEC_EMPTY;
    dspec_cpu cpu = DSPEC_EMPTY, other = DSPEC_EMPTY;
    dspec_consumer consumer = DSPEC_EMPTY;
    dspec_batch batch;
    uint64_t id;
    uint32_t count, settled;
    bool sealed;
    MUST(dspec_start(&config, &schema, &session));
    MUST(dspec_cpu_of(&session, 0, &cpu));
    MUST(dspec_cpu_of(&session, 1, &other));
    MUST(dspec_consumer_of(&session, &consumer));
    MUST(DSPEC_TRACE_AT(&other, epid, 1, 1));
    MUST(dspec_speculation(&cpu, &id));
    for (uint64_t stamp = 0; stamp < 5; stamp++) DSPEC_SPECULATE_AT(&cpu, id, epid, stamp, 7);
    MUST(DSPEC_TRACE_AT(&cpu, epid, 9, 1));
    ANSWERS(dspec_commit(&cpu, id, &count), DSPEC_LOST);
    for (uint64_t stamp = 10; stamp < 13; stamp++) DSPEC_TRACE_AT(&cpu, epid, stamp, 1);
    MUST(dspec_ask(&consumer, 0));
    MUST(dspec_service(&cpu, &sealed, &settled));
    MUST(dspec_take(&consumer, 0, &batch));
    CHECK(batch.drops == 3 && dspec_folder_take(folder, &layout, &batch));
    MUST(dspec_give_back(&consumer, 0));
    MUST(dspec_close(&session, (dspec_cpu *const[]){ &cpu, &other }, 2, &consumer, closed));
}

/* The last packet of each file tells what the CPU's report counts; a file of no packet goes. */
static void what_no_batch_tells(void) {
    static dspec_folder folder;
    dspec_closed closed = DSPEC_EMPTY;
    dspec_report report;
    CHECK(dspec_folder_begin(&folder, path, &schema, CPUS, &identity, NULL));
    CHECK(is_there("cpu_0_0") && is_there("cpu_2_0"));
    make_session(&folder, &closed);
    MUST(dspec_closed_report(&closed, 0, &report));
    CHECK(report.dropped == 2 && report.specdropped == 3 && report.lost == 2 && report.drops == 3);
    CHECK(dspec_folder_close(&folder, &layout, &closed));
    CHECK(told("cpu_0_0") == 7 && told("cpu_1_0") == 0 && !is_there("cpu_2_0"));
    CHECK(dspec_folder_close(&folder, &layout, &closed) && dspec_folder_end(&folder));
    CHECK(told("cpu_0_0") == 7);
    dspec_closed_drop(&closed);
    clear();
}

/* A handle that holds no closed session does nothing: the folder goes on. One of more CPUs than the folder has: their records are told as lost. */
static void other_sessions(void) {
    static dspec_folder folder;
    dspec_closed closed = DSPEC_EMPTY;
    CHECK(dspec_folder_begin(&folder, path, &schema, 1, &identity, NULL));
    CHECK(!dspec_folder_close(&folder, &layout, &closed) && folder.last.status == DSPEC_BAD_HANDLE && folder.cpus == 1);
    CHECK(!dspec_folder_close(&folder, &layout, (dspec_closed *)&schema) && folder.last.status == DSPEC_BAD_HANDLE && !folder.lost);
    make_session(&folder, &closed);
    CHECK(!dspec_folder_close(&folder, &layout, &closed) && folder.first.status == DSPEC_NO_SUCH_CPU && folder.first.cpu == 1 && folder.first.records == 1);
    CHECK(told("cpu_0_0") == 7 && !is_there("cpu_1_0"));
    dspec_closed_drop(&closed);
    clear();
}

/* No CPUs, too many, and a file in the way, which stays: nothing is left of a trace that wasn't begun. */
static void begun_not(void) {
    static dspec_folder folder;
    FILE *mine;
    CHECK(!dspec_folder_begin(&folder, path, &schema, 0, &identity, NULL) && folder.last.status == DSPEC_BAD_CPUS && !is_there("metadata"));
    CHECK(!dspec_folder_begin(&folder, path, &schema, 65, &identity, NULL) && folder.last.status == DSPEC_BAD_CPUS && !is_there("metadata"));
    mine = fopen(file_of("cpu_1_0"), "wb");
    CHECK(mine != NULL && fclose(mine) == 0);
    CHECK(!dspec_folder_begin(&folder, path, &schema, CPUS, &identity, NULL) && folder.last.code == EEXIST);
    CHECK(is_there("cpu_1_0") && !is_there("cpu_0_0") && !is_there("cpu_2_0") && !is_there("metadata"));
    clear();
    CHECK(dspec_folder_begin(&folder, path, &schema, CPUS, &identity, NULL) && dspec_folder_end(&folder));
    CHECK(!is_there("cpu_1_0") && is_there("metadata"));
    clear();
}

int main(int argc, char **argv) {
    if (argc != 2) return 2;
    path = argv[1];
    MUST(dspec_schema_new(&schema));
    MUST(dspec_schema_stamp(&schema));
    MUST(dspec_layout_enable(&layout, &schema, FOUR, 1, &epid));
    what_no_batch_tells();
    other_sessions();
    begun_not();
    dspec_schema_drop(&schema);
    return check_end();
}
