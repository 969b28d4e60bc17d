/* How much stack the calls take, as it is measured over this archive: each is made in a thread of its own, on a stack that was filled
 * before; what was written over since is counted, with what the thread itself takes. A start and an end have to get by with
 * 128 KiB, however many CPUs there are, what makes a schema with 64, and each other call with 32. `c_stack CPUS ..` measures sessions of so many. */
#define _GNU_SOURCE
#define DSPEC_CTF_NO_FOLDER
#include "dspec_ctf.h"

#include "check.h"

#include <pthread.h>
#include <sys/mman.h>

enum { STACK = 8 << 20, FILLED = 0xa5, MOST = 128 << 10, MOST_OF_SCHEMA = 64 << 10, MOST_OF_OTHERS = 32 << 10 };

/* What the measure stands on. */
static void must(dspec_status status, const char *call) {
    if (status == DSPEC_OK) return;
    printf("%s: %s\n", call, dspec_status_text(status));
    exit(2);
}

#define HAS_TO(call) must((call), #call)

/* All that the calls are made on. */
static check_all all;
static dspec_cpu cpus[DSPEC_MAX_CPUS];
static dspec_session session;
static dspec_consumer consumer;
static dspec_closed closed;
static dspec_config config = {
    .nspec = DSPEC_MAX_NSPEC, .bufsize = 4096, .specsize = 256, .max_issues = DSPEC_MAX_ISSUES, .max_calls = DSPEC_MAX_CALLS,
};
static uint64_t id;

static void schema_new(void) { HAS_TO(dspec_schema_new(&all.schema)); }

static void schema_enable(void) {
    uint32_t epid;
    for (uint32_t i = 0; i < DSPEC_MAX_ENABLINGS; i++) HAS_TO(dspec_schema_enable(&all.schema, (const uint8_t[]){ 8, 8, 8, 8, 8, 8, 8, 8 }, 8, &epid));
}

static void start(void) { HAS_TO(dspec_start(&config, &all.schema, &session)); }

static void cpu_of(void) {
    for (uint32_t c = 0; c < config.cpus; c++) HAS_TO(dspec_cpu_of(&session, c, &cpus[c]));
}

static void consumer_of(void) { HAS_TO(dspec_consumer_of(&session, &consumer)); }

static const uint64_t values[8] = { 1, 2, 3, 4, 5, 6, 7, 8 }, words[9] = { 0, 1, 2, 3, 4, 5, 6, 7, 8 };

static void trace(void) { HAS_TO(dspec_trace(&cpus[0], 1, 0, values, 8)); }

static void put(void) { HAS_TO(dspec_put(&cpus[0], (uint64_t)0x88888888 << 32 | 1, 0, words, 9)); }

static void put_in(void) { HAS_TO(dspec_put_in(&cpus[0], id, (uint64_t)0x88888888 << 32 | 1, 0, words, 9)); }

static void speculation(void) { HAS_TO(dspec_speculation(&cpus[0], &id)); }

static void speculate(void) { HAS_TO(dspec_speculate(&cpus[0], id, 1, 0, values, 8)); }

static void commit(void) {
    uint32_t count;
    HAS_TO(dspec_commit(&cpus[0], id, &count));
}

static void ask(void) { HAS_TO(dspec_ask(&consumer, 0)); }

static void service(void) {
    bool sealed;
    uint32_t settled;
    HAS_TO(dspec_service(&cpus[0], &sealed, &settled));
}

static void take(void) {
    dspec_batch batch;
    HAS_TO(dspec_take(&consumer, 0, &batch));
}

static void give_back(void) { HAS_TO(dspec_give_back(&consumer, 0)); }

static void clean(void) {
    uint32_t released;
    HAS_TO(dspec_clean(&consumer, &released));
}

static void cpu_report(void) {
    dspec_report report;
    HAS_TO(dspec_cpu_report(&cpus[0], &report));
}

static void cpu_home(void) {
    for (uint32_t c = 0; c < config.cpus; c++) HAS_TO(dspec_cpu_home(&cpus[c]));
}

static void waiting_for(void) {
    uint32_t count;
    HAS_TO(dspec_waiting_for(&consumer, 0, &count));
}

static void tend(void) {
    uint64_t settled;
    HAS_TO(dspec_tend(&session, &settled));
}

static void consumer_home(void) { HAS_TO(dspec_consumer_home(&consumer)); }

static void finish(void) { HAS_TO(dspec_finish(&session, &closed)); }

/* Of another session, all of which is out. */
static void close_all(void) {
    dspec_cpu *out[DSPEC_MAX_CPUS];
    for (uint32_t c = 0; c < config.cpus; c++) out[c] = &cpus[c];
    HAS_TO(dspec_close(&session, out, config.cpus, &consumer, &closed));
}

static void rest(void) {
    dspec_batch batch;
    HAS_TO(dspec_rest(&closed, 0, true, &batch));
}

static void closed_report(void) {
    dspec_report report;
    HAS_TO(dspec_closed_report(&closed, 0, &report));
}

static void closed_drop(void) { dspec_closed_drop(&closed); }

static void schema_drop(void) { dspec_schema_drop(&all.schema); }

/* A trace: a schema with stamps, and a batch of two records, of 12 bytes, a gap of 4 and 64 bytes, of which the second's stamp is before the first's. */
static dspec_ctf ctf, other_ctf;
static uint8_t room[1 << 18];
static uint8_t records[2 * 80] = { [0] = 1, [4] = 2, [80] = 1, [84] = 1 };
static const dspec_identity identity = { .uuid = { 1 }, .hertz = 1000, .host = { "here", 4 }, .name = { "c_stack", 7 } };

static void schema_stamp(void) { HAS_TO(dspec_schema_stamp(&all.schema)); }

static void ctf_metadata(void) {
    size_t needed;
    const dspec_text none = { "", 0 };
    HAS_TO(dspec_ctf_metadata(&all.schema, &identity, &none, 0, room, 0, room, sizeof room, &needed));
}

static void ctf_new(void) { HAS_TO(dspec_ctf_new(&all.schema, &identity, 0, &ctf)); }

static void ctf_reserve(void) { HAS_TO(dspec_ctf_reserve(&ctf, sizeof records)); }

/* Exchanged with the room of files that are there for this alone. */
static void ctf_swap_rooms(void) {
    HAS_TO(dspec_ctf_new(&all.schema, &identity, 1, &other_ctf));
    HAS_TO(dspec_ctf_swap_rooms(&ctf, &other_ctf));
    HAS_TO(dspec_ctf_swap_rooms(&ctf, &other_ctf));
    dspec_ctf_drop(&other_ctf);
}

static void ctf_open(void) { HAS_TO(dspec_ctf_open(&ctf, 0, 3, records, sizeof records)); }

/* The packet that tells of the drops, and those of two files. */
static void ctf_put(void) {
    dspec_packet packet;
    for (int i = 0; i < 3; i++) HAS_TO(dspec_ctf_put(&ctf, room, sizeof room, &packet));
}

static void ctf_lose(void) {
    uint64_t lost;
    HAS_TO(dspec_ctf_lose(&ctf, &lost));
}

static void ctf_miss(void) { HAS_TO(dspec_ctf_miss(&ctf, 7)); }

static void ctf_drop(void) { dspec_ctf_drop(&ctf); }

/* In this order they are the calls of one session. */
static const struct step {
    const char *name;
    void (*make)(void);
    size_t most; /* 0: it is only told */
} steps[] = {
    { "dspec_schema_new", schema_new, MOST_OF_SCHEMA },   { "dspec_schema_enable", schema_enable, MOST_OF_OTHERS },
    { "dspec_start", start, MOST },               { "dspec_cpu_of", cpu_of, MOST_OF_OTHERS },
    { "dspec_consumer_of", consumer_of, MOST_OF_OTHERS }, { "dspec_trace", trace, MOST_OF_OTHERS },
    { "dspec_put", put, MOST_OF_OTHERS },
    { "dspec_speculation", speculation, MOST_OF_OTHERS }, { "dspec_speculate", speculate, MOST_OF_OTHERS },
    { "dspec_put_in", put_in, MOST_OF_OTHERS },
    { "dspec_commit", commit, MOST_OF_OTHERS },           { "dspec_ask", ask, MOST_OF_OTHERS },
    { "dspec_service", service, MOST_OF_OTHERS },         { "dspec_take", take, MOST_OF_OTHERS },
    { "dspec_give_back", give_back, MOST_OF_OTHERS },     { "dspec_clean", clean, MOST_OF_OTHERS },
    { "dspec_waiting_for", waiting_for, MOST_OF_OTHERS },
    { "dspec_cpu_report", cpu_report, MOST_OF_OTHERS },   { "dspec_cpu_home", cpu_home, MOST_OF_OTHERS },
    { "dspec_tend", tend, MOST_OF_OTHERS },               { "dspec_consumer_home", consumer_home, MOST_OF_OTHERS },
    { "dspec_finish", finish, MOST },
    { "dspec_rest", rest, MOST_OF_OTHERS },               { "dspec_closed_report", closed_report, MOST_OF_OTHERS },
    { "dspec_closed_drop", closed_drop, MOST_OF_OTHERS }, { "dspec_start", start, MOST },
    { "dspec_cpu_of", cpu_of, MOST_OF_OTHERS },           { "dspec_consumer_of", consumer_of, MOST_OF_OTHERS },
    { "dspec_close", close_all, MOST },                   { "dspec_closed_drop", closed_drop, MOST_OF_OTHERS },
    { "dspec_schema_stamp", schema_stamp, MOST_OF_OTHERS }, { "dspec_ctf_metadata", ctf_metadata, MOST_OF_OTHERS },
    { "dspec_ctf_new", ctf_new, MOST_OF_OTHERS },           { "dspec_ctf_reserve", ctf_reserve, MOST_OF_OTHERS },
    { "dspec_ctf_swap_rooms", ctf_swap_rooms, MOST_OF_OTHERS }, { "dspec_ctf_open", ctf_open, MOST_OF_OTHERS },
    { "dspec_ctf_put", ctf_put, MOST_OF_OTHERS },           { "dspec_ctf_lose", ctf_lose, MOST_OF_OTHERS },
    { "dspec_ctf_miss", ctf_miss, MOST_OF_OTHERS },         { "dspec_ctf_drop", ctf_drop, MOST_OF_OTHERS },
    { "dspec_schema_drop", schema_drop, MOST_OF_OTHERS },
};

static void *makes(void *step) {
    ((const struct step *)step)->make();
    return NULL;
}

static void *nothing(void *step) { return step; }

static void must_be(bool is_so, const char *what) {
    if (is_so) return;
    perror(what);
    exit(2);
}

/* The bytes of the stack of a thread that runs this which were written over. */
static size_t stack_of(void *(*run)(void *), const struct step *step) {
    pthread_attr_t attributes;
    pthread_t thread;
    unsigned char *stack = mmap(NULL, STACK, PROT_READ | PROT_WRITE, MAP_PRIVATE | MAP_ANONYMOUS, -1, 0);
    must_be(stack != MAP_FAILED, "mmap");
    memset(stack, FILLED, STACK);
    must_be(pthread_attr_init(&attributes) == 0 && pthread_attr_setstack(&attributes, stack, STACK) == 0, "a thread's attributes");
    must_be(pthread_create(&thread, &attributes, run, (void *)step) == 0 && pthread_join(thread, NULL) == 0, "a thread");
    pthread_attr_destroy(&attributes);
    size_t kept = 0;
    while (kept < STACK && stack[kept] == FILLED) kept++;
    munmap(stack, STACK);
    return STACK - kept;
}

static void measure(uint32_t count) {
    config.cpus = count;
    for (size_t i = 0; i < sizeof steps / sizeof *steps; i++) {
        size_t taken = stack_of(makes, &steps[i]);
        printf("%u CPUs: %s: %zu bytes\n", count, steps[i].name, taken);
        if (steps[i].most > 0) check_counts(taken <= steps[i].most, steps[i].name, __LINE__);
    }
}

int main(int argc, char **argv) {
    printf("a thread alone: %zu bytes\n", stack_of(nothing, &steps[0]));
    for (int i = 1; i < argc; i++) measure((uint32_t)strtoul(argv[i], NULL, 10));
    return check_end();
}
