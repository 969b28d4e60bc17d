/* What speculations are for: two threads send SQLite a load of statements, and each statement's steps are recorded, as SQLite's own
 * hooks tell them. Only the steps of statements that were slow or that failed are kept; the others are thrown away, and cost no room.
 * It prints the kept paths and a report for each CPU, and where a folder is named it writes them there too, for babeltrace2.
 *
 *     cc -std=c11 slow_sql.c $(pkg-config --cflags --libs dspec sqlite3) -lpthread && ./a.out [FOLDER]
 */
#define _POSIX_C_SOURCE 200809L

#include "dspec_ctf.h"
#include "dspec_probe.h"

#include <inttypes.h>
#include <pthread.h>
#include <sqlite3.h>
#include <stdatomic.h>
#include <stdio.h>
#include <stdlib.h>
#include <time.h>

enum { CPUS = 2, STATEMENTS = 400, ROWS_A_STEP = 8192 };

/* A statement that takes longer, in nanoseconds, is kept. SQLite's own profile counts in milliseconds, so the clock is ours. */
static const uint64_t SLOW = 1000000;

/* The schema: a statement, the first 48 bytes of it; how far it has come; what SQLite returned. */
DSPEC_PROBE(asked, dspec_text48, sql);
DSPEC_PROBE(rows, uint64_t, count);
DSPEC_PROBE(ended, uint64_t, count);
DSPEC_PROBE(returned, int, result);
DSPEC_LABELS(returned, result, "ok", "error");
static dspec_layout known;
static asked_probe asked;
static rows_probe rows;
static ended_probe ended;
static returned_probe returned;
static uint32_t begun_epid; /* a record without fields */

/* Where a folder is named, the trace in it. */
static dspec_folder folder;
static const char *folder_path;

/* How many lanes haven't ended. */
static atomic_int running = CPUS;

/* One thread: its connection, its CPU, and the statement that it is in. */
typedef struct lane {
    dspec_cpu cpu;
    sqlite3 *db;
    uint32_t number;
    uint64_t id, rows;
} lane;

static _Noreturn void fail(const char *call, const char *why) {
    fprintf(stderr, "slow_sql: %s: %s\n", call, why);
    exit(1);
}

#define OK(call)                                                          \
    do {                                                                  \
        dspec_status status_ = (call);                                    \
        if (status_ != DSPEC_OK) fail(#call, dspec_status_text(status_)); \
    } while (0)

static uint64_t now(void) {
    struct timespec t;
    clock_gettime(CLOCK_MONOTONIC, &t);
    return (uint64_t)t.tv_sec * 1000000000 + (uint64_t)t.tv_nsec;
}

/* SQLite's hook: each step goes to the statement's speculation. What becomes of it stands in the report, so nobody looks here. */
static int hook(unsigned what, void *context, void *statement, void *detail) {
    lane *l = context;
    (void)statement;
    (void)detail;
    if (what == SQLITE_TRACE_STMT) {
        DSPEC_SPECULATE_AT(&l->cpu, l->id, begun_epid, now());
    } else if (what == SQLITE_TRACE_ROW) {
        l->rows++;
        if (l->rows % ROWS_A_STEP == 0) rows_speculate(&rows, &l->cpu, l->id, now(), l->rows);
    } else if (what == SQLITE_TRACE_PROFILE) {
        ended_speculate(&ended, &l->cpu, l->id, now(), l->rows);
    }
    return 0;
}

/* Runs a statement, and only then decides: by then it is known whether its path matters. Where no slot is free the identifier is 0,
 * which names no speculation, and the report counts the statement's steps as void. */
static void run(lane *l, const char *sql) {
    uint64_t begun = now();
    uint32_t count, settled;
    bool sealed;
    l->rows = 0;
    if (dspec_speculation(&l->cpu, &l->id) != DSPEC_OK) l->id = 0;
    asked_speculate(&asked, &l->cpu, l->id, begun, dspec_text48_of(sql, strlen(sql)));
    int result = sqlite3_exec(l->db, sql, NULL, NULL, NULL);
    uint64_t end = now();
    returned_speculate(&returned, &l->cpu, l->id, end, result);
    if (result != SQLITE_OK || end - begun > SLOW) dspec_commit(&l->cpu, l->id, &count);
    else dspec_discard(&l->cpu, l->id, &count);
    OK(dspec_service(&l->cpu, &sealed, &settled));
}

/* A made-up load: inserts, some with a key that is there already or with a fault in their text, and now and then a join without an
 * index. */
static void load(lane *l) {
    char sql[160];
    unsigned seed = 977 * l->number + 1;
    run(l, "create table visits(id integer primary key, page text)");
    for (int i = 0; i < STATEMENTS; i++) {
        seed = seed * 1103515245u + 12345u;
        if (i % 100 == 25) run(l, "selekt page from visits");
        else if (i % 100 == 50) run(l, "insert into visits values(1, 'again')");
        else if (i % 100 == 99) run(l, "select a.id from visits a, visits b where a.page < b.page");
        else {
            snprintf(sql, sizeof sql, "insert into visits values(%d, 'page %u')", i + 1, seed >> 16);
            run(l, sql);
        }
    }
}

static void *work(void *arg) {
    lane *l = arg;
    unsigned hooks = SQLITE_TRACE_STMT | SQLITE_TRACE_ROW | SQLITE_TRACE_PROFILE;
    if (sqlite3_open(":memory:", &l->db) != SQLITE_OK) fail("sqlite3_open", sqlite3_errmsg(l->db));
    if (sqlite3_trace_v2(l->db, hooks, hook, l) != SQLITE_OK) fail("sqlite3_trace_v2", sqlite3_errmsg(l->db));
    load(l);
    sqlite3_close(l->db);
    atomic_fetch_sub(&running, 1);
    return NULL;
}

/* A step, with the microseconds since its statement was asked. */
static void print_step(const dspec_record *one, uint64_t began) {
    uint64_t micros = (one->stamp - began) / 1000;
    rows_values so_far;
    ended_values all;
    returned_values of;
    if (one->epid == begun_epid) printf(", began %" PRIu64 " us", micros);
    else if (rows_read(&rows, one, &so_far)) printf(", %" PRIu64 " rows %" PRIu64 " us", so_far.count, micros);
    else if (ended_read(&ended, one, &all)) printf(", ended with %" PRIu64 " rows %" PRIu64 " us", all.count, micros);
    else if (returned_read(&returned, one, &of)) printf(", returned %d %" PRIu64 " us", of.result, micros);
}

/* A commit copies a path whole, so that it never goes on in the next batch. */
static void print_batch(const dspec_batch *batch) {
    uint64_t began = 0;
    dspec_record one;
    asked_values of;
    if (folder_path != NULL && !dspec_folder_take(&folder, &known, batch)) fail("dspec_folder_take", dspec_folder_why(&folder));
    for (size_t at = 0; dspec_read(&known, batch->bytes, batch->len, &at, &one) == DSPEC_READ;) {
        if (asked_read(&asked, &one, &of)) {
            if (began != 0) putchar('\n');
            began = one.stamp;
            const dspec_text sql = dspec_text48_in(&of.sql);
            printf("cpu %" PRIu32 ": \"%.*s\"", batch->cpu, (int)sql.len, sql.bytes);
        } else {
            print_step(&one, began);
        }
    }
    if (began != 0) putchar('\n');
}

/* A round of the consumer, while the lanes work. */
static void consume(dspec_consumer *consumer) {
    dspec_batch batch;
    uint32_t released;
    for (uint32_t cpu = 0; cpu < CPUS; cpu++) {
        OK(dspec_ask(consumer, cpu));
        if (dspec_take(consumer, cpu, &batch) != DSPEC_OK) continue;
        print_batch(&batch);
        OK(dspec_give_back(consumer, cpu));
    }
    OK(dspec_clean(consumer, &released));
    nanosleep(&(struct timespec){ .tv_nsec = 1000000 }, NULL);
}

/* The trace's names. */
static void begin_folder(dspec_schema *schema) {
    static dspec_names names;
    dspec_identity identity;
    char host[DSPEC_HOST_SIZE];
    asked_name(&names);
    dspec_names_event(&names, "began");
    rows_name(&names);
    ended_name(&names);
    returned_name(&names);
    if (!dspec_identity_of_system(&identity, "slow_sql", host)) fail("dspec_identity_of_system", "refused");
    if (!dspec_folder_begin(&folder, folder_path, schema, CPUS, &identity, &names)) fail("dspec_folder_begin", dspec_folder_why(&folder));
}

static void start(dspec_session *session) {
    dspec_schema schema = DSPEC_EMPTY;
    const dspec_config config = {
        .cpus = CPUS, .nspec = 8, .bufsize = 65536, .specsize = 4096,
        .max_issues = DSPEC_MAX_ISSUES, .max_calls = DSPEC_MAX_CALLS, .policy = DSPEC_POLICY_SWITCH,
    };
    OK(dspec_schema_new(&schema));
    OK(dspec_schema_stamp(&schema));
    known.stamped = true;
    OK(asked_enable(&asked, &known, &schema));
    OK(dspec_layout_enable(&known, &schema, (const uint8_t[]){ 0 }, 0, &begun_epid));
    OK(rows_enable(&rows, &known, &schema));
    OK(ended_enable(&ended, &known, &schema));
    OK(returned_enable(&returned, &known, &schema));
    if (folder_path != NULL) begin_folder(&schema);
    OK(dspec_start(&config, &schema, session));
    dspec_schema_drop(&schema);
}

static void print_rest(dspec_closed *closed, uint32_t cpu) {
    dspec_batch batch;
    if (dspec_rest(closed, cpu, false, &batch) == DSPEC_OK) print_batch(&batch);
    OK(dspec_rest(closed, cpu, true, &batch));
    print_batch(&batch);
}

static void print_report(dspec_closed *closed, uint32_t cpu) {
    dspec_report r;
    OK(dspec_closed_report(closed, cpu, &r));
    printf("cpu %" PRIu32 " offered %" PRIu64 " accepted %" PRIu64 " discarded %" PRIu64, cpu, r.offered, r.accepted, r.discarded);
    printf(" lost %" PRIu64 " specdropped %" PRIu64 " void %" PRIu64 "\n", r.lost, r.specdropped, r.void_);
}

int main(int argc, char **argv) {
    static lane lanes[CPUS];
    dspec_session session = DSPEC_EMPTY;
    dspec_consumer consumer = DSPEC_EMPTY;
    dspec_closed closed = DSPEC_EMPTY;
    pthread_t threads[CPUS];
    folder_path = argc > 1 ? argv[1] : NULL;
    start(&session);
    OK(dspec_consumer_of(&session, &consumer));
    for (uint32_t i = 0; i < CPUS; i++) {
        lanes[i].number = i;
        OK(dspec_cpu_of(&session, i, &lanes[i].cpu));
        if (pthread_create(&threads[i], NULL, work, &lanes[i]) != 0) fail("pthread_create", "refused");
    }
    while (atomic_load(&running) > 0) consume(&consumer);
    for (uint32_t i = 0; i < CPUS; i++) pthread_join(threads[i], NULL);
    for (uint32_t i = 0; i < CPUS; i++) OK(dspec_cpu_home(&lanes[i].cpu));
    OK(dspec_consumer_home(&consumer));
    OK(dspec_finish(&session, &closed));
    for (uint32_t i = 0; i < CPUS; i++) print_rest(&closed, i);
    for (uint32_t i = 0; i < CPUS; i++) print_report(&closed, i);
    if (folder_path != NULL && !dspec_folder_end(&folder)) fail("dspec_folder_end", dspec_folder_why(&folder));
    dspec_closed_drop(&closed);
    return 0;
}
