/* Misuse of handles: each call with an empty, wrong, moved or finished one, with an out handle that is full, with CPUs that are out, not
 * home or not there. Each answers its status, and changes nothing: no handle, no out parameter, no count. */
#include "check.h"

/* Where the calls write. */
typedef struct outs {
    uint32_t number;
    uint64_t id;
    bool flag;
    dspec_batch batch;
    dspec_report report;
    dspec_session session;
    dspec_cpu cpu;
    dspec_consumer consumer;
    dspec_closed closed;
} outs;

/* Each call with arguments that would do, on a handle of any kind. */
static dspec_status call_enable(void *h, outs *o) { return dspec_schema_enable(h, (const uint8_t[]){ 4 }, 1, &o->number); }
static dspec_status call_stamp(void *h, outs *o) { return (void)o, dspec_schema_stamp(h); }
static dspec_status call_start(void *h, outs *o) { return dspec_start(&check_config, h, &o->session); }
static dspec_status call_cpu_of(void *h, outs *o) { return dspec_cpu_of(h, 0, &o->cpu); }
static dspec_status call_consumer_of(void *h, outs *o) { return dspec_consumer_of(h, &o->consumer); }
static dspec_status call_trace(void *h, outs *o) { return (void)o, dspec_trace(h, 1, 0, (const uint64_t[]){ 7 }, 1); }
static dspec_status call_speculation(void *h, outs *o) { return dspec_speculation(h, &o->id); }
static dspec_status call_speculate(void *h, outs *o) { return (void)o, dspec_speculate(h, 1, 1, 0, (const uint64_t[]){ 7 }, 1); }
#define CLAIM ((uint64_t)4 << 32 | 1) /* EPID 1, of one field of four bytes */
static dspec_status call_put_1(void *h, outs *o) { return (void)o, dspec_put_1(h, CLAIM, 0, 7); }
static dspec_status call_put_2(void *h, outs *o) { return (void)o, dspec_put_2(h, CLAIM, 0, 7, 7); }
static dspec_status call_put_3(void *h, outs *o) { return (void)o, dspec_put_3(h, CLAIM, 0, 7, 7, 7); }
static dspec_status call_put(void *h, outs *o) { return (void)o, dspec_put(h, CLAIM, 0, (const uint64_t[]){ 7 }, 1); }
static dspec_status call_put_in_1(void *h, outs *o) { return (void)o, dspec_put_in_1(h, 1, CLAIM, 0, 7); }
static dspec_status call_put_in_2(void *h, outs *o) { return (void)o, dspec_put_in_2(h, 1, CLAIM, 0, 7, 7); }
static dspec_status call_put_in_3(void *h, outs *o) { return (void)o, dspec_put_in_3(h, 1, CLAIM, 0, 7, 7, 7); }
static dspec_status call_put_in(void *h, outs *o) { return (void)o, dspec_put_in(h, 1, CLAIM, 0, (const uint64_t[]){ 7 }, 1); }
static dspec_status call_commit(void *h, outs *o) { return dspec_commit(h, 1, &o->number); }
static dspec_status call_commit_if_room(void *h, outs *o) { return dspec_commit_if_room(h, 1, &o->number); }
static dspec_status call_open_at(void *h, outs *o) { return dspec_open_at(h, 1, &o->id); }
static dspec_status call_discard(void *h, outs *o) { return dspec_discard(h, 1, &o->number); }
static dspec_status call_service(void *h, outs *o) { return dspec_service(h, &o->flag, &o->number); }
static dspec_status call_dropped_in(void *h, outs *o) { return dspec_dropped_in(h, 1, &o->number); }
static dspec_status call_cpu_report(void *h, outs *o) { return dspec_cpu_report(h, &o->report); }
static dspec_status call_cpu_home(void *h, outs *o) { return (void)o, dspec_cpu_home(h); }
static dspec_status call_ask(void *h, outs *o) { return (void)o, dspec_ask(h, 0); }
static dspec_status call_take(void *h, outs *o) { return dspec_take(h, 0, &o->batch); }
static dspec_status call_give_back(void *h, outs *o) { return (void)o, dspec_give_back(h, 0); }
static dspec_status call_clean(void *h, outs *o) { return dspec_clean(h, &o->number); }
static dspec_status call_waiting_for(void *h, outs *o) { return dspec_waiting_for(h, 0, &o->number); }
static dspec_status call_stop(void *h, outs *o) { return (void)o, dspec_stop(h); }
static dspec_status call_consumer_home(void *h, outs *o) { return (void)o, dspec_consumer_home(h); }
static dspec_status call_tend(void *h, outs *o) { return dspec_tend(h, &o->id); }
static dspec_status call_finish(void *h, outs *o) { return dspec_finish(h, &o->closed); }
static dspec_status call_rest(void *h, outs *o) { return dspec_rest(h, 0, true, &o->batch); }
static dspec_status call_closed_report(void *h, outs *o) { return dspec_closed_report(h, 0, &o->report); }

enum { SCHEMA, SESSION, CPU, CONSUMER, CLOSED, KINDS };

static const struct row {
    const char *name;
    int wants;
    dspec_status (*call)(void *handle, outs *o);
} rows[] = {
    { "schema_enable", SCHEMA, call_enable }, { "schema_stamp", SCHEMA, call_stamp }, { "start", SCHEMA, call_start },
    { "cpu_of", SESSION, call_cpu_of }, { "consumer_of", SESSION, call_consumer_of }, { "tend", SESSION, call_tend }, { "finish", SESSION, call_finish },
    { "trace", CPU, call_trace }, { "speculation", CPU, call_speculation }, { "speculate", CPU, call_speculate },
    { "put_1", CPU, call_put_1 }, { "put_2", CPU, call_put_2 }, { "put_3", CPU, call_put_3 }, { "put", CPU, call_put },
    { "put_in_1", CPU, call_put_in_1 }, { "put_in_2", CPU, call_put_in_2 }, { "put_in_3", CPU, call_put_in_3 }, { "put_in", CPU, call_put_in },
    { "commit", CPU, call_commit }, { "discard", CPU, call_discard }, { "service", CPU, call_service },
    { "commit_if_room", CPU, call_commit_if_room }, { "open_at", CPU, call_open_at },
    { "dropped_in", CPU, call_dropped_in }, { "cpu_report", CPU, call_cpu_report }, { "cpu_home", CPU, call_cpu_home },
    { "ask", CONSUMER, call_ask }, { "take", CONSUMER, call_take }, { "give_back", CONSUMER, call_give_back },
    { "clean", CONSUMER, call_clean }, { "waiting_for", CONSUMER, call_waiting_for }, { "stop", CONSUMER, call_stop }, { "consumer_home", CONSUMER, call_consumer_home },
    { "rest", CLOSED, call_rest }, { "closed_report", CLOSED, call_closed_report },
};

enum { ROWS = sizeof rows / sizeof *rows };

/* Every handle is these two words. */
typedef struct words { bool held; void *at; } words;

static void *handle_of(check_all *a, int kind) {
    void *handles[KINDS] = { &a->schema, &a->session, &a->cpu, &a->consumer, &a->closed };
    return handles[kind];
}

static void fill(outs *o) {
    memset(o, 0, sizeof *o);
    o->number = 0xa5a5a5a5;
    o->id = UINT64_C(0xa5a5a5a5a5a5a5a5);
    o->batch.len = 0xa5;
    o->report.offered = 0xa5;
}

/* The call answers so, and changes neither handle, nor outs, nor what the session's CPU counts. */
static void refuses(check_all *a, const struct row *row, void *handle, outs *o, dspec_status due, const char *why) {
    outs before;
    dspec_report counts, after;
    words words_before, words_after;
    memcpy(&before, o, sizeof before);
    memcpy(&words_before, handle, sizeof words_before);
    MUST(dspec_cpu_report(&a->cpu, &counts));
    dspec_status got = row->call(handle, o);
    memcpy(&words_after, handle, sizeof words_after);
    bool is_well = got == due && memcmp(&before, o, sizeof before) == 0;
    is_well = is_well && words_before.held == words_after.held && (!words_before.held || words_before.at == words_after.at);
    is_well = is_well && dspec_cpu_report(&a->cpu, &after) == DSPEC_OK && check_same_report(&counts, &after);
    if (!is_well) printf("%s, %s: %s\n", row->name, why, dspec_status_text(got));
    check_counts(is_well, row->name, __LINE__);
}

/* Every call on an empty handle, on each other kind, and on a place whose handle was moved away. */
static void handles(void) {
    check_all a;
    outs o;
    check_set_up(&a);
    fill(&o);
    for (int i = 0; i < ROWS; i++) {
        dspec_cpu empty = DSPEC_EMPTY;
        refuses(&a, &rows[i], &empty, &o, DSPEC_BAD_HANDLE, "empty");
        for (int kind = 0; kind < KINDS; kind++) {
            if (kind != rows[i].wants) refuses(&a, &rows[i], handle_of(&a, kind), &o, DSPEC_BAD_HANDLE, "another kind");
        }
        if (rows[i].wants == CPU) continue;
        words moved, none = { false, NULL };
        void *place = handle_of(&a, rows[i].wants);
        memcpy(&moved, place, sizeof moved);
        memcpy(place, &none, sizeof none);
        refuses(&a, &rows[i], place, &o, DSPEC_BAD_HANDLE, "moved");
        memcpy(place, &moved, sizeof moved);
    }
    check_let_go(&a);
    for (int i = 0; i < ROWS; i++) {
        dspec_cpu dropped = a.cpu;
        ANSWERS(rows[i].call(&dropped, &o), DSPEC_BAD_HANDLE);
    }
}

/* A CPU's handle that was copied to another place is the handle from then on. */
static void moved(void) {
    check_all a;
    outs o;
    check_set_up(&a);
    fill(&o);
    dspec_cpu empty = DSPEC_EMPTY, at = a.cpu;
    a.cpu = empty;
    for (int i = 0; i < ROWS; i++) {
        if (rows[i].wants == CPU) ANSWERS(rows[i].call(&a.cpu, &o), DSPEC_BAD_HANDLE);
    }
    ANSWERS(DSPEC_TRACE(&at, 1, 7), DSPEC_OK);
    MUST(dspec_cpu_report(&at, &o.report));
    CHECK(o.report.offered == 1 && o.report.accepted == 1);
    dspec_cpu_drop(&at);
    check_let_go(&a);
}

/* Handles whose session is over: home, finished, dropped. */
static void finished(void) {
    check_all a;
    outs o;
    check_set_up(&a);
    fill(&o);
    dspec_closed_drop(&a.closed);
    MUST(dspec_cpu_home(&a.cpu));
    MUST(dspec_consumer_home(&a.consumer));
    CHECK(!a.cpu.held && !a.consumer.held);
    MUST(dspec_finish(&a.session, &a.closed));
    CHECK(!a.session.held && a.closed.held);
    for (int i = 0; i < ROWS; i++) {
        if (rows[i].wants == SCHEMA || rows[i].wants == CLOSED) continue;
        ANSWERS(rows[i].call(handle_of(&a, rows[i].wants), &o), DSPEC_BAD_HANDLE);
    }
    CHECK(o.number == 0xa5a5a5a5 && !o.closed.held);
    check_let_go(&a);
    check_let_go(&a);
    CHECK(!a.closed.held);
}

/* A call that fills a handle wants an empty one, whatever else is wrong. */
static void full_handles(void) {
    check_all a;
    outs o;
    dspec_config none = check_config;
    none.cpus = 0;
    check_set_up(&a);
    fill(&o);
    void *schema_at = a.schema.at, *session_at = a.session.at, *cpu_at = a.cpu.at, *consumer_at = a.consumer.at, *closed_at = a.closed.at;
    dspec_schema empty_schema = DSPEC_EMPTY;
    dspec_session empty_session = DSPEC_EMPTY;
    ANSWERS(dspec_schema_new(&a.schema), DSPEC_FULL_HANDLE);
    ANSWERS(dspec_start(&check_config, &a.schema, &a.session), DSPEC_FULL_HANDLE);
    ANSWERS(dspec_start(&none, &empty_schema, &a.session), DSPEC_FULL_HANDLE);
    ANSWERS(dspec_cpu_of(&a.session, 1, &a.cpu), DSPEC_FULL_HANDLE);
    ANSWERS(dspec_cpu_of(&empty_session, 9, &a.cpu), DSPEC_FULL_HANDLE);
    ANSWERS(dspec_consumer_of(&a.session, &a.consumer), DSPEC_FULL_HANDLE);
    ANSWERS(dspec_consumer_of(&empty_session, &a.consumer), DSPEC_FULL_HANDLE);
    ANSWERS(dspec_finish(&a.session, &a.closed), DSPEC_FULL_HANDLE);
    ANSWERS(dspec_finish(&empty_session, &a.closed), DSPEC_FULL_HANDLE);
    CHECK(a.schema.at == schema_at && a.session.at == session_at && a.cpu.at == cpu_at);
    CHECK(a.consumer.at == consumer_at && a.closed.at == closed_at);
    ANSWERS(dspec_cpu_of(&a.session, 1, &a.second), DSPEC_OK);
    check_let_go(&a);
}

/* Numbers that no CPU has, what is out already, and batches that aren't there. */
static void numbers(void) {
    check_all a;
    outs o;
    dspec_batch batch;
    dspec_consumer another = DSPEC_EMPTY;
    bool sealed;
    uint32_t settled;
    check_set_up(&a);
    fill(&o);
    for (int i = 0; i < 2; i++) {
        uint32_t cpu = i == 0 ? 2 : UINT32_MAX;
        ANSWERS(dspec_cpu_of(&a.session, cpu, &a.second), DSPEC_NO_SUCH_CPU);
        ANSWERS(dspec_ask(&a.consumer, cpu), DSPEC_NO_SUCH_CPU);
        ANSWERS(dspec_take(&a.consumer, cpu, &o.batch), DSPEC_NO_SUCH_CPU);
        ANSWERS(dspec_give_back(&a.consumer, cpu), DSPEC_NO_SUCH_CPU);
        ANSWERS(dspec_waiting_for(&a.consumer, cpu, &o.number), DSPEC_NO_SUCH_CPU);
        ANSWERS(dspec_rest(&a.closed, cpu, true, &o.batch), DSPEC_NO_SUCH_CPU);
        ANSWERS(dspec_rest(&a.closed, cpu, false, &o.batch), DSPEC_NO_SUCH_CPU);
        ANSWERS(dspec_closed_report(&a.closed, cpu, &o.report), DSPEC_NO_SUCH_CPU);
    }
    ANSWERS(dspec_cpu_of(&a.session, 0, &a.second), DSPEC_OUT);
    ANSWERS(dspec_consumer_of(&a.session, &another), DSPEC_OUT);
    CHECK(!a.second.held && !another.held);
    ANSWERS(dspec_take(&a.consumer, 0, &o.batch), DSPEC_NO_BATCH);
    ANSWERS(dspec_give_back(&a.consumer, 0), DSPEC_NO_BATCH);
    ANSWERS(dspec_rest(&a.closed, 0, false, &o.batch), DSPEC_NO_BATCH);
    CHECK(o.batch.len == 0xa5 && o.report.offered == 0xa5);
    MUST(dspec_ask(&a.consumer, 0));
    MUST(dspec_service(&a.cpu, &sealed, &settled));
    MUST(dspec_take(&a.consumer, 0, &batch));
    ANSWERS(dspec_take(&a.consumer, 0, &o.batch), DSPEC_OUT);
    ANSWERS(dspec_give_back(&a.consumer, 1), DSPEC_NO_BATCH);
    MUST(dspec_give_back(&a.consumer, 0));
    ANSWERS(dspec_give_back(&a.consumer, 0), DSPEC_NO_BATCH);
    CHECK(o.batch.len == 0xa5);
    check_let_go(&a);
}

/* A CPU that came home is handed out again, as it was: by its number, from its own session, and not while it is out. */
static void parked(void) {
    check_all a, b;
    outs o;
    dspec_report before, after;
    uint64_t id;
    uint32_t count;
    check_set_up(&a);
    check_set_up(&b);
    fill(&o);
    MUST(DSPEC_TRACE(&a.cpu, 1, 7));
    ANSWERS(DSPEC_TRACE(&a.cpu, 9, 7), DSPEC_BAD_RECORD);
    MUST(dspec_speculation(&a.cpu, &id));
    MUST(DSPEC_SPECULATE(&a.cpu, id, 1, 8));
    for (int i = 0; i < 3; i++) {
        MUST(dspec_cpu_report(&a.cpu, &before));
        MUST(dspec_cpu_home(&a.cpu));
        ANSWERS(dspec_cpu_of(&b.session, 0, &a.cpu), DSPEC_OUT);
        ANSWERS(dspec_cpu_of(&a.session, 2, &a.cpu), DSPEC_NO_SUCH_CPU);
        MUST(dspec_cpu_of(&a.session, 0, &a.cpu));
        ANSWERS(dspec_cpu_of(&a.session, 0, &a.second), DSPEC_OUT);
        ANSWERS(dspec_finish(&a.session, &o.closed), DSPEC_NOT_HOME);
        MUST(dspec_cpu_report(&a.cpu, &after));
        CHECK(check_same_report(&before, &after));
        MUST(DSPEC_TRACE(&a.cpu, 1, 9));
        ANSWERS(DSPEC_TRACE(&a.cpu, 9, 7), DSPEC_BAD_RECORD);
    }
    MUST(dspec_commit(&a.cpu, id, &count));
    CHECK(count == 1);
    MUST(dspec_cpu_home(&a.cpu));
    MUST(dspec_consumer_home(&a.consumer));
    ANSWERS(dspec_consumer_of(&a.session, &a.consumer), DSPEC_OUT);
    MUST(dspec_finish(&a.session, &o.closed));
    MUST(dspec_closed_report(&o.closed, 0, &o.report));
    CHECK(o.report.offered == 5 && o.report.accepted == 5 && o.report.refused == 4);
    dspec_closed_drop(&o.closed);
    check_let_go(&a);
    check_let_go(&b);
}

/* A session can finish once all that was handed out of it is home; the parts of another session don't count. */
static void not_home(void) {
    check_all a, b;
    outs o;
    check_set_up(&a);
    check_set_up(&b);
    fill(&o);
    MUST(DSPEC_TRACE(&a.cpu, 1, 7));
    ANSWERS(dspec_finish(&a.session, &o.closed), DSPEC_NOT_HOME);
    MUST(dspec_cpu_home(&b.cpu));
    MUST(dspec_consumer_home(&b.consumer));
    ANSWERS(dspec_finish(&a.session, &o.closed), DSPEC_NOT_HOME);
    MUST(dspec_consumer_home(&a.consumer));
    ANSWERS(dspec_finish(&a.session, &o.closed), DSPEC_NOT_HOME);
    CHECK(a.session.held && !o.closed.held);
    MUST(DSPEC_TRACE(&a.cpu, 1, 8));
    MUST(dspec_cpu_of(&a.session, 1, &a.second));
    MUST(dspec_cpu_home(&a.cpu));
    ANSWERS(dspec_finish(&a.session, &o.closed), DSPEC_NOT_HOME);
    MUST(dspec_cpu_home(&a.second));
    MUST(dspec_finish(&a.session, &o.closed));
    MUST(dspec_closed_report(&o.closed, 0, &o.report));
    CHECK(o.report.offered == 2 && o.report.accepted == 2);
    dspec_closed_drop(&o.closed);
    MUST(dspec_finish(&b.session, &o.closed));
    dspec_closed_drop(&o.closed);
    check_let_go(&a);
    check_let_go(&b);
}

/* Each of 64 CPUs is looked for, the last like the first. */
static void many_homes(bool is_turned) {
    static dspec_cpu cpus[DSPEC_MAX_CPUS];
    check_all a;
    outs o;
    dspec_config many = check_config;
    many.cpus = DSPEC_MAX_CPUS;
    check_set_up(&a);
    fill(&o);
    MUST(dspec_start(&many, &a.schema, &o.session));
    for (uint32_t i = 0; i < DSPEC_MAX_CPUS; i++) MUST(dspec_cpu_of(&o.session, i, &cpus[i]));
    for (uint32_t i = 0; i < DSPEC_MAX_CPUS; i++) {
        dspec_cpu *cpu = &cpus[is_turned ? DSPEC_MAX_CPUS - 1 - i : i];
        ANSWERS(dspec_finish(&o.session, &o.closed), DSPEC_NOT_HOME);
        CHECK(o.session.held && !o.closed.held);
        MUST(DSPEC_TRACE(cpu, 1, i));
        MUST(dspec_cpu_home(cpu));
    }
    MUST(dspec_finish(&o.session, &o.closed));
    for (uint32_t i = 0; i < DSPEC_MAX_CPUS; i++) {
        MUST(dspec_closed_report(&o.closed, i, &o.report));
        CHECK(o.report.offered == 1 && o.report.accepted == 1);
    }
    dspec_closed_drop(&o.closed);
    check_let_go(&a);
}

/* A CPU goes on where its session was dropped; the schema isn't the session's. A CPU and the consumer that are dropped go home. */
static void dropped(void) {
    check_all a;
    outs o;
    check_set_up(&a);
    fill(&o);
    dspec_session_drop(&a.session);
    MUST(DSPEC_TRACE(&a.cpu, 1, 7));
    MUST(dspec_cpu_report(&a.cpu, &o.report));
    CHECK(o.report.accepted == 1);
    MUST(dspec_cpu_home(&a.cpu));
    MUST(dspec_start(&check_config, &a.schema, &a.session));
    MUST(dspec_cpu_of(&a.session, 0, &a.cpu));
    MUST(DSPEC_TRACE(&a.cpu, 1, 7));
    dspec_cpu_drop(&a.cpu);
    CHECK(!a.cpu.held);
    MUST(dspec_cpu_of(&a.session, 0, &a.cpu));
    MUST(DSPEC_TRACE(&a.cpu, 1, 8));
    MUST(dspec_consumer_of(&a.session, &o.consumer));
    dspec_cpu_drop(&a.cpu);
    ANSWERS(dspec_finish(&a.session, &o.closed), DSPEC_NOT_HOME);
    dspec_consumer_drop(&o.consumer);
    CHECK(!o.consumer.held);
    MUST(dspec_finish(&a.session, &o.closed));
    MUST(dspec_closed_report(&o.closed, 0, &o.report));
    CHECK(o.report.offered == 2 && o.report.accepted == 2);
    dspec_closed_drop(&o.closed);
    check_let_go(&a);
}

int main(void) {
    handles();
    moved();
    finished();
    full_handles();
    numbers();
    parked();
    not_home();
    many_homes(false);
    many_homes(true);
    dropped();
    return check_end();
}
