/* The end in one call: it brings home what it is given and ends the session; it refuses a handle that isn't what it has to be, before it
 * changes anything; it leaves a session going on of which a CPU is missing; a CPU of another session goes home to that one. */
#include "check.h"

/* A session of three CPUs that are out, and its consumer. */
typedef struct whole {
    dspec_session session;
    dspec_cpu cpus[3];
    dspec_consumer consumer;
    dspec_closed closed;
} whole;

static dspec_schema schema;

static const dspec_config three = {
    .cpus = 3, .nspec = 2, .bufsize = 64, .specsize = 24, .max_issues = 9, .max_calls = 99, .policy = DSPEC_POLICY_SWITCH,
};

static void begin(whole *w) {
    *w = (whole){ .session = DSPEC_EMPTY };
    MUST(dspec_start(&three, &schema, &w->session));
    for (uint32_t i = 0; i < 3; i++) MUST(dspec_cpu_of(&w->session, i, &w->cpus[i]));
    MUST(dspec_consumer_of(&w->session, &w->consumer));
}

static void let_go(whole *w) {
    dspec_closed_drop(&w->closed);
    dspec_consumer_drop(&w->consumer);
    for (int i = 0; i < 3; i++) dspec_cpu_drop(&w->cpus[i]);
    dspec_session_drop(&w->session);
}

/* So many records on each CPU: 1 on the first, 2 on the second, 3 on the third. */
static void record(whole *w) {
    for (int i = 0; i < 3; i++) {
        for (uint64_t n = 0; n <= (uint64_t)i; n++) ANSWERS(DSPEC_TRACE(&w->cpus[i], 1, n), DSPEC_OK);
    }
}

static void is_counted(dspec_closed *closed) {
    dspec_report report;
    dspec_batch last;
    for (uint32_t i = 0; i < 3; i++) {
        ANSWERS(dspec_closed_report(closed, i, &report), DSPEC_OK);
        CHECK(report.offered == i + 1 && report.accepted == i + 1 && report.refused == (i == 1));
        ANSWERS(dspec_rest(closed, i, true, &last), DSPEC_OK);
        CHECK(last.len == 8 * (i + 1));
    }
}

/* All that were passed are empty but the session's, which is so where it ended. */
static void are_gone(const whole *w, bool ended) {
    CHECK(!w->cpus[0].held && !w->cpus[1].held && !w->cpus[2].held && !w->consumer.held);
    CHECK(w->session.held == !ended && w->closed.held == ended);
}

/* In another order than their numbers, and with a batch that is out. */
static void ends(void) {
    whole w;
    dspec_batch batch;
    bool sealed;
    uint32_t settled;
    begin(&w);
    record(&w);
    ANSWERS(DSPEC_TRACE(&w.cpus[1], 9, 0), DSPEC_BAD_RECORD);
    dspec_cpu *cpus[] = { &w.cpus[2], &w.cpus[0], &w.cpus[1] };
    ANSWERS(dspec_close(&w.session, cpus, 3, &w.consumer, &w.closed), DSPEC_OK);
    are_gone(&w, true);
    is_counted(&w.closed);
    ANSWERS(dspec_close(&w.session, cpus, 0, &w.consumer, &w.closed), DSPEC_FULL_HANDLE);
    let_go(&w);
    begin(&w);
    ANSWERS(DSPEC_TRACE(&w.cpus[0], 1, 7), DSPEC_OK);
    ANSWERS(dspec_ask(&w.consumer, 0), DSPEC_OK);
    ANSWERS(dspec_service(&w.cpus[0], &sealed, &settled), DSPEC_OK);
    ANSWERS(dspec_take(&w.consumer, 0, &batch), DSPEC_OK);
    ANSWERS(dspec_close(&w.session, cpus, 3, &w.consumer, &w.closed), DSPEC_OK);
    are_gone(&w, true);
    let_go(&w);
}

/* Those that are home already aren't passed. */
static void ends_of_some(void) {
    whole w;
    begin(&w);
    dspec_cpu *cpus[] = { &w.cpus[1] };
    ANSWERS(dspec_cpu_home(&w.cpus[0]), DSPEC_OK);
    ANSWERS(dspec_cpu_home(&w.cpus[2]), DSPEC_OK);
    ANSWERS(dspec_close(&w.session, cpus, 1, &w.consumer, &w.closed), DSPEC_OK);
    are_gone(&w, true);
    let_go(&w);
    begin(&w);
    for (int i = 0; i < 3; i++) ANSWERS(dspec_cpu_home(&w.cpus[i]), DSPEC_OK);
    ANSWERS(dspec_close(&w.session, cpus, 0, &w.consumer, &w.closed), DSPEC_OK);
    are_gone(&w, true);
    let_go(&w);
}

/* A call that is refused changes nothing: the session goes on, and ends then. */
static void refused(void *session, dspec_cpu *const *cpus, void *consumer, dspec_closed *closed, whole *w, dspec_status due) {
    whole before;
    memcpy(&before, w, sizeof before);
    ANSWERS(dspec_close(session, cpus, 3, consumer, closed), due);
    CHECK(memcmp(&before, w, sizeof before) == 0);
}

/* Each handle in turn is empty, and then each other kind; a full one to be filled is told first. */
static void refuses(void) {
    whole w, other;
    begin(&w);
    begin(&other);
    record(&w);
    ANSWERS(DSPEC_TRACE(&w.cpus[1], 9, 0), DSPEC_BAD_RECORD);
    dspec_cpu *cpus[] = { &w.cpus[0], &w.cpus[1], &w.cpus[2] };
    dspec_session nothing = DSPEC_EMPTY;
    dspec_closed full = DSPEC_EMPTY;
    dspec_cpu *all[] = { &other.cpus[0], &other.cpus[1], &other.cpus[2] };
    ANSWERS(dspec_close(&other.session, all, 3, &other.consumer, &full), DSPEC_OK);
    void *kinds[] = { &nothing, &schema, &w.session, &w.cpus[0], &w.consumer, &full };
    for (int k = 0; k < 6; k++) {
        if (kinds[k] != &w.session && kinds[k] != &w.consumer && kinds[k] != &w.cpus[0]) {
            refused(kinds[k], cpus, &w.consumer, &w.closed, &w, DSPEC_BAD_HANDLE);
            refused(&w.session, cpus, kinds[k], &w.closed, &w, DSPEC_BAD_HANDLE);
            refused(kinds[k], cpus, kinds[k == 0 ? 1 : 0], &full, &w, DSPEC_FULL_HANDLE);
        }
        for (int at = 0; at < 3; at++) {
            dspec_cpu *some[] = { &w.cpus[0], &w.cpus[1], &w.cpus[2] };
            some[at] = kinds[k];
            if (kinds[k] == &nothing || kinds[k] == &schema || kinds[k] == &full) refused(&w.session, some, &w.consumer, &w.closed, &w, DSPEC_BAD_HANDLE);
        }
    }
    /* One that stands in the place of another kind. */
    dspec_cpu *first[] = { &w.cpus[1], &w.cpus[2] };
    ANSWERS(dspec_close((void *)&w.cpus[0], first, 2, &w.consumer, &w.closed), DSPEC_BAD_HANDLE);
    ANSWERS(dspec_close(&w.session, first, 2, (void *)&w.cpus[0], &w.closed), DSPEC_BAD_HANDLE);
    ANSWERS(dspec_close((void *)&w.consumer, cpus, 3, (void *)&w.session, &w.closed), DSPEC_BAD_HANDLE);
    ANSWERS(dspec_close(&w.session, cpus, 3, &w.consumer, &full), DSPEC_FULL_HANDLE);
    ANSWERS(DSPEC_TRACE(&w.cpus[0], 9, 0), DSPEC_BAD_RECORD);
    ANSWERS(dspec_close(&w.session, cpus, 3, &w.consumer, &w.closed), DSPEC_OK);
    are_gone(&w, true);
    dspec_closed_drop(&full);
    let_go(&w);
    let_go(&other);
}

/* A CPU that isn't passed and isn't home: what was passed is home, and the session ends once that one is. */
static void misses(void) {
    whole w;
    uint32_t number = 0;
    for (number = 0; number < 3; number++) {
        begin(&w);
        record(&w);
        ANSWERS(DSPEC_TRACE(&w.cpus[1], 9, 0), DSPEC_BAD_RECORD);
        dspec_cpu kept = w.cpus[number], none = DSPEC_EMPTY, again = DSPEC_EMPTY;
        w.cpus[number] = none;
        dspec_cpu *cpus[] = { &w.cpus[(number + 1) % 3], &w.cpus[(number + 2) % 3] };
        ANSWERS(dspec_close(&w.session, cpus, 2, &w.consumer, &w.closed), DSPEC_NOT_HOME);
        are_gone(&w, false);
        ANSWERS(dspec_cpu_of(&w.session, number, &again), DSPEC_OUT);
        ANSWERS(dspec_cpu_of(&w.session, (number + 1) % 3, &again), DSPEC_OK);
        ANSWERS(dspec_cpu_home(&again), DSPEC_OK);
        ANSWERS(dspec_finish(&w.session, &w.closed), DSPEC_NOT_HOME);
        ANSWERS(dspec_cpu_home(&kept), DSPEC_OK);
        ANSWERS(dspec_finish(&w.session, &w.closed), DSPEC_OK);
        is_counted(&w.closed);
        let_go(&w);
    }
}

/* Of two sessions: a CPU, and then the consumer, of the other goes home to the other. */
static void is_of_another(void) {
    whole one, other;
    begin(&one);
    begin(&other);
    dspec_cpu *mixed[] = { &one.cpus[0], &other.cpus[1], &one.cpus[2] };
    ANSWERS(dspec_close(&one.session, mixed, 3, &one.consumer, &one.closed), DSPEC_NOT_HOME);
    CHECK(!other.cpus[1].held && one.cpus[1].held);
    dspec_cpu *rest[] = { &other.cpus[0], &other.cpus[2] };
    ANSWERS(dspec_close(&other.session, rest, 2, &other.consumer, &other.closed), DSPEC_OK);
    are_gone(&other, true);
    ANSWERS(dspec_cpu_home(&one.cpus[1]), DSPEC_OK);
    ANSWERS(dspec_finish(&one.session, &one.closed), DSPEC_OK);
    let_go(&one);
    let_go(&other);
    begin(&one);
    begin(&other);
    dspec_cpu *all[] = { &one.cpus[0], &one.cpus[1], &one.cpus[2], &other.cpus[0], &other.cpus[1], &other.cpus[2] };
    ANSWERS(dspec_close(&one.session, all, 6, &other.consumer, &one.closed), DSPEC_NOT_HOME);
    are_gone(&other, false);
    ANSWERS(dspec_finish(&other.session, &other.closed), DSPEC_OK);
    ANSWERS(dspec_finish(&one.session, &one.closed), DSPEC_NOT_HOME);
    ANSWERS(dspec_consumer_home(&one.consumer), DSPEC_OK);
    ANSWERS(dspec_finish(&one.session, &one.closed), DSPEC_OK);
    let_go(&one);
    let_go(&other);
}

int main(void) {
    uint32_t epid;
    MUST(dspec_schema_new(&schema));
    MUST(dspec_schema_enable(&schema, (const uint8_t[]){ 4 }, 1, &epid));
    ends();
    ends_of_some();
    refuses();
    misses();
    is_of_another();
    dspec_schema_drop(&schema);
    return check_end();
}
