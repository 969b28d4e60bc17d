/* Random sequences of calls against the model of c_model.h: `c_random COUNT SEED` makes COUNT sequences, two at a time in turns, each
 * on sessions of its own. Statuses, out parameters, reports and each byte of a batch have to be the model's; handles are sometimes
 * empty, of another kind, dropped or moved to another place. The first difference of a sequence is told with its seed and step. */
#include "dice.h"
#include "model.h"

#include <inttypes.h>
#include <stdio.h>
#include <stdlib.h>
#include <string.h>

enum { STEPS = 150, CPUS = 3, IDS = 4, MAGIC = 0x5a5a5a5a };

/* Where a part of a session is. */
typedef enum whereabouts { INSIDE, OUTSIDE, HOME } whereabouts;

typedef struct sequence {
    uint64_t seed;
    dice dice;
    int step;
    const char *call;
    bool is_wrong;
    dspec_schema schema;
    model_schema known;
    dspec_session session;
    dspec_cpu cpus[CPUS];
    dspec_consumer consumer;
    dspec_closed closed;
    dspec_batch out[CPUS];
    whereabouts where[CPUS], consumer_where;
    model m;
    uint64_t ids[IDS];
} sequence;

static void expect(sequence *s, bool is_same, const char *what) {
    if (is_same || s->is_wrong) return;
    s->is_wrong = true;
    printf("seed %" PRIu64 ", step %d, %s: %s\n", s->seed, s->step, s->call, what);
}

static void answers(sequence *s, const char *call, dspec_status got, dspec_status due) {
    s->call = call;
    if (got != due && !s->is_wrong) printf("answered %s, due %s\n", dspec_status_text(got), dspec_status_text(due));
    expect(s, got == due, "another status");
}

static void same_text(sequence *s, const dspec_batch *batch, const model_text *text, uint64_t drops, uint32_t cpu) {
    expect(s, batch->len == text->len && batch->drops == drops && batch->cpu == cpu, "a batch of another size, drops or CPU");
    expect(s, batch->len == 0 || batch->len != text->len || memcmp(batch->bytes, text->bytes, text->len) == 0, "other bytes");
}

/* The handle of a call: mostly its own, which may be empty, and now and then one of another kind. */
static void *maybe_wrong(sequence *s, void *own, bool *is_own) {
    void *others[] = { &s->schema, &s->session, &s->consumer, &s->closed, &s->cpus[0] };
    *is_own = true;
    if (!one_in(&s->dice, 24)) return own;
    void *other = others[below(&s->dice, 5)];
    dspec_cpu *cpus = s->cpus;
    bool both_cpus = other == (void *)cpus && (own == (void *)cpus || own == (void *)(cpus + 1) || own == (void *)(cpus + 2));
    if (other == own || both_cpus) return own;
    *is_own = false;
    return other;
}

static void schema_calls(sequence *s) {
    uint8_t widths[9];
    uint32_t n = one_in(&s->dice, 12) ? 9 : below(&s->dice, 4), epid = MAGIC, due_epid = MAGIC;
    bool own;
    for (uint32_t i = 0; i < 9; i++) widths[i] = (uint8_t)(one_in(&s->dice, 16) ? draw(&s->dice) : UINT64_C(1) << below(&s->dice, 4));
    dspec_schema *h = maybe_wrong(s, &s->schema, &own);
    if (one_in(&s->dice, 16)) {
        bool held = h->held && own;
        answers(s, "schema_stamp", dspec_schema_stamp(h), held ? DSPEC_OK : DSPEC_BAD_HANDLE);
        s->known.stamped |= held;
    } else {
        bool held = h->held && own;
        dspec_status got = dspec_schema_enable(h, widths, n, &epid);
        answers(s, "schema_enable", got, held ? model_enable(&s->known, widths, n, &due_epid) : DSPEC_BAD_HANDLE);
        expect(s, epid == due_epid, "another EPID");
    }
}

static void schema_new(sequence *s) {
    bool full = s->schema.held;
    answers(s, "schema_new", dspec_schema_new(&s->schema), full ? DSPEC_FULL_HANDLE : DSPEC_OK);
    if (!full) s->known = (model_schema){ .enablings = 0 };
}

/* Nothing of an earlier session may be out, for the model is of one session. */
static bool can_start(const sequence *s) {
    bool out = s->consumer.held || s->closed.held;
    for (int i = 0; i < CPUS; i++) out |= s->cpus[i].held;
    return s->session.held || !out;
}

static void start(sequence *s) {
    if (!can_start(s)) return;
    bool own, full = s->session.held;
    dspec_config config = draw_config(&s->dice, CPUS);
    dspec_schema *h = maybe_wrong(s, &s->schema, &own);
    if ((void *)h == &s->session) return;
    dspec_status due = full ? DSPEC_FULL_HANDLE : !own || !h->held ? DSPEC_BAD_HANDLE : model_ranges(&config);
    answers(s, "start", dspec_start(&config, h, &s->session), due);
    expect(s, s->session.held == (full || due == DSPEC_OK), "a handle that was filled, or wasn't");
    if (due != DSPEC_OK) return;
    model_free(&s->m);
    model_start(&s->m, &config, &s->known);
    for (int i = 0; i < CPUS; i++) s->where[i] = INSIDE;
    s->consumer_where = INSIDE;
}

/* The consumer is handed out once; a CPU that came home is handed out again. */
static dspec_status consumer_out(whereabouts where) { return where == INSIDE ? DSPEC_OK : DSPEC_OUT; }

static dspec_status cpu_out(whereabouts where) { return where == INSIDE || where == HOME ? DSPEC_OK : DSPEC_OUT; }

static void hand_out(sequence *s) {
    bool own;
    uint32_t n = below(&s->dice, CPUS + 1), place = n < CPUS ? n : 0;
    dspec_session *h = maybe_wrong(s, &s->session, &own);
    bool held = own && h->held;
    if (one_in(&s->dice, 4)) {
        dspec_status due = s->consumer.held ? DSPEC_FULL_HANDLE : held ? consumer_out(s->consumer_where) : DSPEC_BAD_HANDLE;
        if ((void *)h == &s->consumer) return;
        answers(s, "consumer_of", dspec_consumer_of(h, &s->consumer), due);
        if (due == DSPEC_OK) s->consumer_where = OUTSIDE;
        return;
    }
    if ((void *)h == &s->cpus[place]) return;
    dspec_status due = s->cpus[place].held ? DSPEC_FULL_HANDLE
        : !held                           ? DSPEC_BAD_HANDLE
        : n >= s->m.config.cpus           ? DSPEC_NO_SUCH_CPU
                                          : cpu_out(s->where[n]);
    answers(s, "cpu_of", dspec_cpu_of(h, n, &s->cpus[place]), due);
    if (due == DSPEC_OK) s->where[n] = OUTSIDE;
}

/* Mostly one that was given out, and mostly the last. */
static uint64_t draw_id(sequence *s) {
    if (one_in(&s->dice, 12)) return draw(&s->dice) >> below(&s->dice, 64);
    return s->ids[one_in(&s->dice, 3) ? below(&s->dice, IDS) : 0];
}

static void decide(sequence *s, dspec_cpu *h, uint32_t cpu, bool held, bool commits) {
    uint32_t count = MAGIC, due_count = MAGIC;
    uint64_t id = draw_id(s);
    dspec_status got = commits ? dspec_commit(h, id, &count) : dspec_discard(h, id, &count), due = DSPEC_BAD_HANDLE;
    if (held) due = commits ? model_commit(&s->m, cpu, id, &due_count) : model_discard(&s->m, cpu, id, &due_count);
    answers(s, commits ? "commit" : "discard", got, due);
    expect(s, count == due_count, "another count");
}

static void decide_if_room(sequence *s, dspec_cpu *h, uint32_t cpu, bool held, uint64_t id) {
    uint32_t count = MAGIC, due_count = MAGIC;
    dspec_status got = dspec_commit_if_room(h, id, &count);
    answers(s, "commit_if_room", got, held ? model_commit_if_room(&s->m, cpu, id, &due_count) : DSPEC_BAD_HANDLE);
    expect(s, count == due_count, "another count");
}

static void open_one(sequence *s, dspec_cpu *h, uint32_t cpu, bool held) {
    uint64_t id = MAGIC, due_id = MAGIC;
    dspec_status got = dspec_speculation(h, &id);
    answers(s, "speculation", got, held ? model_speculation(&s->m, cpu, &due_id) : DSPEC_BAD_HANDLE);
    expect(s, id == due_id, "another identifier");
    if (got != DSPEC_OK) return;
    memmove(s->ids + 1, s->ids, sizeof s->ids - sizeof *s->ids);
    s->ids[0] = id;
}

static void service(sequence *s, dspec_cpu *h, uint32_t cpu, bool held) {
    bool sealed = false, due_sealed = false;
    uint32_t settled = MAGIC, due_settled = MAGIC;
    answers(s, "service", dspec_service(h, &sealed, &settled), held ? DSPEC_OK : DSPEC_BAD_HANDLE);
    if (held) model_service(&s->m, cpu, &due_sealed, &due_settled);
    expect(s, sealed == due_sealed && settled == due_settled, "another batch, or count of what was settled");
}

static void ask_dropped(sequence *s, dspec_cpu *h, uint32_t cpu, bool held, uint64_t id) {
    uint32_t count = MAGIC;
    answers(s, "dropped_in", dspec_dropped_in(h, id, &count), held ? DSPEC_OK : DSPEC_BAD_HANDLE);
    expect(s, count == (held ? model_dropped_in(&s->m, cpu, id) : MAGIC), "another count of dropped records");
}

static void ask_open(sequence *s, dspec_cpu *h, uint32_t cpu, bool held, uint64_t id) {
    uint64_t at = MAGIC;
    uint32_t slot = one_in(&s->dice, 8) ? (uint32_t)draw(&s->dice) : (uint32_t)(id % 64);
    answers(s, "open_at", dspec_open_at(h, slot, &at), held ? DSPEC_OK : DSPEC_BAD_HANDLE);
    expect(s, at == (held ? model_open_at(&s->m, cpu, slot) : MAGIC), "another speculation in the slot");
}

/* Words of any bits, mostly as many as the EPID's fields take, and a claim that is mostly true of it. */
typedef struct packed {
    uint64_t claim, words[10];
    size_t n;
} packed;

static packed draw_packed(sequence *s, uint32_t epid) {
    packed p = { .claim = (uint64_t)model_signature(&s->m.schema, epid) << 32 | epid, .n = model_words(&s->m.schema, epid) };
    if (one_in(&s->dice, 8)) p.claim ^= UINT64_C(1) << below(&s->dice, 64);
    if (one_in(&s->dice, 8)) p.n = below(&s->dice, 11);
    for (size_t i = 0; i < 10; i++) p.words[i] = draw(&s->dice) >> below(&s->dice, 64);
    return p;
}

static void put(sequence *s, dspec_cpu *h, uint32_t cpu, bool held, const drawn *r) {
    packed p = draw_packed(s, r->epid);
    dspec_status got;
    switch (one_in(&s->dice, 2) ? 0 : p.n) {
    case 1: got = dspec_put_1(h, p.claim, r->stamp, p.words[0]); break;
    case 2: got = dspec_put_2(h, p.claim, r->stamp, p.words[0], p.words[1]); break;
    case 3: got = dspec_put_3(h, p.claim, r->stamp, p.words[0], p.words[1], p.words[2]); break;
    default: got = dspec_put(h, p.claim, r->stamp, p.n == 0 ? NULL : p.words, p.n);
    }
    answers(s, "put", got, held ? model_put(&s->m, cpu, p.claim, r->stamp, p.words, p.n) : DSPEC_BAD_HANDLE);
}

static void put_in(sequence *s, dspec_cpu *h, uint32_t cpu, bool held, uint64_t id, const drawn *r) {
    packed p = draw_packed(s, r->epid);
    dspec_status got;
    switch (one_in(&s->dice, 2) ? 0 : p.n) {
    case 1: got = dspec_put_in_1(h, id, p.claim, r->stamp, p.words[0]); break;
    case 2: got = dspec_put_in_2(h, id, p.claim, r->stamp, p.words[0], p.words[1]); break;
    case 3: got = dspec_put_in_3(h, id, p.claim, r->stamp, p.words[0], p.words[1], p.words[2]); break;
    default: got = dspec_put_in(h, id, p.claim, r->stamp, p.n == 0 ? NULL : p.words, p.n);
    }
    answers(s, "put_in", got, held ? model_put_in(&s->m, cpu, id, p.claim, r->stamp, p.words, p.n) : DSPEC_BAD_HANDLE);
}

static void cpu_calls(sequence *s) {
    bool own;
    uint32_t cpu = below(&s->dice, CPUS);
    dspec_cpu *h = maybe_wrong(s, &s->cpus[cpu], &own);
    bool held = own && h->held;
    drawn r = draw_record(&s->dice, &s->m.schema);
    uint64_t id = draw_id(s);
    dspec_status got;
    switch (below(&s->dice, 20)) {
    case 0: case 1: case 10:
        got = dspec_trace(h, r.epid, r.stamp, r.values, r.n);
        answers(s, "trace", got, held ? model_trace(&s->m, cpu, r.epid, r.stamp, r.values, r.n) : DSPEC_BAD_HANDLE);
        break;
    case 2: case 3: case 4: case 11:
        got = dspec_speculate(h, id, r.epid, r.stamp, r.values, r.n);
        answers(s, "speculate", got, held ? model_speculate(&s->m, cpu, id, r.epid, r.stamp, r.values, r.n) : DSPEC_BAD_HANDLE);
        break;
    case 5: case 6: open_one(s, h, cpu, held); break;
    case 7: decide(s, h, cpu, held, true); break;
    case 8: decide(s, h, cpu, held, false); break;
    case 12: ask_dropped(s, h, cpu, held, id); break;
    case 13: case 14: put(s, h, cpu, held, &r); break;
    case 9: decide_if_room(s, h, cpu, held, id); break;
    case 18: ask_open(s, h, cpu, held, id); break;
    case 15: case 16: put_in(s, h, cpu, held, id, &r); break;
    default: service(s, h, cpu, held); break;
    }
}

static void take(sequence *s, dspec_consumer *h, uint32_t cpu, bool held) {
    dspec_batch batch = { .len = MAGIC };
    dspec_status due = !held ? DSPEC_BAD_HANDLE : cpu >= s->m.config.cpus ? DSPEC_NO_SUCH_CPU : DSPEC_OK;
    model_cpu *c = &s->m.cpus[cpu];
    if (due == DSPEC_OK && c->place == MODEL_OUT) due = DSPEC_OUT;
    else if (due == DSPEC_OK && !model_take(&s->m, cpu)) due = DSPEC_NO_BATCH;
    answers(s, "take", dspec_take(h, cpu, &batch), due);
    if (s->is_wrong) return;
    if (due != DSPEC_OK) {
        expect(s, batch.len == MAGIC, "a batch that was written");
        return;
    }
    same_text(s, &batch, &c->other, c->other_drops, cpu);
    s->out[cpu] = batch;
}

/* What was out has to be as it was taken. */
static void give_back(sequence *s, dspec_consumer *h, uint32_t cpu, bool held) {
    dspec_status due = !held ? DSPEC_BAD_HANDLE : cpu >= s->m.config.cpus ? DSPEC_NO_SUCH_CPU : DSPEC_OK;
    model_cpu *c = &s->m.cpus[cpu];
    if (due == DSPEC_OK && c->place != MODEL_OUT) due = DSPEC_NO_BATCH;
    if (due == DSPEC_OK) same_text(s, &s->out[cpu], &c->other, c->other_drops, cpu);
    answers(s, "give_back", dspec_give_back(h, cpu), due);
    if (due == DSPEC_OK) model_give_back(&s->m, cpu);
}

static void consumer_calls(sequence *s) {
    bool own;
    uint32_t cpu = below(&s->dice, CPUS + (one_in(&s->dice, 8))), released = MAGIC, due = MAGIC;
    dspec_consumer *h = maybe_wrong(s, &s->consumer, &own);
    bool held = own && h->held;
    switch (below(&s->dice, 16)) {
    case 0: case 1: case 2: case 3: case 4:
        answers(s, "ask", dspec_ask(h, cpu), !held ? DSPEC_BAD_HANDLE : cpu >= s->m.config.cpus ? DSPEC_NO_SUCH_CPU : DSPEC_OK);
        if (held && cpu < s->m.config.cpus) model_ask(&s->m, cpu);
        break;
    case 5: case 6: case 7: case 8: take(s, h, cpu, held); break;
    case 9: case 10: case 11: give_back(s, h, cpu, held); break;
    case 12: case 13: case 14:
        answers(s, "clean", dspec_clean(h, &released), held ? DSPEC_OK : DSPEC_BAD_HANDLE);
        if (held) due = model_clean(&s->m);
        expect(s, released == due, "another count of what was released");
        break;
    default:
        if (!one_in(&s->dice, 4)) break;
        answers(s, "stop", dspec_stop(h), held ? DSPEC_OK : DSPEC_BAD_HANDLE);
        s->m.stopped |= held;
    }
}

static void go_home(sequence *s) {
    bool own;
    uint32_t cpu = below(&s->dice, CPUS);
    if (one_in(&s->dice, 4)) {
        dspec_consumer *h = maybe_wrong(s, &s->consumer, &own);
        bool held = own && h->held;
        bool kept = !own && h->held;
        answers(s, "consumer_home", dspec_consumer_home(h), held ? DSPEC_OK : DSPEC_BAD_HANDLE);
        expect(s, h->held == kept, "another handle");
        if (held) s->consumer_where = HOME;
        return;
    }
    dspec_cpu *h = maybe_wrong(s, &s->cpus[cpu], &own);
    bool held = own && h->held;
    bool kept = !own && h->held;
    answers(s, "cpu_home", dspec_cpu_home(h), held ? DSPEC_OK : DSPEC_BAD_HANDLE);
    expect(s, h->held == kept, "another handle");
    if (held) s->where[cpu] = HOME;
}

/* A CPU goes home for a while, as a thread's does that blocks: others may call meanwhile, and `hand_out` gets it back. */
static void park(sequence *s) {
    uint32_t cpu = below(&s->dice, CPUS);
    if (s->where[cpu] == HOME && s->session.held && one_in(&s->dice, 2)) {
        dspec_status due = s->cpus[cpu].held ? DSPEC_FULL_HANDLE : DSPEC_OK;
        answers(s, "cpu_of, parked", dspec_cpu_of(&s->session, cpu, &s->cpus[cpu]), due);
        if (due == DSPEC_OK) s->where[cpu] = OUTSIDE;
    } else if (s->cpus[cpu].held) {
        answers(s, "cpu_home, to park", dspec_cpu_home(&s->cpus[cpu]), DSPEC_OK);
        s->where[cpu] = HOME;
    }
}

/* The model makes the services of the CPUs that aren't out. */
static void tend(sequence *s) {
    bool own;
    dspec_session *h = maybe_wrong(s, &s->session, &own);
    bool held = own && h->held;
    uint64_t settled = MAGIC, due = held ? 0 : MAGIC;
    for (uint32_t cpu = 0; held && cpu < s->m.config.cpus; cpu++) {
        bool sealed;
        uint32_t one;
        if (s->where[cpu] != INSIDE && s->where[cpu] != HOME) continue;
        model_service(&s->m, cpu, &sealed, &one);
        due += one;
    }
    answers(s, "tend", dspec_tend(h, &settled), held ? DSPEC_OK : DSPEC_BAD_HANDLE);
    expect(s, settled == due, "another count of what was settled");
}

/* All that the closed session tells. */
static void look_at_closed(sequence *s) {
    for (uint32_t cpu = 0; cpu < s->m.config.cpus; cpu++) {
        dspec_report report;
        dspec_batch batch;
        model_cpu *c = &s->m.cpus[cpu];
        answers(s, "closed_report", dspec_closed_report(&s->closed, cpu, &report), DSPEC_OK);
        if (!s->is_wrong) expect(s, memcmp(&report, &c->report, sizeof report) == 0, "another report");
        dspec_status due = c->place == MODEL_SEALED ? DSPEC_OK : DSPEC_NO_BATCH;
        answers(s, "rest", dspec_rest(&s->closed, cpu, false, &batch), due);
        if (!s->is_wrong && due == DSPEC_OK) same_text(s, &batch, &c->other, c->other_drops, cpu);
        answers(s, "rest", dspec_rest(&s->closed, cpu, true, &batch), DSPEC_OK);
        if (!s->is_wrong) same_text(s, &batch, &c->active, c->drops, cpu);
    }
}

static void finish(sequence *s) {
    bool own, full = s->closed.held, out = false;
    dspec_session *h = maybe_wrong(s, &s->session, &own);
    if ((void *)h == &s->closed) return;
    for (uint32_t i = 0; i < CPUS; i++) out |= s->where[i] == OUTSIDE;
    out |= s->consumer_where == OUTSIDE;
    dspec_status due = full ? DSPEC_FULL_HANDLE : !own || !h->held ? DSPEC_BAD_HANDLE : out ? DSPEC_NOT_HOME : DSPEC_OK;
    bool held = s->session.held;
    answers(s, "finish", dspec_finish(h, &s->closed), due);
    expect(s, s->session.held == (held && due != DSPEC_OK) && s->closed.held == (full || due == DSPEC_OK), "another handle");
    if (due != DSPEC_OK || s->is_wrong) return;
    model_finish(&s->m);
    look_at_closed(s);
}

static void drop_one(sequence *s) {
    uint32_t cpu = below(&s->dice, CPUS);
    switch (below(&s->dice, 6)) {
    case 0: dspec_schema_drop(&s->schema); break;
    case 1: dspec_session_drop(&s->session); break;
    case 2: dspec_closed_drop(&s->closed); break;
    case 3:
        if (s->consumer.held) s->consumer_where = HOME;
        dspec_consumer_drop(&s->consumer);
        break;
    default:
        if (s->cpus[cpu].held) s->where[cpu] = HOME;
        dspec_cpu_drop(&s->cpus[cpu]);
    }
}

/* A handle at another place is the same handle. */
static void move_one(sequence *s) {
    dspec_cpu at = s->cpus[0], empty = DSPEC_EMPTY;
    s->cpus[0] = empty;
    answers(s, "a moved handle", dspec_cpu_home(&s->cpus[0]), DSPEC_BAD_HANDLE);
    s->cpus[0] = at;
}

static void compare_reports(sequence *s) {
    for (uint32_t cpu = 0; cpu < CPUS && !s->is_wrong; cpu++) {
        dspec_report report;
        if (!s->cpus[cpu].held) continue;
        answers(s, "cpu_report", dspec_cpu_report(&s->cpus[cpu], &report), DSPEC_OK);
        expect(s, memcmp(&report, &s->m.cpus[cpu].report, sizeof report) == 0, "another report");
    }
}

/* What a sequence needs comes first, mostly. */
static void set_up(sequence *s) {
    if (s->step == 1) schema_new(s);
    else if (s->step < 6) schema_calls(s);
    else if (s->step < 8) start(s);
    else hand_out(s);
}

static void anything(sequence *s) {
    bool late = s->step > STEPS - 25;
    uint32_t kind = below(&s->dice, late ? 130 : 100);
    if (kind < 64) cpu_calls(s);
    else if (kind < 86) consumer_calls(s);
    else if (kind < 88) hand_out(s);
    else if (kind < 89) move_one(s);
    else if (kind < 90) schema_calls(s);
    else if (kind < 91) tend(s);
    else if (kind < 92) finish(s);
    else if (kind < 94) start(s);
    else if (kind < 95) schema_new(s);
    else if (kind < 96) { if (late || one_in(&s->dice, 4)) drop_one(s); }
    else if (kind < 97 || (late && kind >= 100)) { if (late || one_in(&s->dice, 3)) go_home(s); }
    else park(s);
}

static void step(sequence *s) {
    if (s->step < 16 && !one_in(&s->dice, 16)) set_up(s);
    else anything(s);
    if (!s->is_wrong) compare_reports(s);
}

/* Once each part of the session is home, it finishes. */
static void end(sequence *s) {
    for (int i = 0; i < CPUS; i++) {
        if (s->cpus[i].held) answers(s, "cpu_home", dspec_cpu_home(&s->cpus[i]), DSPEC_OK);
        if (s->where[i] == OUTSIDE) s->where[i] = HOME;
    }
    if (s->consumer.held) answers(s, "consumer_home", dspec_consumer_home(&s->consumer), DSPEC_OK);
    if (s->consumer_where == OUTSIDE) s->consumer_where = HOME;
    dspec_closed_drop(&s->closed);
    finish(s);
}

static void let_go(sequence *s) {
    for (int i = 0; i < CPUS; i++) dspec_cpu_drop(&s->cpus[i]);
    dspec_consumer_drop(&s->consumer);
    dspec_session_drop(&s->session);
    dspec_closed_drop(&s->closed);
    dspec_schema_drop(&s->schema);
    model_free(&s->m);
}

int main(int argc, char **argv) {
    static sequence pair[2];
    if (argc != 3) {
        fputs("usage: c_random COUNT SEED\n", stderr);
        return 2;
    }
    uint64_t count = strtoull(argv[1], NULL, 10), seed = strtoull(argv[2], NULL, 10), failed = 0;
    for (uint64_t i = 0; i < count; i += 2) {
        for (int k = 0; k < 2; k++) pair[k] = (sequence){ .seed = seed + i + (uint64_t)k, .dice = { seed + i + (uint64_t)k } };
        for (int at = 1; at <= STEPS; at++) {
            for (int k = 0; k < 2; k++) {
                pair[k].step = at;
                if (!pair[k].is_wrong) step(&pair[k]);
            }
        }
        for (int k = 0; k < 2; k++) {
            if (!pair[k].is_wrong) end(&pair[k]);
            failed += pair[k].is_wrong;
            let_go(&pair[k]);
        }
    }
    printf("%" PRIu64 " passed, %" PRIu64 " failed\n", count - failed, failed);
    return failed > 0 || count == 0;
}
