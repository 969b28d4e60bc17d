/* The account of a race: each CPU's calls are gone through in their order, beside the records that came of it. What a speculation's
 * fate is, the calls of all CPUs tell together. Where calls are timed, their order in time has to agree with what was answered. */
#include "race.h"

#include <inttypes.h>
#include <stdio.h>
#include <stdlib.h>
#include <string.h>

typedef enum decision { UNDECIDED, COMMITTED, DISCARDED } decision;

/* What became of a speculation, by the calls of all CPUs. */
typedef struct fate {
    uint64_t id;
    bool is_used, is_open;
    decision decided;
    uint32_t opener, decider;
    const race_entry *opening, *deciding;
    uint32_t last_offer[RACE_CPUS]; /* one more than the CPU's last call that offered to it; 0: none */
} fate;

/* A table of fates by identifier, open, of a power of two places. */
typedef struct fates {
    fate *of;
    uint32_t places;
} fates;

static fate *fate_of(fates *all, uint64_t id) {
    uint32_t at = (uint32_t)(id * UINT64_C(0x9e3779b97f4a7c15) >> 32) & (all->places - 1);
    while (all->of[at].is_used && all->of[at].id != id) at = (at + 1) & (all->places - 1);
    return &all->of[at];
}

static fate *known_fate(fates *all, uint64_t id) {
    fate *f = fate_of(all, id);
    f->is_used = true;
    f->id = id;
    return f;
}

/* The records that a CPU keeps for a speculation. */
typedef struct block {
    uint64_t id, *serials;
    uint32_t count, room;
} block;

/* What the calls of one CPU have come to. */
typedef struct account {
    race *r;
    race_worker *w;
    fates *all;
    dspec_report own;
    size_t place; /* how many of the records that came are told of */
    bool is_stopped;
    uint64_t made, sealed;
    block blocks[RACE_SLOTS + 1];
} account;

static void flaw(account *a, const char *what, uint64_t one, uint64_t other) { race_flaw(a->r, a->w->number, what, one, other); }

static bool is_before(const race *r, uint64_t one, uint64_t other) { return r->is_timed && one < other; }

/* Whether the call was made between the opening and the decision of the speculation, if there was one, and can have seen neither before
 * nor after. */
static bool is_within(const race *r, const fate *f, const race_entry *e) {
    if (!f->is_open || !is_before(r, f->opening->ended, e->began)) return false;
    return f->decided == UNDECIDED || is_before(r, e->ended, f->deciding->began);
}

static bool is_decision(const race_entry *e) {
    return ((e->call == RACE_COMMIT || e->call == RACE_DISCARD) && e->status == DSPEC_OK) || (e->call == RACE_COMMIT && e->status == DSPEC_LOST);
}

static void learn_opening(race *r, fates *all, uint32_t cpu, const race_entry *e) {
    fate *f = known_fate(all, e->id);
    uint64_t slot = e->id % 64;
    if (f->is_open) race_flaw(r, cpu, "an identifier is given out twice", e->id, f->opener);
    if (slot < 1 || slot > r->config.nspec || e->id / 64 >= r->config.max_issues) race_flaw(r, cpu, "an identifier out of range", e->id, 0);
    f->is_open = true;
    f->opener = cpu;
    f->opening = e;
}

static void learn_decision(race *r, fates *all, uint32_t cpu, const race_entry *e) {
    fate *f = known_fate(all, e->id);
    if (f->decided != UNDECIDED) race_flaw(r, cpu, "decided twice", e->id, f->decider);
    f->decided = e->call == RACE_COMMIT ? COMMITTED : DISCARDED;
    f->decider = cpu;
    f->deciding = e;
}

static void learn(race *r, fates *all, uint32_t cpu) {
    for (uint32_t i = 0; i < r->calls; i++) {
        const race_entry *e = &r->workers[cpu].log[i];
        if (e->call == RACE_OPEN && e->status == DSPEC_OK) learn_opening(r, all, cpu, e);
        if (e->call == RACE_OFFER && (e->status == DSPEC_OK || e->status == DSPEC_DROPPED)) known_fate(all, e->id)->last_offer[cpu] = i + 1;
        if (is_decision(e)) learn_decision(r, all, cpu, e);
    }
}

/* The issues of a slot come one after another, each once the one before was decided. */
static void check_issues(race *r, fates *all) {
    for (uint32_t i = 0; i < all->places; i++) {
        const fate *f = &all->of[i];
        if (!f->is_used) continue;
        if (!f->is_open) {
            race_flaw(r, f->decider, "kept or decided, and never given out", f->id, 0);
        } else if (f->id >= 64) {
            const fate *before = fate_of(all, f->id - 64);
            if (!before->is_used || !before->is_open) race_flaw(r, f->opener, "an issue is left out", f->id, 0);
            else if (before->decided == UNDECIDED) race_flaw(r, f->opener, "a slot is given out again before it is decided", f->id, 0);
            else if (is_before(r, f->opening->ended, before->deciding->began)) race_flaw(r, f->opener, "given out before the decision began", f->id, 0);
        }
    }
}

/* A block whose records didn't come: by its fate they were thrown away, lost with their commit, or wait still. */
static void let_go(account *a, block *b) {
    if (b->count == 0) return;
    switch (fate_of(a->all, b->id)->decided) {
    case UNDECIDED: a->own.held += b->count; break;
    case DISCARDED: a->own.discarded += b->count; break;
    case COMMITTED:
        a->own.lost += b->count;
        a->own.drops++;
        break;
    default: abort();
    }
    b->count = 0;
}

/* Another issue of the slot begins: the block of the one before was settled by a service. */
static void make_room(account *a, block *b, uint64_t id) {
    if (b->id != id && b->count > 0) {
        if (fate_of(a->all, b->id)->decided == UNDECIDED) flaw(a, "a new issue, and the block of an undecided one is there", id, b->id);
        let_go(a, b);
    }
    b->id = id;
}

static void keep(block *b, uint64_t serial) {
    if (b->count == b->room) {
        b->room = b->room == 0 ? 16 : 2 * b->room;
        b->serials = realloc(b->serials, b->room * sizeof *b->serials);
        if (b->serials == NULL) abort();
    }
    b->serials[b->count++] = serial;
}

static bool is_next(const account *a, uint64_t serial, uint64_t id) {
    const race_record *next = &a->w->came[a->place];
    return a->place < a->w->records && next->serial == serial && next->id == id;
}

/* The whole block comes next of all records. */
static void comes(account *a, block *b) {
    for (uint32_t i = 0; i < b->count; i++, a->place++) {
        if (!is_next(a, b->serials[i], b->id)) {
            flaw(a, "a committed block isn't next, or isn't whole", b->id, b->serials[i]);
            break;
        }
    }
    a->own.accepted += b->count;
    b->count = 0;
}

static void account_trace(account *a, const race_entry *e) {
    a->own.offered++;
    if (e->status == DSPEC_OK) {
        a->own.accepted++;
        if (!is_next(a, e->serial, 0)) flaw(a, "a kept record isn't next", e->serial, a->place);
        a->place++;
    } else if (e->status == DSPEC_DROPPED) {
        a->own.dropped++;
        a->own.drops++;
    } else {
        flaw(a, "a trace is answered so", e->status, e->serial);
    }
}

static void account_opening(account *a, const race_entry *e) {
    if (e->status == DSPEC_UNAVAILABLE) a->own.unavailable++;
    else if (e->status == DSPEC_BUSY) a->own.busy++;
    else if (e->status != DSPEC_OK) flaw(a, "a speculation is answered so", e->status, e->serial);
}

static void account_kept_offer(account *a, const race_entry *e) {
    const fate *f = fate_of(a->all, e->id);
    block *b = &a->blocks[e->id % 64];
    if (!f->is_open) {
        flaw(a, "an offer to what was never given out is taken", e->id, e->serial);
        return;
    }
    if (is_before(a->r, e->ended, f->opening->began)) flaw(a, "an offer before the opening is taken", e->id, e->serial);
    if (f->decided != UNDECIDED && is_before(a->r, f->deciding->ended, e->began)) flaw(a, "an offer after the decision is taken", e->id, e->serial);
    make_room(a, b, e->id);
    if (e->status == DSPEC_DROPPED) a->own.specdropped++;
    else keep(b, e->serial);
}

static void account_offer(account *a, const race_entry *e) {
    a->own.offered++;
    if (e->status == DSPEC_VOID) {
        a->own.void_++;
        if (is_within(a->r, fate_of(a->all, e->id), e)) flaw(a, "an offer to an open speculation is void", e->id, e->serial);
    } else if (e->status == DSPEC_OK || e->status == DSPEC_DROPPED) {
        account_kept_offer(a, e);
    } else {
        flaw(a, "an offer is answered so", e->status, e->serial);
    }
}

static void account_decision(account *a, const race_entry *e) {
    if (e->status == DSPEC_VOID) {
        if (is_within(a->r, fate_of(a->all, e->id), e)) flaw(a, "a decision of an open speculation is void", e->id, e->serial);
        return;
    }
    if (!is_decision(e)) {
        flaw(a, "a decision is answered so", e->status, e->serial);
        return;
    }
    block *b = &a->blocks[e->id % 64];
    make_room(a, b, e->id);
    if (e->count != b->count) flaw(a, "a decision tells another size", e->count, b->count);
    if (e->status == DSPEC_OK && e->call == RACE_COMMIT) {
        comes(a, b);
    } else if (e->status == DSPEC_LOST) {
        a->own.lost += b->count;
        a->own.drops++;
        b->count = 0;
    } else {
        let_go(a, b);
    }
}

/* Whether the service, the call of this place, can have settled the block: another CPU decided, no later call of this CPU found the
 * speculation open, and the decision had begun. */
static bool can_settle(const account *a, const block *b, const race_entry *e, uint32_t place) {
    const fate *f = fate_of(a->all, b->id);
    if (f->decided == UNDECIDED) return true;
    if (f->decider == a->w->number || f->last_offer[a->w->number] > place) return false;
    return e == NULL || !is_before(a->r, e->ended, f->deciding->began);
}

/* A service settles what others committed, slot by slot: it told of at least so many blocks as came. The close, which has no entry, settles
 * the rest. */
static void account_service(account *a, const race_entry *e, uint32_t place) {
    uint32_t settled = 0;
    if (e != NULL && e->status != DSPEC_OK) flaw(a, "a service is answered so", e->status, e->serial);
    if (e != NULL) a->sealed += e->sealed;
    for (uint32_t slot = 1; slot <= a->r->config.nspec; slot++) {
        block *b = &a->blocks[slot];
        if (b->count == 0 || !is_next(a, b->serials[0], b->id) || (e != NULL && settled == e->count) || !can_settle(a, b, e, place)) continue;
        if (fate_of(a->all, b->id)->decided != COMMITTED) flaw(a, "a record of a speculation that wasn't committed came", b->id, b->serials[0]);
        comes(a, b);
        settled++;
    }
}

/* Whether the call did what its kind does: else it was after the last that a CPU makes, or after the stop. */
static bool is_done(account *a, const race_entry *e) {
    bool is_worn = a->made >= a->r->config.max_calls;
    if (is_worn != (e->status == DSPEC_WORN)) flaw(a, "worn too early, or not worn", a->made, e->status);
    if (e->status == DSPEC_WORN) {
        a->own.worn++;
        return false;
    }
    a->made++;
    if (e->status != DSPEC_STOPPED) {
        bool is_after = a->r->stop_ended > 0 && is_before(a->r, a->r->stop_ended, e->began);
        if (a->is_stopped || is_after) flaw(a, "it isn't stopped after a stop", e->serial, e->status);
        return true;
    }
    if (a->r->stop_began == 0 || is_before(a->r, e->ended, a->r->stop_began)) flaw(a, "stopped, and no stop was made", e->serial, 0);
    a->is_stopped = true;
    a->own.stopped++;
    if (e->call == RACE_TRACE || e->call == RACE_OFFER) {
        a->own.offered++;
        a->own.void_++;
    }
    return false;
}

static void account_call(account *a, const race_entry *e, uint32_t place) {
    if (e->call != RACE_SERVICE && !is_done(a, e)) return;
    switch (e->call) {
    case RACE_TRACE: account_trace(a, e); break;
    case RACE_OPEN: account_opening(a, e); break;
    case RACE_OFFER: account_offer(a, e); break;
    case RACE_COMMIT:
    case RACE_DISCARD: account_decision(a, e); break;
    default: account_service(a, e, place);
    }
}

static void same(account *a, const char *what, uint64_t told, uint64_t own) {
    if (told != own) flaw(a, what, told, own);
}

static void compare(account *a) {
    const dspec_report *told = &a->w->report, *own = &a->own;
    uint64_t all = told->accepted + told->dropped + told->specdropped + told->lost + told->discarded + told->void_ + told->held;
    same(a, "offered, and the sum of what became of it", told->offered, all);
    same(a, "offered", told->offered, own->offered);
    same(a, "accepted", told->accepted, own->accepted);
    same(a, "dropped", told->dropped, own->dropped);
    same(a, "specdropped", told->specdropped, own->specdropped);
    same(a, "lost", told->lost, own->lost);
    same(a, "discarded", told->discarded, own->discarded);
    same(a, "void", told->void_, own->void_);
    same(a, "held", told->held, own->held);
    same(a, "drops", told->drops, own->drops);
    same(a, "drops, and those of the batches", told->drops, a->w->drops);
    same(a, "unavailable", told->unavailable, own->unavailable);
    same(a, "busy", told->busy, own->busy);
    same(a, "stopped", told->stopped, own->stopped);
    same(a, "worn", told->worn, own->worn);
    same(a, "refused", told->refused, own->refused);
    same(a, "batches that came, and that services sealed", a->w->batches, a->sealed);
    same(a, "records that came, and that calls told of", a->w->records, a->place);
}

static void account_cpu(race *r, fates *all, uint32_t cpu) {
    account a = { .r = r, .w = &r->workers[cpu], .all = all };
    for (uint32_t i = 0; i < r->calls; i++) account_call(&a, &a.w->log[i], i);
    account_service(&a, NULL, r->calls);
    for (uint32_t slot = 1; slot <= RACE_SLOTS; slot++) {
        let_go(&a, &a.blocks[slot]);
        free(a.blocks[slot].serials);
    }
    compare(&a);
}

void race_account(race *r) {
    fates all = { .places = 1 };
    while (all.places < 4 * r->config.cpus * r->calls) all.places *= 2;
    all.of = calloc(all.places, sizeof *all.of);
    if (all.of == NULL) abort();
    for (uint32_t cpu = 0; cpu < r->config.cpus; cpu++) learn(r, &all, cpu);
    check_issues(r, &all);
    for (uint32_t cpu = 0; cpu < r->config.cpus; cpu++) account_cpu(r, &all, cpu);
    free(all.of);
}
