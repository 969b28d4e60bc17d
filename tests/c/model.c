#include "model.h"

#include <stdio.h>
#include <stdlib.h>
#include <string.h>

static bool is_width(uint8_t width) { return width == 1 || width == 2 || width == 4 || width == 8; }

dspec_status model_enable(model_schema *schema, const uint8_t *widths, size_t n, uint32_t *epid) {
    if (n > MODEL_FIELDS) return DSPEC_TOO_MANY_FIELDS;
    for (size_t i = 0; i < n; i++) {
        if (!is_width(widths[i])) return DSPEC_BAD_WIDTH;
    }
    if (schema->enablings == MODEL_ENABLINGS) return DSPEC_TOO_MANY_ENABLINGS;
    if (n > 0) memcpy(schema->widths[schema->enablings], widths, n);
    schema->fields[schema->enablings] = (uint32_t)n;
    *epid = ++schema->enablings;
    return DSPEC_OK;
}

uint32_t model_signature(const model_schema *schema, uint32_t epid) {
    uint32_t word = 0;
    if (epid == 0 || epid > schema->enablings) return 0;
    for (uint32_t i = schema->fields[epid - 1]; i > 0; i--) word = word << 4 | schema->widths[epid - 1][i - 1];
    return word;
}

size_t model_words(const model_schema *schema, uint32_t epid) {
    uint32_t end = 4;
    if (epid == 0 || epid > schema->enablings || schema->fields[epid - 1] == 0) return 0;
    for (uint32_t f = 0; f < schema->fields[epid - 1]; f++) {
        uint32_t width = schema->widths[epid - 1][f];
        end = (end + width - 1) / width * width + width;
    }
    return (end + 7) / 8;
}

static bool is_size(uint32_t bytes) { return bytes >= 8 && bytes <= 1048576 && bytes % 8 == 0; }

dspec_status model_ranges(const dspec_config *config) {
    if (config->policy > DSPEC_POLICY_FILL) return DSPEC_BAD_POLICY;
    if (config->cpus < 1 || config->cpus > 64) return DSPEC_BAD_CPUS;
    if (config->nspec < 1 || config->nspec > 63) return DSPEC_BAD_NSPEC;
    if (!is_size(config->bufsize)) return DSPEC_BAD_BUFSIZE;
    if (!is_size(config->specsize)) return DSPEC_BAD_SPECSIZE;
    if (config->max_issues < 1 || config->max_issues > UINT64_C(1) << 57) return DSPEC_BAD_MAX_ISSUES;
    if (config->max_calls < 1 || config->max_calls > UINT64_C(1) << 62) return DSPEC_BAD_MAX_CALLS;
    return DSPEC_OK;
}

static model_text text_of(uint32_t size) {
    model_text text = { .bytes = malloc(size), .size = size };
    if (text.bytes == NULL) {
        fputs("the test itself has no memory\n", stderr);
        exit(2);
    }
    return text;
}

static void clear(model_text *text) {
    text->len = 0;
    text->records = 0;
}

void model_start(model *m, const dspec_config *config, const model_schema *schema) {
    *m = (model){ .config = *config, .schema = *schema };
    for (uint32_t c = 0; c < config->cpus; c++) {
        m->cpus[c].active = text_of(config->bufsize);
        m->cpus[c].other = text_of(config->bufsize);
        for (uint32_t s = 1; s <= config->nspec; s++) m->cpus[c].speculative[s] = text_of(config->specsize);
    }
}

void model_free(model *m) {
    for (uint32_t c = 0; c < m->config.cpus; c++) {
        free(m->cpus[c].active.bytes);
        free(m->cpus[c].other.bytes);
        for (uint32_t s = 1; s <= m->config.nspec; s++) free(m->cpus[c].speculative[s].bytes);
    }
    m->config.cpus = 0;
}

/* A record's bytes, and the multiple at which it stands. */
typedef struct piece {
    uint8_t bytes[128];
    uint32_t len, align;
} piece;

static void lay(piece *p, uint32_t at, uint64_t value, uint32_t width) {
    for (uint32_t i = 0; i < width; i++) p->bytes[at + i] = (uint8_t)(value >> (8 * i));
    p->len = at + width;
}

static uint32_t up(uint32_t at, uint32_t multiple) { return (at + multiple - 1) / multiple * multiple; }

/* False where the schema doesn't accept the record. */
static bool piece_of(const model_schema *schema, uint32_t epid, uint64_t stamp, const uint64_t *values, size_t n, piece *p) {
    if (epid == 0 || epid > schema->enablings || n != schema->fields[epid - 1]) return false;
    if (!schema->stamped && stamp != 0) return false;
    *p = (piece){ .align = 4 };
    lay(p, 0, epid, 4);
    if (schema->stamped) lay(p, 4, stamp, 8);
    for (size_t i = 0; i < n; i++) {
        uint32_t width = schema->widths[epid - 1][i];
        if (width < 8 && values[i] >> (8 * width) != 0) return false;
        if (width == 8) p->align = 8;
        lay(p, up(p->len, width), values[i], width);
    }
    p->len = up(p->len, 4);
    return true;
}

static bool fits_in(const model_text *text, uint32_t len, uint32_t align) {
    uint32_t at = up(text->len, align);
    return len == 0 || (at <= text->size && len <= text->size - at);
}

/* False, with nothing changed, where it doesn't fit whole. */
static bool push(model_text *text, const uint8_t *bytes, uint32_t len, uint32_t align, uint32_t records) {
    uint32_t at = up(text->len, align);
    if (len == 0) return true;
    if (!fits_in(text, len, align)) return false;
    memset(text->bytes + text->len, 0, at - text->len);
    memcpy(text->bytes + at, bytes, len);
    text->len = at + len;
    text->records += records;
    return true;
}

/* Into the active principal buffer; a refusal is a drop, and under the policy "fill" the last. */
static bool accept(model *m, model_cpu *c, const uint8_t *bytes, uint32_t len, uint32_t align, uint32_t records) {
    bool fits = len == 0 || (!c->closed && push(&c->active, bytes, len, align, records));
    if (!fits) {
        c->drops++;
        c->report.drops++;
        c->closed = m->config.policy == DSPEC_POLICY_FILL;
    }
    return fits;
}

/* Whether the CPU has made its last call; that is counted, and else this call is. */
static bool is_worn(model *m, model_cpu *c) {
    if (c->calls >= m->config.max_calls) {
        c->report.worn++;
        return true;
    }
    c->calls++;
    return false;
}

static dspec_status refused(model_cpu *c) {
    c->report.refused++;
    return DSPEC_BAD_RECORD;
}

dspec_status model_trace(model *m, uint32_t cpu, uint32_t epid, uint64_t stamp, const uint64_t *values, size_t n) {
    model_cpu *c = &m->cpus[cpu];
    piece p;
    if (!piece_of(&m->schema, epid, stamp, values, n, &p)) return refused(c);
    if (is_worn(m, c)) return DSPEC_WORN;
    c->report.offered++;
    if (m->stopped) {
        c->report.void_++;
        c->report.stopped++;
        return DSPEC_STOPPED;
    }
    if (!accept(m, c, p.bytes, p.len, p.align, 1)) {
        c->report.dropped++;
        return DSPEC_DROPPED;
    }
    c->report.accepted++;
    return DSPEC_OK;
}

/* The values of a claim's words, or false where it isn't true of an EPID of the schema. */
static bool unpack(const model *m, uint64_t claim, const uint64_t *words, size_t n, uint64_t *values) {
    uint32_t epid = (uint32_t)claim, end = 4;
    if (n == 0 || n != model_words(&m->schema, epid) || claim >> 32 != model_signature(&m->schema, epid)) return false;
    for (uint32_t f = 0; f < m->schema.fields[epid - 1]; f++) {
        uint32_t width = m->schema.widths[epid - 1][f];
        end = (end + width - 1) / width * width;
        values[f] = 0;
        for (uint32_t b = width; b > 0; b--) values[f] = values[f] << 8 | (words[(end + b - 1) / 8] >> 8 * ((end + b - 1) % 8) & 0xff);
        end += width;
    }
    return true;
}

dspec_status model_put(model *m, uint32_t cpu, uint64_t claim, uint64_t stamp, const uint64_t *words, size_t n) {
    uint64_t values[8];
    if (!unpack(m, claim, words, n, values)) return refused(&m->cpus[cpu]);
    return model_trace(m, cpu, (uint32_t)claim, stamp, values, m->schema.fields[(uint32_t)claim - 1]);
}

dspec_status model_speculation(model *m, uint32_t cpu, uint64_t *id) {
    model_cpu *c = &m->cpus[cpu];
    bool busy = false;
    if (is_worn(m, c)) return DSPEC_WORN;
    if (m->stopped) {
        c->report.stopped++;
        return DSPEC_STOPPED;
    }
    for (uint32_t s = 1; s <= m->config.nspec; s++) {
        model_slot *slot = &m->slots[s];
        if (slot->code == MODEL_FREE && slot->issue < m->config.max_issues) {
            slot->code = MODEL_OPEN;
            slot->callers = 0;
            *id = 64 * slot->issue + s;
            return DSPEC_OK;
        }
        busy |= slot->code == MODEL_COMMITTED || slot->code == MODEL_DISCARDED;
    }
    if (busy) c->report.busy++;
    else c->report.unavailable++;
    return busy ? DSPEC_BUSY : DSPEC_UNAVAILABLE;
}

/* The slot of an identifier that is open, or NULL. */
static model_slot *open_slot(model *m, uint64_t id) {
    uint64_t s = id % 64;
    if (s < 1 || s > m->config.nspec) return NULL;
    model_slot *slot = &m->slots[s];
    return slot->code == MODEL_OPEN && slot->issue == id / 64 ? slot : NULL;
}

dspec_status model_speculate(model *m, uint32_t cpu, uint64_t id, uint32_t epid, uint64_t stamp, const uint64_t *values, size_t n) {
    model_cpu *c = &m->cpus[cpu];
    piece p;
    if (!piece_of(&m->schema, epid, stamp, values, n, &p)) return refused(c);
    if (is_worn(m, c)) return DSPEC_WORN;
    c->report.offered++;
    model_slot *slot = open_slot(m, id);
    if (m->stopped || slot == NULL) {
        c->report.void_++;
        c->report.stopped += m->stopped;
        return m->stopped ? DSPEC_STOPPED : DSPEC_VOID;
    }
    model_text *text = &c->speculative[id % 64];
    slot->callers |= UINT64_C(1) << cpu;
    if (c->marks[id % 64] != slot->issue + 1) {
        clear(text);
        c->cut[id % 64] = 0;
    }
    c->marks[id % 64] = slot->issue + 1;
    if (!push(text, p.bytes, p.len, p.align, 1)) {
        c->cut[id % 64]++;
        c->report.specdropped++;
        return DSPEC_DROPPED;
    }
    c->report.held++;
    return DSPEC_OK;
}

dspec_status model_put_in(model *m, uint32_t cpu, uint64_t id, uint64_t claim, uint64_t stamp, const uint64_t *words, size_t n) {
    uint64_t values[8];
    if (!unpack(m, claim, words, n, values)) return refused(&m->cpus[cpu]);
    return model_speculate(m, cpu, id, (uint32_t)claim, stamp, values, m->schema.fields[(uint32_t)claim - 1]);
}

/* Takes a CPU's block of a slot's speculation to its principal buffer, or throws it away: false where it was lost. */
static bool settle(model *m, model_cpu *c, uint32_t s, bool commits, uint32_t *count) {
    model_text *text = &c->speculative[s];
    if (c->marks[s] != m->slots[s].issue + 1) clear(text);
    *count = text->records;
    c->report.held -= text->records;
    bool fits = true;
    if (!commits) c->report.discarded += text->records;
    else if ((fits = accept(m, c, text->bytes, text->len, 8, text->records))) c->report.accepted += text->records;
    else c->report.lost += text->records;
    clear(text);
    return fits;
}

static void release(model_slot *slot) {
    slot->issue++;
    slot->code = MODEL_FREE;
}

static bool is_undecided(model *m, model_cpu *c, uint64_t id, dspec_status *why) {
    if (is_worn(m, c)) *why = DSPEC_WORN;
    else if (m->stopped) *why = DSPEC_STOPPED;
    else if (open_slot(m, id) == NULL) *why = DSPEC_VOID;
    else return false;
    c->report.stopped += *why == DSPEC_STOPPED;
    return true;
}

dspec_status model_commit(model *m, uint32_t cpu, uint64_t id, uint32_t *count) {
    model_cpu *c = &m->cpus[cpu];
    dspec_status why;
    if (is_undecided(m, c, id, &why)) return why;
    model_slot *slot = open_slot(m, id);
    bool fits = settle(m, c, (uint32_t)(id % 64), true, count);
    if ((slot->callers & ~(UINT64_C(1) << cpu)) == 0) release(slot);
    else slot->code = MODEL_COMMITTED;
    return fits ? DSPEC_OK : DSPEC_LOST;
}

dspec_status model_commit_if_room(model *m, uint32_t cpu, uint64_t id, uint32_t *count) {
    const model_cpu *c = &m->cpus[cpu];
    uint64_t s = id % 64;
    bool mine = s >= 1 && s <= m->config.nspec && c->marks[s] == id / 64 + 1;
    uint32_t len = mine ? c->speculative[s].len : 0;
    bool fits = len == 0 || (!c->closed && fits_in(&c->active, len, 8));
    return fits || c->calls >= m->config.max_calls ? model_commit(m, cpu, id, count) : DSPEC_BUSY;
}

dspec_status model_discard(model *m, uint32_t cpu, uint64_t id, uint32_t *count) {
    model_cpu *c = &m->cpus[cpu];
    dspec_status why;
    if (is_undecided(m, c, id, &why)) return why;
    model_slot *slot = open_slot(m, id);
    settle(m, c, (uint32_t)(id % 64), false, count);
    if (slot->callers == UINT64_C(1) << cpu) release(slot);
    else slot->code = MODEL_DISCARDED;
    return DSPEC_OK;
}

uint64_t model_open_at(const model *m, uint32_t cpu, uint32_t slot) {
    const model_cpu *c = &m->cpus[cpu];
    if (slot < 1 || slot > m->config.nspec || c->speculative[slot].records == 0) return 0;
    return 64 * (c->marks[slot] - 1) + slot;
}

uint32_t model_dropped_in(const model *m, uint32_t cpu, uint64_t id) {
    const model_cpu *c = &m->cpus[cpu];
    uint64_t s = id % 64;
    return s >= 1 && s <= m->config.nspec && c->marks[s] == id / 64 + 1 ? c->cut[s] : 0;
}

static bool is_decided(const model_slot *slot) { return slot->code == MODEL_COMMITTED || slot->code == MODEL_DISCARDED; }

static uint32_t settle_all(model *m, model_cpu *c) {
    uint32_t settled = 0, count;
    for (uint32_t s = 1; s <= m->config.nspec; s++) {
        model_slot *slot = &m->slots[s];
        if (!is_decided(slot) || c->acknowledged[s] == slot->issue + 1) continue;
        settle(m, c, s, slot->code == MODEL_COMMITTED, &count);
        c->acknowledged[s] = slot->issue + 1;
        settled++;
    }
    return settled;
}

/* The active buffer becomes a batch, and the spare one active. */
static bool seal(model *m, model_cpu *c) {
    if (m->config.policy == DSPEC_POLICY_FILL || c->place != MODEL_SPARE) return false;
    if (c->asked <= c->sealed || c->sealed >= m->config.max_calls) return false;
    model_text spare = c->other;
    c->other = c->active;
    c->active = spare;
    clear(&c->active);
    c->other_drops = c->drops;
    c->drops = 0;
    c->place = MODEL_SEALED;
    c->sealed++;
    return true;
}

void model_service(model *m, uint32_t cpu, bool *sealed, uint32_t *settled) {
    *sealed = seal(m, &m->cpus[cpu]);
    *settled = settle_all(m, &m->cpus[cpu]);
}

void model_ask(model *m, uint32_t cpu) { m->cpus[cpu].asked = m->cpus[cpu].taken + 1; }

bool model_take(model *m, uint32_t cpu) {
    model_cpu *c = &m->cpus[cpu];
    if (c->place != MODEL_SEALED) return false;
    c->place = MODEL_OUT;
    c->taken++;
    return true;
}

void model_give_back(model *m, uint32_t cpu) { m->cpus[cpu].place = MODEL_SPARE; }

uint32_t model_clean(model *m) {
    uint32_t released = 0;
    for (uint32_t s = 1; s <= m->config.nspec; s++) {
        model_slot *slot = &m->slots[s];
        bool all = is_decided(slot);
        for (uint32_t c = 0; c < m->config.cpus; c++) all &= m->cpus[c].acknowledged[s] == slot->issue + 1;
        if (!all) continue;
        release(slot);
        released++;
    }
    return released;
}

void model_finish(model *m) {
    for (uint32_t c = 0; c < m->config.cpus; c++) settle_all(m, &m->cpus[c]);
}
