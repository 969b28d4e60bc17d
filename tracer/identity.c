/* identity.c: whose trace it is, and what its events are called. */
#include "body.h"

#include <errno.h>

bool identify(body *tracer, struct whose *whose) {
    if (!dspec_identity_of_system(&whose->identity, program_invocation_short_name, whose->host)) return false;
    clock_identify(tracer, &whose->identity);
    snprintf(whose->name, sizeof whose->name, "%s", program_invocation_short_name);
    whose->identity.name = dspec_shown(whose->name);
    return true;
}

/* ---- Names. ---- */

enum { MOST_NAMES = DSPEC_MAX_ENABLINGS * (DSPEC_MAX_FIELDS + 1), MOST_ESCAPED = 257 };

struct naming {
    dspec_names names;
    char escaped[MOST_NAMES][MOST_ESCAPED];
    size_t count;
};

struct naming *naming_new(void) { return calloc(1, sizeof(struct naming)); }

const dspec_names *naming_names(const struct naming *naming) { return &naming->names; }

/* Readers of the format take one underscore off the front of a field's name. So a field gets one if its name begins with one, or is a word that the metadata keeps for itself;
 * and an event if its name is such a word. */
static const char *escaped(struct naming *naming, const char *name, bool is_field) {
    const dspec_text text = { name, strlen(name) };
    const bool is_due = dspec_word_is_reserved(&text) || (is_field && name[0] == '_');
    if (!is_due || naming->count == MOST_NAMES || text.len + 2 > MOST_ESCAPED) return name;
    snprintf(naming->escaped[naming->count], MOST_ESCAPED, "_%s", name);
    return naming->escaped[naming->count++];
}

/* ---- What records claim. ---- */

static pthread_mutex_t claiming = PTHREAD_MUTEX_INITIALIZER;

/* Whether a record of the event has to look closer than at the lane: one load says it for all tracers. */
static uint32_t look_of(const dspec_event *event) {
    uint32_t on = 0, off = 0;
    for (uint32_t slot = 0; slot < DSPEC_MAX_TRACERS; slot++) {
        const uint64_t claim = LOAD(&event->claims[slot]);
        on += claim > DSPEC_TRACER_OFF_;
        off += claim == DSPEC_TRACER_OFF_;
    }
    return off > 0 ? on > 0 ? DSPEC_LOOK_CLOSER : DSPEC_LOOK_OFF : on > 0 ? 0 : DSPEC_LOOK_NONE;
}

static void set_claim(dspec_event *event, uint32_t slot, uint64_t claim) {
    STORE(&event->claims[slot], claim);
    STORE(&event->look, look_of(event));
}

void event_claims(dspec_event *event, uint32_t slot, uint64_t claim) {
    pthread_mutex_lock(&claiming);
    set_claim(event, slot, claim);
    pthread_mutex_unlock(&claiming);
}

bool event_adds(body *tracer, dspec_event *event, uint64_t claim) {
    bool is_there = true;
    pthread_mutex_lock(&claiming);
    if (event->claims[tracer->slot] == 0) {
        dspec_event **grown = realloc(tracer->added, (tracer->added_count + 1) * sizeof *grown);
        is_there = grown != NULL;
        if (is_there) {
            tracer->added = grown;
            tracer->added[tracer->added_count++] = event;
            set_claim(event, tracer->slot, claim);
        }
    }
    pthread_mutex_unlock(&claiming);
    return is_there;
}

void event_goes(body *tracer, dspec_event *event) {
    pthread_mutex_lock(&claiming);
    for (size_t at = tracer->added_count; at-- > 0;) {
        if (tracer->added[at] != event) continue;
        set_claim(event, tracer->slot, 0);
        tracer->added[at] = tracer->added[--tracer->added_count];
    }
    pthread_mutex_unlock(&claiming);
}

void events_forget(body *tracer) {
    pthread_mutex_lock(&claiming);
    for (uint32_t i = 0; tracer->events != NULL && tracer->events[i] != NULL; i++) set_claim(tracer->events[i]->event, tracer->slot, 0);
    for (size_t i = 0; i < tracer->added_count; i++) set_claim(tracer->added[i], tracer->slot, 0);
    tracer->added_count = 0;
    pthread_mutex_unlock(&claiming);
}

/* claim: what its records claim (dspec_put). */
static dspec_status enable(body *tracer, const dspec_enabling *enabling, uint64_t *claim, struct naming *naming) {
    uint32_t epid, signature;
    uint8_t widths[DSPEC_MAX_FIELDS + 1];
    size_t n;
    dspec_status status;
    enabling_widths(enabling, widths, &n);
    status = dspec_probe_enable(&tracer->layout, &tracer->schema, widths, n, &epid, &signature);
    if (status != DSPEC_OK) return status;
    *claim = (uint64_t)signature << 32 | epid;
    dspec_names_event(&naming->names, escaped(naming, enabling->name, false));
    dspec_names_wide(&naming->names, "dspec_path", DSPEC_KIND_UNSIGNED, 4);
    for (size_t i = 0; i < enabling->n; i++) {
        dspec_names_wide(&naming->names, escaped(naming, enabling->fields[i], true), enabling->kinds[i], enabling->widths[i]);
        if (enabling->labels != NULL) dspec_names_labels(&naming->names, enabling->labels[i]);
    }
    return DSPEC_OK;
}

/* The tracer's own events. */
#define U DSPEC_KIND_UNSIGNED
#define S DSPEC_KIND_SIGNED
#define T DSPEC_KIND_TEXT
static const char *const why_texts[] = { "kept", "failed", "slow", "asked", "sampled", "crash", "undecided", "signal", "key" };
enum { OWN_CRASH = 0, OWN_PLACE = 1, OWN_PATH = 2, OWN_THREAD = 3, OWN_COUNTS = 4, OWN_REFUSED = 5, OWN_SIGNAL = 6, OWN_UNSAVED = 7, OWN_PARKED = 8 };
static const char *const crash_fields[] = { "signal", "code", "thread", "address", "pc", "paths", "stuck" };
static const char *const place_fields[] = { "frame", "offset", "file" };
static const char *const path_fields[] = { "thread", "by", "cut", "why", "begun", "key_high", "key_low" };
static const char *const thread_fields[] = { "thread", "name" };
static const char *const counts_fields[] = { "kept", "thrown" };
static const char *const refused_fields[] = { "paths", "records", "waited", "missing" };
static const char *const signal_fields[] = { "signal", "code", "sender", "user", "thread", "paths", "stuck" };
static const char *const unsaved_fields[] = { "threads" };
static const char *const parked_fields[] = { "parked", "kept", "evicted", "expired", "missed", "refused", "least_ms" };
static const dspec_enabling own[] = {
    { NULL, "dspec_crash", crash_fields, (const uint8_t[]){ 4, 4, 4, 8, 8, 4, 4 }, (const uint8_t[]){ S, S, U, U, U, U, U }, 7, NULL, NULL },
    { NULL, "dspec_crash_at", place_fields, (const uint8_t[]){ 4, 8, 40 }, (const uint8_t[]){ U, U, T }, 3, NULL, NULL },
    { NULL, "dspec_kept", path_fields, (const uint8_t[]){ 4, 4, 4, 4, 8, 8, 8 }, (const uint8_t[]){ U, U, U, U, U, U, U }, 7, NULL, NULL },
    { NULL, "dspec_thread", thread_fields, (const uint8_t[]){ 4, 16 }, (const uint8_t[]){ U, T }, 2, NULL, NULL },
    { NULL, "dspec_counts", counts_fields, (const uint8_t[]){ 8, 8 }, (const uint8_t[]){ U, U }, 2, NULL, NULL },
    { NULL, "dspec_refused", refused_fields, (const uint8_t[]){ 8, 8, 8, 8 }, (const uint8_t[]){ U, U, U, U }, 4, NULL, NULL },
    { NULL, "dspec_signal", signal_fields, (const uint8_t[]){ 4, 4, 4, 4, 4, 4, 4 }, (const uint8_t[]){ S, S, S, U, U, U, U }, 7, NULL, NULL },
    { NULL, "dspec_unsaved", unsaved_fields, (const uint8_t[]){ 8 }, (const uint8_t[]){ U }, 1, NULL, NULL },
    { NULL, "dspec_parked", parked_fields, (const uint8_t[]){ 8, 8, 8, 8, 8, 8, 8 }, (const uint8_t[]){ U, U, U, U, U, U, U }, 7, NULL, NULL },
};
const dspec_enabling *const own_events[] = { &own[0], &own[1], &own[2], &own[3], &own[4], &own[5], &own[6], &own[7], &own[8], NULL };

/* The last one is there with park_bytes. */
size_t own_count(const dspec_tracer_options *options) { return options->park_bytes > 0 ? OWN_PARKED + 1 : OWN_PARKED; }

void enabling_widths(const dspec_enabling *enabling, uint8_t widths[DSPEC_MAX_FIELDS + 1], size_t *n) {
    size_t count = 0;
    widths[count++] = 4;
    for (size_t i = 0; i < enabling->n && count <= DSPEC_MAX_FIELDS; i++) widths[count++] = enabling->widths[i];
    *n = count;
}

/* What the numbers of `why` are called: the tracer's, and after them the program's. */
static void name_whys(body *tracer) {
    const dspec_labels *more = tracer->options.whys;
    for (tracer->why_count = 0; tracer->why_count < DSPEC_WHY_OWN; tracer->why_count++) tracer->why_texts[tracer->why_count] = why_texts[tracer->why_count];
    for (size_t i = 0; more != NULL && more->count != NULL && i < *more->count && tracer->why_count < MAX_WHYS; i++) tracer->why_texts[tracer->why_count++] = more->texts[i];
    tracer->whys = (dspec_labels){ tracer->why_texts, &tracer->why_count };
}

static dspec_status enable_own(body *tracer, struct naming *naming) {
    uint64_t claims[sizeof own / sizeof own[0]] = { 0 };
    dspec_status status = DSPEC_OK;
    name_whys(tracer);
    tracer->labels[3] = &tracer->whys;
    for (size_t i = 0; i < own_count(&tracer->options) && status == DSPEC_OK; i++) {
        dspec_enabling enabling = own[i];
        if (i == OWN_PATH) enabling.labels = tracer->labels;
        status = enable(tracer, &enabling, &claims[i], naming);
    }
    tracer->epid_of_crash = (uint32_t)claims[OWN_CRASH];
    tracer->epid_of_place = (uint32_t)claims[OWN_PLACE];
    tracer->epid_of_signal = (uint32_t)claims[OWN_SIGNAL];
    tracer->epid_of_unsaved = (uint32_t)claims[OWN_UNSAVED];
    tracer->claim_of_path = claims[OWN_PATH];
    tracer->claim_of_thread = claims[OWN_THREAD];
    tracer->claim_of_counts = claims[OWN_COUNTS];
    tracer->claim_of_refused = claims[OWN_REFUSED];
    tracer->claim_of_parked = claims[OWN_PARKED];
    return status;
}

/* The events that the tracer was handed, each with what its records claim in this tracer. */
dspec_status enable_all(body *tracer, const dspec_enabling *const *events, struct naming *naming) {
    dspec_status status = dspec_schema_new(&tracer->schema);
    if (status == DSPEC_OK) status = dspec_schema_stamp(&tracer->schema);
    tracer->layout.stamped = true;
    for (size_t i = 0; status == DSPEC_OK && events[i] != NULL; i++) {
        uint64_t claim = 0;
        status = enable(tracer, events[i], &claim, naming);
        if (status != DSPEC_OK) break;
        tracer->events[i] = events[i];
        tracer->claims[i] = claim;
        event_claims(events[i]->event, tracer->slot, claim);
    }
    if (status == DSPEC_OK) status = enable_own(tracer, naming);
    return status;
}
