/* One call many times, for a tool that counts instructions: `c_cost WAY BYTES NUMBER` takes a way by so many records of 4, 8 or 24
 * bytes. The ways: traced, dropped (no room is left), speculated, committed (paths of 20 records, each opened and committed), fired (by a
 * typed probe, of 8 and 24 bytes), walked (paths of 20 by a typed probe), and, of no record, service, report, ask, round (ask, service, take, give
 * back), and refused (an empty handle). Those of a typed probe with fields of eight bytes, which have 16 or 40 of them: numbers (two or five), text
 * (one, and a text of 32 bytes that is made of so many as TEXT_BYTES says), texts (the same in paths of 20), and pairs (numbers in paths of 20). Of a
 * record with a stamp in a batch of 1,000, which dspec_folder_take writes into a new folder below FOLDER: folder, and bounded (with a bound). It
 * prints how many calls were answered DSPEC_OK, or how many records were written. */
#include "dspec_ctf.h"
#include "dspec_probe.h"

#include <stdio.h>
#include <stdlib.h>
#include <string.h>

enum { PATH = 20, BATCH = 1000 };

typedef struct lane {
    dspec_cpu cpu;
    dspec_consumer consumer;
    uint32_t epid;
    size_t n;
    uint64_t id;
    const char *bytes;
    size_t len;
} lane;

DSPEC_PROBE(narrow, uint32_t, a);
DSPEC_PROBE(wide, uint8_t, a, uint16_t, b, uint32_t, c, uint64_t, d);
DSPEC_PROBE(two, uint64_t, a, uint64_t, b);
DSPEC_PROBE(five, uint64_t, a, uint64_t, b, uint64_t, c, uint64_t, d, uint64_t, e);
DSPEC_PROBE(query, uint64_t, request, dspec_text32, sql);

static const uint64_t values[] = { 1, 2, 3, 4 };
static const char letters[] = "select page, visits from counts where day = 7 order by visits";

static void must(dspec_status status) {
    if (status == DSPEC_OK) return;
    fprintf(stderr, "c_cost: %s\n", dspec_status_text(status));
    exit(1);
}

static void start(lane *l, const char *bytes) {
    static const uint8_t four[] = { 4 }, all[] = { 1, 2, 4, 8 }, eights[] = { 8, 8, 8, 8, 8 };
    const char *text_bytes = getenv("TEXT_BYTES");
    static dspec_session session;
    dspec_schema schema = DSPEC_EMPTY;
    const dspec_config config = {
        .cpus = 1, .nspec = 32, .bufsize = DSPEC_MAX_BUFFER, .specsize = DSPEC_MAX_BUFFER,
        .max_issues = DSPEC_MAX_ISSUES, .max_calls = DSPEC_MAX_CALLS, .policy = DSPEC_POLICY_SWITCH,
    };
    l->n = strcmp(bytes, "24") == 0 ? 4 : strcmp(bytes, "8") == 0 ? 1 : strcmp(bytes, "16") == 0 ? 2 : strcmp(bytes, "40") == 0 ? 5 : 0;
    l->bytes = letters;
    l->len = text_bytes == NULL ? 0 : (size_t)atol(text_bytes);
    must(dspec_schema_new(&schema));
    must(dspec_schema_enable(&schema, l->n == 4 ? all : l->n == 1 ? four : eights, l->n, &l->epid));
    must(dspec_start(&config, &schema, &session));
    must(dspec_cpu_of(&session, 0, &l->cpu));
    must(dspec_consumer_of(&session, &l->consumer));
}

static long traced(lane *l, long number) {
    long kept = 0;
    for (long i = 0; i < number; i++) kept += dspec_trace(&l->cpu, l->epid, 0, values, l->n) == DSPEC_OK;
    return kept;
}

static long dropped(lane *l, long number) {
    while (dspec_trace(&l->cpu, l->epid, 0, values, l->n) == DSPEC_OK) continue;
    return traced(l, number);
}

static long speculated(lane *l, long number) {
    long kept = 0;
    must(dspec_speculation(&l->cpu, &l->id));
    for (long i = 0; i < number; i++) kept += dspec_speculate(&l->cpu, l->id, l->epid, 0, values, l->n) == DSPEC_OK;
    return kept;
}

static long committed(lane *l, long number) {
    uint32_t count;
    long kept = 0;
    for (long i = 0; i < number; i += PATH) {
        kept += speculated(l, PATH);
        must(dspec_commit(&l->cpu, l->id, &count));
    }
    return kept;
}

/* The probes have the EPID of the record that was enabled. */
__attribute__((noinline)) static dspec_status fire_8(lane *l, uint32_t a) {
    const narrow_probe probe = { l->epid, 0x4 };
    return narrow_trace(&probe, &l->cpu, 0, a);
}

__attribute__((noinline)) static dspec_status fire_24(lane *l, uint8_t a, uint16_t b, uint32_t c, uint64_t d) {
    const wide_probe probe = { l->epid, 0x8421 };
    return wide_trace(&probe, &l->cpu, 0, a, b, c, d);
}

static long fired(lane *l, long number) {
    long kept = 0;
    for (long i = 0; i < number; i++) kept += (l->n == 4 ? fire_24(l, 1, 2, 3, 4) : fire_8(l, 1)) == DSPEC_OK;
    return kept;
}

__attribute__((noinline)) static dspec_status walk_8(lane *l, uint32_t a) {
    const narrow_probe probe = { l->epid, 0x4 };
    return narrow_speculate(&probe, &l->cpu, l->id, 0, a);
}

__attribute__((noinline)) static dspec_status walk_24(lane *l, uint8_t a, uint16_t b, uint32_t c, uint64_t d) {
    const wide_probe probe = { l->epid, 0x8421 };
    return wide_speculate(&probe, &l->cpu, l->id, 0, a, b, c, d);
}

static long walked(lane *l, long number) {
    uint32_t count;
    long kept = 0;
    for (long i = 0; i < number; i += PATH) {
        must(dspec_speculation(&l->cpu, &l->id));
        for (long k = 0; k < PATH; k++) kept += (l->n == 4 ? walk_24(l, 1, 2, 3, 4) : walk_8(l, 1)) == DSPEC_OK;
        must(dspec_commit(&l->cpu, l->id, &count));
    }
    return kept;
}

__attribute__((noinline)) static dspec_status fire_two(lane *l, uint64_t a, uint64_t b) {
    const two_probe probe = { l->epid, 0x88 };
    return two_trace(&probe, &l->cpu, 0, a, b);
}

__attribute__((noinline)) static dspec_status fire_five(lane *l, uint64_t a, uint64_t b, uint64_t c, uint64_t d, uint64_t e) {
    const five_probe probe = { l->epid, 0x88888 };
    return five_trace(&probe, &l->cpu, 0, a, b, c, d, e);
}

static long numbers(lane *l, long number) {
    long kept = 0;
    for (long i = 0; i < number; i++) kept += (l->n == 5 ? fire_five(l, l->id, l->id, l->id, l->id, l->id) : fire_two(l, l->id, l->id)) == DSPEC_OK;
    return kept;
}

__attribute__((noinline)) static dspec_status fire_text(lane *l, uint64_t request, const char *bytes, size_t len) {
    const query_probe probe = { l->epid, 0x88888 };
    return query_trace(&probe, &l->cpu, 0, request, dspec_text32_of(bytes, len));
}

static long text(lane *l, long number) {
    long kept = 0;
    for (long i = 0; i < number; i++) kept += fire_text(l, l->id, l->bytes, l->len) == DSPEC_OK;
    return kept;
}

__attribute__((noinline)) static dspec_status walk_two(lane *l, uint64_t a, uint64_t b) {
    const two_probe probe = { l->epid, 0x88 };
    return two_speculate(&probe, &l->cpu, l->id, 0, a, b);
}

__attribute__((noinline)) static dspec_status walk_five(lane *l, uint64_t a, uint64_t b, uint64_t c, uint64_t d, uint64_t e) {
    const five_probe probe = { l->epid, 0x88888 };
    return five_speculate(&probe, &l->cpu, l->id, 0, a, b, c, d, e);
}

static long pairs(lane *l, long number) {
    uint32_t count;
    long kept = 0;
    for (long i = 0; i < number; i += PATH) {
        must(dspec_speculation(&l->cpu, &l->id));
        for (long k = 0; k < PATH; k++) kept += (l->n == 5 ? walk_five(l, l->id, l->id, l->id, l->id, l->id) : walk_two(l, l->id, l->id)) == DSPEC_OK;
        must(dspec_commit(&l->cpu, l->id, &count));
    }
    return kept;
}

__attribute__((noinline)) static dspec_status walk_text(lane *l, uint64_t request, const char *bytes, size_t len) {
    const query_probe probe = { l->epid, 0x88888 };
    return query_speculate(&probe, &l->cpu, l->id, 0, request, dspec_text32_of(bytes, len));
}

static long texts(lane *l, long number) {
    uint32_t count;
    long kept = 0;
    for (long i = 0; i < number; i += PATH) {
        must(dspec_speculation(&l->cpu, &l->id));
        for (long k = 0; k < PATH; k++) kept += walk_text(l, l->id, l->bytes, l->len) == DSPEC_OK;
        must(dspec_commit(&l->cpu, l->id, &count));
    }
    return kept;
}

static long served(lane *l, long number) {
    bool sealed;
    uint32_t settled;
    long well = 0;
    for (long i = 0; i < number; i++) well += dspec_service(&l->cpu, &sealed, &settled) == DSPEC_OK;
    return well;
}

static long reported(lane *l, long number) {
    dspec_report report;
    long well = 0;
    for (long i = 0; i < number; i++) well += dspec_cpu_report(&l->cpu, &report) == DSPEC_OK;
    return well;
}

static long asked(lane *l, long number) {
    long well = 0;
    for (long i = 0; i < number; i++) well += dspec_ask(&l->consumer, 0) == DSPEC_OK;
    return well;
}

/* A batch on its way to the consumer and back. */
static long rounds(lane *l, long number) {
    dspec_batch batch;
    bool sealed;
    uint32_t settled;
    long well = 0;
    for (long i = 0; i < number; i++) {
        must(dspec_ask(&l->consumer, 0));
        must(dspec_service(&l->cpu, &sealed, &settled));
        well += dspec_take(&l->consumer, 0, &batch) == DSPEC_OK;
        must(dspec_give_back(&l->consumer, 0));
    }
    return well;
}

/* One batch is written again and again, so all its records have one stamp: those of a file may not go back. */
static long written(lane *l, long number, uint64_t bound) {
    static const uint8_t widths[] = { 1, 2, 4, 8 };
    static dspec_folder folder;
    static dspec_layout layout = { .stamped = true };
    dspec_schema schema = DSPEC_EMPTY;
    lane own = { .n = l->n };
    const dspec_config config = dspec_config_of_cpus(1);
    char host[DSPEC_HOST_SIZE], path[4096];
    dspec_identity identity;
    dspec_session session = DSPEC_EMPTY;
    dspec_batch batch;
    bool sealed;
    uint32_t settled;
    must(dspec_schema_new(&schema));
    must(dspec_schema_stamp(&schema));
    must(dspec_layout_enable(&layout, &schema, l->n == 4 ? widths : widths + 2, l->n, &own.epid));
    must(dspec_start(&config, &schema, &session));
    must(dspec_cpu_of(&session, 0, &own.cpu));
    must(dspec_consumer_of(&session, &own.consumer));
    if (traced(&own, BATCH) != BATCH || !dspec_identity_of_system(&identity, "c_cost", host)) exit(1);
    must(dspec_ask(&own.consumer, 0));
    must(dspec_service(&own.cpu, &sealed, &settled));
    must(dspec_take(&own.consumer, 0, &batch));
    snprintf(path, sizeof path, "%s/%ld", getenv("FOLDER"), (long)getpid());
    if (bound > 0) dspec_folder_limit(&folder, bound, 2);
    if (!dspec_folder_begin(&folder, path, &schema, 1, &identity, NULL)) exit(1);
    for (long i = 0; i < number; i += BATCH)
        if (!dspec_folder_take(&folder, &layout, &batch)) exit(1);
    return (long)folder.parts[0].records;
}

static long into_folder(lane *l, long number) { return written(l, number, 0); }

static long into_bounded(lane *l, long number) { return written(l, number, UINT64_C(1) << 30); }

static long refused(lane *l, long number) {
    lane none = { .epid = l->epid, .n = l->n };
    return traced(&none, number);
}

static const struct way {
    const char *name;
    long (*take)(lane *l, long number);
} ways[] = {
    { "traced", traced }, { "dropped", dropped }, { "speculated", speculated }, { "committed", committed },
    { "fired", fired }, { "walked", walked }, { "numbers", numbers }, { "text", text }, { "pairs", pairs }, { "texts", texts }, { "round", rounds },
    { "service", served }, { "report", reported }, { "ask", asked }, { "refused", refused },
    { "folder", into_folder }, { "bounded", into_bounded },
};

int main(int argc, char **argv) {
    lane l = { .epid = 0 };
    for (size_t i = 0; argc == 4 && i < sizeof ways / sizeof *ways; i++) {
        if (strcmp(argv[1], ways[i].name) != 0) continue;
        start(&l, argv[2]);
        printf("%ld\n", ways[i].take(&l, atol(argv[3])));
        return 0;
    }
    fputs("usage: c_cost WAY BYTES NUMBER\n", stderr);
    return 2;
}
