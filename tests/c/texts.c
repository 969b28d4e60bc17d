/* Texts as fields: each length in each size, put without a byte read after its end; cuts at a character's border; what a probe reads back is what was recorded, cut; and
 * a trace that says them. The folder is looked at by tests/c/run, which has babeltrace2. */
#define _GNU_SOURCE
#include "check.h"
#include "dspec_ctf.h"
#include "dspec_probe.h"

#include <sys/mman.h>
#include <unistd.h>

DSPEC_PROBE(query, uint64_t, request, dspec_text32, sql);
DSPEC_PROBE(mixed, uint8_t, a, dspec_text8, b, uint16_t, c, dspec_text24, d, bool, e, double, f);
DSPEC_PROBE(most, dspec_text16, a, dspec_text48, b);
DSPEC_PROBE(largest, dspec_text40, a, dspec_text24, b);

/* A page, and after it one that nobody may read: texts end where it begins. */
static char *page_end;

static void make_page(void) {
    const size_t size = (size_t)sysconf(_SC_PAGESIZE);
    char *at = mmap(NULL, 2 * size, PROT_READ | PROT_WRITE, MAP_PRIVATE | MAP_ANONYMOUS, -1, 0);
    if (at == MAP_FAILED || mprotect(at + size, size, PROT_NONE) != 0) exit(2);
    page_end = at + size;
}

/* What a text of so many bytes is, by hand. */
static void due_text(char *due, size_t size, const char *bytes, size_t len) {
    size_t cut = size;
    memset(due, 0, size);
    memcpy(due, bytes, len < size ? len : size);
    if (len <= size) return;
    for (size_t back = 0; back <= 3; back++) {
        if (((uint8_t)bytes[size - back] & 0xc0) == 0x80) continue;
        cut = size - back;
        break;
    }
    memset(due + cut, '.', size - cut);
}

static bool is_due(const void *text, size_t size, const char *bytes, size_t len, dspec_text in, bool whole) {
    char due[DSPEC_MAX_TEXT + 1] = { 0 };
    due_text(due, size, bytes, len);
    return memcmp(text, due, size) == 0 && in.bytes == text && in.len == strlen(due) && whole == (due[size - 1] == 0);
}

#define IS_DUE(BYTES, AT, LEN)                                                                                          \
    do {                                                                                                                \
        const dspec_text##BYTES text_ = dspec_text##BYTES##_of((AT), (LEN));                                            \
        CHECK(is_due(&text_, BYTES, (AT), (LEN), dspec_text##BYTES##_in(&text_), dspec_text##BYTES##_whole(&text_)));   \
    } while (0)

/* These bytes, of which each end stands once before the page that can't be read, in each size. */
static void is_put(const char *bytes, size_t len) {
    char *at = page_end - len;
    memcpy(at, bytes, len);
    IS_DUE(8, at, len);
    IS_DUE(16, at, len);
    IS_DUE(24, at, len);
    IS_DUE(32, at, len);
    IS_DUE(40, at, len);
    IS_DUE(48, at, len);
}

static void lengths(void) {
    char letters[64];
    for (size_t i = 0; i < sizeof letters; i++) letters[i] = (char)('A' + i % 26);
    for (size_t len = 0; len <= sizeof letters; len++) is_put(letters, len);
    memset(letters, 0xff, sizeof letters);
    for (size_t len = 0; len <= sizeof letters; len++) is_put(letters, len);
}

/* Characters of 2, 3 and 4 bytes, of which one stands across each border; and bytes that are no UTF-8. */
static void borders(void) {
    static const char *const characters[] = { "\xc3\xa4", "\xe2\x82\xac", "\xf0\x9f\x99\x82", "\x80", "a\x80\x80\x80\x80" };
    for (size_t i = 0; i < sizeof characters / sizeof characters[0]; i++) {
        const size_t width = strlen(characters[i]);
        for (size_t shift = 0; shift < width; shift++) {
            char text[70] = "xxxxx";
            size_t len = shift;
            for (; len + width <= 60; len += width) memcpy(text + len, characters[i], width);
            is_put(text, len);
        }
    }
    {
        const dspec_text8 text = dspec_text8_of("1234567\xe2\x82\xac", 10), full = dspec_text8_of("12345678", 8), less = dspec_text8_of("1234567", 7);
        CHECK(memcmp(&text, "1234567.", 8) == 0 && !dspec_text8_whole(&text));
        CHECK(!dspec_text8_whole(&full) && dspec_text8_in(&full).len == 8);
        CHECK(dspec_text8_whole(&less) && dspec_text8_in(&less).len == 7);
    }
}

/* ---- Records. ---- */

typedef struct lane {
    dspec_layout layout;
    dspec_schema schema;
    query_probe query;
    mixed_probe mixed;
    most_probe most;
    largest_probe largest;
    dspec_session session;
    dspec_cpu cpu;
    dspec_consumer consumer;
    dspec_closed closed;
} lane;

static void start(lane *l) {
    const dspec_config config = { .cpus = 1, .nspec = 1, .bufsize = 65536, .specsize = 4096, .max_issues = DSPEC_MAX_ISSUES, .max_calls = DSPEC_MAX_CALLS };
    *l = (lane){ .layout = { .stamped = true } };
    MUST(dspec_schema_new(&l->schema));
    MUST(dspec_schema_stamp(&l->schema));
    MUST(query_enable(&l->query, &l->layout, &l->schema));
    MUST(mixed_enable(&l->mixed, &l->layout, &l->schema));
    MUST(most_enable(&l->most, &l->layout, &l->schema));
    MUST(largest_enable(&l->largest, &l->layout, &l->schema));
    MUST(dspec_start(&config, &l->schema, &l->session));
    MUST(dspec_cpu_of(&l->session, 0, &l->cpu));
    MUST(dspec_consumer_of(&l->session, &l->consumer));
}

static void end(lane *l) {
    MUST(dspec_cpu_home(&l->cpu));
    MUST(dspec_consumer_home(&l->consumer));
    MUST(dspec_finish(&l->session, &l->closed));
}

static bool is_text(dspec_text text, const char *due) { return text.len == strlen(due) && memcmp(text.bytes, due, text.len) == 0; }

static void records(lane *l) {
    const dspec_text24 d = dspec_text24_of("two words and a half", 20);
    uint64_t id;
    uint32_t count;
    CHECK(l->layout.of[0].fields == 5 && l->layout.of[1].fields == 8 && l->layout.of[2].fields == 8 && l->layout.of[3].fields == 8);
    CHECK(l->query.fields == 0x88888 && l->mixed.fields == 0x81888281);
    ANSWERS(query_trace(&l->query, &l->cpu, 1, 7, dspec_text32_of("select * from visits", 20)), DSPEC_OK);
    MUST(dspec_speculation(&l->cpu, &id));
    ANSWERS(mixed_speculate(&l->mixed, &l->cpu, id, 2, 255, dspec_text8_of("", 0), 65535, d, true, -0.5), DSPEC_OK);
    ANSWERS(most_speculate(&l->most, &l->cpu, id, 3, dspec_text16_of("sixteen letters.", 16), dspec_text48_of("a text that has far more than forty-eight letters of ASCII", 58)), DSPEC_OK);
    MUST(dspec_commit(&l->cpu, id, &count));
    ANSWERS(largest_trace(&l->largest, &l->cpu, 4, dspec_text40_of("forty", 5), dspec_text24_of("\"quoted\"\n\\", 10)), DSPEC_OK);
}

static void read_back(lane *l) {
    dspec_batch batch;
    dspec_record one;
    size_t at = 0;
    query_values query;
    mixed_values mixed;
    most_values most;
    largest_values largest;
    MUST(dspec_rest(&l->closed, 0, true, &batch));
    CHECK(dspec_read(&l->layout, batch.bytes, batch.len, &at, &one) == DSPEC_READ && query_read(&l->query, &one, &query) && !mixed_read(&l->mixed, &one, &mixed));
    CHECK(query.request == 7 && is_text(dspec_text32_in(&query.sql), "select * from visits"));
    CHECK(dspec_read(&l->layout, batch.bytes, batch.len, &at, &one) == DSPEC_READ && mixed_read(&l->mixed, &one, &mixed));
    CHECK(mixed.a == 255 && is_text(dspec_text8_in(&mixed.b), "") && mixed.c == 65535 && is_text(dspec_text24_in(&mixed.d), "two words and a half") && mixed.e && mixed.f == -0.5);
    CHECK(dspec_read(&l->layout, batch.bytes, batch.len, &at, &one) == DSPEC_READ && most_read(&l->most, &one, &most));
    CHECK(is_text(dspec_text16_in(&most.a), "sixteen letters.") && is_text(dspec_text48_in(&most.b), "a text that has far more than forty-eight letter"));
    CHECK(dspec_read(&l->layout, batch.bytes, batch.len, &at, &one) == DSPEC_READ && largest_read(&l->largest, &one, &largest));
    CHECK(is_text(dspec_text40_in(&largest.a), "forty") && is_text(dspec_text24_in(&largest.b), "\"quoted\"\n\\"));
    CHECK(dspec_read(&l->layout, batch.bytes, batch.len, &at, &one) == DSPEC_READ_ALL);
}

/* A text has one name, and a kind for each eight bytes. */
static void names(dspec_names *names) {
    query_name(names);
    mixed_name(names);
    CHECK(names->count == 3 + 7 && names->kind_count == 5 + 8 && !names->over);
    CHECK(memcmp(names->kinds, (const uint8_t[]){ 0, 3, 4, 4, 4, 0, 3, 0, 3, 4, 4, 0, 2 }, 13) == 0);
    most_name(names);
    largest_name(names);
}

/* ---- Labels. ---- */

DSPEC_PROBE(reply, uint64_t, request, uint8_t, outcome, float, part, dspec_text8, name, int16_t, state);
DSPEC_LABELS(reply, outcome, "done", "aborted", "slow");
DSPEC_LABELS(reply, part, "no float has one");
DSPEC_LABELS(reply, name, "no text has one");
DSPEC_PROBE(step, uint32_t, place, uint64_t, other);
static dspec_literals places;
DSPEC_LITERALS(step, place, places);

static void literals(void) {
    static dspec_literals full;
    static char texts[DSPEC_MAX_LITERALS + 1][8];
    for (uint32_t i = 0; i <= DSPEC_MAX_LITERALS; i++) {
        snprintf(texts[i], sizeof texts[i], "%u", (unsigned)i);
        CHECK(dspec_literal(&full, texts[i]) == i);
    }
    CHECK(full.count == DSPEC_MAX_LITERALS && dspec_literal(&full, "7") == 7);
    CHECK(dspec_literal(&places, "parse.c") == 0 && dspec_literal(&places, "emit.c") == 1 && dspec_literal(&places, "parse.c") == 0);
}

/* The lines of a metadata in front of the labels, and after them; each byte of room that is wanting is only counted. */
static void labels(void) {
    static const char text[] = "trace {\n\tmajor = 1;\n};\n\nevent {\n\tname = \"reply\";\n\tfields := struct {\n\t\tuint64_t request;\n\t\tuint8_t outcome;\n"
                               "\t\tfloating_point { align = 8; } part;\n\t\tinteger { size = 8; } name[8];\n\t\tinteger { size = 16; } state;\n\t};\n};\n"
                               "\nevent {\n\tname = \"step\";\n\tfields := struct {\n\t\tuint32_t place;\n\t\tuint64_t other;\n\t};\n};\n";
    static const char due[] = "trace {\n\tmajor = 1;\n};\n\nevent {\n\tname = \"reply\";\n\tfields := struct {\n\t\tuint64_t request;\n"
                              "\t\tenum : uint8_t { \"done\" = 0, \"aborted\" = 1, \"slow\" = 2, } outcome;\n"
                              "\t\tfloating_point { align = 8; } part;\n\t\tinteger { size = 8; } name[8];\n\t\tinteger { size = 16; } state;\n\t};\n};\n"
                              "\nevent {\n\tname = \"step\";\n\tfields := struct {\n\t\tenum : uint32_t { \"parse.c\" = 0, \"emit.c\" = 1, } place;\n\t\tuint64_t other;\n\t};\n};\n";
    static dspec_names names, none;
    char room[1024] = { 0 };
    reply_name(&names);
    step_name(&names);
    CHECK(dspec_labels_put(&names, text, sizeof text - 1, room, sizeof room) == sizeof due - 1 && strcmp(room, due) == 0);
    CHECK(dspec_labels_put(&none, text, sizeof text - 1, room, sizeof room) == sizeof text - 1 && memcmp(room, text, sizeof text - 1) == 0);
    for (size_t size = 0; size < sizeof due - 1; size++) {
        memset(room, '?', sizeof room);
        CHECK(dspec_labels_put(&names, text, sizeof text - 1, room, size) == sizeof due - 1 && room[size] == '?');
    }
}

/* A label that can't be shown is told as its field's name. */
static void bad_labels(const char *path) {
    static char longest[257];
    static const char *bad[] = { "", "a \"quoted\" one", "back\\slash", "two\nlines", "\xc3\xa4", longest };
    const dspec_labels ones[] = { { &bad[0], &(size_t){ 1 } }, { &bad[1], &(size_t){ 1 } }, { &bad[2], &(size_t){ 1 } }, { &bad[3], &(size_t){ 1 } }, { &bad[4], &(size_t){ 1 } }, { &bad[5], &(size_t){ 1 } } };
    dspec_schema schema = DSPEC_EMPTY;
    dspec_identity identity;
    char host[DSPEC_HOST_SIZE];
    uint32_t epid;
    memset(longest, 'x', 256);
    CHECK(dspec_identity_of_system(&identity, "labels", host));
    MUST(dspec_schema_new(&schema));
    MUST(dspec_schema_stamp(&schema));
    MUST(dspec_schema_enable(&schema, (const uint8_t[]){ 4 }, 1, &epid));
    for (size_t i = 0; i < sizeof ones / sizeof ones[0]; i++) {
        static dspec_folder folder;
        dspec_names names = { .count = 0 };
        dspec_names_event(&names, "event_of_one");
        dspec_names_field(&names, "which", DSPEC_KIND_UNSIGNED);
        dspec_names_labels(&names, &ones[i]);
        CHECK(!dspec_folder_begin(&folder, path, &schema, 1, &identity, &names) && folder.last.status == DSPEC_BAD_NAME);
        CHECK(strncmp(dspec_folder_why(&folder), "which: a label that isn't", 25) == 0 && access(path, F_OK) != 0);
    }
    longest[255] = 0;
    CHECK(dspec_label_is_shown(longest));
    dspec_schema_drop(&schema);
}

/* A record whose text is one of these, in a trace of its own: a text of 0 bytes, quotes, newlines, characters that are cut, bytes that are no UTF-8. */
static void texts(lane *l) {
    static const char *const all[] = {
        "", "a \"quoted\" name", "two\nlines", "back\\slash", "\xe2\x82\xac\xe2\x82\xac\xe2\x82\xac\xe2\x82\xac\xe2\x82\xac\xe2\x82\xac\xe2\x82\xac\xe2\x82\xac\xe2\x82\xac\xe2\x82\xac\xe2\x82\xac", "\xff\xfe no UTF-8 \x80",
        "exactly thirty-two letters, here", "a tab\t and a bell\a",
    };
    for (size_t i = 0; i < sizeof all / sizeof all[0]; i++) ANSWERS(query_trace(&l->query, &l->cpu, 10 + i, i, dspec_text32_of(all[i], strlen(all[i]))), DSPEC_OK);
}

/* A trace with all these in a folder. */
static void folder(const char *path) {
    static dspec_folder folder;
    static dspec_names all;
    dspec_identity identity;
    char host[DSPEC_HOST_SIZE];
    lane l;
    names(&all);
    CHECK(dspec_identity_of_system(&identity, "texts", host));
    start(&l);
    if (!CHECK(dspec_folder_begin(&folder, path, &l.schema, 1, &identity, &all))) printf("%s\n", dspec_folder_why(&folder));
    records(&l);
    texts(&l);
    end(&l);
    CHECK(dspec_folder_close(&folder, &l.layout, &l.closed));
    dspec_closed_drop(&l.closed);
    dspec_schema_drop(&l.schema);
}

int main(int argc, char **argv) {
    lane l;
    make_page();
    lengths();
    borders();
    start(&l);
    records(&l);
    end(&l);
    read_back(&l);
    dspec_closed_drop(&l.closed);
    dspec_schema_drop(&l.schema);
    literals();
    labels();
    if (argc > 1) bad_labels(argv[1]);
    if (argc > 1) folder(argv[1]);
    return check_end();
}
