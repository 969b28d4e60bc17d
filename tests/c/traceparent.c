/* The header `traceparent`: the examples of W3C's recommendation, each rule of it broken by itself, later versions, and what is written. */
#include "check.h"

#include "dspec_traceparent.h"

/* The recommendation's example. */
#define TRACE "4bf92f3577b34da6a3ce929d0e0e4736"
#define PARENT "00f067aa0ba902b7"

static const dspec_traceparent example = { .trace_high = UINT64_C(0x4bf92f3577b34da6), .trace_low = UINT64_C(0xa3ce929d0e0e4736), .parent = UINT64_C(0x00f067aa0ba902b7), .flags = 1 };

static bool is_same(const dspec_traceparent *one, const dspec_traceparent *other) {
    return one->trace_high == other->trace_high && one->trace_low == other->trace_low && one->parent == other->parent && one->flags == other->flags;
}

/* From memory of just so many bytes, so that a sanitizer sees a read after them. */
static bool reads(const char *text, size_t length, dspec_traceparent *to) {
    char *copy = malloc(length > 0 ? length : 1);
    bool is_one;
    if (copy == NULL) exit(2);
    memcpy(copy, text, length);
    is_one = dspec_traceparent_parse(copy, length, to);
    free(copy);
    return is_one;
}

static void is_read(const char *text, uint8_t flags, int line) {
    dspec_traceparent read = { .trace_high = 0 }, due = example;
    due.flags = flags;
    check_counts(reads(text, strlen(text), &read) && is_same(&read, &due), text, line);
}

/* It isn't one, and what it would have been read into stays. */
static void is_refused(const char *text, int line) {
    const dspec_traceparent before = { .trace_high = 1, .trace_low = 2, .parent = 3, .flags = 4 };
    dspec_traceparent read = before;
    check_counts(!reads(text, strlen(text), &read) && is_same(&read, &before), text, line);
}

#define READ(TEXT, FLAGS) is_read((TEXT), (FLAGS), __LINE__)
#define REFUSED(TEXT) is_refused((TEXT), __LINE__)

static void headers(void) {
    READ("00-" TRACE "-" PARENT "-01", 1);
    READ("00-" TRACE "-" PARENT "-00", 0);
    READ("00-" TRACE "-" PARENT "-ff", 255);
}

static void each_part(void) {
    static const char good[] = "00-" TRACE "-" PARENT "-01";
    char text[sizeof good];
    for (size_t i = 0; i < sizeof good - 1; i++) {
        const char *const wrong = good[i] == '-' ? "0_ " : ".gA- ";
        for (const char *other = wrong; *other != 0; other++) {
            memcpy(text, good, sizeof good);
            text[i] = *other;
            REFUSED(text);
        }
        memcpy(text, good, sizeof good);
        text[i] = 0;
        REFUSED(text);
    }
    REFUSED("000-" TRACE "-" PARENT "-01");
    REFUSED("0-" TRACE "-" PARENT "-01");
    REFUSED("00-" TRACE "0-" PARENT "-01");
    REFUSED("00-4bf92f3577b34da6a3ce929d0e0e473-" PARENT "-01");
    REFUSED("00-" TRACE "-" PARENT "0-01");
    REFUSED("00-" TRACE "-00f067aa0ba902b-01");
    REFUSED("00-" TRACE "-" PARENT "-001");
    REFUSED("00-" TRACE "-" PARENT "-1");
    REFUSED(" 00-" TRACE "-" PARENT "-01");
    REFUSED("00-" TRACE "-" PARENT "-01 ");
}

static void numbers_of_zeros(void) {
    dspec_traceparent read;
    REFUSED("00-00000000000000000000000000000000-" PARENT "-01");
    REFUSED("00-" TRACE "-0000000000000000-01");
    REFUSED("cc-00000000000000000000000000000000-" PARENT "-01");
    CHECK(reads("00-00000000000000000000000000000001-" PARENT "-01", 55, &read) && read.trace_high == 0 && read.trace_low == 1);
    CHECK(reads("00-80000000000000000000000000000000-" PARENT "-01", 55, &read) && read.trace_high == UINT64_C(1) << 63 && read.trace_low == 0);
}

static void versions(void) {
    READ("cc-" TRACE "-" PARENT "-01", 1);
    READ("fe-" TRACE "-" PARENT "-01", 1);
    READ("cc-" TRACE "-" PARENT "-01-what-the-future-will-be-like", 1);
    READ("01-" TRACE "-" PARENT "-01-", 1);
    REFUSED("cc-" TRACE "-" PARENT "-01.what-the-future-will-be-like");
    REFUSED("cc-" TRACE "-" PARENT "-011");
    REFUSED("00-" TRACE "-" PARENT "-01-what-the-future-will-be-like");
    REFUSED("00-" TRACE "-" PARENT "-01-");
    REFUSED("ff-" TRACE "-" PARENT "-01");
    REFUSED("ff-" TRACE "-" PARENT "-01-what-the-future-will-be-like");
}

static void is_written(uint8_t flags, const char *due) {
    char text[DSPEC_TRACEPARENT_SIZE + 1];
    dspec_traceparent from = example;
    from.flags = flags;
    memset(text, '#', sizeof text);
    CHECK(dspec_traceparent_format(&from, text) && strcmp(text, due) == 0 && text[DSPEC_TRACEPARENT_SIZE] == '#');
}

static void isnt_written(uint64_t high, uint64_t low, uint64_t parent) {
    const dspec_traceparent from = { .trace_high = high, .trace_low = low, .parent = parent, .flags = 1 };
    char text[DSPEC_TRACEPARENT_SIZE] = "before";
    CHECK(!dspec_traceparent_format(&from, text) && text[0] == 0);
}

static void formats(void) {
    const dspec_traceparent least = { .trace_low = 1, .parent = 1 };
    char text[DSPEC_TRACEPARENT_SIZE];
    is_written(1, "00-" TRACE "-" PARENT "-01");
    is_written(0, "00-" TRACE "-" PARENT "-00");
    is_written(0xff, "00-" TRACE "-" PARENT "-01");
    is_written(0xfe, "00-" TRACE "-" PARENT "-00");
    CHECK(dspec_traceparent_format(&least, text) && strcmp(text, "00-00000000000000000000000000000001-0000000000000001-00") == 0);
    isnt_written(0, 0, 1);
    isnt_written(1, 1, 0);
    CHECK(DSPEC_TRACEPARENT_SIZE == sizeof "00-" TRACE "-" PARENT "-01");
}

int main(void) {
    headers();
    each_part();
    numbers_of_zeros();
    versions();
    formats();
    return check_end();
}
