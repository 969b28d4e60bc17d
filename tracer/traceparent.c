/* traceparent.c: the header `traceparent` of W3C's Trace Context: version, trace, parent and flags, in hexadecimal digits, with dashes between them. */
#include "dspec_traceparent.h"

/* The digits of each part; of the trace's number those of each half. */
enum { VERSION_DIGITS = 2, HALF_DIGITS = 16, PARENT_DIGITS = 16, FLAGS_DIGITS = 2 };
/* Where each part begins, and where a header of version 00 ends. */
enum { TRACE = VERSION_DIGITS + 1, PARENT = TRACE + 2 * HALF_DIGITS + 1, FLAGS = PARENT + PARENT_DIGITS + 1, END = FLAGS + FLAGS_DIGITS };
/* No header has this version. */
enum { INVALID_VERSION = 255 };
/* What isn't a digit has this value. */
enum { NO_DIGIT = 16 };

static const char digits[] = "0123456789abcdef";

static unsigned value_of(char digit) {
    if (digit >= '0' && digit <= '9') return (unsigned)(digit - '0');
    if (digit >= 'a' && digit <= 'f') return (unsigned)(digit - 'a') + 10;
    return NO_DIGIT;
}

/* Reads a number of so many digits: whether they are digits. */
static bool read_number(const char *text, size_t count, uint64_t *number) {
    *number = 0;
    for (size_t i = 0; i < count; i++) {
        const unsigned value = value_of(text[i]);
        if (value == NO_DIGIT) return false;
        *number = *number << 4 | value;
    }
    return true;
}

static char *write_number(char *to, uint64_t number, size_t count) {
    for (size_t i = count; i-- > 0; number >>= 4) to[i] = digits[number & 15];
    return to + count;
}

/* A later version may go on after a dash; version 00 is over. */
static bool ends_as_its_version(const char *text, size_t length, uint64_t version) { return length == END || (version > 0 && text[END] == '-'); }

static bool is_named(const dspec_traceparent *one) { return (one->trace_high != 0 || one->trace_low != 0) && one->parent != 0; }

bool dspec_traceparent_parse(const char *text, size_t length, dspec_traceparent *to) {
    dspec_traceparent read;
    uint64_t version, flags;
    if (length < END || text[TRACE - 1] != '-' || text[PARENT - 1] != '-' || text[FLAGS - 1] != '-') return false;
    if (!read_number(text, VERSION_DIGITS, &version) || version == INVALID_VERSION || !ends_as_its_version(text, length, version)) return false;
    if (!read_number(text + TRACE, HALF_DIGITS, &read.trace_high) || !read_number(text + TRACE + HALF_DIGITS, HALF_DIGITS, &read.trace_low)) return false;
    if (!read_number(text + PARENT, PARENT_DIGITS, &read.parent) || !read_number(text + FLAGS, FLAGS_DIGITS, &flags) || !is_named(&read)) return false;
    read.flags = (uint8_t)flags;
    *to = read;
    return true;
}

bool dspec_traceparent_format(const dspec_traceparent *from, char text[DSPEC_TRACEPARENT_SIZE]) {
    char *at = text;
    *at = 0;
    if (!is_named(from)) return false;
    at = write_number(at, 0, VERSION_DIGITS);
    *at++ = '-';
    at = write_number(at, from->trace_high, HALF_DIGITS);
    at = write_number(at, from->trace_low, HALF_DIGITS);
    *at++ = '-';
    at = write_number(at, from->parent, PARENT_DIGITS);
    *at++ = '-';
    at = write_number(at, from->flags & DSPEC_TRACEPARENT_SAMPLED, FLAGS_DIGITS);
    *at = 0;
    return true;
}
