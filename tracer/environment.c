/* environment.c: a tracer that the variable DSPEC_TRACE starts: its folder, its options, and which probes are off. */
#include "environment.h"

#include <errno.h>

/* A word of the variable, and what its value is. */
typedef enum kind { IS_FLAG, IS_COUNT, IS_BYTES, IS_BYTES_32, IS_NANOSECONDS, IS_MILLISECONDS, IS_CLOCK, IS_PROBE } kind;
typedef struct known_word {
    const char *name;
    kind kind;
    size_t at; /* in the options */
} known_word;

#define AT(OPTION) offsetof(dspec_tracer_options, OPTION)
static const known_word known[] = {
    { "slow", IS_NANOSECONDS, AT(slow_ns) },     { "sample", IS_COUNT, AT(sample) },         { "max", IS_BYTES, AT(max_bytes) },         { "folders", IS_COUNT, AT(max_folders) },
    { "lanes", IS_COUNT, AT(lanes) },            { "paths", IS_COUNT, AT(paths) },           { "bufsize", IS_BYTES_32, AT(bufsize) },    { "specsize", IS_BYTES_32, AT(specsize) },
    { "period", IS_MILLISECONDS, AT(period_ms) }, { "keep", IS_MILLISECONDS, AT(keep_ms) },  { "crash", IS_MILLISECONDS, AT(crash_ms) }, { "survive", IS_FLAG, AT(survive) },
    { "keep_last", IS_FLAG, AT(keep_last) },     { "keep_all", IS_FLAG, AT(keep_all) },      { "keep_open", IS_FLAG, AT(keep_open) },    { "clock", IS_CLOCK, AT(clock) },
    { "park", IS_BYTES, AT(park_bytes) },        { "parked", IS_MILLISECONDS, AT(park_ms) }, { "remember", IS_MILLISECONDS, AT(remember_ms) }, { "off", IS_PROBE, 0 },
};
#define WORDS "slow, sample, max, folders, lanes, paths, bufsize, specsize, period, keep, crash, survive, keep_last, keep_all, keep_open, clock, park, parked, remember, off"

typedef struct unit {
    const char *name;
    uint64_t times;
} unit;
static const unit sizes[] = { { "", 1 }, { "K", 1u << 10 }, { "M", 1u << 20 }, { "G", 1u << 30 }, { NULL, 0 } };
static const unit times[] = { { "ns", 1 }, { "us", 1000 }, { "ms", 1000000 }, { "s", 1000000000 }, { NULL, 0 } };
static const unit counts[] = { { "", 1 }, { NULL, 0 } };

static bool fail(settings *to, const char *word, size_t len, const char *why) {
    if (snprintf(to->why, sizeof to->why, "DSPEC_TRACE: `%.*s`: %s", (int)(len < 80 ? len : 80), word, why) < 0) to->why[0] = 0;
    return false;
}

/* A number of decimal digits with one of these units: whether it is one below the bound. */
static bool read_number(const char *text, size_t len, const unit *units, uint64_t most, uint64_t *value) {
    size_t digits = 0;
    *value = 0;
    for (; digits < len && text[digits] >= '0' && text[digits] <= '9'; digits++) {
        const uint64_t digit = (uint64_t)(text[digits] - '0');
        if (*value > (UINT64_MAX - digit) / 10) return false;
        *value = *value * 10 + digit;
    }
    for (; digits > 0 && units->name != NULL; units++) {
        if (strlen(units->name) != len - digits || memcmp(units->name, text + digits, len - digits) != 0) continue;
        if (*value > most / units->times) return false;
        *value *= units->times;
        return true;
    }
    return false;
}

/* Whether it is the name of a clock, by which the options know it. */
static bool read_clock(const char *name, size_t len, uint64_t *clock) {
    static const char *const names[] = { "monotonic", "tsc", "auto" };
    static_assert(DSPEC_CLOCK_MONOTONIC == 0 && DSPEC_CLOCK_TSC == 1 && DSPEC_CLOCK_AUTO == 2, "each by its place");
    for (*clock = 0; *clock < sizeof names / sizeof names[0]; ++*clock)
        if (strlen(names[*clock]) == len && memcmp(names[*clock], name, len) == 0) return true;
    return false;
}

static bool set_probe_off(settings *to, const char *name, size_t len) {
    if (to->off_count == MAX_OFF || len == 0 || len >= sizeof to->off[0]) return false;
    memcpy(to->off[to->off_count], name, len);
    to->off[to->off_count++][len] = 0;
    return true;
}

/* What is wrong with a value, or NULL; then it is set. */
static const char *set_value(settings *to, const known_word *word, const char *value, size_t len) {
    char *at = (char *)&to->options + word->at;
    uint64_t number = 0;
    switch (word->kind) {
    case IS_FLAG: return "this word has no value";
    case IS_PROBE: return set_probe_off(to, value, len) ? NULL : "off=PROBE names a probe, and there are at most 16 of these words";
    case IS_CLOCK:
        if (!read_clock(value, len, &number)) return "a clock is monotonic, tsc or auto";
        memcpy(at, &number, sizeof number);
        return NULL;
    case IS_BYTES:
        if (!read_number(value, len, sizes, UINT64_MAX, &number)) return "a size is a number, or one with K, M or G";
        memcpy(at, &number, sizeof number);
        return NULL;
    case IS_NANOSECONDS:
        if (!read_number(value, len, times, UINT64_MAX, &number)) return "a time is a number with ns, us, ms or s";
        memcpy(at, &number, sizeof number);
        return NULL;
    case IS_MILLISECONDS:
        if (!read_number(value, len, times, UINT32_MAX * UINT64_C(1000000), &number) || number % 1000000 != 0) return "a time is a number with ms or s here";
        number /= 1000000;
        break;
    case IS_BYTES_32:
        if (!read_number(value, len, sizes, UINT32_MAX, &number)) return "a size is a number, or one with K or M";
        break;
    case IS_COUNT:
    default:
        if (!read_number(value, len, counts, UINT32_MAX, &number)) return "this is no count";
        break;
    }
    memcpy(at, &(uint32_t){ (uint32_t)number }, sizeof(uint32_t));
    return NULL;
}

static bool set_word(settings *to, const char *word, size_t len) {
    const char *is = memchr(word, '=', len);
    const size_t name = is != NULL ? (size_t)(is - word) : len;
    for (size_t i = 0; i < sizeof known / sizeof known[0]; i++) {
        const char *why;
        if (strlen(known[i].name) != name || memcmp(known[i].name, word, name) != 0) continue;
        if (is == NULL && known[i].kind == IS_FLAG) {
            memcpy((char *)&to->options + known[i].at, &(bool){ true }, sizeof(bool));
            return true;
        }
        why = is == NULL ? "this word has a value, after =" : set_value(to, &known[i], is + 1, len - name - 1);
        return why == NULL || fail(to, word, len, why);
    }
    return fail(to, word, len, "no such word; there are " WORDS);
}

bool settings_read(settings *to, const char *text) {
    const size_t folder = strcspn(text, ",");
    to->why[0] = 0;
    if (folder == 0) return fail(to, text, strlen(text), "it begins with the folder, as in DSPEC_TRACE=/tmp/trace,slow=5ms");
    if (folder >= sizeof to->folder) return fail(to, text, folder, strerror(ENAMETOOLONG));
    memcpy(to->folder, text, folder);
    to->folder[folder] = 0;
    for (text += folder; *text == ',';) {
        const size_t len = strcspn(++text, ",");
        if (!set_word(to, text, len)) return false;
        text += len;
    }
    return true;
}

/* Whether all probes that are to be off are there. */
static bool are_there(settings *to, const dspec_enabling *const *events) {
    for (size_t i = 0; i < to->off_count; i++) {
        size_t at = 0;
        while (events != NULL && events[at] != NULL && strcmp(events[at]->name, to->off[i]) != 0) at++;
        if (events == NULL || events[at] == NULL) return fail(to, to->off[i], strlen(to->off[i]), "no such probe");
    }
    return true;
}

static void turn_off(dspec_tracer *tracer, const settings *to, const dspec_enabling *const *events) {
    for (size_t i = 0; i < to->off_count; i++)
        for (size_t at = 0; events[at] != NULL; at++)
            if (strcmp(events[at]->name, to->off[i]) == 0) dspec_tracer_switch_event(tracer, events[at]->event, false);
}

bool dspec_tracer_start_env_sized(dspec_tracer *tracer, const dspec_tracer_options *options, size_t size, const dspec_enabling *const *events, const dspec_enabling *const *declared,
                                  const dspec_enabling *const *end) {
    const char *text = secure_getenv("DSPEC_TRACE");
    settings *to = calloc(1, sizeof *to);
    bool started = false;
    tracer->why[0] = 0;
    if (to == NULL) {
        snprintf(tracer->why, sizeof tracer->why, "%s", dspec_status_text(DSPEC_NO_MEMORY));
        return false;
    }
    if (text == NULL && getenv("DSPEC_TRACE") != NULL) snprintf(tracer->why, sizeof tracer->why, "DSPEC_TRACE isn't heeded by a program that has more rights than its user");
    else if (text == NULL || text[0] == 0) snprintf(tracer->why, sizeof tracer->why, "DSPEC_TRACE isn't set");
    else if (!options_take(tracer, options, size, &to->options)) started = false;
    else if (!settings_read(to, text) || !are_there(to, events)) snprintf(tracer->why, sizeof tracer->why, "%s", to->why);
    else started = dspec_tracer_start_among(tracer, to->folder, &to->options, events, declared, end);
    if (started) turn_off(tracer, to, events);
    free(to);
    return started;
}
