/* clock.c: of which clock a tracer's stamps are, and what its trace says of that clock: how often it ticks in a second, and where it began. */
#include "survive.h"

#include <errno.h>
#include <fcntl.h>
#include <inttypes.h>
#include <sys/prctl.h>
#include <sys/stat.h>
#include <unistd.h>

#if defined(__x86_64__)
#include <cpuid.h>
#endif

/* Where the system says by which clock it keeps its time. A test has a file of its own. */
#ifndef DSPEC_CLOCK_SOURCE
#define DSPEC_CLOCK_SOURCE "/sys/devices/system/clocksource/clocksource0/current_clocksource"
#endif

/* The system's numbers for prctl(2), as <linux/prctl.h> has them, which isn't there beside each C library. */
enum { GET_TSC = 25, TSC_ENABLED = 1 };
/* So often both clocks are looked at, for the once that took the shortest. */
enum { TRIES = 16 };
/* A start measures the counter for so long at the least. */
enum { FIRST_US = 2000 };
/* It is measured anew each time that the tracer has run longer by such a part. */
enum { LONGER_BY = 8 };
/* NTP slews the system's clock by a 2,000th at the most. What differs by more is a machine that slept. */
enum { MOST_DIFFERENT = 1000 };

__extension__ typedef unsigned __int128 wide;

/* ---- Whether the counter can be had. ---- */

#if defined(__x86_64__)

/* The processor says that its counter goes at one rate, whatever its own is. */
static bool is_invariant(void) {
    const unsigned power_leaf = 0x80000007, invariant = 1 << 8;
    unsigned a, b, c, d;
    return __get_cpuid(power_leaf, &a, &b, &c, &d) && (d & invariant) != 0;
}

/* A program may have had its threads' readings made a fault. */
static bool may_be_read(void) {
    int how = TSC_ENABLED;
    return prctl(GET_TSC, &how, 0, 0, 0) != 0 || how == TSC_ENABLED;
}

/* The system compares the counters of all processors before it keeps its own time by them. */
static bool is_the_systems(void) {
    static const char name[] = "tsc\n";
    char said[sizeof name];
    const int file = dspec_folder_above_(open(DSPEC_CLOCK_SOURCE, O_RDONLY | O_CLOEXEC));
    const ssize_t count = file < 0 ? -1 : read(file, said, sizeof said);
    if (file >= 0) close(file);
    return count == sizeof name - 1 && memcmp(said, name, sizeof name - 1) == 0;
}

static const char *why_no_counter(void) {
    if (!is_invariant()) return "clock: the processor doesn't say that its time stamp counter is invariant; auto takes the monotonic clock then";
    if (!may_be_read()) return "clock: the program has readings of the time stamp counter made a fault (PR_SET_TSC); auto takes the monotonic clock then";
    if (!is_the_systems()) return "clock: the system doesn't keep its time by the time stamp counter (" DSPEC_CLOCK_SOURCE "); auto takes the monotonic clock then";
    return NULL;
}

/* After all that comes before it. */
static uint64_t counter(void) {
    __builtin_ia32_lfence();
    return __builtin_ia32_rdtsc();
}

#else

static const char *why_no_counter(void) { return "clock: this machine has no time stamp counter; auto takes the monotonic clock then"; }

static uint64_t counter(void) { return 0; }

#endif

const char *clock_choose(dspec_tracer_options *options) {
    const char *why;
    if (options->clock > DSPEC_CLOCK_AUTO) return "clock is none of DSPEC_CLOCK_MONOTONIC, DSPEC_CLOCK_TSC and DSPEC_CLOCK_AUTO";
    if (options->clock == DSPEC_CLOCK_MONOTONIC) return NULL;
    why = why_no_counter();
    if (options->clock == DSPEC_CLOCK_AUTO) options->clock = why == NULL ? DSPEC_CLOCK_TSC : DSPEC_CLOCK_MONOTONIC;
    return options->clock == DSPEC_CLOCK_TSC ? why : NULL;
}

/* ---- What is measured. ---- */

static moment moment_now(void) {
    moment best = { 0, 0 };
    uint64_t least = UINT64_MAX;
    for (int tries = 0; tries < TRIES; tries++) {
        const uint64_t before = counter(), nanoseconds = dspec_monotonic(), width = counter() - before;
        if (width >= least) continue;
        least = width;
        best = (moment){ before + width / 2, nanoseconds };
    }
    return best;
}

static uint64_t scaled(uint64_t number, uint64_t times, uint64_t by) { return (uint64_t)(((wide)number * times + by / 2) / by); }

/* Has an identity say that a clock of so many ticks a second showed these ticks at these nanoseconds since 1970. Where it began is told by seconds and by ticks that have one digit more than the
 * frequency, so that a metadata which says it anew has as many bytes. A machine may believe that it is 1970. */
static void identity_says(dspec_identity *identity, uint64_t hertz, uint64_t ticks, uint64_t nanoseconds) {
    const wide shown = (wide)nanoseconds * hertz / DSPEC_NANOSECONDS;
    uint64_t least = 10, more;
    wide began;
    while (least <= hertz) least *= 10;
    began = shown > ticks + (wide)2 * least ? shown - ticks : (wide)2 * least;
    more = (least - (uint64_t)(began % hertz) + hertz - 1) / hertz;
    identity->hertz = hertz;
    identity->seconds = (uint64_t)(began / hertz) - more;
    identity->ticks = (uint64_t)(began % hertz) + more * hertz;
}

/* By what both clocks showed at the start and now: in the middle it is right by half a nanosecond, and at both ends but for half a tick of each second. */
static void identity_measured(const body *tracer, moment now, dspec_identity *identity) {
    const uint64_t ticks = now.ticks - tracer->started.ticks, nanoseconds = now.nanoseconds - tracer->started.nanoseconds;
    identity_says(identity, scaled(ticks, DSPEC_NANOSECONDS, nanoseconds), tracer->started.ticks + ticks / 2, tracer->origin + tracer->started.nanoseconds + nanoseconds / 2);
}

void clock_start(body *tracer) {
    tracer->clock = (uint32_t)tracer->options.clock;
    tracer->hertz = DSPEC_NANOSECONDS;
    if (tracer->clock != DSPEC_CLOCK_MONOTONIC) tracer->started = moment_now();
}

void clock_identify(body *tracer, dspec_identity *identity) {
    uint64_t over;
    moment now;
    if (tracer->clock == DSPEC_CLOCK_MONOTONIC) return;
    over = (dspec_monotonic() - tracer->started.nanoseconds) / 1000;
    if (over < FIRST_US) sleep_for(FIRST_US - over);
    now = moment_now();
    tracer->origin = identity->seconds * DSPEC_NANOSECONDS + identity->ticks;
    identity_measured(tracer, now, identity);
    tracer->hertz = identity->hertz;
    tracer->measured = now.ticks - tracer->started.ticks;
}

uint64_t clock_nanoseconds(const body *tracer, uint64_t ticks) { return tracer->clock == DSPEC_CLOCK_MONOTONIC ? ticks : scaled(ticks, DSPEC_NANOSECONDS, LOAD(&tracer->hertz)); }

/* ---- What the metadata says. ---- */

/* A number of the metadata's text. */
typedef struct told_number {
    char *at;
    uint64_t is;
    char digits[24];
} told_number;

/* Finds the number after these words: whether the one that is to be there has as many digits. */
static bool finds_number(told_number *one, char *text, const char *after, uint64_t is) {
    const char *found = strstr(text, after);
    if (found == NULL) return false;
    one->at = text + (found - text) + strlen(after);
    one->is = is;
    return (size_t)snprintf(one->digits, sizeof one->digits, "%" PRIu64, is) == strspn(one->at, "0123456789");
}

/* Puts what an identity says of its clock into the text of a folder's metadata: whether it has as many digits as what is there. from, end: where what was changed begins and ends. */
static bool text_says(dspec_folder *folder, const dspec_identity *identity, size_t *from, size_t *end) {
    told_number hertz, seconds, ticks, *const all[] = { &hertz, &seconds, &ticks };
    if (!finds_number(&hertz, folder->text, "\n\tfreq = ", identity->hertz) || !finds_number(&seconds, hertz.at, "\n\toffset_s = ", identity->seconds) ||
        !finds_number(&ticks, seconds.at, "\n\toffset = ", identity->ticks))
        return false;
    for (size_t i = 0; i < sizeof all / sizeof all[0]; i++) memcpy(all[i]->at, all[i]->digits, strlen(all[i]->digits));
    *from = (size_t)(hertz.at - folder->text);
    *end = (size_t)(ticks.at - folder->text) + strlen(ticks.digits);
    return true;
}

/* Writes a part of the text anew where it is. That part lies in one page of the file, so a kill leaves all of it or none. A descriptor that was one of the first three may have got what the program
 * wrote to that: then it is all of the text. */
static int text_writes(const dspec_folder *folder, int opened, int file, size_t from, size_t end) {
    struct stat is;
    ssize_t count;
    if (fstat(file, &is) != 0) return errno;
    if (opened != file) from = 0, end = folder->text_size;
    else if (!S_ISREG(is.st_mode) || is.st_size != (off_t)folder->text_size) return ESTALE;
    do count = pwrite(file, folder->text + from, end - from, (off_t)from);
    while (count < 0 && errno == EINTR);
    if (count < 0) return errno;
    if (opened != file && ftruncate(file, (off_t)folder->text_size) != 0) return errno;
    return count == (ssize_t)(end - from) ? 0 : EIO;
}

static int folder_says(dspec_folder *folder, size_t from, size_t end) {
    int opened, file, code;
    if (!folder->is_open) return 0;
    opened = openat(dspec_folder_at_(dspec_folder_newest_(folder)), "metadata", O_WRONLY | O_NOFOLLOW | O_NONBLOCK | O_CLOEXEC);
    file = dspec_folder_above_(opened);
    if (file < 0) return errno;
    code = text_writes(folder, opened, file, from, end);
    close(file);
    return code;
}

/* Whether the counter went at the rate that it had at the start, but for what NTP does. */
static bool is_likely(const body *tracer, uint64_t hertz) {
    const uint64_t first = tracer->hertz, differs = hertz > first ? hertz - first : first - hertz;
    return differs <= first / MOST_DIFFERENT;
}

int clock_tell(body *tracer, bool is_end) {
    dspec_identity identity = tracer->folder.identity;
    uint64_t ticks;
    size_t from, end;
    int code;
    if (tracer->clock == DSPEC_CLOCK_MONOTONIC) return 0;
    ticks = counter() - tracer->started.ticks;
    if (!is_end && ticks - tracer->measured < tracer->measured / LONGER_BY) return 0;
    tracer->measured = ticks;
    identity_measured(tracer, moment_now(), &identity);
    if (!is_likely(tracer, identity.hertz) || !text_says(&tracer->folder, &identity, &from, &end)) return 0;
    tracer->folder.identity = identity;
    STORE(&tracer->hertz, identity.hertz);
    code = folder_says(&tracer->folder, from, end);
    survive_tell_clock(tracer, &identity);
    return code;
}
