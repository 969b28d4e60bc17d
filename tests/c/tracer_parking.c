/* Parked paths of a tracer: which of them come out, what is told of them, and what became of the others, each number worked out by hand. `tracer_parking FOLDER` counts its checks in its last line.
 * `tracer_parking FOLDER SEED [OPTION=NUMBER ..]` has eight threads begin, hand on and park three paths of each request, and keep every tenth by its key at any time between; then the folder has
 * these and no others. */
#define _GNU_SOURCE
#include "dspec_tracer.h"

#include "check.h"
#include "dice.h"

#include <dirent.h>
#include <fcntl.h>
#include <pthread.h>
#include <signal.h>
#include <stdatomic.h>
#include <sys/syscall.h>
#include <unistd.h>

DSPEC_PROBE(query, uint64_t, request, uint32_t, step);
DSPEC_PROBE(large, uint64_t, a, uint64_t, b, uint64_t, c, uint64_t, d, uint64_t, e, uint64_t, f, uint64_t, g); /* 72 bytes in a path */

/* The events by their numbers: the probe's, and the tracer's own as they follow. */
enum { QUERY = 1, KEPT = 4, COUNTS = 6, PARKED = 10, EVENTS = 10 };
/* The bytes of each event in a packet, after its front: of the tracer's own, see docs/REFERENCE.md. */
static const size_t bytes_of[EVENTS + 1] = { 0, 4 + 8 + 4, 4 + 36, 4 + 52, 4 + 40, 4 + 20, 4 + 16, 4 + 32, 4 + 28, 4 + 8, 4 + 56 };
enum { PACKET = 1024, FRONT = 68, EVENT_FRONT = 12, CONTENT_BITS = 40 };
/* A record of `query` in a buffer: EPID, stamp, path, request and step; the next one begins at a multiple of eight. */
enum { RECORD = 28, RECORD_ALIGNED = 32 };
enum { MOST = 100000 };

static dspec_tracer tracer;
static dspec_tracer_report report;
static const char *folder;

/* ---- What a folder has. ---- */

/* Of a request: which steps its records have, one bit each, and how many records there are. */
typedef struct found_request {
    uint32_t steps, records, paths; /* paths: events that tell of one by the request's key */
} found_request;

/* An event `dspec_kept`, and one `dspec_parked` as the sum of all. */
typedef struct told_path {
    uint32_t path, thread, by, cut, why;
    uint64_t begun, key_high, key_low;
} told_path;

static found_request found[MOST];
static uint64_t parked_sums[7], kept_sum, thrown_sum, first_stamp[MOST];
static uint32_t first_path[MOST];
static told_path last_told;
static size_t told_count, of_others;

static uint64_t number_at(const uint8_t *bytes, size_t width) {
    uint64_t number = 0;
    for (size_t i = width; i > 0; i--) number = number << 8 | bytes[i - 1];
    return number;
}

static void note_query(const uint8_t *fields, uint64_t stamp) {
    const uint64_t request = number_at(fields + 4, 8);
    if (request >= MOST) {
        of_others++;
        return;
    }
    if (found[request].records++ == 0) {
        first_stamp[request] = stamp;
        first_path[request] = (uint32_t)number_at(fields, 4);
    }
    found[request].steps |= 1u << number_at(fields + 12, 4);
}

static void note_kept(const uint8_t *fields) {
    last_told = (told_path){ (uint32_t)number_at(fields, 4),      (uint32_t)number_at(fields + 4, 4), (uint32_t)number_at(fields + 8, 4), (uint32_t)number_at(fields + 12, 4),
                             (uint32_t)number_at(fields + 16, 4), number_at(fields + 20, 8),          number_at(fields + 28, 8),          number_at(fields + 36, 8) };
    told_count++;
    if (last_told.key_low < MOST) found[last_told.key_low].paths++;
}

static void read_packet(const uint8_t *packet) {
    const size_t end = number_at(packet + CONTENT_BITS, 8) / 8;
    for (size_t at = FRONT; at + EVENT_FRONT <= end;) {
        const uint32_t epid = (uint32_t)number_at(packet + at, 4);
        const uint8_t *fields = packet + at + EVENT_FRONT;
        if (!CHECK(epid >= 1 && epid <= EVENTS)) exit(2);
        if (epid == QUERY) note_query(fields, number_at(packet + at + 4, 8));
        if (epid == KEPT) note_kept(fields);
        for (size_t i = 0; epid == PARKED && i < 7; i++) parked_sums[i] = i < 6 ? parked_sums[i] + number_at(fields + 4 + 8 * i, 8) : number_at(fields + 4 + 8 * i, 8);
        kept_sum += epid == COUNTS ? number_at(fields + 4, 8) : 0;
        thrown_sum += epid == COUNTS ? number_at(fields + 12, 8) : 0;
        at += EVENT_FRONT + bytes_of[epid];
    }
}

static void read_file(const char *name) {
    uint8_t packet[PACKET];
    char path[4400];
    snprintf(path, sizeof path, "%.4000s/%.256s", folder, name);
    const int file = open(path, O_RDONLY);
    while (read(file, packet, sizeof packet) == (ssize_t)sizeof packet) read_packet(packet);
    close(file);
}

static void read_trace(void) {
    DIR *names = opendir(folder);
    memset(found, 0, sizeof found);
    memset(parked_sums, 0, sizeof parked_sums);
    told_count = of_others = kept_sum = thrown_sum = 0;
    for (struct dirent *one; names != NULL && (one = readdir(names)) != NULL;)
        if (strncmp(one->d_name, "cpu_", 4) == 0) read_file(one->d_name);
    if (names != NULL) closedir(names);
}

/* Whether the folder has the records of these requests, each of so many steps, and of no others. */
static bool has_alone(const uint64_t *requests, size_t count, uint32_t steps) {
    uint64_t all = 0;
    bool has = of_others == 0;
    for (size_t i = 0; i < MOST; i++) all += found[i].records;
    for (size_t i = 0; i < count; i++) has = has && found[requests[i]].steps == (1u << steps) - 1 && found[requests[i]].records == steps;
    return has && all == count * steps;
}

/* ---- A tracer. ---- */

static atomic_int told_keys;
static uint64_t told_high, told_low;

static void on_keep(void *context, uint64_t high, uint64_t low) {
    CHECK(context == &tracer);
    told_high = high;
    told_low = low;
    atomic_fetch_add(&told_keys, 1);
}

static void without_folder(void) {
    char words[8300];
    snprintf(words, sizeof words, "rm -rf '%.4000s' '%.4000s'.*", folder, folder);
    if (system(words) != 0) exit(2);
}

static void begin(dspec_tracer_options options) {
    without_folder();
    if (options.period_ms == 0) options.period_ms = 5;
    if (options.specsize == 0) options.specsize = 1024;
    if (options.park_bytes > 0 && options.park_ms == 0) options.park_ms = 3600000; /* a busy machine takes longer than the default for some of these */
    if (options.on_keep != NULL) options.on_keep_context = &tracer;
    atomic_store(&told_keys, 0);
    memset(&tracer, 0, sizeof tracer);
    if (CHECK(dspec_tracer_start(&tracer, folder, &options, DSPEC_PROBES(query)))) return;
    printf("%s\n", tracer.why);
    exit(2);
}

/* The sums hold, and the trace tells the counts that the report has. */
static void stop(void) {
    CHECK(dspec_tracer_stop(&tracer, &report));
    CHECK(report.dropped == 0 && report.lost == 0 && report.stuck_lanes == 0 && report.not_written == 0 && report.waited == 0 && report.no_slot == 0);
    CHECK(report.parked == report.park_kept + report.park_evicted + report.park_expired + report.park_left);
    dspec_tracer_drop(&tracer);
    read_trace();
    CHECK(parked_sums[0] == report.parked && parked_sums[1] == report.park_kept && parked_sums[2] == report.park_evicted && parked_sums[3] == report.park_expired);
    CHECK(parked_sums[4] == report.key_missed && parked_sums[5] == report.keys_refused && (report.parked == 0 || parked_sums[6] == report.park_least_ms));
    CHECK(report.kept == told_count && report.kept == kept_sum && report.thrown == thrown_sum);
}

enum { HIGH = 0xabc };

/* A path of a request, of so many records, with its key where it is to have one. */
static dspec_path path_of(uint64_t request, uint32_t records, bool has_key) {
    dspec_path path = dspec_path_begin(&tracer);
    for (uint32_t step = 0; step < records; step++) CHECK(query_in(&path, request, step) == DSPEC_OK);
    if (has_key) CHECK(dspec_path_key(&path, HIGH, request));
    return path;
}

static void park(uint64_t request, uint32_t records) {
    dspec_path path = path_of(request, records, true);
    CHECK(dspec_path_park(&path) && !dspec_path_is_open(&path));
}

static void keep(uint64_t request) { CHECK(dspec_tracer_keep_key(&tracer, HIGH, request)); }

/* Waits until the program was told of a key, or for a minute. */
static void is_told(void) {
    for (int tries = 0; tries < 60000 && atomic_load(&told_keys) == 0; tries++) usleep(1000);
    CHECK(atomic_load(&told_keys) == 1);
}

static void flush(void) { CHECK(dspec_tracer_flush(&tracer, 600000)); }

/* After this the consumer knows that what is parked now is that old: it notes that at the end of a turn, of which a flush waits for one. */
static void is_noted(void) {
    flush();
    flush();
}

/* ---- One at a time. ---- */

static void one_of_many(void) {
    begin((dspec_tracer_options){ .lanes = 2, .paths = 4, .park_bytes = 65536 });
    for (uint64_t request = 1; request <= 100; request++) park(request, 3);
    keep(50);
    flush();
    CHECK(dspec_tracer_counts(&tracer, &report) && report.parked == 100 && report.park_kept == 1 && report.park_left == 99 && report.kept == 1 && report.thrown == 0);
    CHECK(report.accepted == 3 && report.discarded == 297);
    stop();
    CHECK(report.parked == 100 && report.park_kept == 1 && report.park_evicted == 0 && report.park_expired == 0 && report.park_left == 99);
    CHECK(report.kept == 1 && report.thrown == 99 && report.undecided == 0 && report.accepted == 3 && report.discarded == 297 && report.cut == 0 && report.key_missed == 0 && report.keys_refused == 0);
    CHECK(report.park_least_ms == UINT64_MAX && has_alone((const uint64_t[]){ 50 }, 1, 3));
    CHECK(last_told.path == first_path[50] && last_told.begun == first_stamp[50] && last_told.key_high == HIGH && last_told.key_low == 50 && last_told.why == DSPEC_WHY_KEY);
    CHECK(last_told.thread == (uint32_t)syscall(SYS_gettid) && last_told.by == 0 && last_told.cut == 0);
}

/* Keys that are told before the path parks, while it is open, and before it begins. */
static void in_any_order(void) {
    dspec_path open, dropped, ruled, failed;
    begin((dspec_tracer_options){ .lanes = 2, .paths = 8, .park_bytes = 4096, .on_keep = on_keep });
    open = path_of(1, 3, true);
    dropped = path_of(2, 3, true);
    ruled = path_of(3, 3, true);
    failed = path_of(4, 3, true);
    for (uint64_t request = 1; request <= 5; request++) keep(request);
    flush();
    park(5, 3);
    CHECK(dspec_path_park(&open) && !dspec_path_drop(&dropped) && dspec_path_end(&ruled, false, 0) && dspec_path_end(&failed, true, 0));
    park(6, 3);
    flush();
    keep(6);
    stop();
    CHECK(has_alone((const uint64_t[]){ 1, 2, 3, 4, 5, 6 }, 6, 3) && report.kept == 6 && report.thrown == 0 && report.accepted == 18 && report.discarded == 0);
    CHECK(report.parked == report.park_kept && (report.parked == 2 || report.parked == 1)); /* 1: the consumer saw the key of path 5 between two calls on that */
    CHECK(atomic_load(&told_keys) == 0 && report.key_missed == 0); /* the program knows them already */
}

/* Keys that come in the order that goes back in time each time: more of them than a CPU of the folder has files. */
static void latest_first(void) {
    enum { PATHS = 100 };
    uint64_t all[PATHS];
    begin((dspec_tracer_options){ .lanes = 4, .paths = 4, .park_bytes = 65536 });
    for (uint64_t request = 1; request <= PATHS; request++) park(request, 3);
    for (uint64_t request = PATHS; request > 0; request--) {
        keep(request);
        flush();
        all[request - 1] = request;
    }
    park(PATHS + 1, 3);
    keep(PATHS + 1);
    stop();
    CHECK(report.park_kept == PATHS + 1 && report.key_missed == 0 && found[PATHS + 1].steps == 7);
    found[PATHS + 1].records = 0;
    CHECK(has_alone(all, PATHS, 3));
}

/* With a bound, of whose folders each has files of its own. Of a folder so many steps back are written that one CPU hasn't the files for them, and two have. */
static void latest_first_below_a_bound(void) {
    enum { PATHS = 260 };
    begin((dspec_tracer_options){ .lanes = 1, .paths = 4, .park_bytes = 65536, .max_bytes = 1900000, .max_folders = 8 });
    for (uint64_t request = 1; request <= PATHS; request++) park(request, 1);
    for (uint64_t request = PATHS; request > 0; request--) {
        keep(request);
        flush();
    }
    CHECK(dspec_tracer_stop(&tracer, &report) && report.park_kept == PATHS && report.not_written == 0 && report.gone_folders == 0);
    dspec_tracer_drop(&tracer);
}

/* A path that is kept here has the others of its key kept too, and the program is told of it once. */
static void kept_here(void) {
    dspec_path path;
    begin((dspec_tracer_options){ .lanes = 2, .paths = 8, .park_bytes = 4096, .on_keep = on_keep });
    park(7, 1);
    park(8, 1);
    path = path_of(7, 2, true);
    CHECK(dspec_path_keep(&path));
    path = path_of(9, 2, false);
    CHECK(dspec_path_keep(&path));
    is_told();
    read_trace();
    CHECK(found[7].records == 3 && found[7].paths == 2 && told_high == HIGH && told_low == 7); /* it was told after the write */
    path = path_of(7, 1, true);
    CHECK(dspec_path_keep_why(&path, DSPEC_WHY_FAILED));
    keep(8);
    stop();
    CHECK(atomic_load(&told_keys) == 1 && found[7].records == 4 && found[7].paths == 3 && found[8].records == 1 && found[9].records == 2 && report.kept == 5 && report.thrown == 0);
}

static void not_parked(void) {
    dspec_path path, copy;
    begin((dspec_tracer_options){ .lanes = 1, .paths = 2, .park_bytes = 4096 });
    path = path_of(1, 2, false);
    CHECK(!dspec_path_park(&path)); /* it has no key */
    path = dspec_path_begin(&tracer);
    CHECK(!dspec_path_park(&path) && query_in(&path, 1, 0) == DSPEC_UNAVAILABLE); /* nor records */
    path = path_of(2, 2, true);
    copy = path;
    CHECK(dspec_path_park(&path) && !dspec_path_park(&copy) && !dspec_path_keep(&copy));
    path = path_of(3, 2, true); /* it has the place of the one before */
    CHECK(!dspec_path_park(&copy) && dspec_path_is_open(&path) && dspec_path_park(&path));
    stop();
    CHECK(report.parked == 2 && report.park_left == 2 && report.thrown == 3 && report.kept == 0 && report.discarded == 6);
    CHECK(!dspec_tracer_keep_key(&tracer, HIGH, 2));
    begin((dspec_tracer_options){ .lanes = 1, .paths = 2 });
    path = path_of(1, 2, true);
    CHECK(!dspec_path_park(&path) && !dspec_tracer_keep_key(&tracer, HIGH, 1));
    CHECK(dspec_tracer_stop(&tracer, &report) && report.parked == 0 && report.thrown == 1 && report.kept == 0 && report.park_least_ms == 0);
    dspec_tracer_drop(&tracer);
}

/* ---- What goes. ---- */

/* Ten records of a path are 316 bytes, of which a ring of 1,024 has room for three. */
static void evicted(void) {
    static_assert(9 * RECORD_ALIGNED + RECORD == 316 && 3 * 316 <= 1024 && 4 * 316 > 1024, "three fit");
    begin((dspec_tracer_options){ .lanes = 1, .paths = 2, .park_bytes = 1024 });
    for (uint64_t request = 1; request <= 10; request++) park(request, 10);
    CHECK(dspec_tracer_counts(&tracer, &report) && report.park_evicted == 7 && report.park_left == 3 && report.thrown == 7);
    for (uint64_t request = 1; request <= 10; request++) keep(request);
    stop();
    CHECK(has_alone((const uint64_t[]){ 8, 9, 10 }, 3, 10) && report.parked == 10 && report.park_evicted == 7 && report.park_kept == 3 && report.park_left == 0);
    CHECK(report.key_missed == 7 && report.kept == 3 && report.thrown == 7 && report.accepted == 30 && report.discarded == 70 && report.park_least_ms < 600000);
}

/* A ring of 1,024 bytes has nine places, one for each 128 bytes and one more. */
static void without_places(void) {
    begin((dspec_tracer_options){ .lanes = 1, .paths = 2, .park_bytes = 1024 });
    for (uint64_t request = 1; request <= 20; request++) park(request, 1);
    for (uint64_t request = 1; request <= 20; request++) keep(request);
    stop();
    CHECK(has_alone((const uint64_t[]){ 12, 13, 14, 15, 16, 17, 18, 19, 20 }, 9, 1) && report.park_evicted == 11 && report.park_kept == 9);
    CHECK(report.key_missed == 9); /* of as many as there are places that is remembered beside those that are there */
}

/* Paths of keys that are remembered have to make room before the consumer comes to them: each of these is told as missed. */
static void gone_before_it_is_looked_at(void) {
    begin((dspec_tracer_options){ .lanes = 1, .paths = 2, .park_bytes = 1024, .period_ms = 100000 });
    for (uint64_t request = 1; request <= 15; request++) keep(request);
    flush();
    for (uint64_t request = 1; request <= 15; request++) park(request, 10);
    stop();
    CHECK(has_alone((const uint64_t[]){ 13, 14, 15 }, 3, 10) && report.parked == 15 && report.park_kept == 3 && report.park_evicted == 12 && report.key_missed == 12);
}

/* Paths that made room had been parked for so long at the least. */
static void held_for(void) {
    begin((dspec_tracer_options){ .lanes = 1, .paths = 2, .park_bytes = 1024 });
    const uint64_t began = dspec_tracer_now();
    for (uint64_t request = 1; request <= 3; request++) park(request, 10);
    is_noted();
    usleep(300000);
    is_noted();
    for (uint64_t request = 4; request <= 6; request++) park(request, 10);
    is_noted();
    stop();
    CHECK(report.park_evicted == 3 && report.park_least_ms >= 290 && report.park_least_ms <= (dspec_tracer_now() - began) / 1000000);
}

static void expired(void) {
    begin((dspec_tracer_options){ .lanes = 2, .paths = 2, .park_bytes = 4096, .park_ms = 2000, .remember_ms = 600000 });
    park(1, 3);
    park(2, 3);
    is_noted();
    usleep(2500000);
    keep(1);
    flush();
    park(3, 3);
    keep(3);
    flush();
    CHECK(dspec_tracer_counts(&tracer, &report) && report.park_expired == 2 && report.park_kept == 1 && report.thrown == 2);
    stop();
    CHECK(has_alone((const uint64_t[]){ 3 }, 1, 3) && report.parked == 3 && report.park_expired == 2 && report.park_kept == 1 && report.park_left == 0 && report.key_missed == 1);
    CHECK(report.kept == 1 && report.thrown == 2 && report.accepted == 3 && report.discarded == 6 && report.park_evicted == 0 && report.park_least_ms == UINT64_MAX);
}

/* The older of two paths is too old after a while, and the younger one isn't. An idle tracer has that seen before it looks for a key, and doesn't take a path for old that was parked after it was
 * idle. */
static void young_and_old(void) {
    begin((dspec_tracer_options){ .lanes = 1, .paths = 2, .park_bytes = 4096, .park_ms = 5000 });
    park(1, 3);
    is_noted();
    usleep(3000000);
    park(2, 3);
    is_noted();
    usleep(2600000);
    park(3, 3);
    for (uint64_t request = 1; request <= 3; request++) keep(request);
    stop();
    CHECK(has_alone((const uint64_t[]){ 2, 3 }, 2, 3) && report.park_expired == 1 && report.key_missed == 1);
}

/* A key is remembered for remember_ms, and then told anew. */
static void forgotten(void) {
    dspec_path path;
    begin((dspec_tracer_options){ .lanes = 2, .paths = 2, .park_bytes = 4096, .remember_ms = 20, .on_keep = on_keep });
    keep(1);
    flush();
    usleep(100000);
    park(1, 3);
    is_noted();
    CHECK(dspec_tracer_counts(&tracer, &report) && report.park_kept == 0);
    path = path_of(1, 3, true);
    CHECK(dspec_path_keep(&path));
    is_told();
    stop();
    CHECK(found[1].records == 6 && report.kept == 2 && report.park_kept == 1 && told_low == 1);
    begin((dspec_tracer_options){ .lanes = 2, .paths = 2, .park_bytes = 4096, .park_ms = 1, .remember_ms = 600000 });
    keep(1);
    flush();
    usleep(100000);
    park(1, 3);
    stop();
    CHECK(has_alone((const uint64_t[]){ 1 }, 1, 3));
}

/* A path whose last record had no room is told as cut. */
static void cut(void) {
    dspec_path path;
    begin((dspec_tracer_options){ .lanes = 1, .paths = 2, .specsize = 64, .park_bytes = 4096 });
    path = path_of(1, 2, true);
    CHECK(query_in(&path, 1, 2) == DSPEC_DROPPED && dspec_path_park(&path));
    keep(1);
    stop();
    CHECK(has_alone((const uint64_t[]){ 1 }, 1, 2) && last_told.cut == 1 && report.cut == 1 && report.specdropped == 1 && report.accepted == 2);
    begin((dspec_tracer_options){ .lanes = 1, .paths = 2, .specsize = 96, .park_bytes = 4096 });
    park(2, 3);
    path = path_of(1, 3, true);
    CHECK(query_in(&path, 1, 3) == DSPEC_DROPPED && dspec_path_park(&path));
    park(3, 3);
    keep(1);
    stop();
    CHECK(has_alone((const uint64_t[]){ 1 }, 1, 3) && last_told.cut == 1 && report.cut == 1 && report.specdropped == 1);
}

/* So is one whose first record is longer than a speculation. */
static void cut_at_once(void) {
    const dspec_tracer_options options = { .lanes = 1, .paths = 2, .specsize = 64, .park_bytes = 4096 };
    dspec_path path;
    without_folder();
    memset(&tracer, 0, sizeof tracer);
    CHECK(dspec_tracer_start(&tracer, folder, &options, DSPEC_PROBES(query, large)));
    path = dspec_path_begin(&tracer);
    CHECK(large_in(&path, 1, 2, 3, 4, 5, 6, 7) == DSPEC_DROPPED && query_in(&path, 1, 0) == DSPEC_OK);
    CHECK(dspec_path_key(&path, HIGH, 1) && dspec_path_park(&path));
    keep(1);
    CHECK(dspec_tracer_stop(&tracer, &report) && report.park_kept == 1 && report.cut == 1 && report.specdropped == 1);
    dspec_tracer_drop(&tracer);
}

/* The bytes of this process that are in memory. */
static uint64_t resident(void) {
    unsigned long pages = 0;
    FILE *file = fopen("/proc/self/statm", "r");
    if (file != NULL && fscanf(file, "%*u %lu", &pages) != 1) pages = 0;
    if (file != NULL) fclose(file);
    return (uint64_t)pages * (uint64_t)sysconf(_SC_PAGESIZE);
}

/* So many paths of 200 bytes, less 12, take no more than 16 MB, and no slot. */
static void many(void) {
    enum { PATHS_PARKED = 50000 };
    static_assert(5 * RECORD_ALIGNED + RECORD == 188, "six records");
    uint64_t before;
    begin((dspec_tracer_options){ .lanes = 1, .paths = 1, .park_bytes = 200 * PATHS_PARKED, .park_ms = 3600000 });
    before = resident();
    for (uint64_t request = 1; request <= PATHS_PARKED; request++) park(request, 6);
    CHECK(before > 0 && resident() - before <= 16u << 20);
    keep(1);
    keep(PATHS_PARKED);
    stop();
    CHECK(has_alone((const uint64_t[]){ 1, PATHS_PARKED }, 2, 6) && report.park_evicted == 0 && report.park_left == PATHS_PARKED - 2);
}

/* ---- The consumer is stuck, and the queue is full. More paths of a lane are due then than a turn keeps, and than a batch has room for. ---- */

static atomic_bool is_stuck, is_free;

static void sticks(void *context, uint64_t high, uint64_t low) {
    (void)context, (void)high, (void)low;
    atomic_store(&is_stuck, true);
    while (!atomic_load(&is_free)) usleep(1000);
}

static void full(void) {
    enum { WAITING = 4096, REFUSED = 10, FIRST = 100, FIRST_TAKEN = FIRST + REFUSED, LAST = 201, COUNT = LAST - FIRST_TAKEN + 1 };
    dspec_path path;
    uint64_t taken = 0, refused = 0, due[COUNT + 1];
    begin((dspec_tracer_options){ .lanes = 1, .paths = 2, .bufsize = 4096, .park_bytes = 65536, .on_keep = sticks });
    path = path_of(1, 1, true);
    CHECK(dspec_path_keep(&path));
    while (!atomic_load(&is_stuck)) usleep(1000);
    for (uint64_t request = 2; request <= LAST; request++) park(request, 3);
    for (uint64_t request = FIRST_TAKEN + WAITING - 1; request >= FIRST; request--) { /* those that are parked come last */
        if (dspec_tracer_keep_key(&tracer, HIGH, request)) taken++;
        else refused++;
    }
    CHECK(taken == WAITING && refused == REFUSED && !dspec_tracer_keep_key(&tracer, HIGH, 2));
    atomic_store(&is_free, true);
    flush();
    CHECK(dspec_tracer_counts(&tracer, &report) && report.park_kept == COUNT && report.keys_refused == REFUSED + 1);
    keep(3);
    stop();
    for (uint64_t request = FIRST_TAKEN; request <= LAST; request++) due[request - FIRST_TAKEN] = request;
    due[COUNT] = 3;
    found[1] = (found_request){ 0, 0, 0 };
    CHECK(report.park_kept == COUNT + 1 && has_alone(due, COUNT + 1, 3));
    CHECK(report.kept == COUNT + 2 && report.park_left == 200 - report.park_kept && report.thrown == report.park_left && report.key_missed == 0);
}

/* ---- From threads and handlers. ---- */

static void *parks(void *path) { return dspec_path_park(path) ? path : NULL; }

static void on_signal(int signal) {
    (void)signal;
    keep(1);
}

static void from_elsewhere(void) {
    pthread_t thread;
    void *made;
    dspec_path path;
    begin((dspec_tracer_options){ .lanes = 2, .paths = 2, .park_bytes = 4096 });
    path = path_of(1, 3, true);
    if (CHECK(pthread_create(&thread, NULL, parks, &path) == 0)) pthread_join(thread, &made);
    CHECK(made == &path);
    path = path_of(2, 3, true);
    if (CHECK(pthread_create(&thread, NULL, parks, &path) == 0)) pthread_join(thread, &made);
    signal(SIGUSR1, on_signal);
    CHECK(raise(SIGUSR1) == 0);
    stop();
    CHECK(has_alone((const uint64_t[]){ 1 }, 1, 3) && report.parked == 2);
}

/* A crash keeps what is open, and nothing that is parked. The program recovers in a child's place: it ends there. */
static void crashes(void) {
    dspec_path path;
    begin((dspec_tracer_options){ .lanes = 2, .paths = 2, .park_bytes = 4096, .on_keep = on_keep });
    park(1, 3);
    park(3, 3);
    path = path_of(2, 3, true);
    park(2, 3);
    (void)path;
    raise(SIGSEGV);
}

/* ---- What can't be. ---- */

static void refused(void) {
    static const struct {
        dspec_tracer_options options;
        const char *why;
    } all[] = {
        { { .park_ms = 1 }, "on_keep need park_bytes" },
        { { .remember_ms = 1 }, "on_keep need park_bytes" },
        { { .on_keep = on_keep }, "on_keep need park_bytes" },
        { { .park_bytes = 4096, .keep_last = true }, "park_bytes and keep_last are both set" },
        { { .park_bytes = 4095 }, "park_bytes is below specsize" },
        { { .park_bytes = ((uint64_t)1 << 32) + 1 }, "park_bytes is above 2^32" },
    };
    for (size_t i = 0; i < sizeof all / sizeof all[0]; i++) {
        memset(&tracer, 0, sizeof tracer);
        without_folder();
        CHECK(!dspec_tracer_start(&tracer, folder, &all[i].options, DSPEC_PROBES(query)) && strstr(tracer.why, all[i].why) != NULL);
    }
    setenv("DSPEC_TRACE", folder, 1);
    for (int words = 0; words < 2; words++) {
        char text[4400];
        snprintf(text, sizeof text, "%.4000s,park=%s,parked=2s,remember=3s", folder, words == 0 ? "64K" : "1K");
        setenv("DSPEC_TRACE", text, 1);
        without_folder();
        memset(&tracer, 0, sizeof tracer);
        CHECK(dspec_tracer_start_env(&tracer, NULL, DSPEC_PROBES(query)) == (words == 0));
        if (words == 0) park(1, 1);
        dspec_tracer_drop(&tracer);
    }
}

/* ---- All at once. ---- */

enum { THREADS = 8, REQUESTS = 300, PATHS = 3, STEPS = 3, ACTS = 3 * PATHS + 1 };

/* A path of a request on its way through threads, which have it one after another. */
typedef struct carried {
    dspec_path path;
    uint64_t request;
    uint32_t at; /* its number among the request's */
} carried;

static pthread_barrier_t all_played;
static pthread_mutex_t desk = PTHREAD_MUTEX_INITIALIZER;
static carried left[THREADS * PATHS * REQUESTS];
static size_t left_count;
static uint64_t seed;
static atomic_uint ended_badly;
static uint8_t told_of[MOST];

static void notes(void *context, uint64_t high, uint64_t low) {
    (void)context;
    if (high == HIGH && low < MOST && told_of[low] < UINT8_MAX) told_of[low]++;
}

static bool is_due(uint64_t request) { return request % 10 == 3; }

/* A request of two that are due is kept by a path here, the other by its key. */
static bool is_kept_here(uint64_t request) { return is_due(request) && request % 20 == 3; }

static void ends(carried *one) {
    if (one->at == 0 && is_kept_here(one->request)) ended_badly += !dspec_path_keep(&one->path);
    else ended_badly += !dspec_path_park(&one->path);
}

/* One of the paths that are on their way, at random; where there is none, false. */
static bool takes(carried *one, dice *d) {
    bool is_there;
    pthread_mutex_lock(&desk);
    is_there = left_count > 0;
    if (is_there) {
        const size_t at = below(d, (uint32_t)left_count);
        *one = left[at];
        left[at] = left[--left_count];
    }
    pthread_mutex_unlock(&desk);
    return is_there;
}

static void leaves(const carried *one) {
    pthread_mutex_lock(&desk);
    left[left_count++] = *one;
    pthread_mutex_unlock(&desk);
}

static void tells(uint64_t request) {
    while (!dspec_tracer_keep_key(&tracer, HIGH, request)) usleep(100);
}

/* A step of somebody's path: its next record, its end, or over to another thread. */
static void goes_on(dice *d) {
    carried one;
    if (!takes(&one, d)) return;
    if (below(d, 3) == 0) {
        if (!dspec_path_is_open(&one.path)) ended_badly++;
        ends(&one);
    } else {
        leaves(&one);
    }
}

static void *plays(void *number) {
    dice d = { seed * 1000 + *(uint64_t *)number };
    for (uint64_t i = 0; i < REQUESTS; i++) {
        const uint64_t request = 1 + *(uint64_t *)number * REQUESTS + i;
        const uint32_t when = below(&d, PATHS + 1);
        for (uint32_t at = 0; at < PATHS; at++) {
            carried one = { dspec_path_begin(&tracer), request, at };
            if (is_due(request) && !is_kept_here(request) && at == when) tells(request);
            for (uint32_t step = 0; step < STEPS; step++) ended_badly += query_in(&one.path, request, step) != DSPEC_OK;
            ended_badly += !dspec_path_key(&one.path, HIGH, request);
            if (below(&d, 4) == 0) leaves(&one);
            else ends(&one);
            while (below(&d, 2) == 0) goes_on(&d);
        }
        if (is_due(request) && !is_kept_here(request) && when == PATHS) tells(request);
    }
    return number;
}

static void *plays_on(void *number) {
    dice d = { seed * 1000 + 77 + *(uint64_t *)number };
    void *done = plays(number);
    carried one;
    pthread_barrier_wait(&all_played); /* a path whose thread ends would be thrown away */
    while (takes(&one, &d)) ends(&one);
    pthread_barrier_wait(&all_played);
    return done;
}

/* Whether what the folder has is all of what was due, and nothing else. */
static void judge(void) {
    uint64_t due = 0;
    stop();
    for (uint64_t request = 0; request < MOST; request++) {
        const bool is = request >= 1 && request <= THREADS * REQUESTS && is_due(request);
        due += is;
        if (!CHECK(found[request].records == (is ? PATHS * STEPS : 0) && found[request].paths == (is ? PATHS : 0) && found[request].steps == (is ? 7u : 0u)))
            printf("request %llu: %u records, %u paths\n", (unsigned long long)request, found[request].records, found[request].paths);
        CHECK(told_of[request] == (is && is_kept_here(request)));
    }
    CHECK(of_others == 0 && ended_badly == 0 && report.kept == PATHS * due && report.accepted == PATHS * STEPS * due && report.thrown == PATHS * (THREADS * REQUESTS - due));
    CHECK(report.park_evicted == 0 && report.park_expired == 0 && report.key_missed == 0 && report.keys_refused == 0 && report.discarded == PATHS * STEPS * (THREADS * REQUESTS - due));
}

static int all_at_once(int argc, char **argv) {
    dspec_tracer_options options = { .lanes = 8, .paths = 63, .park_bytes = 8 << 20, .bufsize = 1 << 20, .park_ms = 3600000, .keep_ms = 600000, .on_keep = notes };
    pthread_t threads[THREADS];
    uint64_t numbers[THREADS];
    seed = strtoull(argv[2], NULL, 10);
    for (int i = 3; i < argc; i++) {
        if (strcmp(argv[i], "exchange=1") == 0) options.no_membarrier = true;
        if (strcmp(argv[i], "by_thread=1") == 0) options.by_thread = true;
        if (strcmp(argv[i], "lanes=2") == 0) options.lanes = 2;
    }
    begin(options);
    pthread_barrier_init(&all_played, NULL, THREADS);
    for (uint64_t i = 0; i < THREADS; i++) {
        numbers[i] = i;
        CHECK(pthread_create(&threads[i], NULL, plays_on, &numbers[i]) == 0);
    }
    for (size_t i = 0; i < THREADS; i++) pthread_join(threads[i], NULL);
    judge();
    return check_end();
}

int main(int argc, char **argv) {
    folder = argv[1];
    if (argc > 2 && strcmp(argv[2], "crash") == 0) crashes();
    if (argc > 2) return all_at_once(argc, argv);
    one_of_many();
    in_any_order();
    latest_first();
    latest_first_below_a_bound();
    kept_here();
    not_parked();
    evicted();
    without_places();
    gone_before_it_is_looked_at();
    held_for();
    expired();
    young_and_old();
    forgotten();
    cut();
    cut_at_once();
    many();
    full();
    from_elsewhere();
    refused();
    without_folder();
    return check_end();
}
