/* What dspec_salvage takes of a memory's file, at each of its bounds, by hand: the head of the file (tracer/salvage_file.c), what the process of a lane tells through its pipe (tracer/salvage_lane.c), and parked paths on their way (tracer/salvage_taken.c). Its last
 * line counts its checks. */
#include "../fuzz/memory.h"

#include "../../tracer/salvage_lane.c"

#undef MUST /* the fuzzers' */
#include "check.h"

static const char damaged[] = "its head is damaged";

/* ---- The head of the file. ---- */

static bool says(const char *why, const char *due) { return due == NULL ? why == NULL : why != NULL && strstr(why, due) != NULL; }

/* A head with a change, and with a sum that fits, is refused with these words; NULL: it is taken. */
static void head_is(void (*change)(saved_head *), const char *what, const char *due, int line) {
    static saved_file file;
    saved_head *head = (saved_head *)(void *)memory_now;
    const char *why;
    memset(&file, 0, sizeof file);
    memcpy(memory_now, memory_whole, memory_size);
    change(head);
    head->sum = saved_sum(head);
    why = saved_file_read(&file, memory_at);
    if (!check_counts(says(why, due), what, line)) printf("%s, and not: %s\n", why != NULL ? why : "it is taken", due != NULL ? due : "it is taken");
    saved_file_drop(&file);
}

static void stays(saved_head *head) { (void)head; }

/* Each change of a head is a function of its own, which the table names. */
#define CHANGES(NAME, CHANGE) \
    static void NAME(saved_head *head) { CHANGE; }

CHANGES(no_host, head->host[0] = 0)
CHANGES(endless_host, memset(head->host, 'a', sizeof head->host))
CHANGES(endless_program, memset(head->program, 'a', sizeof head->program))
CHANGES(endless_folder, memset(head->folder, '/', sizeof head->folder))
CHANGES(folder_of_another_place, head->folder[0] = 'a')
CHANGES(no_event_name, head->events[0].name[0] = 0)
CHANGES(endless_event, memset(head->events[0].name, 'a', sizeof head->events[0].name))
CHANGES(no_field_name, head->events[0].fields[1][0] = 0)
CHANGES(endless_field, memset(head->events[0].fields[1], 'a', sizeof head->events[0].fields[0]))
CHANGES(no_fields, head->events[0].count = 0)
CHANGES(more_fields_than_words, head->events[0].words = (uint8_t)(head->events[0].count - 1))
CHANGES(first_word_is_a_next, head->events[0].kinds[0] = DSPEC_KIND_TEXT_NEXT)
CHANGES(fewer_names_than_fields, head->events[0].kinds[1] = DSPEC_KIND_TEXT_NEXT)
CHANGES(no_events, head->events_count = 0)

/* An event of so many words, each a field of its own. */
static void words_are(saved_head *head, uint8_t count) {
    saved_event *event = &head->events[0];
    for (size_t i = 0; i < DSPEC_MAX_FIELDS; i++) {
        event->fields[i][0] = 'a';
        event->fields[i][1] = 0;
        event->kinds[i] = DSPEC_KIND_UNSIGNED;
        event->widths[i] = 1;
    }
    event->count = event->words = count;
}
CHANGES(most_words, words_are(head, DSPEC_MAX_FIELDS))
CHANGES(a_word_more, words_are(head, DSPEC_MAX_FIELDS + 1))

/* So many events, the one after the last place too, which is where the labels are. */
static void events_are(saved_head *head, uint32_t count) {
    saved_event *events = head->events;
    for (size_t i = 0; i <= DSPEC_MAX_ENABLINGS; i++) {
        memmove((uint8_t *)events + i * sizeof *events, events, sizeof *events);
        memset((uint8_t *)events + i * sizeof *events + offsetof(saved_event, labels), 0, sizeof events->labels);
    }
    head->events_count = count;
}
CHANGES(most_events, events_are(head, DSPEC_MAX_ENABLINGS))
CHANGES(an_event_more, events_are(head, DSPEC_MAX_ENABLINGS + 1))

/* So many labels, in a room that is full of this. */
static void labels_are(saved_head *head, uint8_t of, uint32_t first, uint32_t second) {
    for (uint32_t i = 0; i < head->events_count; i++) memset(head->events[i].labels, 0, sizeof head->events[i].labels);
    memset(head->labels, of, sizeof head->labels);
    head->events[0].labels[0] = (uint16_t)first;
    head->events[0].labels[1] = (uint16_t)second;
}
static void longest_label(saved_head *head) {
    labels_are(head, 'a', 1, 0);
    head->labels[sizeof head->labels - 1] = 0;
}
CHANGES(endless_label, labels_are(head, 'a', 1, 0))
static void label_after_the_longest(saved_head *head) {
    longest_label(head);
    head->events[0].labels[1] = 1;
}
static void endless_label_after_another(saved_head *head) {
    labels_are(head, 'a', 2, 0);
    head->labels[sizeof head->labels / 2] = 0;
}
CHANGES(most_labels, labels_are(head, 0, UINT16_MAX, SURVIVE_LABELS - UINT16_MAX))
CHANGES(a_label_more, labels_are(head, 0, UINT16_MAX, SURVIVE_LABELS - UINT16_MAX + 1))

static void clock_is(saved_head *head, uint64_t hertz, uint64_t seconds, uint64_t ticks) { head->clocks[head->clock] = (saved_clock){ hertz, seconds, ticks }; }
CHANGES(no_hertz, clock_is(head, 0, 5, 0))
CHANGES(most_hertz, clock_is(head, 1000000000000, 5, 0))
CHANGES(a_hertz_more, clock_is(head, 1000000000001, 5, 0))
CHANGES(last_second, clock_is(head, 1000, UINT64_C(9223372034), 999))
CHANGES(a_second_more, clock_is(head, 1000, UINT64_C(9223372034), 1000))
CHANGES(no_second, clock_is(head, 1000, UINT64_MAX, 0))
CHANGES(third_clock, head->clock = 2)

CHANGES(no_lanes, head->lanes = 0)
CHANGES(too_many_lanes, head->lanes = DSPEC_MAX_LANES + 1)
CHANGES(another_lane_size, head->lane_size++)
CHANGES(another_head_size, head->head_size += 4096)
CHANGES(another_body_size, head->body_size += 4096)
CHANGES(body_elsewhere, head->body_at += 4096)
CHANGES(memory_elsewhere, head->memory_at += 4096)
CHANGES(a_byte_more, head->size++)
CHANGES(no_paths, head->paths = 0)
CHANGES(too_many_paths, head->paths = MAX_OPEN)
CHANGES(no_buffer, head->bufsize = 0)
CHANGES(odd_buffer, head->bufsize = 12)
CHANGES(too_large_a_buffer, head->bufsize = SAVED_MOST_BYTES + 8)
CHANGES(last_place, head->address = SURVIVE_FIRST + (SURVIVE_PLACES - 1) * SURVIVE_APART)
CHANGES(place_after_the_last, head->address = SURVIVE_FIRST + SURVIVE_PLACES * SURVIVE_APART)
CHANGES(place_before_the_first, head->address = SURVIVE_FIRST - SURVIVE_APART)
CHANGES(place_between, head->address += 4096)

CHANGES(not_made, head->magic = 0)
CHANGES(another_file, head->magic++)
CHANGES(another_version, head->version++)
CHANGES(another_build, head->build[0]++)
CHANGES(endless_build, memset(head->build, 'a', sizeof head->build))

#define HEAD(CHANGE, DUE) head_is(CHANGE, #CHANGE, DUE, __LINE__)

static void heads(void) {
    HEAD(stays, NULL);
    HEAD(no_host, damaged), HEAD(endless_host, damaged), HEAD(endless_program, damaged), HEAD(endless_folder, damaged), HEAD(folder_of_another_place, damaged);
    HEAD(no_event_name, damaged), HEAD(endless_event, damaged), HEAD(no_field_name, damaged), HEAD(endless_field, damaged), HEAD(no_fields, damaged);
    HEAD(more_fields_than_words, damaged), HEAD(first_word_is_a_next, damaged), HEAD(fewer_names_than_fields, damaged), HEAD(no_events, damaged);
    HEAD(most_words, NULL), HEAD(a_word_more, damaged), HEAD(most_events, NULL), HEAD(an_event_more, damaged);
    HEAD(longest_label, NULL), HEAD(endless_label, damaged), HEAD(label_after_the_longest, damaged), HEAD(endless_label_after_another, damaged), HEAD(most_labels, NULL), HEAD(a_label_more, damaged);
    HEAD(no_hertz, damaged), HEAD(most_hertz, NULL), HEAD(a_hertz_more, damaged), HEAD(last_second, NULL), HEAD(a_second_more, damaged), HEAD(no_second, damaged), HEAD(third_clock, damaged);
    HEAD(no_lanes, damaged), HEAD(too_many_lanes, damaged), HEAD(another_lane_size, damaged), HEAD(another_head_size, damaged), HEAD(another_body_size, damaged);
    HEAD(body_elsewhere, damaged), HEAD(memory_elsewhere, damaged), HEAD(a_byte_more, damaged), HEAD(no_paths, damaged), HEAD(too_many_paths, damaged);
    HEAD(no_buffer, damaged), HEAD(odd_buffer, damaged), HEAD(too_large_a_buffer, damaged), HEAD(last_place, NULL), HEAD(place_after_the_last, damaged);
    HEAD(place_before_the_first, damaged), HEAD(place_between, damaged);
    HEAD(not_made, "not made to its end"), HEAD(another_file, "no memory of a tracer"), HEAD(another_version, "of another build"), HEAD(another_build, "of another build"), HEAD(endless_build, "of another build");
}

/* The last stamp that a reader can place in time is that of the last whole second. */
static void last_stamp(void) {
    static const struct {
        uint64_t hertz, seconds, ticks, due;
    } all[] = { { 1000, UINT64_C(9223372030), 0, 4000 }, { 1000, UINT64_C(9223372030), 1999, 3000 }, { 1000, UINT64_C(9223372034), 999, 0 }, { UINT64_C(1000000000000), 0, 0, UINT64_MAX } };
    for (size_t i = 0; i < sizeof all / sizeof all[0]; i++) {
        static saved_file file;
        memset(&file, 0, sizeof file);
        memcpy(memory_now, memory_whole, memory_size);
        clock_is((saved_head *)(void *)memory_now, all[i].hertz, all[i].seconds, all[i].ticks);
        CHECK(saved_file_read(&file, memory_at) == NULL && file.latest == all[i].due);
        saved_file_drop(&file);
    }
}

/* ---- What the process of a lane tells. ---- */

enum { LATEST = 1000, RECORD = 16, MOST_FOUND = 8 };
static struct {
    found_kind kind;
    uint32_t place;
    uint64_t drops, records;
    uint32_t first; /* the value of its first record */
    uint32_t thread;
    uint64_t key[2];
} found[MOST_FOUND];
static size_t founds;
static int pipe_of;

static bool finds(void *of, found_batch *batch) {
    if (!CHECK(founds < MOST_FOUND)) return false;
    found[founds].kind = batch->kind;
    found[founds].place = batch->place;
    found[founds].drops = batch->batch.drops;
    found[founds].records = batch->records;
    found[founds].first = batch->batch.len >= RECORD ? (uint32_t)dspec_number_at(batch->batch.bytes + RECORD - 4, 4) : 0;
    found[founds].thread = batch->thread;
    memcpy(found[founds].key, batch->key, sizeof batch->key);
    CHECK(batch->batch.len == batch->records * RECORD);
    founds++;
    return of != NULL;
}

static void tell(struct told event, uint32_t records, uint64_t stamp) {
    uint8_t bytes[8 * RECORD] = { 0 };
    for (uint32_t i = 0; i < records; i++) {
        number_put(bytes + i * RECORD, 1, 4);
        number_put(bytes + i * RECORD + 4, stamp + i, 8);
        number_put(bytes + i * RECORD + 12, 10 + i, 4);
    }
    event.length = (uint64_t)records * RECORD;
    CHECK(write(pipe_of, &event, sizeof event) == (ssize_t)sizeof event && write(pipe_of, bytes, event.length) == (ssize_t)event.length);
}

static void tell_word(uint32_t what) { tell((struct told){ .what = what }, 0, 0); }

/* Whether all is well that was told, in a memory whose speculations have so many bytes; the pipe is empty then. */
static uint64_t last_mark = UINT64_C(10) << 32; /* of the path at the last place */

static bool is_heard(uint32_t specsize) {
    static saved_head head;
    static saved_file file;
    static _Alignas(body) uint8_t of_tracer[sizeof(body) + sizeof(struct lane)];
    uint8_t bytes[256];
    bool is_well;
    head.bufsize = sizeof bytes;
    head.specsize = specsize;
    file.head = &head;
    file.tracer = (body *)(void *)of_tracer;
    file.tracer->lanes[0].open[MAX_OPEN - 1].mark = last_mark;
    file.tracer->lanes[0].open[MAX_OPEN - 1].thread = 73;
    file.tracer->lanes[0].open[MAX_OPEN - 1].key_state = HAS_KEY;
    file.tracer->lanes[0].open[MAX_OPEN - 1].key[0] = 71;
    file.tracer->lanes[0].open[MAX_OPEN - 1].key[1] = 72;
    file.latest = LATEST;
    file.layout.stamped = true;
    file.layout.enablings = 1;
    file.layout.of[0].fields = 1;
    file.layout.of[0].widths[0] = 4;
    founds = 0;
    CHECK(lseek(pipe_of, 0, SEEK_SET) == 0);
    is_well = hear(&file, pipe_of, 0, bytes, finds, &file);
    CHECK(ftruncate(pipe_of, 0) == 0 && lseek(pipe_of, 0, SEEK_SET) == 0);
    free(file.scratch.copy);
    file.scratch.copy = NULL;
    file.scratch.copy_size = 0;
    return is_well;
}

static bool is_found(size_t at, found_kind kind, uint32_t place, uint64_t drops, uint64_t records, uint32_t first) {
    return founds > at && found[at].kind == kind && found[at].place == place && found[at].drops == drops && found[at].records == records && found[at].first == first;
}

/* Batches as they are told, with what is missed, but of an open path. */
static void batches(void) {
    CHECK(!is_heard(64)); /* the process ended early */
    tell((struct told){ .what = FOUND_BROUGHT, .drops = 3, .count = 2 }, 2, 5);
    tell((struct told){ .what = FOUND_KEPT, .drops = MOST_DROPS, .count = 1 }, 1, LATEST);
    tell((struct told){ .what = FOUND_OPEN, .place = MAX_OPEN - 1, .drops = 9, .count = 3 }, 3, 5);
    tell_word(TELLS_END);
    CHECK(is_heard(64) && founds == 3 && is_found(0, FOUND_BROUGHT, 0, 3, 2, 10) && is_found(1, FOUND_KEPT, 0, MOST_DROPS, 1, 10) && is_found(2, FOUND_OPEN, MAX_OPEN - 1, 0, 3, 10));
}

static bool has_key(size_t at, uint64_t high, uint64_t low) { return found[at].key[0] == high && found[at].key[1] == low; }

/* An open path has the key that was noted for it. A parked one has that under which it was parked, and is refused where a record isn't of the path that was parked. */
static void keys(void) {
    tell((struct told){ .what = FOUND_OPEN, .place = MAX_OPEN - 1, .count = 1 }, 1, 5);
    tell((struct told){ .what = FOUND_OPEN, .place = 0, .count = 1 }, 1, 5);
    tell((struct told){ .what = FOUND_PARKED, .key = { 81, 82 }, .path = 10 }, 1, 5);
    tell((struct told){ .what = FOUND_PARKED, .key = { 91, 92 }, .path = 7 }, 0, 5);
    tell_word(TELLS_END);
    CHECK(is_heard(64) && founds == 4 && has_key(0, 71, 72) && has_key(1, 0, 0) && has_key(2, 81, 82) && has_key(3, 91, 92));
    CHECK(is_found(2, FOUND_PARKED, 0, 0, 1, 10) && is_found(3, FOUND_PARKED, 0, 0, 0, 0) && found[0].thread == 73 && found[1].thread == 0);
    last_mark = 0; /* its place isn't noted yet, and has the key of the path before */
    tell((struct told){ .what = FOUND_OPEN, .place = MAX_OPEN - 1, .count = 1 }, 1, 5);
    tell_word(TELLS_END);
    CHECK(is_heard(64) && founds == 1 && has_key(0, 0, 0) && found[0].thread == 0);
    last_mark = UINT64_C(10) << 32;
    tell((struct told){ .what = FOUND_PARKED, .key = { 81, 82 }, .path = 11 }, 1, 5);
    tell_word(TELLS_END);
    CHECK(!is_heard(64));
    tell((struct told){ .what = FOUND_PARKED, .key = { 81, 82 }, .path = 10 }, 2, 5);
    tell_word(TELLS_END);
    CHECK(!is_heard(64));
}

/* Of a buffer that the session can't hand out: the records that were meant, and none before or after them. */
static void parts(void) {
    tell((struct told){ .what = FOUND_KEPT, .skipped = 1, .count = 2, .is_part = 1 }, 5, 5);
    tell((struct told){ .what = FOUND_OPEN, .place = 2, .skipped = 3, .count = 2, .is_part = 1 }, 5, 5);
    tell_word(TELLS_END);
    CHECK(is_heard(64) && founds == 2 && is_found(0, FOUND_KEPT, 0, 0, 2, 11) && is_found(1, FOUND_OPEN, 2, 0, 2, 13));
    tell((struct told){ .what = FOUND_KEPT, .skipped = 4, .count = 2, .is_part = 1 }, 5, 5);
    CHECK(!is_heard(64) && founds == 0);
    tell((struct told){ .what = FOUND_KEPT, .skipped = 6, .count = 0, .is_part = 1 }, 5, 5);
    CHECK(!is_heard(64) && founds == 0);
}

/* What is beyond a bound ends the lane. */
static void bounds(void) {
    static const struct told all[] = { { .what = 0 }, { .what = 7 }, { .what = FOUND_OPEN, .place = MAX_OPEN }, { .what = FOUND_KEPT, .drops = MOST_DROPS + 1 }, { .what = FOUND_KEPT, .count = 1 } };
    for (size_t i = 0; i < sizeof all / sizeof all[0]; i++) {
        tell(all[i], 0, 0);
        tell_word(TELLS_END);
        CHECK(!is_heard(64) && founds == 0);
    }
    tell((struct told){ .what = FOUND_KEPT, .count = 3 }, 2, 5);
    tell_word(TELLS_END);
    CHECK(!is_heard(64) && founds == 0);
    tell((struct told){ .what = FOUND_KEPT, .count = 2 }, 2, LATEST);
    tell_word(TELLS_END);
    CHECK(!is_heard(64) && founds == 0);
}

/* A record that was being made may be counted and not there, or the other way round: as many as a speculation has. */
static void may_differ(void) {
    const uint32_t most = 64 / LEAST_OF_A_RECORD + 1;
    const struct {
        uint64_t count;
        bool due;
    } all[] = { { 2 + most, true }, { 3 + most, false }, { 2, true } };
    for (size_t i = 0; i < sizeof all / sizeof all[0]; i++) {
        tell((struct told){ .what = FOUND_KEPT, .count = all[i].count, .may_differ = 1 }, 2, 5);
        tell_word(TELLS_END);
        CHECK(is_heard(64) == all[i].due && founds == (size_t)all[i].due);
    }
    tell((struct told){ .what = FOUND_KEPT, .count = 0, .may_differ = 1 }, 8, 5);
    tell_word(TELLS_END);
    CHECK(!is_heard(64) && founds == 0);
}

/* Of what may be half of something, what fits isn't lost for what doesn't, and an end that is missing ends it. */
static void torn(void) {
    tell_word(TELLS_TORN);
    tell((struct told){ .what = FOUND_KEPT, .count = 3 }, 2, 5);
    tell((struct told){ .what = FOUND_OPEN, .place = 1, .count = 1 }, 1, 7);
    CHECK(is_heard(64) && founds == 1 && is_found(0, FOUND_OPEN, 1, 0, 1, 10));
}

static void without_top(void) {
    char words[96];
    snprintf(words, sizeof words, "rm -rf '%s'", fuzz_top);
    CHECK(system(words) == 0);
}

/* ---- Parked paths that were taken out of their ring. ---- */

enum { OF_PROGRAM = 1, OF_PATH = 2, TAKEN_RECORD = 20, TAKEN_BUFFER = 240, TAKEN_SIZE = TAKEN_BUFFER + 2 * BYTES_OF_PATH, TAKEN_AT = 64 };

/* A memory of one lane, in which nothing is on its way; its file has the bytes that come after the tracer. */
static saved_file *memory_of_taken(uint8_t bytes[TAKEN_SIZE]) {
    static const uint8_t of_path[] = { 4, 8, 8, 8, 8, 8 };
    static saved_head head;
    static saved_file file;
    static _Alignas(body) uint8_t of_tracer[sizeof(body) + sizeof(struct lane)];
    head.bufsize = TAKEN_BUFFER;
    head.body_at = TAKEN_AT / 2;
    head.body_size = TAKEN_AT / 2;
    file.head = &head;
    file.latest = LATEST;
    file.layout = (dspec_layout){ .stamped = true, .enablings = 2 };
    file.layout.of[0].fields = 2;
    file.layout.of[0].widths[0] = file.layout.of[0].widths[1] = 4;
    file.layout.of[1].fields = sizeof of_path;
    memcpy(file.layout.of[1].widths, of_path, sizeof of_path);
    file.tracer = (body *)(void *)of_tracer;
    file.tracer->claim_of_path = UINT64_C(7) << 32 | OF_PATH;
    head.lanes = 2;
    file.tracer->taken = (taken_paths){ .state = IS_TAKING, .lane = 1, .cpu = 2, .next = { .at = NO_NEXT }, .before = 9 };
    memset(bytes, 0, TAKEN_SIZE);
    return &file;
}

/* Adds records of a path, made at these times. */
static void add_records(taken_path *path, uint8_t *bytes, uint32_t number, uint32_t count, uint64_t stamp) {
    *path = (taken_path){ { 70, 71 }, number, 3, 0, path->at, count * TAKEN_RECORD };
    for (uint32_t i = 0; i < count; i++) {
        uint8_t *record = bytes + path->at + i * TAKEN_RECORD;
        number_put(record, OF_PROGRAM, 4);
        number_put(record + 4, stamp + i, 8);
        number_put(record + 12, number, 4);
        number_put(record + 16, 90 + i, 4);
    }
}

/* Adds a path of two records, with its event. */
static void add_path(saved_file *file, uint8_t *bytes, uint32_t number) {
    taken_paths *taken = &file->tracer->taken;
    taken_path path = { .at = taken->used };
    add_records(&path, bytes, number, 2, 5);
    taken->used = taken_put_event(&file->layout, file->tracer->claim_of_path, &path, 8, bytes);
    taken->count++;
}

/* The path that is being taken, of so many records. */
static void begin_next(saved_file *file, uint8_t *bytes, uint32_t number, uint32_t count) {
    file->tracer->taken.next.at = file->tracer->taken.used;
    add_records(&file->tracer->taken.next, bytes, number, count, 5);
}

/* What is read of a file that has these bytes. */
static const char *reads_taken(saved_file *file, const uint8_t *bytes, size_t size, bool is_parked, found_batch *batch) {
    static uint8_t kept[TAKEN_SIZE];
    uint8_t *read_of = NULL;
    const char *why;
    file->at = memfd_create("taken", MFD_CLOEXEC);
    CHECK(file->at >= 0 && pwrite(file->at, bytes, size, TAKEN_AT) == (ssize_t)size);
    why = saved_taken_read(file, is_parked, batch, &read_of);
    close(file->at);
    if (why != NULL) return why;
    memcpy(kept, read_of, sizeof kept);
    free(read_of);
    batch->batch.bytes = kept;
    return NULL;
}

/* The numbers of the paths of a batch, and how many records each has beside its event. */
static bool has_paths(const saved_file *file, const found_batch *batch, uint32_t first, uint32_t first_records, uint32_t second, uint32_t second_records) {
    const uint32_t numbers[] = { first, second }, records[] = { first_records, second_records };
    dspec_record record;
    size_t at = 0;
    for (size_t path = 0; path < 2 && numbers[path] != 0; path++) {
        for (uint32_t i = 0; i <= records[path]; i++)
            if (dspec_read(&file->layout, batch->batch.bytes, batch->batch.len, &at, &record) != DSPEC_READ || record.values[0] != numbers[path] || (record.epid == OF_PATH) != (i == records[path]))
                return false;
        if (record.values[1] != 3 || record.values[2] != (uint64_t)DSPEC_WHY_KEY << 32 || record.values[4] != 70 || record.values[5] != 71) return false;
        if (record.values[3] != (records[path] > 0 ? 5 : 0)) return false;
    }
    return at == batch->batch.len;
}

static const char not_whole[] = "aren't whole paths";

/* What was taken is whole, and of the path that was being taken it is known whether it is in its ring still. */
static void taken_whole(void) {
    uint8_t bytes[TAKEN_SIZE];
    saved_file *file = memory_of_taken(bytes);
    taken_paths *taken = &file->tracer->taken;
    found_batch batch;
    CHECK(says(reads_taken(file, bytes, sizeof bytes, false, &batch), NULL) && batch.kind == FOUND_KEPT && batch.records == 0);
    add_path(file, bytes, 11);
    add_path(file, bytes, 12);
    CHECK(says(reads_taken(file, bytes, sizeof bytes, false, &batch), NULL) && batch.kind == FOUND_KEPT && batch.batch.cpu == 1 && batch.records == 6 && has_paths(file, &batch, 11, 2, 12, 2));
    taken->state = IS_WRITING;
    CHECK(says(reads_taken(file, bytes, sizeof bytes, false, &batch), NULL) && batch.kind == FOUND_BROUGHT && batch.batch.cpu == 2 && batch.before == 9 && batch.records == 6);
    file = memory_of_taken(bytes);
    add_path(file, bytes, 11);
    begin_next(file, bytes, 13, 3);
    CHECK(says(reads_taken(file, bytes, sizeof bytes, false, &batch), NULL) && batch.records == 7 && has_paths(file, &batch, 11, 2, 13, 3));
    CHECK(dspec_number_at(batch.batch.bytes + batch.batch.len - BYTES_OF_PATH + 4, 8) == 7); /* as its last record was made */
    CHECK(says(reads_taken(file, bytes, sizeof bytes, true, &batch), NULL) && batch.records == 3 && has_paths(file, &batch, 11, 2, 0, 0));
    taken->count++; /* it is counted already, and not there */
    CHECK(says(reads_taken(file, bytes, sizeof bytes, false, &batch), NULL) && batch.records == 7 && has_paths(file, &batch, 11, 2, 13, 3));
    taken->count++;
    CHECK(says(reads_taken(file, bytes, sizeof bytes, false, &batch), not_whole));
    taken->count -= 2;
    taken->state = IS_WRITING;
    CHECK(says(reads_taken(file, bytes, sizeof bytes, false, &batch), NULL) && batch.records == 3);
    file = memory_of_taken(bytes);
    begin_next(file, bytes, 14, 0);
    CHECK(says(reads_taken(file, bytes, sizeof bytes, false, &batch), NULL) && batch.records == 1 && has_paths(file, &batch, 14, 0, 0, 0));
}

/* What isn't whole is refused. */
static void taken_damaged(void) {
    uint8_t bytes[TAKEN_SIZE];
    saved_file *file = memory_of_taken(bytes);
    taken_paths *taken = &file->tracer->taken;
    found_batch batch;
    add_path(file, bytes, 11);
    CHECK(reads_taken(file, bytes, sizeof bytes - 1, false, &batch) != NULL); /* the file ends before */
    taken->count = 2;
    CHECK(says(reads_taken(file, bytes, sizeof bytes, false, &batch), not_whole));
    taken->count = 1;
    taken->state = IS_WRITING + 1;
    CHECK(says(reads_taken(file, bytes, sizeof bytes, false, &batch), not_whole));
    taken->state = IS_TAKING;
    taken->cpu = 3;
    CHECK(says(reads_taken(file, bytes, sizeof bytes, false, &batch), not_whole));
    taken->cpu = 2;
    taken->used = TAKEN_SIZE + 8;
    CHECK(says(reads_taken(file, bytes, sizeof bytes, false, &batch), not_whole));
    taken->used = 2 * TAKEN_RECORD; /* no event at its end */
    taken->count = 0;
    CHECK(says(reads_taken(file, bytes, sizeof bytes, false, &batch), not_whole));
    file = memory_of_taken(bytes);
    add_path(file, bytes, 11);
    bytes[TAKEN_RECORD + 12]++; /* a record of another path */
    CHECK(says(reads_taken(file, bytes, sizeof bytes, false, &batch), not_whole));
    bytes[TAKEN_RECORD + 12]--;
    number_put(bytes + TAKEN_RECORD + 4, LATEST, 8);
    CHECK(says(reads_taken(file, bytes, sizeof bytes, false, &batch), NULL));
    number_put(bytes + TAKEN_RECORD + 4, LATEST + 1, 8);
    CHECK(says(reads_taken(file, bytes, sizeof bytes, false, &batch), not_whole));
    for (uint32_t count = 12; count <= 13; count++) { /* the longest one with its event, and one more */
        file = memory_of_taken(bytes);
        begin_next(file, bytes, 12, count);
        CHECK(says(reads_taken(file, bytes, sizeof bytes, false, &batch), (size_t)count * TAKEN_RECORD <= TAKEN_BUFFER ? NULL : not_whole));
    }
    taken->next.length = SIZE_MAX - 8;
    CHECK(says(reads_taken(file, bytes, sizeof bytes, false, &batch), not_whole));
    file = memory_of_taken(bytes);
    begin_next(file, bytes, 12, 2);
    taken->next.number = 13;
    CHECK(says(reads_taken(file, bytes, sizeof bytes, false, &batch), not_whole));
    taken->next.number = 12;
    taken->next.length -= 4;
    CHECK(says(reads_taken(file, bytes, sizeof bytes, false, &batch), not_whole));
}

int main(void) {
    memory_begin();
    heads();
    last_stamp();
    pipe_of = memfd_create("pipe", MFD_CLOEXEC);
    batches();
    keys();
    parts();
    bounds();
    may_differ();
    torn();
    without_top();
    taken_whole();
    taken_damaged();
    return check_end();
}
