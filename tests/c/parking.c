/* The ring of parked blocks as the tracer calls it (tracer/parking.h): each status and each number that goes out. A record of one value of 4 bytes takes 8, all numbers little-endian. */
#include "check.h"
#include "../../tracer/parking.h"

/* Bytes that no record has. */
enum { UNTOUCHED = 0xEE };

typedef struct lane {
    dspec_session session;
    dspec_cpu cpu;
    dspec_parking parking;
    uint32_t epid;
} lane;

static void start(lane *one, size_t bytes, size_t most_blocks) {
    dspec_schema schema = DSPEC_EMPTY;
    const dspec_config config = { .cpus = 1, .nspec = 4, .bufsize = 64, .specsize = 32, .max_issues = 99, .max_calls = DSPEC_MAX_CALLS, .policy = DSPEC_POLICY_SWITCH };
    *one = (lane){ .epid = 0 };
    MUST(dspec_schema_new(&schema));
    MUST(dspec_schema_enable(&schema, (const uint8_t[]){ 4 }, 1, &one->epid));
    MUST(dspec_start(&config, &schema, &one->session));
    MUST(dspec_cpu_of(&one->session, 0, &one->cpu));
    MUST(dspec_parking_new(&one->parking, bytes, most_blocks));
    dspec_schema_drop(&schema);
}

static void end(lane *one) {
    dspec_drop(&one->parking);
    dspec_cpu_drop(&one->cpu);
    dspec_session_drop(&one->session);
}

/* A speculation with this many records of one value; its slot is the identifier's lowest six bits. */
static uint64_t speculates(lane *one, int records, uint32_t value) {
    uint64_t id = 0;
    MUST(dspec_speculation(&one->cpu, &id));
    for (int i = 0; i < records; i++) MUST(DSPEC_SPECULATE(&one->cpu, id, one->epid, value + (uint32_t)i));
    return id;
}

static uint32_t slot_of(uint64_t id) { return (uint32_t)(id % 64); }

/* Parks a path of this many records, and throws it away. The tail passes so many places, and so many blocks of these are evicted. */
static void parks(lane *one, uint64_t key, uint64_t stamp, int records, size_t places, size_t blocks) {
    const uint64_t id = speculates(one, records, (uint32_t)key);
    dspec_passed gone = { 77, 77 };
    uint32_t count = 77;
    MUST(dspec_parking_park(&one->parking, &one->cpu, slot_of(id), 7, key, stamp, &gone));
    CHECK(gone.places == places && gone.blocks == blocks);
    MUST(dspec_discard(&one->cpu, id, &count));
    CHECK(count == (uint32_t)records);
}

static void has_places(lane *one, size_t due) {
    size_t count = 77;
    MUST(dspec_parking_places(&one->parking, &count));
    CHECK(count == due);
}

static void is_at(lane *one, size_t place, uint64_t key, uint64_t stamp, size_t length) {
    dspec_parked is = { 77, 77, 77, 77 };
    MUST(dspec_parking_at(&one->parking, place, &is));
    CHECK(is.key_high == 7 && is.key_low == key && is.stamp == stamp && is.length == length);
}

static void none_at(lane *one, size_t place) {
    dspec_parked is = { 77, 77, 77, 77 };
    uint8_t room[1] = { UNTOUCHED };
    ANSWERS(dspec_parking_at(&one->parking, place, &is), DSPEC_VOID);
    ANSWERS(dspec_parking_take(&one->parking, place, room, 1, &is), DSPEC_VOID);
    CHECK(is.key_high == 77 && is.key_low == 77 && is.stamp == 77 && is.length == 77 && room[0] == UNTOUCHED);
}

static void counts_are(lane *one, uint64_t kept, uint64_t evicted, uint64_t expired, uint64_t standing) {
    dspec_parked_counts is = { 77, 77, 77, 77, 77 };
    MUST(dspec_parking_counts(&one->parking, &is));
    CHECK(is.kept == kept && is.evicted == evicted && is.expired == expired && is.standing == standing);
    CHECK(is.parked == kept + evicted + expired + standing);
}

/* A block comes out whole, under its key, once. The CPU has its records as before, until they are thrown away. */
static void whole_and_once(void) {
    static const uint8_t due[18] = { 1, 0, 0, 0, 9, 0, 0, 0, 1, 0, 0, 0, 10, 0, 0, 0, UNTOUCHED, UNTOUCHED };
    lane one;
    uint8_t room[18];
    uint32_t count = 77;
    dspec_parked is;
    dspec_passed gone;
    dspec_report report;
    start(&one, 64, 4);
    const uint64_t id = speculates(&one, 2, 9);
    MUST(dspec_parking_park(&one.parking, &one.cpu, slot_of(id), UINT64_C(0x8877665544332211), UINT64_MAX, 1234, &gone));
    CHECK(gone.places == 0 && gone.blocks == 0);
    MUST(dspec_cpu_report(&one.cpu, &report));
    CHECK(report.held == 2 && report.discarded == 0);
    memset(room, UNTOUCHED, sizeof room);
    ANSWERS(dspec_parking_take(&one.parking, 0, room, 15, &is), DSPEC_TOO_SMALL);
    CHECK(is.length == 16 && room[0] == UNTOUCHED);
    counts_are(&one, 0, 0, 0, 1);
    MUST(dspec_parking_take(&one.parking, 0, room, sizeof room, &is));
    CHECK(is.key_high == UINT64_C(0x8877665544332211) && is.key_low == UINT64_MAX && is.stamp == 1234 && is.length == 16);
    CHECK(memcmp(room, due, sizeof due) == 0);
    none_at(&one, 0);
    has_places(&one, 1);
    counts_are(&one, 1, 0, 0, 0);
    MUST(dspec_commit(&one.cpu, id, &count));
    CHECK(count == 2);
    end(&one);
}

/* The oldest make room, as few as serve; a place whose block was kept makes room too, and nothing is evicted there. */
static void oldest_make_room(void) {
    lane one;
    uint8_t room[16];
    dspec_parked is;
    start(&one, 40, 3);
    parks(&one, 1, 11, 2, 0, 0);
    parks(&one, 2, 12, 1, 0, 0);
    parks(&one, 3, 13, 1, 0, 0);
    MUST(dspec_parking_take(&one.parking, 1, room, sizeof room, &is));
    CHECK(is.key_low == 2);
    parks(&one, 4, 14, 3, 1, 1);
    has_places(&one, 3);
    none_at(&one, 0);
    is_at(&one, 1, 3, 13, 8);
    is_at(&one, 2, 4, 14, 24);
    none_at(&one, 3);
    parks(&one, 5, 15, 1, 1, 0);
    is_at(&one, 0, 3, 13, 8);
    counts_are(&one, 1, 1, 0, 3);
    end(&one);
}

/* A block whose bytes go on at the beginning of the ring comes out in one piece. */
static void around_the_end(void) {
    lane one;
    uint8_t room[24];
    dspec_parked is;
    start(&one, 28, 4);
    parks(&one, 1, 1, 2, 0, 0);
    parks(&one, 2, 2, 2, 1, 1);
    MUST(dspec_parking_take(&one.parking, 0, room, sizeof room, &is));
    CHECK(is.key_low == 2 && is.length == 16 && room[0] == 1 && room[4] == 2 && room[8] == 1 && room[12] == 3);
    end(&one);
}

/* The oldest expire, up to the first that is young, and no more than so many places at a time. */
static void expires(lane *one, uint64_t before, size_t most, size_t places, size_t blocks) {
    dspec_passed gone = { 77, 77 };
    MUST(dspec_parking_expire(&one->parking, before, most, &gone));
    CHECK(gone.places == places && gone.blocks == blocks);
}

static void oldest_expire(void) {
    lane one;
    uint8_t room[8];
    dspec_parked is;
    start(&one, 64, 8);
    parks(&one, 1, 1, 1, 0, 0);
    parks(&one, 2, 2, 1, 0, 0);
    parks(&one, 3, 5, 1, 0, 0);
    parks(&one, 4, 3, 1, 0, 0);
    MUST(dspec_parking_take(&one.parking, 1, room, sizeof room, &is));
    expires(&one, 1, 8, 0, 0);
    expires(&one, 5, 1, 1, 1);
    expires(&one, 5, 8, 1, 0);
    is_at(&one, 0, 3, 5, 8);
    has_places(&one, 2);
    counts_are(&one, 1, 0, 1, 2);
    end(&one);
}

/* What can't be held is refused, and nothing makes room for it. A slot without records is parked as no bytes. */
static void refused(void) {
    lane one;
    dspec_passed gone = { 77, 77 };
    start(&one, 16, 2);
    parks(&one, 1, 1, 1, 0, 0);
    const uint64_t id = speculates(&one, 3, 0);
    ANSWERS(dspec_parking_park(&one.parking, &one.cpu, slot_of(id), 7, 2, 2, &gone), DSPEC_TOO_LONG);
    CHECK(gone.places == 77 && gone.blocks == 77);
    has_places(&one, 1);
    counts_are(&one, 0, 0, 0, 1);
    MUST(dspec_parking_park(&one.parking, &one.cpu, slot_of(id) % 4 + 1, 7, 3, 3, &gone));
    is_at(&one, 1, 3, 3, 0);
    MUST(dspec_parking_park(&one.parking, &one.cpu, 0, 7, 4, 4, &gone));
    CHECK(gone.places == 1 && gone.blocks == 1);
    is_at(&one, 1, 4, 4, 0);
    end(&one);
    start(&one, 16, 0);
    ANSWERS(dspec_parking_park(&one.parking, &one.cpu, 1, 7, 1, 1, &gone), DSPEC_TOO_LONG);
    end(&one);
}

/* A handle that is empty, full, or of another kind. */
static void misused(void) {
    lane one;
    dspec_parking none = DSPEC_EMPTY;
    dspec_cpu empty = DSPEC_EMPTY;
    dspec_passed gone = { 77, 77 };
    dspec_parked is = { 77, 77, 77, 77 };
    dspec_parked_counts counts = { 77, 77, 77, 77, 77 };
    uint8_t room[8] = { UNTOUCHED };
    size_t count = 77;
    start(&one, 16, 2);
    ANSWERS(dspec_parking_new(&one.parking, 16, 2), DSPEC_FULL_HANDLE);
    ANSWERS(dspec_parking_new(&none, SIZE_MAX, 2), DSPEC_NO_MEMORY);
    ANSWERS(dspec_parking_new(&none, 16, SIZE_MAX), DSPEC_NO_MEMORY);
    ANSWERS(dspec_parking_park(&none, &one.cpu, 1, 7, 1, 1, &gone), DSPEC_BAD_HANDLE);
    ANSWERS(dspec_parking_park(&one.parking, &empty, 1, 7, 1, 1, &gone), DSPEC_BAD_HANDLE);
    ANSWERS(dspec_parking_park((dspec_parking *)(void *)&one.session, &one.cpu, 1, 7, 1, 1, &gone), DSPEC_BAD_HANDLE);
    ANSWERS(dspec_parking_expire(&none, 1, 1, &gone), DSPEC_BAD_HANDLE);
    ANSWERS(dspec_parking_places(&none, &count), DSPEC_BAD_HANDLE);
    ANSWERS(dspec_parking_at(&none, 0, &is), DSPEC_BAD_HANDLE);
    ANSWERS(dspec_parking_take(&none, 0, room, sizeof room, &is), DSPEC_BAD_HANDLE);
    ANSWERS(dspec_parking_counts(&none, &counts), DSPEC_BAD_HANDLE);
    CHECK(gone.places == 77 && count == 77 && is.length == 77 && room[0] == UNTOUCHED && counts.parked == 77);
    has_places(&one, 0);
    end(&one);
}

int main(void) {
    whole_and_once();
    oldest_make_room();
    around_the_end();
    oldest_expire();
    refused();
    misused();
    return check_end();
}
