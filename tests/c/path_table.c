/* The table of a lane's open paths as the tracer calls it (tracer/paths.h): each status and each number that goes out. Principal buffers of 8 records, speculative ones of 3, so a full path
 * finds room after 5 records, and not after 6. */
#include "check.h"
#include "../../tracer/paths.h"

typedef struct lane {
    dspec_session session;
    dspec_cpu cpu;
    dspec_consumer consumer;
    dspec_paths paths;
    uint32_t epid;
} lane;

/* A path as its caller names it. */
typedef struct path {
    uint32_t place;
    uint64_t id;
} path;

static void start(lane *one, uint32_t nspec) {
    dspec_schema schema = DSPEC_EMPTY;
    const dspec_config config = { .cpus = 1, .nspec = nspec, .bufsize = 64, .specsize = 24, .max_issues = 99, .max_calls = DSPEC_MAX_CALLS, .policy = DSPEC_POLICY_SWITCH };
    *one = (lane){ .epid = 0 };
    MUST(dspec_schema_new(&schema));
    MUST(dspec_schema_enable(&schema, (const uint8_t[]){ 4 }, 1, &one->epid));
    MUST(dspec_start(&config, &schema, &one->session));
    MUST(dspec_cpu_of(&one->session, 0, &one->cpu));
    MUST(dspec_consumer_of(&one->session, &one->consumer));
    MUST(dspec_paths_new(&one->paths));
    dspec_schema_drop(&schema);
}

static void end(lane *one) {
    dspec_drop(&one->paths);
    dspec_cpu_drop(&one->cpu);
    dspec_consumer_drop(&one->consumer);
    dspec_session_drop(&one->session);
}

static path begins(lane *one, uint32_t number, uint32_t thread, uint64_t stamp, int records) {
    path made = { 99, 99 };
    MUST(dspec_paths_begin(&one->paths, &one->cpu, number, thread, stamp, &made.place, &made.id));
    for (int i = 0; i < records; i++) MUST(DSPEC_SPECULATE(&one->cpu, made.id, one->epid, 2));
    return made;
}

static void traces(lane *one, int records) {
    for (int i = 0; i < records; i++) MUST(DSPEC_TRACE(&one->cpu, one->epid, 1));
}

static void keeps(lane *one, const path *of, bool waits, dspec_status due, uint32_t count_due) {
    uint32_t count = 77;
    ANSWERS(dspec_paths_keep_part(&one->paths, &one->cpu, of->place, of->id, waits, &count), due);
    CHECK(count == count_due);
}

static void turns(lane *one, path *of, int records) {
    MUST(dspec_paths_turn(&one->paths, &one->cpu, of->place, of->id, &of->id));
    for (int i = 0; i < records; i++) MUST(DSPEC_SPECULATE(&one->cpu, of->id, one->epid, 2));
}

static dspec_report report_of(lane *one) {
    dspec_report report;
    MUST(dspec_cpu_report(&one->cpu, &report));
    return report;
}

static void counts_are(lane *one, uint64_t began, uint64_t kept, uint64_t thrown_away, uint64_t lost) {
    dspec_path_counts is = { 77, 77, 77, 77 };
    MUST(dspec_paths_counts(&one->paths, &is));
    CHECK(is.began == began && is.kept == kept && is.thrown_away == thrown_away && is.lost == lost);
}

/* What is told of an open path, of its thread, of all, and of another thread. */
static void told(void) {
    lane one;
    dspec_open_path is = { .cut = 77 };
    start(&one, 3);
    const path first = begins(&one, 17, 5, 1234, 1), second = begins(&one, 18, 6, 1235, 0);
    MUST(dspec_paths_open_of(&one.paths, first.place, 0, &is));
    CHECK(is.newest == first.id && is.older == 0 && is.begun == 1234 && is.number == 17 && is.thread == 5 && is.cut == 0 && !is.is_kept);
    MUST(dspec_paths_open_of(&one.paths, second.place, 6, &is));
    CHECK(is.newest == second.id && is.number == 18);
    ANSWERS(dspec_paths_open_of(&one.paths, first.place, 6, &is), DSPEC_VOID);
    CHECK(is.number == 18);
    MUST(dspec_paths_adopt(&one.paths, first.place, first.id, 6));
    MUST(dspec_paths_open_of(&one.paths, first.place, 6, &is));
    CHECK(is.number == 17 && is.thread == 6);
    ANSWERS(dspec_paths_adopt(&one.paths, first.place, second.id, 5), DSPEC_VOID);
    ANSWERS(dspec_paths_open_of(&one.paths, MAX_OPEN, 0, &is), DSPEC_VOID);
    end(&one);
}

/* Each path ends once: kept with its records, or thrown away with them. */
static void ends_once(void) {
    lane one;
    start(&one, 3);
    const path kept = begins(&one, 1, 1, 0, 3), thrown = begins(&one, 2, 1, 0, 2);
    keeps(&one, &kept, false, DSPEC_OK, 3);
    keeps(&one, &kept, false, DSPEC_VOID, 77);
    ANSWERS(dspec_paths_discard(&one.paths, &one.cpu, kept.place, kept.id), DSPEC_VOID);
    ANSWERS(dspec_paths_discard(&one.paths, &one.cpu, thrown.place, thrown.id), DSPEC_OK);
    ANSWERS(dspec_paths_discard(&one.paths, &one.cpu, thrown.place, thrown.id), DSPEC_VOID);
    CHECK(report_of(&one).accepted == 3 && report_of(&one).discarded == 2 && report_of(&one).lost == 0);
    end(&one);
}

/* Without room a path waits, or is lost. */
static void without_room(void) {
    lane one;
    start(&one, 3);
    const path waits = begins(&one, 1, 1, 0, 3), lost = begins(&one, 2, 1, 0, 3);
    traces(&one, 6);
    keeps(&one, &waits, true, DSPEC_BUSY, 77);
    keeps(&one, &lost, false, DSPEC_LOST, 3);
    CHECK(report_of(&one).accepted == 6 && report_of(&one).lost == 3 && report_of(&one).discarded == 0);
    ANSWERS(dspec_paths_discard(&one.paths, &one.cpu, waits.place, waits.id), DSPEC_OK);
    end(&one);
}

/* A path that goes on in new speculations has its last two, and says how many of its records were cut; each is kept by a call. */
static void last_records(void) {
    lane one;
    dspec_open_path is;
    start(&one, 4);
    path of = begins(&one, 1, 1, 0, 3);
    const path first = of;
    turns(&one, &of, 3);
    turns(&one, &of, 2);
    MUST(dspec_paths_open_of(&one.paths, of.place, 0, &is));
    CHECK(is.newest == of.id && is.older != 0 && is.older != first.id && is.cut == 3);
    ANSWERS(dspec_paths_turn(&one.paths, &one.cpu, first.place, first.id, &(uint64_t){ 0 }), DSPEC_UNAVAILABLE);
    keeps(&one, &of, true, DSPEC_GOES_ON, 3);
    MUST(dspec_paths_open_of(&one.paths, of.place, 0, &is));
    CHECK(is.is_kept && is.older == 0);
    ANSWERS(dspec_paths_discard(&one.paths, &one.cpu, of.place, of.id), DSPEC_VOID);
    keeps(&one, &of, true, DSPEC_OK, 2);
    CHECK(report_of(&one).accepted == 5 && report_of(&one).discarded == 3);
    end(&one);
}

/* Where its older records have no room, a path is lost as a whole. */
static void lost_as_a_whole(void) {
    lane one;
    start(&one, 4);
    path of = begins(&one, 1, 1, 0, 3);
    turns(&one, &of, 2);
    traces(&one, 6);
    keeps(&one, &of, true, DSPEC_BUSY, 77);
    keeps(&one, &of, false, DSPEC_PATH_LOST, 2);
    keeps(&one, &of, false, DSPEC_VOID, 77);
    CHECK(report_of(&one).lost == 3 && report_of(&one).discarded == 2);
    end(&one);
}

/* Of five paths one is kept, one thrown away, two are lost, of which the caller gives one up, and one is open. What finds no path, or waits, counts nothing. */
static void counted(void) {
    lane one;
    start(&one, 5);
    counts_are(&one, 0, 0, 0, 0);
    const path kept = begins(&one, 1, 1, 0, 2), thrown = begins(&one, 2, 1, 0, 1), lost = begins(&one, 3, 1, 0, 3), given_up = begins(&one, 4, 1, 0, 1);
    begins(&one, 5, 1, 0, 0);
    ANSWERS(dspec_paths_begin(&one.paths, &one.cpu, 6, 1, 0, &(uint32_t){ 0 }, &(uint64_t){ 0 }), DSPEC_UNAVAILABLE);
    counts_are(&one, 5, 0, 0, 0);
    keeps(&one, &kept, false, DSPEC_OK, 2);
    keeps(&one, &kept, false, DSPEC_VOID, 77);
    counts_are(&one, 5, 1, 0, 0);
    ANSWERS(dspec_paths_discard(&one.paths, &one.cpu, thrown.place, thrown.id), DSPEC_OK);
    ANSWERS(dspec_paths_discard(&one.paths, &one.cpu, thrown.place, thrown.id), DSPEC_VOID);
    traces(&one, 4);
    keeps(&one, &lost, true, DSPEC_BUSY, 77);
    counts_are(&one, 5, 1, 1, 0);
    keeps(&one, &lost, false, DSPEC_LOST, 3);
    ANSWERS(dspec_paths_lose(&one.paths, &one.cpu, given_up.place, given_up.id), DSPEC_OK);
    ANSWERS(dspec_paths_lose(&one.paths, &one.cpu, given_up.place, given_up.id), DSPEC_VOID);
    counts_are(&one, 5, 1, 1, 2);
    CHECK(report_of(&one).accepted == 6 && report_of(&one).lost == 3 && report_of(&one).discarded == 2);
    end(&one);
}

/* A path of which the older records came out is kept, also where its last ones have no room. */
static void counted_in_part(void) {
    lane one;
    start(&one, 4);
    path of = begins(&one, 1, 1, 0, 3);
    turns(&one, &of, 2);
    traces(&one, 4);
    keeps(&one, &of, false, DSPEC_GOES_ON, 3);
    counts_are(&one, 1, 0, 0, 0);
    keeps(&one, &of, false, DSPEC_LOST, 2);
    counts_are(&one, 1, 1, 0, 0);
    end(&one);
}

/* As many paths begin as there are speculations, and one more where one has ended. */
static void full(void) {
    lane one;
    path of[3], more = { 77, 77 };
    start(&one, 3);
    for (uint32_t i = 0; i < 3; i++) of[i] = begins(&one, i + 1, 1, 0, 1);
    CHECK(of[0].place != of[1].place && of[1].place != of[2].place && of[0].place != of[2].place);
    ANSWERS(dspec_paths_begin(&one.paths, &one.cpu, 4, 1, 0, &more.place, &more.id), DSPEC_UNAVAILABLE);
    CHECK(more.place == 77 && more.id == 77);
    ANSWERS(dspec_paths_discard(&one.paths, &one.cpu, of[1].place, of[1].id), DSPEC_OK);
    begins(&one, 4, 1, 0, 1);
    end(&one);
}

/* A handle that is empty, or of another kind. */
static void misused(void) {
    lane one;
    dspec_paths none = DSPEC_EMPTY;
    dspec_cpu empty = DSPEC_EMPTY;
    dspec_open_path is = { .cut = 77 };
    dspec_path_counts counts = { .began = 77, .lost = 78 };
    uint32_t place = 77;
    uint64_t id = 77;
    start(&one, 3);
    const path of = begins(&one, 1, 1, 0, 1);
    ANSWERS(dspec_paths_new(&one.paths), DSPEC_FULL_HANDLE);
    ANSWERS(dspec_paths_begin(&none, &one.cpu, 1, 1, 0, &place, &id), DSPEC_BAD_HANDLE);
    ANSWERS(dspec_paths_begin(&one.paths, &empty, 1, 1, 0, &place, &id), DSPEC_BAD_HANDLE);
    CHECK(place == 77 && id == 77);
    ANSWERS(dspec_paths_turn(&one.paths, &empty, of.place, of.id, &id), DSPEC_BAD_HANDLE);
    ANSWERS(dspec_paths_discard(&one.paths, &empty, of.place, of.id), DSPEC_BAD_HANDLE);
    ANSWERS(dspec_paths_discard((dspec_paths *)(void *)&one.consumer, &one.cpu, of.place, of.id), DSPEC_BAD_HANDLE);
    ANSWERS(dspec_paths_lose(&one.paths, &empty, of.place, of.id), DSPEC_BAD_HANDLE);
    ANSWERS(dspec_paths_lose(&none, &one.cpu, of.place, of.id), DSPEC_BAD_HANDLE);
    ANSWERS(dspec_paths_adopt(&none, of.place, of.id, 1), DSPEC_BAD_HANDLE);
    ANSWERS(dspec_paths_counts(&none, &counts), DSPEC_BAD_HANDLE);
    CHECK(counts.began == 77 && counts.lost == 78);
    ANSWERS(dspec_paths_open_of(&none, of.place, 0, &is), DSPEC_BAD_HANDLE);
    CHECK(is.cut == 77);
    keeps(&one, &of, false, DSPEC_OK, 1);
    end(&one);
}

int main(void) {
    told();
    ends_once();
    without_room();
    last_records();
    lost_as_a_whole();
    counted();
    counted_in_part();
    full();
    misused();
    return check_end();
}
