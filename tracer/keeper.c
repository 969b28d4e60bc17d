/* keeper.c: the consumer keeps the parked paths whose key is kept. It looks at the tags of all lanes without taking them, and takes a lane where a tag is that of a key that it remembers. */
#include "body.h"

/* In a turn a lane has so many paths kept, and so many places passed for their age. */
enum { MOST_HITS = 64, MOST_EXPIRED = 1024 };
/* When paths were parked is known by so many marks of a lane. */
enum { MARKS = 64 };
/* The time of paths that are parked is over for many of them together, so that a lane is taken this many times in that time. */
enum { EXPIRIES = 16 };
/* Keys that were kept here and aren't told yet. */
enum { MOST_UNTOLD = 4096 };
/* A turn waits for a lane so long. */
enum { LOOK_US = 2000 };

/* Places before this number were parked by this time. */
typedef struct parked_by {
    uint64_t end, at_ms;
} parked_by;

/* What the consumer knows of a lane. */
typedef struct watched {
    uint64_t looked;  /* places before this number were looked at, for all keys that were remembered then */
    uint64_t due;     /* the time of places before this number is over */
    uint64_t gone;    /* places before this number were gone at the last turn, and those of them were counted whose key was remembered then */
    uint64_t evicted; /* as it was at the last turn */
    size_t marks;
    parked_by marked[MARKS]; /* by their time */
} watched;

struct keeper {
    uint64_t now_ms;
    uint64_t seen_ms;           /* what was evicted before this is counted */
    uint64_t flushed;           /* so many keys had come when a flush was asked for */
    uint64_t again;             /* lanes that couldn't be had, or have more than a turn keeps: they are looked at as a whole once more */
    uint64_t waiting;           /* lanes with paths to keep that stay in their ring until the disk has room; others may look at it at any time */
    uint64_t missed, least_ms;
    heard_key untold[MOST_UNTOLD];
    size_t untold_count;
    heard_key fresh[KEYS_AT_ONCE];
    size_t fresh_count, hit_count;
    uint64_t hits[MOST_HITS]; /* numbers of places */
    watched watches[];
};

struct keeper *keeper_new(const body *tracer) {
    struct keeper *keeper = calloc(1, sizeof *keeper + tracer->count * sizeof keeper->watches[0]);
    if (keeper != NULL) keeper->least_ms = UINT64_MAX;
    return keeper;
}

void keeper_drop(struct keeper *keeper) { free(keeper); }

uint64_t keeper_missed(const struct keeper *keeper) { return LOAD(&keeper->missed); }

uint64_t keeper_least_ms(const struct keeper *keeper) { return LOAD(&keeper->least_ms); }

bool keeper_is_due(const body *tracer) {
    const struct keeper *keeper = tracer->keeper;
    return keeper != NULL && ((keeper->again | keeper->waiting) != 0 || keeper->untold_count > 0 || keys_are_waiting(tracer->keys));
}

bool keeper_waits_for_disk(const body *tracer) { return tracer->keeper != NULL && LOAD(&tracer->keeper->waiting) != 0; }

/* ---- How long paths are parked. ---- */

/* Of each two marks the later one stays. */
static void thin_out(watched *watch) {
    for (size_t i = 0; i < MARKS / 2; i++) watch->marked[i] = watch->marked[2 * i + 1];
    watch->marks = MARKS / 2;
}

/* The time now, of which a part of a millisecond counts. */
static uint64_t now_in_ms(void) { return dspec_monotonic() / 1000000 + 1; }

/* What is parked by now is noted. */
static void mark(const parked_paths *parked, watched *watch) {
    const uint64_t end = __atomic_load_n(&parked->end, __ATOMIC_ACQUIRE);
    if (watch->marks > 0 ? watch->marked[watch->marks - 1].end == end : end == watch->due) return;
    if (watch->marks == MARKS) thin_out(watch);
    watch->marked[watch->marks++] = (parked_by){ end, now_in_ms() };
}

/* How long the youngest path at least was parked that was evicted since the last turn. */
static void note_least(struct keeper *keeper, const parked_paths *parked, watched *watch) {
    const uint64_t evicted = LOAD(&parked->evicted), first = LOAD(&parked->first);
    uint64_t since = keeper->seen_ms, age;
    if (evicted == watch->evicted) return;
    watch->evicted = evicted;
    for (size_t i = watch->marks; i > 0 && watch->marked[i - 1].end >= first; i--) since = watch->marked[i - 1].at_ms;
    age = keeper->seen_ms > since ? keeper->seen_ms - since : 0;
    if (age < keeper->least_ms) STORE(&keeper->least_ms, age);
}

/* How long ago a mark was made; the turn may have begun before that. */
static uint64_t age_of(const struct keeper *keeper, const parked_by *marked) { return keeper->now_ms > marked->at_ms ? keeper->now_ms - marked->at_ms : 0; }

/* The places whose time is over, where that is so for long of the oldest of them. */
static void find_due(const struct keeper *keeper, watched *watch, uint64_t park_ms) {
    size_t over = 0;
    if (watch->marks == 0 || age_of(keeper, &watch->marked[0]) <= park_ms + park_ms / EXPIRIES) return;
    while (over < watch->marks && age_of(keeper, &watch->marked[over]) > park_ms) over++;
    watch->due = watch->marked[over - 1].end;
    watch->marks -= over;
    memmove(watch->marked, watch->marked + over, watch->marks * sizeof watch->marked[0]);
}

/* The time of places before this number is over, on a lane that the consumer has. */
static void expire(parked_paths *parked, uint64_t due) {
    const uint64_t first = LOAD(&parked->first), many = due > first ? due - first : 0;
    dspec_passed gone = { 0, 0 };
    dspec_parking_expire(&parked->ring, UINT64_MAX, many < MOST_EXPIRED ? many : MOST_EXPIRED, &gone);
    STORE(&parked->first, first + gone.places);
    STORE(&parked->expired, parked->expired + gone.blocks);
}

static void expire_lane(struct keeper *keeper, struct lane *lane, uint64_t park_ms) {
    watched *watch = &keeper->watches[lane->number];
    patience none = patience_of(0);
    note_least(keeper, &lane->parked, watch);
    find_due(keeper, watch, park_ms);
    if (LOAD(&lane->parked.first) >= watch->due || !lane_take(lane, 0, &none)) return;
    expire(&lane->parked, watch->due);
    lane_release(lane, 0);
}

/* ---- Which are kept. ---- */

static uint64_t tag_at(const parked_paths *parked, uint64_t number) { return LOAD(&parked->tags[number % parked->tag_count]); }

static uint64_t later(uint64_t one, uint64_t other) { return one > other ? one : other; }

/* Notes the places from one number to another whose key is remembered: to which number. */
static uint64_t find_hits(struct keeper *keeper, const struct keys *keys, const parked_paths *parked, uint64_t from, uint64_t to) {
    keeper->hit_count = 0;
    for (uint64_t number = from; number < to; number++) {
        const uint64_t tag = tag_at(parked, number);
        if (tag == 0 || !keys_have_tag(keys, tag)) continue;
        if (keeper->hit_count == MOST_HITS) return number;
        keeper->hits[keeper->hit_count++] = number;
    }
    return to;
}

/* Takes the path of a place out of its ring, where it is there, has a key that is remembered, and isn't too old; false: there is no room. */
static bool take_hit(body *tracer, struct lane *lane, uint64_t number) {
    taken_paths *taken = &tracer->taken;
    parked_paths *parked = &lane->parked;
    const uint64_t first = LOAD(&parked->first), at = number % parked->tag_count;
    dspec_parked block;
    if (number < later(first, tracer->keeper->watches[lane->number].due) || dspec_parking_at(&parked->ring, number - first, &block) != DSPEC_OK) return true;
    const uint64_t key[] = { block.key_high, block.key_low };
    if (!keys_have(tracer->keys, key)) return true;
    if (!taken_has_room(taken, block.length)) return false;
    taken_begins(taken, lane->number, &(taken_path){ { key[0], key[1] }, (uint32_t)(block.stamp >> 32), (uint32_t)block.stamp, parked->untold[at], 0, block.length });
    if (dspec_parking_take(&parked->ring, number - first, taken->bytes + taken->used, taken->size - taken->used, &block) != DSPEC_OK) {
        taken_gives_up(taken);
        return true;
    }
    taken_adds(tracer);
    STORE(&parked->tags[at], 0);
    STORE(&parked->kept, parked->kept + 1);
    STORE(&lane->cut, lane->cut + (parked->untold[at] > 0));
    return true;
}

/* Has the open paths kept at their end whose key is remembered. A tag of a path that had this place before goes. */
static void mark_open(const body *tracer, struct lane *lane) {
    for (uint32_t place = 0; place < MAX_OPEN; place++) {
        open_path *opened = &lane->open[place];
        if (LOAD(&opened->tag) == 0 || !keys_have_tag(tracer->keys, opened->tag)) continue;
        if (opened->mark == 0 || opened->key_state == NO_KEY) STORE(&opened->tag, 0);
        else if (keys_have(tracer->keys, opened->key)) opened->key_state = IS_WANTED;
        if (opened->key_state == IS_WANTED) STORE(&opened->tag, 0);
    }
}

static bool has_open_hit(const struct keys *keys, const struct lane *lane) {
    for (uint32_t place = 0; place < MAX_OPEN; place++) {
        const uint64_t tag = LOAD(&lane->open[place].tag);
        if (tag != 0 && LOAD(&lane->open[place].mark) != 0 && keys_have_tag(keys, tag)) return true;
    }
    return false;
}

/* ---- A turn. ---- */

/* Keeps what was found up to a number, on a lane that the consumer has: up to which number. */
static uint64_t keep_hits(body *tracer, struct lane *lane, uint64_t to) {
    const struct keeper *keeper = tracer->keeper;
    mark_open(tracer, lane);
    for (size_t i = 0; i < keeper->hit_count; i++)
        if (!take_hit(tracer, lane, keeper->hits[i])) return keeper->hits[i];
    return to;
}

/* Notes whether a lane's paths wait for the disk. */
static void note_waiting(struct keeper *keeper, uint32_t lane, bool waits) {
    const uint64_t bit = UINT64_C(1) << lane;
    STORE(&keeper->waiting, waits ? keeper->waiting | bit : keeper->waiting & ~bit);
}

/* Looks at a lane: at what came since the last time, or at all. */
static void look_at(body *tracer, struct lane *lane, bool at_all) {
    struct keeper *keeper = tracer->keeper;
    watched *watch = &keeper->watches[lane->number];
    patience left = patience_of(LOOK_US);
    const uint64_t end = __atomic_load_n(&lane->parked.end, __ATOMIC_ACQUIRE), from = later(later(LOAD(&lane->parked.first), watch->due), at_all ? 0 : watch->looked);
    uint64_t to = find_hits(keeper, tracer->keys, &lane->parked, from, end);
    const bool waits = keeper->hit_count > 0 && !taken_has_disk(tracer, lane->number, keeper->hit_count);
    if (waits) keeper->hit_count = 0;
    if (keeper->hit_count > 0 || has_open_hit(tracer->keys, lane)) {
        const bool has = lane_take(lane, 0, &left);
        to = has ? keep_hits(tracer, lane, to) : from;
        if (has) lane_release(lane, 0);
        taken_writes(tracer, lane);
        if (!has || to < end) keeper->again |= UINT64_C(1) << lane->number;
    }
    note_waiting(keeper, lane->number, waits);
    watch->looked = waits ? from : to;
}

static bool is_fresh(const struct keeper *keeper, uint64_t tag) {
    for (size_t i = 0; i < keeper->fresh_count; i++)
        if (keeper->fresh[i].tag == tag) return true;
    return false;
}

/* Counts the paths that are gone though their key is remembered: of places that went since the last turn, and where keys came now of all whose notes are there, those of these keys. */
static void count_missed(body *tracer, const parked_paths *parked, watched *watch) {
    struct keeper *keeper = tracer->keeper;
    const uint64_t end = __atomic_load_n(&parked->end, __ATOMIC_ACQUIRE), gone = later(LOAD(&parked->first), watch->due), noted = parked->tag_count;
    for (uint64_t number = later(end > noted ? end - noted : 0, keeper->fresh_count > 0 ? 0 : watch->gone); number < gone; number++) {
        const uint64_t tag = tag_at(parked, number);
        if (tag == 0 || !keys_have_tag(tracer->keys, tag)) continue;
        STORE(&keeper->missed, keeper->missed + (number >= watch->gone || is_fresh(keeper, tag)));
    }
    watch->gone = gone;
}

bool keeper_is_full(const struct keeper *keeper) { return MOST_UNTOLD - keeper->untold_count < KEYS_AT_ONCE; }

/* Hears the keys that came. The program is to be told of those that were kept here. */
static void hear(body *tracer) {
    struct keeper *keeper = tracer->keeper;
    const size_t most = MOST_UNTOLD - keeper->untold_count;
    keeper->fresh_count = keys_hear(tracer->keys, keeper->now_ms, most < KEYS_AT_ONCE ? most : KEYS_AT_ONCE, keeper->fresh);
    for (size_t i = 0; i < keeper->fresh_count; i++)
        if (keeper->fresh[i].lane != TOLD_KEY && tracer->options.on_keep != NULL) keeper->untold[keeper->untold_count++] = keeper->fresh[i];
    if (keys_are_waiting(tracer->keys)) consumer_wakes(tracer); /* the others come in the next turn */
}

/* Looks at these lanes and those that were drained since the last look, or where there are new keys at all. */
static void look(body *tracer, uint64_t which) {
    which |= tracer->drained;
    tracer->drained = 0;
    for (uint32_t i = 0; i < tracer->count; i++) {
        struct lane *lane = &tracer->lanes[i];
        const bool at_all = tracer->keeper->fresh_count > 0;
        if (keys_are_any(tracer->keys) && (at_all || which >> i & 1)) look_at(tracer, lane, at_all);
        count_missed(tracer, &lane->parked, &tracer->keeper->watches[i]);
    }
    tracer->keeper->fresh_count = 0;
}

void keeper_turns(body *tracer) {
    struct keeper *keeper = tracer->keeper;
    uint64_t which = keeper->again | keeper->waiting;
    keeper->again = 0;
    keeper->now_ms = dspec_monotonic() / 1000000;
    for (uint32_t i = 0; i < tracer->count; i++) expire_lane(keeper, &tracer->lanes[i], tracer->options.park_ms);
    keeper->seen_ms = keeper->now_ms;
    keys_forget(tracer->keys, keeper->now_ms, which != 0);
    hear(tracer);
    for (uint32_t i = 0; i < tracer->count; i++) which |= (uint64_t)!(state_of(&tracer->lanes[i]) & IDLE) << i;
    look(tracer, which);
}

void keeper_looks(body *tracer, uint64_t busy) {
    look(tracer, busy);
    for (uint32_t i = 0; i < tracer->count; i++) mark(&tracer->lanes[i].parked, &tracer->keeper->watches[i]);
}

void keeper_wakes(struct keeper *keeper) { keeper->seen_ms = dspec_monotonic() / 1000000; }

void keeper_tells(body *tracer, uint64_t unwritten) {
    struct keeper *keeper = tracer->keeper;
    size_t left = 0;
    for (size_t i = 0; i < keeper->untold_count; i++) {
        const heard_key *one = &keeper->untold[i];
        if (unwritten >> one->lane & 1) keeper->untold[left++] = *one;
        else tracer->options.on_keep(tracer->options.on_keep_context, one->key[0], one->key[1]);
    }
    keeper->untold_count = left;
}

void keeper_ends(body *tracer) {
    for (keeper_tells(tracer, 0); keys_are_waiting(tracer->keys); keeper_tells(tracer, 0)) hear(tracer);
}

bool keeper_flushes(body *tracer, bool is_new) {
    struct keeper *keeper = tracer->keeper;
    if (is_new) keeper->flushed = keys_count(tracer->keys);
    return keeper->again == 0 && keys_are_heard(tracer->keys, keeper->flushed);
}

void keeper_ends_lane(body *tracer, struct lane *lane) {
    struct keeper *keeper = tracer->keeper;
    const uint64_t end = lane->parked.end;
    for (uint64_t from = later(lane->parked.first, keeper->watches[lane->number].due), to;; from = to) {
        to = keep_hits(tracer, lane, find_hits(keeper, tracer->keys, &lane->parked, from, end));
        taken_writes(tracer, lane);
        if (to == end) break;
    }
    note_waiting(keeper, lane->number, false);
    count_missed(tracer, &lane->parked, &keeper->watches[lane->number]);
}
