/* The keys that a tracer remembers, and those that wait to be heard (tracer/keys.c), beside a list of them: each is found while it is remembered and no longer, what has no room is counted, and what
 * threads put in at once comes out once, each thread's in its order. Its last line counts its checks. */
#include "../../tracer/keys.c"

#include "check.h"

#include "dice.h"

enum { REMEMBERED_MS = 1000, THREADS = 4, PUTS = 50000 };

static heard_key heard[KEYS_AT_ONCE];

/* The key of a number, whose tags have homes all over. */
static void key_of(uint64_t number, uint64_t key[2]) {
    dice d = { number };
    key[0] = draw(&d);
    key[1] = draw(&d);
}

static bool puts_in(struct keys *keys, uint64_t number) {
    uint64_t key[2];
    key_of(number, key);
    return keys_put(keys, key, TOLD_KEY);
}

static bool has(const struct keys *keys, uint64_t number) {
    uint64_t key[2];
    key_of(number, key);
    return keys_have(keys, key) && keys_have_tag(keys, key_tag(key));
}

/* Puts so many keys in and hears them: how many of them were new. */
static uint64_t hears(struct keys *keys, uint64_t from, uint64_t count, uint64_t now_ms) {
    uint64_t found = 0;
    for (uint64_t number = from; number < from + count; number++) {
        CHECK(puts_in(keys, number));
        found += keys_hear(keys, now_ms, KEYS_AT_ONCE, heard);
    }
    return found;
}

/* As many as can be remembered, in shares of which each is forgotten a millisecond after the one before. */
static void remembered(void) {
    enum { SHARES = 16, SHARE = MOST_REMEMBERED / SHARES };
    struct keys *keys = keys_new(REMEMBERED_MS);
    for (uint64_t share = 0; share < SHARES; share++) CHECK(hears(keys, share * SHARE, SHARE, 10 + share) == SHARE);
    CHECK(hears(keys, 0, SHARE, 30) == 0 && keys_refused(keys) == 0); /* they are known */
    CHECK(hears(keys, MOST_REMEMBERED, 3, 30) == 0 && keys_refused(keys) == 3 && !has(keys, MOST_REMEMBERED));
    for (uint64_t share = 0; share < SHARES; share++) {
        bool is_well = true;
        keys_forget(keys, 10 + share + REMEMBERED_MS, false);
        for (uint64_t number = 0; number < MOST_REMEMBERED; number++) is_well = is_well && has(keys, number) == (number >= share * SHARE);
        CHECK(is_well && keys_are_any(keys));
    }
    keys_forget(keys, 10 + SHARES + REMEMBERED_MS, false);
    CHECK(!keys_are_any(keys) && hears(keys, 0, SHARE, 5000) == SHARE); /* they are new again */
    keys_drop(keys);
}

/* Those that are needed stay when their time is over, but for as many as a turn may hear. */
static void needed(void) {
    struct keys *keys = keys_new(REMEMBERED_MS);
    bool is_well = true;
    CHECK(hears(keys, 0, MOST_REMEMBERED, 10) == MOST_REMEMBERED);
    keys_forget(keys, 10 + REMEMBERED_MS, true);
    CHECK(has(keys, 0)); /* its time isn't over */
    keys_forget(keys, 11 + REMEMBERED_MS, true);
    for (uint64_t number = 0; number < MOST_REMEMBERED; number++) is_well = is_well && has(keys, number) == (number >= KEYS_AT_ONCE);
    CHECK(is_well && hears(keys, MOST_REMEMBERED, KEYS_AT_ONCE, 5000) == KEYS_AT_ONCE && keys_refused(keys) == 0);
    keys_forget(keys, 5000, false);
    CHECK(!has(keys, KEYS_AT_ONCE) && has(keys, MOST_REMEMBERED) && hears(keys, 0, 1, 5000) == 1);
    keys_drop(keys);
}

/* A queue that is full refuses, and has room again for as many as are heard. */
static void waiting(void) {
    struct keys *keys = keys_new(REMEMBERED_MS);
    CHECK(!keys_are_waiting(keys) && keys_hear(keys, 1, KEYS_AT_ONCE, heard) == 0);
    for (uint64_t number = 0; number < MOST_WAITING; number++) CHECK(puts_in(keys, number));
    CHECK(!puts_in(keys, MOST_WAITING) && keys_refused(keys) == 1 && keys_count(keys) == MOST_WAITING && !keys_are_heard(keys, 1));
    CHECK(keys_hear(keys, 1, 2, heard) == 2 && keys_are_heard(keys, 2) && !keys_are_heard(keys, 3));
    CHECK(puts_in(keys, MOST_WAITING) && puts_in(keys, MOST_WAITING + 1) && !puts_in(keys, MOST_WAITING + 2));
    keys_drop(keys);
}

/* Two keys of one tag are two keys. */
static void same_tag(void) {
    static const uint64_t one[2] = { 1, 2 }, other[2] = { 3, UINT64_C(2) ^ (UINT64_C(2) << 32) };
    struct keys *keys = keys_new(REMEMBERED_MS);
    CHECK(key_tag(one) == key_tag(other) && keys_put(keys, one, 5) && keys_hear(keys, 1, KEYS_AT_ONCE, heard) == 1 && heard[0].lane == 5);
    CHECK(keys_have(keys, one) && !keys_have(keys, other) && keys_have_tag(keys, key_tag(other)));
    keys_drop(keys);
}

static struct keys *shared;

static void *puts_many(void *number) {
    for (uint64_t i = 0; i < PUTS; i++) {
        const uint64_t key[2] = { *(uint64_t *)number, i };
        while (!keys_put(shared, key, (uint32_t)*(uint64_t *)number)) sched_yield();
    }
    return number;
}

static void from_threads(void) {
    pthread_t threads[THREADS];
    uint64_t numbers[THREADS], next[THREADS] = { 0 }, count = 0;
    bool is_well = true;
    shared = keys_new(0);
    for (uint64_t i = 0; i < THREADS; i++) {
        numbers[i] = i;
        CHECK(pthread_create(&threads[i], NULL, puts_many, &numbers[i]) == 0);
    }
    for (uint64_t now = 1; count < THREADS * PUTS; now++) {
        const size_t many = keys_hear(shared, now, KEYS_AT_ONCE, heard);
        for (size_t i = 0; i < many; i++) is_well = is_well && heard[i].key[0] < THREADS && heard[i].key[1] == next[heard[i].key[0]]++ && heard[i].lane == heard[i].key[0];
        count += many;
        keys_forget(shared, now + 1, false);
    }
    for (size_t i = 0; i < THREADS; i++) pthread_join(threads[i], NULL);
    CHECK(is_well && count == THREADS * PUTS && !keys_are_waiting(shared));
    keys_drop(shared);
}

int main(void) {
    remembered();
    needed();
    waiting();
    same_tag();
    from_threads();
    return check_end();
}
