/* keys.c: the keys that are kept: those that come, from any thread and any handler, and those that the consumer remembers. */
#include "body.h"

/* The most keys that wait to be heard, and that are remembered. A key is found from its home on, of which there are more than keys. */
enum { MOST_WAITING = 4096, MOST_REMEMBERED = 32768, HOMES = 65536, HOME_SHIFT = 48 };
static_assert(HOMES == 1u << (64 - HOME_SHIFT), "a tag's highest bits are its home");

/* A place of the queue: its turn says whether it is free for the put of that number, or has what that put. */
typedef struct waiting_key {
    uint64_t turn;
    uint64_t key[2];
    uint32_t lane;
} waiting_key;

typedef struct known_key {
    uint64_t key[2], tag; /* tag 0: none is here */
} known_key;

/* In the order in which they were heard. */
typedef struct dated_key {
    uint64_t key[2], at_ms;
} dated_key;

struct keys {
    uint64_t put, refused; /* by any thread */
    char apart[CACHE_LINES];
    uint64_t got, remember_ms, oldest, count; /* the consumer's; oldest: the number of the key that was heard first of those that are remembered */
    uint8_t at_home[HOMES]; /* how many keys have this home; the most that it tells is never taken back */
    dated_key dated[MOST_REMEMBERED];
    known_key known[HOMES];
    waiting_key queue[MOST_WAITING];
};

struct keys *keys_new(uint64_t remember_ms) {
    struct keys *keys = calloc(1, sizeof *keys); /* most of it isn't touched before there are keys */
    if (keys == NULL) return NULL;
    keys->remember_ms = remember_ms;
    for (uint64_t i = 0; i < MOST_WAITING; i++) keys->queue[i].turn = i;
    return keys;
}

void keys_drop(struct keys *keys) { free(keys); }

uint64_t keys_refused(const struct keys *keys) { return LOAD(&keys->refused); }

uint64_t key_tag(const uint64_t key[2]) {
    uint64_t tag = (key[0] ^ (key[1] << 32 | key[1] >> 32)) * UINT64_C(0x9e3779b97f4a7c15);
    tag = (tag ^ tag >> 32) * UINT64_C(0x94d049bb133111eb);
    return tag | 1;
}

/* ---- A bounded queue of many who put and one who takes. ---- */

/* A thread that is interrupted before its last line keeps what comes after it from being heard, and nobody from putting. */
bool keys_put(struct keys *keys, const uint64_t key[2], uint32_t lane) {
    uint64_t at = LOAD(&keys->put);
    for (;;) {
        waiting_key *place = &keys->queue[at % MOST_WAITING];
        const uint64_t turn = __atomic_load_n(&place->turn, __ATOMIC_ACQUIRE);
        if (turn < at) break;
        if (turn > at) {
            at = LOAD(&keys->put);
            continue;
        }
        if (!__atomic_compare_exchange_n(&keys->put, &at, at + 1, true, __ATOMIC_RELAXED, __ATOMIC_RELAXED)) continue;
        memcpy(place->key, key, sizeof place->key);
        place->lane = lane;
        __atomic_store_n(&place->turn, at + 1, __ATOMIC_RELEASE);
        return true;
    }
    ADD(&keys->refused, 1);
    return false;
}

uint64_t keys_count(const struct keys *keys) { return LOAD(&keys->put); }

bool keys_are_heard(const struct keys *keys, uint64_t count) { return keys->got >= count; }

bool keys_are_waiting(const struct keys *keys) { return __atomic_load_n(&keys->queue[keys->got % MOST_WAITING].turn, __ATOMIC_ACQUIRE) == keys->got + 1; }

/* The next key that came; the caller knows that one is waiting. */
static heard_key take_next(struct keys *keys) {
    waiting_key *place = &keys->queue[keys->got % MOST_WAITING];
    const heard_key heard = { { place->key[0], place->key[1] }, key_tag(place->key), place->lane };
    __atomic_store_n(&place->turn, keys->got + MOST_WAITING, __ATOMIC_RELEASE);
    keys->got++;
    return heard;
}

/* ---- What the consumer remembers. ---- */

static uint32_t home_of(uint64_t tag) { return (uint32_t)(tag >> HOME_SHIFT); }

static bool is_key(const known_key *known, uint64_t tag, const uint64_t key[2]) { return known->tag == tag && known->key[0] == key[0] && known->key[1] == key[1]; }

/* Where a key is, or would be. */
static uint32_t where_is(const struct keys *keys, uint64_t tag, const uint64_t key[2]) {
    uint32_t at = home_of(tag);
    while (keys->known[at].tag != 0 && !is_key(&keys->known[at], tag, key)) at = (at + 1) % HOMES;
    return at;
}

bool keys_are_any(const struct keys *keys) { return keys->count > 0; }

bool keys_have(const struct keys *keys, const uint64_t key[2]) { return keys->known[where_is(keys, key_tag(key), key)].tag != 0; }

bool keys_have_tag(const struct keys *keys, uint64_t tag) {
    uint32_t at = home_of(tag);
    if (keys->at_home[at] == 0) return false;
    while (keys->known[at].tag != 0 && keys->known[at].tag != tag) at = (at + 1) % HOMES;
    return keys->known[at].tag == tag;
}

/* Whether a key at a place is found where it is by whoever comes from its home, though nothing is at another place before it. */
static bool is_found_beyond(uint32_t home, uint32_t empty, uint32_t at) { return empty < at ? home > empty && home <= at : home > empty || home <= at; }

/* Takes out the key at a place, and moves those up that wouldn't be found any more. */
static void take_out(struct keys *keys, uint32_t empty) {
    uint8_t *at_home = &keys->at_home[home_of(keys->known[empty].tag)];
    *at_home = (uint8_t)(*at_home - (*at_home < UINT8_MAX));
    keys->known[empty].tag = 0;
    for (uint32_t at = (empty + 1) % HOMES; keys->known[at].tag != 0; at = (at + 1) % HOMES) {
        if (is_found_beyond(home_of(keys->known[at].tag), empty, at)) continue;
        keys->known[empty] = keys->known[at];
        keys->known[at].tag = 0;
        empty = at;
    }
}

void keys_forget(struct keys *keys, uint64_t now_ms, bool are_needed) {
    for (; keys->count > (are_needed ? MOST_REMEMBERED - KEYS_AT_ONCE : 0); keys->count--, keys->oldest++) {
        const dated_key *oldest = &keys->dated[keys->oldest % MOST_REMEMBERED];
        if (now_ms - oldest->at_ms <= keys->remember_ms) return;
        take_out(keys, where_is(keys, key_tag(oldest->key), oldest->key));
    }
}

/* Whether it is new. One for which there is no room isn't: it is counted as refused. */
static bool remember(struct keys *keys, const heard_key *heard, uint64_t now_ms) {
    const uint32_t at = where_is(keys, heard->tag, heard->key);
    uint8_t *at_home = &keys->at_home[home_of(heard->tag)];
    if (keys->known[at].tag != 0) return false;
    if (keys->count == MOST_REMEMBERED) {
        ADD(&keys->refused, 1);
        return false;
    }
    keys->dated[(keys->oldest + keys->count++) % MOST_REMEMBERED] = (dated_key){ { heard->key[0], heard->key[1] }, now_ms };
    keys->known[at] = (known_key){ { heard->key[0], heard->key[1] }, heard->tag };
    *at_home = (uint8_t)(*at_home + (*at_home < UINT8_MAX));
    return true;
}

size_t keys_hear(struct keys *keys, uint64_t now_ms, size_t most, heard_key heard[KEYS_AT_ONCE]) {
    size_t count = 0;
    for (; most > 0 && keys_are_waiting(keys); most--) {
        heard[count] = take_next(keys);
        count += remember(keys, &heard[count], now_ms);
    }
    return count;
}
