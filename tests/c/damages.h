/* Damages of a memory's file, by the numbers that a seed gives. */
#ifndef C_DAMAGES_H
#define C_DAMAGES_H

#include "dice.h"

/* Where the parts of a file are that this test has to know: those of tracer/survive.h. */
#include "../../tracer/survive.h"

/* The file: its bytes as they are now, as they were left, and as another killed tracer left a file of the same size, or NULL. */
typedef struct memory {
    uint8_t *now;
    const uint8_t *whole, *other;
    size_t size;
} memory;

static inline uint64_t word_at(const memory *of, size_t at) {
    uint64_t number;
    memcpy(&number, of->whole + at, sizeof number);
    return number;
}

static inline uint64_t head_sum(const saved_head *head) {
    const uint8_t *at = (const uint8_t *)head;
    uint64_t sum = UINT64_C(0xcbf29ce484222325);
    for (size_t i = sizeof head->magic; i < offsetof(saved_head, sum); i++) sum = (sum ^ at[i]) * UINT64_C(0x100000001b3);
    return sum;
}

/* ---- Where. ---- */

/* A place of a word, mostly one that isn't 0. */
static inline size_t place_of_word(dice *d, const memory *of, size_t most) {
    size_t at = 0;
    for (int tries = 0; tries < 20; tries++) {
        at = (size_t)(draw(d) % (most / 8)) * 8;
        if (word_at(of, at) != 0) break;
    }
    return at;
}

/* A place among the numbers that say where something is, how long it is, and how many there are: of the head, the tracer, its folder, a lane, or what the library has of it. */
static inline size_t place_of_number(dice *d, const memory *of) {
    const saved_head *head = (const saved_head *)(const void *)of->whole;
    const size_t body_at = head->body_at, lane_at = body_at + offsetof(body, lanes) + below(d, head->lanes + 1) * sizeof(struct lane), folder_at = body_at + offsetof(body, folder);
    const struct {
        size_t at, size;
    } parts[] = {
        { 0, offsetof(saved_head, host) }, { offsetof(saved_head, sum), sizeof *head - offsetof(saved_head, sum) }, { body_at, offsetof(body, folder) },
        { folder_at + offsetof(dspec_folder, parts), sizeof(dspec_folder) - offsetof(dspec_folder, parts) }, { lane_at, offsetof(struct lane, open) }, { lane_at, offsetof(struct lane, open) },
        { lane_at + offsetof(struct lane, open), 4 * sizeof(open_path) }, { lane_at + offsetof(struct lane, session), sizeof(struct lane) - offsetof(struct lane, session) }, { head->memory_at, of->size - head->memory_at },
    };
    const uint32_t part = below(d, sizeof parts / sizeof parts[0]);
    return parts[part].at + (size_t)(draw(d) % (parts[part].size / 4)) * 4;
}

/* ---- What. ---- */

static inline uint64_t another_word(dice *d, const memory *of, uint64_t was) {
    switch (below(d, 7)) {
    case 0: return 0;
    case 1: return UINT64_MAX;
    case 2: return was + 8 * (1 + below(d, 100));
    case 3: return was - 1 - below(d, 100);
    case 4: return word_at(of, place_of_word(d, of, of->size));
    case 5: return was ^ UINT64_C(1) << below(d, 64);
    default: return draw(d);
    }
}

/* An end of what a number may be: of its bits, of the file, of a buffer, or of the addresses that the memory has. */
static inline uint64_t extreme(dice *d, const memory *of) {
    const saved_head *head = (const saved_head *)(const void *)of->whole;
    const uint64_t ends[] = { 0, 1, INT32_MAX, UINT32_MAX, INT64_MAX, UINT64_MAX, of->size, head->bufsize, head->specsize, head->lanes, head->paths, head->address, head->address + of->size,
                              head->address + head->memory_at, head->address + head->body_at, MAX_OPEN, DSPEC_MAX_LANES };
    const uint64_t end = ends[below(d, sizeof ends / sizeof ends[0])];
    return one_in(d, 3) ? end - 1 : one_in(d, 3) ? end + 1 : end;
}

static inline void change_word(dice *d, const memory *of) {
    const size_t at = one_in(d, 5) ? place_of_word(d, of, sizeof(saved_head)) : place_of_word(d, of, of->size);
    const uint64_t is = another_word(d, of, word_at(of, at));
    memcpy(of->now + at, &is, sizeof is);
}

static inline void change_numbers(dice *d, const memory *of) {
    for (uint32_t left = 1 + below(d, 3); left > 0; left--) {
        const size_t at = place_of_number(d, of), width = one_in(d, 3) ? 4 : 8;
        const uint64_t is = extreme(d, of);
        if (at + width <= of->size) memcpy(of->now + at, &is, width);
    }
}

static inline void flip_bytes(dice *d, const memory *of) {
    for (uint32_t left = 1 + below(d, 16); left > 0; left--) of->now[one_in(d, 2) ? place_of_number(d, of) + below(d, 4) : draw(d) % of->size] ^= (uint8_t)(1 + below(d, 255));
}

static inline void make_random(dice *d, const memory *of) {
    const size_t page = (size_t)(draw(d) % (of->size / 4096)) * 4096;
    for (size_t i = 0; i < 4096; i++) of->now[page + i] = (uint8_t)draw(d);
}

/* Two blocks have each other's bytes. */
static inline void swap_blocks(dice *d, const memory *of) {
    const size_t length = (size_t)8 << below(d, 10), one = (size_t)(draw(d) % (of->size / length)) * length, other = (size_t)(draw(d) % (of->size / length)) * length;
    memcpy(of->now + one, of->whole + other, length);
    memcpy(of->now + other, of->whole + one, length);
}

/* A part of the file is the other one's: some bytes, a lane, or all from a place on. */
static inline void mix(dice *d, const memory *of) {
    const saved_head *head = (const saved_head *)(const void *)of->whole;
    const size_t from = one_in(d, 3) ? (size_t)head->body_at + offsetof(body, lanes) + below(d, head->lanes + 1) * sizeof(struct lane) : (size_t)(draw(d) % (of->size / 8)) * 8;
    const size_t most = of->size - from, length = one_in(d, 3) ? sizeof(struct lane) : one_in(d, 2) ? most : (size_t)8 << below(d, 12);
    memcpy(of->now + from, of->other + from, length < most ? length : most);
}

/* One damage of the file as it was left: how long the file is then, and whether it has anything of the other one. */
static inline size_t damage(dice *d, const memory *of, bool *is_mixed) {
    static void (*const kinds[])(dice *, const memory *) = { change_word, change_word, change_word, change_numbers, change_numbers, flip_bytes, flip_bytes, make_random, swap_blocks, mix };
    uint32_t kind = below(d, sizeof kinds / sizeof kinds[0]);
    if (kinds[kind] == mix && of->other == NULL) kind = 0;
    *is_mixed = kinds[kind] == mix;
    kinds[kind](d, of);
    if (one_in(d, 2)) ((saved_head *)(void *)of->now)->sum = head_sum((const saved_head *)(const void *)of->now);
    return one_in(d, 20) ? (size_t)(draw(d) % of->size) : of->size;
}

#endif
