/* Numbers, configurations and records that a seed gives, the same each time. */
#ifndef C_DICE_H
#define C_DICE_H

#include "model.h"

typedef struct dice {
    uint64_t state;
} dice;

/* splitmix64 */
static inline uint64_t draw(dice *d) {
    uint64_t z = d->state += UINT64_C(0x9e3779b97f4a7c15);
    z = (z ^ z >> 30) * UINT64_C(0xbf58476d1ce4e5b9);
    z = (z ^ z >> 27) * UINT64_C(0x94d049bb133111eb);
    return z ^ z >> 31;
}

static inline uint32_t below(dice *d, uint32_t n) { return (uint32_t)(draw(d) % n); }

static inline bool one_in(dice *d, uint32_t n) { return below(d, n) == 0; }

static inline uint64_t of(dice *d, const uint64_t *numbers, uint32_t n) { return numbers[below(d, n)]; }

/* A configuration of up to so many CPUs, and of small buffers; now and then one field is out of range. */
static inline dspec_config draw_config(dice *d, uint32_t most) {
    static const uint64_t sizes[] = { 8, 16, 24, 32, 40, 64, 64, 128, 128, 256, 256, 512 };
    static const uint64_t odd_sizes[] = { 0, 4, 12, 1048584 };
    static const uint64_t issues[] = { 1, 2, 3, 9, DSPEC_MAX_ISSUES, DSPEC_MAX_ISSUES }, calls[] = { 1, 20, 40, DSPEC_MAX_CALLS, DSPEC_MAX_CALLS };
    dspec_config c = {
        .cpus = 1 + below(d, most), .nspec = 1 + below(d, 3),
        .bufsize = (uint32_t)of(d, sizes, 12), .specsize = (uint32_t)of(d, sizes, 12),
        .max_issues = of(d, issues, 6), .max_calls = of(d, calls, 5), .policy = one_in(d, 4),
    };
    if (one_in(d, 30)) c.cpus = one_in(d, 2) ? 0 : 65;
    if (one_in(d, 30)) c.nspec = one_in(d, 2) ? 0 : 64;
    if (one_in(d, 30)) c.bufsize = (uint32_t)of(d, odd_sizes, 4);
    if (one_in(d, 30)) c.specsize = (uint32_t)of(d, odd_sizes, 4);
    if (one_in(d, 30)) c.max_issues = one_in(d, 2) ? 0 : DSPEC_MAX_ISSUES + 1;
    if (one_in(d, 30)) c.max_calls = one_in(d, 2) ? 0 : DSPEC_MAX_CALLS + 1;
    if (one_in(d, 30)) c.policy = 2;
    return c;
}

typedef struct drawn {
    uint32_t epid;
    uint64_t stamp, values[9];
    size_t n;
} drawn;

/* A record, mostly one that the schema accepts. */
static inline drawn draw_record(dice *d, const model_schema *known) {
    drawn r = { .epid = one_in(d, 16) ? below(d, known->enablings + 2) : 1 + below(d, known->enablings + (known->enablings == 0)) };
    bool is_known = r.epid >= 1 && r.epid <= known->enablings;
    r.n = one_in(d, 16) || !is_known ? below(d, 10) : known->fields[r.epid - 1];
    for (size_t i = 0; i < 9; i++) {
        uint32_t width = is_known && i < known->fields[r.epid - 1] ? known->widths[r.epid - 1][i] : 8;
        r.values[i] = draw(d) >> (one_in(d, 40) ? 0 : 64 - 8 * width);
    }
    r.stamp = known->stamped != one_in(d, 24) ? draw(d) : 0;
    return r;
}

#endif
