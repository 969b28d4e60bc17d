/* dspec_reader.h: the records of a batch, read by the layout that was enabled. C11 and C++17, beside dspec.h; nothing is allocated.
 *
 *     dspec_layout layout = { .stamped = false };
 *     dspec_layout_enable(&layout, &schema, (const uint8_t[]){ 4, 4 }, 2, &epid);
 *     ..
 *     size_t at = 0;
 *     for (dspec_record one; dspec_read(&layout, batch.bytes, batch.len, &at, &one) == DSPEC_READ;) ..
 *
 * No byte of a batch tells its layout: the reader has its own copy of what it enabled.
 */
#ifndef DSPEC_READER_H
#define DSPEC_READER_H

#include "dspec.h"

#ifdef __cplusplus
extern "C" {
#endif

/* Which records there are: EPID N has the widths, in bytes, of of[N - 1]. */
typedef struct dspec_layout {
    bool stamped;       /* whether records have a stamp, as dspec_schema_stamp says to the schema */
    uint32_t enablings; /* how many EPIDs there are */
    struct {
        uint8_t widths[DSPEC_MAX_FIELDS];
        uint8_t fields;
    } of[DSPEC_MAX_ENABLINGS];
} dspec_layout;

typedef struct dspec_record {
    uint32_t epid;
    uint64_t stamp;                    /* 0 where records have none */
    uint64_t values[DSPEC_MAX_FIELDS]; /* those after the first `fields` are 0 */
    size_t fields;
} dspec_record;

/* What reading comes to. */
typedef enum dspec_reading {
    DSPEC_READ = 0,       /* a record, and `at` is after it */
    DSPEC_READ_ALL = 1,   /* none is left */
    DSPEC_READ_WRONG = 2  /* no record of this layout begins there: padding or a record where none may be, no such EPID, or no end */
} dspec_reading;

/* Enables records as dspec_schema_enable does, and where that isn't refused notes their layout.
 * As dspec_schema_enable. */
DSPEC_INLINE dspec_status dspec_layout_enable(dspec_layout *layout, dspec_schema *schema, const uint8_t *widths, size_t n, uint32_t *epid)
    DSPEC_NOEXCEPT {
    dspec_status status = dspec_schema_enable(schema, widths, n, epid);
    if (status != DSPEC_OK) return status;
    for (size_t i = 0; i < n; i++) layout->of[*epid - 1].widths[i] = widths[i];
    layout->of[*epid - 1].fields = DSPEC_AS(uint8_t, n);
    layout->enablings = *epid;
    return status;
}

/* The number of `width` bytes, at most 8, the lowest first. */
DSPEC_INLINE uint64_t dspec_number_at(const uint8_t *bytes, size_t width) DSPEC_NOEXCEPT {
    uint64_t number = 0;
    for (size_t i = width; i > 0; i--) number = number << 8 | bytes[i - 1];
    return number;
}

/* The least multiple that isn't below `at`. */
DSPEC_INLINE size_t dspec_multiple_from(size_t at, size_t multiple) DSPEC_NOEXCEPT { return (at + multiple - 1) / multiple * multiple; }

/* Reads the record that begins at byte `at` of these `len`, or after the one word of padding there, and moves `at` past it. Where it
 * answers anything but DSPEC_READ, `at` and `record` are as they were. */
DSPEC_INLINE dspec_reading dspec_read(const dspec_layout *layout, const uint8_t *bytes, size_t len, size_t *at, dspec_record *record)
    DSPEC_NOEXCEPT {
    dspec_record found = { 0, 0, { 0 }, 0 };
    size_t start = *at, end = layout->stamped ? 12 : 4;
    if (start == len) return DSPEC_READ_ALL;
    if (start % 8 == 4 && len - start >= 4 && dspec_number_at(bytes + start, 4) == 0) start += 4;
    if (len - start < end) return DSPEC_READ_WRONG;
    found.epid = DSPEC_AS(uint32_t, dspec_number_at(bytes + start, 4));
    if (found.epid == 0 || found.epid > layout->enablings) return DSPEC_READ_WRONG;
    if (layout->stamped) found.stamp = dspec_number_at(bytes + start + 4, 8);
    found.fields = layout->of[found.epid - 1].fields;
    for (size_t i = 0; i < found.fields; i++) {
        size_t width = layout->of[found.epid - 1].widths[i];
        if (width == 8 && start % 8 != 0) return DSPEC_READ_WRONG;
        end = dspec_multiple_from(end, width);
        if (len - start < end + width) return DSPEC_READ_WRONG;
        found.values[i] = dspec_number_at(bytes + start + end, width);
        end += width;
    }
    end = dspec_multiple_from(end, 4);
    if (len - start < end) return DSPEC_READ_WRONG;
    *at = start + end;
    *record = found;
    return DSPEC_READ;
}

#ifdef __cplusplus
}
#endif
#endif
