/* folder_batch.c: the records of a batch: they are counted, and some of them become a batch of their own. */
#include "folder.h"

#include <string.h>

uint64_t dspec_folder_skips_(const dspec_layout *layout, const dspec_batch *batch, size_t *at, uint64_t most) {
    dspec_record record;
    uint64_t records = 0;
    while (records < most && dspec_read(layout, batch->bytes, batch->len, at, &record) == DSPEC_READ) records++;
    return records;
}

uint64_t dspec_folder_counts_(const dspec_layout *layout, const dspec_batch *batch) {
    size_t at = 0;
    return dspec_folder_skips_(layout, batch, &at, UINT64_MAX);
}

/* Copies records of a batch, laid out as a batch is that begins with them: whether there is memory. */
static bool copy_records(dspec_folder *folder, const dspec_layout *layout, dspec_batch *part, uint64_t records, size_t from, const dspec_batch *batch) {
    dspec_record record;
    size_t at = from, end = 0;
    if (!dspec_folder_grows_(&folder->copy, &folder->copy_size, part->len + 4 * (size_t)records)) return false;
    while (at < from + part->len && dspec_read(layout, batch->bytes, batch->len, &at, &record) == DSPEC_READ) {
        const size_t start = from + (dspec_number_at(batch->bytes + from, 4) == 0 ? 4 : 0);
        bool is_wide = false;
        for (size_t i = 0; i < record.fields; i++) is_wide |= layout->of[record.epid - 1].widths[i] == 8;
        part->len -= at - from;
        if (is_wide && end % 8 != 0) {
            memset(folder->copy + end, 0, 4);
            end += 4;
        }
        memcpy(folder->copy + end, batch->bytes + start, at - start);
        end += at - start;
        from = at;
    }
    part->bytes = folder->copy;
    part->len = end;
    return true;
}

uint64_t dspec_folder_part_of_(dspec_folder *folder, const dspec_layout *layout, const dspec_batch *batch, size_t *at, uint64_t most, dspec_batch *part) {
    const size_t from = *at;
    size_t next = from;
    uint64_t records = 0;
    for (; dspec_folder_skips_(layout, batch, &next, 1) == 1 && (records == 0 || next - from <= most); records++) *at = next;
    if (records == 0) *at = batch->len;
    *part = *batch;
    part->bytes += from;
    part->len = *at - from;
    part->drops = from == 0 ? batch->drops : 0;
    if (from % 8 != 0 && records > 0 && !copy_records(folder, layout, part, records, from, batch)) part->bytes = NULL;
    return records;
}
