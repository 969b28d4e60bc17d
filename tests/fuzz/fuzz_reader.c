/* fuzz_reader.c: records of a batch by their layout (dspec_reader.h), and parts of a batch (tracer/folder.h). The input says which layout it is, and has the batch. */
#include "fuzz.h"

#include "../../tracer/folder.h"

int LLVMFuzzerInitialize(int *count, char ***words) { return (void)count, (void)words, 0; }

/* A layout of up to 8 events of up to 8 fields, each of 1, 2, 4 or 8 bytes. */
static dspec_layout layout_of(input *from) {
    const uint8_t first = (uint8_t)take(from, 1);
    dspec_layout layout = { .stamped = (first & 1) != 0, .enablings = first >> 1 & 7 };
    for (uint32_t event = 0; event < layout.enablings; event++) {
        uint64_t widths = take(from, 2);
        layout.of[event].fields = (uint8_t)(take(from, 1) % (DSPEC_MAX_FIELDS + 1));
        for (size_t i = 0; i < DSPEC_MAX_FIELDS; i++, widths >>= 2) layout.of[event].widths[i] = (uint8_t)(1u << (widths & 3));
    }
    return layout;
}

static void is_record_of(const dspec_layout *layout, const dspec_record *record) {
    MUST(record->epid >= 1 && record->epid <= layout->enablings && record->fields == layout->of[record->epid - 1].fields);
    MUST(layout->stamped || record->stamp == 0);
    for (size_t i = 0; i < DSPEC_MAX_FIELDS; i++) {
        const uint32_t width = i < record->fields ? layout->of[record->epid - 1].widths[i] : 0;
        MUST(width == 8 || record->values[i] >> 8 * width == 0);
    }
}

/* Reads all records of a batch: how many there are. */
static uint64_t read_all(const dspec_layout *layout, const uint8_t *bytes, size_t len) {
    dspec_record record, before;
    size_t at = 0;
    uint64_t count = 0;
    dspec_reading how;
    memset(&record, 0x5a, sizeof record);
    for (;; count++) {
        const size_t was = at;
        before = record;
        how = dspec_read(layout, bytes, len, &at, &record);
        if (how != DSPEC_READ) {
            MUST(at == was && memcmp(&record, &before, sizeof record) == 0);
            break;
        }
        MUST(at > was && at <= len);
        is_record_of(layout, &record);
    }
    MUST((how == DSPEC_READ_ALL) == (at == len));
    return count;
}

static bool is_same(const dspec_record *record, const dspec_record *other) {
    return record->epid == other->epid && record->stamp == other->stamp && record->fields == other->fields && memcmp(record->values, other->values, sizeof record->values) == 0;
}

/* Whether a part has so many records, which are the next ones of the batch. */
static void has_next(const dspec_layout *layout, const dspec_batch *batch, size_t *at, const dspec_batch *part, uint64_t records) {
    size_t from = 0;
    for (uint64_t i = 0; i < records; i++) {
        dspec_record record, other;
        MUST(dspec_read(layout, batch->bytes, batch->len, at, &record) == DSPEC_READ);
        MUST(dspec_read(layout, part->bytes, part->len, &from, &other) == DSPEC_READ);
        MUST(is_same(&record, &other));
    }
    MUST(from == part->len);
}

/* The parts of a batch have its records, each once and in order. */
static void read_parts(const dspec_layout *layout, const uint8_t *bytes, size_t len, uint64_t most, uint64_t due) {
    const dspec_batch batch = { bytes, len, 7, 0 };
    static dspec_folder folder;
    size_t at = 0, read = 0;
    uint64_t count = 0;
    while (at < len) {
        dspec_batch part;
        const size_t from = at;
        const uint64_t records = dspec_folder_part_of_(&folder, layout, &batch, &at, most, &part);
        MUST(at > from && at <= len && part.drops == (from == 0 ? 7u : 0u) && part.bytes != NULL);
        if (records == 0) break; /* what is no record ends it */
        MUST(((uintptr_t)part.bytes - (uintptr_t)bytes) % 8 == 0 || part.bytes == folder.copy);
        has_next(layout, &batch, &read, &part, records);
        count += records;
    }
    MUST(count == due);
    free(folder.copy);
    folder.copy = NULL;
    folder.copy_size = 0;
}

int LLVMFuzzerTestOneInput(const uint8_t *data, size_t size) {
    input from = { data, size };
    const dspec_layout layout = layout_of(&from);
    const uint64_t most = take(&from, 1);
    const size_t len = from.left;
    uint8_t *bytes = copy_of(from.at, len);
    read_parts(&layout, bytes, len, most, read_all(&layout, bytes, len));
    free(bytes);
    return 0;
}
