/* A trace buffer in C that does what a CPU's trace does: it asks whether tracing is on, looks the record's layout up in a table by its
 * number, reserves room at the record's alignment, counts a drop where there is none, and writes each field at its place with zeros in
 * the gaps. `table RECORD COUNT` traces COUNT records of one kind; callgrind counts. */
#include <stdatomic.h>
#include <stdint.h>
#include <stdio.h>
#include <stdlib.h>
#include <string.h>

struct record {
    uint32_t epid;
    uint32_t count;
    uint64_t stamp;
    uint64_t values[8];
};

struct layout {
    uint32_t size, align, count;
    uint8_t width[8];
    uint32_t place[8];
};

struct buffer {
    unsigned char *bytes;
    uint32_t size, offset;
    uint64_t drops, records, calls;
};

static struct layout table[64];
static atomic_uint running = 1;

static uint32_t rounded(uint32_t place, uint32_t align) { return (place + align - 1) & ~(align - 1); }

/* The layout of fields of these widths, after a number of 4 bytes. */
static struct layout laid_out(const uint8_t *widths, uint32_t count) {
    struct layout made = {.align = 4, .count = count};
    uint32_t end = 4;
    for (uint32_t i = 0; i < count; i++) {
        made.width[i] = widths[i];
        made.place[i] = rounded(end, widths[i]);
        end = made.place[i] + widths[i];
        if (widths[i] == 8) made.align = 8;
    }
    made.size = rounded(end, 4);
    return made;
}

static void put(unsigned char *at, uint64_t value, uint8_t width) {
    switch (width) {
    case 1: *at = (unsigned char)value; break;
    case 2: { uint16_t v = (uint16_t)value; memcpy(at, &v, 2); break; }
    case 4: { uint32_t v = (uint32_t)value; memcpy(at, &v, 4); break; }
    default: memcpy(at, &value, 8);
    }
}

__attribute__((noinline)) static int trace(struct buffer *buffer, const struct record *record) {
    buffer->calls++;
    if (!atomic_load(&running)) return 0;
    const struct layout *layout = &table[record->epid];
    uint32_t start = rounded(buffer->offset, layout->align);
    if (start + layout->size > buffer->size) {
        buffer->drops++;
        return 0;
    }
    unsigned char *at = buffer->bytes + start;
    if (start != buffer->offset) memset(buffer->bytes + buffer->offset, 0, 4);
    memset(at, 0, layout->size);
    memcpy(at, &record->epid, 4);
    for (uint32_t i = 0; i < layout->count; i++) put(at + layout->place[i], record->values[i], layout->width[i]);
    buffer->offset = start + layout->size;
    buffer->records++;
    return 1;
}

int main(int argc, char **argv) {
    if (argc != 3) return 2;
    uint32_t bytes = (uint32_t)atoi(argv[1]), count = (uint32_t)atoi(argv[2]);
    table[1] = laid_out(NULL, 0);
    table[2] = laid_out((const uint8_t[]){4}, 1);
    table[3] = laid_out((const uint8_t[]){1, 2, 4, 8}, 4);
    struct record record = {.epid = bytes == 4 ? 1 : bytes == 8 ? 2 : 3};
    const uint64_t values[] = {200, 60000, 4000000000u, 9000000000000000000u};
    record.count = table[record.epid].count;
    if (record.epid == 2) record.values[0] = values[2];
    if (record.epid == 3) memcpy(record.values, values, sizeof values);
    struct buffer buffer = {.size = 1u << 20};
    buffer.bytes = malloc(buffer.size);
    if (!buffer.bytes) return 1;
    uint32_t kept = 0;
    for (uint32_t i = 0; i < count; i++) kept += (uint32_t)trace(&buffer, &record);
    printf("%u\n", kept);
    free(buffer.bytes);
    return 0;
}
