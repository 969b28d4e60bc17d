/* A writer to be killed: `kill_writer FOLDER` writes batches of many records of one CPU into a trace, without end. Each is a write of some 70 pages
 * of the file, so that most kills come in the middle of one. */
#include "dspec_ctf.h"

#include <string.h>

enum { RECORDS = 16384, SIZE = 16 };

static uint8_t batch[RECORDS * SIZE];

static void put(uint8_t *to, uint64_t number, int width) {
    for (int i = 0; i < width; i++) to[i] = (uint8_t)(number >> 8 * i);
}

/* Records with stamps from this one on, whose values are their stamps. */
static void fill(uint64_t first) {
    for (uint64_t i = 0; i < RECORDS; i++) {
        put(batch + i * SIZE, 1, 4);
        put(batch + i * SIZE + 4, first + i, 8);
        put(batch + i * SIZE + 12, first + i, 4);
    }
}

int main(int argc, char **argv) {
    static const uint8_t four[] = { 4 };
    static dspec_folder folder;
    dspec_schema schema = DSPEC_EMPTY;
    dspec_layout layout = { .stamped = true };
    dspec_identity identity = { .uuid = { 1 }, .hertz = 1000, .host = { "here", 4 }, .name = { "writer", 6 } };
    uint32_t epid;
    if (argc != 2 || dspec_schema_new(&schema) != DSPEC_OK || dspec_schema_stamp(&schema) != DSPEC_OK) return 2;
    if (dspec_layout_enable(&layout, &schema, four, 1, &epid) != DSPEC_OK) return 2;
    if (!dspec_folder_begin(&folder, argv[1], &schema, 1, &identity, NULL)) return 2;
    for (uint64_t first = 0;; first += RECORDS) {
        const dspec_batch next = { batch, sizeof batch, 0, 0 };
        fill(first);
        if (!dspec_folder_take(&folder, &layout, &next)) return 1;
    }
}
