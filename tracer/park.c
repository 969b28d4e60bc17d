/* park.c: a path that is parked: its records go into the ring of its lane, and its speculation is free. */
#include "body.h"

uint64_t park_places(uint64_t park_bytes) { return park_bytes / BYTES_A_PLACE + 1; }

dspec_status park_memory(uint64_t park_bytes, size_t *bytes) { return parking_memory(park_bytes, park_places(park_bytes), bytes); }

dspec_status park_begin(struct lane *lane, uint64_t park_bytes) { return dspec_parking_new(&lane->parked.ring, park_bytes, park_places(park_bytes)); }

bool park_notes_begin(struct lane *lane, uint64_t park_bytes, uint32_t specsize) {
    parked_paths *parked = &lane->parked;
    parked->tag_count = TAGS_A_PLACE * park_places(park_bytes);
    parked->tags = calloc(parked->tag_count, sizeof *parked->tags);
    parked->untold = calloc(parked->tag_count, sizeof *parked->untold);
    parked->is_simple = specsize >= MOST_OF_A_RECORD;
    return parked->tags != NULL && parked->untold != NULL;
}

void park_settle(struct lane *lane) {
    parked_paths *parked = &lane->parked;
    dspec_parked_counts counts;
    if (dspec_parking_counts(&parked->ring, &counts) != DSPEC_OK) return;
    STORE(&parked->end, counts.parked);
    STORE(&parked->kept, counts.kept);
    STORE(&parked->evicted, counts.evicted);
    STORE(&parked->expired, counts.expired);
    STORE(&lane->thrown, lane->thrown + counts.standing);
}

uint64_t park_over(const parked_paths *parked) { return LOAD(&parked->kept) + LOAD(&parked->evicted) + LOAD(&parked->expired); }

uint64_t park_left(const parked_paths *parked) { return LOAD(&parked->end) - park_over(parked); }

void park_drop(struct lane *lane) {
    free(lane->parked.tags);
    free(lane->parked.untold);
}

RARELY bool park_notes_untold(parked_paths *parked, dspec_cpu *cpu, uint64_t id) {
    if (parked->tag_count == 0) return false;
    dspec_dropped_in(cpu, id, &parked->untold[parked->next]);
    return true;
}
