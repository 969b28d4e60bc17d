/* A ring of a thread of its own in C, overwritten when it is full: what a record costs where nothing is counted, no buffer is bounded and
 * nothing is ever decided. `ring RECORD COUNT` writes COUNT records of one kind; callgrind counts. */
#include <stdint.h>
#include <stdio.h>
#include <stdlib.h>
#include <string.h>

enum { SIZE = 1 << 16 };

static _Thread_local unsigned char ring[SIZE + 64];
static _Thread_local uint64_t offset;

/* Copies a record whose fields the compiler knows. */
static inline void put(const void *record, uint32_t size) {
    memcpy(ring + offset % SIZE, record, size);
    offset += size;
}

__attribute__((noinline)) static void put_4(void) {
    const uint32_t record = 1;
    put(&record, sizeof record);
}

__attribute__((noinline)) static void put_8(uint32_t value) {
    const uint32_t record[2] = { 2, value };
    put(record, sizeof record);
}

__attribute__((noinline)) static void put_24(uint8_t one, uint16_t two, uint32_t four, uint64_t eight) {
    const struct {
        uint32_t epid;
        uint8_t one;
        uint16_t two;
        uint32_t four;
        uint64_t eight;
    } record = { 3, one, two, four, eight };
    put(&record, sizeof record);
}

int main(int argc, char **argv) {
    if (argc != 3) return 2;
    uint32_t bytes = (uint32_t)atoi(argv[1]), count = (uint32_t)atoi(argv[2]);
    for (uint32_t i = 0; i < count; i++) {
        if (bytes == 4) put_4();
        else if (bytes == 8) put_8(4000000000u);
        else put_24(200, 60000, 4000000000u, 9000000000000000000u);
    }
    printf("%llu\n", (unsigned long long)offset);
    return 0;
}
