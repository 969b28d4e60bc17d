/* A trace call in C that knows its fields when it is compiled: what a record costs at the least where a buffer is bounded and counts its
 * drops. `plain RECORD COUNT` traces COUNT records of one kind; callgrind counts. */
#include <stdatomic.h>
#include <stdint.h>
#include <stdio.h>
#include <stdlib.h>
#include <string.h>

struct buffer {
    unsigned char *bytes;
    uint32_t size, offset;
    uint64_t drops, records, calls;
};

static atomic_uint running = 1;

/* Room for so many bytes at an alignment, with zeros before it; NULL, and counted, where there is none. */
static inline unsigned char *reserved(struct buffer *buffer, uint32_t align, uint32_t size) {
    buffer->calls++;
    if (!atomic_load(&running)) return NULL;
    uint32_t start = (buffer->offset + align - 1) & ~(align - 1);
    if (start + size > buffer->size) {
        buffer->drops++;
        return NULL;
    }
    if (start != buffer->offset) memset(buffer->bytes + buffer->offset, 0, 4);
    buffer->offset = start + size;
    buffer->records++;
    return buffer->bytes + start;
}

__attribute__((noinline)) static int trace_4(struct buffer *buffer) {
    unsigned char *at = reserved(buffer, 4, 4);
    if (!at) return 0;
    memcpy(at, &(uint32_t){1}, 4);
    return 1;
}

__attribute__((noinline)) static int trace_8(struct buffer *buffer, uint32_t value) {
    unsigned char *at = reserved(buffer, 4, 8);
    if (!at) return 0;
    memcpy(at, &(uint32_t){2}, 4);
    memcpy(at + 4, &value, 4);
    return 1;
}

__attribute__((noinline)) static int trace_24(struct buffer *buffer, uint8_t one, uint16_t two, uint32_t four, uint64_t eight) {
    unsigned char *at = reserved(buffer, 8, 24);
    if (!at) return 0;
    memset(at, 0, 24);
    memcpy(at, &(uint32_t){3}, 4);
    memcpy(at + 4, &one, 1);
    memcpy(at + 6, &two, 2);
    memcpy(at + 8, &four, 4);
    memcpy(at + 16, &eight, 8);
    return 1;
}

int main(int argc, char **argv) {
    if (argc != 3) return 2;
    uint32_t bytes = (uint32_t)atoi(argv[1]), count = (uint32_t)atoi(argv[2]);
    struct buffer buffer = {.size = 1u << 20};
    buffer.bytes = malloc(buffer.size);
    if (!buffer.bytes) return 1;
    uint32_t kept = 0;
    for (uint32_t i = 0; i < count; i++) {
        if (bytes == 4) kept += (uint32_t)trace_4(&buffer);
        else if (bytes == 8) kept += (uint32_t)trace_8(&buffer, 4000000000u);
        else kept += (uint32_t)trace_24(&buffer, 200, 60000, 4000000000u, 9000000000000000000u);
    }
    printf("%u\n", kept);
    free(buffer.bytes);
    return 0;
}
