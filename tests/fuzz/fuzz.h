/* fuzz.h: what the fuzzers share. Each fuzz_NAME.c has the two calls of libFuzzer; play.c plays a corpus once where libFuzzer isn't there. */
#ifndef FUZZ_H
#define FUZZ_H

#ifndef _GNU_SOURCE
#define _GNU_SOURCE
#endif

#include <stdbool.h>
#include <stddef.h>
#include <stdint.h>
#include <stdio.h>
#include <stdlib.h>
#include <string.h>

int LLVMFuzzerInitialize(int *count, char ***words);
int LLVMFuzzerTestOneInput(const uint8_t *data, size_t size);

/* What has to be so for each input. */
#define MUST(IS)                                                        \
    do {                                                                \
        if (!(IS)) {                                                    \
            fprintf(stderr, "%s:%d: not so: %s\n", __FILE__, __LINE__, #IS); \
            abort();                                                    \
        }                                                               \
    } while (0)

/* An input that is taken piece by piece; after its end all is 0. */
typedef struct input {
    const uint8_t *at;
    size_t left;
} input;

static inline uint64_t take(input *from, size_t bytes) {
    uint64_t number = 0;
    for (size_t i = 0; i < bytes && from->left > 0; i++, from->at++, from->left--) number |= (uint64_t)*from->at << 8 * i;
    return number;
}

/* A copy of exactly so many bytes, so that the sanitizer sees a read after them. */
static inline uint8_t *copy_of(const uint8_t *bytes, size_t size) {
    uint8_t *copy = malloc(size);
    MUST(copy != NULL || size == 0);
    if (size > 0) memcpy(copy, bytes, size);
    return copy;
}

#endif
