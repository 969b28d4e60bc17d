/* dspec_text.h: texts as fields of records, beside dspec.h. For C11 and C++17; dspec_probe.h includes it, and C++ has them as dspec::text in dspec.hpp.
 *
 *     DSPEC_PROBE(query, uint64_t, request, dspec_text32, sql);
 *     query_in(&path, request, dspec_text32_of(sql, strlen(sql)));
 *
 * A text has 8, 16, 24, 32, 40 or 48 bytes, and is one field for each eight bytes. Zeros follow its end. One that is longer is cut, at a character's border where its bytes are
 * UTF-8; full stops follow, so that the last byte of a text that was cut is never zero. It may have any bytes, but readers take a zero for its end. The trace's
 * metadata says of it that it is a text, so that babeltrace2 prints sql = "select ..".
 */
#ifndef DSPEC_TEXT_H
#define DSPEC_TEXT_H

#include "dspec.h"
#include "dspec_names.h"

#ifdef __cplusplus
extern "C" {
#endif

/* The most bytes of a text: six fields of the eight that a record has. */
#define DSPEC_MAX_TEXT 48u

/* How many of these bytes are kept of a text that has more of them than `most`, 8 or more: that many, or up to three less, where else a character of UTF-8 would be torn. */
DSPEC_INLINE size_t dspec_text_cut(const char *bytes, size_t most) DSPEC_NOEXCEPT {
    size_t at = most;
    while (at > most - 3 && (DSPEC_AS(uint8_t, bytes[at]) & 0xc0) == 0x80) at--;
    return (DSPEC_AS(uint8_t, bytes[at]) & 0xc0) == 0x80 ? most : at;
}

/* How many bytes of a text go into the next of several records of a probe, each of which has room for `most`: they belong together by another field. */
DSPEC_INLINE size_t dspec_text_piece(const char *bytes, size_t len, size_t most) DSPEC_NOEXCEPT { return len <= most ? len : dspec_text_cut(bytes, most); }

/* Up to seven bytes as a word. Bytes that are read twice go to the same place twice. */
DSPEC_INLINE uint64_t dspec_text_few_(const char *bytes, size_t len) DSPEC_NOEXCEPT {
    uint32_t low = 0, high = 0;
    if (len >= 4) {
        memcpy(&low, bytes, 4);
        memcpy(&high, bytes + len - 4, 4);
        return low | DSPEC_AS(uint64_t, high) << 8 * (len - 4);
    }
    if (len == 0) return 0;
    return DSPEC_AS(uint64_t, DSPEC_AS(uint8_t, bytes[0])) | DSPEC_AS(uint64_t, DSPEC_AS(uint8_t, bytes[len / 2])) << 8 * (len / 2) |
           DSPEC_AS(uint64_t, DSPEC_AS(uint8_t, bytes[len - 1])) << 8 * (len - 1);
}

/* Puts a text that fills these words, or is longer than that. */
DSPEC_INLINE void dspec_text_fill_(uint64_t *words, size_t count, const char *bytes, size_t len) DSPEC_NOEXCEPT {
    memcpy(words, bytes, 8 * count);
    if (len == 8 * count) return;
    for (size_t i = dspec_text_cut(bytes, 8 * count); i < 8 * count; i++) DSPEC_AS(char *, DSPEC_AS(void *, words))[i] = '.';
}

/* Puts a text into these words, all of which are zeros. No byte after its end is read. */
DSPEC_INLINE void dspec_text_put(uint64_t *words, size_t count, const char *bytes, size_t len) DSPEC_NOEXCEPT {
    uint64_t last;
    size_t at = 0;
    if (len >= 8 * count) {
        dspec_text_fill_(words, count, bytes, len);
        return;
    }
    if (len < 8) {
        words[0] = dspec_text_few_(bytes, len);
        return;
    }
    memcpy(&last, bytes + len - 8, 8);
    if (count > 4 && (len & 32) != 0) {
        memcpy(words, bytes, 32);
        at = 32;
    }
    if (count > 2 && (len & 16) != 0) {
        memcpy(&words[at / 8], bytes + at, 16);
        at += 16;
    }
    if ((len & 8) != 0) {
        memcpy(&words[at / 8], bytes + at, 8);
        at += 8;
    }
    if (at < len) words[at / 8] = last >> 8 * (8 - len % 8);
}

/* The bytes before a text's first zero, else all. They are the words' own. */
DSPEC_INLINE dspec_text dspec_text_in(const uint64_t *words, size_t count) DSPEC_NOEXCEPT {
    const char *bytes = DSPEC_AS(const char *, DSPEC_AS(const void *, words));
    const void *end = memchr(bytes, 0, 8 * count);
    dspec_text text = { bytes, end == NULL ? 8 * count : DSPEC_AS(size_t, DSPEC_AS(const char *, end) - bytes) };
    return text;
}

/* dspec_text32 and its like. dspec_text32_of(bytes, len) is the text of these bytes; dspec_text32_in(&text) are the bytes of a text. dspec_text32_whole(&text): nothing of it was cut;
 * false of one that fills it too, which isn't told from one that was cut. */
#define DSPEC_TEXT_(BYTES)                                                                                               \
    typedef struct dspec_text##BYTES {                                                                                   \
        uint64_t words[BYTES / 8];                                                                                       \
    } dspec_text##BYTES;                                                                                                 \
    DSPEC_INLINE dspec_text##BYTES dspec_text##BYTES##_of(const char *bytes, size_t len) DSPEC_NOEXCEPT {                \
        dspec_text##BYTES text = { { 0 } };                                                                              \
        dspec_text_put(text.words, BYTES / 8, bytes, len);                                                               \
        return text;                                                                                                     \
    }                                                                                                                    \
    DSPEC_INLINE dspec_text dspec_text##BYTES##_in(const dspec_text##BYTES *text) DSPEC_NOEXCEPT { return dspec_text_in(text->words, BYTES / 8); } \
    DSPEC_INLINE bool dspec_text##BYTES##_whole(const dspec_text##BYTES *text) DSPEC_NOEXCEPT { return text->words[BYTES / 8 - 1] >> 56 == 0; }

DSPEC_TEXT_(8)
DSPEC_TEXT_(16)
DSPEC_TEXT_(24)
DSPEC_TEXT_(32)
DSPEC_TEXT_(40)
DSPEC_TEXT_(48)

/* The widths of a schema's fields out of those of a probe's: a text's is how many bytes it has. How many fields they are; more than DSPEC_MAX_FIELDS aren't written. */
DSPEC_INLINE size_t dspec_widths_spread(const uint8_t *widths, size_t n, uint8_t fields[DSPEC_MAX_FIELDS]) DSPEC_NOEXCEPT {
    size_t count = 0;
    for (size_t i = 0; i < n; i++) {
        const bool is_text = widths[i] > 8 && widths[i] % 8 == 0;
        for (size_t k = 0; k < (is_text ? widths[i] / 8u : 1u); k++, count++)
            if (count < DSPEC_MAX_FIELDS) fields[count] = is_text ? DSPEC_AS(uint8_t, 8) : widths[i];
    }
    return count;
}

#ifdef __cplusplus
}
#endif

#endif
