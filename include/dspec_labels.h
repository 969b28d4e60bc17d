/* dspec_labels.h: labels of a field's numbers, beside dspec_probe.h and dspec_folder.h. For C11; in C++ dspec.hpp has it.
 *
 *     DSPEC_PROBE(reply, uint64_t, request, uint8_t, outcome);
 *     DSPEC_LABELS(reply, outcome, "done", "aborted", "slow");            0, 1 and 2 of it, at the top of the same file
 *
 * A trace shows the label beside the number: outcome = ( "slow" : container = 2 ). The record has the number alone.
 *
 * A text that is the same in each record, a place in a file or the name of a function, is a LITERAL: its number is recorded, in four bytes, and the trace has the text once.
 *
 *     DSPEC_PROBE(step, uint64_t, request, uint32_t, place);
 *     static dspec_literals places;
 *     DSPEC_LITERALS(step, place, places);
 *     here = dspec_literal(&places, "parse.c: no number");                before the trace begins; the same text has the same number
 */
#ifndef DSPEC_LABELS_H
#define DSPEC_LABELS_H

#include "dspec_names.h"

#include <assert.h>

#ifdef __cplusplus
extern "C" {
#endif

/* How many literals there may be in one table. */
#define DSPEC_MAX_LITERALS 1024u

/* Texts by their numbers. All zeros at first; the texts stay the caller's. */
typedef struct dspec_literals {
    const char *texts[DSPEC_MAX_LITERALS];
    size_t count;
} dspec_literals;

/* The number of a text, which gets one where it has none; DSPEC_MAX_LITERALS, which no trace has a text for, where there is no room. A text that comes when the trace has begun isn't told.
 * One thread at a time is in it. */
DSPEC_INLINE uint32_t dspec_literal(dspec_literals *literals, const char *text) DSPEC_NOEXCEPT {
    size_t at = 0;
    while (at < literals->count && strcmp(literals->texts[at], text) != 0) at++;
    if (at == literals->count && at < DSPEC_MAX_LITERALS) literals->texts[literals->count++] = text;
    return DSPEC_AS(uint32_t, at);
}

#ifndef __cplusplus

/* Of a field of a probe of dspec_probe.h. */
#define DSPEC_LABELS(PROBE, NAME, ...)                                                                                                                    \
    static const char *const dspec_texts_of_##PROBE##_dspec_##NAME[] = { __VA_ARGS__ };                                                                   \
    static const size_t dspec_count_of_##PROBE##_dspec_##NAME = sizeof dspec_texts_of_##PROBE##_dspec_##NAME / sizeof(const char *);                      \
    static const dspec_labels dspec_labels_of_##PROBE##_dspec_##NAME = { dspec_texts_of_##PROBE##_dspec_##NAME, &dspec_count_of_##PROBE##_dspec_##NAME }; \
    static_assert(sizeof(((PROBE##_values *)0)->NAME) > 1 || sizeof dspec_texts_of_##PROBE##_dspec_##NAME <= 256 * sizeof(const char *), "a field of one byte has 256 labels at the most")

/* Its labels are the texts of a table. */
#define DSPEC_LITERALS(PROBE, NAME, TABLE)                                                                                                    \
    static const dspec_labels dspec_labels_of_##PROBE##_dspec_##NAME = { (const char *const *)(TABLE).texts, &(TABLE).count };                \
    static_assert(sizeof(((PROBE##_values *)0)->NAME) >= 4, "the number of a literal has four bytes")

#endif

#ifdef __cplusplus
}
#endif

#endif
