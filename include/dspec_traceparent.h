/* dspec_traceparent.h: the header `traceparent` of W3C's Trace Context, which takes a request's number from one process to the next. For C11 and C++17. It was tested, and isn't proved.
 *
 *     dspec_traceparent caller;
 *     if (dspec_traceparent_parse(text, strlen(text), &caller)) dspec_path_key(&path, caller.trace_high, caller.trace_low);
 *
 *     char text[DSPEC_TRACEPARENT_SIZE];
 *     caller.parent = span;                                         this process's own span, for the next one
 *     if (dspec_traceparent_format(&caller, text)) send(text);
 *
 * A signal's handler may make both calls.
 */
#ifndef DSPEC_TRACEPARENT_H
#define DSPEC_TRACEPARENT_H

#include "dspec.h"

#ifdef __cplusplus
extern "C" {
#endif

/* The characters of a header, and the zero after them. */
#define DSPEC_TRACEPARENT_SIZE 56u
/* The flag that the caller may have recorded the trace. */
#define DSPEC_TRACEPARENT_SAMPLED 1u

typedef struct dspec_traceparent {
    uint64_t trace_high; /* the first eight bytes of the trace's number, the first of them the highest */
    uint64_t trace_low;  /* its last eight; one of the two isn't 0 */
    uint64_t parent;     /* the number of the caller's span, never 0 */
    uint8_t flags;
} dspec_traceparent;

/* Reads so many characters, without any before or after the header. False where that isn't one, and to stays as it is then. Of a version later than 00, what 00 has is read, as W3C wants it. */
bool dspec_traceparent_parse(const char *text, size_t length, dspec_traceparent *to) DSPEC_NOEXCEPT;

/* Writes a header of version 00, and a zero after it. Its flags are DSPEC_TRACEPARENT_SAMPLED or none: W3C reserves the others. False where a number is 0, which no header may have: the text is empty then. */
bool dspec_traceparent_format(const dspec_traceparent *from, char text[DSPEC_TRACEPARENT_SIZE]) DSPEC_NOEXCEPT;

#ifdef __cplusplus
} /* extern "C" */
#endif

#endif
