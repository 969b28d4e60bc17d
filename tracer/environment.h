/* environment.h: what the variable DSPEC_TRACE says, for environment.c and for the fuzzer of its reader. */
#ifndef DSPEC_TRACER_ENVIRONMENT_H
#define DSPEC_TRACER_ENVIRONMENT_H

#include "body.h"

#pragma GCC visibility push(hidden)

enum { MAX_OFF = 16 };

typedef struct settings {
    dspec_tracer_options options;
    char folder[4096];
    char off[MAX_OFF][256]; /* probes that are off from the start */
    size_t off_count;
    char why[256];
} settings;

/* Reads FOLDER,word=value,word,.. into settings, over the options that they have already: whether each word is one; else why says which one isn't. */
bool settings_read(settings *to, const char *text);

#pragma GCC visibility pop
#endif
