/* What the calls of dspec.h answer, and what they leave, where one thread makes them all: a model for tests, written from the rules
 * and not from the library. It keeps each record's bytes, so that batches can be compared byte by byte. */
#ifndef C_MODEL_H
#define C_MODEL_H

#include "dspec.h"

enum { MODEL_FIELDS = 8, MODEL_ENABLINGS = 64, MODEL_CPUS = 64, MODEL_SLOTS = 63 };

typedef struct model_schema {
    uint8_t widths[MODEL_ENABLINGS][MODEL_FIELDS];
    uint32_t fields[MODEL_ENABLINGS];
    uint32_t enablings;
    bool stamped;
} model_schema;

dspec_status model_enable(model_schema *schema, const uint8_t *widths, size_t n, uint32_t *epid);

/* How many bytes each field of an EPID has, four bits a field, the first lowest; 0 where it isn't enabled. */
uint32_t model_signature(const model_schema *schema, uint32_t epid);

/* A row of records' bytes. */
typedef struct model_text {
    uint8_t *bytes;
    uint32_t size, len, records;
} model_text;

/* Where a CPU's second principal buffer is. */
typedef enum model_place { MODEL_SPARE, MODEL_SEALED, MODEL_OUT } model_place;

typedef struct model_cpu {
    model_text active, other, speculative[MODEL_SLOTS + 1];
    uint64_t marks[MODEL_SLOTS + 1]; /* one more than the issue that was granted last, or 0 */
    uint32_t cut[MODEL_SLOTS + 1];   /* records of that issue that had no room */
    uint64_t acknowledged[MODEL_SLOTS + 1];
    model_place place;
    uint64_t calls, sealed, taken, asked, drops, other_drops;
    bool closed; /* a buffer that has refused, under the policy "fill" */
    dspec_report report;
} model_cpu;

typedef enum model_code { MODEL_FREE, MODEL_OPEN, MODEL_COMMITTED, MODEL_DISCARDED } model_code;

typedef struct model_slot {
    uint64_t issue;
    model_code code;
    uint64_t callers; /* a bit a CPU */
} model_slot;

typedef struct model {
    dspec_config config;
    model_schema schema;
    bool stopped;
    model_slot slots[MODEL_SLOTS + 1];
    model_cpu cpus[MODEL_CPUS];
} model;

/* The first field out of range, or OK. */
dspec_status model_ranges(const dspec_config *config);

/* Ends the test's program where the test itself has no memory. */
void model_start(model *m, const dspec_config *config, const model_schema *schema);
void model_free(model *m);

dspec_status model_trace(model *m, uint32_t cpu, uint32_t epid, uint64_t stamp, const uint64_t *values, size_t n);
/* How many words the text of an EPID's record has; 0 of one that has no fields or isn't enabled. */
size_t model_words(const model_schema *schema, uint32_t epid);
dspec_status model_put(model *m, uint32_t cpu, uint64_t claim, uint64_t stamp, const uint64_t *words, size_t n);
dspec_status model_put_in(model *m, uint32_t cpu, uint64_t id, uint64_t claim, uint64_t stamp, const uint64_t *words, size_t n);
dspec_status model_speculation(model *m, uint32_t cpu, uint64_t *id);
dspec_status model_speculate(model *m, uint32_t cpu, uint64_t id, uint32_t epid, uint64_t stamp, const uint64_t *values, size_t n);
dspec_status model_commit(model *m, uint32_t cpu, uint64_t id, uint32_t *count);
dspec_status model_commit_if_room(model *m, uint32_t cpu, uint64_t id, uint32_t *count);
dspec_status model_discard(model *m, uint32_t cpu, uint64_t id, uint32_t *count);
/* The speculation of a slot of which the CPU holds records, or 0. */
uint64_t model_open_at(const model *m, uint32_t cpu, uint32_t slot);
uint32_t model_dropped_in(const model *m, uint32_t cpu, uint64_t id);
void model_service(model *m, uint32_t cpu, bool *sealed, uint32_t *settled);

void model_ask(model *m, uint32_t cpu);
/* Whether a batch had come; it is the CPU's `other` text with `other_drops`. */
bool model_take(model *m, uint32_t cpu);
void model_give_back(model *m, uint32_t cpu);
uint32_t model_clean(model *m);

/* What the close settles for each CPU. */
void model_finish(model *m);

#endif
