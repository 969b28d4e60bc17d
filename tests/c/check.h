/* What the C tests share: checks that are counted, and told with their place where they fail. */
#ifndef C_CHECK_H
#define C_CHECK_H

#include "dspec.h"

#include <stdio.h>
#include <stdlib.h>
#include <string.h>

static unsigned long checks_passed, checks_failed;

/* Any thread may check something. */
static inline bool check_counts(bool is_well, const char *what, int line) {
    __atomic_fetch_add(is_well ? &checks_passed : &checks_failed, 1, __ATOMIC_RELAXED);
    if (!is_well) printf("line %d: %s\n", line, what);
    return is_well;
}

static inline bool check_answers(dspec_status got, dspec_status due, const char *call, int line) {
    if (got != due) printf("line %d: %s, due: %s\n", line, dspec_status_text(got), dspec_status_text(due));
    return check_counts(got == due, call, line);
}

#define CHECK(what) check_counts((what), #what, __LINE__)
#define ANSWERS(call, due) check_answers((call), (due), #call, __LINE__)

/* For what the test stands on: it ends there. */
#define MUST(call)                                    \
    do {                                              \
        if (!ANSWERS((call), DSPEC_OK)) exit(2);      \
    } while (0)

/* Prints the counts, as the last line; the status of the program. */
static inline int check_end(void) {
    printf("%lu passed, %lu failed\n", checks_passed, checks_failed);
    return checks_failed > 0 || checks_passed == 0;
}

static inline bool check_same_report(const dspec_report *one, const dspec_report *other) {
    return memcmp(one, other, sizeof *one) == 0;
}

static inline bool check_has_bytes(const dspec_batch *batch, const uint8_t *bytes, size_t len) {
    return batch->len == len && (len == 0 || memcmp(batch->bytes, bytes, len) == 0);
}

/* What most tests of misuse begin with: a handle of each kind. The CPUs and the consumer are of `session`; `closed` was another. */
typedef struct check_all {
    dspec_schema schema;
    dspec_session session;
    dspec_cpu cpu, second;
    dspec_consumer consumer;
    dspec_closed closed;
} check_all;

static const dspec_config check_config = {
    .cpus = 2, .nspec = 2, .bufsize = 64, .specsize = 24, .max_issues = 9, .max_calls = 99, .policy = DSPEC_POLICY_SWITCH,
};

static inline void check_set_up(check_all *a) {
    uint32_t epid;
    dspec_session other = DSPEC_EMPTY;
    *a = (check_all){ .schema = DSPEC_EMPTY };
    MUST(dspec_schema_new(&a->schema));
    MUST(dspec_schema_enable(&a->schema, (const uint8_t[]){ 4 }, 1, &epid));
    MUST(dspec_schema_enable(&a->schema, (const uint8_t[]){ 0 }, 0, &epid));
    MUST(dspec_schema_enable(&a->schema, (const uint8_t[]){ 1, 2, 8 }, 3, &epid));
    MUST(dspec_start(&check_config, &a->schema, &a->session));
    MUST(dspec_cpu_of(&a->session, 0, &a->cpu));
    MUST(dspec_consumer_of(&a->session, &a->consumer));
    MUST(dspec_start(&check_config, &a->schema, &other));
    MUST(dspec_finish(&other, &a->closed));
}

static inline void check_let_go(check_all *a) {
    dspec_closed_drop(&a->closed);
    dspec_consumer_drop(&a->consumer);
    dspec_cpu_drop(&a->second);
    dspec_cpu_drop(&a->cpu);
    dspec_session_drop(&a->session);
    dspec_schema_drop(&a->schema);
}

#endif
