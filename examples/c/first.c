/* One CPU and its consumer in one thread: a request that fails keeps its path, one that doesn't throws it away. */
#include "dspec.h"
#include "dspec_probe.h"

#include <inttypes.h>
#include <stdio.h>
#include <stdlib.h>

#define OK(call)                                                                   \
    do {                                                                           \
        dspec_status status_ = (call);                                             \
        if (status_ != DSPEC_OK) {                                                 \
            fprintf(stderr, "first: %s: %s\n", #call, dspec_status_text(status_)); \
            exit(1);                                                               \
        }                                                                          \
    } while (0)

/* The one probe: a step of a request. */
DSPEC_PROBE(step, uint32_t, request, uint32_t, number);

/* A request's steps go to a speculation, which is committed or discarded after the last of them. */
static void serve(dspec_cpu *cpu, const step_probe *step, uint32_t request, bool fails) {
    uint64_t id;
    uint32_t count;
    OK(dspec_speculation(cpu, &id));
    for (uint32_t i = 0; i < 3; i++) OK(step_speculate(step, cpu, id, 0, request, i));
    OK(fails ? dspec_commit(cpu, id, &count) : dspec_discard(cpu, id, &count));
    printf("request %" PRIu32 ": %" PRIu32 " records %s\n", request, count, fails ? "kept" : "thrown away");
}

static void print_batch(const dspec_layout *layout, const step_probe *step, const dspec_batch *batch) {
    dspec_record record;
    step_values of;
    for (size_t at = 0; dspec_read(layout, batch->bytes, batch->len, &at, &record) == DSPEC_READ;)
        if (step_read(step, &record, &of)) printf("cpu %" PRIu32 ": request %" PRIu32 ", step %" PRIu32 "\n", batch->cpu, of.request, of.number);
}

int main(void) {
    dspec_schema schema = DSPEC_EMPTY;
    dspec_session session = DSPEC_EMPTY;
    dspec_cpu cpu = DSPEC_EMPTY;
    dspec_consumer consumer = DSPEC_EMPTY;
    dspec_closed closed = DSPEC_EMPTY;
    const dspec_config config = {
        .cpus = 1, .nspec = 2, .bufsize = 4096, .specsize = 256,
        .max_issues = DSPEC_MAX_ISSUES, .max_calls = DSPEC_MAX_CALLS, .policy = DSPEC_POLICY_SWITCH,
    };
    dspec_layout layout = { .stamped = false };
    step_probe step = { 0 };
    uint32_t settled;
    bool sealed;
    dspec_batch batch;
    dspec_report report;

    OK(dspec_schema_new(&schema));
    OK(step_enable(&step, &layout, &schema));
    OK(dspec_start(&config, &schema, &session));
    OK(dspec_cpu_of(&session, 0, &cpu));
    OK(dspec_consumer_of(&session, &consumer));

    serve(&cpu, &step, 1, false);
    serve(&cpu, &step, 2, true);

    OK(dspec_ask(&consumer, 0));
    OK(dspec_service(&cpu, &sealed, &settled));
    OK(dspec_take(&consumer, 0, &batch));
    print_batch(&layout, &step, &batch);
    OK(dspec_give_back(&consumer, 0));

    OK(dspec_cpu_home(&cpu));
    OK(dspec_consumer_home(&consumer));
    OK(dspec_finish(&session, &closed));
    OK(dspec_closed_report(&closed, 0, &report));
    printf("offered %" PRIu64 ", accepted %" PRIu64 ", discarded %" PRIu64 "\n", report.offered, report.accepted, report.discarded);
    dspec_closed_drop(&closed);
    dspec_schema_drop(&schema);
    return 0;
}
