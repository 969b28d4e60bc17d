/* A wrong program: a CPU's handle goes to another thread by a plain flag, which orders nothing. ThreadSanitizer has to see it, with
 * the file of suppressions too. */
#include "dspec.h"

#include <pthread.h>

static dspec_cpu cpu = DSPEC_EMPTY;
static volatile int ready;
static uint32_t epid;

static void *work(void *nothing) {
    (void)nothing;
    while (!ready) {
    }
    dspec_cpu mine = cpu;
    DSPEC_TRACE(&mine, epid, 1);
    cpu = mine;
    return NULL;
}

int main(void) {
    dspec_schema schema = DSPEC_EMPTY;
    dspec_session session = DSPEC_EMPTY;
    dspec_cpu mine = DSPEC_EMPTY;
    const dspec_config config = {
        .cpus = 1, .nspec = 1, .bufsize = 4096, .specsize = 64,
        .max_issues = DSPEC_MAX_ISSUES, .max_calls = DSPEC_MAX_CALLS, .policy = DSPEC_POLICY_SWITCH,
    };
    pthread_t thread;
    if (dspec_schema_new(&schema) != DSPEC_OK || dspec_schema_enable(&schema, (const uint8_t[]){ 4 }, 1, &epid) != DSPEC_OK) return 2;
    if (dspec_start(&config, &schema, &session) != DSPEC_OK || pthread_create(&thread, NULL, work, NULL) != 0) return 2;
    if (dspec_cpu_of(&session, 0, &mine) != DSPEC_OK) return 2;
    cpu = mine;
    ready = 1;
    pthread_join(thread, NULL);
    return 0;
}
