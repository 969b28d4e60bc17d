/* A server of four threads: each request is a path, kept where it failed. Request 777 crashes, and its path is in the folder all the same, with
 * those of the requests that failed before it: `tracer FOLDER`, and then `babeltrace2 FOLDER`. */
#include "dspec_tracer.h"

#include <pthread.h>
#include <stdatomic.h>
#include <stdio.h>
#include <string.h>

DSPEC_PROBE(query, uint64_t, request, dspec_text32, page);
DSPEC_PROBE(reply, uint64_t, request, int32_t, code);

static dspec_tracer tracer;
static atomic_uint requests;
static int *volatile nowhere;

static dspec_text32 page_of(unsigned request) {
    const char *page = request % 2 == 0 ? "/orders" : "/orders/new";
    return dspec_text32_of(page, strlen(page));
}

/* One request in a hundred fails, and request 777 reads where there is no memory. */
static int answer(unsigned request) {
    if (request == 777) return *nowhere;
    return request % 100 == 13 ? -5 : 0;
}

static void *serve(void *unused) {
    for (unsigned request; (request = atomic_fetch_add(&requests, 1) + 1) <= 1000;) {
        dspec_path path = dspec_path_begin(&tracer);
        query_in(&path, request, page_of(request));
        int code = answer(request);
        reply_in(&path, request, code);
        code != 0 ? dspec_path_keep(&path) : dspec_path_drop(&path);
    }
    return unused;
}

int main(int argc, char **argv) {
    pthread_t threads[4];
    if (!dspec_tracer_start(&tracer, argc > 1 ? argv[1] : "trace", NULL, DSPEC_PROBES(query, reply))) {
        fprintf(stderr, "tracer: %s\n", tracer.why);
        return 1;
    }
    for (int i = 0; i < 4; i++) pthread_create(&threads[i], NULL, serve, NULL);
    for (int i = 0; i < 4; i++) pthread_join(threads[i], NULL);
    return !dspec_tracer_stop(&tracer, NULL);
}
