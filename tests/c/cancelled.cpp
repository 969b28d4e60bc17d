/* Threads that are cancelled in the scope of a path: what unwinds them throws the path away, where a point of cancellation would end the program. */
#include "dspec_tracer.hpp"

#include <cstdio>
#include <pthread.h>
#include <unistd.h>

inline dspec::event<std::uint64_t, std::uint32_t> query{"query", "request", "step"};
static dspec::tracer *tracer;

static void *serve(void *) {
    for (std::uint64_t i = 0;; i++) {
        dspec::tracer::path path = tracer->open();
        for (std::uint32_t step = 0; step < 4; step++) path.record(query, i, step);
        pthread_testcancel();
        if (i % 10 == 0) path.keep();
    }
}

int main(int, char **argv) {
    dspec_tracer_options options = {};
    options.lanes = 1;
    options.paths = 8;
    options.bufsize = 4096;
    options.specsize = 1024;
    options.keep_ms = 100;
    dspec::tracer of(argv[1], options, query);
    tracer = &of;
    for (int i = 0; i < 50; i++) {
        pthread_t threads[4];
        for (auto &one : threads) pthread_create(&one, nullptr, serve, nullptr);
        usleep(2000);
        for (auto &one : threads) pthread_cancel(one);
        for (auto &one : threads) pthread_join(one, nullptr);
    }
    std::printf("all threads were cancelled\n");
    return of.stop().whole ? 0 : 1;
}
