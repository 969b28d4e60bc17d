/* A server of four threads: each request is a path, kept where it throws. Request 777 crashes, and its path is in the folder all the same, with
 * those of the requests that failed before it: `tracer FOLDER`, and then `babeltrace2 FOLDER`. */
#include "dspec_tracer.hpp"

#include <atomic>
#include <cstdio>
#include <stdexcept>
#include <thread>
#include <vector>

inline dspec::event<std::uint64_t, std::uint32_t> query{"query", "request", "step"};
inline dspec::event<std::uint64_t> reply{"reply", "request"};

static std::atomic<unsigned> requests;
static int *volatile nowhere;

/* One request in a hundred fails, and request 777 writes where there is no memory. */
static void answer(unsigned request) {
    if (request == 777) *nowhere = 1;
    if (request % 100 == 13) throw std::runtime_error("no such row");
}

static void serve(dspec::tracer &tracer) {
    for (unsigned request; (request = ++requests) <= 1000;) {
        dspec::tracer::path path = tracer.open();
        path.record(query, request, 1);
        try {
            answer(request);
            path.record(reply, request);
        } catch (const std::runtime_error &) {
            path.keep();
        }
    }
}

int main(int argc, char **argv) {
    dspec::tracer tracer(argc > 1 ? argv[1] : "trace", {}, query, reply);
    std::vector<std::thread> threads;
    for (int i = 0; i < 4; i++) threads.emplace_back(serve, std::ref(tracer));
    for (std::thread &one : threads) one.join();
    return tracer.stop().whole ? 0 : 1;
}
