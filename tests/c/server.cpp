/* The server of server.c in C++20, by dspec.hpp: four workers whose buffers are too small. `server FOLDER` prints what its reports count, which the trace has
 * to tell. */
#include "dspec.hpp"

#include <atomic>
#include <chrono>
#include <cinttypes>
#include <cstdio>
#include <thread>
#include <vector>

namespace {

constexpr std::uint32_t workers = 4;
constexpr dspec_config config{workers, 16, 4096, 1024, DSPEC_MAX_ISSUES, DSPEC_MAX_CALLS, DSPEC_POLICY_SWITCH};

struct probes {
    dspec::probe<std::uint64_t, std::uint32_t> request;
    dspec::probe<std::uint64_t, std::uint32_t, bool> row;
    dspec::probe<std::uint32_t, std::int64_t> heartbeat;
};

std::uint64_t now() {
    return static_cast<std::uint64_t>(std::chrono::steady_clock::now().time_since_epoch() / std::chrono::nanoseconds(1));
}

/* One request in 50 fails, and one in 100 has more steps than a speculative buffer has room for: these are kept. */
void serve(const probes &of, dspec::cpu &cpu, std::uint64_t number) {
    const bool is_long = number % 100 == 31;
    const std::uint32_t rows = is_long ? 60 : 5;
    dspec::path path = cpu.open();
    path.record_at(of.request, now(), number, rows);
    for (std::uint32_t row = 0; row < rows; row++) {
        path.record_at(of.row, now(), number, row, true);
        path.record_at(of.row, now(), number, row, false);
    }
    if (is_long || number % 50 == 7) path.commit();
}

/* Requests, then more records than a principal buffer has room for, and after those paths that are kept. */
void work(const probes &of, dspec::cpu &cpu, std::uint32_t worker) {
    for (std::uint64_t number = 0; number < 500; number++) {
        serve(of, cpu, number);
        cpu.service();
    }
    for (std::int64_t beat = 0; beat < 300; beat++) cpu.trace_at(of.heartbeat, now(), worker, -beat);
    for (std::uint64_t number = 0; number < 5; number++) serve(of, cpu, 7 + 50 * number);
}

} /* namespace */

int main(int argc, char **argv) {
    if (argc != 2) return 2;
    const dspec_identity identity{{'C', '+', '+'}, {}, false, 7, 1000000000, 0, 0, {"here", 4}, {"server", 6}};
    dspec::schema schema;
    schema.stamp();
    probes of;
    of.request = schema.enable<std::uint64_t, std::uint32_t>();
    of.row = schema.enable<std::uint64_t, std::uint32_t, bool>();
    of.heartbeat = schema.enable<std::uint32_t, std::int64_t>();
    dspec::names names;
    names.add(of.request, "request", {"number", "rows"}).add(of.row, "row", {"request", "number", "begins"}).add(of.heartbeat, "heartbeat", {"worker", "balance"});
    dspec::trace_folder trace(argv[1], schema, workers, identity, names);
    dspec::session session(config, schema);
    dspec::consumer consumer = session.consumer_of();
    std::vector<dspec::cpu> cpus;
    for (std::uint32_t number = 0; number < workers; number++) cpus.push_back(session.cpu_of(number));
    std::atomic<std::uint32_t> at_work = workers;
    std::vector<std::thread> threads;
    for (std::uint32_t number = 0; number < workers; number++)
        threads.emplace_back([&, number] {
            work(of, cpus[number], number);
            at_work--;
        });
    while (at_work > 0) {
        for (std::uint32_t number = 0; number < workers; number++) consumer.take(number, [&](const dspec_batch &batch) { trace.take(batch); });
        consumer.clean();
        std::this_thread::sleep_for(std::chrono::milliseconds(2));
    }
    for (std::thread &thread : threads) thread.join();
    dspec::closed closed = session.close(cpus, consumer);
    trace.close(closed);
    std::uint64_t accepted = 0, dropped = 0, specdropped = 0, lost = 0;
    for (std::uint32_t number = 0; number < workers; number++) {
        const dspec_report report = closed.report(number);
        accepted += report.accepted;
        dropped += report.dropped;
        specdropped += report.specdropped;
        lost += report.lost;
    }
    std::printf("accepted %" PRIu64 " dropped %" PRIu64 " specdropped %" PRIu64 " lost %" PRIu64 " unwritten %" PRIu64 "\n", accepted, dropped, specdropped, lost,
                trace.lost());
}
