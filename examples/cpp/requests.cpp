/* A made-up server of four workers, in C++20 over dspec.hpp. Each request's steps go to a path. A request that throws keeps its path; one that
 * returns early, or to its end, lets the path go with its scope. The reader compares what came through with what failed. */
#include "dspec.hpp"

#include <array>
#include <atomic>
#include <cstdint>
#include <cstdio>
#include <stdexcept>
#include <thread>
#include <vector>

namespace {

constexpr std::uint32_t workers = 4;
constexpr std::uint32_t requests = 1000;

enum class stage : std::uint8_t { accepted, looked_up, answered };

using step_probe = dspec::probe<std::uint32_t, stage, double>;

bool is_early(std::uint32_t request) { return request % 3 == 0; }
bool fails(std::uint32_t request) { return !is_early(request) && request % 10 == 7; }

void look_up(std::uint32_t request) {
    if (fails(request)) throw std::runtime_error("no such row");
}

/* The steps of one request: it may return before its last one, or throw. */
void answer(dspec::path &path, step_probe step, std::uint32_t request) {
    path.record(step, request, stage::accepted, 0.0);
    if (is_early(request)) return;
    path.record(step, request, stage::looked_up, 0.25);
    look_up(request);
    path.record(step, request, stage::answered, 0.5);
}

void serve(dspec::cpu &cpu, step_probe step, std::uint32_t request) {
    dspec::path path = cpu.open();
    try {
        answer(path, step, request);
    } catch (const std::runtime_error &) {
        path.commit();
    }
}

/* What came of one worker: the steps of each request, in their order. */
struct seen {
    std::array<std::vector<stage>, requests> steps;
    std::uint64_t records = 0;

    void read(const dspec_layout &layout, step_probe step, const dspec_batch &batch) {
        for (const dspec_record &record : dspec::records(layout, batch)) {
            auto values = step.read(record);
            if (!values) throw std::logic_error("a record of another probe");
            auto [request, at, seconds] = *values;
            if (seconds != 0.25 * static_cast<double>(at)) throw std::logic_error("a float that lost its bits");
            steps.at(request).push_back(at);
            records++;
        }
    }
    bool is_right() const {
        for (std::uint32_t request = 0; request < requests; request++) {
            if (steps[request] != (fails(request) ? std::vector{stage::accepted, stage::looked_up} : std::vector<stage>{})) return false;
        }
        return true;
    }
};

/* The consumer's rounds, until no worker is left. */
void collect(dspec::consumer consumer, const dspec_layout &layout, step_probe step, std::array<seen, workers> &of, const std::atomic<std::uint32_t> &left) {
    while (left > 0) {
        for (std::uint32_t number = 0; number < workers; number++) {
            consumer.take(number, [&](const dspec_batch &batch) { of[number].read(layout, step, batch); });
        }
        consumer.clean();
    }
}

void work(dspec::cpu cpu, step_probe step, std::atomic<std::uint32_t> &left) {
    for (std::uint32_t request = 0; request < requests; request++) {
        serve(cpu, step, request);
        cpu.service();
    }
    left--;
}

} /* namespace */

int main() {
    dspec::schema schema;
    const auto step = schema.enable<std::uint32_t, stage, double>();
    dspec::session session(dspec_config_of_cpus(workers), schema);
    std::array<seen, workers> of;
    std::atomic<std::uint32_t> left = workers;
    {
        std::vector<std::jthread> threads;
        threads.emplace_back([&, consumer = session.consumer_of()]() mutable { collect(std::move(consumer), schema.layout(), step, of, left); });
        for (std::uint32_t number = 0; number < workers; number++) {
            threads.emplace_back([&, cpu = session.cpu_of(number)]() mutable { work(std::move(cpu), step, left); });
        }
    }
    dspec::closed closed = session.finish();
    std::uint64_t offered = 0, kept = 0, thrown = 0;
    bool right = true;
    for (std::uint32_t number = 0; number < workers; number++) {
        for (bool last : {false, true}) {
            if (auto batch = closed.rest(number, last)) of[number].read(schema.layout(), step, *batch);
        }
        const dspec_report report = closed.report(number);
        right = right && of[number].is_right() && report.accepted == of[number].records && report.offered == report.accepted + report.discarded;
        offered += report.offered;
        kept += report.accepted;
        thrown += report.discarded;
    }
    std::printf("%u requests: %llu steps, %llu kept of those that failed, %llu thrown away\n", workers * requests,
                static_cast<unsigned long long>(offered), static_cast<unsigned long long>(kept), static_cast<unsigned long long>(thrown));
    if (!right) std::puts("and not all of it is right");
    return !right;
}
