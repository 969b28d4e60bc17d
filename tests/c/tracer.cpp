/* dspec_tracer.hpp over a folder, which is named: a path that is kept, dropped, left by a return and by an exception, moved, and moved to another thread; names that the
 * metadata keeps for itself; kinds of fields; a tracer that isn't started. Its last line counts its checks; tests/c/tracer looks at the folders. */
#include "dspec_tracer.hpp"

#include <cstdio>
#include <cstdlib>
#include <cstring>
#include <string>
#include <thread>

namespace {

enum class color : std::uint8_t { red = 1, blue = 200 };
enum class outcome : std::uint8_t { done, aborted, slow };

}
template <> inline constexpr std::array<const char *, 3> dspec::labels<outcome>{"done", "aborted", "slow"};
namespace {

dspec::event<dspec::text<24>, outcome> said{"said", "what", "outcome"};
dspec::event<std::uint64_t> tick{"tick", "number"};
dspec::event<std::int16_t, float, double, bool, color> kinds{"kinds", "small", "part", "whole", "is_so", "color"};
dspec::event<std::uint32_t, std::uint32_t> reserved{"event", "stream", "string"};

int passed, failed;

void check(bool is_well, const char *what) {
    if (is_well) {
        passed++;
    } else {
        failed++;
        std::printf("%s\n", what);
    }
}

void leave_by_return(dspec::tracer &tracer) {
    dspec::tracer::path path = tracer.open();
    path.record(tick, 100u);
}

void leave_by_exception(dspec::tracer &tracer) {
    dspec::tracer::path path = tracer.open();
    path.record(tick, 101u);
    throw 1;
}

void paths(dspec::tracer &tracer) {
    dspec::tracer::path kept = tracer.open();
    check(kept.record(tick, 1u) == DSPEC_OK && kept.keep(), "a path is kept");
    check(!kept.keep() && kept.record(tick, 102u) == DSPEC_VOID, "a path that was kept is over");
    dspec::tracer::path dropped = tracer.open();
    check(dropped.record(tick, 103u) == DSPEC_OK && dropped.drop() && !dropped.keep(), "a path is dropped");
    dspec::tracer::path empty = tracer.open();
    check(!empty.keep() && empty.drop(), "a path without a record");
    leave_by_return(tracer);
    try {
        leave_by_exception(tracer);
    } catch (int) {
    }
    dspec::tracer::path one = tracer.open();
    one.record(tick, 2u);
    dspec::tracer::path two = std::move(one);
    check(two.record(tick, 3u) == DSPEC_OK && two.keep(), "a path that was moved goes on");
}

void to_another_thread(dspec::tracer &tracer) {
    dspec::tracer::path path = tracer.open();
    path.record(tick, 4u);
    std::thread([moved = std::move(path)]() mutable { check(moved.record(tick, 5u) == DSPEC_OK && moved.keep(), "a path goes on on another thread"); }).join();
}

/* Requests 6, 8 and 9 are kept: one was failed, one failed by an exception, one was slow. */
void by_rule(dspec::tracer &tracer) {
    {
        dspec::tracer::guard bad{tracer.open()};
        bad.record(tick, 6u);
        bad.fail();
    }
    {
        dspec::tracer::guard fine{tracer.open()};
        fine.record(tick, 107u);
    }
    try {
        dspec::tracer::guard thrown{tracer.open()};
        thrown.record(tick, 8u);
        throw 1;
    } catch (int) {
    }
    dspec::tracer::path slow = tracer.open();
    check(!slow.is_open() && slow.took().count() == 0, "a path without a record is not open");
    slow.record(tick, 9u);
    check(slow.is_open() && slow.adopt() && slow.key(7, 8) && slow.took().count() >= 0, "an open path");
    check(slow.end(false, std::chrono::nanoseconds(1)) && !slow.is_open(), "a slow path is kept");
    check(tracer.is_up() && tracer.counts().kept == 6, "counts while it runs");
    tracer.turn(tick, false);
    check(tracer.record(tick, 108u) == DSPEC_VOID, "an event that is off");
    tracer.turn(tick, true);
    tracer.turn(false);
    check(!tracer.is_up() && tracer.record(tick, 109u) == DSPEC_UNAVAILABLE && tracer.open().record(tick, 109u) == DSPEC_UNAVAILABLE, "a tracer that is off");
    tracer.turn(true);
}

void by_environment(const std::string &folder) {
    setenv("DSPEC_TRACE", (folder + ".environment,sample=1").c_str(), 1);
    dspec::tracer tracer(dspec::tracer::by_environment{}, {}, tick);
    dspec::tracer::path path = tracer.open();
    path.record(tick, 1u);
    check(path.end(false) && tracer.stop().whole, "a start by the environment");
}

void parked(const std::string &folder) {
    dspec_tracer_options options{};
    options.park_bytes = 4096;
    dspec::tracer tracer((folder + ".parked").c_str(), options, tick);
    for (std::uint64_t request = 1; request <= 2; request++) {
        dspec::tracer::path path = tracer.open();
        path.record(tick, static_cast<std::uint32_t>(request));
        check(path.key(7, request) && path.park() && !path.is_open(), "a path is parked");
    }
    check(tracer.keep_key(7, 2) && !tracer.open().park(), "a key is kept");
    auto [whole, report] = tracer.stop();
    check(whole && report.parked == 2 && report.park_kept == 1 && report.park_left == 1 && report.kept == 1 && report.accepted == 1, "parked paths");
}

} /* namespace */

int main(int argc, char **argv) {
    if (argc < 2) return 2;
    const std::string folder = argv[1];
    {
        dspec::tracer tracer(folder.c_str(), {}, tick, kinds, reserved, said);
        paths(tracer);
        to_another_thread(tracer);
        by_rule(tracer);
        check(tracer.record(kinds, std::int16_t{-2}, 0.5f, -0.25, true, color::blue) == DSPEC_OK, "a record in no path");
        check(tracer.record(reserved, 1u, 2u) == DSPEC_OK, "names that are kept for the metadata");
        check(tracer.record(said, "a \"text\" that is longer", outcome::aborted) == DSPEC_OK, "a text and a label");
        check(tracer.flush(std::chrono::seconds(10)), "a flush");
        auto [whole, report] = tracer.stop();
        check(whole && report.accepted == 11 && report.kept == 6 && report.discarded == 4 && report.refused == 0, "what came of it");
        check(tracer.record(tick, 104u) == DSPEC_STOPPED, "a record after the stop");
    }
    bool is_refused = false;
    try {
        dspec::tracer again(folder.c_str(), {}, tick);
    } catch (const dspec::tracer_error &error) {
        is_refused = std::strstr(error.what(), "File exists") != nullptr;
    }
    check(is_refused, "a folder that has a trace");
    parked(folder);
    by_environment(folder);
    std::printf("%d passed, %d failed\n", passed, failed);
    return failed > 0;
}
