/* What dspec.hpp has over dspec.h, in C++20: probes by their types, paths that end with their scope, handles that are moved, refusals. */
#include "dspec.hpp"

#include <cstdio>
#include <cstring>
#include <limits>
#include <stdexcept>
#include <vector>

static int passed, failed;

static void check(bool is_well, const char *what) {
    if (is_well) {
        passed++;
    } else {
        failed++;
        std::puts(what);
    }
}

#define CHECK(what) check((what), #what)

namespace {

enum class state : std::uint8_t { fine, broken };

using mixed = dspec::probe<std::int8_t, bool, float, double, std::int32_t, state>;
using number = dspec::probe<std::uint64_t>;

constexpr dspec_config config{1, 1, 4096, 64, DSPEC_MAX_ISSUES, DSPEC_MAX_CALLS, DSPEC_POLICY_SWITCH};

/* What a call that is refused throws. */
template <typename Call> dspec_status thrown_by(Call call) {
    try {
        call();
    } catch (const dspec::error &e) {
        return std::strcmp(e.what(), dspec_status_text(e.status)) == 0 ? e.status : DSPEC_OK;
    }
    return DSPEC_OK;
}

struct world {
    dspec::schema schema;
    mixed of_all = schema.enable<std::int8_t, bool, float, double, std::int32_t, state>();
    number of_one = schema.enable<std::uint64_t>();
    dspec::probe<> bare = schema.enable<>();

    /* The records that a CPU leaves. */
    std::vector<dspec_record> left(dspec::session &session) {
        dspec::closed closed = session.finish();
        auto batch = closed.rest(0, true);
        std::vector<dspec_record> out;
        for (const dspec_record &one : dspec::records(schema.layout(), batch.value())) out.push_back(one);
        return out;
    }
};

/* Each kind of value comes back as it was, of its own probe alone. */
void values() {
    world w;
    dspec::session session(config, w.schema);
    {
        dspec::cpu cpu = session.cpu_of(0);
        CHECK(cpu.trace(w.of_all, -128, true, -0.5f, std::numeric_limits<double>::infinity(), -1, state::broken) == DSPEC_OK);
        CHECK(cpu.trace(w.of_one, std::numeric_limits<std::uint64_t>::max()) == DSPEC_OK);
        CHECK(cpu.trace(w.bare) == DSPEC_OK);
        CHECK(cpu.trace_at(w.bare, 1) == DSPEC_BAD_RECORD);
        CHECK(cpu.trace(number{}, 1) == DSPEC_BAD_RECORD);
        number foreign;
        foreign.epid = w.of_all.epid;
        CHECK(cpu.trace(foreign, 1) == DSPEC_BAD_RECORD);
        CHECK(cpu.report().offered == 3 && cpu.report().refused == 3);
    }
    auto records = w.left(session);
    CHECK(records.size() == 3);
    CHECK((w.of_all.read(records[0]) == std::tuple<std::int8_t, bool, float, double, std::int32_t, state>(
        -128, true, -0.5f, std::numeric_limits<double>::infinity(), -1, state::broken)));
    CHECK(std::get<0>(w.of_one.read(records[1]).value()) == std::numeric_limits<std::uint64_t>::max());
    CHECK(w.bare.read(records[2]).has_value());
    CHECK(!w.of_one.read(records[0]).has_value());
}

/* A text is so many fields of the schema's, and is made of whatever is a view of letters. */
void texts() {
    using statement = dspec::probe<std::uint8_t, dspec::text<32>, bool, dspec::text<8>>;
    static_assert(statement::fields == 7 && statement::signature == 0x8188881);
    dspec::schema schema;
    const statement of = schema.enable<std::uint8_t, dspec::text<32>, bool, dspec::text<8>>();
    dspec::session session(config, schema);
    {
        dspec::cpu cpu = session.cpu_of(0);
        CHECK(cpu.trace(of, 7, "select \"page\"", true, std::string("eight")) == DSPEC_OK);
        dspec::path path = cpu.open();
        CHECK(path.record(of, 8, std::string_view("thirty-one letters of ASCII ...\xe2\x82\xac"), false, "12345678") == DSPEC_OK);
        CHECK(path.commit().records == 1);
    }
    dspec::closed closed = session.finish();
    const auto batch = closed.rest(0, true);
    std::size_t at = 0;
    for (const dspec_record &one : dspec::records(schema.layout(), batch.value())) {
        const auto [count, sql, is_so, name] = of.read(one).value();
        if (at++ == 0) CHECK(count == 7 && sql.view() == "select \"page\"" && sql.whole() && is_so && name == dspec::text<8>("eight"));
        else CHECK(count == 8 && sql.view() == "thirty-one letters of ASCII ...." && !sql.whole() && !is_so && name.view() == "12345678" && !name.whole());
    }
    CHECK(at == 2);
    CHECK(dspec::text<48>{}.view().empty() && dspec::text<48>{}.whole());
}

void fails_after_a_step(dspec::cpu &cpu, number of) {
    dspec::path path = cpu.open();
    path.record(of, 1);
    throw std::runtime_error("thrown");
}

/* A path is kept once, and thrown away where its scope ends by its end or by an exception; one that couldn't be opened says why. */
void paths() {
    world w;
    dspec::session session(config, w.schema);
    {
        dspec::cpu cpu = session.cpu_of(0);
        try {
            fails_after_a_step(cpu, w.of_one);
        } catch (const std::runtime_error &) {
            CHECK(cpu.report().discarded == 1);
        }
        {
            dspec::path first = cpu.open();
            CHECK(first.opened() == DSPEC_OK && first.id() != 0);
            CHECK(cpu.open().opened() == DSPEC_UNAVAILABLE);
            dspec::path moved = std::move(first);
            CHECK(first.record(w.of_one, 2) == DSPEC_VOID);
            CHECK(moved.record(w.of_one, 3) == DSPEC_OK);
            CHECK(moved.record_at(w.of_one, 9, 3) == DSPEC_BAD_RECORD);
            dspec::decided kept = moved.commit();
            CHECK(kept.status == DSPEC_OK && kept.records == 1);
            CHECK(moved.commit().status == DSPEC_VOID);
            CHECK(moved.record(w.of_one, 4) == DSPEC_VOID);
        }
        {
            dspec::path gone = cpu.open();
            CHECK(cpu.speculate(gone.id(), w.of_one, 5) == DSPEC_OK);
            dspec::decided told = gone.discard();
            CHECK(told.status == DSPEC_OK && told.records == 1);
        }
        CHECK(cpu.report().accepted == 1 && cpu.report().discarded == 2 && cpu.report().unavailable == 1);
    }
    auto records = w.left(session);
    CHECK(records.size() == 1 && w.of_one.read(records[0]) == std::tuple<std::uint64_t>(3));
}

/* A path whose records would be lost stays as it is until there is room. A record of `of_one` has 16 bytes, of which the buffer takes two. */
void waits() {
    world w;
    dspec_config small = config;
    small.bufsize = 32;
    dspec::session session(small, w.schema);
    {
        dspec::cpu cpu = session.cpu_of(0);
        dspec::consumer consumer = session.consumer_of();
        std::uint64_t ids[64] = {0};
        CHECK(cpu.trace(w.of_one, 1) == DSPEC_OK);
        dspec::path path = cpu.open();
        CHECK(path.record(w.of_one, 2) == DSPEC_OK && path.record(w.of_one, 3) == DSPEC_OK);
        CHECK(cpu.open_in(ids) == 1 && ids[0] == path.id());
        dspec::decided told = path.commit_if_room();
        CHECK(told.status == DSPEC_BUSY && told.records == 0);
        CHECK(cpu.commit_if_room(path.id()).status == DSPEC_BUSY);
        CHECK(!consumer.take(0, [](const dspec_batch &) {}));
        CHECK(cpu.service());
        told = path.commit_if_room();
        CHECK(told.status == DSPEC_OK && told.records == 2);
        CHECK(path.commit_if_room().status == DSPEC_VOID);
        CHECK(cpu.open_in(ids) == 0);
        CHECK(cpu.report().lost == 0 && cpu.report().discarded == 0);
    }
}

/* A batch goes back after whoever saw it; stamps come with records. */
void batches() {
    world w;
    w.schema.stamp();
    dspec::session session(config, w.schema);
    {
        dspec::cpu cpu = session.cpu_of(0);
        dspec::consumer consumer = session.consumer_of();
        std::uint64_t stamp = 0;
        CHECK(cpu.trace_at(w.of_one, UINT64_C(1) << 63, 7) == DSPEC_OK);
        CHECK(!consumer.take(0, [](const dspec_batch &) {}));
        CHECK(cpu.service());
        try {
            consumer.take(0, [&](const dspec_batch &batch) {
                for (const dspec_record &one : dspec::records(w.schema.layout(), batch)) stamp = one.stamp;
                throw std::runtime_error("thrown");
            });
        } catch (const std::runtime_error &) {
            CHECK(stamp == UINT64_C(1) << 63);
        }
        CHECK(dspec_give_back(consumer.get(), 0) == DSPEC_NO_BATCH);
        CHECK(thrown_by([&] { consumer.take(1, [](const dspec_batch &) {}); }) == DSPEC_NO_SUCH_CPU);
        CHECK(consumer.clean() == 0);
        consumer.stop();
        CHECK(thrown_by([&] { static_cast<void>(session.finish()); }) == DSPEC_NOT_HOME);
        CHECK(thrown_by([&] { static_cast<void>(session.cpu_of(0)); }) == DSPEC_OUT);
    }
    dspec::closed closed = session.finish();
    CHECK(closed.report(0).accepted == 1 && !closed.rest(0, false).has_value());
    CHECK(thrown_by([&] { static_cast<void>(session.finish()); }) == DSPEC_BAD_HANDLE);
}

/* A path that is open while its CPU is parked goes on once that is back. */
void parking() {
    world w;
    dspec::session session(config, w.schema);
    {
        dspec::cpu cpu = session.cpu_of(0);
        CHECK(thrown_by([&] { session.wake(0, cpu); }) == DSPEC_FULL_HANDLE);
        dspec::path path = cpu.open();
        CHECK(path.record(w.of_one, 5) == DSPEC_OK);
        for (int times = 0; times < 3; times++) {
            cpu.park();
            CHECK(path.record(w.of_one, 6) == DSPEC_BAD_HANDLE && cpu.trace(w.of_one, 6) == DSPEC_BAD_HANDLE);
            CHECK(session.tend() == 0);
            session.wake(0, cpu);
            CHECK(path.record(w.of_one, 7) == DSPEC_OK);
        }
        const auto [status, records] = path.commit();
        CHECK(status == DSPEC_OK && records == 4);
        cpu.park();
        dspec::cpu again = session.cpu_of(0);
        CHECK(again.trace(w.of_one, 8) == DSPEC_OK && thrown_by([&] { session.wake(0, cpu); }) == DSPEC_OUT);
    }
    CHECK(session.finish().report(0).accepted == 5);
}

/* A CPU's value is moved under paths that are open on it: they go on, on the value that holds the CPU then. */
void moving() {
    world w;
    dspec_config two = config;
    two.cpus = 2;
    two.nspec = 3;
    dspec::session session(two, w.schema);
    {
        std::vector<dspec::cpu> cpus;
        cpus.reserve(1);
        cpus.push_back(session.cpu_of(0));
        dspec::path first = cpus[0].open(), second = cpus[0].open(), third = cpus[0].open();
        CHECK(first.record(w.of_one, 1) == DSPEC_OK);
        CHECK(second.discard().status == DSPEC_OK);
        const dspec::cpu *before = &cpus[0];
        cpus.push_back(session.cpu_of(1));
        CHECK(&cpus[0] != before);
        CHECK(first.record(w.of_one, 2) == DSPEC_OK && third.record(w.of_one, 3) == DSPEC_OK);
        dspec::cpu moved = std::move(cpus[0]);
        const auto [status, records] = first.commit();
        CHECK(status == DSPEC_OK && records == 2);
        CHECK(cpus[0].open().opened() == DSPEC_BAD_HANDLE && moved.report().accepted == 2);
        dspec::path other = cpus[1].open();
        CHECK(other.record(w.of_one, 4) == DSPEC_OK);
        cpus[1] = std::move(moved);
        CHECK(other.record(w.of_one, 5) == DSPEC_VOID && other.commit().status == DSPEC_VOID);
        CHECK(third.record(w.of_one, 6) == DSPEC_OK);
        cpus.clear();
        CHECK(third.record(w.of_one, 7) == DSPEC_VOID && third.commit().status == DSPEC_VOID);
    }
    dspec::closed closed = session.finish();
    CHECK(closed.report(0).accepted == 2 && closed.report(0).discarded == 2 && closed.report(0).held == 0);
    CHECK(closed.report(1).accepted == 0 && closed.report(1).discarded == 1 && closed.report(1).held == 0);
}

/* Paths in a vector that grows, on CPUs in one that grows. */
void many_moving() {
    world w;
    dspec_config many = config;
    many.cpus = 9;
    many.nspec = 20;
    many.specsize = 256;
    dspec::session session(many, w.schema);
    {
        std::vector<dspec::cpu> cpus;
        std::vector<dspec::path> paths;
        for (std::uint32_t n = 0; n < 9; n++) {
            cpus.push_back(session.cpu_of(n));
            paths.push_back(cpus.front().open());
            paths.push_back(cpus.back().open());
            for (dspec::path &one : paths) CHECK(one.record(w.of_one, n) == DSPEC_OK);
        }
        std::uint32_t kept = 0;
        while (paths.size() > 4) {
            kept += paths.back().commit().records;
            paths.pop_back();
        }
        CHECK(kept == 2 * (1 + 2 + 3 + 4 + 5 + 6 + 7));
    }
    dspec::closed closed = session.finish();
    std::uint64_t discarded = 0;
    for (std::uint32_t n = 0; n < 9; n++) discarded += closed.report(n).discarded;
    CHECK(discarded == 2 * (8 + 9));
}

/* All that is out, but a CPU that is parked; then with one CPU elsewhere; then a consumer that was moved away, and more CPUs than there are. */
void closing() {
    world w;
    dspec_config three = config;
    three.cpus = 3;
    {
        dspec::session session(three, w.schema);
        std::vector<dspec::cpu> cpus;
        for (std::uint32_t n = 0; n < 3; n++) cpus.push_back(session.cpu_of(n));
        dspec::consumer consumer = session.consumer_of();
        for (dspec::cpu &one : cpus) CHECK(one.trace(w.of_one, 1) == DSPEC_OK);
        cpus[1].park();
        dspec::closed closed = session.close(cpus, consumer);
        for (std::uint32_t n = 0; n < 3; n++) CHECK(closed.report(n).accepted == 1);
        CHECK(cpus[0].trace(w.of_one, 1) == DSPEC_BAD_HANDLE);
        CHECK(thrown_by([&] { static_cast<void>(session.close({}, consumer)); }) == DSPEC_BAD_HANDLE);
    }
    dspec::session session(three, w.schema);
    std::vector<dspec::cpu> cpus;
    for (std::uint32_t n = 0; n < 3; n++) cpus.push_back(session.cpu_of(n));
    dspec::consumer consumer = session.consumer_of();
    {
        dspec::consumer moved = std::move(consumer);
        CHECK(thrown_by([&] { static_cast<void>(session.close(cpus, consumer)); }) == DSPEC_BAD_HANDLE);
        CHECK(cpus[0].trace(w.of_one, 1) == DSPEC_OK);
        consumer = std::move(moved);
    }
    dspec::cpu elsewhere = std::move(cpus[2]);
    CHECK(thrown_by([&] { static_cast<void>(session.close(cpus, consumer)); }) == DSPEC_NOT_HOME);
    CHECK(elsewhere.trace(w.of_one, 1) == DSPEC_OK);
    elsewhere.park();
    dspec::closed closed = session.finish();
    CHECK(closed.report(0).accepted == 1 && closed.report(1).accepted == 0 && closed.report(2).accepted == 1);
}

void refusals() {
    dspec::schema schema;
    for (int n = 0; n < 64; n++) static_cast<void>(schema.enable<>());
    CHECK(thrown_by([&] { static_cast<void>(schema.enable<>()); }) == DSPEC_TOO_MANY_ENABLINGS);
    dspec_config none = config;
    none.cpus = 0;
    CHECK(thrown_by([&] { dspec::session session(none, schema); }) == DSPEC_BAD_CPUS);
    dspec::schema moved = std::move(schema);
    CHECK(thrown_by([&] { schema.stamp(); }) == DSPEC_BAD_HANDLE);
    CHECK(moved.layout().enablings == 64);
}

} /* namespace */

int main() {
    values();
    texts();
    paths();
    waits();
    batches();
    parking();
    moving();
    many_moving();
    closing();
    refusals();
    std::printf("%d passed, %d failed\n", passed, failed);
    return failed > 0 || passed == 0;
}
