/* A trace that C++20 writes, by dspec.hpp: `cpp_ctf FOLDER`, a folder that isn't there yet. */
#include "dspec.hpp"

#include <cerrno>
#include <cstdio>
#include <fstream>
#include <iterator>
#include <string>

static int passed, failed;

static void check(bool is_well, const char *what) {
    if (is_well) {
        passed++;
    } else {
        failed++;
        std::puts(what);
    }
}

#define CHECK(what) check((what), #what)

static std::string read(const std::string &path) {
    std::ifstream file(path, std::ios::binary);
    return {std::istreambuf_iterator<char>(file), {}};
}

/* What was left of the session, and what speculative buffers dropped, is in the trace once that is closed. */
static void whole_to_its_end(const std::string &folder) {
    const dspec::system_identity identity("cpp");
    constexpr dspec_config config{1, 1, 64, 32, DSPEC_MAX_ISSUES, DSPEC_MAX_CALLS, DSPEC_POLICY_SWITCH};
    dspec::schema schema;
    schema.stamp();
    auto step = schema.enable<std::uint32_t>();
    dspec::trace_folder trace(folder.c_str(), schema, 1, identity, dspec::names());
    dspec::session session(config, schema);
    {
        dspec::cpu cpu = session.cpu_of(0);
        dspec::path path = cpu.open();
        for (std::uint32_t number = 0; number < 5; number++) path.record_at(step, number, number);
        CHECK(path.commit().records == 2);
    }
    dspec::closed none;
    CHECK(!trace.close(none) && trace.last().status == DSPEC_BAD_HANDLE);
    dspec::closed closed = session.finish();
    CHECK(closed.report(0).specdropped == 3 && trace.close(closed));
    /* Two events of 4 + 8 + 4 bytes, and after them a packet that tells three as missed. */
    const std::string bytes = read(folder + "/cpu_0_0");
    CHECK(read(folder + "/metadata").find("procname = \"cpp\"") != std::string::npos);
    CHECK(bytes.size() > 64 + 32 && bytes.find(std::string("\3\0\0\0\0\0\0\0\0\0\0\0", 12), 64) != std::string::npos);
}

/* A bound: the folders that are there, and what went. */
static void below_a_bound(const std::string &folder) {
    const dspec::system_identity identity("cpp");
    dspec::schema schema;
    schema.stamp();
    auto step = schema.enable<std::uint32_t>();
    dspec::session session(dspec_config_of_cpus(1), schema);
    std::uint64_t records = 0;
    dspec::trace_folder trace(folder.c_str(), schema, 1, identity, dspec::names(), {50000, 2});
    {
        dspec::cpu cpu = session.cpu_of(0);
        dspec::consumer consumer = session.consumer_of();
        for (; records < 10000; records++) {
            CHECK(cpu.trace_at(step, records, static_cast<std::uint32_t>(records)) == DSPEC_OK);
            if (records % 500 != 499) continue;
            consumer.take(0, [&](const dspec_batch &batch) { CHECK(trace.take(batch)); });
            cpu.service();
        }
    }
    dspec::closed closed = session.finish();
    CHECK(trace.close(closed) && trace.gone() > 5000 && trace.gone() < records);
    CHECK(read(folder + ".0/metadata").empty() && read(folder + "/metadata").empty());
}

/* A name that isn't allowed is told, and why. */
static void names_told(const std::string &folder) {
    const dspec_identity identity{{3}, {}, false, 7, 1000, 0, 0, {"here", 4}, {"cpp", 3}};
    dspec::schema schema;
    schema.stamp();
    dspec::names names;
    names.add(schema.enable<std::uint32_t>(), "step", {"struct"});
    std::string told;
    try {
        dspec::trace_folder trace(folder.c_str(), schema, 1, identity, names);
    } catch (const dspec::trace_error &e) {
        told = e.what();
        CHECK(e.loss.status == DSPEC_BAD_NAME);
    }
    CHECK(told == "struct: a word that the trace's metadata keeps for itself");
}

int main(int argc, char **argv) {
    if (argc != 2) return 2;
    const std::string folder = argv[1];
    const dspec_identity identity{{1}, {}, false, 7, 1000, 0, 0, {"here", 4}, {"cpp", 3}};
    constexpr dspec_config config{1, 1, 64, 64, DSPEC_MAX_ISSUES, DSPEC_MAX_CALLS, DSPEC_POLICY_SWITCH};
    dspec::schema schema;
    schema.stamp();
    auto step = schema.enable<std::int32_t, bool>();
    auto rate = schema.enable<double>();
    dspec::names names;
    names.add(step, "step", {"number", "last"}).add(rate, "rate", {"of"});
    {
        dspec::trace_folder trace(folder.c_str(), schema, 1, identity, names);
        dspec::session session(config, schema);
        dspec::cpu cpu = session.cpu_of(0);
        dspec::consumer consumer = session.consumer_of();
        CHECK(cpu.trace_at(step, 5, -1, true) == DSPEC_OK);
        CHECK(cpu.trace_at(rate, 6, 0.5) == DSPEC_OK);
        CHECK(!consumer.take(0, [](const dspec_batch &) {}));
        cpu.service();
        bool well = false;
        CHECK(consumer.take(0, [&](const dspec_batch &batch) { well = trace.take(batch); }));
        CHECK(well && trace.lost() == 0);
        CHECK(!trace.take(dspec_batch{nullptr, 0, 0, 1}) && trace.last().status == DSPEC_NO_SUCH_CPU);
    }
    whole_to_its_end(folder + ".whole");
    below_a_bound(folder + ".bound");
    const std::string text = read(folder + "/metadata");
    CHECK(text.find("\t\tinteger { size = 32; align = 8; signed = true; } number;\n\t\tuint8_t last;\n") != std::string::npos);
    CHECK(text.find("\t\tfloating_point { exp_dig = 11; mant_dig = 53; align = 8; } of;\n") != std::string::npos);
    /* A packet: 68 bytes before two events, of 4 + 8 + 4 + 1 and of 4 + 8 + 8, and then zeros. Its content is told in bits. */
    const std::string bytes = read(folder + "/cpu_0_0");
    const unsigned content = 8 * (68 + 17 + 20);
    CHECK(bytes.size() == 1024 && bytes[40] == static_cast<char>(content & 0xff) && bytes[41] == static_cast<char>(content >> 8));
    names_told(folder + ".names");
    int code = 0;
    try {
        dspec::trace_folder again(folder.c_str(), schema, 1, identity, names);
    } catch (const dspec::trace_error &e) {
        code = e.loss.code;
    }
    CHECK(code == EEXIST);
    std::printf("%d passed, %d failed\n", passed, failed);
    return failed > 0 || passed == 0;
}
