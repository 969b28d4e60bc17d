/* spdlog's backtrace: the last 1,024 messages are kept in a ring as text, and shown when something fails. `spdlog RECORD COUNT` logs COUNT
 * messages of one kind; callgrind counts. */
#include <cstdint>
#include <cstdio>
#include <cstdlib>
#include <memory>
#include <spdlog/sinks/null_sink.h>
#include <spdlog/spdlog.h>

static std::shared_ptr<spdlog::logger> logger;

__attribute__((noinline)) static void log_4() { logger->debug("touch"); }
__attribute__((noinline)) static void log_8(std::uint32_t value) { logger->debug("touch {}", value); }
__attribute__((noinline)) static void log_24(std::uint8_t one, std::uint16_t two, std::uint32_t four, std::uint64_t eight) {
    logger->debug("touch {} {} {} {}", one, two, four, eight);
}

int main(int argc, char **argv) {
    if (argc != 3) return 2;
    const int bytes = std::atoi(argv[1]), count = std::atoi(argv[2]);
    logger = std::make_shared<spdlog::logger>("peers", std::make_shared<spdlog::sinks::null_sink_mt>());
    logger->set_level(spdlog::level::info);
    logger->enable_backtrace(1024);
    for (int i = 0; i < count; i++) {
        if (bytes == 4) log_4();
        else if (bytes == 8) log_8(4000000000u);
        else log_24(200, 60000, 4000000000u, 9000000000000000000u);
    }
    std::printf("%d\n", count);
    return 0;
}
