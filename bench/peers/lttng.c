/* The same records by LTTng-UST. `lttng RECORD COUNT` fires COUNT events of one kind; a session of lttng's has to be started before. */
#define LTTNG_UST_TRACEPOINT_CREATE_PROBES
#define LTTNG_UST_TRACEPOINT_DEFINE
#include "lttng_events.h"
#include <stdio.h>
#include <stdlib.h>

__attribute__((noinline)) static void fire_4(void) { lttng_ust_tracepoint(dspec_peers, bytes_4); }
__attribute__((noinline)) static void fire_8(uint32_t four) { lttng_ust_tracepoint(dspec_peers, bytes_8, four); }
__attribute__((noinline)) static void fire_24(uint8_t one, uint16_t two, uint32_t four, uint64_t eight) {
    lttng_ust_tracepoint(dspec_peers, bytes_24, one, two, four, eight);
}

int main(int argc, char **argv) {
    if (argc != 3) return 2;
    int bytes = atoi(argv[1]);
    unsigned count = (unsigned)atoi(argv[2]);
    for (unsigned i = 0; i < count; i++) {
        if (bytes == 4) fire_4();
        else if (bytes == 8) fire_8(4000000000u);
        else fire_24(200, 60000, 4000000000u, 9000000000000000000u);
    }
    printf("%u\n", count);
    return 0;
}
