/* Three events of LTTng-UST with the fields of the records that are measured: none, one of 4 bytes, and 1, 2, 4 and 8 bytes. */
#undef LTTNG_UST_TRACEPOINT_PROVIDER
#define LTTNG_UST_TRACEPOINT_PROVIDER dspec_peers
#undef LTTNG_UST_TRACEPOINT_INCLUDE
#define LTTNG_UST_TRACEPOINT_INCLUDE "./lttng_events.h"
#if !defined(LTTNG_EVENTS_H) || defined(LTTNG_UST_TRACEPOINT_HEADER_MULTI_READ)
#define LTTNG_EVENTS_H
#include <lttng/tracepoint.h>
#include <stdint.h>
LTTNG_UST_TRACEPOINT_EVENT(dspec_peers, bytes_4, LTTNG_UST_TP_ARGS(), LTTNG_UST_TP_FIELDS())
LTTNG_UST_TRACEPOINT_EVENT(dspec_peers, bytes_8, LTTNG_UST_TP_ARGS(uint32_t, four),
    LTTNG_UST_TP_FIELDS(lttng_ust_field_integer(uint32_t, four, four)))
LTTNG_UST_TRACEPOINT_EVENT(dspec_peers, bytes_24, LTTNG_UST_TP_ARGS(uint8_t, one, uint16_t, two, uint32_t, four, uint64_t, eight),
    LTTNG_UST_TP_FIELDS(lttng_ust_field_integer(uint8_t, one, one) lttng_ust_field_integer(uint16_t, two, two)
        lttng_ust_field_integer(uint32_t, four, four) lttng_ust_field_integer(uint64_t, eight, eight)))
#endif
#include <lttng/tracepoint-event.h>
