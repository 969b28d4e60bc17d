/* dspec_system.h: what a program asks of the system: a clock for stamps, and whose trace it is. For C11 and C++17, beside dspec_ctf.h, which includes it with
 * dspec_folder.h. Nothing of it is proved.
 *
 *     char host[DSPEC_HOST_SIZE];
 *     dspec_identity_of_system(&identity, "server", host)
 */
#ifndef DSPEC_SYSTEM_H
#define DSPEC_SYSTEM_H

#include "dspec_ctf.h"

#include <string.h>
#include <sys/random.h>
#include <time.h>
#include <unistd.h>

#ifdef __cplusplus
extern "C" {
#endif

/* Room for a machine's name, and the zero after it. */
#define DSPEC_HOST_SIZE 256u
#define DSPEC_NANOSECONDS UINT64_C(1000000000)

/* Nanoseconds of one of the system's clocks. */
DSPEC_INLINE uint64_t dspec_nanoseconds_of_(clockid_t clock) DSPEC_NOEXCEPT {
    struct timespec at;
    clock_gettime(clock, &at);
    return DSPEC_AS(uint64_t, at.tv_sec) * DSPEC_NANOSECONDS + DSPEC_AS(uint64_t, at.tv_nsec);
}

/* Nanoseconds of the system's clock that never goes back: a stamp, which threads and processes of one machine have in common. */
DSPEC_INLINE uint64_t dspec_monotonic(void) DSPEC_NOEXCEPT { return dspec_nanoseconds_of_(CLOCK_MONOTONIC); }

/* A text as metadata may show it, of 1 to 255 bytes: each byte that it may not show is an underscore from now on, and an empty text is "unknown", for which there is room. */
DSPEC_INLINE dspec_text dspec_shown(char *text) DSPEC_NOEXCEPT {
    dspec_text shown = { text, 0 };
    if (text[0] == 0) memcpy(text, "unknown", sizeof "unknown");
    for (; text[shown.len] != 0; shown.len++)
        if (text[shown.len] < 32 || text[shown.len] > 126 || text[shown.len] == '"' || text[shown.len] == '\\') text[shown.len] = '_';
    return shown;
}

/* This process under this name, with stamps of dspec_monotonic, and a uuid of random bytes: each call gives another. The name stays the caller's, and so does
 * host, which has the machine's from then on. Whether the system told all of it; else errno says why not. */
DSPEC_INLINE bool dspec_identity_of_system(dspec_identity *identity, const char *name, char host[DSPEC_HOST_SIZE]) DSPEC_NOEXCEPT {
    uint64_t least = UINT64_MAX, began = 0;
    memset(identity, 0, sizeof *identity);
    memset(host, 0, DSPEC_HOST_SIZE);
#ifdef __linux__
    if (getrandom(identity->uuid, sizeof identity->uuid, 0) != DSPEC_AS(ssize_t, sizeof identity->uuid)) return false;
#else
    if (getentropy(identity->uuid, sizeof identity->uuid) != 0) return false;
#endif
    if (gethostname(host, DSPEC_HOST_SIZE - 1) != 0) return false;
    /* A random uuid says of itself that it is one. */
    identity->uuid[6] = DSPEC_AS(uint8_t, (identity->uuid[6] & 15) | 64);
    identity->uuid[8] = DSPEC_AS(uint8_t, (identity->uuid[8] & 63) | 128);
    /* Of several tries the one that took the shortest: a thread may be off its processor between the two clocks. */
    for (int tries = 0; tries < 8; tries++) {
        const uint64_t before = dspec_monotonic(), real = dspec_nanoseconds_of_(CLOCK_REALTIME), width = dspec_monotonic() - before;
        if (width >= least) continue;
        least = width;
        began = real - (before + width / 2);
    }
    identity->pid = DSPEC_AS(uint32_t, getpid());
    identity->hertz = DSPEC_NANOSECONDS;
    identity->seconds = began / DSPEC_NANOSECONDS;
    identity->ticks = began % DSPEC_NANOSECONDS;
    identity->host = dspec_shown(host);
    identity->name.bytes = name;
    identity->name.len = strlen(name);
    return true;
}

#ifdef __cplusplus
}
#endif
#endif
