/* wait.c: waits. None is a point where a thread can be cancelled, none changes errno, and a handler may call all. */
#include "body.h"

#include <errno.h>
#include <limits.h>
#include <sys/syscall.h>
#include <unistd.h>

/* A wait begins with pauses, for longer than a call or a service takes. Who is waited for longer is off its processor, which a thread that spins would keep from it: so naps follow, short ones and then
 * longer ones. A nap takes some 60 microseconds more than it says, so a wait for the consumer is to be over before the first one. */
enum { PAUSES_US = 50, SHORT_NAPS = 200, SHORT_US = 50, LONG_US = 1000, TRY_US = 5000 };

/* The system's numbers for futex(2), as <linux/futex.h> has them, which isn't there beside each C library. */
enum { WAIT_PRIVATE = 128, WAKE_PRIVATE = 129 };

void word_waits(const uint32_t *word, uint32_t was, uint64_t nanoseconds) {
    const struct timespec most = { (time_t)(nanoseconds / DSPEC_NANOSECONDS), (long)(nanoseconds % DSPEC_NANOSECONDS) };
    const int saved = errno;
    syscall(SYS_futex, word, WAIT_PRIVATE, was, nanoseconds == FOREVER ? NULL : &most, NULL, 0);
    errno = saved;
}

void word_wakes(const uint32_t *word) {
    const int saved = errno;
    syscall(SYS_futex, word, WAKE_PRIVATE, INT_MAX, NULL, NULL, 0);
    errno = saved;
}

static void nap(uint64_t microseconds) {
    static const uint32_t never;
    word_waits(&never, 0, microseconds * 1000);
}

static uint64_t micros(void) { return dspec_monotonic() / 1000; }

void sleep_for(uint64_t microseconds) {
    const uint64_t until = micros() + microseconds;
    for (uint64_t now = until - microseconds; now < until; now = micros()) nap(until - now);
}

patience patience_of(uint64_t microseconds) { return (patience){ .most = microseconds }; }

bool is_spent(const patience *left) {
    if (left->most == 0) return true;
    return left->naps > left->most / TRY_US && micros() - left->began >= left->most;
}

void wait_on(patience *left) {
    const uint64_t now = micros();
    if (left->began == 0) left->began = now;
    if (left->since == 0) left->since = now;
    if (now - left->since >= PAUSES_US) {
        nap(left->naps++ < SHORT_NAPS ? SHORT_US : LONG_US);
        return;
    }
#if defined(__x86_64__)
    __builtin_ia32_pause();
#endif
}
