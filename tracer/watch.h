/* watch.h: crashes, told to a consumer that isn't a tracer's, as that of the Rust package tracing-dspec, which declares these calls for itself. A program's
 * tracers are told too, and the handler waits for all of them. The calls are the consumer's, but `dspec_watch_ring`, which is anyone's.
 */
#ifndef DSPEC_WATCH_H
#define DSPEC_WATCH_H

#include <stdbool.h>
#include <stdint.h>

/* The room of a file's name, which ends with 0. */
#define DSPEC_WATCH_FILE 41

typedef struct dspec_tracer_body dspec_watch;

/* A thread that crashed, and waits until that is saved. */
typedef struct dspec_watched {
    int32_t signal, code;
    uint64_t address, at; /* at: of the system's monotonic clock, in nanoseconds */
    uint64_t pc, here[2];
    uint32_t thread, place;
} dspec_watched;

/* Watches SIGSEGV, SIGBUS, SIGFPE, SIGILL and SIGABRT. A crash waits crash_ms at the most. tells is called in the signal's handler, on the thread that crashed, and
 * says where that is in the consumer's own words. NULL where there are 64 already, or no descriptor or memory. */
dspec_watch *dspec_watch_begin(uint32_t crash_ms, void (*tells)(uint64_t *));
/* Sleeps until a crash, a ring, or for so long. */
void dspec_watch_sleep(dspec_watch *watch, uint64_t nanoseconds);
void dspec_watch_ring(dspec_watch *watch);
/* A crash that waits: whether there is one; and its handler goes on. */
bool dspec_watch_next(dspec_watch *watch, dspec_watched *told);
void dspec_watch_saved(dspec_watch *watch, uint32_t place);
/* Where a crash was, while it waits: the file and the offset in it, of the program counter with the frame 0, else of the so many-th caller. False: that isn't known. */
bool dspec_watch_place(dspec_watch *watch, uint32_t place, uint32_t frame, uint64_t *offset, char file[DSPEC_WATCH_FILE]);
/* A crash's signal that another process sent, or 0: the consumer saves all and ends the watch, and the process ends by it then. */
int32_t dspec_watch_signal(dspec_watch *watch);
void dspec_watch_end(dspec_watch *watch);

#endif
