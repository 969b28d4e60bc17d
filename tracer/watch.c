/* watch.c: what a consumer that isn't a tracer's is told of crashes. It is a tracer without lanes to the signals' handlers, and its memory stays for the next one, since
 * a handler may be looking at it. */
#include "body.h"
#include "watch.h"

#include <unistd.h>

static body *watches[MAX_WATCHES];

/* A watch that nobody has; the caller has the lock. */
static body *unused(void) {
    uint32_t place = 0;
    while (place < MAX_WATCHES && tracer_at(DSPEC_MAX_TRACERS + place) != NULL) place++;
    if (place == MAX_WATCHES || (watches[place] == NULL && (watches[place] = calloc(1, sizeof(body))) == NULL)) return NULL;
    watches[place]->slot = DSPEC_MAX_TRACERS + place;
    return watches[place];
}

dspec_watch *dspec_watch_begin(uint32_t crash_ms, void (*tells)(uint64_t *)) {
    body *tracer;
    tracers_begin();
    tracers_lock();
    tracer = unused();
    if (tracer != NULL) {
        tracer->options = (dspec_tracer_options){ .crash_ms = crash_ms, .no_term = true };
        tracer->here = tells;
        tracer->pid = getpid();
        tracer->deferring = tracer->deferred = tracer->ended = tracer->unsaved = tracer->never_saved = 0;
        for (uint32_t i = 0; i < MAX_CRASHES; i++) tracer->crashes[i].state = CRASH_FREE;
        tracer_set(tracer->slot, tracer);
        signals_hook(&tracer->options);
    }
    tracers_unlock();
    return tracer;
}

void dspec_watch_sleep(dspec_watch *watch, uint64_t nanoseconds) {
    if (__atomic_load_n(&watch->rings, __ATOMIC_ACQUIRE) == watch->heard) word_waits(&watch->rings, watch->heard, nanoseconds);
    watch->heard = __atomic_load_n(&watch->rings, __ATOMIC_ACQUIRE);
}

void dspec_watch_ring(dspec_watch *watch) { consumer_wakes(watch); }

bool dspec_watch_next(dspec_watch *watch, dspec_watched *told) {
    for (uint32_t i = 0; i < MAX_CRASHES; i++) {
        const struct crash *crash = &watch->crashes[i];
        if (__atomic_load_n(&crash->state, __ATOMIC_ACQUIRE) != CRASH_READY) continue;
        *told = (dspec_watched){ crash->signal, crash->code, crash->address, crash->at, crash->pc, { crash->here[0], crash->here[1] }, crash->thread, i };
        return true;
    }
    return false;
}

void dspec_watch_saved(dspec_watch *watch, uint32_t place) { crash_is_saved(watch, &watch->crashes[place]); }

bool dspec_watch_place(dspec_watch *watch, uint32_t place, uint32_t frame, uint64_t *offset, char file[DSPEC_WATCH_FILE]) {
    const struct crash *crash = &watch->crashes[place];
    uint64_t address = crash->pc, callers[MOST_CALLERS];
    code_place at;
    if (frame > 0) {
        if (callers_of(crash, callers) < frame) return false;
        address = callers[frame - 1] - 1; /* in the call */
    }
    if (!place_of(address, &at)) return false;
    *offset = at.offset;
    memcpy(file, at.file, sizeof at.file);
    file[sizeof at.file] = 0;
    return true;
}

int32_t dspec_watch_signal(dspec_watch *watch) { return (int32_t)__atomic_load_n(&watch->deferred, __ATOMIC_ACQUIRE); }

void dspec_watch_end(dspec_watch *watch) {
    if (watch->pid != getpid()) return;
    consumer_ends_by_signal(watch);
    tracers_lock();
    tracer_set(watch->slot, NULL);
    signals_unhook(&watch->options);
    tracers_unlock();
}
