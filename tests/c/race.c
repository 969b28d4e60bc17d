/* Random calls on up to eight CPUs at once, each in a thread, beside a consumer and a thread that interrupts them inside their calls:
 * `c_race COUNT SEED` makes COUNT sessions. A signal's handler yields, spins or sleeps there; where the processor can step, some calls
 * are interrupted after each of their instructions. At the end of each session c_race_account.c compares the records that came, and the
 * reports, with what every call was answered. Which call meets which is the machine's: a seed gives the calls alone. */
#define _GNU_SOURCE
#include "check.h"
#include "race.h"
#include "dspec_reader.h"

#include <inttypes.h>
#include <sched.h>
#include <signal.h>
#include <stdatomic.h>
#include <time.h>
#include <unistd.h>

/* The latest identifier of each slot, which any CPU may offer to or decide. */
static _Atomic uint64_t board[RACE_SLOTS + 1];
static atomic_int running;
static atomic_bool has_begun;
static dspec_layout known;
static _Thread_local dice interrupted;

/* What a session stands on: the test ends where it is refused. */
static void must(dspec_status status, const char *call) {
    if (status == DSPEC_OK) return;
    printf("%s: %s\n", call, dspec_status_text(status));
    exit(2);
}

#define HAS_TO(call) must((call), #call)

void race_flaw(race *r, uint32_t cpu, const char *what, uint64_t one, uint64_t other) {
    if (r->flaws++ < 10) printf("seed %" PRIu64 ", CPU %u: %s (%" PRIu64 ", %" PRIu64 ")\n", r->seed, cpu, what, one, other);
}

static uint64_t now(void) {
    struct timespec t;
    clock_gettime(CLOCK_MONOTONIC, &t);
    return (uint64_t)t.tv_sec * 1000000000u + (uint64_t)t.tv_nsec;
}

static void spin(uint32_t n) {
    for (volatile uint32_t i = 0; i < n; i++) {}
}

/* Inside a call, at random: the thread gives way, sleeps or goes on late. */
static void on_interrupt(int signal) {
    (void)signal;
    switch (below(&interrupted, 6)) {
    case 0:
    case 1: sched_yield(); break;
    case 2: usleep(below(&interrupted, 60)); break;
    case 3: spin(3000); break;
    default: break;
    }
}

static void on_step(int signal) {
    (void)signal;
    if (!one_in(&interrupted, 48)) return;
    if (one_in(&interrupted, 6)) usleep(below(&interrupted, 40));
    else sched_yield();
}

/* From here on, or no longer, the processor traps after each instruction. */
static inline void step(bool is_on) {
#if defined(__x86_64__)
    if (is_on) __asm__ volatile("pushfq\n\torq $0x100, (%%rsp)\n\tpopfq" ::: "memory", "cc");
    else __asm__ volatile("pushfq\n\tandq $~0x100, (%%rsp)\n\tpopfq" ::: "memory", "cc");
#else
    (void)is_on;
#endif
}

static void wait_for_begin(void) {
    while (!atomic_load(&has_begun)) sched_yield();
}

static void maybe_pause(race_worker *w) {
    if (w->pauses == 0 || !one_in(&w->dice, w->pauses)) return;
    switch (below(&w->dice, 4)) {
    case 0: usleep(below(&w->dice, 80)); break;
    case 1: sched_yield(); break;
    default: spin(below(&w->dice, 2000));
    }
}

static race_call draw_call(race_worker *w) {
    uint32_t all = 0, call = 0;
    for (uint32_t i = 0; i < RACE_CALLS; i++) all += w->weights[i];
    for (uint32_t at = below(&w->dice, all); at >= w->weights[call]; call++) at -= w->weights[call];
    return (race_call)call;
}

/* Mostly the latest of a slot; now and then the one before or the next, or none at all. */
static uint64_t draw_id(race_worker *w) {
    uint64_t id = atomic_load(&board[1 + below(&w->dice, w->race->config.nspec)]);
    switch (below(&w->dice, 60)) {
    case 0: return id + 64;
    case 1: return id >= 64 ? id - 64 : 0;
    case 2: return draw(&w->dice);
    default: return id;
    }
}

static dspec_status make(race_worker *w, race_entry *e, const drawn *record) {
    switch (e->call) {
    case RACE_TRACE: return dspec_trace(&w->cpu, record->epid, record->stamp, record->values, record->n);
    case RACE_OPEN: return dspec_speculation(&w->cpu, &e->id);
    case RACE_OFFER: return dspec_speculate(&w->cpu, e->id, record->epid, record->stamp, record->values, record->n);
    case RACE_COMMIT: return dspec_commit(&w->cpu, e->id, &e->count);
    case RACE_DISCARD: return dspec_discard(&w->cpu, e->id, &e->count);
    default: return dspec_service(&w->cpu, &e->sealed, &e->count);
    }
}

static void one_call(race_worker *w, uint32_t number) {
    race_entry *e = &w->log[number];
    *e = (race_entry){ .call = draw_call(w), .serial = (uint64_t)w->number << 40 | (number + 1) };
    if (e->call == RACE_OFFER || e->call == RACE_COMMIT || e->call == RACE_DISCARD) e->id = draw_id(w);
    drawn record = { .epid = 1 + below(&w->dice, 3), .stamp = w->race->is_stamped ? draw(&w->dice) : 0 };
    record.n = record.epid + 1;
    record.values[0] = e->serial;
    record.values[1] = e->id;
    record.values[2] = draw(&w->dice) & 0xffff;
    record.values[3] = draw(&w->dice) & 0xff;
    maybe_pause(w);
    bool is_stepped = w->traps > 0 && one_in(&w->dice, w->traps);
    if (w->race->is_timed) e->began = now();
    if (is_stepped) step(true);
    dspec_status status = make(w, e, &record);
    if (is_stepped) step(false);
    if (w->race->is_timed) e->ended = now();
    e->status = status;
    if (e->call == RACE_OPEN && status == DSPEC_OK && e->id % 64 <= RACE_SLOTS) atomic_store(&board[e->id % 64], e->id);
}

static void *work(void *of) {
    race_worker *w = of;
    interrupted.state = draw(&w->dice);
    wait_for_begin();
    for (uint32_t i = 0; i < w->race->calls; i++) one_call(w, i);
    atomic_fetch_sub(&running, 1);
    return NULL;
}

static void read_batch(race_worker *w, const dspec_batch *batch) {
    dspec_record one;
    dspec_reading reading;
    size_t at = 0;
    while ((reading = dspec_read(&known, batch->bytes, batch->len, &at, &one)) == DSPEC_READ) {
        if (w->records == w->room) {
            w->room = w->room == 0 ? 1024 : 2 * w->room;
            w->came = realloc(w->came, w->room * sizeof *w->came);
            if (w->came == NULL) abort();
        }
        w->came[w->records++] = (race_record){ .serial = one.values[0], .id = one.values[1] };
    }
    if (reading != DSPEC_READ_ALL) race_flaw(w->race, w->number, "a batch that isn't records", at, batch->len);
    w->drops += batch->drops;
}

typedef struct consuming {
    race *r;
    dspec_consumer consumer;
    dice dice;
} consuming;

/* The batch is looked at twice: its bytes stay as they are while it is out. */
static void take_from(consuming *k, uint32_t cpu) {
    race_worker *w = &k->r->workers[cpu];
    dspec_batch batch, second;
    dspec_status status = dspec_take(&k->consumer, cpu, &batch);
    if (status == DSPEC_NO_BATCH) return;
    if (status != DSPEC_OK || batch.cpu != cpu) race_flaw(k->r, cpu, "a take is answered so", status, 0);
    dspec_batch copy = batch;
    uint8_t *bytes = malloc(batch.len + 1);
    if (bytes == NULL) abort();
    memcpy(bytes, batch.bytes, batch.len);
    copy.bytes = bytes;
    if (one_in(&k->dice, 3)) usleep(below(&k->dice, 100));
    if (memcmp(bytes, batch.bytes, batch.len) != 0) race_flaw(k->r, cpu, "a batch changes while it is out", batch.len, 0);
    read_batch(w, &copy);
    w->batches++;
    free(bytes);
    if (dspec_take(&k->consumer, cpu, &second) != DSPEC_OUT) race_flaw(k->r, cpu, "a second batch while one is out", 0, 0);
    do {
        status = dspec_give_back(&k->consumer, cpu);
        if (status == DSPEC_BUSY) sched_yield();
    } while (status == DSPEC_BUSY);
    if (status != DSPEC_OK) race_flaw(k->r, cpu, "giving back is answered so", status, 0);
}

static void one_round(consuming *k) {
    uint32_t cpu = below(&k->dice, k->r->config.cpus), released, call = below(&k->dice, 14);
    if (call < 4) {
        if (dspec_ask(&k->consumer, cpu) != DSPEC_OK) race_flaw(k->r, cpu, "an ask is refused", 0, 0);
    } else if (call < 8) {
        take_from(k, cpu);
    } else if (dspec_clean(&k->consumer, &released) != DSPEC_OK) {
        race_flaw(k->r, cpu, "a clean is refused", 0, 0);
    }
}

static void stop(consuming *k) {
    k->r->stop_began = now();
    if (dspec_stop(&k->consumer) != DSPEC_OK) race_flaw(k->r, 0, "a stop is refused", 0, 0);
    k->r->stop_ended = now();
}

static void *consume(void *of) {
    consuming *k = of;
    wait_for_begin();
    for (uint32_t round = 1; atomic_load(&running) > 0; round++) {
        one_round(k);
        if (round == k->r->stop_after) stop(k);
        if (k->r->is_lazy && one_in(&k->dice, 4)) usleep(below(&k->dice, 300));
        else if (one_in(&k->dice, 3)) sched_yield();
    }
    return NULL;
}

static void *interrupt(void *of) {
    race *r = of;
    dice d = { r->seed ^ 0xabcdef };
    wait_for_begin();
    while (atomic_load(&running) > 0) {
        pthread_kill(r->workers[below(&d, r->config.cpus)].thread, SIGUSR1);
        if (one_in(&d, 4)) sched_yield();
        else usleep(below(&d, 30));
    }
    return NULL;
}

static void draw_worker(race *r, uint32_t cpu, dice *d, uint32_t most_traps) {
    static const uint32_t most[RACE_CALLS] = { 6, 8, 30, 4, 4, 8 };
    race_worker *w = &r->workers[cpu];
    *w = (race_worker){ .race = r, .number = cpu, .dice = { draw(d) }, .pauses = one_in(d, 3) ? 0 : 5 + below(d, 100) };
    if (most_traps > 0) w->traps = 1 + below(d, most_traps);
    for (int i = 0; i < RACE_CALLS; i++) w->weights[i] = below(d, most[i]) + (i != RACE_COMMIT && i != RACE_DISCARD);
    w->log = calloc(r->calls, sizeof *w->log);
    if (w->log == NULL) abort();
}

static void draw_race(race *r, dice *d) {
    static const uint64_t sizes[] = { 32, 64, 128, 256, 1024, 4096, 16384 }, slots[] = { 24, 32, 64, 128, 512 };
    r->calls = 100 + below(d, 1500);
    r->is_timed = one_in(d, 2);
    r->is_stamped = one_in(d, 3);
    r->is_lazy = one_in(d, 2);
    r->stop_after = one_in(d, 3) ? 1 + below(d, 2000) : 0;
    uint32_t most_traps = one_in(d, 2) ? 1 + below(d, 20) : 0;
    if (most_traps > 0) r->calls = 30 + r->calls / 8;
    r->config = (dspec_config){
        .cpus = one_in(d, 4) ? 2 + below(d, 7) : RACE_CPUS, .nspec = 1 + below(d, one_in(d, 3) ? RACE_SLOTS : 3),
        .bufsize = (uint32_t)of(d, sizes, 7), .specsize = (uint32_t)of(d, slots, 5), .policy = one_in(d, 6),
        .max_issues = one_in(d, 6) ? 1 + below(d, 30) : DSPEC_MAX_ISSUES, .max_calls = one_in(d, 6) ? 1 + below(d, r->calls) : DSPEC_MAX_CALLS,
    };
    for (uint32_t cpu = 0; cpu < r->config.cpus; cpu++) draw_worker(r, cpu, d, most_traps);
}

static void start(race *r, dspec_session *session) {
    dspec_schema schema = DSPEC_EMPTY;
    uint32_t epid;
    known = (dspec_layout){ .stamped = r->is_stamped };
    HAS_TO(dspec_schema_new(&schema));
    if (r->is_stamped) HAS_TO(dspec_schema_stamp(&schema));
    for (size_t n = 2; n <= 4; n++) HAS_TO(dspec_layout_enable(&known, &schema, (const uint8_t[]){ 8, 8, 2, 1 }, n, &epid));
    HAS_TO(dspec_start(&r->config, &schema, session));
    dspec_schema_drop(&schema);
}

static void must_begin(pthread_t *thread, void *(*run)(void *), void *of) {
    if (pthread_create(thread, NULL, run, of) == 0) return;
    puts("a thread is refused");
    exit(2);
}

static void run_threads(race *r, consuming *k) {
    pthread_t taker, interrupter;
    for (uint32_t slot = 0; slot <= RACE_SLOTS; slot++) atomic_store(&board[slot], 0);
    atomic_store(&has_begun, false);
    atomic_store(&running, (int)r->config.cpus);
    for (uint32_t cpu = 0; cpu < r->config.cpus; cpu++) must_begin(&r->workers[cpu].thread, work, &r->workers[cpu]);
    must_begin(&taker, consume, k);
    must_begin(&interrupter, interrupt, r);
    atomic_store(&has_begun, true);
    pthread_join(interrupter, NULL);
    for (uint32_t cpu = 0; cpu < r->config.cpus; cpu++) pthread_join(r->workers[cpu].thread, NULL);
    pthread_join(taker, NULL);
}

static void read_rest(race_worker *w, dspec_closed *closed) {
    dspec_batch batch;
    if (dspec_rest(closed, w->number, false, &batch) == DSPEC_OK) {
        read_batch(w, &batch);
        w->batches++;
    }
    HAS_TO(dspec_rest(closed, w->number, true, &batch));
    read_batch(w, &batch);
    HAS_TO(dspec_closed_report(closed, w->number, &w->report));
}

/* One session, from its start to its account. */
static bool runs_well(uint64_t seed) {
    static race r;
    dice d = { seed };
    consuming k = { .r = &r };
    dspec_session session = DSPEC_EMPTY;
    dspec_closed closed = DSPEC_EMPTY;
    r = (race){ .seed = seed };
    draw_race(&r, &d);
    k.dice.state = draw(&d);
    start(&r, &session);
    for (uint32_t cpu = 0; cpu < r.config.cpus; cpu++) HAS_TO(dspec_cpu_of(&session, cpu, &r.workers[cpu].cpu));
    HAS_TO(dspec_consumer_of(&session, &k.consumer));
    run_threads(&r, &k);
    for (uint32_t cpu = 0; cpu < r.config.cpus; cpu++) HAS_TO(dspec_cpu_home(&r.workers[cpu].cpu));
    HAS_TO(dspec_consumer_home(&k.consumer));
    HAS_TO(dspec_finish(&session, &closed));
    for (uint32_t cpu = 0; cpu < r.config.cpus; cpu++) read_rest(&r.workers[cpu], &closed);
    dspec_closed_drop(&closed);
    race_account(&r);
    for (uint32_t cpu = 0; cpu < r.config.cpus; cpu++) {
        free(r.workers[cpu].log);
        free(r.workers[cpu].came);
    }
    return r.flaws == 0;
}

int main(int argc, char **argv) {
    if (argc != 3) return 2;
    uint64_t count = strtoull(argv[1], NULL, 10), first = strtoull(argv[2], NULL, 10);
    struct sigaction handler = { .sa_handler = on_interrupt, .sa_flags = SA_RESTART };
    sigaction(SIGUSR1, &handler, NULL);
    handler.sa_handler = on_step;
    sigaction(SIGTRAP, &handler, NULL);
    for (uint64_t seed = first; seed < first + count; seed++) CHECK(runs_well(seed));
    return check_end();
}
