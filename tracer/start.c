/* start.c: the beginning and the end of a tracer, and which ones a process has. */
#include "survive.h"
#include "dspec_memory.h"

#include <errno.h>
#include <link.h>
#include <sys/stat.h>
#include <unistd.h>

static pthread_mutex_t mutex = PTHREAD_MUTEX_INITIALIZER;
static pthread_once_t once = PTHREAD_ONCE_INIT;
static pid_t process;
static int cancelable; /* what the thread that has the lock was before */
static body *tracers[MAX_SLOTS];
static uint32_t runs = DSPEC_TRACER_NONE_;

body *tracer_at(uint32_t slot) { return __atomic_load_n(&tracers[slot], __ATOMIC_SEQ_CST); }

void tracer_set(uint32_t slot, body *tracer) { __atomic_store_n(&tracers[slot], tracer, __ATOMIC_SEQ_CST); }

bool process_is_ours(void) { return process == getpid(); }

void tracers_lock(void) {
    int before;
    pthread_setcancelstate(PTHREAD_CANCEL_DISABLE, &before);
    pthread_mutex_lock(&mutex);
    cancelable = before;
}

void tracers_unlock(void) {
    const int before = cancelable;
    pthread_mutex_unlock(&mutex);
    pthread_setcancelstate(before, NULL);
}

/* The child has this thread alone: no consumer, and files that are the parent's. */
static void leave_parent(void) {
    for (uint32_t slot = 0; slot < MAX_SLOTS; slot++) {
        if (tracers[slot] != NULL && slot < DSPEC_MAX_TRACERS) survive_in_child(tracers[slot]);
        if (tracers[slot] != NULL) tracers[slot]->up = tracers[slot]->front->up = 0;
        tracers[slot] = NULL;
    }
    threads_in_child();
    signals_in_child();
    process = getpid();
}

static void in_child(void) {
    leave_parent();
    tracers_unlock();
}

/* Stops the consumer, who ends all; the caller has the lock. */
static void stop(body *tracer) {
    if (tracer->joined) return;
    __atomic_store_n(&tracer->stop, 1, __ATOMIC_RELEASE);
    consumer_wakes(tracer);
    pthread_join(tracer->thread, NULL);
    tracer->joined = true;
    tracer_set(tracer->slot, NULL);
    signals_unhook(&tracer->options);
}

/* A child by _Fork has no consumer to stop. */
static void at_exit(void) {
    if (!process_is_ours()) return;
    tracers_lock();
    for (uint32_t slot = 0; slot < DSPEC_MAX_TRACERS; slot++)
        if (tracers[slot] != NULL) stop(tracers[slot]);
    tracers_unlock();
}

static void begin_once(void) {
    process = getpid();
    threads_begin();
    pthread_atfork(tracers_lock, tracers_unlock, in_child);
    atexit(at_exit);
}

/* A child by _Fork, of which pthread_atfork wasn't told, begins here. */
void tracers_begin(void) {
    pthread_once(&once, begin_once);
    if (process_is_ours()) return;
    mutex = (pthread_mutex_t)PTHREAD_MUTEX_INITIALIZER;
    leave_parent();
}

/* ---- The memory of a tracer. ---- */

static bool fail(dspec_tracer *tracer, const char *what, const char *why) {
    if (snprintf(tracer->why, sizeof tracer->why, "%s: %s", what, why) < 0) tracer->why[0] = 0;
    return false;
}

static size_t events_of(const dspec_enabling *const *events) {
    size_t count = 0;
    while (events != NULL && events[count] != NULL) count++;
    return count;
}

static void free_body(body *tracer) {
    free(tracer->events);
    free(tracer->added);
    for (uint32_t i = 0; i <= tracer->count; i++) park_drop(&tracer->lanes[i]);
    keys_drop(tracer->keys);
    keeper_drop(tracer->keeper);
    taken_drop(tracer);
    if (tracer->saved != NULL) survive_free(tracer);
    else free(tracer);
}

/* Lets go what a tracer has that never came up. */
static void unmake(body *tracer) {
    events_forget(tracer);
    for (uint32_t i = 0; i <= tracer->count; i++) lane_drop(&tracer->lanes[i]);
    dspec_schema_drop(&tracer->schema);
    free_body(tracer);
}

/* Room for a tracer, in memory of malloc's. */
static body *room_for(const dspec_tracer_options *options) {
    const size_t size = sizeof(body) + (options->lanes + 1) * sizeof(struct lane);
    void *at;
    if (posix_memalign(&at, CACHE_LINES, size) != 0) return NULL;
    memset(at, 0, size);
    return at;
}

/* What a tracer with rings has beside them: whether there is memory. */
static bool begin_parking(body *tracer) {
    tracer->keys = keys_new(tracer->options.remember_ms);
    tracer->keeper = keeper_new(tracer);
    if (!taken_begin(tracer)) return false;
    for (uint32_t i = 0; i < tracer->count; i++)
        if (!park_notes_begin(&tracer->lanes[i], tracer->options.park_bytes, tracer->options.specsize)) return false;
    return tracer->keys != NULL && tracer->keeper != NULL;
}

static body *body_in(body *tracer, const dspec_tracer_options *options, size_t events) {
    tracer->options = *options;
    tracer->count = options->lanes;
    tracer->by_thread = options->by_thread;
    tracer->locked = options->no_membarrier || !barrier_is_there();
    tracer->pid = getpid();
    clock_start(tracer);
    tracer->events = calloc(events + 1, sizeof *tracer->events);
    for (uint32_t i = 0; i <= tracer->count; i++) {
        tracer->lanes[i].number = i;
        tracer->lanes[i].tracer = tracer;
        tracer->lanes[i].opened = i + 1 - options->lanes;
        tracer->lanes[i].front.state = tracer->locked ? IDLE | SHARED : IDLE;
        tracer->lanes[i].front.clock = tracer->clock;
    }
    if (tracer->events != NULL && (options->park_bytes == 0 || begin_parking(tracer))) return tracer;
    free_body(tracer);
    return NULL;
}

/* Memory for a tracer, which a debugger finds where there is such. */
static body *memory_for(dspec_tracer *tracer, const char *folder, const dspec_tracer_options *options, const dspec_enabling *const *events) {
    body *run;
    if (options->survive) return survive_make(folder, options, events, tracer->why, sizeof tracer->why);
    run = survive_in_process(folder, options, events, tracer->why, sizeof tracer->why);
    return run == NULL && tracer->why[0] == 0 ? room_for(options) : run;
}

/* A tracer that isn't up; NULL, and tracer->why says why not. */
static body *body_new(dspec_tracer *tracer, const char *folder, const dspec_tracer_options *options, const dspec_enabling *const *events) {
    body *run = memory_for(tracer, folder, options, events);
    if (run != NULL) run = body_in(run, options, events_of(events));
    if (run == NULL && tracer->why[0] == 0) fail(tracer, "the tracer", dspec_status_text(DSPEC_NO_MEMORY));
    return run;
}

static dspec_status start_lanes(body *tracer) {
    void *before = dspec_memory_turn(tracer->memory);
    dspec_status status = DSPEC_OK;
    for (uint32_t i = 0; status == DSPEC_OK && i <= tracer->count; i++) status = lane_start(&tracer->lanes[i], &tracer->options, &tracer->schema);
    dspec_memory_turn(before);
    return status;
}

/* ---- The beginning. ---- */

static void set(uint32_t *option, uint32_t value) {
    if (*option == 0) *option = value;
}

/* The most bytes of a ring of parked paths. */
#define MOST_PARKED ((uint64_t)1 << 32)

/* The same of those of parked paths. */
static const char *complete_parking(dspec_tracer_options *options) {
    if (options->park_bytes == 0) return options->park_ms > 0 || options->remember_ms > 0 || options->on_keep != NULL ? "park_ms, remember_ms and on_keep need park_bytes" : NULL;
    set(&options->park_ms, 10000);
    set(&options->remember_ms, options->park_ms);
    if (options->keep_last) return "park_bytes and keep_last are both set, and the older records of a path aren't parked";
    if (options->park_bytes > MOST_PARKED) return "park_bytes is above 2^32";
    return options->park_bytes < options->specsize ? "park_bytes is below specsize, and a ring has room for each path" : NULL;
}

/* Fills in the defaults, and says what of the options can't be, or NULL; the library looks at the others. */
static const char *complete(dspec_tracer_options *options) {
    const bool keep_last = options->keep_last;
    const char *why;
    set(&options->lanes, 16);
    set(&options->paths, keep_last ? 31 : 32);
    set(&options->bufsize, 65536);
    set(&options->specsize, 4096);
    set(&options->period_ms, 10);
    set(&options->crash_ms, 500);
    if (options->lanes > DSPEC_MAX_LANES) return "lanes is not 1 to 63";
    if (options->specsize > options->bufsize) return dspec_status_text(DSPEC_BAD_SPECSIZE);
    if (options->specsize < BYTES_OF_PATH) return "specsize is below 56, and the event that tells of a path needs room";
    if (options->max_bytes > 0) set(&options->max_folders, 4);
    else if (options->max_folders > 0) return "max_folders needs max_bytes";
    if (options->max_bytes > 0 && (options->max_folders < 2 || options->max_folders > DSPEC_FOLDER_MOST)) return "max_folders is not 2 to 64";
    if (keep_last && options->paths > 31) return "paths is not 1 to 31, of which each has two speculations by keep_last";
    if (keep_last && options->specsize < MOST_OF_A_RECORD) return "specsize is below 80, and keep_last needs room for each record";
    why = complete_parking(options);
    return why != NULL ? why : clock_choose(options);
}

/* The folder with its names, which stay no longer than that takes. */
static bool begin_folder(dspec_tracer *tracer, body *run, const char *folder, const dspec_enabling *const *events) {
    static const dspec_enabling *const none[] = { NULL };
    struct whose whose = { 0 };
    struct naming *naming = naming_new();
    bool begun = false;
    dspec_status status = naming == NULL ? DSPEC_NO_MEMORY : enable_all(run, events != NULL ? events : none, naming);
    if (status == DSPEC_OK) status = start_lanes(run);
    dspec_folder_limit(&run->folder, run->options.max_bytes, run->options.max_folders);
    dspec_folder_reserve(&run->folder, MOST_BATCH(&run->options)); /* a crash in malloc has its lock: what is saved takes no memory */
    if (status != DSPEC_OK) fail(tracer, "the session", dspec_status_text(status));
    else if (!identify(run, &whose)) fail(tracer, "the trace's number", strerror(errno));
    else if (!dspec_folder_begin(&run->folder, folder, &run->schema, run->count + 1, &whose.identity, naming_names(naming)))
        fail(tracer, folder, dspec_folder_why(&run->folder));
    else begun = true;
    if (begun) survive_tell(run, &whose, naming_names(naming));
    free(naming);
    return begun;
}

/* What the C library takes of each thread's stack for the thread-local variables of the program and its libraries. */
static int add_of_object(struct dl_phdr_info *object, size_t unused, void *sum) {
    (void)unused;
    for (size_t i = 0; i < object->dlpi_phnum; i++)
        if (object->dlpi_phdr[i].p_type == PT_TLS) *(size_t *)sum += object->dlpi_phdr[i].p_memsz + object->dlpi_phdr[i].p_align;
    return 0;
}

/* Our part of the consumer's stack, and the most that a stack is tried with. */
#define STACK_SIZE ((size_t)262144)
#define MOST_STACK ((size_t)1 << 28)

/* Makes the consumer's thread with a stack of at least so many bytes. A C library that takes more than is known of it says that the stack is too small. */
static int make_thread_with(body *tracer, size_t stack) {
    pthread_attr_t attributes;
    int code = pthread_attr_init(&attributes);
    if (code != 0) return code;
    do {
        code = pthread_attr_setstacksize(&attributes, stack);
        if (code == 0) code = pthread_create(&tracer->thread, &attributes, consumer_runs, tracer);
        stack *= 2;
    } while (code == EINVAL && stack <= MOST_STACK);
    pthread_attr_destroy(&attributes);
    return code;
}

/* The consumer gets no signal, and a fault of its own ends the process: no handler of the program's is meant for this thread, and a signal that the program's threads block waits for them.
 * SIGXFSZ is among those that it doesn't get, so a limit on files is an error of a write. */
static int make_thread(body *tracer) {
    static const size_t page = 65536; /* as the machines have it whose pages are the largest */
    sigset_t all, before;
    size_t stack = STACK_SIZE;
    int code;
    dl_iterate_phdr(add_of_object, &stack);
    sigfillset(&all);
    pthread_sigmask(SIG_SETMASK, &all, &before);
    code = make_thread_with(tracer, (stack + page - 1) / page * page);
    pthread_sigmask(SIG_SETMASK, &before, NULL);
    return code;
}

static bool make(dspec_tracer *tracer, body *run, const char *folder, const dspec_enabling *const *events) {
    int code;
    if (!begin_folder(tracer, run, folder, events)) return false;
    code = make_thread(run);
    if (code == 0) return true;
    dspec_folder_undoes_(&run->folder);
    dspec_folder_fails_(&run->folder, DSPEC_OK, code, NULL);
    return fail(tracer, "the consumer's thread", strerror(code));
}

/* Whether the folder that is to have the trace's is there. */
static bool has_parent(dspec_tracer *tracer, const char *folder) {
    size_t len = strlen(folder);
    char parent[4096];
    struct stat is;
    while (len > 1 && folder[len - 1] == '/') len--;
    while (len > 0 && folder[len - 1] != '/') len--;
    if (len == 0 || len >= sizeof parent) return true;
    memcpy(parent, folder, len);
    parent[len] = 0;
    if (stat(parent, &is) == 0 || errno != ENOENT) return true;
    return fail(tracer, parent, "there is no such folder to put the trace's into: make it first");
}

bool options_take(dspec_tracer *tracer, const dspec_tracer_options *options, size_t size, dspec_tracer_options *taken) {
    const unsigned char *bytes = (const unsigned char *)options;
    memset(taken, 0, sizeof *taken);
    if (options == NULL) return true;
    memcpy(taken, options, size < sizeof *taken ? size : sizeof *taken);
    for (size_t i = sizeof *taken; i < size; i++)
        if (bytes[i] != 0) return fail(tracer, "the options", "one is set that this library is too old for: the program was compiled with a newer header");
    return true;
}

/* The caller has the lock. */
static bool start(dspec_tracer *tracer, const char *folder, const dspec_tracer_options *options, const dspec_enabling *const *events) {
    dspec_tracer_options all = *options;
    const char *why = complete(&all);
    uint32_t slot = 0;
    body *run;
    if (tracer->body != NULL) return fail(tracer, "the tracer", "it was started before");
    while (slot < DSPEC_MAX_TRACERS && tracers[slot] != NULL) slot++;
    if (slot == DSPEC_MAX_TRACERS) return fail(tracer, "the tracer", "as many are up as can be");
    if (why != NULL) return fail(tracer, "the options", why);
    if (!has_parent(tracer, folder)) return false;
    run = body_new(tracer, folder, &all, events);
    if (run == NULL) return false;
    run->slot = slot;
    run->front = tracer;
    for (uint32_t i = 0; i <= run->count; i++) run->lanes[i].front.slot = slot;
    run->run = ++runs;
    run->up = 1;
    if (!make(tracer, run, folder, events)) {
        unmake(run);
        return false;
    }
    survive_is_whole(run, tracer->why, sizeof tracer->why);
    tracer_set(slot, run);
    STORE(&tracer->seat, (size_t)((const char *)&dspec_seats[slot] - dspec_tracer_thread_()));
    STORE(&tracer->run, run->run);
    STORE(&tracer->up, 1);
    __atomic_store_n(&tracer->body, run, __ATOMIC_RELEASE);
    signals_hook(&run->options);
    return true;
}

/* ---- The probes that a program declares. ---- */

static bool is_same(const dspec_enabling *enabling, const dspec_enabling *other) {
    if (enabling->n != other->n || memcmp(enabling->widths, other->widths, enabling->n) != 0 || memcmp(enabling->kinds, other->kinds, enabling->n) != 0) return false;
    for (size_t i = 0; i < enabling->n; i++)
        if (strcmp(enabling->fields[i], other->fields[i]) != 0) return false;
    return true;
}

/* A probe is one event for all files of a program, so that all have to say the same of it. */
static bool are_same(dspec_tracer *tracer, const dspec_enabling *const *declared, const dspec_enabling *const *end) {
    for (const dspec_enabling *const *enabling = declared; enabling != end; enabling++)
        for (const dspec_enabling *const *other = declared; other != enabling; other++) {
            if ((*enabling)->event != (*other)->event || is_same(*enabling, *other)) continue;
            snprintf(tracer->why, sizeof tracer->why, "probe `%s`: %s declares it with other fields than %s", (*enabling)->name, (*enabling)->file, (*other)->file);
            return false;
        }
    return true;
}

/* Names the probes that are declared and aren't among the events. */
static void tell_missing(dspec_tracer *tracer, const dspec_enabling *const *events, const dspec_enabling *const *declared, const dspec_enabling *const *end) {
    size_t len = strlen(tracer->why), many = 0;
    for (const dspec_enabling *const *enabling = declared; enabling != end; enabling++) {
        bool is_there = false;
        for (size_t i = 0; events != NULL && events[i] != NULL; i++) is_there |= events[i]->event == (*enabling)->event;
        for (const dspec_enabling *const *other = declared; other != enabling; other++) is_there |= (*other)->event == (*enabling)->event;
        if (is_there || len >= sizeof tracer->why) continue;
        const int put = snprintf(tracer->why + len, sizeof tracer->why - len, "%s%s", many++ > 0 ? ", " : len > 0 ? "; declared, but not among the events: " : "declared, but not among the events: ", (*enabling)->name);
        len += put > 0 ? (size_t)put : 0;
    }
}

bool dspec_tracer_start_sized(dspec_tracer *tracer, const char *folder, const dspec_tracer_options *options, size_t size, const dspec_enabling *const *events,
                              const dspec_enabling *const *declared, const dspec_enabling *const *end) {
    dspec_tracer_options taken;
    held_limit held;
    bool started;
    tracers_begin();
    tracers_lock();
    held = limit_hold();
    tracer->why[0] = 0;
    started = options_take(tracer, options, size, &taken) && are_same(tracer, declared, end) && start(tracer, folder, &taken, events);
    if (started) tell_missing(tracer, events, declared, end);
    limit_release(&held);
    tracers_unlock();
    return started;
}

/* ---- Probes of plugins. ---- */

/* The place of the tracer's event of this name and these fields; -1: it has none. */
static int place_of_event(const body *tracer, const dspec_enabling *enabling) {
    for (int i = 0; tracer->events[i] != NULL; i++)
        if (strcmp(tracer->events[i]->name, enabling->name) == 0 && is_same(tracer->events[i], enabling)) return i;
    return -1;
}

/* The caller has the lock. */
static bool add(dspec_tracer *tracer, body *run, const dspec_enabling *const *events) {
    if (!LOAD(&run->up)) return fail(tracer, "the tracer", "it isn't up");
    for (size_t i = 0; events[i] != NULL; i++)
        if (place_of_event(run, events[i]) < 0) return fail(tracer, events[i]->name, "a tracer's events are those of its start, and it has none of this name and these fields");
    for (size_t i = 0; events[i] != NULL; i++) {
        if (event_adds(run, events[i]->event, run->claims[place_of_event(run, events[i])])) continue;
        while (i-- > 0) event_goes(run, events[i]->event);
        return fail(tracer, "the tracer", dspec_status_text(DSPEC_NO_MEMORY));
    }
    return true;
}

bool dspec_tracer_add(dspec_tracer *tracer, const dspec_enabling *const *events) {
    body *run = __atomic_load_n(&tracer->body, __ATOMIC_ACQUIRE);
    bool is_taken;
    if (run == NULL || run->pid != getpid()) return fail(tracer, "the tracer", "it isn't up");
    tracers_lock();
    tracer->why[0] = 0;
    is_taken = add(tracer, run, events);
    tracers_unlock();
    return is_taken;
}

void dspec_tracer_remove(dspec_tracer *tracer, const dspec_enabling *const *events) {
    body *run = __atomic_load_n(&tracer->body, __ATOMIC_ACQUIRE);
    if (run == NULL || run->pid != getpid()) return;
    tracers_lock();
    for (size_t i = 0; events[i] != NULL; i++) event_goes(run, events[i]->event);
    tracers_unlock();
}

/* ---- While it runs. ---- */

static void counts(const body *tracer, dspec_tracer_report *report) {
    for (uint32_t i = 0; i < tracer->count; i++) {
        const struct lane *lane = &tracer->lanes[i];
        lane_add(report, &lane->latest);
        report->kept += LOAD(&lane->kept);
        report->thrown += LOAD(&lane->thrown);
        report->cut += LOAD(&lane->cut);
        report->cut_records += LOAD(&lane->cut_records);
        lane_add_parked(lane, report);
    }
    report->crash_paths = LOAD(&tracer->report.crash_paths);
    tell_counts(tracer, report);
}

/* As much of a report as the program has room for; what it has more is zeros. */
static void report_give(const dspec_tracer_report *from, dspec_tracer_report *report, size_t size) {
    memset(report, 0, size);
    memcpy(report, from, size < sizeof *from ? size : sizeof *from);
}

bool dspec_tracer_counts_sized(dspec_tracer *tracer, dspec_tracer_report *report, size_t size) {
    const body *run = __atomic_load_n(&tracer->body, __ATOMIC_ACQUIRE);
    dspec_tracer_report all = { 0 };
    const bool is_up = run != NULL && run->pid == getpid() && LOAD(&run->up);
    if (is_up) counts(run, &all);
    report_give(&all, report, size);
    return is_up;
}

/* No seat has run 0, so that each record outside a path takes the closer look. */
void dspec_tracer_switch(dspec_tracer *tracer, bool on) {
    body *run = __atomic_load_n(&tracer->body, __ATOMIC_ACQUIRE);
    if (run == NULL) return;
    STORE(&tracer->run, on ? run->run : 0);
    STORE(&tracer->up, on && LOAD(&run->up));
}

void dspec_tracer_switch_event(dspec_tracer *tracer, dspec_event *event, bool on) {
    body *run = __atomic_load_n(&tracer->body, __ATOMIC_ACQUIRE);
    for (uint32_t i = 0; run != NULL && LOAD(&run->up) && run->events[i] != NULL; i++)
        if (run->events[i]->event == event) event_claims(event, run->slot, on ? run->claims[i] : DSPEC_TRACER_OFF_);
}

/* ---- The end. ---- */

bool dspec_tracer_stop_sized(dspec_tracer *tracer, dspec_tracer_report *report, size_t size) {
    body *run = __atomic_load_n(&tracer->body, __ATOMIC_ACQUIRE);
    if (report != NULL) memset(report, 0, size);
    if (run == NULL || run->pid != getpid()) return false;
    tracers_lock();
    stop(run);
    tracers_unlock();
    if (report != NULL) report_give(&run->report, report, size);
    return run->whole;
}

void dspec_tracer_drop(dspec_tracer *tracer) {
    body *run = __atomic_load_n(&tracer->body, __ATOMIC_ACQUIRE);
    if (run != NULL && run->pid == getpid()) {
        dspec_tracer_stop(tracer, NULL);
        if (signals_are_over()) free_body(run);
    }
    memset(tracer, 0, sizeof *tracer);
}

bool dspec_tracer_flush(dspec_tracer *tracer, uint32_t timeout_ms) {
    body *run = __atomic_load_n(&tracer->body, __ATOMIC_ACQUIRE);
    uint32_t ticket;
    bool is_there;
    if (run == NULL || run->pid != getpid() || !LOAD(&run->up)) return false;
    __atomic_fetch_add(&run->flushing, 1, __ATOMIC_SEQ_CST);
    ticket = __atomic_add_fetch(&run->asked, 1, __ATOMIC_SEQ_CST);
    consumer_wakes(run);
    is_there = consumer_served(run, ticket, timeout_ms) && !LOAD(&run->misses) && !lanes_wait_for_disk(run) && !keeper_waits_for_disk(run);
    __atomic_fetch_sub(&run->flushing, 1, __ATOMIC_SEQ_CST);
    return is_there;
}
