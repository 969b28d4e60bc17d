/* A tracer that is killed after each instruction: of its calls, `stepped FOLDER SNAP OUT EACH`, and of its consumer's thread, as it writes what there is, `stepped FOLDER SNAP OUT EACH
 * consumer`; as it can't, since the disk is full, `full`; as it can again, `room`; as it keeps parked paths by their keys, `parked`; and as it finds no room for these, and room later, `parked_full`; and of calls that find their buffer full and begin the other one, and then of the consumer, `switched` by a record and `switched_keep` by a path that is kept. The linker's --wrap leads what keeps room on the disk through here, the consumer's own records, and what it gives back. After each EACH-th instruction the memory's file is copied to SNAP, as a kill would leave it, and read by `stepped judge SNAP OUT ..`, a process of its own. What was answered has
 * to be there or in the tracer's folder, what was thrown away nowhere, and what is being made may be there or not, as a whole. The last line counts what was judged. */
#define _GNU_SOURCE
#include "dspec_tracer.h"

#include <dirent.h>
#include <errno.h>
#include <fcntl.h>
#include <inttypes.h>
#include <poll.h>
#include <signal.h>
#include <spawn.h>
#include <stdio.h>
#include <stdlib.h>
#include <string.h>
#include <sys/auxv.h>
#include <sys/mman.h>
#include <sys/ptrace.h>
#include <sys/stat.h>
#include <sys/user.h>
#include <sys/wait.h>
#include <unistd.h>

DSPEC_PROBE(query, uint64_t, request, uint32_t, step);
DSPEC_PROBE(tick, uint64_t, number);

enum { REQUESTS = 4, PARKED = 5, STEPS = 3, MOST = 256, PACKET = 1024, FILES = 8 };

/* What is known while a call is made: how many requests are decided, of which those with odd numbers were kept; how many records the one that is open has; how many ticks there are; and
 * what is being made: a round is the consumer's, and so is a turn in which it keeps what is parked; a tick may begin the other buffer. In the middle of a service an open path may be out of reach. */
enum { NOTHING = 0, A_RECORD = 1, A_KEEP = 2, A_DROP = 3, A_TICK = 4, A_ROUND = 5, A_KEY = 6, A_SWITCH = 7 };
typedef struct known {
    uint64_t decided, records, ticks, making;
} known;

static known now;
static volatile known *other; /* the same of another process */
/* The consumer is in a call that is looked at more often. Of a record of its own few instructions are between its bytes and its count; of a batch that it gives back one leaves the session a half of it. */
enum { EACH_OF_A_PUT = 3, EACH_OF_A_BATCH = 1 };
static uint32_t *looks_each;
static char **names;
static int memory;
static uint64_t instructions, judged, wrong, lacking, each;
enum { IS_LACKING = 9 };
static uint8_t copy[1 << 20];

/* ---- The judge. ---- */

typedef struct found {
    uint64_t requests[MOST], steps[MOST], count;
    uint64_t ticks[MOST], ticked;
} found;

static uint64_t number_of(const uint8_t *at, int width) {
    uint64_t number = 0;
    for (int i = width; i > 0; i--) number = number << 8 | at[i - 1];
    return number;
}

static void add_query(found *all, uint64_t request, uint64_t at) {
    uint64_t place = all->count++;
    for (; place > 0 && (all->requests[place - 1] > request || (all->requests[place - 1] == request && all->steps[place - 1] > at)); place--) {
        all->requests[place] = all->requests[place - 1];
        all->steps[place] = all->steps[place - 1];
    }
    all->requests[place] = request;
    all->steps[place] = at;
}

/* How many events a folder's metadata declares. */
static uint64_t events_of(const char *folder) {
    static const char event[] = "event {";
    static char text[65536];
    uint64_t events = 0;
    char path[4200];
    ssize_t size;
    int file;
    snprintf(path, sizeof path, "%s/metadata", folder);
    file = open(path, O_RDONLY);
    size = file < 0 ? 0 : read(file, text, sizeof text - 1);
    if (file >= 0) close(file);
    text[size > 0 ? size : 0] = 0;
    for (const char *at = text; (at = strstr(at, event)) != NULL; at += sizeof event - 1) events++;
    return events;
}

/* The bytes of an event's fields: of the program's, each with the number of its path first, of the tracer's own of a path, which is the last one of undecided paths too, and of one that tells of an
 * open path. */
static uint64_t size_of(uint64_t epid, uint64_t events) {
    enum { QUERY = 1, TICK = 2, KEPT = 5 };
    return epid == QUERY ? 16 : epid == TICK ? 12 : epid == KEPT || epid == events ? 44 : 32;
}

/* The events of a file of the lane: queries by their requests, and ticks. */
static void read_file(const char *folder, int number, uint64_t events, found *all) {
    uint8_t packet[PACKET];
    char path[4200];
    int file;
    snprintf(path, sizeof path, "%s/cpu_0_%d", folder, number);
    file = open(path, O_RDONLY);
    while (file >= 0 && read(file, packet, PACKET) == PACKET) {
        const uint64_t end = number_of(packet + 40, 8) / 8;
        for (uint64_t at = 68; at + 12 <= end;) {
            const uint64_t epid = number_of(packet + at, 4);
            at += 12;
            if (epid == 1 && all->count < MOST) {
                add_query(all, number_of(packet + at + 4, 8), number_of(packet + at + 12, 4));
            } else if (epid == 2 && all->ticked < MOST) {
                all->ticks[all->ticked++] = number_of(packet + at + 4, 8);
            }
            at += size_of(epid, events);
        }
    }
    if (file >= 0) close(file);
}

static void read_events(const char *folder, found *all) {
    const uint64_t events = events_of(folder);
    for (int number = 0; number < FILES; number++) read_file(folder, number, events, all);
}

static int say(const char *what, const found *all) {
    printf("%s:", what);
    for (uint64_t i = 0; i < all->count; i++) printf(" %" PRIu64 ".%" PRIu64, all->requests[i], all->steps[i]);
    printf(" ticks %" PRIu64 "\n", all->ticked);
    return 1;
}

/* Whether these are requests with odd numbers, in order and whole: how many. */
static bool are_kept(const found *all, uint64_t *many) {
    for (uint64_t i = 0; i < all->count; i++)
        if (all->requests[i] != i / STEPS * 2 + 1 || all->steps[i] != i % STEPS) return false;
    *many = all->count / STEPS;
    return all->count % STEPS == 0;
}

/* The steps of a request, which are there whole or not at all: 1 or 0; else -1. */
static int has_whole(const found *all, uint64_t request) {
    uint64_t steps = 0;
    for (uint64_t i = 0; i < all->count; i++) {
        if (all->requests[i] != request) continue;
        if (all->steps[i] != steps++) return -1;
    }
    return steps == 0 || steps == STEPS ? steps == STEPS : -1;
}

/* Each request that was parked is kept or undecided, and not both. The keys of those with odd numbers are kept, and of no other. */
static int judge_parked(const found *kept, const found *undecided) {
    for (uint64_t request = 1; request <= PARKED; request++) {
        const int is_kept = has_whole(kept, request), is_undecided = has_whole(undecided, request);
        if (is_kept < 0 || is_undecided < 0 || is_kept + is_undecided != 1 || (is_kept == 1 && request % 2 == 0)) {
            say("kept", kept);
            return say("undecided", undecided);
        }
    }
    return kept->count + undecided->count == PARKED * STEPS ? 0 : say("others", kept);
}

static int judge(const char *snap, const char *out, const known *is) {
    static found kept, open_paths;
    static dspec_salvaged told;
    char path[4200];
    uint64_t many, due = (is->decided + 1) / 2;
    if (!dspec_salvage(snap, out, &told)) {
        printf("%s\n", told.why);
        return 1;
    }
    read_events(told.folder, &kept);
    snprintf(path, sizeof path, "%s/kept", out);
    read_events(path, &kept);
    snprintf(path, sizeof path, "%s/undecided", out);
    read_events(path, &open_paths);
    if (is->making == A_KEY) return judge_parked(&kept, &open_paths);
    if (!are_kept(&kept, &many) || many < due || many > due + (is->making == A_KEEP)) return say("kept", &kept);
    if (kept.ticked < is->ticks || kept.ticked > is->ticks + (is->making == A_TICK || is->making == A_SWITCH)) return say("ticks", &kept);
    for (uint64_t i = 0; i < kept.ticked; i++)
        if (kept.ticks[i] != i) return say("which ticks", &kept);
    for (uint64_t i = 0; i < open_paths.count; i++)
        if (open_paths.requests[i] != is->decided + 1 || open_paths.steps[i] != i) return say("open", &open_paths);
    if (open_paths.count > is->records + (is->making == A_RECORD) || open_paths.ticked > 0) return say("too many open", &open_paths);
    if ((is->making == A_ROUND || is->making == A_SWITCH) && open_paths.count == 0) return IS_LACKING;
    if (is->making != A_KEEP && is->making != A_DROP && open_paths.count < is->records) return say("too few open", &open_paths);
    return 0;
}

/* ---- The tracer. ---- */

static void without(const char *folder) {
    static const char *const parts[] = { "kept", "undecided" };
    char path[4200];
    for (size_t part = 0; part < 2; part++) {
        for (int number = 0; number < 2 * FILES; number++) {
            snprintf(path, sizeof path, "%s/%s/cpu_%d_%d", folder, parts[part], number % 2, number / 2);
            unlink(path);
        }
        snprintf(path, sizeof path, "%s/%s/metadata", folder, parts[part]);
        unlink(path);
        snprintf(path, sizeof path, "%s/%s", folder, parts[part]);
        rmdir(path);
    }
    rmdir(folder);
}

static void look(void) {
    extern char **environ;
    char numbers[4][24];
    char *words[] = { names[0], (char *)"judge", names[2], names[3], numbers[0], numbers[1], numbers[2], numbers[3], NULL };
    const uint64_t is[] = { now.decided, now.records, now.ticks, now.making };
    struct stat size;
    pid_t child;
    int status = 1, snap = open(names[2], O_WRONLY | O_CREAT | O_TRUNC, 0600);
    for (int i = 0; i < 4; i++) snprintf(numbers[i], sizeof numbers[i], "%" PRIu64, is[i]);
    if (snap < 0 || fstat(memory, &size) != 0 || size.st_size > (off_t)sizeof copy || pread(memory, copy, (size_t)size.st_size, 0) != size.st_size) _exit(8);
    if (write(snap, copy, (size_t)size.st_size) != size.st_size || close(snap) != 0) _exit(8);
    without(names[3]);
    if (posix_spawn(&child, names[0], NULL, NULL, words, environ) != 0 || waitpid(child, &status, 0) != child) _exit(8);
    judged++;
    lacking += WIFEXITED(status) && WEXITSTATUS(status) == IS_LACKING;
    if (status != 0 && !(WIFEXITED(status) && WEXITSTATUS(status) == IS_LACKING)) {
        char line[160];
        int length = snprintf(line, sizeof line, "after instruction %" PRIu64 ": decided %" PRIu64 ", records %" PRIu64 ", ticks %" PRIu64 ", making %" PRIu64 "\n", instructions, is[0], is[1], is[2], is[3]);
        if (write(1, line, (size_t)length) != length || ++wrong > 20) _exit(7);
    }
}

static void on_step(int signal) {
    (void)signal;
    if (instructions++ % each == 0) look();
}

static inline void step(bool is_on) {
#if defined(__x86_64__)
    if (is_on) __asm__ volatile("pushfq\n\torq $0x100, (%%rsp)\n\tpopfq" ::: "memory", "cc");
    else __asm__ volatile("pushfq\n\tandq $~0x100, (%%rsp)\n\tpopfq" ::: "memory", "cc");
#else
    (void)is_on;
#endif
}

#define STEPPED(MAKING, CALL)  \
    do {                       \
        now.making = (MAKING); \
        step(true);            \
        CALL;                  \
        step(false);           \
        now.making = NOTHING;  \
    } while (0)

static void one_tick(dspec_tracer *tracer) {
    STEPPED(A_TICK, tick_now(tracer, now.ticks));
    now.ticks++;
}

static void one_request(dspec_tracer *tracer, uint64_t number) {
    dspec_path path = dspec_path_begin(tracer);
    bool is_well;
    for (uint32_t at = 0; at < STEPS; at++) {
        STEPPED(A_RECORD, query_in(&path, number, at));
        now.records++;
        if (at == 1) one_tick(tracer);
    }
    if (number % 2 == 1) STEPPED(A_KEEP, is_well = dspec_path_keep(&path));
    else STEPPED(A_DROP, is_well = dspec_path_drop(&path));
    if (!is_well) _exit(6);
    now.records = 0;
    now.decided++;
    one_tick(tracer);
}

static bool opens(const char *folder) {
    char path[4200];
    snprintf(path, sizeof path, "%s-memory", folder);
    memory = open(path, O_RDONLY | O_CLOEXEC);
    return memory >= 0;
}

static bool starts(dspec_tracer *tracer, const char *folder, uint32_t bufsize, uint64_t park_bytes) {
    const dspec_tracer_options options = { .lanes = 1, .paths = 2, .bufsize = bufsize, .specsize = 256, .period_ms = 1000000, .no_crash = true, .no_term = true, .survive = true,
                                           .park_bytes = park_bytes };
    if (!dspec_tracer_start(tracer, folder, &options, DSPEC_PROBES(query, tick))) {
        printf("%s\n", tracer->why);
        return false;
    }
    return opens(folder);
}

static int end(void) {
    printf("%" PRIu64 " instructions, %" PRIu64 " judged, %" PRIu64 " without the open path, %" PRIu64 " wrong\n", instructions, judged, lacking, wrong);
    return wrong > 0 || lacking * 10 > judged;
}

/* ---- The consumer. ---- */

/* A disk that is full; and whether what is given back is looked at closely. */
static bool is_full, gives_closely;
int __real_fallocate(int file, int mode, off_t from, off_t length);
int __wrap_fallocate(int file, int mode, off_t from, off_t length);

int __wrap_fallocate(int file, int mode, off_t from, off_t length) {
    if (!is_full) return __real_fallocate(file, mode, from, length);
    errno = ENOSPC;
    return -1;
}

static void look_each(uint32_t often) {
    if (looks_each != NULL) *(volatile uint32_t *)looks_each = often;
}

dspec_status __real_dspec_put(dspec_cpu *cpu, uint64_t claim, uint64_t stamp, const uint64_t *words, size_t n);
dspec_status __wrap_dspec_put(dspec_cpu *cpu, uint64_t claim, uint64_t stamp, const uint64_t *words, size_t n);

dspec_status __wrap_dspec_put(dspec_cpu *cpu, uint64_t claim, uint64_t stamp, const uint64_t *words, size_t n) {
    dspec_status status;
    look_each(EACH_OF_A_PUT);
    status = __real_dspec_put(cpu, claim, stamp, words, n);
    look_each(0);
    return status;
}

dspec_status __real_dspec_give_back(dspec_consumer *consumer, uint32_t cpu);
dspec_status __wrap_dspec_give_back(dspec_consumer *consumer, uint32_t cpu);

/* The lane that starts first is the program's, with the open path. */
dspec_status __wrap_dspec_give_back(dspec_consumer *consumer, uint32_t cpu) {
    static const dspec_consumer *programs;
    dspec_status status;
    if (programs == NULL) programs = consumer;
    if (gives_closely && consumer == programs) look_each(EACH_OF_A_BATCH);
    status = __real_dspec_give_back(consumer, cpu);
    look_each(0);
    return status;
}

/* Fills a disk, so that a batch waits for it. */
static bool waits_for_disk(dspec_tracer *tracer) {
    is_full = true;
    return !dspec_tracer_flush(tracer, 60000);
}

/* Parks requests, says so, and keeps the keys of those with odd numbers once it is told to. With a full disk those stay parked until there is room. */
static void play_parked(dspec_tracer *tracer, bool finds_full, int to, int from) {
    char word = 0;
    for (uint64_t number = 1; number <= PARKED; number++) {
        dspec_path path = dspec_path_begin(tracer);
        for (uint32_t at = 0; at < STEPS; at++) query_in(&path, number, at);
        if (!dspec_path_key(&path, number, number) || !dspec_path_park(&path)) _exit(6);
    }
    if (write(to, &word, 1) != 1 || read(from, &word, 1) != 1) _exit(6);
    is_full = finds_full;
    for (uint64_t number = 1; number <= PARKED; number += 2) dspec_tracer_keep_key(tracer, number, number);
    if (finds_full && dspec_tracer_flush(tracer, 3600000)) _exit(6);
    is_full = false;
    if (!dspec_tracer_flush(tracer, 3600000) || write(to, &word, 1) != 1) _exit(6);
    pause();
}

/* Makes all requests and the first records of one more, says so, and flushes once it is told to. */
static void play(dspec_tracer *tracer, const char *how, int to, int from) {
    char word = 0;
    for (uint64_t number = 1; number <= REQUESTS + 1; number++) {
        dspec_path path = dspec_path_begin(tracer);
        for (uint32_t at = 0; at < (number > REQUESTS ? 2 : STEPS); at++) query_in(&path, number, at);
        if (number > REQUESTS) break;
        if (number % 2 == 1 ? !dspec_path_keep(&path) : !dspec_path_drop(&path)) _exit(6);
        tick_now(tracer, number - 1);
    }
    gives_closely = strcmp(how, "consumer") == 0;
    if (!gives_closely && !waits_for_disk(tracer)) _exit(6);
    if (write(to, &word, 1) != 1 || read(from, &word, 1) != 1) _exit(6);
    is_full = strcmp(how, "full") == 0;
    if (dspec_tracer_flush(tracer, 3600000) == is_full || write(to, &word, 1) != 1) _exit(6);
    pause();
}

/* Ticks until two had no room: how many there were. */
static void fill(dspec_tracer *tracer) {
    for (int refused = 0; refused < 2;) {
        other->making = A_SWITCH;
        if (tick_now(tracer, other->ticks) == DSPEC_OK) other->ticks++;
        else refused++;
        other->making = NOTHING;
    }
}

/* A request with so many records. */
static dspec_path begun(dspec_tracer *tracer, uint64_t number, uint32_t records) {
    dspec_path path = dspec_path_begin(tracer);
    for (uint32_t at = 0; at < records; at++) {
        other->making = A_RECORD;
        query_in(&path, number, at);
        other->records++;
        other->making = NOTHING;
    }
    return path;
}

/* Decides a request: with an odd number it is kept. */
static void decide(dspec_path *path, uint64_t number) {
    other->making = number % 2 == 1 ? A_KEEP : A_DROP;
    if (number % 2 == 1 ? !dspec_path_keep(path) : !dspec_path_drop(path)) _exit(6);
    other->records = 0;
    other->decided++;
    other->making = NOTHING;
}

/* Makes requests until one more that is kept finds no room, and says so. Once it is told to, it fills what is left, and the other buffer, which nobody writes meanwhile; begins one request more, and
 * says so; and flushes once it is told to again. */
static void play_switched(dspec_tracer *tracer, bool by_keep, int to, int from) {
    uint64_t number = 1;
    dspec_path path;
    char word = 0;
    for (; number <= REQUESTS; number++) {
        path = begun(tracer, number, STEPS);
        decide(&path, number);
    }
    path = begun(tracer, number, STEPS);
    if (write(to, &word, 1) != 1 || read(from, &word, 1) != 1) _exit(6);
    if (by_keep) {
        decide(&path, number);
        path = begun(tracer, number + 1, 2);
    }
    fill(tracer);
    if (write(to, &word, 1) != 1 || read(from, &word, 1) != 1) _exit(6);
    other->making = A_ROUND;
    if (!dspec_tracer_flush(tracer, 3600000) || write(to, &word, 1) != 1) _exit(6);
    pause();
}

/* The thread of a process that isn't its first. */
static pid_t other_thread(pid_t process) {
    char path[64];
    pid_t thread_of = 0;
    DIR *all;
    snprintf(path, sizeof path, "/proc/%d/task", (int)process);
    all = opendir(path);
    for (struct dirent *one; all != NULL && (one = readdir(all)) != NULL;)
        if (atoi(one->d_name) > 0 && atoi(one->d_name) != process) thread_of = atoi(one->d_name);
    if (all != NULL) closedir(all);
    return thread_of;
}

/* Whether a thread has made an instruction; else the pipe says that all is done. */
static bool has_stepped(pid_t thread, int signal, int from, int *status) {
    struct pollfd done = { .fd = from, .events = POLLIN };
    if (ptrace(PTRACE_SINGLESTEP, thread, 0, signal) != 0) return false;
    for (;;) {
        const pid_t stopped = waitpid(thread, status, __WALL | WNOHANG);
        if (stopped != 0) return stopped == thread && WIFSTOPPED(*status);
        if (poll(&done, 1, 0) != 0) return false;
    }
}

/* Whether a thread reads the clock: it begins again where time went on meanwhile, so nobody looks there. */
static bool reads_clock(pid_t thread) {
#if defined(__x86_64__)
    struct user_regs_struct registers;
    return ptrace(PTRACE_GETREGS, thread, 0, &registers) == 0 && registers.rip - getauxval(AT_SYSINFO_EHDR) < 16384;
#else
    return thread == 0;
#endif
}

/* Memory that two processes have. */
static void *shared(size_t size) {
    void *at = mmap(NULL, size, PROT_READ | PROT_WRITE, MAP_SHARED | MAP_ANONYMOUS, -1, 0);
    if (at == MAP_FAILED) _exit(4);
    return at;
}

/* Stops a thread where it is: whether it did. */
static bool stops(pid_t thread) {
    int status = 0;
    return ptrace(PTRACE_INTERRUPT, thread, 0, 0) == 0 && waitpid(thread, &status, __WALL) == thread;
}

/* Tells the process to go on, and looks after each instruction of a thread until it says that it has. */
static bool steps_until_told(pid_t thread, int to, int from, bool asks) {
    int status = 0, signal = 0;
    char word = 0;
    if (write(to, &word, 1) != 1) return false;
    while (has_stepped(thread, signal, from, &status)) {
        const uint64_t closer = *(volatile uint32_t *)looks_each, often = closer > 0 && closer < each ? closer : each;
        signal = WSTOPSIG(status) == SIGTRAP ? 0 : WSTOPSIG(status);
        instructions++;
        if (asks) now = *(known *)other;
        if (instructions % often == 0 && !reads_clock(thread)) look();
    }
    return judged > 0;
}

/* The calls of a thread while the consumer stands still, and then the consumer. */
static bool steps_both(pid_t child, pid_t consumer, int to, int from) {
    char word = 0;
    if (ptrace(PTRACE_SEIZE, child, 0, 0) != 0 || !stops(child) || !steps_until_told(child, to, from, true)) return false;
    if (read(from, &word, 1) != 1 || !stops(child) || ptrace(PTRACE_DETACH, child, 0, 0) != 0) return false;
    now = *(known *)other;
    now.making = A_ROUND;
    return steps_until_told(consumer, to, from, false);
}

static int step_the_consumer(const char *folder, const char *how) {
    static dspec_tracer tracer;
    const bool parks = strncmp(how, "parked", 6) == 0, switches = strncmp(how, "switched", 8) == 0;
    int to[2], from[2], status = 0;
    bool is_done;
    pid_t child, thread;
    char word = 0;
    looks_each = shared(sizeof *looks_each);
    other = shared(sizeof *other);
    if (pipe(to) != 0 || pipe(from) != 0) return 4;
    child = fork();
    if (child == 0) {
        if (!starts(&tracer, folder, switches ? 512 : 4096, parks ? 4096 : 0)) _exit(3);
        if (switches) play_switched(&tracer, strcmp(how, "switched_keep") == 0, from[1], to[0]);
        else if (parks) play_parked(&tracer, strcmp(how, "parked_full") == 0, from[1], to[0]);
        else play(&tracer, how, from[1], to[0]);
        _exit(3);
    }
    close(from[1]);
    if (read(from[0], &word, 1) != 1) return 5;
    now = (known){ REQUESTS, 2, REQUESTS, parks ? A_KEY : A_ROUND };
    thread = other_thread(child);
    if (!opens(folder) || thread == 0 || ptrace(PTRACE_SEIZE, thread, 0, 0) != 0 || !stops(thread)) return 5;
    is_done = switches ? steps_both(child, thread, to[1], from[0]) : steps_until_told(thread, to[1], from[0], false);
    kill(child, SIGKILL);
    while (waitpid(-1, &status, __WALL) > 0) {}
    return is_done ? end() : 5;
}

int main(int count, char **words) {
    static dspec_tracer tracer;
    const struct sigaction trap = { .sa_handler = on_step, .sa_flags = SA_RESTART };
    if (count == 8 && strcmp(words[1], "judge") == 0) {
        const known is = { strtoull(words[4], NULL, 10), strtoull(words[5], NULL, 10), strtoull(words[6], NULL, 10), strtoull(words[7], NULL, 10) };
        return judge(words[2], words[3], &is);
    }
    if (count != 5 && count != 6) return 2;
    names = words;
    each = strtoull(words[4], NULL, 10);
    if (count == 6) return step_the_consumer(words[1], words[5]);
    if (!starts(&tracer, words[1], 4096, 0)) return 3;
    sigaction(SIGTRAP, &trap, NULL);
    for (uint64_t number = 1; number <= REQUESTS; number++) {
        one_request(&tracer, number);
        one_tick(&tracer);
    }
    if (!dspec_tracer_stop(&tracer, NULL)) return 5;
    return end();
}
