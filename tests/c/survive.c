/* A tracer whose memory outlives its process, in all that may become of it: `survive HOW FOLDER [WORD ..]`, which tests/c/tracer plays and looks at. Most of them kill themselves. */
#define _GNU_SOURCE
#include "dspec/tracer_record.h"
#include "forbid.h"

#include <fcntl.h>
#include <inttypes.h>
#include <pthread.h>
#include <semaphore.h>
#include <signal.h>
#include <stdio.h>
#include <stdlib.h>
#include <string.h>
#include <sys/mman.h>
#include <sys/resource.h>
#include <sys/stat.h>
#include <sys/wait.h>
#include <unistd.h>

DSPEC_PROBE(query, uint64_t, request, uint32_t, step);
DSPEC_PROBE(said, dspec_text16, what, float, share, uint8_t, outcome);
DSPEC_LABELS(said, outcome, "done", "aborted [2]");

static dspec_tracer tracer;
static dspec_tracer_options options = { .survive = true, .lanes = 4, .crash_ms = 60000 };
static const char *folder;
static char **words;

static bool starts(void) { return dspec_tracer_start(&tracer, folder, &options, DSPEC_PROBES(query, said)); }

static void up(void) {
    if (!starts()) {
        printf("refused: %s\n", tracer.why);
        exit(3);
    }
    if (tracer.why[0] != 0) printf("note: %s\n", tracer.why);
}

/* So many requests of five records each are kept: how many that was answered of. */
static uint64_t keep(uint64_t from, uint64_t count) {
    uint64_t kept = 0;
    for (uint64_t request = from; request < from + count; request++) {
        dspec_path path = dspec_path_begin(&tracer);
        for (uint32_t step = 0; step < 5; step++) query_in(&path, request, step);
        kept += dspec_path_keep(&path);
    }
    return kept;
}

static int stop(void) {
    dspec_tracer_report report;
    const bool is_whole = dspec_tracer_stop(&tracer, &report);
    printf("whole=%d accepted=%" PRIu64 " why=%s\n", is_whole, report.accepted, report.why);
    return is_whole ? 0 : 4;
}

static int end_by_kill(void) {
    fflush(stdout);
    kill(getpid(), SIGKILL);
    return 9;
}

static int how_kept(void) {
    up();
    printf("kept=%" PRIu64 "\n", keep(0, 100));
    return end_by_kill();
}

/* Of paths that have no room for their events the last one leaves none in the buffer either, so that its lane owes that. */
static int how_owes(void) {
    options.lanes = 1;
    options.specsize = 160;
    options.bufsize = 4096;
    options.period_ms = 1000000;
    up();
    printf("kept=%" PRIu64 "\n", keep(0, 19));
    return end_by_kill();
}

/* Two lanes with all that a memory may have: paths that the folder has, that it doesn't have, and that are open, one of them with texts and labels, and records of no path. */
static int how_full_of_kinds(void) {
    dspec_path path;
    options = (dspec_tracer_options){ .survive = true, .lanes = 2, .paths = 4, .bufsize = 1024, .specsize = 256, .period_ms = 1000000, .keep_last = true };
    up();
    keep(0, 7);
    if (!dspec_tracer_flush(&tracer, 60000)) return 5;
    keep(7, 4);
    query_now(&tracer, 20, 0);
    for (uint64_t request = 30; request < 32; request++) {
        path = dspec_path_begin(&tracer);
        for (uint32_t step = 0; step < 20; step++) query_in(&path, request, step);
        said_in(&path, dspec_text16_of("a text", 6), 0.5F, 1);
    }
    return end_by_kill();
}

/* The request that hangs, while another process looks. */
static int how_hangs(void) {
    up();
    keep(0, 10);
    dspec_path path = dspec_path_begin(&tracer);
    for (uint32_t step = 0; step < 3; step++) query_in(&path, 77, step);
    printf("up\n");
    fflush(stdout);
    pause();
    return 0;
}

static void *keeps_more(void *unused) {
    if (keep(100, 100) != 100) _exit(5);
    return unused;
}

/* A child outlives the process, in which another thread comes after the fork. */
static int how_child(void) {
    pid_t child;
    pthread_t thread;
    int ends[2];
    char byte;
    options.period_ms = 1000000;
    up();
    keep(0, 100);
    if (pipe2(ends, O_CLOEXEC) != 0) return 5;
    child = strcmp(words[0], "_Fork") == 0 ? _Fork() : strcmp(words[0], "vfork") == 0 ? vfork() : fork();
    if (child == 0) {
        close_range(1, 2, 0); /* who reads what this prints doesn't wait for the child */
        close(ends[1]);
        execlp(strcmp(words[0], "vfork") == 0 ? "sleep" : "", "sleep", "60", (char *)NULL);
        pause();
        _exit(0);
    }
    close(ends[1]);
    if (read(ends[0], &byte, 1) != 0) return 5; /* what the child does at the fork is done */
    close(ends[0]);
    if (pthread_create(&thread, NULL, keeps_more, NULL) != 0 || pthread_join(thread, NULL) != 0) return 5;
    printf("child=%d\n", (int)child);
    return end_by_kill();
}

static void limit_files(rlim_t bytes) {
    const struct rlimit limit = { bytes, RLIM_INFINITY };
    setrlimit(RLIMIT_FSIZE, &limit);
}

static int how_limit(void) {
    limit_files(strtoul(words[0], NULL, 10));
    if (starts()) return 5;
    limit_files(RLIM_INFINITY);
    printf("refused: %s\n", tracer.why);
    return 0;
}

/* What is written beyond a limit is lost, and counted. */
static int how_lost(void) {
    up();
    if (!dspec_tracer_flush(&tracer, 60000)) return 5;
    limit_files(1);
    keep(0, 100);
    printf("flush=%d\n", dspec_tracer_flush(&tracer, 60000));
    limit_files(RLIM_INFINITY);
    return end_by_kill();
}

/* Takes all that the disk has; and where a word more says so, gives that back later. */
static int filler;

static void fill_disk(void) {
    static char bytes[4096];
    filler = open(words[0], O_CREAT | O_WRONLY, 0600);
    while (write(filler, bytes, sizeof bytes) > 0 || write(filler, bytes, 1) > 0) {}
}

static int end_with_room(void) {
    if (words[1] == NULL) return end_by_kill();
    unlink(words[0]);
    close(filler);
    printf("flush=%d\n", dspec_tracer_flush(&tracer, 60000));
    return end_by_kill();
}

/* A disk that gets full. */
static int how_full(void) {
    up();
    fill_disk();
    printf("kept=%" PRIu64, keep(0, 100));
    printf(" flush=%d\n", dspec_tracer_flush(&tracer, 60000));
    return end_with_room();
}

/* So many requests of five records each are parked, from the youngest to the oldest. */
static uint64_t park(uint32_t count) {
    uint64_t parked = 0;
    for (uint32_t request = count; request-- > 0;) {
        dspec_path path = dspec_path_begin(&tracer);
        for (uint32_t step = 0; step < 5; step++) query_in(&path, request, step);
        parked += dspec_path_key(&path, 7, request) && dspec_path_park(&path);
    }
    return parked;
}

/* Gives back so many bytes of what was taken of the disk: whether there are any. */
static bool empty_disk(off_t bytes) {
    struct stat is;
    return fstat(filler, &is) == 0 && is.st_size >= bytes && ftruncate(filler, is.st_size - bytes) == 0;
}

/* The keys of parked paths are told as the disk has no more than two pages. Then it gets one after the other, so that there is just enough room at some time. */
static int how_full_beside_parked(void) {
    enum { A_PAGE = 4096 };
    bool is_there;
    options.park_bytes = 65536;
    options.park_ms = 3600000;
    up();
    printf("parked=%" PRIu64, park(100));
    fill_disk();
    if (!empty_disk(2 * A_PAGE)) return 5;
    for (uint32_t request = 0; request < 100; request++) dspec_tracer_keep_key(&tracer, 7, request);
    printf(" flush=%d\n", dspec_tracer_flush(&tracer, 60000));
    if (words[1] == NULL) return end_by_kill();
    do is_there = dspec_tracer_flush(&tracer, 60000);
    while (!is_there && empty_disk(A_PAGE));
    printf("flush=%d\n", is_there);
    return end_by_kill();
}

/* It is killed when its second write of packets has ended, which nobody has noted yet: the linker's --wrap leads each write through here. */
ssize_t __real_write(int file, const void *bytes, size_t len);
ssize_t __wrap_write(int file, const void *bytes, size_t len);
static _Atomic int writes_left;
static size_t least_write = 4096;

ssize_t __wrap_write(int file, const void *bytes, size_t len) {
    const ssize_t count = __real_write(file, bytes, len);
    if (len >= least_write && writes_left > 0 && --writes_left == 0) kill(getpid(), SIGKILL);
    return count;
}

/* It is killed in its start, when the head of its memory is there, and the consumer isn't. */
int __real_pthread_create(pthread_t *thread, const pthread_attr_t *attributes, void *(*run)(void *), void *with);
int __wrap_pthread_create(pthread_t *thread, const pthread_attr_t *attributes, void *(*run)(void *), void *with);
static bool dies_in_start;

int __wrap_pthread_create(pthread_t *thread, const pthread_attr_t *attributes, void *(*run)(void *), void *with) {
    if (dies_in_start) kill(getpid(), SIGKILL);
    return __real_pthread_create(thread, attributes, run, with);
}

static int how_unmade(void) {
    dies_in_start = true;
    up();
    return 5;
}

/* The first address that the memory may have is another's, and the system is one that maps it elsewhere then. */
void *__real_mmap(void *at, size_t size, int protection, int flags, int file, off_t from);
void *__wrap_mmap(void *at, size_t size, int protection, int flags, int file, off_t from);
static uint32_t elsewhere, given_back;
static void *stray;

void *__wrap_mmap(void *at, size_t size, int protection, int flags, int file, off_t from) {
    if (elsewhere == 0 || !(flags & MAP_FIXED_NOREPLACE)) return __real_mmap(at, size, protection, flags, file, from);
    elsewhere--;
    stray = __real_mmap(NULL, size, protection, flags & ~MAP_FIXED_NOREPLACE, file, from);
    return stray;
}

int __real_munmap(void *at, size_t size);
int __wrap_munmap(void *at, size_t size);

int __wrap_munmap(void *at, size_t size) {
    given_back += at == stray;
    return __real_munmap(at, size);
}

static int how_elsewhere(void) {
    elsewhere = 1;
    up();
    printf("elsewhere=%d given_back=%u kept=%" PRIu64 "\n", stray != NULL, given_back, keep(0, 10));
    return end_by_kill();
}

static int how_writes(void) {
    options.lanes = 1;
    up();
    writes_left = 2;
    for (uint64_t request = 0; request < 1000000; request += 100) {
        keep(request, 100);
        usleep(1000);
    }
    return 5;
}

/* It is killed when the packets of parked paths are written, whose keys were kept, and nobody has noted that. */
static int how_keeps(void) {
    options.lanes = 1;
    options.park_bytes = 65536;
    options.period_ms = 1000000;
    up();
    keep(100, 5);
    if (!dspec_tracer_flush(&tracer, 600000)) return 5;
    for (uint32_t request = 0; request < 60; request++) {
        dspec_path path = dspec_path_begin(&tracer);
        for (uint32_t step = 0; step < 5; step++) query_in(&path, request, step);
        dspec_path_key(&path, 7, request);
        dspec_path_park(&path);
    }
    least_write = 1024;
    writes_left = 1;
    for (uint32_t request = 0; request < 60; request++)
        if (request % 3 != 0) dspec_tracer_keep_key(&tracer, 7, request);
    dspec_tracer_flush(&tracer, 60000);
    return 5;
}

/* A program changes where or who it is, and stops. */
static int how_moves(void) {
    if (words[1] != NULL) options.max_bytes = 3000000;
    up();
    keep(0, 10);
    if (strcmp(words[0], "chdir") == 0 && chdir("/") != 0) return 5;
    if (strcmp(words[0], "chroot") == 0 && (chroot("/var") != 0 || chdir("/") != 0)) return 5;
    if (strcmp(words[0], "setuid") == 0 && (setgid(65534) != 0 || setuid(65534) != 0)) return 5;
    if (strcmp(words[0], "close") == 0) close_range(3, ~0U, 0);
    return stop();
}

/* Another file has the memory's name meanwhile. */
static int how_replaced(void) {
    char name[4200], moved[4200];
    int file;
    snprintf(name, sizeof name, "%s-memory", folder);
    snprintf(moved, sizeof moved, "%s-moved", folder);
    up();
    if (rename(name, moved) != 0) return 5;
    file = open(name, O_CREAT | O_EXCL | O_WRONLY, 0600);
    if (file < 0 || write(file, "mine", 4) != 4) return 5;
    close(file);
    return stop();
}

/* Its lock goes with its descriptors; it goes on. */
static int how_closes(void) {
    up();
    close_range(3, ~0U, 0);
    printf("up\n");
    fflush(stdout);
    pause();
    return 0;
}

static int how_refused(void) {
    printf("%s\n", starts() ? "started" : tracer.why);
    return tracer.body != NULL ? 5 : 0;
}

/* It reads its own memory, which is refused, and is in use afterwards. */
static int how_itself(void) {
    static dspec_salvaged told;
    static dspec_tracer other;
    char file[4200], out[4200];
    up();
    snprintf(file, sizeof file, "%s-memory", folder);
    snprintf(out, sizeof out, "%s.out", folder);
    printf("salvage=%d %s\n", dspec_salvage(file, out, &told), told.why);
    printf("start=%d", dspec_tracer_start(&other, folder, &options, DSPEC_PROBES(query, said)));
    printf(" %s\nup\n", other.why);
    fflush(stdout);
    pause();
    return 0;
}

/* A crash that leaves nothing unwritten, or where another thread has a path open. */
static sem_t is_open;
static void *opens(void *unused) {
    dspec_path path = dspec_path_begin(&tracer);
    query_in(&path, 5, 0);
    sem_post(&is_open);
    pause();
    return unused;
}

/* A thread that stays in a record of no path, by the lock of its lane, from the moment on in which a signal finds it there. */
static sem_t is_there, stays;

static void stay(int signal) {
    const dspec_tracer_lane *last = dspec_tracer_seat_of_(&tracer)->last;
    int value;
    (void)signal;
    if (sem_getvalue(&is_there, &value) != 0 || value > 0 || last == NULL || !(__atomic_load_n(&last->state, __ATOMIC_SEQ_CST) & DSPEC_TRACER_HELD_) || query_now(&tracer, 1, 1) != DSPEC_BUSY) return;
    sem_post(&is_there);
    while (sem_wait(&stays) != 0) {}
}

static void *records(void *unused) {
    for (;;) query_now(&tracer, 1, 0);
    return unused;
}

/* A crash beside such a thread, whose record isn't in the folder. */
static int how_held(void) {
    const struct sigaction action = { .sa_handler = stay };
    const struct rlimit none = { 0, 0 };
    static int *volatile nowhere;
    pthread_t other;
    int value = 0;
    if (!forbid_barriers()) {
        printf("no system call can be forbidden here: left out\n");
        return 5;
    }
    setrlimit(RLIMIT_CORE, &none);
    sem_init(&is_there, 0, 0);
    sem_init(&stays, 0, 0);
    sigaction(SIGUSR1, &action, NULL);
    up();
    if (pthread_create(&other, NULL, records, NULL) != 0) return 5;
    while (sem_getvalue(&is_there, &value) == 0 && value == 0) {
        pthread_kill(other, SIGUSR1);
        usleep(100);
    }
    dspec_path path = dspec_path_begin(&tracer);
    query_in(&path, 77, 0);
    fflush(stdout);
    *nowhere = 1;
    return 5;
}

/* A stack for handlers of the size that programs give it, at whose end there is nothing. */
static void make_small_stack(void) {
    enum { SIZE = 8192, APART = 65536 };
    char *at = mmap(NULL, APART + SIZE, PROT_NONE, MAP_PRIVATE | MAP_ANONYMOUS, -1, 0);
    const stack_t small = { .ss_sp = at + APART, .ss_size = SIZE };
    if (at == MAP_FAILED || mprotect(at + APART, SIZE, PROT_READ | PROT_WRITE) != 0 || sigaltstack(&small, NULL) != 0) exit(5);
}

/* `again`: with a second tracer, after the program has set the signal to its default. `small`: on a small stack. */
static int how_crashes(void) {
    static int *volatile nowhere;
    const bool is_again = words[0] != NULL && strcmp(words[0], "again") == 0, is_small = words[0] != NULL && strcmp(words[0], "small") == 0;
    pthread_t other;
    struct rlimit none = { 0, 0 };
    setrlimit(RLIMIT_CORE, &none);
    if (is_again) {
        up();
        signal(SIGSEGV, SIG_DFL);
        dspec_tracer_stop(&tracer, NULL);
        dspec_tracer_drop(&tracer);
        folder = words[1];
    }
    if (is_small) make_small_stack();
    up();
    keep(0, 10);
    if (words[0] != NULL && !is_again && !is_small && pthread_create(&other, NULL, opens, NULL) == 0) sem_wait(&is_open);
    dspec_path path = dspec_path_begin(&tracer);
    query_in(&path, 77, 0);
    if (is_small) abort();
    *nowhere = 1;
    return 5;
}

/* Three paths are parked and one is open, each with its key; one that was parked is kept. */
static int how_parked(void) {
    options.park_bytes = 65536;
    up();
    for (uint32_t request = 1; request <= 5; request++) {
        dspec_path path = dspec_path_begin(&tracer);
        for (uint32_t step = 0; step < 5; step++) query_in(&path, request, step);
        dspec_path_key(&path, 7, request);
        if (request != 5) dspec_path_park(&path);
    }
    dspec_tracer_keep_key(&tracer, 7, 2);
    if (!dspec_tracer_flush(&tracer, 600000)) return 5;
    return end_by_kill();
}

int main(int count, char **all) {
    static const struct {
        const char *name;
        int (*run)(void);
    } hows[] = {
        { "kept", how_kept }, { "hangs", how_hangs }, { "child", how_child }, { "limit", how_limit }, { "lost", how_lost }, { "full", how_full }, { "writes", how_writes },
        { "moves", how_moves }, { "closes", how_closes }, { "refused", how_refused }, { "itself", how_itself }, { "crashes", how_crashes }, { "owes", how_owes }, { "kinds", how_full_of_kinds },
        { "unmade", how_unmade }, { "elsewhere", how_elsewhere }, { "replaced", how_replaced }, { "held", how_held }, { "parked", how_parked },
        { "keeps", how_keeps }, { "full_beside_parked", how_full_beside_parked },
    };
    if (count < 3) return 2;
    folder = all[2];
    words = all + 3;
    for (size_t i = 0; i < sizeof hows / sizeof hows[0]; i++)
        if (strcmp(hows[i].name, all[1]) == 0) return hows[i].run();
    return 2;
}
