/* The files of a program that isn't ours: preloaded, it makes each file a path, from its open to its close, and keeps those of which an
 * operation failed or took long. What was kept is printed when the program ends, and nothing of the others.
 *
 *     cc -std=c11 -shared -fPIC files.c $(pkg-config --cflags --libs dspec) -ldl -lpthread -o files.so
 *     FILES_SLOW=2000 FILES_OUT=kept LD_PRELOAD=./files.so tar -cf archive.tar folder; cat kept.*
 *
 * FILES_SLOW is in microseconds; without it no operation is slow. What is printed goes to FILES_OUT with the process's number after it,
 * or else to standard error; where FILES_TRACE names a folder, what was kept is written to one of that name and the number too, for
 * babeltrace2. An error that asks to try again is none. For Linux with glibc.
 *
 * Threads share LANES CPUs, each under a lock: any CPU may record for any path, so a file may be opened by one thread and closed by
 * another. Who closes a file makes a round over all CPUs, those of threads that sleep or have ended among them. What a signal's handler opens while
 * its thread is in the tracer is counted, not traced; a child of fork traces nothing before it is another program.
 */
#undef _FORTIFY_SOURCE
#define _GNU_SOURCE

#include "dspec_ctf.h"
#include "dspec_probe.h"

#include <dirent.h>
#include <dlfcn.h>
#include <errno.h>
#include <fcntl.h>
#include <inttypes.h>
#include <pthread.h>
#include <stdarg.h>
#include <stdatomic.h>
#include <stdio.h>
#include <stdlib.h>
#include <string.h>
#include <time.h>
#include <unistd.h>

enum { LANES = 8, FILES = 1024 };

/* Each record says of which path it is: a reader finds no other word of that. So a name of more than 48 bytes goes over several. */
DSPEC_PROBE(named, uint64_t, path, dspec_text48, name);
DSPEC_PROBE(done, uint64_t, path, uint64_t, bytes, uint32_t, micros, uint32_t, error, uint8_t, what);
DSPEC_LABELS(done, what, "open", "read", "write", "close");

enum { OPENED, READ, WROTE, CLOSED };
static const char *const WORDS[] = { "open", "read", "write", "close" };

typedef struct lane {
    pthread_mutex_t lock;
    dspec_cpu cpu;
} lane;

/* What stands at a descriptor: a path, 0 for none, and whether it is to be kept. */
typedef struct file {
    _Atomic uint64_t path;
    atomic_bool keep;
} file;

static dspec_schema schema = DSPEC_EMPTY;
static dspec_layout known = { .stamped = true };
static named_probe named;
static done_probe done;
static dspec_session session = DSPEC_EMPTY;
static dspec_consumer consumer = DSPEC_EMPTY;
static lane lanes[LANES];
static pthread_mutex_t round_lock = PTHREAD_MUTEX_INITIALIZER;
static file files[FILES];
static uint64_t slow = UINT64_MAX;
static pid_t owner;
static atomic_bool up;
static atomic_uint threads;
/* Opens of which nothing was recorded: so many files were open, or the tracer itself was interrupted. */
static atomic_ulong untraced;
static _Thread_local unsigned home;
/* Whether this thread is in the tracer; its signals' handlers look. */
static _Thread_local volatile bool inside;

static int (*real_open)(const char *, int, ...);
static int (*real_openat)(int, const char *, int, ...);
static ssize_t (*real_read)(int, void *, size_t);
static ssize_t (*real_write)(int, const void *, size_t);
static int (*real_close)(int);
static int (*real_closedir)(DIR *);
static pthread_once_t once = PTHREAD_ONCE_INIT;

/* ISO C has no way from an object's pointer to a function's. */
static void find(void *function, const char *name) {
    void *found = dlsym(RTLD_NEXT, name);
    if (found == NULL) abort();
    memcpy(function, &found, sizeof found);
}

static void find_all(void) {
    find(&real_open, "open");
    find(&real_openat, "openat");
    find(&real_read, "read");
    find(&real_write, "write");
    find(&real_close, "close");
    find(&real_closedir, "closedir");
}

static uint64_t now(void) {
    struct timespec t;
    clock_gettime(CLOCK_MONOTONIC, &t);
    return (uint64_t)t.tv_sec * 1000000000 + (uint64_t)t.tv_nsec;
}

/* The time in front of a call. A library that is initialized before this one calls already. */
static uint64_t before(void) {
    pthread_once(&once, find_all);
    return now();
}

/* Goes into the tracer, on this thread's lane; none where there is nothing to trace to. What the program sees of errno is as it was. */
static lane *enter(int *saved) {
    if (!atomic_load(&up) || inside) return NULL;
    *saved = errno;
    inside = true;
    if (home == 0) home = atomic_fetch_add(&threads, 1) % LANES + 1;
    lane *l = &lanes[home - 1];
    pthread_mutex_lock(&l->lock);
    return l;
}

static void leave(lane *l, int saved) {
    pthread_mutex_unlock(&l->lock);
    inside = false;
    errno = saved;
}

/* An error that a program has to expect is none. */
static bool failed(int error) { return error != 0 && error != EAGAIN && error != EINTR; }

static uint64_t since(uint64_t begun) { return (now() - begun) / 1000; }

/* An operation of a path; whether it is a reason to keep that. What becomes of the record stands in the report. */
static bool step(lane *l, uint64_t path, int what, uint64_t begun, int64_t result, int error) {
    uint64_t micros = since(begun);
    done_speculate(&done, &l->cpu, path, begun, path, result < 0 ? 0 : (uint64_t)result, micros > UINT32_MAX ? UINT32_MAX : (uint32_t)micros,
                   (uint32_t)error, (uint8_t)what);
    return failed(error) || micros > slow;
}

static void decide(lane *l, uint64_t path, bool keep) {
    uint32_t count;
    if (keep) dspec_commit(&l->cpu, path, &count);
    else dspec_discard(&l->cpu, path, &count);
}

static bool take(pthread_mutex_t *lock, bool waits) { return (waits ? pthread_mutex_lock(lock) : pthread_mutex_trylock(lock)) == 0; }

/* All CPUs settle what was decided, and its slots are free again; called without a lane. One that doesn't wait leaves out what somebody is in. */
static void make_round(bool waits) {
    bool sealed;
    uint32_t count;
    if (!take(&round_lock, waits)) return;
    for (size_t i = 0; i < LANES; i++) {
        if (!take(&lanes[i].lock, waits)) continue;
        dspec_service(&lanes[i].cpu, &sealed, &count);
        pthread_mutex_unlock(&lanes[i].lock);
    }
    dspec_clean(&consumer, &count);
    pthread_mutex_unlock(&round_lock);
}

/* A new path, 0 for none. Where no slot is free one is, after a whole round, unless so many files are open. */
static uint64_t new_path(lane *l) {
    uint64_t path;
    if (dspec_speculation(&l->cpu, &path) == DSPEC_OK) return path;
    pthread_mutex_unlock(&l->lock);
    make_round(true);
    pthread_mutex_lock(&l->lock);
    return dspec_speculation(&l->cpu, &path) == DSPEC_OK ? path : 0;
}

/* A text in as many records as it takes. */
static void record_text(lane *l, uint64_t path, uint64_t begun, const char *text, size_t length) {
    for (size_t at = 0, piece; at < length; at += piece) {
        piece = dspec_text_piece(text + at, length - at, sizeof(dspec_text48));
        named_speculate(&named, &l->cpu, path, begun, path, dspec_text48_of(text + at, piece));
    }
}

/* A file's name, after that of the folder where it is told from there. */
static void record_name(lane *l, uint64_t path, uint64_t begun, int folder, const char *name) {
    if (folder != AT_FDCWD && name[0] != '/') {
        char link[32], of[4096];
        snprintf(link, sizeof link, "/proc/self/fd/%d", folder);
        ssize_t length = readlink(link, of, sizeof of - 1);
        if (length > 0) {
            of[length] = '/';
            record_text(l, path, begun, of, (size_t)length + 1);
        }
    }
    record_text(l, path, begun, name, strlen(name));
}

static void opened(int folder, const char *name, int fd, uint64_t begun) {
    int saved = errno, error = fd < 0 ? errno : 0;
    lane *l = fd < FILES ? enter(&saved) : NULL;
    if (l == NULL) {
        if (atomic_load(&up)) atomic_fetch_add(&untraced, 1);
        return;
    }
    uint64_t path = new_path(l);
    if (path == 0) {
        atomic_fetch_add(&untraced, 1);
    } else {
        record_name(l, path, begun, folder, name);
        bool keep = step(l, path, OPENED, begun, 0, error);
        if (fd < 0) {
            decide(l, path, keep);
        } else {
            /* What stands there was closed by a call that isn't seen. */
            uint64_t last = atomic_exchange(&files[fd].path, path);
            bool kept = atomic_exchange(&files[fd].keep, keep);
            if (last != 0) decide(l, last, kept);
        }
    }
    leave(l, saved);
}

static void moved(int fd, int what, ssize_t result, uint64_t begun) {
    int saved = errno, error = result < 0 ? errno : 0;
    uint64_t path = fd >= 0 && fd < FILES ? atomic_load(&files[fd].path) : 0;
    lane *l = path != 0 ? enter(&saved) : NULL;
    if (l == NULL) return;
    if (step(l, path, what, begun, result, error)) atomic_store(&files[fd].keep, true);
    leave(l, saved);
}

/* Takes the path away from a descriptor before that is closed, since another thread may be given its number at once. */
static uint64_t taken(int fd, bool *keep) {
    if (fd < 0 || fd >= FILES || inside || !atomic_load(&up)) return 0;
    uint64_t path = atomic_exchange(&files[fd].path, 0);
    *keep = path != 0 && atomic_exchange(&files[fd].keep, false);
    return path;
}

static void closed(uint64_t path, bool keep, int result, uint64_t begun) {
    int saved = errno, error = result < 0 ? errno : 0;
    lane *l = path != 0 ? enter(&saved) : NULL;
    if (l == NULL) return;
    if (step(l, path, CLOSED, begun, 0, error)) keep = true;
    decide(l, path, keep);
    pthread_mutex_unlock(&l->lock);
    make_round(false);
    inside = false;
    errno = saved;
}

/* ---- What the program calls. ---- */

/* The mode, where there is one after the flags. */
#define MODE(flags, mode)                                                   \
    mode_t mode = 0;                                                        \
    if (((flags) & O_CREAT) != 0 || ((flags) & O_TMPFILE) == O_TMPFILE) {   \
        va_list rest;                                                       \
        va_start(rest, flags);                                              \
        mode = va_arg(rest, mode_t);                                        \
        va_end(rest);                                                       \
    }

int open(const char *name, int flags, ...) {
    MODE(flags, mode)
    uint64_t begun = before();
    int fd = real_open(name, flags, mode);
    opened(AT_FDCWD, name, fd, begun);
    return fd;
}

int openat(int folder, const char *name, int flags, ...) {
    MODE(flags, mode)
    uint64_t begun = before();
    int fd = real_openat(folder, name, flags, mode);
    opened(folder, name, fd, begun);
    return fd;
}

ssize_t read(int fd, void *bytes, size_t count) {
    uint64_t begun = before();
    ssize_t result = real_read(fd, bytes, count);
    moved(fd, READ, result, begun);
    return result;
}

ssize_t write(int fd, const void *bytes, size_t count) {
    uint64_t begun = before();
    ssize_t result = real_write(fd, bytes, count);
    moved(fd, WROTE, result, begun);
    return result;
}

int close(int fd) {
    bool keep = false;
    uint64_t begun = before(), path = taken(fd, &keep);
    int result = real_close(fd);
    closed(path, keep, result, begun);
    return result;
}

int closedir(DIR *folder) {
    bool keep = false;
    uint64_t begun = before(), path = taken(dirfd(folder), &keep);
    int result = real_closedir(folder);
    closed(path, keep, result, begun);
    return result;
}

int creat(const char *name, mode_t mode) { return open(name, O_CREAT | O_WRONLY | O_TRUNC, mode); }

/* The names that a program has for the same, by how it was compiled. */
int __open_2(const char *name, int flags);
int __openat_2(int folder, const char *name, int flags);
ssize_t __read_chk(int fd, void *bytes, size_t count, size_t room);
int __open_2(const char *name, int flags) { return open(name, flags); }
int __openat_2(int folder, const char *name, int flags) { return openat(folder, name, flags); }
ssize_t __read_chk(int fd, void *bytes, size_t count, size_t room) {
    if (count > room) abort();
    return read(fd, bytes, count);
}
int open64(const char *name, int flags, ...) __attribute__((alias("open")));
int openat64(int folder, const char *name, int flags, ...) __attribute__((alias("openat")));
int creat64(const char *name, mode_t mode) __attribute__((alias("creat")));
int __open64_2(const char *name, int flags) __attribute__((alias("__open_2")));
int __openat64_2(int folder, const char *name, int flags) __attribute__((alias("__openat_2")));

/* ---- The end. ---- */

/* A record, and how many were read in front of it: a CPU's are in their order. */
typedef struct one_of {
    dspec_record record;
    size_t at;
} one_of;

/* By path; of that its name in front, then what was done. */
static int by_path(const void *one, const void *other) {
    const one_of *a = one, *b = other;
    const dspec_record *x = &a->record, *y = &b->record;
    if (x->values[0] != y->values[0]) return x->values[0] < y->values[0] ? -1 : 1;
    if (x->epid != y->epid) return x->epid == named.epid ? -1 : 1;
    if (x->stamp != y->stamp) return x->stamp < y->stamp ? -1 : 1;
    return a->at < b->at ? -1 : 1;
}

/* A line for each path: its name, and what was done. */
static void print(FILE *out, const one_of *all, size_t count) {
    named_values name;
    done_values of;
    for (size_t i = 0; i < count; i++) {
        const dspec_record *one = &all[i].record, *last = i == 0 ? NULL : &all[i - 1].record;
        if (last != NULL && one->values[0] != last->values[0]) fputc('\n', out);
        if (named_read(&named, one, &name)) {
            const dspec_text text = dspec_text48_in(&name.name);
            fprintf(out, "%.*s", (int)text.len, text.bytes);
        } else if (done_read(&done, one, &of)) {
            fprintf(out, "%s %s", last != NULL && last->epid == named.epid ? ":" : ",", WORDS[of.what & 3]);
            if (of.what == READ || of.what == WROTE) fprintf(out, " %" PRIu64 " bytes", of.bytes);
            fprintf(out, " %" PRIu32 " us", of.micros);
            if (of.error != 0) fprintf(out, " (%s)", strerror((int)of.error));
        }
    }
    if (count > 0) fputc('\n', out);
}

/* What all CPUs kept; it stood in their buffers until now, since nobody asked for a batch. */
static size_t kept(dspec_closed *closed, one_of **all) {
    dspec_batch batch;
    size_t count = 0, room = 0;
    for (uint32_t i = 0; i < LANES; i++) {
        size_t at = 0;
        dspec_record one;
        if (dspec_rest(closed, i, true, &batch) != DSPEC_OK) continue;
        while (dspec_read(&known, batch.bytes, batch.len, &at, &one) == DSPEC_READ) {
            if (count == room) {
                room = 2 * room + 64;
                one_of *more = realloc(*all, room * sizeof **all);
                if (more == NULL) return count;
                *all = more;
            }
            (*all)[count] = (one_of){ one, count };
            count++;
        }
    }
    return count;
}

static void report(FILE *out, dspec_closed *closed) {
    dspec_report sum = { 0 }, one;
    for (uint32_t i = 0; i < LANES; i++) {
        if (dspec_closed_report(closed, i, &one) != DSPEC_OK) continue;
        sum.offered += one.offered;
        sum.accepted += one.accepted;
        sum.dropped += one.dropped;
        sum.specdropped += one.specdropped;
        sum.lost += one.lost;
        sum.discarded += one.discarded;
        sum.void_ += one.void_;
        sum.held += one.held;
    }
    fprintf(out, "offered %" PRIu64 " = accepted %" PRIu64 " + dropped %" PRIu64 " + specdropped %" PRIu64 " + lost %" PRIu64, sum.offered,
            sum.accepted, sum.dropped, sum.specdropped, sum.lost);
    fprintf(out, " + discarded %" PRIu64 " + void %" PRIu64 " + held %" PRIu64 "; untraced opens %lu\n", sum.discarded, sum.void_, sum.held,
            atomic_load(&untraced));
}

/* The calls of the program are traced no more, and each lane is waited for. Files that are open are decided as they stand. */
static void stop(void) {
    for (int i = 0; i < FILES; i++) {
        int saved;
        lane *l = atomic_load(&files[i].path) != 0 ? enter(&saved) : NULL;
        if (l == NULL) continue;
        decide(l, atomic_exchange(&files[i].path, 0), atomic_load(&files[i].keep));
        leave(l, saved);
    }
    atomic_store(&up, false);
    inside = true;
    /* Nobody makes a round any more. */
    pthread_mutex_lock(&round_lock);
    for (size_t i = 0; i < LANES; i++) {
        pthread_mutex_lock(&lanes[i].lock);
        dspec_cpu_home(&lanes[i].cpu);
        pthread_mutex_unlock(&lanes[i].lock);
    }
    dspec_consumer_home(&consumer);
}

/* What was kept, as a trace in a folder, whose names are those of the probes. */
static void write_trace(const char *prefix, dspec_closed *closed) {
    static dspec_folder folder;
    static dspec_names names;
    dspec_identity identity;
    char host[DSPEC_HOST_SIZE], path[4096];
    snprintf(path, sizeof path, "%s.%d", prefix, (int)owner);
    named_name(&names);
    done_name(&names);
    if (!dspec_identity_of_system(&identity, "files", host)) fprintf(stderr, "files: the system's clock or name isn't known\n");
    else if (!dspec_folder_begin(&folder, path, &schema, LANES, &identity, &names) || !dspec_folder_close(&folder, &known, closed))
        fprintf(stderr, "files: %s\n", dspec_folder_why(&folder));
}

__attribute__((destructor)) static void end(void) {
    dspec_closed closed = DSPEC_EMPTY;
    one_of *all = NULL;
    const char *prefix = getenv("FILES_OUT"), *trace = getenv("FILES_TRACE");
    FILE *out = stderr;
    char name[4096];
    if (!atomic_load(&up) || inside || getpid() != owner) return;
    stop();
    if (dspec_finish(&session, &closed) != DSPEC_OK) return;
    if (prefix != NULL) {
        snprintf(name, sizeof name, "%s.%d", prefix, (int)owner);
        out = fopen(name, "we");
    }
    if (out == NULL) return;
    size_t count = kept(&closed, &all);
    if (count > 0) qsort(all, count, sizeof *all, by_path);
    print(out, all, count);
    report(out, &closed);
    fflush(out);
    if (trace != NULL) write_trace(trace, &closed);
    free(all);
    dspec_schema_drop(&schema);
    dspec_closed_drop(&closed);
}

static void child(void) { atomic_store(&up, false); }

__attribute__((constructor)) static void begin(void) {
    dspec_config config = {
        .cpus = LANES, .nspec = 63, .bufsize = DSPEC_MAX_BUFFER, .specsize = 16384, .max_issues = DSPEC_MAX_ISSUES, .max_calls = DSPEC_MAX_CALLS
    };
    const char *limit = getenv("FILES_SLOW");
    pthread_once(&once, find_all);
    if (limit != NULL) slow = strtoull(limit, NULL, 10);
    inside = true;
    dspec_status status = dspec_schema_new(&schema);
    if (status == DSPEC_OK) status = dspec_schema_stamp(&schema);
    if (status == DSPEC_OK) status = named_enable(&named, &known, &schema);
    if (status == DSPEC_OK) status = done_enable(&done, &known, &schema);
    if (status == DSPEC_OK) status = dspec_start(&config, &schema, &session);
    if (status == DSPEC_OK) status = dspec_consumer_of(&session, &consumer);
    for (uint32_t i = 0; i < LANES && status == DSPEC_OK; i++) {
        pthread_mutex_init(&lanes[i].lock, NULL);
        status = dspec_cpu_of(&session, i, &lanes[i].cpu);
    }
    inside = false;
    owner = getpid();
    if (status != DSPEC_OK) fprintf(stderr, "files: %s\n", dspec_status_text(status));
    else if (pthread_atfork(NULL, NULL, child) == 0) atomic_store(&up, true);
}
