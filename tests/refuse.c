/* Loaded in front of a program's C library (LD_PRELOAD): refuses one growth of memory, or fails one read or one write, so that
   what a program then answers is seen without another build of it. REFUSE_KIND says what: `growth`, `growths` (that one and
   all later ones), `read`, `write` or `threads` (that one and all later ones); a `yield` is only told, since it can't be refused.
   REFUSE_AT is its number, counted from 1. `interrupts` has each second write interrupted by a signal, so to say.
   REFUSE_TOLD names a file that is made once anything was refused; where it isn't made, there was none left to refuse. Where REFUSE_BYTES is set, each read gives one
   byte and each write takes one. The toolchain's own compiler compiles it (`tests/refuse`); that has no headers, so this file
   declares what it calls. */
typedef unsigned long size;

extern void *__libc_malloc(size bytes);
extern void *__libc_realloc(void *held, size bytes);
extern long __read(int file, void *bytes, size count);
extern long __write(int file, const void *bytes, size count);
extern int __sched_yield(void);
extern int *__errno_location(void);
extern char *getenv(const char *name);
extern int strcmp(const char *one, const char *other);
extern unsigned long strtoul(const char *text, char **end, int base);
extern int creat(const char *path, unsigned mode);
extern int close(int file);
extern void *dlsym(void *library, const char *name);

enum { INTERRUPTED = 4, INPUT_OUTPUT = 5, TRY_AGAIN = 11, NO_MEMORY = 12 };
typedef int (*create)(unsigned long *thread, const void *attributes, void *(*begin)(void *), void *argument);

static const char *kind = "";
static unsigned long at;
static int by_bytes;
static unsigned long growths;
static unsigned long reads;
static unsigned long writes;
static unsigned long yields;
static unsigned long threads;

__attribute__((constructor)) static void begin(void) {
    const char *number = getenv("REFUSE_AT");
    kind = getenv("REFUSE_KIND") ? getenv("REFUSE_KIND") : "";
    at = number ? strtoul(number, 0, 10) : 0;
    by_bytes = getenv("REFUSE_BYTES") != 0;
}

static int refuses(const char *this_kind, unsigned long number) {
    const char *told = getenv("REFUSE_TOLD");
    int is_due = strcmp(kind, "growths") == 0 || strcmp(kind, "threads") == 0 ? number >= at : number == at;
    if (strcmp(kind, this_kind) != 0 || !is_due) {
        return 0;
    }
    if (told) {
        close(creat(told, 0666));
    }
    return 1;
}

static int grows(void) {
    growths++;
    if (refuses("growth", growths) || refuses("growths", growths)) {
        *__errno_location() = NO_MEMORY;
        return 0;
    }
    return 1;
}

void *malloc(size bytes) {
    return grows() ? __libc_malloc(bytes) : 0;
}

void *realloc(void *held, size bytes) {
    return grows() ? __libc_realloc(held, bytes) : 0;
}

long read(int file, void *bytes, size count) {
    reads++;
    if (refuses("read", reads)) {
        *__errno_location() = INPUT_OUTPUT;
        return -1;
    }
    return __read(file, bytes, by_bytes && count > 1 ? 1 : count);
}

long write(int file, const void *bytes, size count) {
    writes++;
    if (refuses("write", writes)) {
        *__errno_location() = INPUT_OUTPUT;
        return -1;
    }
    if (writes % 2 == 1 && strcmp(kind, "interrupts") == 0) {
        *__errno_location() = INTERRUPTED;
        return -1;
    }
    return __write(file, bytes, by_bytes && count > 1 ? 1 : count);
}

/* Threads yield at the same time. */
int sched_yield(void) {
    refuses("yield", __atomic_add_fetch(&yields, 1, __ATOMIC_SEQ_CST));
    return __sched_yield();
}

/* The library's own, which comes after this one. */
int pthread_create(unsigned long *thread, const void *attributes, void *(*begin)(void *), void *argument) {
    create own = (create)dlsym((void *)-1, "pthread_create");
    if (refuses("threads", __atomic_add_fetch(&threads, 1, __ATOMIC_SEQ_CST))) {
        return TRY_AGAIN;
    }
    return own(thread, attributes, begin, argument);
}
