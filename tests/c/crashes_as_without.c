/* One case of tests/c/crashes_as_without: a program gets a signal in some way, and does with it what its handler and the handler's flags say.
 *
 *     crashes_as_without FOLDER|- NUMBER SIGNAL CAUSE HANDLER WORD ..
 *
 * With a folder a tracer is up meanwhile, and the thread is in a path whose record has this number. With `-` there is none. What is printed has to be the same. */
#define _GNU_SOURCE
#include "dspec_tracer.h"

#include <errno.h>
#include <fcntl.h>
#include <pthread.h>
#include <setjmp.h>
#include <signal.h>
#include <stdarg.h>
#include <stdio.h>
#include <stdlib.h>
#include <sys/mman.h>
#include <sys/wait.h>
#include <ucontext.h>
#include <unistd.h>

DSPEC_PROBE(step, uint32_t, number);

enum { OTHER_SIZE = 65536, TIMES = 3, MOST_TIMES = 6, BIG = 100000, MARK = 77 };

static dspec_tracer tracer;
static char **words;
static int number_of_signal;
static const char *cause, *handler;
static char *other_stack, *own_stack;
static size_t own_size;
static sigjmp_buf back;
static int *volatile nowhere;
static volatile int zero, endless = 1 << 30, times;
static char *page; /* where a fault is, which `mends` mends */
static int file = -1;
static int to_parent[2], to_child[2];

static bool is(const char *one, const char *two) { return strcmp(one, two) == 0; }

static bool has(const char *word) {
    for (char **one = words; *one != NULL; one++)
        if (is(*one, word)) return true;
    return false;
}

__attribute__((format(printf, 1, 2))) static void say(const char *format, ...) {
    char line[256];
    va_list values;
    va_start(values, format);
    const int length = vsnprintf(line, sizeof line, format, values);
    va_end(values);
    if (write(1, line, (size_t)length) != length) _exit(9);
}

static void needs(bool is_well, const char *what) {
    if (is_well) return;
    say("%s: %s\n", what, strerror(errno));
    _exit(9);
}

/* ---- What is seen in a handler. ---- */

static void say_mask(const char *when) {
    static const struct {
        int number;
        const char *name;
    } all[] = { { SIGSEGV, "SEGV" }, { SIGBUS, "BUS" }, { SIGFPE, "FPE" }, { SIGILL, "ILL" }, { SIGABRT, "ABRT" }, { SIGTERM, "TERM" }, { SIGINT, "INT" }, { SIGUSR1, "USR1" }, { SIGALRM, "ALRM" } };
    sigset_t now;
    pthread_sigmask(SIG_SETMASK, NULL, &now);
    say("%s: blocked", when);
    for (size_t i = 0; i < sizeof all / sizeof all[0]; i++)
        if (sigismember(&now, all[i].number)) say(" %s", all[i].name);
    say("\n");
}

static void say_stack(const volatile char *at) {
    const char *place = (const char *)(uintptr_t)at;
    const bool is_other = other_stack != NULL && place >= other_stack && place < other_stack + OTHER_SIZE, is_own = place >= own_stack && place < own_stack + own_size;
    say("on %s\n", is_other ? "the other stack" : is_own ? "the thread's stack" : "a stack that nobody knows");
}

static void say_sender(const siginfo_t *info) {
    if (info->si_code > 0) say("a fault, code %d, %s\n", info->si_code, info->si_addr == NULL ? "at 0" : info->si_addr == page ? "in the page" : "elsewhere");
    else say("sent, code %d, by %s\n", info->si_code, info->si_pid == getpid() ? "this process" : "another");
}

__attribute__((noinline)) static void take_much(void) {
    volatile char room[BIG];
    for (size_t i = 0; i < BIG; i += 512) room[i] = (char)i;
    say("%d bytes of stack\n", BIG + room[0]);
}

static void mend(void *context) {
    if (number_of_signal == SIGSEGV) needs(mprotect(page, 4096, PROT_READ | PROT_WRITE) == 0, "mprotect");
    if (number_of_signal == SIGBUS) needs(ftruncate(file, 4096) == 0, "ftruncate");
#if defined(__x86_64__)
    if (number_of_signal == SIGILL) ((ucontext_t *)context)->uc_mcontext.gregs[REG_RIP] += 2;
#endif
    (void)context;
}

static void act(int signal, void *context) {
    volatile char here = 0;
    say("handler of %d, time %d, errno %d\n", signal, ++times, errno);
    say_mask("in the handler");
    say_stack(&here);
    if (times == MOST_TIMES) _exit(45);
    if (has("mask")) {
        raise(SIGUSR1);
        say("USR1 was sent\n");
    }
    if (is(cause, "reads")) needs(write(to_child[1], "h", 1) == 1, "write");
    if (is(handler, "returns") && times == TIMES) _exit(41);
    if (is(handler, "jumps") || is(handler, "jumps_plain")) siglongjmp(back, 1);
    if (is(handler, "raises")) {
        raise(signal);
        _exit(43);
    }
    if (is(handler, "exits")) _exit(40);
    if (is(handler, "resets")) {
        struct sigaction plain = { .sa_handler = SIG_DFL };
        sigaction(signal, &plain, NULL);
        raise(signal);
    }
    if (is(handler, "big")) {
        take_much();
        _exit(44);
    }
    if (is(handler, "aborts")) abort();
    if (is(handler, "faults")) *nowhere = 1;
    if (is(handler, "mends")) mend(context);
}

static void plainly(int signal) { act(signal, NULL); }

static void with_info(int signal, siginfo_t *info, void *context) {
    say_sender(info);
    act(signal, context);
}

static void on_user(int signal) { say("USR1 is %d\n", signal); }

static void install(void) {
    struct sigaction action = { 0 }, user = { .sa_handler = on_user };
    if (is(handler, "default")) return;
    if (is(handler, "ignored")) {
        signal(number_of_signal, SIG_IGN);
        return;
    }
    sigaction(SIGUSR1, &user, NULL);
    if (has("siginfo") || is(handler, "mends")) {
        action.sa_flags |= SA_SIGINFO;
        action.sa_sigaction = with_info;
    } else {
        action.sa_handler = plainly;
    }
    if (has("onstack")) action.sa_flags |= SA_ONSTACK;
    if (has("nodefer")) action.sa_flags |= SA_NODEFER;
    if (has("restart")) action.sa_flags |= SA_RESTART;
    if (has("resethand")) action.sa_flags |= (int)SA_RESETHAND;
    if (has("mask")) {
        sigaddset(&action.sa_mask, SIGUSR1);
        sigaddset(&action.sa_mask, SIGALRM);
    }
    needs(sigaction(number_of_signal, &action, NULL) == 0, "sigaction");
}

/* ---- What brings the signal. ---- */

__attribute__((noinline)) static int deep(int at) {
    volatile char room[512];
    room[at % 512] = (char)at;
    return at < endless ? deep(at + 1) + room[(at * 7) % 512] : 0;
}

static void prepare_page(void) {
    if (number_of_signal == SIGBUS) {
        file = memfd_create("page", 0);
        page = mmap(NULL, 4096, PROT_READ | PROT_WRITE, MAP_SHARED, file, 0);
    } else {
        page = mmap(NULL, 4096, PROT_NONE, MAP_PRIVATE | MAP_ANONYMOUS, -1, 0);
    }
    needs(page != MAP_FAILED, "mmap");
}

static void fault(void) {
    switch (number_of_signal) {
    case SIGSEGV:
        if (is(handler, "mends")) page[0] = 1;
        else *nowhere = 1;
        break;
    case SIGBUS: page[0] = 1; break;
#if defined(__x86_64__)
    case SIGFPE: zero = 100 / zero; break;
    case SIGILL: __asm__ volatile("ud2"); break;
#endif
    case SIGABRT: abort();
    default: raise(number_of_signal); break;
    }
}

/* Whether a thread of a process sleeps. */
static bool sleeps(pid_t process) {
    char path[64], text[256] = { 0 };
    const char *end;
    snprintf(path, sizeof path, "/proc/%d/task/%d/stat", process, process);
    const int at = open(path, O_RDONLY);
    const bool is_read = at >= 0 && read(at, text, sizeof text - 1) > 0;
    if (at >= 0) close(at);
    end = strrchr(text, ')');
    return is_read && end != NULL && end[2] == 'S';
}

/* A child sends the signal as soon as this thread sleeps, and answers the handler by a byte. */
static pid_t sender(void) {
    const pid_t parent = getpid(), child = fork();
    char byte;
    if (child != 0) return child;
    while (!sleeps(parent)) usleep(1000);
    if (kill(parent, number_of_signal) != 0) _exit(9);
    close(to_parent[0]);
    close(to_child[1]);
    if ((is(handler, "ignored") || read(to_child[0], &byte, 1) == 1) && write(to_parent[1], "x", 1) != 1) _exit(8);
    _exit(0);
}

static void be_sent(bool suspends) {
    char byte = 0;
    sigset_t blocked, before;
    ssize_t got;
    pid_t child;
    needs(pipe(to_parent) == 0 && pipe(to_child) == 0, "pipe");
    sigemptyset(&blocked);
    sigaddset(&blocked, number_of_signal);
    if (suspends) pthread_sigmask(SIG_BLOCK, &blocked, &before);
    child = sender();
    if (suspends) {
        sigsuspend(&before);
        say_mask("after sigsuspend");
    } else {
        got = read(to_parent[0], &byte, 1);
        say("read: %zd, %s\n", got, got < 0 ? strerror(errno) : "a byte");
    }
    close(to_child[1]);
    waitpid(child, NULL, 0);
}

/* Sent beforehand, and taken by sigwait. */
static void take_by_sigwait(void) {
    sigset_t one;
    int got;
    sigemptyset(&one);
    sigaddset(&one, number_of_signal);
    needs(sigwait(&one, &got) == 0, "sigwait");
    say("sigwait: %d\n", got);
}

static void *sends_to(void *thread) {
    pthread_kill(*(pthread_t *)thread, number_of_signal);
    return NULL;
}

static void be_sent_by_thread(void) {
    pthread_t me = pthread_self(), by;
    needs(pthread_create(&by, NULL, sends_to, &me) == 0, "pthread_create");
    pthread_join(by, NULL);
    for (int tries = 0; tries < 20000 && times == 0 && !is(handler, "ignored"); tries++) usleep(1000);
}

static void bring(void) {
    errno = MARK;
    if (is(cause, "fault")) fault();
    if (is(cause, "raise")) raise(number_of_signal);
    if (is(cause, "kill")) kill(getpid(), number_of_signal);
    if (is(cause, "overflow")) zero = deep(0);
    if (is(cause, "reads")) be_sent(false);
    if (is(cause, "suspends")) be_sent(true);
    if (is(cause, "thread")) be_sent_by_thread();
    if (is(cause, "sigwait")) {
        kill(getpid(), number_of_signal);
        take_by_sigwait();
    }
}

/* ---- A case. ---- */

static void find_stacks(void) {
    pthread_attr_t attributes;
    void *at;
    pthread_getattr_np(pthread_self(), &attributes);
    pthread_attr_getstack(&attributes, &at, &own_size);
    pthread_attr_destroy(&attributes);
    own_stack = at;
    if (!has("altstack")) return;
    other_stack = mmap(NULL, OTHER_SIZE, PROT_READ | PROT_WRITE, MAP_PRIVATE | MAP_ANONYMOUS, -1, 0);
    needs(other_stack != MAP_FAILED && sigaltstack(&(stack_t){ .ss_sp = other_stack, .ss_size = OTHER_SIZE }, NULL) == 0, "sigaltstack");
}

static void *live(void *path_of_tracer) {
    dspec_path *path = path_of_tracer;
    find_stacks();
    if (has("blocked")) {
        sigset_t all;
        sigfillset(&all);
        pthread_sigmask(SIG_SETMASK, &all, NULL);
    }
    if (path != NULL && step_in(path, (uint32_t)strtoul(words[0], NULL, 10)) != DSPEC_OK) _exit(8);
    if (sigsetjmp(back, is(handler, "jumps")) != 0) say_mask("after the jump");
    if (times < TIMES) bring();
    say("goes on, errno %d\n", is(cause, "fault") || is(cause, "raise") || is(cause, "kill") ? errno : 0);
    say_mask("at the end");
    return NULL;
}

int main(int argc, char **argv) {
    const bool is_traced = argc > 5 && !is(argv[1], "-");
    dspec_path path = { 0 };
    pthread_t thread;
    if (argc < 6) return 2;
    words = argv + 2;
    number_of_signal = atoi(argv[3]);
    cause = argv[4];
    handler = argv[5];
    prepare_page();
    install();
    if (is(cause, "sigwait")) {
        sigset_t one;
        sigemptyset(&one);
        sigaddset(&one, number_of_signal);
        pthread_sigmask(SIG_BLOCK, &one, NULL);
    }
    if (is_traced) {
        const dspec_tracer_options options = { .crash_ms = 60000, .lanes = 2 };
        needs(dspec_tracer_start(&tracer, argv[1], &options, DSPEC_PROBES(step)), tracer.why);
        path = dspec_path_begin(&tracer);
    }
    if (has("second")) {
        needs(pthread_create(&thread, NULL, live, is_traced ? &path : NULL) == 0, "pthread_create");
        pthread_join(thread, NULL);
    } else {
        live(is_traced ? &path : NULL);
    }
    return 0;
}
