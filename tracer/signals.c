/* signals.c: what a crash and what a signal that ends a program do. Nothing of the library is called in a handler, and nothing that takes memory or a lock.
 *
 * A signal for which the program has a handler comes twice. At first the thread's paths are saved, on the stack that is there for handlers. Then the kernel is asked for the same signal
 * again, with all others held back, and with that stack off where the program's handler is to run on the thread's own. So the second time all is as without a tracer: the stack, the
 * context, and a stack that has no room left. The program's handler is called then, with the mask that its flags and its sa_mask make.
 */
#include "survive.h"

#include <errno.h>
#include <sys/syscall.h>
#include <ucontext.h>
#include <unistd.h>

/* How long a process that ends waits for threads that crash at the same time, and how long one for its end that sent itself the signal. */
enum { MOST_SIGNALS = 65, LAST_CRASH_MS = 5, END_MS = 10000 };

static const int crashes[] = { SIGSEGV, SIGBUS, SIGFPE, SIGILL, SIGABRT }, ends[] = { SIGTERM, SIGINT, SIGHUP };
/* A handler calls the program's on the stack that it found, which may be small: what else it does has frames of its own, which are gone by then. */
#define APART_STACK __attribute__((noinline))
#define COUNT_OF(ARRAY) (sizeof(ARRAY) / sizeof(ARRAY)[0])

static struct sigaction old[MOST_SIGNALS];
static uint32_t is_reset[MOST_SIGNALS]; /* the program's handler was for one signal, which has come */
static bool hooked[MOST_SIGNALS];
static uint32_t want_crashes, want_ends; /* tracers */
static uint32_t to_end;                  /* tracers that a signal closes, until the last of them ends the process */
static uint32_t in_handlers;             /* threads that may be looking at a tracer that is down since */

static void on_end(int signal, siginfo_t *info, void *context);

bool signal_is_crash(int signal) {
    for (size_t i = 0; i < COUNT_OF(crashes); i++)
        if (crashes[i] == signal) return true;
    return false;
}

/* What a crash saved, and nothing else is left of, needs no memory that outlives the process. */
APART_STACK static void end_memories(void) {
    for (uint32_t slot = 0; slot < DSPEC_MAX_TRACERS; slot++)
        if (tracer_at(slot) != NULL) survive_dies(tracer_at(slot));
}

/* ---- What would have come of the signal. ---- */

static bool is_default(int signal) {
    const struct sigaction *was = &old[signal];
    return __atomic_load_n(&is_reset[signal], __ATOMIC_SEQ_CST) != 0 || (!(was->sa_flags & SA_SIGINFO) && was->sa_handler == SIG_DFL);
}

APART_STACK static void make_default(int signal) {
    const struct sigaction plain = { .sa_handler = SIG_DFL };
    sigaction(signal, &plain, NULL);
}

/* The signal ends the process when it comes again. */
APART_STACK static void end_by(int signal) {
    if (signal_is_crash(signal) && process_is_ours()) end_memories();
    make_default(signal);
}

static void call(int signal, siginfo_t *info, void *context) {
    const struct sigaction *was = &old[signal];
    if (was->sa_flags & SA_SIGINFO) was->sa_sigaction(signal, info, context);
    else was->sa_handler(signal);
}

/* The system's masks have 64 signals, and more room than that is no part of a context. */
static uint64_t bits_of(const sigset_t *set) {
    uint64_t bits;
    memcpy(&bits, set, sizeof bits);
    return bits;
}

static void set_bits(sigset_t *set, uint64_t bits) { memcpy(set, &bits, sizeof bits); }

static uint64_t bit_of(int signal) { return UINT64_C(1) << (signal - 1); }

/* Has the signal come to this thread once more, when it isn't held back any longer: whether it does. */
static bool comes_once_more(int signal, siginfo_t *info) { return syscall(SYS_rt_tgsigqueueinfo, getpid(), syscall(SYS_gettid), signal, info) == 0; }

/* Lets the kernel do with the signal what it does now: a fault comes again by itself too, where no signal may be sent. */
APART_STACK static void leave_to_kernel(int signal, siginfo_t *info, ucontext_t *at) {
    set_bits(&at->uc_sigmask, bits_of(&at->uc_sigmask) & ~bit_of(signal));
    if (!comes_once_more(signal, info) && info->si_code <= 0) raise(signal);
}

/* A handler runs on the stack for handlers where it asks for it and the program has one. */
static bool is_on_other_stack(int signal, const stack_t *other) { return (old[signal].sa_flags & SA_ONSTACK) && !stack_is_ours(other); }

/* Puts back what was changed for the second time. */
APART_STACK static void put_back(int signal, ucontext_t *at) {
    struct here *here = &dspec_here;
    here->again = 0;
    set_bits(&at->uc_sigmask, here->mask);
    at->uc_stack = here->other;
    if (!is_on_other_stack(signal, &here->other)) sigaltstack(&here->other, NULL);
}

/* Turns the stack for handlers off: whether that is known of the machine. The kernel refuses it to a thread that is on that stack, which it tells by the stack's pointer. So this shows it the
 * pointer that the thread had; nothing is on a stack meanwhile, and all signals are held back. A thread that was on that stack before stays there. */
static bool turn_stack_off(ucontext_t *at) {
    static const stack_t none = { .ss_flags = SS_DISABLE };
#if defined(__x86_64__)
    uint64_t pointer = (uint64_t)at->uc_mcontext.gregs[REG_RSP];
    long done = SYS_sigaltstack;
    __asm__ volatile("xchgq %%rsp, %1\n\tsyscall\n\txchgq %%rsp, %1" : "+a"(done), "+r"(pointer) : "D"(&none), "S"(0L) : "rcx", "r11", "memory");
#elif defined(__aarch64__)
    register long done __asm__("x0") = (long)&none;
    register long no_other __asm__("x1") = 0, number __asm__("x8") = SYS_sigaltstack;
    __asm__ volatile("mov x9, sp\n\tmov sp, %3\n\tsvc #0\n\tmov sp, x9" : "+r"(done) : "r"(no_other), "r"(number), "r"(at->uc_mcontext.sp) : "x9", "memory");
#else
    return false;
#endif
    at->uc_stack.ss_flags = SS_DISABLE;
    return done == 0 || done == -EPERM;
}

/* The program's handler comes when this one returns: whether it does. */
APART_STACK static bool ask_again(int signal, siginfo_t *info, ucontext_t *at) {
    struct here *here = &dspec_here;
    here->mask = bits_of(&at->uc_sigmask);
    here->other = at->uc_stack;
    if (!is_on_other_stack(signal, &here->other) && !turn_stack_off(at)) return false;
    here->again = signal;
    set_bits(&at->uc_sigmask, ~bit_of(signal));
    if (comes_once_more(signal, info)) return true;
    put_back(signal, at);
    return false;
}

static void run_own_handler(int signal, siginfo_t *info, ucontext_t *at) {
    const struct sigaction *was = &old[signal];
    uint64_t mask;
    if (((uint32_t)was->sa_flags & SA_RESETHAND) && __atomic_exchange_n(&is_reset[signal], 1, __ATOMIC_SEQ_CST) != 0) {
        end_by(signal);
        leave_to_kernel(signal, info, at);
        return;
    }
    mask = bits_of(&at->uc_sigmask) | bits_of(&was->sa_mask) | (was->sa_flags & SA_NODEFER ? 0 : bit_of(signal));
    syscall(SYS_rt_sigprocmask, SIG_SETMASK, &mask, NULL, sizeof mask);
    call(signal, info, at);
}

/* A handler that the program installed over this one calls it: what was there before is called in turn. */
static void chain(int signal, siginfo_t *info, void *context) {
    if (!is_default(signal)) {
        call(signal, info, context);
        return;
    }
    end_by(signal);
    if (info->si_code <= 0) raise(signal);
}

/* The child of a vfork has this memory, so that nothing is noted of it, and handlers of its own. */
static void go_on(int signal, siginfo_t *info, ucontext_t *at) {
    if (is_default(signal)) end_by(signal);
    else if (!process_is_ours()) sigaction(signal, &old[signal], NULL);
    else if (ask_again(signal, info, at)) return;
    else {
        call(signal, info, at);
        return;
    }
    leave_to_kernel(signal, info, at);
}

APART_STACK static bool is_installed(int signal, void (*handler)(int, siginfo_t *, void *)) {
    struct sigaction now;
    return sigaction(signal, NULL, &now) == 0 && (now.sa_flags & SA_SIGINFO) && now.sa_sigaction == handler;
}

/* ---- What the consumers do. ---- */

static bool is_wanted(const body *tracer, pid_t process, bool is_crash) {
    return tracer->pid == process && __atomic_load_n(&tracer->ended, __ATOMIC_SEQ_CST) == 0 && !(is_crash ? tracer->options.no_crash : tracer->options.no_term);
}

static bool is_sent(const siginfo_t *info) { return info->si_code == SI_USER || info->si_code == SI_TKILL || info->si_code == SI_QUEUE; }

/* Who sent a signal: 0 where no process did. */
static void note_sender(sender *by, const siginfo_t *info, uint64_t at) {
    by->process = is_sent(info) ? info->si_pid : 0;
    by->user = is_sent(info) ? info->si_uid : 0;
    by->code = info->si_code;
    by->thread = (uint32_t)syscall(SYS_gettid);
    by->at = at;
}

/* Tracers, a bit each: a handler may have a small stack. */
struct slots {
    uint64_t bits[(MAX_SLOTS + 63) / 64];
};
static bool has_slot(const struct slots *slots, uint32_t slot) { return slots->bits[slot / 64] >> slot % 64 & 1; }
static void add_slot(struct slots *to, uint32_t slot) { to->bits[slot / 64] |= UINT64_C(1) << slot % 64; }

/* Tells a tracer's consumer of a signal that is left to it: whether that hears of it, and hasn't ended since it was counted. */
static bool hears(body *tracer, int signal, const siginfo_t *info) {
    uint32_t none = 0;
    if (tracer == NULL) return false;
    note_sender(&tracer->sent, info, stamp_of(tracer));
    if (!__atomic_compare_exchange_n(&tracer->deferred, &none, (uint32_t)signal, false, __ATOMIC_SEQ_CST, __ATOMIC_SEQ_CST)) return false;
    consumer_wakes(tracer);
    return true;
}

/* Leaves a signal to the consumers, since the thread may be in a call and goes on: whether there is one that ends the process. All are counted before one is told; where each of them has ended
 * since, nobody does it but this handler. */
static bool defer(int signal, const siginfo_t *info, bool is_crash) {
    const pid_t process = getpid();
    struct slots told = { { 0 } };
    uint32_t count = 0, taken = 0;
    for (uint32_t slot = 0; slot < MAX_SLOTS; slot++) {
        body *tracer = tracer_at(slot);
        if (tracer == NULL || !is_wanted(tracer, process, is_crash)) continue;
        taken++;
        if (__atomic_exchange_n(&tracer->deferring, 1, __ATOMIC_SEQ_CST) != 0) continue; /* another handler tells it */
        add_slot(&told, slot);
        count++;
    }
    __atomic_fetch_add(&to_end, count, __ATOMIC_SEQ_CST);
    for (uint32_t slot = 0; slot < MAX_SLOTS; slot++) {
        if (!has_slot(&told, slot) || hears(tracer_at(slot), signal, info)) continue;
        taken--;
        if (__atomic_sub_fetch(&to_end, 1, __ATOMIC_SEQ_CST) == 0) taken = 0;
    }
    return taken > 0;
}

void signals_end(int signal) {
    sigset_t set;
    if (__atomic_sub_fetch(&to_end, 1, __ATOMIC_SEQ_CST) != 0) return;
    make_default(signal);
    sigemptyset(&set);
    sigaddset(&set, signal);
    pthread_sigmask(SIG_UNBLOCK, &set, NULL);
    kill(getpid(), signal);
}

/* Where the thread was; zeros where that isn't known of the machine. */
static void note_registers(struct crash *crash, const void *context) {
    const ucontext_t *at = context;
#if defined(__x86_64__)
    crash->pc = (uint64_t)at->uc_mcontext.gregs[REG_RIP];
    crash->stack = (uint64_t)at->uc_mcontext.gregs[REG_RSP];
    crash->frame = (uint64_t)at->uc_mcontext.gregs[REG_RBP];
#elif defined(__aarch64__)
    crash->pc = at->uc_mcontext.pc;
    crash->stack = at->uc_mcontext.sp;
    crash->frame = at->uc_mcontext.regs[29];
#else
    (void)at;
    crash->pc = crash->stack = crash->frame = 0;
#endif
}

/* Tells a tracer's consumer of this thread's crash, or of a signal that another process sent: whether there was a place for it. */
static bool post(body *tracer, int signal, const siginfo_t *info, const void *context, bool is_from_outside, bool is_last) {
    for (uint32_t i = 0; i < MAX_CRASHES; i++) {
        struct crash *crash = &tracer->crashes[i];
        uint32_t none = CRASH_FREE;
        if (!__atomic_compare_exchange_n(&crash->state, &none, CRASH_FILLING, false, __ATOMIC_SEQ_CST, __ATOMIC_SEQ_CST)) continue;
        crash->signal = signal;
        crash->code = info->si_code;
        crash->address = info->si_code > 0 ? (uint64_t)(uintptr_t)info->si_addr : 0;
        crash->at = stamp_of(tracer);
        note_registers(crash, context);
        crash->token = dspec_tracer_token_7;
        crash->recent = LOAD(&dspec_tracer_recent_7);
        crash->is_from_outside = is_from_outside;
        crash->is_last = is_last;
        note_sender(&crash->by, info, crash->at);
        if (tracer->here != NULL) tracer->here(crash->here);
        crash->thread = (uint32_t)syscall(SYS_gettid);
        __atomic_store_n(&crash->state, CRASH_READY, __ATOMIC_RELEASE);
        consumer_wakes(tracer);
        return true;
    }
    return false;
}

void crash_is_saved(body *tracer, struct crash *of_thread) {
    uint32_t ready = CRASH_READY;
    if (__atomic_compare_exchange_n(&of_thread->state, &ready, CRASH_FREE, false, __ATOMIC_SEQ_CST, __ATOMIC_SEQ_CST)) __atomic_fetch_sub(&tracer->unsaved, 1, __ATOMIC_SEQ_CST);
}

/* Waits a millisecond, where the time from `began` isn't over. */
static bool has_time(uint64_t began, uint32_t most_ms) {
    if (dspec_tracer_now() - began >= most_ms * UINT64_C(1000000)) return false;
    sleep_for(1000);
    return true;
}

/* Waits for a consumer that was told, and for the crashes of other threads too, since the process may end after this one. */
static void wait_until_saved(body *tracer, uint64_t began) {
    while (__atomic_load_n(&tracer->unsaved, __ATOMIC_SEQ_CST) != 0 && has_time(began, tracer->options.crash_ms)) {}
}

/* The process ends now: threads that crash at the same time and were kept from their processors have a moment yet. */
static void wait_for_others(body *tracer, uint64_t began) {
    for (uint64_t quiet = dspec_tracer_now(); has_time(quiet, LAST_CRASH_MS);) {
        if (__atomic_load_n(&tracer->unsaved, __ATOMIC_SEQ_CST) == 0) continue;
        wait_until_saved(tracer, began);
        if (!has_time(began, tracer->options.crash_ms)) return;
        quiet = dspec_tracer_now();
    }
}

/* Has the consumers save this thread's paths. All are told before one is waited for. */
static void save_all(int signal, const siginfo_t *info, const void *context, bool is_from_outside) {
    const uint64_t began = dspec_tracer_now();
    const pid_t process = getpid();
    const bool is_last = is_default(signal);
    struct slots told = { { 0 } }, posted = { { 0 } };
    for (uint32_t slot = 0; slot < MAX_SLOTS; slot++) {
        body *tracer = tracer_at(slot);
        if (tracer == NULL || !is_wanted(tracer, process, true)) continue;
        __atomic_fetch_add(&tracer->unsaved, 1, __ATOMIC_SEQ_CST);
        if (post(tracer, signal, info, context, is_from_outside, is_last)) add_slot(&posted, slot);
        add_slot(&told, slot);
    }
    for (uint32_t slot = 0; slot < MAX_SLOTS; slot++) {
        body *tracer = has_slot(&told, slot) ? tracer_at(slot) : NULL;
        bool is_posted = has_slot(&posted, slot);
        if (tracer == NULL) continue;
        while (!is_posted && has_time(began, tracer->options.crash_ms)) is_posted = post(tracer, signal, info, context, is_from_outside, is_last);
        if (is_posted) {
            wait_until_saved(tracer, began);
            if (is_last && LOAD(&tracer->threads) > 1) wait_for_others(tracer, began);
        } else {
            __atomic_fetch_add(&tracer->never_saved, 1, __ATOMIC_SEQ_CST);
            __atomic_fetch_sub(&tracer->unsaved, 1, __ATOMIC_SEQ_CST);
        }
    }
}

bool signals_are_over(void) {
    for (int tries = 0; __atomic_load_n(&in_handlers, __ATOMIC_SEQ_CST) != 0; tries++) {
        if (tries == 1000) return false;
        sleep_for(1000);
    }
    return true;
}

/* ---- The handlers. ---- */

/* A signal that another process sent ends this one by the consumer, where the program has no handler: the thread may be in the middle of a call, and goes on. */
APART_STACK static bool save(int signal, const siginfo_t *info, const void *context) {
    const bool is_ours = info->si_code > 0 || info->si_pid == getpid();
    bool is_taken;
    __atomic_fetch_add(&in_handlers, 1, __ATOMIC_SEQ_CST);
    is_taken = !is_ours && is_default(signal) && defer(signal, info, true);
    if (!is_taken && !dspec_here.consumer) save_all(signal, info, context, !is_ours);
    __atomic_fetch_sub(&in_handlers, 1, __ATOMIC_SEQ_CST);
    return is_taken;
}

static void on_crash(int signal, siginfo_t *info, void *context) {
    const int error = errno;
    bool is_taken = false;
    if (dspec_here.again == signal) {
        put_back(signal, context);
        errno = error;
        run_own_handler(signal, info, context);
        return;
    }
    if (process_is_ours()) is_taken = save(signal, info, context);
    if (!is_taken && is_installed(signal, on_crash)) go_on(signal, info, context);
    else if (!is_taken) chain(signal, info, context);
    errno = error;
}

/* A thread that sent itself the signal doesn't go on, since without a tracer it wouldn't. */
static bool is_taken_by_consumer(int signal, const siginfo_t *info) {
    const uint64_t began = dspec_tracer_now();
    bool is_taken;
    __atomic_fetch_add(&in_handlers, 1, __ATOMIC_SEQ_CST);
    is_taken = defer(signal, info, false);
    __atomic_fetch_sub(&in_handlers, 1, __ATOMIC_SEQ_CST);
    if (!is_taken || !is_sent(info) || info->si_pid != getpid() || !is_installed(signal, on_end)) return is_taken;
    while (has_time(began, END_MS)) {}
    return false;
}

static void on_end(int signal, siginfo_t *info, void *context) {
    const int error = errno;
    const bool is_taken = process_is_ours() && is_taken_by_consumer(signal, info);
    if (!is_taken && is_installed(signal, on_end)) go_on(signal, info, context);
    else if (!is_taken) chain(signal, info, context);
    errno = error;
}

/* ---- Where they are installed. ---- */

/* What the program ignores stays so: a handler would interrupt calls, and a program that this one executes would be started without it. A system call that is interrupted goes on as the
 * program's handler has it. */
static void hook(int signal, void (*handler)(int, siginfo_t *, void *), bool only_default) {
    struct sigaction ours = { .sa_flags = SA_SIGINFO | SA_ONSTACK }, was;
    bool is_plain;
    ours.sa_sigaction = handler;
    sigfillset(&ours.sa_mask);
    if (sigaction(signal, NULL, &was) != 0) return;
    is_plain = !(was.sa_flags & SA_SIGINFO) && was.sa_handler == SIG_DFL;
    if (hooked[signal] && !is_plain) return; /* a handler over an earlier one of ours calls that; where the default is there nobody does */
    old[signal] = was;
    if ((only_default && !is_plain) || (!(was.sa_flags & SA_SIGINFO) && was.sa_handler == SIG_IGN)) return;
    ours.sa_flags |= is_plain ? SA_RESTART : was.sa_flags & SA_RESTART;
    __atomic_store_n(&is_reset[signal], 0, __ATOMIC_SEQ_CST);
    hooked[signal] = sigaction(signal, &ours, NULL) == 0;
}

/* A handler that the program installed over this one stays, and calls this one, which has nothing to do then. */
static void unhook(int signal, void (*handler)(int, siginfo_t *, void *)) {
    if (!hooked[signal] || !is_installed(signal, handler)) return;
    if (is_default(signal)) make_default(signal);
    else sigaction(signal, &old[signal], NULL);
    hooked[signal] = false;
}

void signals_hook(const dspec_tracer_options *options) {
    if (!options->no_crash && want_crashes++ == 0)
        for (size_t i = 0; i < COUNT_OF(crashes); i++) hook(crashes[i], on_crash, false);
    if (!options->no_term && want_ends++ == 0)
        for (size_t i = 0; i < COUNT_OF(ends); i++) hook(ends[i], on_end, true);
}

void signals_unhook(const dspec_tracer_options *options) {
    if (!options->no_crash && --want_crashes == 0)
        for (size_t i = 0; i < COUNT_OF(crashes); i++) unhook(crashes[i], on_crash);
    if (!options->no_term && --want_ends == 0)
        for (size_t i = 0; i < COUNT_OF(ends); i++) unhook(ends[i], on_end);
}

/* The child has no tracer, and this thread alone, which may be in a handler. */
void signals_in_child(void) { want_crashes = want_ends = to_end = in_handlers = 0; }
