/* Runs a program and has one system call of it fail: `fail_call N ERROR PROGRAM WORD ..`. Counted are the calls of all its threads between close(-777) and close(-778), but writes to the
 * standard streams, and those that end a thread, come back from a handler or wait for another thread. ERROR is the system's number; 0: a read or write moves half of its bytes. The last line of standard error tells which call it was,
 * how many there were, how many fsyncs were let go, and how many writes a forked child made that had the right to more than that, or to more than some processor time; the status is the program's, or 128 and the signal that ended it. */
#define _GNU_SOURCE
#include <errno.h>
#include <signal.h>
#include <stdbool.h>
#include <stdint.h>
#include <stdio.h>
#include <stdlib.h>
#include <string.h>
#include <sys/ptrace.h>
#include <sys/resource.h>
#include <sys/syscall.h>
#include <sys/user.h>
#include <sys/wait.h>
#include <unistd.h>

enum { MAX_THREADS = 256, BEGIN = -777, END = -778 };

typedef struct thread {
    pid_t id;
    bool inside;     /* a call of it is under way */
    bool overridden; /* which answers something else than the system does */
    bool is_child;   /* of a fork */
} thread;

static thread threads[MAX_THREADS];
static size_t thread_count;
static long wanted, counted, synced, loose, error;
static bool counts;
static long failed_call = -1;

static thread *thread_of(pid_t id) {
    for (size_t i = 0; i < thread_count; i++)
        if (threads[i].id == id) return &threads[i];
    if (thread_count == MAX_THREADS) exit(2);
    threads[thread_count] = (thread){ .id = id };
    return &threads[thread_count++];
}

/* Whether the call can't fail, or ends or resumes a thread, or is the C library's way to wait for one. */
static bool is_left_alone(unsigned long long call) {
    switch (call) {
    case SYS_futex: case SYS_rt_sigreturn: case SYS_exit: case SYS_exit_group: case SYS_restart_syscall: case SYS_rt_sigprocmask: case SYS_munmap: case SYS_madvise: case SYS_brk:
    case SYS_set_robust_list: case SYS_rseq: case SYS_gettid: case SYS_getpid: case SYS_getuid: case SYS_geteuid: case SYS_execve: case SYS_sched_yield: case SYS_kill: case SYS_tgkill:
        return true;
    default: return false;
    }
}

static bool moves_bytes(unsigned long long call) {
    return call == SYS_read || call == SYS_write || call == SYS_pread64 || call == SYS_pwrite64;
}

/* Whether a process may read, write and end, and nothing else, which is seccomp's strict mode, and its processor time has a limit. */
static bool is_strict(pid_t id) {
    struct rlimit time;
    char line[256];
    bool found = false;
    FILE *status;
    if (prlimit(id, RLIMIT_CPU, NULL, &time) != 0 || time.rlim_cur == RLIM_INFINITY) return false;
    snprintf(line, sizeof line, "/proc/%d/status", (int)id);
    status = fopen(line, "r");
    if (status == NULL) return false;
    while (!found && fgets(line, sizeof line, status) != NULL) found = strcmp(line, "Seccomp:\t1\n") == 0;
    fclose(status);
    return found;
}

/* Before a call: it is let go, made shorter, or replaced by none. */
static void enters(thread *of, struct user_regs_struct *is) {
    const unsigned long long call = is->orig_rax;
    if (call == SYS_close && ((int)is->rdi == BEGIN || (int)is->rdi == END)) {
        counts = (int)is->rdi == BEGIN;
        return;
    }
    if (!counts || is_left_alone(call) || (call == SYS_write && is->rdi <= 2)) return;
    synced += call == SYS_fsync;
    loose += call == SYS_write && of->is_child && !is_strict(of->id);
    if (++counted != wanted) return;
    if (error == 0 && !(moves_bytes(call) && is->rdx > 1)) return;
    failed_call = (long)call;
    synced -= call == SYS_fsync;
    if (error == 0) {
        is->rdx /= 2;
    } else {
        of->overridden = true;
        if (call != SYS_close) is->orig_rax = (unsigned long long)-1; /* a close that fails has closed */
    }
    ptrace(PTRACE_SETREGS, of->id, NULL, is);
}

static void leaves(thread *of, struct user_regs_struct *is) {
    if (!of->overridden) return;
    of->overridden = false;
    is->rax = (unsigned long long)-error;
    ptrace(PTRACE_SETREGS, of->id, NULL, is);
}

static void turn(thread *of) {
    struct user_regs_struct is;
    of->inside = !of->inside;
    if (ptrace(PTRACE_GETREGS, of->id, NULL, &is) != 0) return;
    if (of->inside) enters(of, &is);
    else leaves(of, &is);
}

/* What a stop hands on to the thread: a signal of its own, or 0. */
static int signal_of(pid_t id, int status) {
    const int number = WSTOPSIG(status);
    if (number == (SIGTRAP | 0x80)) {
        turn(thread_of(id));
        return 0;
    }
    if (status >> 16 == PTRACE_EVENT_FORK) {
        unsigned long child;
        if (ptrace(PTRACE_GETEVENTMSG, id, NULL, &child) == 0) thread_of((pid_t)child)->is_child = true;
    }
    if (status >> 16 != 0) return 0; /* a thread or a process begins */
    if (number == SIGSTOP) return 0;
    return number == SIGTRAP ? 0 : number;
}

static int follow(pid_t program) {
    int status, ended = 2;
    pid_t id;
    while ((id = waitpid(-1, &status, __WALL)) > 0) {
        if (WIFSTOPPED(status)) {
            ptrace(PTRACE_SYSCALL, id, NULL, (void *)(intptr_t)signal_of(id, status));
        } else if (id == program) {
            ended = WIFEXITED(status) ? WEXITSTATUS(status) : 128 + WTERMSIG(status);
        }
    }
    return ended;
}

int main(int argc, char **argv) {
    int status, ended;
    pid_t program;
    if (argc < 4) return 2;
    wanted = atol(argv[1]);
    error = atol(argv[2]);
    program = fork();
    if (program == 0) {
        ptrace(PTRACE_TRACEME, 0, NULL, NULL);
        raise(SIGSTOP);
        execv(argv[3], argv + 3);
        _exit(127);
    }
    if (program < 0 || waitpid(program, &status, 0) != program) return 2;
    ptrace(PTRACE_SETOPTIONS, program, NULL, PTRACE_O_TRACESYSGOOD | PTRACE_O_TRACECLONE | PTRACE_O_TRACEFORK | PTRACE_O_TRACEVFORK | PTRACE_O_TRACEEXEC | PTRACE_O_EXITKILL);
    ptrace(PTRACE_SYSCALL, program, NULL, NULL);
    ended = follow(program);
    fprintf(stderr, "call %ld of %ld: %ld, synced %ld, loose %ld\n", wanted, counted, failed_call, synced, loose);
    return ended;
}
