/* steps.c: counts the instructions that a program makes between two breakpoints (int3) of its first thread, by single steps: `steps PROGRAM WORD ..`. So those in the system's page (vdso) are counted,
 * which valgrind doesn't see. Prints how many there were, and how many of them were locked: with a lock prefix, or an exchange with memory. */
#define _GNU_SOURCE
#include <signal.h>
#include <stdbool.h>
#include <stdint.h>
#include <stdio.h>
#include <string.h>
#include <sys/personality.h>
#include <sys/ptrace.h>
#include <sys/user.h>
#include <sys/wait.h>
#include <unistd.h>

enum { LOCK = 0xf0, BREAK = 0xcc, REX_FIRST = 0x40, REX_LAST = 0x4f, XCHG_BYTE = 0x86, XCHG = 0x87, REGISTERS = 3 };

static bool is_prefix(uint8_t byte) { return memchr("\x66\xf2\xf3\x2e\x3e\x64\x65", byte, 7) != NULL; }

/* Whether an instruction that begins with these bytes is locked. */
static bool is_locked(const uint8_t *bytes) {
    while (is_prefix(*bytes)) bytes++;
    if (*bytes == LOCK) return true;
    if (*bytes >= REX_FIRST && *bytes <= REX_LAST) bytes++;
    return (*bytes == XCHG || *bytes == XCHG_BYTE) && bytes[1] >> 6 != REGISTERS;
}

/* Goes on until the program stops by a trap: whether it did. */
static bool goes_on(pid_t child, int request) {
    int status = 0, signal = 0;
    for (;;) {
        if (ptrace(request, child, 0, signal) != 0 || waitpid(child, &status, 0) != child || !WIFSTOPPED(status)) return false;
        signal = WSTOPSIG(status);
        if (signal == SIGTRAP) return true;
        request = PTRACE_CONT;
    }
}

int main(int argc, char **argv) {
    if (argc < 2) return 2;
    int status;
    uint64_t count = 0, locked = 0;
    const pid_t child = fork();
    if (child == 0) {
        personality(ADDR_NO_RANDOMIZE);
        ptrace(PTRACE_TRACEME, 0, 0, 0);
        execv(argv[1], argv + 1);
        _exit(127);
    }
    if (child < 0 || waitpid(child, &status, 0) != child || !goes_on(child, PTRACE_CONT)) return 1;
    for (;;) {
        struct user_regs_struct registers;
        uint8_t bytes[16];
        ptrace(PTRACE_GETREGS, child, 0, &registers);
        for (size_t at = 0; at < sizeof bytes; at += sizeof(long)) {
            const long word = ptrace(PTRACE_PEEKTEXT, child, registers.rip + at, 0);
            memcpy(bytes + at, &word, sizeof word);
        }
        if (bytes[0] == BREAK) break;
        count++;
        locked += is_locked(bytes);
        if (!goes_on(child, PTRACE_SINGLESTEP)) return 1;
    }
    kill(child, SIGKILL);
    printf("%lu %lu\n", count, locked);
    return 0;
}
