/* A program that knows nothing of examples/c/files.c, which is preloaded: threads that open, read and close FILE, some of them what another
 * opened; a signal that does so in the middle of all; a child of fork; and MISSING opens of a file that isn't there. It prints that number. */
#define _GNU_SOURCE

#include <fcntl.h>
#include <pthread.h>
#include <signal.h>
#include <stdatomic.h>
#include <stdint.h>
#include <stdio.h>
#include <stdlib.h>
#include <sys/time.h>
#include <sys/wait.h>
#include <unistd.h>

enum { THREADS = 12, ROUNDS = 2000, MISSING_EACH = 100 };

static const char *name;
static atomic_int handed[THREADS];
static atomic_int missing, faults;

static void use(int fd) {
    char bytes[64];
    if (fd < 0 || read(fd, bytes, sizeof bytes) < 0 || close(fd) != 0) atomic_fetch_add(&faults, 1);
}

static void interrupted(int signal) {
    (void)signal;
    use(open(name, O_RDONLY));
}

static void *work(void *arg) {
    int number = (int)(intptr_t)arg;
    for (int i = 0; i < ROUNDS; i++) {
        int fd = open(name, O_RDONLY | O_CLOEXEC);
        /* Another thread's file is closed here, and this one there. */
        int other = atomic_exchange(&handed[(number + i) % THREADS], fd + 1) - 1;
        if (other >= 0) use(other);
        if (i % MISSING_EACH == number) {
            if (open("/no/such/file", O_RDONLY) >= 0) atomic_fetch_add(&faults, 1);
            atomic_fetch_add(&missing, 1);
        }
        if (i == ROUNDS / 2 && number % 4 == 0) {
            pid_t child = fork();
            if (child == 0) {
                use(open(name, O_RDONLY));
                (void)!open("/no/such/file", O_RDONLY);
                exit(0);
            }
            waitpid(child, NULL, 0);
        }
    }
    return NULL;
}

int main(int count, char **words) {
    struct sigaction action = { .sa_handler = interrupted, .sa_flags = SA_RESTART };
    struct itimerval timer = { { 0, 1000 }, { 0, 1000 } }, none = { { 0, 0 }, { 0, 0 } };
    pthread_t threads[THREADS];
    if (count != 2) return 2;
    name = words[1];
    sigaction(SIGPROF, &action, NULL);
    setitimer(ITIMER_PROF, &timer, NULL);
    for (int i = 0; i < THREADS; i++) {
        if (pthread_create(&threads[i], NULL, work, (void *)(intptr_t)i) != 0) return 2;
    }
    for (int i = 0; i < THREADS; i++) pthread_join(threads[i], NULL);
    setitimer(ITIMER_PROF, &none, NULL);
    for (int i = 0; i < THREADS; i++) {
        if (atomic_load(&handed[i]) > 0) use(atomic_load(&handed[i]) - 1);
    }
    printf("%d\n", atomic_load(&missing));
    return atomic_load(&faults) == 0 ? 0 : 1;
}
