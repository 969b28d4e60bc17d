/* A tracer stops while the handler of a SIGTERM from another process is on its way to tell the consumer: the process ends by the signal all the same. `tracer_ended FOLDER` ends by SIGTERM, or tells
 * that the signal is lost. The linker's --wrap leads the clock through here, where the handler is held until the tracer is stopped. */
#define _GNU_SOURCE
#include "dspec_tracer.h"

#include <pthread.h>
#include <semaphore.h>
#include <signal.h>
#include <stdatomic.h>
#include <stdio.h>
#include <sys/wait.h>
#include <unistd.h>

DSPEC_PROBE(tick, uint64_t, number);

/* A handler reads the clock as it begins, and again for what it tells. */
enum { BEFORE_IT_TELLS = 2, MOST_SECONDS = 60 };

static dspec_tracer tracer;
static sem_t is_ready, is_held, may_tell;
static __thread bool gets_signal;
static _Atomic int readings;

int __real_clock_gettime(clockid_t clock, struct timespec *at);
int __wrap_clock_gettime(clockid_t clock, struct timespec *at);

int __wrap_clock_gettime(clockid_t clock, struct timespec *at) {
    if (gets_signal && atomic_fetch_add(&readings, 1) + 1 == BEFORE_IT_TELLS) {
        sem_post(&is_held);
        while (sem_wait(&may_tell) != 0) {}
    }
    return __real_clock_gettime(clock, at);
}

static void mask(int how) {
    sigset_t one;
    sigemptyset(&one);
    sigaddset(&one, SIGTERM);
    pthread_sigmask(how, &one, NULL);
}

static void *waits_for_signal(void *unused) {
    gets_signal = true;
    mask(SIG_UNBLOCK);
    sem_post(&is_ready);
    for (;;) pause();
    return unused;
}

/* Another process sends it. */
static void send(void) {
    const pid_t child = fork();
    if (child == 0) {
        kill(getppid(), SIGTERM);
        _exit(0);
    }
    waitpid(child, NULL, 0);
}

int main(int words, char **word) {
    const dspec_tracer_options options = { .lanes = 1 };
    pthread_t thread;
    if (words != 2) return 2;
    sem_init(&is_ready, 0, 0);
    sem_init(&is_held, 0, 0);
    sem_init(&may_tell, 0, 0);
    mask(SIG_BLOCK);
    if (!dspec_tracer_start(&tracer, word[1], &options, DSPEC_PROBES(tick))) {
        printf("%s\n", tracer.why);
        return 1;
    }
    tick_now(&tracer, 1);
    if (pthread_create(&thread, NULL, waits_for_signal, NULL) != 0) return 2;
    sem_wait(&is_ready);
    send();
    sem_wait(&is_held);
    printf("stopped %d\n", dspec_tracer_stop(&tracer, NULL));
    fflush(stdout);
    sem_post(&may_tell);
    sleep(MOST_SECONDS);
    printf("the signal is lost\n");
    return 3;
}
