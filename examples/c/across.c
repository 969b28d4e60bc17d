/* A request goes through three processes, and one in a hundred fails in the last one, after the others have answered. Each of them keeps such a request, and no other: `across FOLDER SOCKET`, where
 * SOCKET is redis-server's, and then `babeltrace2 FOLDER`. The processes tell each other of failures by Redis; the requests go from one to the next through pipes.
 * Compile it with -lhiredis. */
#include "dspec_traceparent.h"
#include "dspec_tracer.h"

#include <hiredis/hiredis.h>
#include <pthread.h>
#include <stdio.h>
#include <stdlib.h>
#include <string.h>
#include <sys/stat.h>
#include <sys/wait.h>
#include <unistd.h>

DSPEC_PROBE(received, uint64_t, request, dspec_text16, service);
DSPEC_PROBE(answered, uint64_t, request, int32_t, code);

enum { SERVICES = 3, REQUESTS = 10000 };
static const char *const names[SERVICES] = { "gateway", "orders", "payments" };
static const char *const channel = "failures", *const over = "over";

static dspec_tracer tracer;
static redisContext *publisher, *subscriber;

/* What goes through the pipes: a request with the header by which it is known in all processes. */
typedef struct message {
    uint64_t request;
    char traceparent[DSPEC_TRACEPARENT_SIZE];
} message;

static redisContext *connects(const char *socket) {
    redisContext *redis = redisConnectUnix(socket);
    if (redis != NULL && redis->err == 0) return redis;
    fprintf(stderr, "across: %s: %s\n", socket, redis != NULL ? redis->errstr : "no memory");
    exit(1);
}

static void publish(const char *text) { freeReplyObject(redisCommand(publisher, "PUBLISH %s %s", channel, text)); }

/* A path of this key was kept here: the others are told. The consumer's thread calls it. */
static void tell_others(void *unused, uint64_t high, uint64_t low) {
    const dspec_traceparent of = { high, low, 1, DSPEC_TRACEPARENT_SAMPLED };
    char text[DSPEC_TRACEPARENT_SIZE];
    (void)unused;
    if (dspec_traceparent_format(&of, text)) publish(text);
}

/* Keeps what the others tell, until the last service has told all. Its own words come back too, and change nothing. */
static void *listen_to_others(void *unused) {
    redisReply *reply;
    for (bool is_over = false; !is_over && redisGetReply(subscriber, (void **)&reply) == REDIS_OK; freeReplyObject(reply)) {
        const redisReply *text = reply->type == REDIS_REPLY_ARRAY && reply->elements == 3 ? reply->element[2] : NULL;
        dspec_traceparent of;
        if (text == NULL || text->type != REDIS_REPLY_STRING) continue;
        is_over = strcmp(text->str, over) == 0;
        if (dspec_traceparent_parse(text->str, text->len, &of) && !dspec_tracer_keep_key(&tracer, of.trace_high, of.trace_low)) fprintf(stderr, "across: a key was refused\n");
    }
    return unused;
}

/* One in a hundred fails in the last service. */
static int answer(int service, uint64_t request) { return service == SERVICES - 1 && request % 100 == 13 ? -5 : 0; }

static void serve(int service, const message *got, int next) {
    dspec_path path = dspec_path_begin(&tracer);
    dspec_traceparent of;
    received_in(&path, got->request, dspec_text16_of(names[service], strlen(names[service])));
    if (dspec_traceparent_parse(got->traceparent, strlen(got->traceparent), &of)) dspec_path_key(&path, of.trace_high, of.trace_low);
    if (next >= 0 && write(next, got, sizeof *got) != (ssize_t)sizeof *got) exit(1);
    const int code = answer(service, got->request);
    answered_in(&path, got->request, code);
    code != 0 ? dspec_path_keep_why(&path, DSPEC_WHY_FAILED) : dspec_path_park(&path);
}

/* The first service makes the requests; the others get them. */
static bool gets_next(int service, int from, message *got) {
    if (service > 0) return read(from, got, sizeof *got) == (ssize_t)sizeof *got;
    const dspec_traceparent of = { 0xac9055, ++got->request, 1, DSPEC_TRACEPARENT_SAMPLED };
    return dspec_traceparent_format(&of, got->traceparent) && got->request <= REQUESTS;
}

/* Those that may have to keep something later listen, from before their first request on. */
static bool begins_to_listen(pthread_t *listener, const char *socket) {
    redisReply *reply;
    subscriber = connects(socket);
    reply = redisCommand(subscriber, "SUBSCRIBE %s", channel);
    freeReplyObject(reply);
    return reply != NULL && pthread_create(listener, NULL, listen_to_others, NULL) == 0;
}

static int run(int service, const char *folder, const char *socket, int from, int next) {
    const dspec_tracer_options options = { .park_bytes = 4 << 20, .park_ms = 60000, .on_keep = tell_others };
    const bool is_last = service == SERVICES - 1;
    dspec_tracer_report report;
    pthread_t listener;
    message got = { 0, "" };
    char own[4200];
    publisher = connects(socket);
    snprintf(own, sizeof own, "%s/%s", folder, names[service]);
    if (!dspec_tracer_start(&tracer, own, &options, DSPEC_PROBES(received, answered))) {
        fprintf(stderr, "across: %s\n", tracer.why);
        return 1;
    }
    if (!is_last && !begins_to_listen(&listener, socket)) return 1;
    while (gets_next(service, from, &got)) serve(service, &got, next);
    if (next >= 0) close(next);
    if (!is_last) pthread_join(listener, NULL);
    const bool is_whole = dspec_tracer_stop(&tracer, &report); /* after this all keys are told */
    if (is_last) publish(over);
    printf("%s: kept %llu, thrown away %llu, missed %llu\n", names[service], (unsigned long long)report.kept, (unsigned long long)report.thrown, (unsigned long long)report.key_missed);
    return !is_whole;
}

/* A service has the pipe from the one before and that to the next one, and no other. */
static int begin(int service, char **words, int pipes[SERVICES][2]) {
    const int from = service > 0 ? pipes[service - 1][0] : -1, next = service < SERVICES - 1 ? pipes[service][1] : -1;
    for (int i = 0; i < SERVICES - 1; i++)
        for (int end = 0; end < 2; end++)
            if (pipes[i][end] != from && pipes[i][end] != next) close(pipes[i][end]);
    return run(service, words[1], words[2], from, next);
}

int main(int argc, char **argv) {
    int pipes[SERVICES][2], status, failed = 0;
    if (argc != 3 || (mkdir(argv[1], 0777) != 0 && access(argv[1], W_OK) != 0)) {
        fprintf(stderr, "usage: across FOLDER SOCKET\n");
        return 2;
    }
    for (int i = 0; i < SERVICES - 1; i++)
        if (pipe(pipes[i]) != 0) return 1;
    for (int service = 0; service < SERVICES; service++)
        if (fork() == 0) return begin(service, argv, pipes);
    for (int i = 0; i < SERVICES - 1; i++) {
        close(pipes[i][0]);
        close(pipes[i][1]);
    }
    while (wait(&status) > 0) failed |= status;
    return failed != 0;
}
