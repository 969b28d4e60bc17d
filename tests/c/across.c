/* Requests go through three processes, gateway, orders and payments, and one in a hundred turns out to have failed up to LATE_MS after payments has answered it. The keys go over
 * redis-server, which may be killed and begin anew, and so may a process: `across FOLDER SOCKET REQUESTS LATE_MS SEED PARK_BYTES SURVIVE`. The gateway says when half of the requests
 * are made, and three quarters, and waits for a line then; with LATE_MS 0 also at half, until all failures are told. Once orders is killed, the gateway sends its requests to payments.
 * Compile it with -lhiredis. */
#define _DEFAULT_SOURCE
#include "dspec_traceparent.h"
#include "dspec_tracer.h"

#include <errno.h>
#include <hiredis/hiredis.h>
#include <inttypes.h>
#include <pthread.h>
#include <signal.h>
#include <stdio.h>
#include <stdlib.h>
#include <string.h>
#include <sys/mman.h>
#include <sys/stat.h>
#include <sys/wait.h>
#include <unistd.h>

DSPEC_PROBE(received, uint64_t, request);
DSPEC_PROBE(answered, uint64_t, request, int32_t, code);
DSPEC_PROBE(settled, uint64_t, request, uint32_t, by_orders);

enum { GATEWAY, ORDERS, PAYMENTS, SERVICES };
enum { KEY_HIGH = 0xac9055, PARK_MS = 600000, SAID_AGAIN = 4000, MOST_LATE = 65536 };
static const char *const names[SERVICES] = { "gateway", "orders", "payments" };

/* What all processes share. */
typedef struct shared {
    uint32_t listeners; /* so many others are to hear each key */
    uint64_t answered, failed, told; /* by payments; told: keys that all have heard */
} shared;

/* What goes through the pipes, in one piece. */
typedef struct message {
    uint64_t request;
    uint32_t by_orders;
    char traceparent[DSPEC_TRACEPARENT_SIZE];
} message;

typedef struct failure {
    uint64_t request, due;
    uint32_t by_orders;
} failure;

static dspec_tracer tracer;
static shared *all;
static const char *socket_name;
static uint64_t requests, late_ms, seed;

static void naps(void) {
    const struct timespec for_so_long = { 0, 1000000 };
    nanosleep(&for_so_long, NULL);
}

/* ---- Keys that are told. ---- */

static pthread_mutex_t lock = PTHREAD_MUTEX_INITIALIZER;
static uint64_t *keys; /* of those that were kept here, in their order */
static size_t key_count;
static uint32_t is_last; /* no further one comes */

/* The consumer's thread calls it. */
static void note_key(void *unused, uint64_t high, uint64_t low) {
    (void)unused;
    if (high != KEY_HIGH || low > requests) exit(3);
    pthread_mutex_lock(&lock);
    keys[key_count++] = low;
    pthread_mutex_unlock(&lock);
}

static redisContext *connects(void) {
    for (;; naps()) {
        redisContext *redis = redisConnectUnix(socket_name);
        if (redis != NULL && redis->err == 0) return redis;
        if (redis != NULL) redisFree(redis);
    }
}

/* Whether all others got it. After a broker has died the connection is another one. */
static bool publishes(redisContext **redis, const char *text, bool *is_new) {
    redisReply *reply = redisCommand(*redis, "PUBLISH failures %s", text);
    bool is_heard = reply != NULL && reply->type == REDIS_REPLY_INTEGER && reply->integer >= __atomic_load_n(&all->listeners, __ATOMIC_ACQUIRE);
    *is_new = reply == NULL;
    freeReplyObject(reply);
    if (!*is_new) return is_heard;
    redisFree(*redis);
    *redis = connects();
    return false;
}

static size_t known_keys(void) {
    size_t count;
    pthread_mutex_lock(&lock);
    count = key_count;
    pthread_mutex_unlock(&lock);
    return count;
}

/* The text of a key, or of the end after all keys; false: the next key isn't there yet. */
static bool text_of(size_t number, char text[DSPEC_TRACEPARENT_SIZE]) {
    const bool are_all = __atomic_load_n(&is_last, __ATOMIC_ACQUIRE) != 0, is_there = number < known_keys();
    const dspec_traceparent of = { KEY_HIGH, is_there ? keys[number] : 0, 1, DSPEC_TRACEPARENT_SAMPLED };
    if (is_there) return dspec_traceparent_format(&of, text);
    snprintf(text, DSPEC_TRACEPARENT_SIZE, "over");
    return are_all;
}

/* Tells each key until all have heard it. A broker that died may have taken the last ones with it, so these are told again. */
static void *tell_others(void *unused) {
    redisContext *redis = connects();
    char text[DSPEC_TRACEPARENT_SIZE] = "";
    bool is_new = false;
    for (size_t told = 0; strcmp(text, "over") != 0 || told <= known_keys();) {
        if (!text_of(told, text)) naps();
        else if (publishes(&redis, text, &is_new)) __atomic_store_n(&all->told, ++told, __ATOMIC_RELEASE);
        else if (is_new) told = told > SAID_AGAIN ? told - SAID_AGAIN : 0;
        else naps();
    }
    redisFree(redis);
    return unused;
}

/* What came, where it is a message: whether it was the last one. */
static bool hears(const redisReply *reply) {
    const redisReply *text = reply->type == REDIS_REPLY_ARRAY && reply->elements == 3 ? reply->element[2] : NULL;
    dspec_traceparent of;
    if (text == NULL || text->type != REDIS_REPLY_STRING) return false;
    if (dspec_traceparent_parse(text->str, text->len, &of))
        while (!dspec_tracer_keep_key(&tracer, of.trace_high, of.trace_low)) naps();
    return strcmp(text->str, "over") == 0;
}

static void *listen_to_others(void *unused) {
    for (bool is_over = false; !is_over;) {
        redisContext *redis = connects();
        redisReply *reply;
        freeReplyObject(redisCommand(redis, "SUBSCRIBE failures"));
        for (; !is_over && redisGetReply(redis, (void **)&reply) == REDIS_OK; freeReplyObject(reply)) is_over = hears(reply);
        redisFree(redis);
    }
    return unused;
}

/* ---- Failures that are known late. ---- */

static failure waiting[MOST_LATE];
static size_t waiting_count;

static uint64_t dice(uint64_t number) {
    number = (number + seed * 1000003) * UINT64_C(0x9e3779b97f4a7c15);
    return (number ^ number >> 29) * UINT64_C(0x94d049bb133111eb) >> 33;
}

/* The answer was given; that it was wrong is known later. */
static void fails(const message *got) {
    const failure one = { got->request, dspec_tracer_now() + dice(got->request) % (late_ms + 1) * 1000000, got->by_orders };
    pthread_mutex_lock(&lock);
    if (waiting_count == MOST_LATE) exit(4);
    waiting[waiting_count++] = one;
    pthread_mutex_unlock(&lock);
    __atomic_store_n(&all->failed, all->failed + 1, __ATOMIC_RELEASE);
}

static bool takes_due(failure *one) {
    bool is_one = false;
    pthread_mutex_lock(&lock);
    for (size_t i = 0; i < waiting_count && !is_one; i++) {
        if (waiting[i].due > dspec_tracer_now()) continue;
        *one = waiting[i];
        waiting[i] = waiting[--waiting_count];
        is_one = true;
    }
    pthread_mutex_unlock(&lock);
    return is_one;
}

static size_t known_waiting(void) {
    size_t count;
    pthread_mutex_lock(&lock);
    count = waiting_count;
    pthread_mutex_unlock(&lock);
    return count;
}

static void *settle_late(void *is_over) {
    failure one;
    while (!__atomic_load_n((uint32_t *)is_over, __ATOMIC_ACQUIRE) || known_waiting() > 0) {
        if (!takes_due(&one)) {
            naps();
            continue;
        }
        dspec_path path = dspec_path_begin(&tracer);
        settled_in(&path, one.request, one.by_orders);
        dspec_path_key(&path, KEY_HIGH, one.request);
        if (!dspec_path_keep_why(&path, DSPEC_WHY_FAILED)) exit(5);
    }
    return NULL;
}

/* ---- Requests. ---- */

static bool sends(int to, const message *got) { return write(to, got, sizeof *got) == (ssize_t)sizeof *got; }

/* The others of the way get it: where orders is gone, payments does. */
static void pass_on(int service, const message *got, const int next[SERVICES]) {
    if (service == PAYMENTS || (service == GATEWAY && sends(next[ORDERS], got))) return;
    if (!sends(next[PAYMENTS], got)) exit(6);
}

static void serve(int service, message *got, const int next[SERVICES]) {
    dspec_path path = dspec_path_begin(&tracer);
    dspec_traceparent of;
    received_in(&path, got->request);
    if (!dspec_traceparent_parse(got->traceparent, strlen(got->traceparent), &of) || !dspec_path_key(&path, of.trace_high, of.trace_low)) exit(7);
    if (service == ORDERS) got->by_orders = 1;
    pass_on(service, got, next);
    answered_in(&path, got->request, 0);
    dspec_path_park(&path);
    if (service != PAYMENTS) return;
    if (got->request % 100 == 13) fails(got);
    __atomic_store_n(&all->answered, all->answered + 1, __ATOMIC_RELEASE);
}

static void says(const char *what) {
    printf("%s\n", what);
    fflush(stdout);
}

static void waits_for_line(void) {
    char line[16];
    if (fgets(line, sizeof line, stdin) == NULL) exit(8);
}

/* All that failed is known everywhere. */
static bool is_settled(uint64_t made) {
    const uint64_t answered = __atomic_load_n(&all->answered, __ATOMIC_ACQUIRE), failed = __atomic_load_n(&all->failed, __ATOMIC_ACQUIRE);
    return answered == made && __atomic_load_n(&all->told, __ATOMIC_ACQUIRE) == failed;
}

static void tell_progress(uint64_t made) {
    if (made == requests / 2) {
        while (late_ms == 0 && !is_settled(made)) naps();
        says("half");
        if (late_ms == 0) waits_for_line();
    } else if (made == requests / 4 * 3) {
        says("three quarters");
        waits_for_line();
    } else if (made == requests) {
        says("all");
    }
}

static bool gets_next(int service, int from, message *got) {
    if (service != GATEWAY) return read(from, got, sizeof *got) == (ssize_t)sizeof *got;
    const dspec_traceparent of = { KEY_HIGH, got->request + 1, 1, DSPEC_TRACEPARENT_SAMPLED };
    tell_progress(got->request++);
    return dspec_traceparent_format(&of, got->traceparent) && got->request <= requests;
}

static void report(int service, bool is_whole, const dspec_tracer_report *of) {
    printf("%s: whole %d, kept %" PRIu64 ", thrown %" PRIu64 ", parked %" PRIu64 ", evicted %" PRIu64 ", expired %" PRIu64 ", missed %" PRIu64 ", told %zu, failed %" PRIu64 "\n",
           names[service], is_whole, of->kept, of->thrown, of->parked, of->park_evicted, of->park_expired, of->key_missed, key_count, all->failed);
    fflush(stdout);
}

static int run(int service, const char *folder, const dspec_tracer_options *options, int from, int next[SERVICES]) {
    const bool tells = service == PAYMENTS;
    uint32_t is_over = 0;
    dspec_tracer_report of;
    message got = { 0, 0, "" };
    pthread_t other, settler;
    char own[4200];
    snprintf(own, sizeof own, "%s/%s", folder, names[service]);
    if (!dspec_tracer_start(&tracer, own, options, DSPEC_PROBES(received, answered, settled))) return fprintf(stderr, "across: %s\n", tracer.why), 1;
    printf("%s is %d\n", names[service], getpid());
    fflush(stdout);
    if (pthread_create(&other, NULL, tells ? tell_others : listen_to_others, NULL) != 0 || (tells && pthread_create(&settler, NULL, settle_late, &is_over) != 0)) return 1;
    while (gets_next(service, from, &got)) serve(service, &got, next);
    for (int i = 0; i < SERVICES; i++)
        if (next[i] >= 0) close(next[i]);
    __atomic_store_n(&is_over, 1, __ATOMIC_RELEASE);
    if (tells) pthread_join(settler, NULL);
    else pthread_join(other, NULL);
    const bool is_whole = dspec_tracer_stop(&tracer, &of);
    if (!is_whole) fprintf(stderr, "%s isn't whole: %s, %" PRIu64 " lost, %" PRIu64 " not written, %" PRIu64 " lanes stuck\n", names[service], of.why, of.lost, of.not_written, of.stuck_lanes);
    __atomic_store_n(&is_last, 1, __ATOMIC_RELEASE);
    if (tells) pthread_join(other, NULL);
    report(service, is_whole, &of);
    return !is_whole;
}

/* Orders reads the first pipe, payments the second one, which both others write to. */
static int begin(int service, const char *folder, const dspec_tracer_options *options, int pipes[2][2]) {
    int from[SERVICES] = { -1, pipes[0][0], pipes[1][0] }, next[SERVICES] = { -1, service == GATEWAY ? pipes[0][1] : -1, service != PAYMENTS ? pipes[1][1] : -1 };
    for (int i = 0; i < 2; i++)
        for (int end = 0; end < 2; end++)
            if (pipes[i][end] != from[service] && pipes[i][end] != next[ORDERS] && pipes[i][end] != next[PAYMENTS]) close(pipes[i][end]);
    return run(service, folder, options, from[service], next);
}

/* Until all have ended: one that was killed hears no more keys. Whether none failed otherwise. */
static bool waits_for_all(void) {
    bool is_well = true;
    int status;
    while (wait(&status) > 0) {
        if (WIFSIGNALED(status) && WTERMSIG(status) == SIGKILL) __atomic_fetch_sub(&all->listeners, 1, __ATOMIC_RELEASE);
        else is_well = is_well && status == 0;
    }
    return is_well;
}

int main(int argc, char **argv) {
    int pipes[2][2];
    if (argc != 8 || (mkdir(argv[1], 0777) != 0 && errno != EEXIST)) return fprintf(stderr, "usage: across FOLDER SOCKET REQUESTS LATE_MS SEED PARK_BYTES SURVIVE\n"), 2;
    socket_name = argv[2];
    requests = strtoull(argv[3], NULL, 10);
    late_ms = strtoull(argv[4], NULL, 10);
    seed = strtoull(argv[5], NULL, 10);
    const dspec_tracer_options options = { .lanes = 2, .park_bytes = strtoull(argv[6], NULL, 10), .park_ms = PARK_MS, .on_keep = note_key, .survive = argv[7][0] == '1', .keep_ms = 60000 };
    all = mmap(NULL, sizeof *all, PROT_READ | PROT_WRITE, MAP_SHARED | MAP_ANONYMOUS, -1, 0);
    keys = calloc(requests + 1, sizeof *keys);
    if (all == MAP_FAILED || keys == NULL || pipe(pipes[0]) != 0 || pipe(pipes[1]) != 0) return 1;
    all->listeners = SERVICES - 1;
    signal(SIGPIPE, SIG_IGN);
    for (int service = 0; service < SERVICES; service++)
        if (fork() == 0) return begin(service, argv[1], &options, pipes);
    for (int i = 0; i < 2; i++)
        for (int end = 0; end < 2; end++) close(pipes[i][end]);
    return !waits_for_all();
}
