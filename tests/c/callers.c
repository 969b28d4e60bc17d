/* A program that crashes in a function whose callers are known, for tests/c/whose: `callers FOLDER WAY`, on the main thread, or with a third word on another. The way is what it does there:
 * it aborts, has the C library read where nothing is, does so itself, or does so with one of these as its frame pointer, none of which is a frame's. */
#define _GNU_SOURCE
#include "dspec_tracer.h"

#include <pthread.h>
#include <stdio.h>
#include <stdlib.h>
#include <string.h>
#include <sys/mman.h>

#define APART __attribute__((noinline))

DSPEC_PROBE(query, uint64_t, request);

static dspec_tracer tracer;
static const char *way;
static volatile uintptr_t nowhere = 8;
static volatile size_t written;

#if defined(__x86_64__)
/* Crashes with this as the frame pointer. */
__attribute__((naked, noinline)) static void crash_with(__attribute__((unused)) uintptr_t frame) {
    __asm__("movq %rdi, %rbp\n\tmovl $1, 8\n\tud2");
}

static void crash_in_pages(bool is_loop) {
    uintptr_t *pages = mmap(NULL, 8192, PROT_READ | PROT_WRITE, MAP_PRIVATE | MAP_ANONYMOUS, -1, 0);
    pages[0] = is_loop ? (uintptr_t)pages : (uintptr_t)(pages + 1024);
    pages[1] = (uintptr_t)crash_in_pages;
    mprotect(pages + 512, 4096, PROT_NONE);
    crash_with(is_loop ? (uintptr_t)pages : (uintptr_t)(pages + 511));
}

static void crash_with_frame(void) {
    uintptr_t here[2] = { (uintptr_t)here, (uintptr_t)here };
    if (strcmp(way, "zero") == 0) crash_with(0);
    if (strcmp(way, "odd") == 0) crash_with((uintptr_t)here + 3);
    if (strcmp(way, "self") == 0) crash_with((uintptr_t)here);
    if (strcmp(way, "high") == 0) crash_with((uintptr_t)here + 65536 * 8);
    if (strcmp(way, "noncanonical") == 0) crash_with((uintptr_t)1 << 60);
    if (strcmp(way, "last") == 0) crash_with(UINTPTR_MAX - 7);
    if (strcmp(way, "code") == 0) crash_with((uintptr_t)crash_with_frame & ~(uintptr_t)7);
    if (strcmp(way, "edge") == 0) crash_in_pages(false);
    if (strcmp(way, "loop") == 0) crash_in_pages(true);
}
#else
static void crash_with_frame(void) {}
#endif

/* What it leaves on the stack below its caller is another's frames. */
APART static size_t looks(size_t deep) {
    char text[64];
    snprintf(text, sizeof text, "%zu", deep);
    return deep > 0 ? looks(deep - 1) + strlen(text) : strlen(text);
}

APART static void fails(void) {
    written = looks(4);
    if (strcmp(way, "abort") == 0) abort();
    if (strcmp(way, "library") == 0) written = strlen((const char *)nowhere);
    if (strcmp(way, "own") == 0) *(volatile int *)nowhere = 1;
    crash_with_frame();
    written++;
}

APART static void handles(void) {
    fails();
    written++;
}

APART static void *serves(void *unused) {
    dspec_path path = dspec_path_begin(&tracer);
    query_in(&path, 7);
    handles();
    written++;
    return unused;
}

int main(int argc, char **argv) {
    pthread_t thread;
    if (argc < 3 || !dspec_tracer_start(&tracer, argv[1], NULL, DSPEC_PROBES(query))) {
        fprintf(stderr, "callers: %s\n", tracer.why);
        return 2;
    }
    way = argv[2];
    if (argc == 3) serves(NULL);
    else if (pthread_create(&thread, NULL, serves, NULL) == 0) pthread_join(thread, NULL);
    return 3;
}
