/* Prints how much stack the calls of dwcheck-dl take, as tools/stack_use.py reads it: for walks that reach the start of
   a thread, where all rows are kept; and where rows are looked up, and one has an expression. What a call writes is
   found on a stack that was filled with a pattern. */
#define _GNU_SOURCE
#include "dwcheck-dl.h"

#include <pthread.h>
#include <signal.h>
#include <stdio.h>
#include <stdlib.h>
#include <ucontext.h>

enum { FILLED = 128 << 10, NEAR = 256, PATTERN = 0x77, FRAMES = 64, DEPTH = 10 };

static void *addresses[FRAMES];
static dwcheck_dl_frame frames[FRAMES];
static ucontext_t context;

static void backtraces(void) { dwcheck_dl_backtrace(addresses, FRAMES); }
static void walks_from(void) { dwcheck_dl_backtrace_from(&context, addresses, FRAMES); }
static void walks_with_registers(void) {
    dwcheck_dl_request request = {.context = NULL};
    dwcheck_dl_frames(&request, frames, FRAMES);
}

static void (*call)(void);
static size_t used;

/* The bytes below this function's frame that a call changes. */
__attribute__((noinline)) static void measure(void) {
    volatile uint8_t *top = (uint8_t *)__builtin_frame_address(0) - NEAR;
    for (volatile uint8_t *at = top - FILLED; at < top; at++) *at = PATTERN;
    call();
    const volatile uint8_t *at = top - FILLED;
    while (at < top && *at == PATTERN) at++;
    used = (size_t)(top + NEAR - at);
}

/* With gcc, the CFA of this function is an expression's. */
static int deep(int depth);
__attribute__((noinline)) static int realigned(int depth) {
    volatile int aligned[16] __attribute__((aligned(64)));
    volatile char *bytes = __builtin_alloca((size_t)depth * 16);
    aligned[0] = bytes[0] = 0;
    return deep(depth - 1) + aligned[0];
}

static int is_realigned;
__attribute__((noinline)) static int deep(int depth) {
    volatile int result = 0;
    if (depth == DEPTH && is_realigned) return realigned(depth) + result;
    if (depth > 0) return deep(depth - 1) + result;
    getcontext(&context);
    measure();
    return result;
}

static void *runs(void *unused) {
    deep(DEPTH);
    return unused;
}

static size_t measured(void (*what)(void)) {
    pthread_attr_t attributes;
    pthread_t thread;
    call = what;
    pthread_attr_init(&attributes);
    pthread_attr_setstacksize(&attributes, 1 << 20);
    if (pthread_create(&thread, &attributes, runs, NULL) != 0 || pthread_join(thread, NULL) != 0) abort();
    return used;
}

static size_t most(size_t one, size_t other) { return one > other ? one : other; }

int main(void) {
    size_t first = measured(backtraces), kept;
    is_realigned = 1;
    first = most(first, measured(backtraces));
    first = most(first, most(measured(walks_from), measured(walks_with_registers)));
    is_realigned = 0;
    kept = measured(backtraces);
    measured(walks_from), measured(walks_with_registers);
    kept = most(kept, most(measured(walks_from), measured(walks_with_registers)));
    printf("looked up %zu\nkept %zu\n", first, kept);
    return 0;
}
