/* Times libunwind's calls over the library beside libunwind's own, in one process and in turn.
       times LIBUNWIND      the path of libunwind's own libunwind.so.8
   Prints for each kind of stack nanoseconds a frame, the least of many rounds, the capture of registers included, and what
   part of libunwind's time ours is. */
#define _GNU_SOURCE
#include "dwcheck-unwind.h"

#include <alloca.h>
#include <dlfcn.h>
#include <signal.h>
#include <stdio.h>
#include <stdlib.h>
#include <string.h>
#include <time.h>

enum { ROOM = 2048, ROUNDS = 2000, DEPTH = 600 };

/* Walkers: ours, and libunwind's with each of its caching policies. */
enum { OUR_BACKTRACE, THEIR_BACKTRACE, OUR_STEPS, THEIR_STEPS, THEIR_STEPS_UNCACHED, WALKERS };
static const char *const names[] = {"unw_backtrace, ours", "unw_backtrace, libunwind's", "unw_step, ours", "unw_step, libunwind's",
                                    "unw_step, libunwind's without its cache"};

struct calls {
    int (*getcontext)(unw_context_t *);
    int (*init_local)(unw_cursor_t *, unw_context_t *);
    int (*step)(unw_cursor_t *);
    int (*get_reg)(unw_cursor_t *, int, unw_word_t *);
    int (*backtrace)(void **, int);
    int (*set_caching_policy)(unw_addr_space_t, unw_caching_policy_t);
    unw_addr_space_t space;
};
static struct calls ours, theirs;

static struct calls calls_of(void *library) {
    struct calls calls;
    *(void **)&calls.getcontext = dlsym(library, "_Ux86_64_getcontext");
    *(void **)&calls.init_local = dlsym(library, "_ULx86_64_init_local");
    *(void **)&calls.step = dlsym(library, "_ULx86_64_step");
    *(void **)&calls.get_reg = dlsym(library, "_ULx86_64_get_reg");
    *(void **)&calls.backtrace = dlsym(library, "unw_backtrace");
    *(void **)&calls.set_caching_policy = dlsym(library, "_ULx86_64_set_caching_policy");
    calls.space = *(unw_addr_space_t *)dlsym(library, "_ULx86_64_local_addr_space");
    return calls;
}

static void *addresses[WALKERS][ROOM];

static __attribute__((noinline)) int stepped(const struct calls *calls, void **written) {
    unw_context_t context;
    unw_cursor_t cursor;
    int n = 0;
    calls->getcontext(&context);
    calls->init_local(&cursor, &context);
    do {
        unw_word_t address;
        calls->get_reg(&cursor, UNW_REG_IP, &address);
        written[n++] = (void *)address;
    } while (n < ROOM && calls->step(&cursor) > 0);
    return n;
}

static int walk(int which) {
    switch (which) {
    case OUR_BACKTRACE: return ours.backtrace(addresses[which], ROOM);
    case THEIR_BACKTRACE: return theirs.backtrace(addresses[which], ROOM);
    case OUR_STEPS: return stepped(&ours, addresses[which]);
    default: return stepped(&theirs, addresses[which]);
    }
}

static double now(void) {
    struct timespec t;
    clock_gettime(CLOCK_MONOTONIC, &t);
    return (double)t.tv_sec * 1e9 + (double)t.tv_nsec;
}

static double best[WALKERS];
static int counts[WALKERS], status;

static __attribute__((noinline)) void time_one(int which) {
    double begun = now();
    counts[which] = walk(which);
    double each = (now() - begun) / counts[which];
    if (each < best[which]) best[which] = each;
}

/* ---- stacks ---- */

typedef unsigned long (*function)(int depth);
static unsigned char kinds[DEPTH + 1];
static const function functions[];
static void (*bottom)(void);
static void use(void *bytes) { __asm__ volatile("" : : "r"(bytes) : "memory"); }
static inline unsigned long next(int depth) {
    if (depth) return functions[kinds[depth]](depth - 1);
    bottom();
    return 1;
}

#define SHAPE(name, size, ...)                           \
    static unsigned long name(int depth) {               \
        char bytes[size];                                \
        unsigned long kept[5] = {(unsigned long)depth};  \
        __VA_ARGS__;                                     \
        use(bytes), use(kept);                           \
        unsigned long sum = next(depth);                 \
        use(bytes), use(kept);                           \
        return sum + kept[0];                            \
    }
#define SAVES unsigned long a = (unsigned long)depth; __asm__ volatile("" : "+r"(a) : : "rbx", "r12", "r13", "r14", "r15")
SHAPE(plain, 24, (void)0)
SHAPE(wider, 56, (void)0)
SHAPE(saves, 24, SAVES)
SHAPE(saves_more, 120, SAVES)
SHAPE(grows, 24, use(alloca(16 + (size_t)(depth & 7) * 16)))
SHAPE(grows_more, 40, use(alloca(16 + (size_t)(depth & 3) * 16)); SAVES)
SHAPE(one, 8, (void)0)
SHAPE(two, 200, (void)0)
SHAPE(three, 72, SAVES)
SHAPE(four, 88, (void)0)

/* Through a shared library, which calls back. */
int through(int levels, int (*down)(int));
static int goes_on(int depth) { return (int)next(depth); }
static unsigned long through_library(int depth) { return (unsigned long)through(depth + 1, goes_on) + 1; }

static const function functions[] = {plain, saves, grows, wider, saves_more, one, grows_more, two, three, four, through_library};
enum { KINDS = sizeof functions / sizeof *functions - 1, LIBRARY = KINDS };

static int round_of;

/* All walkers but the slow ones walk the stack at each call. */
static void time_all(void) {
    for (int i = 0; i <= OUR_STEPS; i++) time_one(i);
    if (round_of % 20 != 0) return;
    theirs.set_caching_policy(theirs.space, UNW_CACHE_PER_THREAD);
    stepped(&theirs, addresses[THEIR_STEPS]);
    time_one(THEIR_STEPS);
    theirs.set_caching_policy(theirs.space, UNW_CACHE_NONE);
    time_one(THEIR_STEPS_UNCACHED);
    theirs.set_caching_policy(theirs.space, UNW_CACHE_PER_THREAD);
}

static void in_handler(int number) {
    (void)number;
    time_all();
}
static void raise_elsewhere(void) { raise(SIGUSR1); }

static void show(const char *what) {
    printf("%s: %d frames\n", what, counts[OUR_BACKTRACE]);
    if (counts[OUR_BACKTRACE] != counts[THEIR_BACKTRACE] || counts[OUR_STEPS] != counts[THEIR_STEPS]) {
        printf("    the numbers of frames differ: %d and %d, %d and %d\n", counts[0], counts[1], counts[2], counts[3]);
        status = 1;
    }
    for (int i = 0; i < WALKERS; i++) {
        const int own = i <= THEIR_BACKTRACE ? OUR_BACKTRACE : OUR_STEPS;
        printf("    %-40s %7.2f ns a frame", names[i], best[i]);
        if (i != own) printf("; ours takes %.2f of it", best[own] / best[i]);
        printf("\n");
    }
}

/* Stacks: always the same one; one whose functions are drawn anew each time; the same one, with each third call through a
   library. */
enum order { SAME, DRAWN, THROUGH };
static unsigned char kind_of(enum order order, int i) {
    if (order == THROUGH && i % 3 == 0) return LIBRARY;
    return (unsigned char)((order == DRAWN ? rand() : i) % KINDS);
}

/* Walks a stack of this depth many times. */
static void try_stack(const char *what, int depth, enum order order, void (*last)(void)) {
    for (int i = 0; i < WALKERS; i++) best[i] = 1e30;
    bottom = last;
    for (round_of = 0; round_of < ROUNDS; round_of++) {
        for (int i = 0; i <= depth && (order == DRAWN || round_of == 0); i++) kinds[i] = kind_of(order, i);
        next(depth);
    }
    show(what);
}

int main(int argc, char **argv) {
    static char other_stack[1 << 20] __attribute__((aligned(64)));
    const stack_t elsewhere = {.ss_sp = other_stack, .ss_size = sizeof other_stack};
    const struct sigaction action = {.sa_handler = in_handler, .sa_flags = SA_ONSTACK};
    void *library = argc > 1 ? dlopen(argv[1], RTLD_NOW | RTLD_LOCAL | RTLD_DEEPBIND) : NULL;
    if (!library) return 2;
    ours = (struct calls){unw_getcontext, unw_init_local, unw_step, unw_get_reg, unw_backtrace, unw_set_caching_policy,
                          unw_local_addr_space};
    theirs = calls_of(library);
    if (!theirs.step || theirs.step == ours.step) return 2;
    sigaltstack(&elsewhere, NULL);
    sigaction(SIGUSR1, &action, NULL);
    try_stack("the same stack again, 600 deep", DEPTH, SAME, time_all);
    try_stack("the same stack again, 25 deep", 20, SAME, time_all);
    try_stack("the same stack again, 8 deep", 3, SAME, time_all);
    try_stack("the same stack again, through a library", 16, THROUGH, time_all);
    try_stack("another stack each time, 600 deep", DEPTH, DRAWN, time_all);
    try_stack("another stack each time, 25 deep", 20, DRAWN, time_all);
    try_stack("from a handler on another stack, 25 deep", 20, SAME, raise_elsewhere);
    return status;
}
