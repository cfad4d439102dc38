/* For LD_PRELOAD, in any program: at each seventh malloc it takes the stack by our unw_backtrace, by libunwind's and by glibc's
   backtrace, and compares them. At the end, a line says how many stacks and frames there were, and how many stacks differ.
   OURS and THEIRS are the paths of the two libunwind.so.8. */
#define _GNU_SOURCE
#include <dlfcn.h>
#include <execinfo.h>
#include <stdbool.h>
#include <stdio.h>
#include <stdlib.h>
#include <unistd.h>

enum { ROOM = 256, EACH = 7, SHOWN = 3 };
extern void *__libc_malloc(size_t size);
typedef int backtrace_call(void **addresses, int size);
static backtrace_call *ours, *theirs;
static unsigned long requests, stacks, frames, differ_from_libunwind, differ_from_glibc;
static __thread bool is_inside __attribute__((tls_model("initial-exec")));

static void report(void) {
    dprintf(2, "%lu stacks, %lu frames: %lu stacks differ from libunwind's, %lu from glibc's\n", stacks, frames, differ_from_libunwind,
            differ_from_glibc);
}

__attribute__((constructor)) static void begin(void) {
    void *first;
    is_inside = true;
    void *own = dlopen(getenv("OURS"), RTLD_NOW | RTLD_LOCAL), *other = dlopen(getenv("THEIRS"), RTLD_NOW | RTLD_LOCAL | RTLD_DEEPBIND);
    if (!own || !other) dprintf(2, "%s\n", dlerror()), _exit(2);
    backtrace(&first, 1); /* it loads a library */
    *(void **)&theirs = dlsym(other, "unw_backtrace");
    *(void **)&ours = dlsym(own, "unw_backtrace");
    atexit(report);
    is_inside = false;
}

/* The first addresses are in this library. Those of libunwind after a signal are one less. */
static bool is_same(void *const *one, int count, void *const *other, int other_count, long least) {
    bool same = count == other_count;
    for (int i = 1; i < count && i < other_count; i++) same &= labs((char *)one[i] - (char *)other[i]) <= least;
    return same;
}

__attribute__((noinline)) static void compare(void) {
    void *own[ROOM], *other[ROOM], *of_glibc[ROOM];
    const int count = ours(own, ROOM), other_count = theirs(other, ROOM), glibc_count = backtrace(of_glibc, ROOM);
    stacks++;
    frames += (unsigned long)count;
    if (!is_same(own, count, other, other_count, 1)) differ_from_libunwind++;
    if (is_same(own, count, of_glibc, glibc_count, 0) || differ_from_glibc++ >= SHOWN) return;
    for (int i = 0; i < count || i < glibc_count; i++)
        dprintf(2, "    %p %p\n", i < count ? own[i] : NULL, i < glibc_count ? of_glibc[i] : NULL);
}

void *malloc(size_t size) {
    if (ours && !is_inside && requests++ % EACH == 0) {
        is_inside = true;
        compare();
        is_inside = false;
    }
    return __libc_malloc(size);
}
