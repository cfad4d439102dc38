/* For the tests of dwcheck-dl: comparisons of its stacks with those of glibc's backtrace, and a count of what is
   wrong. */
#ifndef DL_H
#define DL_H

#include "dwcheck-dl.h"

#include <dlfcn.h>
#include <stdatomic.h>
#include <stdio.h>
#include <stdlib.h>
#include <string.h>

enum { FRAMES = 200, DEPTH = 30 };

static atomic_int wrong, walks;
#define IS(what, want)                                                                               \
    do {                                                                                             \
        long long is_ = (long long)(what), want_ = (long long)(want);                                \
        if (is_ != want_) {                                                                          \
            wrong++;                                                                                 \
            printf("%d: %s is %lld, not %lld\n", __LINE__, #what, is_, want_);                       \
        }                                                                                            \
    } while (0)

/* That of the C library, and not of a sanitizer. Its first call loads a library. */
static int (*backtrace)(void **addresses, int size);
__attribute__((constructor(101))) static void find_backtrace(void) {
    void *one;
    *(void **)&backtrace = dlsym(dlopen("libc.so.6", RTLD_NOW), "backtrace");
    if (backtrace == NULL) abort();
    backtrace(&one, 1);
}

/* The frames with registers are those of the addresses, and the CFA of each is the stack pointer of the next one. */
__attribute__((noinline)) static void compare_frames(void **addresses, int count) {
    dwcheck_dl_frame frames[FRAMES];
    dwcheck_dl_request request = {.context = NULL};
    int frame_count = dwcheck_dl_frames(&request, frames, FRAMES), same = 0, linked = 0;
    IS(frame_count, count + 1); /* this function's is the first */
    for (int i = 1; i < count && i + 1 < frame_count; i++) {
        same += frames[i + 1].place.address == (uintptr_t)addresses[i];
        linked += frames[i].cfa == frames[i + 1].place.stack_pointer;
    }
    IS(same, count - 1);
    IS(linked, count - 1);
}

/* Compares the two stacks of this function, of which the first addresses differ. */
__attribute__((noinline)) static void compare(void) {
    void *ours[FRAMES], *theirs[FRAMES];
    int our_count = dwcheck_dl_backtrace(ours, FRAMES), their_count = backtrace(theirs, FRAMES);
    walks++;
    IS(our_count, their_count);
    if (our_count == their_count) IS(memcmp(ours + 1, theirs + 1, (size_t)(our_count - 1) * sizeof *ours), 0);
    if (our_count < FRAMES - 1) compare_frames(ours, our_count);
}

__attribute__((noinline)) static int deep(int depth, void (*last)(void)) {
    if (depth == 0) last();
    else deep(depth - 1, last);
    return depth + atomic_load(&walks);
}

static inline int report(void) {
    printf("%d walks, %d wrong\n", atomic_load(&walks), atomic_load(&wrong));
    return atomic_load(&wrong) != 0;
}

#endif
