/* Walks a deep stack of its own some times, where all rows are kept, and prints how many frames it has.
   usage: walks COUNT */
#include <dwcheck-dl.h>
#include <stdio.h>
#include <stdlib.h>

enum { FRAMES = 256, DEPTH = 100 };

static int walks;

__attribute__((noinline)) static int walk(void) {
    void *addresses[FRAMES];
    int count = dwcheck_dl_backtrace(addresses, FRAMES);
    for (int i = 0; i < walks; i++) count = dwcheck_dl_backtrace(addresses, FRAMES);
    return count;
}

__attribute__((noinline)) static int deep(int depth) {
    volatile int here = depth;
    return depth == 0 ? walk() : deep(depth - 1) + here - here;
}

int main(int count, char **arguments) {
    walks = count > 1 ? atoi(arguments[1]) : 1;
    if (dwcheck_dl_thread() != DWCHECK_DONE) return 1;
    return printf("%d\n", deep(DEPTH)) < 0;
}
