/* Prints how many frames two stacks have, by dwcheck-dl and by glibc: one of functions with rows in .eh_frame alone, and
   one through a function of another object, whose rows may be in .debug_frame alone. */
#include "dwcheck-dl.h"

#include <execinfo.h>
#include <stdio.h>

int through(int (*f)(void));

__attribute__((noinline)) static int counts(void) {
    void *addresses[64];
    int ours = dwcheck_dl_backtrace(addresses, 64), theirs = backtrace(addresses, 64);
    return printf("%d %d\n", ours, theirs);
}

__attribute__((noinline)) static int deep(int depth) { return (depth == 0 ? counts() : deep(depth - 1)) + 1; }

int main(void) {
    if (dwcheck_dl_prepare() != DWCHECK_DONE) return 1;
    return deep(5) + through(counts) < 0;
}
