/* Dies in the handler of a signal that has interrupted a chain of calls. */
#include <signal.h>
#include <stdlib.h>

static void on_signal(int signal) {
    (void)signal;
    abort();
}

__attribute__((noinline)) static int deep(int depth) {
    volatile int here = depth;
    if (depth == 0) raise(SIGUSR1);
    else deep(depth - 1);
    return here;
}

int main(void) {
    signal(SIGUSR1, on_signal);
    return deep(10);
}
