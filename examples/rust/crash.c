/* The program whose core file the example reads. It has two threads: one is in a callback of the C
   library's qsort when the other aborts in a deep call. */
#include <pthread.h>
#include <stdlib.h>
#include <unistd.h>

static volatile int waits;

static int order(const void *x, const void *y) {
    waits = 1;
    for (;;) pause();
    return *(const int *)x - *(const int *)y;
}

static void *sorts(void *unused) {
    int values[] = {3, 1, 2};
    qsort(values, 3, sizeof *values, order);
    return unused;
}

__attribute__((noinline)) static int deep(int levels) {
    volatile int kept = levels;
    if (levels == 0) abort();
    return deep(levels - 1) + kept;
}

int main(void) {
    pthread_t thread;
    if (pthread_create(&thread, NULL, sorts, NULL) != 0) return 1;
    while (!waits) usleep(1000);
    return deep(20);
}
