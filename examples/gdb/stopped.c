/* A program to stop in: its stack goes through the C library. */
#include <stdlib.h>

__attribute__((noinline)) int stopped(int x) {
    __asm__ volatile("");
    return x + 1;
}

static int compare(const void *a, const void *b) { return stopped(*(const int *)a) - *(const int *)b; }

int main(void) {
    int numbers[] = {3, 1, 2, 5, 4};
    qsort(numbers, 5, sizeof *numbers, compare);
    return numbers[0];
}
