/* An example program: a page that was written for libunwind, and the same page moved to dwcheck call by
   call. It is compiled twice, with -DLIBUNWIND and without, and prints the same: for each frame of its
   stack how far its stack pointer is from the innermost one, and for those of `deep` how far the
   instruction pointer is from the beginning of that function. */
#define _GNU_SOURCE
#include <inttypes.h>
#include <stdio.h>
#include <stdlib.h>

static int deep(int depth);

static void print_frame(uint64_t ip, uint64_t sp) {
    enum { LENGTH = 128 };
    static uint64_t innermost;
    if (innermost == 0) innermost = sp;
    uint64_t inside = ip - (uintptr_t)deep;
    if (inside < LENGTH) printf("%6" PRIu64 " deep+0x%" PRIx64 "\n", sp - innermost, inside);
    else printf("%6" PRIu64 "\n", sp - innermost);
}

#ifdef LIBUNWIND

#define UNW_LOCAL_ONLY
#include <libunwind.h>

__attribute__((noinline)) static void print_stack(void) {
    unw_context_t context;
    unw_cursor_t cursor;
    unw_word_t ip, sp;
    unw_getcontext(&context);
    unw_init_local2(&cursor, &context, 0);
    while (unw_step(&cursor) > 0) {
        unw_get_reg(&cursor, UNW_REG_IP, &ip);
        unw_get_reg(&cursor, UNW_REG_SP, &sp);
        print_frame(ip, sp);
    }
}

#else

#include <dwcheck-dl.h>

__attribute__((noinline)) static void print_stack(void) {
    enum { MOST = 64 };
    dwcheck_dl_frame frames[MOST];
    dwcheck_dl_request request = {.context = NULL};        /* unw_getcontext, unw_init_local2 */
    int count = dwcheck_dl_frames(&request, frames, MOST); /* unw_step */
    for (int i = 1; i < count; i++) print_frame(frames[i].place.address, frames[i].place.stack_pointer); /* unw_get_reg */
}

#endif

static int compare(const void *a, const void *b) {
    static int calls;
    if (calls++ == 0) print_stack();
    return *(const int *)a - *(const int *)b;
}

__attribute__((noinline)) static int deep(int depth) {
    int numbers[] = {3, 1, 2};
    if (depth > 0) return deep(depth - 1) + 1;
    qsort(numbers, 3, sizeof *numbers, compare);
    return numbers[0];
}

int main(void) { return deep(10) - 11; }
