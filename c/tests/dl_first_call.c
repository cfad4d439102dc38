/* Tests walks of dwcheck-dl from where the dynamic linker looks a symbol up for the first time: it calls the function that
   chooses one, which calls back. Once with kept rows, and once when walks that were left have taken all caches. The library
   is chosen.c. */
#define _GNU_SOURCE
#include "dl.h"

#include <setjmp.h>
#include <signal.h>
#include <sys/time.h>

enum { LEFT = 200, MICROSECONDS = 300 };

extern void (*call_back)(void);
int chosen_first(void);
int chosen_second(void);

static void *callers[FRAMES]; /* what the stack has above the function that makes the calls */
static int caller_count, called;
static sigjmp_buf before;

/* Whether the last addresses are those of the stack above. */
static int is_whole(void **addresses, int count) {
    const int above = caller_count - 1; /* the first one is where the stack was read */
    return count > above && memcmp(addresses + count - above, callers + 1, (size_t)above * sizeof *callers) == 0;
}

static void on_choice(void) {
    void *addresses[FRAMES];
    const int count = dwcheck_dl_backtrace(addresses, FRAMES);
    called++;
    IS(is_whole(addresses, count), 1);
    compare_frames(addresses, count);
}

static void on_timer(int signal) {
    (void)signal;
    siglongjmp(before, 1);
}

/* Leaves walks, each of which then keeps its cache. */
static void leave_walks(void) {
    const struct itimerval once = {{0, 0}, {0, MICROSECONDS}};
    void *addresses[FRAMES];
    for (volatile int i = 0; i < LEFT; i++) {
        if (sigsetjmp(before, 1) != 0) continue;
        setitimer(ITIMER_REAL, &once, NULL);
        for (;;) dwcheck_dl_backtrace(addresses, FRAMES);
    }
}

__attribute__((noinline)) static void call(void) {
    struct sigaction action = {.sa_handler = on_timer};
    compare();
    caller_count = backtrace(callers, FRAMES);
    call_back = on_choice;
    IS(chosen_first(), 1);
    sigaction(SIGALRM, &action, NULL);
    leave_walks();
    IS(chosen_second(), 2);
    IS(called, 2);
}

int main(void) {
    deep(DEPTH, call);
    return report();
}
