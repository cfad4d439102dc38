/* Tests of walks of dwcheck-dl that are interrupted at each instruction: the handler of the single step walks too, or
   leaves the walk by siglongjmp, or a child is made by fork there. Walks that come later give glibc's frames, also
   when no cache is left. */
#define _GNU_SOURCE
#include "dl.h"

#include <setjmp.h>
#include <signal.h>
#include <sys/wait.h>
#include <ucontext.h>
#include <unistd.h>

enum { SINGLE_STEP = 1 << 8, LEFT = 60, CHILDREN = 10 };

static sigjmp_buf before;
static volatile unsigned long stops, last_stop; /* at which stop something is done; 0 for each */
static enum { WALKS, LEAVES, FORKS } volatile what;

static void walk_in_child(void) {
    pid_t child = fork();
    if (child == 0) {
        atomic_store(&wrong, 0);
        compare();
        _exit(atomic_load(&wrong) != 0);
    }
    int status = 1;
    waitpid(child, &status, 0);
    IS(status, 0);
}

static void on_step(int signal, siginfo_t *info, void *context) {
    (void)signal, (void)info;
    greg_t *flags = &((ucontext_t *)context)->uc_mcontext.gregs[REG_EFL];
    if (++stops != last_stop) {
        if (what == WALKS) compare();
        return;
    }
    *flags &= ~(greg_t)SINGLE_STEP;
    if (what == LEAVES) siglongjmp(before, 1);
    if (what == FORKS) walk_in_child();
}

static void on_begin(int signal, siginfo_t *info, void *context) {
    (void)signal, (void)info;
    ((ucontext_t *)context)->uc_mcontext.gregs[REG_EFL] |= SINGLE_STEP;
}

/* Walks, and is interrupted after each instruction up to this one. Returns how many there were. */
__attribute__((noinline)) static unsigned long stepped(unsigned long last) {
    void *addresses[FRAMES];
    stops = 0;
    last_stop = last;
    if (sigsetjmp(before, 1) == 0) {
        raise(SIGUSR1);
        dwcheck_dl_backtrace(addresses, FRAMES);
        __asm__ volatile("pushfq\n\tandq $~0x100, (%%rsp)\n\tpopfq" : : : "cc", "memory");
    }
    return stops;
}

static void interrupted(void) {
    what = WALKS;
    const unsigned long all = stepped(0);
    IS(all > 1000, 1); /* a walk has more instructions */
    what = FORKS;
    for (int i = 1; i <= CHILDREN; i++) stepped(all * (unsigned long)i / (CHILDREN + 1));
    what = LEAVES;
    for (int i = 1; i <= LEFT; i++) stepped(all * (unsigned long)i / (LEFT + 1)), compare();
    deep(DEPTH, compare);
}

int main(void) {
    struct sigaction step = {.sa_sigaction = on_step, .sa_flags = SA_SIGINFO}, begin = {.sa_sigaction = on_begin, .sa_flags = SA_SIGINFO};
    sigaction(SIGTRAP, &step, NULL);
    sigaction(SIGUSR1, &begin, NULL);
    deep(5, interrupted);
    return report();
}
