/* Tests that a walk which interrupts the library reaches the start of the program, at each instruction or at each few:
   the processor stops after each one (a single step), and the handler of that signal walks. Prints a line for each kind of call, and
   for the first walks that are cut. */
#define _GNU_SOURCE
#include "dwcheck-dl.h"

#include <execinfo.h>
#include <signal.h>
#include <stdio.h>
#include <string.h>
#include <ucontext.h>

enum { FRAMES = 64, DEPTH = 5, SINGLE_STEP = 1 << 8, SHOWN = 5 };

static void *callers[FRAMES]; /* what the stack has above the function that makes the calls */
static int caller_count;
static volatile int is_done;
static unsigned long stride, stops, cut, all_cut;

/* Whether the last addresses of a walk are those of the stack above. */
static int is_whole(void **addresses, int count) {
    int above = caller_count - 1; /* the first one is where the stack was read */
    return count > above && memcmp(addresses + count - above, callers + 1, (size_t)above * sizeof *callers) == 0;
}

static void on_step(int signal, siginfo_t *info, void *context) {
    (void)signal, (void)info;
    if (stops++ % stride == 0) {
        void *addresses[FRAMES];
        int count = dwcheck_dl_backtrace_from(context, addresses, FRAMES);
        if (!is_whole(addresses, count) && cut++ < SHOWN)
            printf("cut after %d frames, from %p\n", count, count > 0 ? addresses[0] : NULL);
    }
    if (is_done) ((ucontext_t *)context)->uc_mcontext.gregs[REG_EFL] &= ~(long long)SINGLE_STEP;
}

static void on_begin(int signal, siginfo_t *info, void *context) {
    (void)signal, (void)info;
    ((ucontext_t *)context)->uc_mcontext.gregs[REG_EFL] |= SINGLE_STEP;
}

static void a_walk(void) {
    void *addresses[FRAMES];
    dwcheck_dl_backtrace(addresses, FRAMES);
}

/* A section of one CIE and one FDE: 0x1000 to 0x1010, with a row from its first address and one from 0x1001 on. */
static const uint8_t section[] = {12, 0, 0, 0, 255, 255, 255, 255, 4, 0, 8, 0, 1, 0x78, 16, 0, 26, 0, 0, 0, 0, 0, 0, 0, 0, 0x10, 0,
                                  0, 0, 0, 0, 0, 0x10, 0, 0, 0, 0, 0, 0, 0, 0x0c, 7, 8, 0x41, 0x0e, 16};

static void a_module(void) {
    dwcheck_process process = DWCHECK_CLOSED;
    dwcheck_module module = {.frame = section, .frame_length = sizeof section, .order = DWCHECK_LITTLE, .address_size = 8, .room = SIZE_MAX};
    dwcheck_fault fault;
    uint64_t id;
    dwcheck_row row;
    if (dwcheck_process_add(&process, &module, &id, &fault) != DWCHECK_DONE) printf("not added: fault %u\n", fault.number), all_cut++;
    else if (dwcheck_row_at(&process, 0x1001, &row, NULL, 0) != DWCHECK_DONE || row.cfa.offset != 16) printf("no row\n"), all_cut++;
    dwcheck_process_close(&process);
}

__attribute__((noinline)) static void stepped(const char *name, unsigned long each, void (*call)(void)) {
    stride = each;
    caller_count = backtrace(callers, FRAMES);
    is_done = 0;
    stops = cut = 0;
    raise(SIGUSR1); /* begins to step */
    call();
    is_done = 1;
    __asm__ volatile("nop\n\tnop");
    printf("%s: %lu instructions, %lu walks cut\n", name, stops, cut);
    all_cut += cut + (stops < 1000); /* each call has more of them */
}

__attribute__((noinline)) static int deep(int depth, const char *name, unsigned long each, void (*call)(void)) {
    if (depth == 0) stepped(name, each, call);
    else deep(depth - 1, name, each, call);
    return depth + is_done;
}

int main(void) {
    struct sigaction step = {.sa_sigaction = on_step, .sa_flags = SA_SIGINFO}, begin = {.sa_sigaction = on_begin, .sa_flags = SA_SIGINFO};
    backtrace(callers, 1); /* loads the library that it needs */
    sigaction(SIGTRAP, &step, NULL);
    sigaction(SIGUSR1, &begin, NULL);
    deep(DEPTH, "a walk", 1, a_walk);
    deep(DEPTH, "a module", 17, a_module);
    return all_cut != 0;
}
