/* Tests of dwcheck-dl with return addresses that are signed: a deep chain of calls, walked where it ends, from the
   handler of a signal, and where the return address is signed in its register but saved nowhere. The stacks are those of
   glibc's backtrace. For aarch64, compiled with -mbranch-protection=standard. */
#define _GNU_SOURCE
#include "dl.h"

#include <signal.h>
#include <sys/auxv.h>
#include <ucontext.h>

/* How many return addresses of the chain of frame pointers have a signature: bits that no address of a program has. With
   addresses of 52 bits it has three bits, which are all 0 in some. */
__attribute__((noinline)) static int count_signed(void) {
    int count = 0;
    for (const uint64_t *frame = __builtin_frame_address(0); frame != NULL; frame = (const uint64_t *)frame[0]) count += frame[1] >> 48 != 0;
    return count;
}

static void compare_signed(void) {
    enum { HAS_SIGNATURES = 1 << 30 };
    if (getauxval(AT_HWCAP) & HAS_SIGNATURES) IS(count_signed() > DEPTH / 2, 1);
    compare();
}

/* From the interrupted instruction on, the stack is what glibc has after the frame of the signal. */
static void compare_from(const ucontext_t *context) {
    void *ours[FRAMES], *theirs[FRAMES];
    const int our_count = dwcheck_dl_backtrace_from(context, ours, FRAMES), their_count = backtrace(theirs, FRAMES);
    int i = 0;
    while (i < their_count && (uintptr_t)theirs[i] != context->uc_mcontext.pc) i++;
    IS(our_count, their_count - i);
    if (our_count == their_count - i) IS(memcmp(ours, theirs + i, (size_t)our_count * sizeof *ours), 0);
}

static void on_signal(int signal, siginfo_t *info, void *context) {
    (void)signal, (void)info;
    compare_from(context);
    compare();
}

static void on_trap(int signal, siginfo_t *info, void *context) {
    on_signal(signal, info, context);
    ((ucontext_t *)context)->uc_mcontext.pc += 4;
}

/* Signs its return address, and is interrupted before it saves it. */
__asm__(".pushsection .text\n.globl traps_when_signed\n.type traps_when_signed, %function\ntraps_when_signed:\n.cfi_startproc\n"
        "hint #25\n.cfi_negate_ra_state\nudf #0\nstp x29, x30, [sp, #-16]!\n.cfi_def_cfa_offset 16\n.cfi_offset 29, -16\n"
        ".cfi_offset 30, -8\nldp x29, x30, [sp], #16\n.cfi_restore 29\n.cfi_restore 30\n.cfi_def_cfa_offset 0\nhint #29\n"
        ".cfi_negate_ra_state\nret\n.cfi_endproc\n.size traps_when_signed, . - traps_when_signed\n.popsection");
void traps_when_signed(void);

static void raise_signal(void) { raise(SIGUSR1); }

static void test_all(void) {
    deep(DEPTH, compare_signed);
    deep(DEPTH, raise_signal);
    deep(DEPTH, traps_when_signed);
}

int main(void) {
    enum { ALTERNATE = 1 << 16 };
    static uint8_t alternate[ALTERNATE];
    struct sigaction action = {.sa_sigaction = on_signal, .sa_flags = SA_SIGINFO | SA_ONSTACK};
    sigaction(SIGUSR1, &action, NULL);
    action.sa_sigaction = on_trap;
    sigaction(SIGILL, &action, NULL);
    test_all();
    sigaltstack(&(stack_t){.ss_sp = alternate, .ss_size = ALTERNATE}, NULL);
    test_all();
    IS(dwcheck_dl_thread(), DWCHECK_DONE);
    test_all();
    return report();
}
