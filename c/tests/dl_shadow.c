/* Tests of dwcheck-dl with a shadow call stack, to which x18 points and whose code has a row for x18 that is an
   expression: a walk from where a chain of such calls was interrupted. For aarch64, compiled by clang with
   -fsanitize=shadow-call-stack -ffixed-x18. The C library knows nothing of x18, so the chain calls none of it, and is left
   by siglongjmp. */
#define _GNU_SOURCE
#include "dwcheck-dl.h"

#include <setjmp.h>
#include <signal.h>
#include <stdio.h>

enum { CALLS = 20, FRAMES = 100 };

static uint64_t shadow[4 * CALLS];
static sigjmp_buf after;
static int in_chain;

int chain(int depth) __attribute__((section("chain_code")));
extern char __start_chain_code[], __stop_chain_code[]; /* the section's, by the linker */

#define PLAIN __attribute__((no_sanitize("shadow-call-stack")))

PLAIN static void on_trap(int signal, siginfo_t *info, void *context) {
    (void)signal, (void)info;
    void *addresses[FRAMES];
    dwcheck_dl_request request = {.context = context};
    const int count = dwcheck_dl_walk(&request, addresses, FRAMES);
    for (int i = 0; i < count; i++) in_chain += (char *)addresses[i] >= __start_chain_code && (char *)addresses[i] <= __stop_chain_code;
    if (request.stop != DWCHECK_STOP_RETURN_UNDEFINED) in_chain = -1;
    siglongjmp(after, 1);
}

__attribute__((noinline)) int chain(int depth) {
    if (depth == 0) __asm__ volatile("udf #0");
    else chain(depth - 1);
    __asm__ volatile("" : "+r"(depth));
    return depth;
}

__attribute__((noinline)) PLAIN static void begin(void) {
    register uint64_t *x18 __asm__("x18") = shadow;
    __asm__ volatile("" : "+r"(x18));
    chain(CALLS);
}

PLAIN int main(void) {
    sigaction(SIGILL, &(struct sigaction){.sa_sigaction = on_trap, .sa_flags = SA_SIGINFO}, NULL);
    if (sigsetjmp(after, 1) == 0) begin();
    printf("%d frames of the chain\n", in_chain);
    return in_chain != CALLS + 1;
}
