/* Tests of dwcheck-dl: its stacks are those of glibc's backtrace, with nothing called before. Prints a line for each
   failure, and at the end a line with counts. */
#define _GNU_SOURCE
#include "dl.h"
#include "dl_processor.h"

#include <alloca.h>
#include <limits.h>
#include <pthread.h>
#include <setjmp.h>
#include <signal.h>
#include <sys/mman.h>
#include <unistd.h>

static int compare_in_libc(const void *a, const void *b) {
    compare();
    return *(const int *)a - *(const int *)b;
}

/* Before and after the thread's stack is known. */
static void *in_a_thread(void *unused) {
    deep(DEPTH, compare);
    IS(dwcheck_dl_thread(), DWCHECK_DONE);
    deep(DEPTH, compare);
    return unused;
}

/* ---- signals */

enum { ALTERNATE = 1 << 17 };

/* From the interrupted instruction on, the stack is what glibc has after the frame of the signal. */
static void on_signal(int signal, siginfo_t *info, void *context) {
    (void)signal, (void)info;
    void *ours[FRAMES], *theirs[FRAMES];
    int our_count = dwcheck_dl_backtrace_from(context, ours, FRAMES), their_count = backtrace(theirs, FRAMES), i = 0;
    const uint64_t interrupted = (uint64_t)PC(context);
    while (i < their_count && (uint64_t)(uintptr_t)theirs[i] != interrupted) i++;
    if (their_count == FRAMES) our_count -= i; /* there are more frames than fit */
    IS(i < their_count, 1);
    IS(our_count, their_count - i);
    if (our_count == their_count - i) IS(memcmp(ours, theirs + i, (size_t)our_count * sizeof *ours), 0);
    compare(); /* through the frame of the signal */
}

static void raise_signal(void) { raise(SIGUSR1); }

static void on_trap(int signal, siginfo_t *info, void *context) {
    on_signal(signal, info, context);
    PC(context) += TRAP;
}

static void test_signals(void) {
    struct sigaction action = {.sa_sigaction = on_signal, .sa_flags = SA_SIGINFO | SA_ONSTACK};
    struct sigaction trap = {.sa_sigaction = on_trap, .sa_flags = SA_SIGINFO | SA_ONSTACK};
    sigaction(SIGUSR1, &action, NULL);
    sigaction(SIGILL, &trap, NULL);
    deep(DEPTH, raise_signal);
    deep(DEPTH, traps);
    stack_t alternate = {.ss_sp = malloc(ALTERNATE), .ss_size = ALTERNATE}, before;
    sigaltstack(&alternate, &before);
    deep(DEPTH, raise_signal);
    deep(DEPTH, pops);
    sigaltstack(&before, NULL);
    free(alternate.ss_sp);
    compare();
}

/* An alternate stack that is too small to look up rows suffices, since that is done on a stack of the library. */
static volatile int stop_on_small, count_on_small;
static void on_small_stack(int signal, siginfo_t *info, void *context) {
    (void)signal, (void)info;
    static void *addresses[FRAMES];
    dwcheck_dl_request request = {.context = context};
    count_on_small = dwcheck_dl_walk(&request, addresses, FRAMES);
    stop_on_small = (int)request.stop;
}

static void test_small_stack(void) {
    enum { SMALL = 12 << 10 };
    struct sigaction action = {.sa_sigaction = on_small_stack, .sa_flags = SA_SIGINFO | SA_ONSTACK}, was;
    stack_t alternate = {.ss_sp = malloc(SMALL), .ss_size = SMALL}, before;
    sigaltstack(&alternate, &before);
    sigaction(SIGUSR2, &action, &was);
    raise(SIGUSR2);
    sigaction(SIGUSR2, &was, NULL);
    sigaltstack(&before, NULL);
    free(alternate.ss_sp);
    IS(count_on_small > 5, 1);
    IS(stop_on_small, DWCHECK_STOP_RETURN_UNDEFINED);
}

/* ---- a stack that overflows */

static sigjmp_buf after_overflow;

static void on_overflow(int signal, siginfo_t *info, void *context) {
    on_signal(signal, info, context);
    siglongjmp(after_overflow, 1);
}

__attribute__((noinline)) static int without_end(int depth) {
    volatile char bytes[200];
    bytes[depth % 200] = 1;
    return depth == atomic_load(&walks) + INT_MAX / 2 ? 0 : without_end(depth + 1) + bytes[0];
}

static void *overflow(void *is_known) {
    stack_t alternate = {.ss_sp = malloc(ALTERNATE), .ss_size = ALTERNATE}, before;
    sigaltstack(&alternate, &before);
    if (is_known != NULL) IS(dwcheck_dl_thread(), DWCHECK_DONE);
    if (sigsetjmp(after_overflow, 1) == 0) without_end(0);
    sigaltstack(&before, NULL);
    free(alternate.ss_sp);
    return NULL;
}

static void test_overflow(void) {
    struct sigaction action = {.sa_sigaction = on_overflow, .sa_flags = SA_SIGINFO | SA_ONSTACK}, before;
    pthread_t thread;
    sigaction(SIGSEGV, &action, &before);
    for (int i = 0; i < 2; i++) { /* the second one knows where its stack is */
        pthread_create(&thread, NULL, overflow, i == 0 ? NULL : &thread);
        pthread_join(thread, NULL);
    }
    sigaction(SIGSEGV, &before, NULL);
}

/* ---- other stacks */

static void compare_deep(void) { deep(DEPTH, compare); }

enum { BIG = 12 << 20 };

static void compare_above_a_big_frame(void) {
    char *bytes = alloca(BIG);
    __asm__ volatile("" : : "r"(bytes) : "memory");
    compare_deep();
    __asm__ volatile("" : : "r"(bytes) : "memory");
}

static void test_other_stacks(void) {
    enum { SIZE = 1 << 17 };
    char *bytes = mmap(NULL, 2 * BIG, PROT_READ | PROT_WRITE, MAP_PRIVATE | MAP_ANONYMOUS, -1, 0), *heap = malloc(SIZE);
    on_stack(compare_deep, bytes + SIZE);
    on_stack(compare_deep, (void *)((uintptr_t)(heap + SIZE) & ~(uintptr_t)15));
    on_stack(compare_above_a_big_frame, bytes + 2 * BIG);
    free(heap);
    munmap(bytes, 2 * BIG);
}

/* ---- a call of what is no function */

static void (*volatile missing)(void);
static sigjmp_buf after_wild_call;
static void *before_wild_call[FRAMES];
static int count_before;

/* The first address is the one that was called, and the second in the function that made the call, from which on the
   stack is what glibc has found there. */
static void on_wild_call(int signal, siginfo_t *info, void *context) {
    (void)signal, (void)info;
    void *ours[FRAMES];
    int our_count = dwcheck_dl_backtrace_from(context, ours, FRAMES);
    IS(our_count, count_before + 1);
    IS((uintptr_t)ours[0], (uintptr_t)missing);
    IS((uintptr_t)ours[1] - (uintptr_t)before_wild_call[0] < 100, 1);
    if (our_count == count_before + 1) IS(memcmp(ours + 2, before_wild_call + 1, (size_t)(count_before - 1) * sizeof *ours), 0);
    IS(dwcheck_dl_backtrace_from(context, ours, 1), 1);
    siglongjmp(after_wild_call, 1);
}

static void call_missing(void) {
    count_before = backtrace(before_wild_call, FRAMES);
    if (sigsetjmp(after_wild_call, 1) == 0) missing();
}

/* Returns to what is no function, so that the word where a call would have its return address is another one. */
static void on_wild_return(int signal, siginfo_t *info, void *context) {
    (void)signal, (void)info;
    void *ours[FRAMES];
    IS(dwcheck_dl_backtrace_from(context, ours, FRAMES), 1);
    IS((uintptr_t)ours[0], (uintptr_t)missing);
    siglongjmp(after_wild_call, 1);
}

static volatile uintptr_t next_word;

static void return_to_missing(void) {
    if (sigsetjmp(after_wild_call, 1) == 0) RETURN_TO(missing, next_word);
}

static void test_wild_calls(void) {
    enum { PAGE = 4096 };
    void *const data = mmap(NULL, PAGE, PROT_READ | PROT_WRITE, MAP_PRIVATE | MAP_ANONYMOUS, -1, 0);
    void *const unmapped = mmap(NULL, PAGE, PROT_NONE, MAP_PRIVATE | MAP_ANONYMOUS, -1, 0);
    void *const wild[] = {NULL, data, unmapped, (void *)0x123456789000, before_wild_call};
    struct sigaction action = {.sa_sigaction = on_wild_call, .sa_flags = SA_SIGINFO}, before;
    munmap(unmapped, PAGE);
    sigaction(SIGSEGV, &action, &before);
    for (size_t i = 0; i < sizeof wild / sizeof *wild; i++) {
        *(void **)&missing = wild[i];
        deep(DEPTH, call_missing);
    }
    action.sa_sigaction = on_wild_return;
    sigaction(SIGSEGV, &action, NULL);
    for (size_t i = 0; i < 4; i++) { /* a number, and an address in code that doesn't follow a call */
        *(void **)&missing = i % 2 ? data : NULL;
        next_word = i < 2 ? 1234 : (uintptr_t)test_wild_calls + 1;
        deep(DEPTH, return_to_missing);
    }
    sigaction(SIGSEGV, &before, NULL);
    munmap(data, PAGE);
}

/* ---- the stack */

static void test_stack(void) {
    const size_t page = (size_t)sysconf(_SC_PAGESIZE);
    char *pages = mmap(NULL, 4 * page, PROT_READ | PROT_WRITE, MAP_PRIVATE | MAP_ANONYMOUS, -1, 0);
    mprotect(pages, page, PROT_NONE);
    mprotect(pages + 3 * page, page, PROT_NONE);
    uint64_t first = (uint64_t)(uintptr_t)pages;
    IS(dwcheck_dl_stack(first).length, 0);
    IS(dwcheck_dl_stack(first + 2 * page + 5).length, page - 5);
    IS(dwcheck_dl_stack(first + page).length, 2 * page);
    IS(dwcheck_dl_stack(first + 2 * page).length, page);
    IS(dwcheck_dl_stack(first + 3 * page).length, 0);
    IS(dwcheck_dl_stack(0).length, 0);
    IS(dwcheck_dl_stack((uint64_t)1 << 63).length, 0);
    IS(dwcheck_dl_stack(0).bytes != NULL, 1);
    munmap(pages + 2 * page, 2 * page);
    IS(dwcheck_dl_stack(first + page).length, page);
    munmap(pages, 2 * page);
    compare();
}

/* ---- why a walk stops, and how a frame was found */

static void test_reasons(void) {
    void *addresses[FRAMES];
    uint8_t marks[FRAMES];
    dwcheck_dl_request request = {.marks = marks};
    int count = dwcheck_dl_walk(&request, addresses, FRAMES), guessed = 0;
    for (int i = 0; i < count; i++) guessed += marks[i] != DWCHECK_DL_BY_ROW;
    IS(count > 2, 1);
    IS(guessed, 0);
    IS(request.stop, DWCHECK_STOP_RETURN_UNDEFINED);
    IS(dwcheck_dl_walk(&request, addresses, 2), 2);
    IS(request.stop, DWCHECK_STOP_LIMIT);
    IS(dwcheck_dl_backtrace(addresses, 0), 0);
    IS(dwcheck_dl_backtrace(addresses, -1), 0);
    dwcheck_dl_counts counts = {1, 1, 1, 1};
    IS(dwcheck_dl_update(&counts), DWCHECK_DONE);
    IS(counts.modules | counts.added | counts.removed | counts.left_out, 0);
}

/* The first walk of the process is made before main. */
static int before_main;
__attribute__((constructor)) static void walk_before_main(void) {
    void *addresses[FRAMES];
    before_main = dwcheck_dl_backtrace(addresses, FRAMES);
    IS(before_main, backtrace(addresses, FRAMES));
}

static void test_all(void) {
    deep(DEPTH, compare);
    int numbers[] = {3, 1, 2};
    qsort(numbers, 3, sizeof *numbers, compare_in_libc);
    pthread_t thread;
    pthread_create(&thread, NULL, in_a_thread, NULL);
    pthread_join(thread, NULL);
    test_signals();
    test_overflow();
    test_wild_calls();
    test_other_stacks();
    test_stack();
    test_reasons();
}

int main(void) {
    IS(before_main > 2, 1);
    test_small_stack();
    test_all();
    IS(dwcheck_dl_thread(), DWCHECK_DONE);
    test_all();
    return report();
}
