/* An example program: a small sampling profiler. Its signal handler walks the stack of the thread that
   it interrupts, whichever thread that is, and stores the frames. Walks take no lock. At the end the main thread counts how often each stack occurs, and prints the
   stacks that occurred most often. */
#define _GNU_SOURCE
#include <dlfcn.h>
#include <dwcheck-dl.h>
#include <pthread.h>
#include <signal.h>
#include <stdatomic.h>
#include <stdio.h>
#include <stdlib.h>
#include <string.h>
#include <sys/time.h>
#include <unistd.h>

enum { WORKERS = 2, SAMPLES = 4096, FRAMES = 32, STACKS = 1000, SHOWN = 3 };

struct sample {
    void *addresses[FRAMES];
    int length;
};

static struct sample samples[SAMPLES];
static atomic_size_t sample_count;
static atomic_int is_done;

/* The handler takes no lock and allocates nothing. Each call has a slot of its own, so handlers may run
   in several threads at once. */
static void on_profile(int signal, siginfo_t *info, void *context) {
    (void)signal, (void)info;
    size_t number = atomic_fetch_add(&sample_count, 1);
    if (number >= SAMPLES) return;
    samples[number].length = dwcheck_dl_backtrace_from(context, samples[number].addresses, FRAMES);
}

/* ---- the code to profile: it spends most of its time in `square_roots`, called by `often` */

static _Thread_local volatile double sink;
__attribute__((noinline)) double square_roots(int count) {
    double sum = 0;
    for (int i = 1; i < count; i++) sum += 1.0 / i;
    return sum;
}
__attribute__((noinline)) void often(void) { sink = square_roots(30000) + 1; }
__attribute__((noinline)) void seldom(void) { sink = square_roots(10000) + 2; }

void *work(void *unused) {
    (void)unused;
    dwcheck_dl_thread(); /* not needed, but so the walks of this thread are faster */
    sigset_t profile;
    sigemptyset(&profile);
    sigaddset(&profile, SIGPROF);
    pthread_sigmask(SIG_UNBLOCK, &profile, NULL);
    while (!atomic_load(&is_done)) often(), seldom();
    pthread_sigmask(SIG_BLOCK, &profile, NULL);
    return NULL;
}

/* ---- counting */

struct counted {
    uint64_t frames[FRAMES];
    size_t length, count;
};

static struct counted stacks[STACKS];
static size_t stack_count;

static void count_stack(const uint64_t *frames, size_t length) {
    for (size_t i = 0; i < stack_count; i++)
        if (stacks[i].length == length && memcmp(stacks[i].frames, frames, length * sizeof *frames) == 0) {
            stacks[i].count++;
            return;
        }
    if (stack_count == STACKS) return;
    struct counted *stack = &stacks[stack_count++];
    memcpy(stack->frames, frames, length * sizeof *frames);
    stack->length = length, stack->count = 1;
}

/* The first address of the function that contains `address`. Stacks are counted by functions, so
   that samples at different instructions of the same functions count as one stack. */
static uint64_t function_of(uint64_t address) {
    Dl_info info;
    return dladdr((void *)(uintptr_t)address, &info) && info.dli_saddr ? (uintptr_t)info.dli_saddr : address;
}

static void count_sample(const struct sample *sample) {
    uint64_t functions[FRAMES];
    for (int i = 0; i < sample->length; i++) functions[i] = function_of((uintptr_t)sample->addresses[i] - (i > 0));
    count_stack(functions, (size_t)sample->length);
}

static int by_count(const void *a, const void *b) {
    const struct counted *x = a, *y = b;
    return (x->count < y->count) - (x->count > y->count);
}

static void print_stacks(void) {
    qsort(stacks, stack_count, sizeof *stacks, by_count);
    for (size_t i = 0; i < stack_count && i < SHOWN; i++) {
        printf("%zu samples\n", stacks[i].count);
        for (size_t j = 0; j < stacks[i].length; j++) {
            Dl_info info;
            void *address = (void *)(uintptr_t)stacks[i].frames[j];
            printf("    %p %s\n", address, dladdr(address, &info) && info.dli_sname ? info.dli_sname : "?");
        }
    }
}

int main(void) {
    struct sigaction action = {.sa_sigaction = on_profile, .sa_flags = SA_SIGINFO | SA_RESTART};
    sigaction(SIGPROF, &action, NULL);
    sigset_t profile;
    sigemptyset(&profile);
    sigaddset(&profile, SIGPROF);
    pthread_sigmask(SIG_BLOCK, &profile, NULL); /* so the signal interrupts only the workers */
    pthread_t workers[WORKERS];
    for (int i = 0; i < WORKERS; i++)
        if (pthread_create(&workers[i], NULL, work, NULL) != 0) return 1;
    struct itimerval every = {{0, 1000}, {0, 1000}};
    setitimer(ITIMER_PROF, &every, NULL);
    sleep(1);
    setitimer(ITIMER_PROF, &(struct itimerval){0}, NULL);
    atomic_store(&is_done, 1);
    for (int i = 0; i < WORKERS; i++) pthread_join(workers[i], NULL);
    size_t count = atomic_load(&sample_count);
    for (size_t i = 0; i < count && i < SAMPLES; i++) count_sample(&samples[i]);
    print_stacks();
    return 0;
}
