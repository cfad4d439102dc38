/* What a frame of a walk takes, beside glibc's backtrace and libunwind's unw_backtrace in one process: the least of
   many walks of each kind in turn. The addresses must be glibc's.
   usage: times [DEPTH [ROUNDS]]; or times first, times unw, times glibc: what the first walk of the process takes, by
   dwcheck_dl_backtrace, unw_backtrace or glibc's backtrace, and how many pages it touches for the first time */
#define _GNU_SOURCE
#include <dlfcn.h>
#include <dwcheck-dl.h>
#include <pthread.h>
#include <stdio.h>
#include <stdlib.h>
#include <string.h>
#include <sys/resource.h>
#include <time.h>

enum { ROOM = 1024, KINDS = 5 };

static int (*glibc_backtrace)(void **, int); /* libunwind exports this name, too */
int unw_backtrace(void **, int);

static int framed(void **addresses, int size) {
    static dwcheck_register_frame frames[ROOM];
    dwcheck_dl_request request = {.context = NULL};
    int count = dwcheck_dl_frames(&request, frames, size);
    for (int i = 0; i < count; i++) addresses[i] = (void *)(uintptr_t)frames[i].place.address;
    return count;
}

typedef int walker(void **, int);
static walker *walkers[KINDS];
static const char *const names[KINDS] = {"dwcheck_dl_backtrace", "dwcheck_dl_frames", "unw_backtrace", "glibc's backtrace", ""};
static int kinds, rounds;
static double least[KINDS];
static int frames[KINDS];
static void *found[KINDS][ROOM];

static double now(void) {
    struct timespec time;
    clock_gettime(CLOCK_MONOTONIC, &time);
    return (double)time.tv_sec * 1e9 + (double)time.tv_nsec;
}

__attribute__((noinline)) static int measure(void) {
    for (int i = 0; i < kinds; i++) least[i] = 1e18;
    for (int round = 0; round < rounds; round++)
        for (int kind = 0; kind < kinds; kind++) {
            enum { REPEATED = 20 };
            const double start = now();
            for (int i = 0; i < REPEATED; i++) frames[kind] = walkers[kind](found[kind], ROOM);
            const double took = (now() - start) / REPEATED;
            if (took < least[kind]) least[kind] = took;
        }
    return 0;
}

/* Ten functions, so that the same one doesn't call itself. */
#define FUNCTION(name, next, size)                                                          \
    __attribute__((noinline)) static int name(int depth) {                                  \
        volatile char bytes[size];                                                          \
        bytes[0] = (char)depth;                                                             \
        return (depth == 0 ? measure() : next(depth - 1)) + bytes[0];                       \
    }
static int f0(int depth);
FUNCTION(f9, f0, 24) FUNCTION(f8, f9, 40) FUNCTION(f7, f8, 8) FUNCTION(f6, f7, 120) FUNCTION(f5, f6, 56)
FUNCTION(f4, f5, 72) FUNCTION(f3, f4, 16) FUNCTION(f2, f3, 24) FUNCTION(f1, f2, 200) FUNCTION(f0, f1, 8)

static int show(const char *what) {
    int wrong = 0;
    printf("%s, %d frames:", what, frames[0]);
    for (int i = 0; i < kinds; i++) printf(" %s %.1f ns%s", names[i], least[i] / frames[i], i + 1 < kinds ? "," : "\n");
    for (int i = 0; i < kinds; i++) { /* libunwind leaves out its caller's frame, and glibc's first frame is here */
        const int from = frames[i] - frames[kinds - 1];
        for (int j = 2; j < frames[kinds - 1]; j++) wrong += from + j < 0 || found[i][from + j] != found[kinds - 1][j];
    }
    if (wrong) printf("%d addresses differ\n", wrong);
    return wrong != 0;
}

static long faults(void) {
    struct rusage usage;
    getrusage(RUSAGE_SELF, &usage);
    return usage.ru_minflt;
}

__attribute__((noinline)) static int first_walk(walker *walk, int depth) {
    static void *addresses[ROOM];
    volatile int result = 0;
    if (depth > 0) return first_walk(walk, depth - 1) + result;
    const long before = faults();
    const double start = now();
    const int count = walk(addresses, ROOM);
    const double took = now() - start;
    printf("%.1f us for the first walk, %d frames, %ld page faults\n", took / 1000, count, faults() - before);
    return result;
}

int main(int count, char **arguments) {
    const char *what = count > 1 ? arguments[1] : "";
    *(void **)&glibc_backtrace = dlsym(dlopen("libc.so.6", RTLD_NOW), "backtrace");
    if (strcmp(what, "first") == 0) return first_walk(dwcheck_dl_backtrace, 21);
    if (strcmp(what, "unw") == 0) return first_walk(unw_backtrace, 21);
    if (strcmp(what, "glibc") == 0) return first_walk(glibc_backtrace, 21);
    const int depth = count > 1 ? atoi(arguments[1]) : 21;
    rounds = count > 2 ? atoi(arguments[2]) : 400;
    walkers[0] = dwcheck_dl_backtrace, walkers[1] = framed, walkers[2] = unw_backtrace, walkers[3] = glibc_backtrace;
    kinds = 4;
    f0(depth);
    int status = show("bounds not known");
    if (dwcheck_dl_thread() != DWCHECK_DONE) return 2;
    f0(depth);
    status |= show("bounds known");
    return status;
}
