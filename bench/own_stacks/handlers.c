/* For LD_PRELOAD: a signal comes to each thread in turn some 10,000 times a second, and its handler walks from where
   it has interrupted the thread. At the end, or after REPORT seconds if that is set, a line says how many walks there
   were; how many were complete, up to the start of a thread or of the loader; how many met code that no module has,
   such as that of a JIT compiler, or code without rows of the module whose name is WITHOUT_ROWS; how many came while
   libgcc_s delivered an exception, whose frames have registers of the handler then; and where the others were cut.
   Another thread loads and unloads a library (CALLED) meanwhile. Nothing of the library is called before. */
#define _GNU_SOURCE
#include <dirent.h>
#include <dlfcn.h>
#include <dwcheck-dl.h>
#include <pthread.h>
#include <signal.h>
#include <stdatomic.h>
#include <stdio.h>
#include <stdlib.h>
#include <string.h>
#include <sys/syscall.h>
#include <time.h>
#include <unistd.h>

enum { FRAMES = 256, THREADS = 256, CUTS = 8, EVERY = 100 };

struct cut {
    uint64_t first, last;
    uint32_t stop;
};

static atomic_ulong walks, complete, jit, full, delivering, cut_count;
static struct cut cuts[CUTS];
static atomic_int is_done, is_reported;
static const char *without_rows;
static int number = SIGPROF; /* of the signal; SIGNAL, if that is set: Go has its own handlers for nearly all */

/* Whether an address is in a module whose name ends so. */
static int is_in(uint64_t address, const char *name) {
    dwcheck_dl_loaded module;
    if (name == NULL || dwcheck_dl_module_at(address, &module) != DWCHECK_DONE) return 0;
    const size_t length = strlen(module.name), wanted = strlen(name);
    return length >= wanted && strcmp(module.name + length - wanted, name) == 0;
}

/* The loader's first function has no rows. */
static int is_complete(uint32_t stop, uint64_t last) {
    return stop == DWCHECK_STOP_RETURN_UNDEFINED
           || (stop == DWCHECK_STOP_NOT_COVERED && is_in(last - 1, "/ld-linux-x86-64.so.2"));
}

static int is_without_rows(uint32_t stop, uint64_t last) {
    dwcheck_dl_loaded module;
    if (stop != DWCHECK_STOP_NOT_COVERED) return 0;
    if (dwcheck_dl_module_at(last - 1, &module) == DWCHECK_DONE) return is_in(last - 1, without_rows);
    return dwcheck_dl_stack(last).length != 0; /* else it is no code at all */
}

static int delivers_exception(void **addresses, int length) {
    int found = 0;
    for (int i = 0; i < length; i++) found |= is_in((uint64_t)(uintptr_t)addresses[i], "/libgcc_s.so.1");
    return found;
}

static void count(uint32_t stop, void **addresses, int length) {
    const uint64_t last = length > 0 ? (uint64_t)(uintptr_t)addresses[length - 1] : 0;
    walks++;
    if (is_complete(stop, last)) {
        complete++;
    } else if (stop == DWCHECK_STOP_LIMIT) {
        full++;
    } else if (is_without_rows(stop, last)) {
        jit++;
    } else if (delivers_exception(addresses, length)) {
        delivering++;
    } else {
        const unsigned long n = cut_count++;
        if (n < CUTS) cuts[n] = (struct cut){length > 0 ? (uint64_t)(uintptr_t)addresses[0] : 0, last, stop};
    }
}

static void on_signal(int signal, siginfo_t *info, void *context) {
    (void)signal, (void)info;
    void *addresses[FRAMES];
    dwcheck_dl_request request = {.context = context};
    const int length = dwcheck_dl_walk(&request, addresses, FRAMES);
    count(request.stop, addresses, length);
}

static void report(void) {
    if (atomic_exchange(&is_reported, 1)) return;
    atomic_store(&is_done, 1);
    const unsigned long others = complete + full + cut_count;
    fprintf(stderr, "%lu walks, %lu complete, %lu met code without rows, %lu delivered an exception, %lu cut: ",
            (unsigned long)walks, (unsigned long)(complete + full), (unsigned long)jit, (unsigned long)delivering,
            (unsigned long)cut_count);
    fprintf(stderr, "%.3f in 100 of the others are complete\n",
            others ? 100.0 * (double)(complete + full) / (double)others : 100.0);
    for (unsigned long i = 0; i < cut_count && i < CUTS; i++) {
        Dl_info info = {0};
        dladdr((void *)(uintptr_t)(cuts[i].last - 1), &info);
        fprintf(stderr, "    cut at %#lx (%s+%#lx), from %#lx: stop %u\n", cuts[i].last,
                info.dli_fname ? info.dli_fname : "?", cuts[i].last - (uint64_t)(uintptr_t)info.dli_fbase, cuts[i].first,
                cuts[i].stop);
    }
}

/* The threads of this process, but for the calling one. */
static int list_threads(long *threads) {
    int count = 0;
    DIR *folder = opendir("/proc/self/task");
    if (folder == NULL) return 0;
    for (struct dirent *entry; count < THREADS && (entry = readdir(folder)) != NULL;) {
        const long number = atol(entry->d_name);
        if (number > 0 && number != syscall(SYS_gettid)) threads[count++] = number;
    }
    closedir(folder);
    return count;
}

static void *send_signals(void *unused) {
    enum { AGAIN = 100 };
    long threads[THREADS];
    const struct timespec pause = {0, EVERY * 1000};
    const time_t end = getenv("REPORT") ? time(NULL) + atoi(getenv("REPORT")) : 0;
    int thread_count = 0;
    for (unsigned i = 0; !atomic_load(&is_done); i++) {
        if (end != 0 && time(NULL) >= end) report();
        if (i % AGAIN == 0) thread_count = list_threads(threads);
        if (thread_count > 0) syscall(SYS_tgkill, getpid(), threads[i % (unsigned)thread_count], number);
        nanosleep(&pause, NULL);
    }
    return unused;
}

static void *load_and_unload(void *name) {
    const struct timespec pause = {0, 1000 * 1000};
    while (!atomic_load(&is_done)) {
        void *library = dlopen(name, RTLD_NOW);
        if (library != NULL) dlclose(library);
        nanosleep(&pause, NULL);
    }
    return NULL;
}

__attribute__((constructor)) static void begin(void) {
    const struct sigaction action = {.sa_sigaction = on_signal,
                                     .sa_flags = SA_SIGINFO | SA_RESTART | (getenv("ON_STACK") ? SA_ONSTACK : 0)};
    sigset_t all, before;
    pthread_t thread;
    without_rows = getenv("WITHOUT_ROWS");
    if (getenv("SIGNAL")) number = atoi(getenv("SIGNAL"));
    sigaction(number, &action, NULL);
    sigfillset(&all);
    pthread_sigmask(SIG_BLOCK, &all, &before);
    pthread_create(&thread, NULL, send_signals, NULL);
    if (getenv("CALLED")) pthread_create(&thread, NULL, load_and_unload, getenv("CALLED"));
    pthread_sigmask(SIG_SETMASK, &before, NULL);
}

__attribute__((destructor)) static void end(void) { report(); }
