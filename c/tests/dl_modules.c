/* Tests of dwcheck-dl with code that comes and goes: libraries, also one in the place of another, of a namespace of
   their own, and beside threads that walk; and code that the program registers. The stacks are those of glibc's
   backtrace.
   usage: dl_modules CALLED SMALL LARGE COPY..
   CALLED is a library whose function call_back(f) calls f. The other two are such libraries whose functions take 1000
   and 4000 bytes of stack, with code and tables of the same size: so one may take the place of the other. A COPY is one
   of CALLED. */
#define _GNU_SOURCE
#include "dl.h"
#include "dl_processor.h"

#include <link.h>
#include <malloc.h>
#include <pthread.h>
#include <signal.h>
#include <sys/mman.h>

#ifndef ROUNDS
#define ROUNDS 1000
#endif
enum { THREADS = 8, FIRST = 100 };

typedef void call_back(void (*f)(void));

static call_back *function_of(void *library) {
    call_back *f = NULL;
    if (library != NULL) *(void **)&f = dlsym(library, "call_back");
    IS(f != NULL, 1);
    if (f == NULL) exit(report());
    return f;
}

/* Loads the library, walks through it, and unloads it again. Returns where its function was. */
static uintptr_t come_and_go(const char *name) {
    void *library = dlopen(name, RTLD_NOW);
    call_back *f = function_of(library);
    f(compare);
    dlclose(library);
    return (uintptr_t)f;
}

/* Some emulators map each library at another address. Then none takes the place of another one. */
static void test_replaced(const char *small, const char *large) {
    int replaced = 0;
    if (come_and_go(small) != come_and_go(small)) return;
    for (int i = 0; i < 4; i++) replaced += come_and_go(small) == come_and_go(large);
    IS(replaced, 4);
}

/* One stack through more libraries than a cache has places for, also again. */
static call_back *copies[FRAMES];
static int copy_count, copies_left;
static void through_copies(void) {
    if (copies_left > 0) copies[--copies_left](through_copies);
    else compare();
}

static void test_many(char **names, int count) {
    void *libraries[FRAMES];
    IS(count > 64, 1);
    for (copy_count = 0; copy_count < count && copy_count < FRAMES; copy_count++) {
        libraries[copy_count] = dlopen(names[copy_count], RTLD_NOW);
        copies[copy_count] = function_of(libraries[copy_count]);
    }
    for (int round = 0; round < 3; round++) copies_left = copy_count, through_copies();
    while (copy_count > 0) dlclose(libraries[--copy_count]);
}

static void test_namespace(const char *name) {
    void *library = dlmopen(LM_ID_NEWLM, name, RTLD_NOW);
    function_of(library)(compare);
    dlclose(library);
}

/* ---- registered code */

/* The section of code that no module has: a CIE, an FDE whose addresses are absolute, and a record of length 0. */
struct section {
    uint32_t cie_length, cie_id;
    uint8_t cie[12];
    uint32_t fde_length, to_cie;
    uint64_t start, length;
    uint8_t fde[12];
    uint32_t end;
} __attribute__((packed));

static const struct section rows = {
    .cie_length = 16, .cie = {CODE_CIE}, .fde_length = 32, .to_cie = 24, .length = sizeof code, .fde = {CODE_FDE}};

void __register_frame(void *);
void __deregister_frame(void *);

static struct section *write_section(const void *start) {
    struct section *section = malloc(sizeof *section);
    *section = rows;
    section->start = (uintptr_t)start;
    return section;
}

static dwcheck_dl_request asked;
static uint8_t marks[FRAMES];
static int count;
static void walk(void) {
    void *addresses[FRAMES];
    count = dwcheck_dl_walk(&asked, addresses, FRAMES);
}

/* Without its rows a walk ends at the code, or goes on by frame pointers if it is asked to. */
static void walk_unregistered(call_back *f) {
    int guessed = 0;
    asked = (dwcheck_dl_request){.marks = marks};
    f(walk);
    IS(count, 2);
    IS(asked.stop, DWCHECK_STOP_NOT_COVERED);
    asked.options = DWCHECK_DL_FRAME_POINTERS;
    f(walk);
    for (int i = 0; i < count; i++) guessed += marks[i] == DWCHECK_DL_BY_FRAME_POINTER;
    IS(asked.stop, DWCHECK_STOP_RETURN_UNDEFINED);
    IS(guessed, 1);
    IS(marks[2], DWCHECK_DL_BY_FRAME_POINTER);
}

DEFINE_WITHOUT_ROWS;

static void test_registered(void) {
    enum { PAGE = 4096 };
    uint8_t *page = mmap(NULL, PAGE, PROT_READ | PROT_WRITE | PROT_EXEC, MAP_PRIVATE | MAP_ANONYMOUS, -1, 0);
    memcpy(page, code, sizeof code);
    __builtin___clear_cache((char *)page, (char *)page + sizeof code);
    struct section *section = write_section(page), *other = write_section(page + 64);
    const uint64_t first = (uintptr_t)page, last = first + sizeof code - 1;
    call_back *f;
    memcpy(&f, &page, sizeof f);
    walk_unregistered(f);
    IS(dwcheck_dl_register(last, first, (void *)section, sizeof *section), DWCHECK_BAD_RANGE);
    IS(dwcheck_dl_register(first + 64, last + 64, (void *)other, sizeof *other), DWCHECK_DONE);
    IS(dwcheck_dl_register(first, last, (void *)section, sizeof *section), DWCHECK_DONE);
    IS(dwcheck_dl_register(last, last + 9, (void *)section, sizeof *section), DWCHECK_OVERLAPS);
    __register_frame(section); /* for glibc */
    f(compare);
    __deregister_frame(section);
    IS(dwcheck_dl_unregister(first), DWCHECK_DONE);
    IS(dwcheck_dl_unregister(first), DWCHECK_NONE);
    IS(dwcheck_dl_unregister(first + 64), DWCHECK_DONE);
    walk_unregistered(f);
    walk_unregistered(without_rows);
    free(section);
    free(other);
    munmap(page, PAGE);
}

/* ---- beside threads that walk */

static atomic_int is_done;

/* A sanitizer takes some of a handler's stack, and may interrupt its own code, which has no rows. */
#if defined __SANITIZE_ADDRESS__ || defined __SANITIZE_THREAD__
enum { ALTERNATE = 1 << 17, IS_PLAIN = 0 };
#else
enum { ALTERNATE = 12 << 10, IS_PLAIN = 1 };
#endif
static uint8_t alternates[THREADS][ALTERNATE];

/* There are more threads than the library has stacks, so a busy machine may have all of them taken. */
static void on_signal(int signal, siginfo_t *info, void *context) {
    (void)signal, (void)info;
    void *addresses[FRAMES];
    dwcheck_dl_request request = {.context = context};
    IS(dwcheck_dl_walk(&request, addresses, FRAMES) > 0, 1);
    if (IS_PLAIN && request.stop != DWCHECK_DL_STOP_STACK) IS(request.stop, DWCHECK_STOP_RETURN_UNDEFINED);
}

/* Handlers come on a small stack meanwhile. */
static void *walk_all_the_time(void *stack) {
    stack_t alternate = {.ss_sp = stack, .ss_size = ALTERNATE};
    sigaltstack(&alternate, NULL);
    while (!atomic_load(&is_done)) deep(DEPTH, compare);
    alternate.ss_flags = SS_DISABLE;
    sigaltstack(&alternate, NULL);
    return NULL;
}

static size_t used(void) { return mallinfo2().uordblks; }

/* After many libraries have come and gone, as much memory is used as after the first ones. */
static void test_threads(const char *small, const char *large) {
    pthread_t threads[THREADS];
    size_t after_first = 0;
    sigaction(SIGUSR1, &(struct sigaction){.sa_sigaction = on_signal, .sa_flags = SA_SIGINFO | SA_ONSTACK}, NULL);
    for (int i = 0; i < THREADS; i++) pthread_create(&threads[i], NULL, walk_all_the_time, alternates[i]);
    for (int i = 0; i < ROUNDS; i++) {
        come_and_go(i % 2 ? small : large);
        pthread_kill(threads[i % THREADS], SIGUSR1);
        if (i == FIRST) after_first = used();
    }
    IS(used() <= after_first + 4096, 1);
    atomic_store(&is_done, 1);
    for (int i = 0; i < THREADS; i++) pthread_join(threads[i], NULL);
}

static void test_module_at(void) {
    dwcheck_dl_loaded module;
    IS(dwcheck_dl_module_at((uintptr_t)test_module_at, &module), DWCHECK_DONE);
    IS(module.load_address, module.first);
    IS(strstr(module.name, "/dl_modules") != NULL, 1);
    const uintptr_t in_libc = (uintptr_t)backtrace;
    IS(dwcheck_dl_module_at(in_libc, &module), DWCHECK_DONE);
    IS(strstr(module.name, "libc") != NULL, 1);
    IS(module.first <= in_libc && in_libc < module.end, 1);
    IS(dwcheck_dl_module_at(4096, &module), DWCHECK_NONE);
}

int main(int argument_count, char **arguments) {
    if (argument_count < 4) return 2;
    come_and_go(arguments[1]);
    test_module_at();
    test_replaced(arguments[2], arguments[3]);
    test_many(arguments + 4, argument_count - 4);
    test_namespace(arguments[1]);
    test_registered();
    test_threads(arguments[2], arguments[3]);
    return report();
}
