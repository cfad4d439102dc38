/* Tests calls that read one process at once: in threads, in signal handlers and in children of fork.
   The process is in a page that can't be written. Each call is interrupted, since it needs a page that
   can't be used. The handler of SIGSEGV reads the same process, makes the page usable, and returns;
   one time in five it leaves the call by siglongjmp. Then modules are added and removed while threads
   read, and at last in the process itself. Each answer is compared with what the section says. Prints
   a line with counts. */
#include "dwcheck.h"
#include <pthread.h>
#include <sched.h>
#include <setjmp.h>
#include <signal.h>
#include <stdatomic.h>
#include <stdio.h>
#include <stdlib.h>
#include <string.h>
#include <sys/mman.h>
#include <sys/wait.h>
#include <ucontext.h>
#include <unistd.h>

enum { FDES = 5000, STEP = 0x40, BASE = 0x100000, FRAMES = 32, PAGE = 4096 };
/* Of the CALLS of a round each is left in its turn, since CALLS and LEAVES have no common divisor. */
#ifndef ROUNDS
#define ROUNDS 1000
#endif
enum { THREADS = 8, CALLS = 4, LEAVES = 5, CHILDREN = 8, CHANGES = 1000 };
static const uint64_t load = 0x7f0000000000, cookie = 0x1234567890;
static const uint64_t second = 0x7e0000000000; /* where a module is loaded that comes and goes */
static const uint64_t top = 0x7ffc00000000;    /* the stack pointer of the innermost frame */

static atomic_long wrong, rows, walks, interrupted, left, changes;
#define CHECK(what)                                  \
    do {                                             \
        if (!(what)) atomic_fetch_add(&wrong, 1);    \
    } while (0)

/* The section: FDE i covers STEP addresses, and its rows begin at the places 0, 1, 4 and 0x20. */
static uint8_t section[32 + FDES * 48];
static size_t size, first_fde; /* the section's length, and its length up to the end of its first FDE */

static uint32_t add(dwcheck_process *p, size_t length, uint64_t load_address, uint64_t its_cookie, uint64_t *id) {
    dwcheck_module module = {0};
    dwcheck_fault fault;
    module.frame = section; module.frame_length = length; module.load_address = load_address; module.cookie = its_cookie;
    module.room = SIZE_MAX; module.address_size = 8;
    return dwcheck_process_add(p, &module, id, &fault);
}

static unsigned frame_size(size_t fde) {
    return 16 + 8 * (unsigned)(fde % 50);
}

static void number(uint64_t n, int bytes) {
    for (int i = 0; i < bytes; i++) section[size++] = (uint8_t)(n >> 8 * i);
}

static void cfa_offset(unsigned n) { /* DW_CFA_def_cfa_offset */
    number(0x0e, 1);
    for (; n > 127; n >>= 7) number((n & 127) | 128, 1);
    number(n, 1);
}

static void make_section(void) {
    static const uint8_t cie[] = {
        0x14, 0, 0, 0, 0xff, 0xff, 0xff, 0xff, 4, 0, 8, 0, 1, 0x78, 16, 0x0c, 7, 8, 0x90, 1, 0, 0, 0, 0};
    memcpy(section, cie, sizeof cie); size = sizeof cie;
    for (size_t i = 0; i < FDES; i++) {
        size_t at = size;
        uint32_t length;
        number(0, 8); number(BASE + i * STEP, 8); number(STEP, 8);
        number(0x41, 1); cfa_offset(16); number(0x0286, 2);            /* 1: CFA r7+16, r6 at c-16 */
        number(0x43, 1); cfa_offset(frame_size(i));                    /* 4: CFA r7+size */
        number(0x5c, 1); cfa_offset(8); number(0xc6, 1);               /* 0x20: CFA r7+8, r6 as at first */
        while ((size - at - 4) % 8) number(0, 1);
        length = (uint32_t)(size - at - 4); memcpy(section + at, &length, 4);
        if (i == 0) first_fde = size;
    }
}

/* A stack of FRAMES frames, each in a function of its own, at the place 12 of its FDE. Calls can be
   interrupted at its words, and at the rules or the module that they write. */
struct stack {
    uint64_t words[FRAMES * 64];
    union { dwcheck_rule slots[4]; dwcheck_loaded module; char page[PAGE]; } written;
    uint64_t addresses[FRAMES], cfas[FRAMES], contents[17];
    uint8_t known[3];
    dwcheck_block block;
    dwcheck_state state;
};

static struct stack *new_stack(size_t seed) {
    static const uint16_t kept[] = {3, 6, 12, 13, 14, 15};
    struct stack *s = mmap(NULL, sizeof *s, PROT_READ | PROT_WRITE, MAP_PRIVATE | MAP_ANONYMOUS, -1, 0);
    uint64_t at = top;
    if (s == MAP_FAILED) abort();
    for (size_t k = 0; k < FRAMES; k++) {
        size_t fde = (seed * 7919 + k * 104729) % FDES;
        s->addresses[k] = load + BASE + fde * STEP + 12;
        if (k) s->words[(at - 8 - top) / 8] = s->addresses[k];
        at += frame_size(fde); s->cfas[k] = at;
    }
    s->words[(at - 8 - top) / 8] = 0x10; /* no module covers this return address */
    s->contents[7] = top; s->known[0] = 0x80;
    s->block = (dwcheck_block){top, (const uint8_t *)s->words, sizeof s->words};
    s->state = (dwcheck_state){s->contents, 17, s->known, 3, &s->block, 1, kept, 6, 7, 1, 0, 0};
    return s;
}

/* The address, as linked, that a thread looks up in this round. */
static uint64_t looked_up(size_t seed, size_t round) {
    return BASE + (seed * 7919 + round * 104729) % (FDES * STEP);
}

static void check_row(const dwcheck_process *p, uint64_t linked, dwcheck_rule *slots) {
    uint64_t place = (linked - BASE) % STEP, start = place < 1 ? 0 : place < 4 ? 1 : place < 0x20 ? 4 : 0x20;
    unsigned offset = start == 1 ? 16 : start == 4 ? frame_size((linked - BASE) / STEP) : 8;
    uint64_t end = start == 0 ? 1 : start == 1 ? 4 : start == 4 ? 0x20 : STEP;
    size_t saved = start == 1 || start == 4; /* whether r6 is saved, at c-16 */
    dwcheck_row row;
    CHECK(dwcheck_row_at(p, load + linked, &row, slots, 4) == DWCHECK_DONE);
    CHECK(row.id == 1 && row.cookie == cookie && row.load_address == load);
    CHECK(row.start == linked - place + start && row.end == linked - place + end);
    CHECK(row.cfa.kind == DWCHECK_RULE_VAL_OFFSET && row.cfa.reg == 7 && row.cfa.offset == offset);
    CHECK(row.return_reg == 16 && row.count == 1 + saved);
    CHECK(!saved || (slots[0].kind == DWCHECK_RULE_OFFSET && slots[0].reg == 6 && slots[0].offset == -16));
    CHECK(slots[saved].kind == DWCHECK_RULE_OFFSET && slots[saved].reg == 16 && slots[saved].offset == -8);
    atomic_fetch_add(&rows, 1);
}

/* The module at `load` has no range, so it answers for the addresses that its FDEs cover. */
static void check_module(const dwcheck_process *p, uint64_t linked, dwcheck_loaded *module) {
    CHECK(dwcheck_module_at(p, load + linked, module) == DWCHECK_DONE);
    CHECK(module->id == 1 && module->cookie == cookie && module->load_address == load);
    CHECK(module->first == load + BASE && module->last == load + BASE + FDES * STEP - 1);
}

static void check_caller(const dwcheck_process *p, struct stack *s) {
    dwcheck_caller caller;
    dwcheck_register registers[16];
    dwcheck_fault fault;
    CHECK(dwcheck_unwind(p, s->addresses[0], &s->state, &caller, registers, 16, &fault) == DWCHECK_DONE);
    CHECK(caller.cfa.kind == DWCHECK_ANSWER_VALUE && caller.cfa.value == s->cfas[0]);
    CHECK(caller.return_address.kind == DWCHECK_ANSWER_VALUE && caller.return_address.value == s->addresses[1]);
    /* of the callee-saved registers 3, 6 and 12 to 15 only r6 is known; 7 is the stack pointer */
    CHECK(caller.count == 8 && registers[0].number == 3 && registers[0].kind == DWCHECK_ANSWER_UNREADABLE);
    CHECK(registers[1].number == 6 && registers[1].kind == DWCHECK_ANSWER_VALUE && registers[1].value == 0);
    CHECK(registers[2].number == 7 && registers[2].kind == DWCHECK_ANSWER_VALUE && registers[2].value == s->cfas[0]);
    CHECK(registers[7].number == 16 && registers[7].kind == DWCHECK_ANSWER_VALUE && registers[7].value == s->addresses[1]);
}

static void check_walk(const dwcheck_process *p, struct stack *s) {
    dwcheck_frame frames[FRAMES + 8];
    size_t count = 0;
    uint32_t stop = 99;
    dwcheck_fault fault;
    CHECK(dwcheck_backtrace(p, s->addresses[0], &s->state, frames, FRAMES + 8, &count, &stop, &fault) == DWCHECK_DONE);
    CHECK(count == FRAMES + 1 && stop == DWCHECK_STOP_NOT_COVERED);
    for (size_t k = 0; k < FRAMES && k < count; k++)
        CHECK(frames[k].address == s->addresses[k] && frames[k].cfa.value == s->cfas[k]);
    atomic_fetch_add(&walks, 1);
}

static const dwcheck_process *shared;
static _Thread_local struct stack *mine, *handlers;
static _Thread_local uint64_t linked;
static _Thread_local long handled;
static _Thread_local sigjmp_buf back;

static void on_signal(int signal, siginfo_t *why, void *context) {
    uintptr_t at = (uintptr_t)why->si_addr, from = (uintptr_t)mine, to = from + offsetof(struct stack, addresses);
    (void)signal; (void)context;
    if (!mine || at < from || at >= to) _exit(1); /* a write to memory that is only read, for example */
    check_row(shared, looked_up((size_t)handled, 1), handlers->written.slots);
    check_module(shared, looked_up((size_t)handled, 2), &handlers->written.module);
    check_caller(shared, handlers);
    check_walk(shared, handlers);
    mprotect(mine, to - from, PROT_READ | PROT_WRITE);
    atomic_fetch_add(&interrupted, 1);
    if (++handled % LEAVES == 0) { atomic_fetch_add(&left, 1); siglongjmp(back, 1); }
}

static void read_row(void) { check_row(shared, linked, mine->written.slots); }
static void read_module(void) { check_module(shared, linked, &mine->written.module); }
static void read_caller(void) { check_caller(shared, mine); }
static void read_walk(void) { check_walk(shared, mine); }

/* Makes a call that is interrupted when it gets to the words of its stack from this page on, or to the
   rules or the module that it writes. */
static void interrupt(void (*call)(void), size_t page) {
    char *from = (char *)mine + page * PAGE;
    mprotect(from, offsetof(struct stack, addresses) - page * PAGE, PROT_NONE);
    if (sigsetjmp(back, 1) == 0) call();
}

static void *reader(void *seed) {
    size_t me = (size_t)(uintptr_t)seed;
    mine = new_stack(me); handlers = new_stack(me + 100);
    CHECK(mine->cfas[FRAMES - 2] - top > PAGE); /* so the walk needs both of the pages from which it is interrupted */
    for (size_t round = 0; round < ROUNDS; round++) {
        linked = looked_up(me, round);
        interrupt(read_row, 0);
        interrupt(read_module, 0);
        interrupt(read_caller, 0);
        interrupt(read_walk, round % 2);
    }
    munmap(mine, sizeof *mine); munmap(handlers, sizeof *handlers);
    return NULL;
}

static void child_reads(void) {
    int status = 1;
    pid_t child = fork();
    if (child == 0) {
        struct stack *s = new_stack(7);
        wrong = 0;
        for (size_t round = 0; round < 100; round++) {
            check_row(shared, looked_up(7, round), s->written.slots);
            check_module(shared, looked_up(7, round), &s->written.module);
            check_caller(shared, s);
            check_walk(shared, s);
        }
        _exit(wrong != 0);
    }
    CHECK(child > 0 && waitpid(child, &status, 0) == child && status == 0);
}

/* Reads `p` in all threads, their handlers and children of fork. */
static void all_read(const dwcheck_process *p) {
    pthread_t threads[THREADS];
    struct sigaction action;
    memset(&action, 0, sizeof action);
    action.sa_sigaction = on_signal; action.sa_flags = SA_SIGINFO;
    sigaction(SIGSEGV, &action, NULL);
    shared = p;
    for (size_t i = 0; i < THREADS; i++) pthread_create(&threads[i], NULL, reader, (void *)(uintptr_t)(i + 1));
    for (int i = 0; i < CHILDREN; i++) child_reads();
    for (int i = 0; i < THREADS; i++) pthread_join(threads[i], NULL);
    signal(SIGSEGV, SIG_DFL);
    CHECK(interrupted == THREADS * ROUNDS * CALLS && left == interrupted / LEAVES);
}

/* Changes while others read. `epoch` counts the processes that were published. A reader that reads
   says at which epoch it began; 0 if it doesn't read. */
static _Atomic(dwcheck_process *) current;
static atomic_long epoch = 1, reading_since[THREADS];
static atomic_int go_on = 1;

static void *follower(void *number) {
    size_t me = (size_t)(uintptr_t)number;
    for (size_t round = 0; go_on; round++) {
        dwcheck_rule slots[4];
        dwcheck_row row;
        dwcheck_loaded module;
        const dwcheck_process *p;
        uint32_t status;
        reading_since[me] = epoch;
        p = current;
        check_row(p, looked_up(me, round), slots);
        check_module(p, looked_up(me, round), &module);
        status = dwcheck_row_at(p, second + BASE, &row, slots, 4);
        CHECK(status == DWCHECK_NONE || (status == DWCHECK_DONE && row.load_address == second && row.start == BASE));
        CHECK(dwcheck_module_at(p, second + BASE, &module) == status);
        CHECK(status == DWCHECK_NONE || (module.id == row.id && module.cookie == second));
        reading_since[me] = 0;
        sched_yield(); /* so that it is seldom stopped while it reads, and `publish` need not wait */
    }
    return NULL;
}

/* Lets others read `new`, and closes the process that they read before once nobody reads it. */
static void publish(dwcheck_process *new) {
    dwcheck_process *old = atomic_exchange(&current, new);
    long now = ++epoch, since;
    for (int i = 0; i < THREADS; i++)
        while ((since = reading_since[i]) != 0 && since < now) sched_yield();
    dwcheck_process_close(old);
    free(old);
}

/* Another process, which shares the tables of `p`. */
static dwcheck_process *share(const dwcheck_process *p) {
    dwcheck_process *new = calloc(1, sizeof *new);
    if (!new || dwcheck_process_share(p, new) != DWCHECK_DONE) abort();
    return new;
}

static void change(dwcheck_process *p) {
    static uint64_t id; /* of the module that comes and goes */
    if (changes++ % 2) CHECK(dwcheck_process_remove(p, id) == DWCHECK_DONE);
    else CHECK(add(p, first_fde, second, second, &id) == DWCHECK_DONE);
}

static void all_follow(const dwcheck_process *p) {
    pthread_t threads[THREADS];
    current = share(p);
    for (size_t i = 0; i < THREADS; i++) pthread_create(&threads[i], NULL, follower, (void *)(uintptr_t)i);
    for (int i = 0; i < CHANGES; i++) {
        dwcheck_process *new = share(current);
        change(new);
        publish(new);
    }
    go_on = 0;
    for (int i = 0; i < THREADS; i++) pthread_join(threads[i], NULL);
    dwcheck_process_close(current);
    free(current);
}

/* Adds a module to a process on which calls were left, and removes it again. */
static void change_at_last(dwcheck_process *p) {
    struct stack *s = new_stack(9);
    dwcheck_row row;
    change(p);
    CHECK(dwcheck_row_at(p, second + BASE, &row, s->written.slots, 4) == DWCHECK_DONE && row.load_address == second);
    check_walk(p, s);
    change(p);
    CHECK(dwcheck_row_at(p, second + BASE, &row, s->written.slots, 4) == DWCHECK_NONE);
    check_walk(p, s);
    munmap(s, sizeof *s);
}

/* Walks on a stack of 8 KB that has a page below it that can't be used. */
static const dwcheck_process *walked;
static struct stack *walked_stack;
static ucontext_t returned;

static void walk_walked(void) { check_walk(walked, walked_stack); }

static void walk_on_a_small_stack(const dwcheck_process *p) {
    char *small = mmap(NULL, 3 * PAGE, PROT_READ | PROT_WRITE, MAP_PRIVATE | MAP_ANONYMOUS, -1, 0);
    ucontext_t there;
    if (small == MAP_FAILED || getcontext(&there) != 0) abort();
    mprotect(small, PAGE, PROT_NONE);
    there.uc_stack.ss_sp = small + PAGE; there.uc_stack.ss_size = 2 * PAGE; there.uc_link = &returned;
    walked = p; walked_stack = new_stack(3);
    makecontext(&there, walk_walked, 0);
    swapcontext(&returned, &there);
    munmap(walked_stack, sizeof *walked_stack); munmap(small, 3 * PAGE);
}

static int counts(void) {
    printf("%ld rows, %ld walks, %ld calls interrupted, %ld of them left, ", rows, walks, interrupted, left);
    printf("%ld changes, %ld wrong\n", changes, wrong);
    return wrong != 0;
}

int main(void) {
    uint64_t id;
    dwcheck_process *p = mmap(NULL, PAGE, PROT_READ | PROT_WRITE, MAP_PRIVATE | MAP_ANONYMOUS, -1, 0);
    make_section();
    if (p == MAP_FAILED) return 1;
    if (add(p, size, load, cookie, &id) != DWCHECK_DONE) return 1;
    mprotect(p, PAGE, PROT_READ);
    walk_on_a_small_stack(p);
    all_read(p);
    all_follow(p);
    mprotect(p, PAGE, PROT_READ | PROT_WRITE);
    change_at_last(p);
    dwcheck_process_close(p);
    munmap(p, PAGE);
    return counts();
}
