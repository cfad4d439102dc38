/* The walks of own.h: dwcheck_walk, with rows that are filled in where they are missing and with steps of a cursor
   that has all registers where a walk says OTHER, must find glibc's frames. A cursor alone must find them too. */
#define _GNU_SOURCE
#include "own.h"
#include <dlfcn.h>
#include <dwcheck.h>
#include <link.h>
#include <pthread.h>
#include <setjmp.h>
#include <signal.h>
#include <stdbool.h>
#include <stdio.h>
#include <stdlib.h>
#include <string.h>
#include <ucontext.h>

enum { ROOM = 1024, SLOTS = 64, SHOWN = 5 };

typedef struct { uint64_t first, end; dwcheck_module module; dwcheck_header header; } Loaded;
static Loaded loaded[SLOTS];
static unsigned loaded_count;

static int add_module(struct dl_phdr_info *info, size_t size, void *data)
{
    (void)size, (void)data;
    Loaded *to = &loaded[loaded_count];
    *to = (Loaded){.first = UINT64_MAX};
    for (int i = 0; i < info->dlpi_phnum; i++) {
        const ElfW(Phdr) *part = &info->dlpi_phdr[i];
        uint64_t at = info->dlpi_addr + part->p_vaddr;
        if (part->p_type == PT_GNU_EH_FRAME) to->header = (dwcheck_header){(const uint8_t *)at, part->p_memsz, at};
        if (part->p_type != PT_LOAD || !(part->p_flags & PF_X)) continue;
        if (at < to->first) to->first = at;
        if (at + part->p_memsz > to->end) to->end = at + part->p_memsz;
    }
    if (!to->header.bytes) return 0;
    int32_t to_frame;
    memcpy(&to_frame, to->header.bytes + 4, sizeof to_frame);
    const uint8_t *frame = to->header.bytes + 4 + to_frame;
    for (int i = 0; i < info->dlpi_phnum; i++) {
        const ElfW(Phdr) *part = &info->dlpi_phdr[i];
        uint64_t at = info->dlpi_addr + part->p_vaddr, end = at + part->p_memsz;
        if (part->p_type == PT_LOAD && (uint64_t)frame >= at && (uint64_t)frame < end)
            to->module = (dwcheck_module){.frame = frame, .frame_length = end - (uint64_t)frame, .address_size = 8,
                                          .kind = DWCHECK_EH_FRAME, .section_address = (uint64_t)frame};
    }
    return ++loaded_count == SLOTS;
}

static Loaded *loaded_at(uint64_t address)
{
    for (unsigned i = 0; i < loaded_count; i++)
        if (address >= loaded[i].first && address < loaded[i].end) return &loaded[i];
    return NULL;
}

static uint64_t stack_low, stack_end;
static dwcheck_rows rows;
static dwcheck_fault fault;
static const uint16_t kept[] = {3, 6, 12, 13, 14, 15};
static dwcheck_block stack;
static dwcheck_state state = {.blocks = &stack, .blocks_length = 1, .kept = kept, .kept_length = 6, .stack_pointer = 7, .has_stack_pointer = 1};
static unsigned long stops, frames, fills, steps, wrong, signal_stops, outside;
static int (*glibc_backtrace)(void **, int);
static void *theirs[ROOM];

/* glibc's backtrace reads where the rows lead, and rows of gcc are wrong at a few instructions. */
static sigjmp_buf after_fault;
static volatile sig_atomic_t may_fault;
static unsigned long faults;
static void on_fault(int number)
{
    if (!may_fault) signal(number, SIG_DFL);
    else siglongjmp(after_fault, 1);
}

/* glibc's frames, the first of which is in this function. Returns their number; 0 after a fault. */
static __attribute__((noinline)) int backtrace_of_glibc(void)
{
    volatile int count = 0;
    may_fault = 1;
    if (sigsetjmp(after_fault, 1)) faults++;
    else count = glibc_backtrace(theirs, ROOM);
    may_fault = 0;
    return count;
}

/* Where gdb finds what was walked. */
uint64_t own_found[ROOM];
size_t own_count;
void own_stopped(void);
__attribute__((noinline)) void own_stopped(void) { __asm__ volatile("" : : : "memory"); }

/* Moves a cursor to the next frame. Returns the frame's address, or 0 if no row covers it or it is the last one. */
static bool step(dwcheck_cursor *cursor, uint64_t *address)
{
    dwcheck_frame frame;
    const Loaded *module = loaded_at(cursor->address - (cursor->stage == DWCHECK_CURSOR_CALLER));
    *address = cursor->address;
    if (!module) return false;
    uint32_t status = dwcheck_step_in(&module->module, &module->header, cursor, &state, &frame, &fault);
    return status == DWCHECK_DONE && cursor->stage <= DWCHECK_CURSOR_CALLER;
}

static dwcheck_place place_of(const dwcheck_cursor *cursor)
{
    dwcheck_place place = {.address = cursor->address, .key = cursor->address + (cursor->stage == DWCHECK_CURSOR_EXACT),
                           .stack_pointer = cursor->contents[7], .frame_pointer = cursor->contents[6]};
    if (!cursor->known[6]) place.frame_pointer = UINT64_MAX, place.is_saved = 1;
    return place;
}

/* Whether the last walk ended where the stack can't be read: outside of the stack, where glibc may go on. */
static bool is_unreadable;

/* Walks from the place of `start` to the last frame. */
static size_t walk(const dwcheck_cursor *start, uint64_t *found)
{
    dwcheck_cursor cursor = *start;
    dwcheck_place place = place_of(start);
    size_t count = 0, at_cursor = 0, more;
    uint32_t stop;
    uint64_t address;
    for (;;) {
        dwcheck_walk(&rows, ~0ull, &place, &stack, 1, found + count, ROOM - count, &more, &stop);
        count += more;
        if (stop == DWCHECK_STOP_MISSING) {
            const Loaded *module = loaded_at(place.key - 1);
            uint32_t status = module ? dwcheck_rows_fill(&rows, (uint32_t)(module - loaded), &module->module, &module->header, place.key - 1, &fault) : DWCHECK_NONE;
            fills++;
            if (status == DWCHECK_DONE || status == DWCHECK_NO_PLACE) continue;
            is_unreadable = false;
            if (count < ROOM) found[count++] = place.address; /* the last frame, which no row covers */
            return count;
        }
        is_unreadable = stop == DWCHECK_STOP_RETURN_UNREADABLE;
        if (stop != DWCHECK_STOP_OTHER) return count;
        for (; at_cursor < count; at_cursor++)
            if (!step(&cursor, &address) || address != found[at_cursor]) wrong++;
        steps++, at_cursor++;
        bool goes_on = step(&cursor, &address);
        found[count++] = address;
        is_unreadable = cursor.stage == DWCHECK_STOP_RETURN_UNREADABLE + 1;
        if (!goes_on) return count;
        place = place_of(&cursor);
    }
}

static void show(const char *what, size_t count, size_t their_count, size_t from)
{
    wrong++;
    if (wrong > SHOWN) return;
    printf("%s: %zu frames, not %zu\n", what, count, their_count - from);
    for (size_t i = 0; i < count || i + from < their_count; i++)
        printf("    %2zu %16lx %16lx\n", i, i < count ? own_found[i] : 0, i + from < their_count ? (uint64_t)theirs[i + from] : 0);
}

/* Compares the walk from a cursor with glibc's frames from the one at `from` on. */
static void compare(const dwcheck_cursor *start, size_t their_count, size_t from)
{
    dwcheck_cursor cursor = *start;
    uint64_t address;
    bool differs = false;
    own_count = walk(start, own_found);
    if (their_count) {
        /* glibc leaves out a last address of 0, where a walk has gone astray. */
        differs = own_count - (own_count > 1 && own_found[own_count - 1] == 0) != their_count - from;
        if (is_unreadable && own_count < their_count - from) differs = false, outside++;
        for (size_t i = 0; i < own_count && i + from < their_count; i++) differs |= own_found[i] != (uint64_t)theirs[i + from];
        if (differs) show("glibc", own_count, their_count, from);
    }
    size_t n = 0;
    for (bool more = true; more && n < ROOM; n++) {
        more = step(&cursor, &address);
        theirs[n] = (void *)address;
    }
    differs = n != own_count;
    for (size_t i = 0; i < n && i < own_count; i++) differs |= own_found[i] != (uint64_t)theirs[i];
    if (differs) show("the cursor", own_count, n, 0);
    frames += own_count;
}

/* A cursor that has the registers of an interrupted place, by their DWARF numbers. */
static void place_cursor(dwcheck_cursor *cursor, const greg_t *g, uint32_t exact)
{
    const uint64_t contents[17] = {
        g[REG_RAX], g[REG_RDX], g[REG_RCX], g[REG_RBX], g[REG_RSI], g[REG_RDI], g[REG_RBP], g[REG_RSP], g[REG_R8],
        g[REG_R9], g[REG_R10], g[REG_R11], g[REG_R12], g[REG_R13], g[REG_R14], g[REG_R15], g[REG_RIP]};
    const uint8_t known[3] = {255, 255, 1};
    dwcheck_state at = state;
    at.contents = contents, at.contents_length = 17, at.known = known, at.known_length = 3;
    if (dwcheck_cursor_init(cursor, contents[16], &at, exact, &fault) != DWCHECK_DONE) abort();
}

/* The stack from its lowest byte that is used: that of the handler. */
static void set_stack(uint64_t from) { stack = (dwcheck_block){from, (const uint8_t *)from, stack_end - from}; }

static void traps(int number, siginfo_t *info, void *context)
{
    (void)number, (void)info;
    const greg_t *registers = ((ucontext_t *)context)->uc_mcontext.gregs;
    dwcheck_cursor cursor;
    if ((uint64_t)registers[REG_RSP] < stack_low || (uint64_t)registers[REG_RSP] >= stack_end) return;
    int their_count = backtrace_of_glibc(), from = 1;
    while (from < their_count && (uint64_t)theirs[from] != (uint64_t)registers[REG_RIP]) from++;
    set_stack((uint64_t)__builtin_frame_address(0));
    place_cursor(&cursor, registers, 1);
    compare(&cursor, (size_t)their_count, (size_t)from);
    stops++;
    if (stops % 16 == 0) { /* also from here, through the signal frame */
        signal_stops++;
        own_compare();
    }
}

__attribute__((noinline)) void own_compare(void)
{
    ucontext_t context;
    dwcheck_cursor cursor;
    int their_count = backtrace_of_glibc();
    getcontext(&context);
    greg_t *registers = context.uc_mcontext.gregs;
    if (their_count) registers[REG_RIP] = (greg_t)theirs[1]; /* where glibc saw this frame */
    set_stack((uint64_t)registers[REG_RSP]);
    place_cursor(&cursor, registers, 0);
    compare(&cursor, (size_t)their_count, 1);
    stops++;
    own_stopped();
}

/* These set and clear the processor's trap flag. */
#define WITH_FLAGS(name, change)                                                                            \
    __asm__(".globl " #name "\n.type " #name ", @function\n" #name ":\n.cfi_startproc\npushfq\n"            \
            ".cfi_adjust_cfa_offset 8\n" change ", (%rsp)\npopfq\n.cfi_adjust_cfa_offset -8\nret\n"         \
            ".cfi_endproc\n.size " #name ", . - " #name "\n")
WITH_FLAGS(own_begin, "orq $0x100");
WITH_FLAGS(own_end, "andq $~0x100");

void own_start(void)
{
    pthread_attr_t attributes;
    void *low;
    size_t size;
    if (pthread_getattr_np(pthread_self(), &attributes) || pthread_attr_getstack(&attributes, &low, &size)) abort();
    pthread_attr_destroy(&attributes);
    stack_low = (uint64_t)low, stack_end = stack_low + size;
    *(void **)&glibc_backtrace = dlsym(dlopen("libc.so.6", RTLD_NOW), "backtrace");
    glibc_backtrace(theirs, 4);
    dl_iterate_phdr(add_module, NULL);
    struct sigaction action = {.sa_sigaction = traps, .sa_flags = SA_SIGINFO};
    sigaction(SIGTRAP, &action, NULL);
    sigaction(SIGUSR2, &action, NULL);
    signal(SIGSEGV, on_fault);
    signal(SIGBUS, on_fault);
    own_compare(); /* binds all that a handler calls */
    raise(SIGUSR2);
}

int own_report(const char *name)
{
    printf("%s: %lu stops, %lu of them through a signal frame, %lu frames, %lu fills, %lu steps, %lu faults of glibc's, %lu walks out of the stack: %lu wrong\n", name, stops, signal_stops, frames, fills, steps, faults, outside, wrong);
    return wrong != 0;
}
