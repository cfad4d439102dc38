/* Walks with elfutils' dwfl_getthread_frames. elfutils reads .eh_frame of the files that this
   process has mapped, and gets the registers and the stack through the callbacks below. */
#define _GNU_SOURCE
#include "elfutils.h"
#include <elfutils/libdwfl.h>
#include <string.h>
#include <unistd.h>

typedef struct {
    uint64_t *addresses;
    size_t room, count;
} Found;

/* Gives elfutils one thread, and then no more. */
static pid_t next_thread(Dwfl *dwfl, void *start, void **thread)
{
    (void)dwfl;
    if (*thread)
        return 0;
    *thread = start;
    return getpid();
}

static bool get_thread(Dwfl *dwfl, pid_t tid, void *start, void **thread)
{
    (void)dwfl, (void)tid;
    *thread = start;
    return true;
}

/* Reads eight bytes from the copy of the stack. Returns false if they aren't all in the copy. */
static bool read_memory(Dwfl *dwfl, Dwarf_Addr address, Dwarf_Word *word, void *arg)
{
    const WalkStart *start = arg;
    (void)dwfl;
    if (address < start->base || start->stack_count < sizeof *word || address - start->base > start->stack_count - sizeof *word)
        return false;
    memcpy(word, start->stack + (address - start->base), sizeof *word);
    return true;
}

static bool set_registers(Dwfl_Thread *thread, void *arg)
{
    const WalkStart *start = arg;
    _Static_assert(sizeof(Dwarf_Word) == sizeof(uint64_t), "words");
    return dwfl_thread_state_registers(thread, 0, 17, (const Dwarf_Word *)start->contents);
}

static int add_frame(Dwfl_Frame *frame, void *arg)
{
    Found *found = arg;
    Dwarf_Addr address;
    if (found->count == found->room || !dwfl_frame_pc(frame, &address, NULL))
        return DWARF_CB_ABORT;
    found->addresses[found->count++] = address;
    return DWARF_CB_OK;
}

static char *debug_path;

static const Dwfl_Callbacks files = {
    .find_elf = dwfl_linux_proc_find_elf,
    .find_debuginfo = dwfl_standard_find_debuginfo,
    .debuginfo_path = &debug_path,
};

static const Dwfl_Thread_Callbacks threads = {
    .next_thread = next_thread,
    .get_thread = get_thread,
    .memory_read = read_memory,
    .set_initial_registers = set_registers,
};

Dwfl *elfutils_begin(const WalkStart *start)
{
    Dwfl *dwfl = dwfl_begin(&files);
    if (dwfl && dwfl_linux_proc_report(dwfl, getpid()) == 0 && dwfl_report_end(dwfl, NULL, NULL) == 0 &&
        dwfl_attach_state(dwfl, NULL, getpid(), &threads, (void *)start))
        return dwfl;
    dwfl_end(dwfl);
    return NULL;
}

size_t elfutils_walk(Dwfl *dwfl, uint64_t *addresses, size_t room)
{
    Found found = {addresses, room, 0};
    dwfl_getthread_frames(dwfl, getpid(), add_frame, &found);
    return found.count;
}

void elfutils_end(Dwfl *dwfl) { dwfl_end(dwfl); }
