/* Walks up a deep stack of this process with dwcheck's libraries (bench_walk) and with libunwind.
   Times both, and compares the addresses and CFAs of the frames.
       walks OWN LIBRARY [SECTION]..
   OWN and LIBRARY are files with the .debug_frame sections of this program and of libthrough.so.
   Each SECTION becomes a module before these two. Its load address is one at which this process has
   nothing, so each look-up of bench_walk searches this module first and finds nothing. Through C, a
   look-up searches for the module of an address by the modules' ranges. The exit status is 1 if a
   frame differs. */
#define _GNU_SOURCE
#define UNW_LOCAL_ONLY
#include "walks.h"
#include <libunwind.h>
#include <stdio.h>
#include <stdlib.h>
#include <string.h>
#include <time.h>
#ifdef THROUGH_C
#include <dwcheck.h>
#endif
#ifdef WITH_ELFUTILS
#include "elfutils.h"
#endif

enum { LEVELS = 400, PLACES = 1024, SECTIONS = 64, ROUNDS = 100, WALKS = 20 };

extern const char __ehdr_start;
static LoadedSection sections[SECTIONS];
static WalkFrame frames[PLACES];
static unw_word_t addresses[PLACES], pointers[PLACES];
static int status;

static double now(void)
{
    struct timespec t;
    clock_gettime(CLOCK_MONOTONIC, &t);
    return (double)t.tv_sec * 1e9 + (double)t.tv_nsec;
}

/* The address where the first mapping of a file begins; or if `is_end` is true, the address where
   its last mapping ends. 0 if there is none. */
static uint64_t mapping(const char *name, bool is_end)
{
    FILE *maps = fopen("/proc/self/maps", "r");
    char line[1024];
    uint64_t at = 0;
    while (maps && fgets(line, sizeof line, maps)) {
        if (strstr(line, name) && (is_end || at == 0))
            at = strtoull(is_end ? strchr(line, '-') + 1 : line, NULL, 16);
    }
    if (maps)
        fclose(maps);
    return at;
}

/* Walks with libunwind. Writes each frame's address and stack pointer to `addresses` and
   `pointers`, and returns the number of frames. */
static int stepped(unw_context_t *context)
{
    unw_cursor_t cursor;
    int count = 0;
    unw_init_local(&cursor, context);
    do {
        unw_get_reg(&cursor, UNW_REG_IP, &addresses[count]);
        unw_get_reg(&cursor, UNW_REG_SP, &pointers[count]);
        count++;
    } while (count < PLACES && unw_step(&cursor) > 0);
    return count;
}

/* Of `ours` frames that dwcheck found, the number that differ from the `theirs` frames that
   libunwind found. A frame's CFA must be the stack pointer that libunwind gives for the caller. */
static uint64_t differing(uint64_t ours, uint64_t theirs)
{
    uint64_t different = 0;
    for (uint64_t i = 0; i < ours; i++) {
        bool is_same = i < theirs && frames[i].address == addresses[i];
        if (is_same && frames[i].cfa_kind == CFA_VALUE && i + 1 < theirs)
            is_same = frames[i].cfa == pointers[i + 1];
        if (frames[i].cfa_kind != CFA_VALUE && i + 1 < ours)
            is_same = false;
        different += !is_same;
    }
    return different;
}

static double least(double one, double other) { return one < other ? one : other; }

/* The nanoseconds that dwcheck needs per frame. Each call of bench_walk also checks the sections
   and compiles their tables. To leave that out, the time of a call that walks once is subtracted
   from the time of a call that walks several times. */
static double time_of_ours(const LoadedSection *first, size_t count, WalkStart *start, WalkEnd *end)
{
    double once = 1e30, more = 1e30;
    for (int round = 0; round < ROUNDS; round++) {
        double begun = now();
        start->times = 1;
        bench_walk(first, count, start, frames, PLACES, end);
        double middle = now();
        start->times = 1 + WALKS;
        bench_walk(first, count, start, frames, PLACES, end);
        once = least(once, middle - begun);
        more = least(more, now() - middle);
    }
    return (more - once) / WALKS / (double)end->count;
}

static double time_of_steps(unw_context_t *context, unw_caching_policy_t policy)
{
    double time = 1e30;
    unw_set_caching_policy(unw_local_addr_space, policy);
    for (int round = 0; round < ROUNDS; round++) {
        double begun = now();
        int count = stepped(context);
        time = least(time, (now() - begun) / count);
    }
    return time;
}

static double time_of_backtrace(void)
{
    static void *found[PLACES];
    double time = 1e30;
    unw_set_caching_policy(unw_local_addr_space, UNW_CACHE_GLOBAL);
    for (int round = 0; round < ROUNDS; round++) {
        double begun = now();
        int count = unw_backtrace(found, PLACES);
        time = least(time, (now() - begun) / count);
    }
    return time;
}

static size_t section_count;

/* Copies a context's registers to `contents`, in the order of DWARF's numbers. */
static void read_registers(const unw_context_t *context, uint64_t contents[17])
{
    static const int order[17] = {REG_RAX, REG_RDX, REG_RCX, REG_RBX, REG_RSI, REG_RDI, REG_RBP, REG_RSP, REG_R8,
                                  REG_R9,  REG_R10, REG_R11, REG_R12, REG_R13, REG_R14, REG_R15, REG_RIP};
    for (int i = 0; i < 17; i++)
        contents[i] = (uint64_t)context->uc_mcontext.gregs[order[i]];
}

/* Compares dwcheck's walk with libunwind's, and prints the times of both. Returns the number of
   dwcheck's frames, or 0 if a section is refused. */
static uint64_t compared(const char *said, const LoadedSection *first, size_t count, WalkStart *start, unw_context_t *context)
{
    WalkEnd end = {0, 0};
    if (!bench_walk(first, count, start, frames, PLACES, &end)) {
        printf("%s: refused\n", said);
        status = 1;
        return 0;
    }
    uint64_t theirs = (uint64_t)stepped(context), different = differing(end.count, theirs);
    if (different || end.count < LEVELS)
        status = 1;
    printf("%s: %lu frames, stop %u; libunwind's %lu; %lu differ\n", said, end.count, end.stop, theirs, different);
    for (int pass = 0; pass < 3; pass++)
        printf("  ns a frame: %.1f; unw_step %.1f, without its cache %.1f; unw_backtrace %.1f\n", time_of_ours(first, count, start, &end),
               time_of_steps(context, UNW_CACHE_GLOBAL), time_of_steps(context, UNW_CACHE_NONE), time_of_backtrace());
    return end.count;
}

#ifdef WITH_ELFUTILS
/* Times elfutils' walk up the same stack. Its frames must have the same addresses as dwcheck's. */
static void by_elfutils(const WalkStart *start, uint64_t our_count)
{
    static uint64_t found[PLACES];
    Dwfl *dwfl = elfutils_begin(start);
    double time = 1e30;
    size_t count = 0;
    for (int round = 0; dwfl && round < ROUNDS; round++) {
        double begun = now();
        count = elfutils_walk(dwfl, found, PLACES);
        time = least(time, (now() - begun) / (double)(count ? count : 1));
    }
    uint64_t different = 0;
    for (uint64_t i = 0; i < our_count && i < count; i++)
        different += found[i] != frames[i].address;
    if (different || count < our_count)
        status = 1;
    printf("  ns a frame by dwfl_getthread_frames: %.1f; %zu frames; %lu differ\n", time, count, different);
    elfutils_end(dwfl);
}
#endif

#ifdef THROUGH_C
/* Adds a section to a process as a module. */
static void add_module(dwcheck_process *process, const LoadedSection *section, uint64_t load_address)
{
    dwcheck_module module = {.frame = section->bytes, .frame_length = section->count, .load_address = load_address, .room = SIZE_MAX,
                             .order = DWCHECK_LITTLE, .address_size = 8};
    dwcheck_fault fault;
    uint64_t id;
    if (dwcheck_process_add(process, &module, &id, &fault) != DWCHECK_DONE)
        status = 1;
}

/* For the frames in one module, prints the nanoseconds that it takes to get the row with all its
   rules, first with dwcheck's libraries and then with dwcheck_row_at of libdwcheck. */
static void rows_through_c(const LoadedSection *module, uint64_t frame_count)
{
    enum { TIMES = 200, RULES = 128 };
    static uint64_t linked[PLACES];
    static dwcheck_rule rules[RULES];
    dwcheck_process process = DWCHECK_CLOSED;
    dwcheck_row row;
    size_t count = 0;
    double once = 1e30, more = 1e30, through = 1e30;
    add_module(&process, module, 0);
    for (uint64_t i = 0; i < frame_count; i++)
        if (dwcheck_row_at(&process, frames[i].address - module->load_address, &row, rules, RULES) == DWCHECK_DONE)
            linked[count++] = frames[i].address - module->load_address;
    for (int round = 0; round < ROUNDS; round++) {
        double begun = now();
        bench_read_by_table(module->bytes, module->count, linked, count, 1);
        double middle = now();
        bench_read_by_table(module->bytes, module->count, linked, count, 1 + TIMES);
        double end = now();
        for (int time = 0; time < TIMES; time++)
            for (size_t i = 0; i < count; i++)
                dwcheck_row_at(&process, linked[i], &row, rules, RULES);
        through = least(through, now() - end);
        once = least(once, middle - begun);
        more = least(more, end - middle);
    }
    double rows = TIMES * (double)count;
    printf("  ns a row with its rules: %.1f; through C %.1f; %zu rows\n", (more - once) / rows, through / rows, count);
    dwcheck_process_close(&process);
}

static dwcheck_frame found[PLACES];

/* How many nanoseconds a frame takes in walks of at most `limit` frames, their start included: with a
   cache that the walks before have filled, or without one if `cache` is NULL. */
static double time_of_walks(const dwcheck_process *process, const WalkStart *start, const dwcheck_state *state, size_t limit, dwcheck_cache *cache)
{
    double time = 1e30;
    for (int round = 0; round < ROUNDS * WALKS; round++) {
        size_t count = 0;
        uint32_t stop;
        dwcheck_fault fault;
        double begun = now();
        uint32_t done = cache ? dwcheck_backtrace_cached(process, start->address, state, found, limit, &count, &stop, cache, &fault)
                              : dwcheck_backtrace(process, start->address, state, found, limit, &count, &stop, &fault);
        time = least(time, (now() - begun) / (double)count);
        if (done != DWCHECK_DONE)
            status = 1;
    }
    return time;
}

/* Times walks with dwcheck_backtrace and dwcheck_backtrace_cached of libdwcheck, as a C program would
   call them. They must find the same frames as bench_walk, `wanted` of them. */
static void through_c(const LoadedSection *first, size_t count, const WalkStart *start, uint64_t wanted)
{
    static const uint8_t known[] = {0xff, 0xff, 0x01};
    static const uint16_t kept[] = {3, 6, 12, 13, 14, 15};
    static dwcheck_cache cache;
    dwcheck_process process = DWCHECK_CLOSED;
    dwcheck_fault fault;
    dwcheck_block stack = {start->base, start->stack, start->stack_count};
    dwcheck_state state = {start->contents, start->register_count, known, sizeof known, &stack, 1, kept, 6, 7, 1, 0, 0};
    size_t frame_count = 0;
    uint32_t stop;
    for (size_t i = 0; i < count; i++)
        add_module(&process, &first[i], first[i].load_address);
    for (size_t limit = PLACES; limit > 0; limit = limit == PLACES ? 25 : limit == 25 ? 4 : 0) {
        double time = time_of_walks(&process, start, &state, limit, NULL);
        printf("  ns a frame through C, at most %zu frames: %.1f; with a cache %.1f\n", limit, time,
               time_of_walks(&process, start, &state, limit, &cache));
    }
    for (int cached = 0; cached < 2; cached++) {
        uint32_t done = cached ? dwcheck_backtrace_cached(&process, start->address, &state, found, PLACES, &frame_count, &stop, &cache, &fault)
                               : dwcheck_backtrace(&process, start->address, &state, found, PLACES, &frame_count, &stop, &fault);
        if (done != DWCHECK_DONE || frame_count != wanted)
            status = 1;
        for (size_t i = 0; i < frame_count; i++)
            if (found[i].address != frames[i].address || found[i].cfa.value != frames[i].cfa)
                status = 1;
    }
    printf("  %zu modules; %zu frames, stop %u; %s\n", count, frame_count, stop, status ? "not ours" : "ours");
    dwcheck_process_close(&process);
}
#endif

/* Runs all walks; its own frame is the innermost. dwcheck and elfutils walk a copy of the stack,
   because a walk itself writes to the stack. */
static __attribute__((noinline)) int measured(void)
{
    static unw_context_t context;
    static uint64_t contents[17];
    unw_getcontext(&context);
    read_registers(&context, contents);
    uint64_t base = contents[7], count = mapping("[stack]", true) - base;
    uint8_t *copy = malloc(count);
    if (!copy)
        exit(2);
    memcpy(copy, (const void *)base, count);
    WalkStart start = {contents[16], contents, 17, base, copy, count, 1};
    uint64_t frame_count = compared("two modules", sections + section_count - 2, 2, &start, &context);
#ifdef WITH_ELFUTILS
    by_elfutils(&start, frame_count);
#endif
#ifdef THROUGH_C
    through_c(sections + section_count - 2, 2, &start, frame_count);
    rows_through_c(sections + section_count - 2, frame_count);
#endif
    if (section_count > 2) {
        frame_count = compared("with the others in front", sections, section_count, &start, &context);
#ifdef THROUGH_C
        through_c(sections, section_count, &start, frame_count);
#endif
    }
    (void)frame_count;
    free(copy);
    return 1;
}

static volatile int sink;

static __attribute__((noinline)) int down(int levels)
{
    volatile char bytes[256];
    bytes[levels & 255] = (char)levels;
    if (levels <= 0)
        return measured();
    int below = levels % 2 ? through(levels, down) : down(levels - 1);
    sink += bytes[levels & 255];
    return below + sink;
}

static void add(const char *name, uint64_t load_address)
{
    FILE *file = fopen(name, "rb");
    if (!file || fseek(file, 0, SEEK_END) != 0 || section_count == SECTIONS)
        exit(2);
    size_t count = (size_t)ftell(file);
    uint8_t *bytes = malloc(count + 1);
    rewind(file);
    if (!bytes || fread(bytes, 1, count, file) != count)
        exit(2);
    fclose(file);
    sections[section_count++] = (LoadedSection){load_address, bytes, count};
}

int main(int argc, char **argv)
{
    if (argc < 3)
        return 2;
    for (int i = 3; i < argc; i++)
        add(argv[i], (uint64_t)i << 36);
    add(argv[1], (uint64_t)&__ehdr_start);
    add(argv[2], mapping("/libthrough.so", false));
    sink = down(LEVELS);
    return status;
}
