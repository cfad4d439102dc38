/* Walks up a deep stack of this process with dwcheck_walk and dwcheck_walk_frames, which use kept rows, and with
   libunwind's unw_backtrace and unw_step and glibc's backtrace, and times them in turn. The addresses must be glibc's.
       kept_rows
   Prints a line for each kind of stack: nanoseconds for each frame, the least of many rounds, the call that captures
   the registers included. The exit status is 1 if an address differs. */
#define _GNU_SOURCE
#define UNW_LOCAL_ONLY
#include <alloca.h>
#include <dlfcn.h>
#include <dwcheck.h>
#include <libunwind.h>
#include <link.h>
#include <pthread.h>
#include <stdio.h>
#include <stdlib.h>
#include <string.h>
#include <time.h>
#include <ucontext.h>

enum { ROOM = 2048, ROUNDS = 400, KINDS = 1024, SLOTS = 64 };

typedef uint64_t (*Function)(int depth);

static uint8_t kinds[KINDS];
static const Function functions[];
static void bottom(void);

static void use(void *bytes) { __asm__ volatile("" : : "r"(bytes) : "memory"); }

#define NEXT(depth) ((depth) ? functions[kinds[depth]]((depth) - 1) : (bottom(), 0))

/* Functions that keep different things on the stack and in registers while they call. */
static uint64_t plain(int depth) { char bytes[24]; use(bytes); uint64_t sum = NEXT(depth); use(bytes); return sum + 1; }

static uint64_t saves(int depth)
{
    uint64_t a = depth * 3, b = depth * 5, c = depth ^ 9;
    __asm__ volatile("" : "+r"(a), "+r"(b), "+r"(c));
    uint64_t sum = NEXT(depth);
    __asm__ volatile("" : "+r"(a), "+r"(b), "+r"(c));
    return sum + a + b * c + depth;
}

__attribute__((optimize("no-omit-frame-pointer"))) static uint64_t framed(int depth)
{
    char bytes[40];
    use(bytes);
    uint64_t sum = NEXT(depth);
    use(bytes);
    return sum + depth;
}

static uint64_t grows(int depth)
{
    void *bytes = alloca(16 + (depth & 7) * 16);
    use(bytes);
    uint64_t sum = NEXT(depth);
    use(bytes);
    return sum + depth;
}

static uint64_t saves_all(int depth)
{
    uint64_t a = depth, b = depth + 1, c = depth + 2, d = depth + 3, e = depth * 7;
    __asm__ volatile("" : "+r"(a), "+r"(b), "+r"(c), "+r"(d), "+r"(e));
    uint64_t sum = NEXT(depth);
    __asm__ volatile("" : "+r"(a), "+r"(b), "+r"(c), "+r"(d), "+r"(e));
    return sum + a + b * c + d * e;
}

#define TWICE(name) static uint64_t name##_2(int depth) { char bytes[56]; use(bytes); uint64_t sum = NEXT(depth); use(bytes); return sum + 2 * depth; }
TWICE(plain) TWICE(saves) TWICE(framed) TWICE(grows) TWICE(saves_all)

static const Function functions[] = {plain, saves_2, framed, plain_2, saves, saves_all_2, grows, saves_all, framed_2, grows_2};

/* The sections of a module, as they lie in this process. */
typedef struct { uint64_t first, last; dwcheck_module module; dwcheck_header header; } Loaded;
static Loaded loaded[SLOTS];
static unsigned count;

static int add_module(struct dl_phdr_info *info, size_t size, void *data)
{
    (void)size, (void)data;
    Loaded *to = &loaded[count];
    const uint8_t *header = NULL;
    size_t header_length = 0;
    uint64_t end = 0;
    to->first = UINT64_MAX;
    for (int i = 0; i < info->dlpi_phnum; i++) {
        const ElfW(Phdr) *part = &info->dlpi_phdr[i];
        uint64_t at = info->dlpi_addr + part->p_vaddr;
        if (part->p_type == PT_GNU_EH_FRAME) header = (const uint8_t *)at, header_length = part->p_memsz;
        if (part->p_type == PT_LOAD && part->p_flags & PF_X) {
            if (at < to->first) to->first = at;
            if (at + part->p_memsz > to->last) to->last = at + part->p_memsz;
        }
    }
    if (!header) return 0;
    int32_t to_frame;
    memcpy(&to_frame, header + 4, sizeof to_frame);
    const uint8_t *frame = header + 4 + to_frame;
    for (int i = 0; i < info->dlpi_phnum; i++) {
        const ElfW(Phdr) *part = &info->dlpi_phdr[i];
        uint64_t at = info->dlpi_addr + part->p_vaddr;
        if (part->p_type == PT_LOAD && (uint64_t)frame >= at && (uint64_t)frame < at + part->p_memsz) end = at + part->p_memsz;
    }
    to->module = (dwcheck_module){.frame = frame, .frame_length = end - (uint64_t)frame, .order = DWCHECK_LITTLE, .address_size = 8,
                                  .kind = DWCHECK_EH_FRAME, .section_address = (uint64_t)frame};
    to->header = (dwcheck_header){header, header_length, (uint64_t)header};
    count++;
    return count == SLOTS;
}

static dwcheck_rows rows;
static uint64_t ours[ROOM], fills, stack_end;
static dwcheck_register_frame with_registers[ROOM];
static void *theirs[ROOM];

static int slot_of(uint64_t address)
{
    for (unsigned i = 0; i < count; i++)
        if (address >= loaded[i].first && address < loaded[i].last) return (int)i;
    return -1;
}

/* Keeps the row of an address. Returns whether it could. */
static __attribute__((noinline)) bool fill(uint64_t address)
{
    dwcheck_fault fault;
    int slot = slot_of(address);
    fills++;
    return slot >= 0 && dwcheck_rows_fill(&rows, (uint32_t)slot, &loaded[slot].module, &loaded[slot].header, address, &fault) == DWCHECK_DONE;
}

static __attribute__((noinline)) int kept_walk(void)
{
    uint64_t pc, sp, bp;
    __asm__ volatile("lea 0(%%rip), %0; mov %%rsp, %1; mov %%rbp, %2" : "=r"(pc), "=r"(sp), "=r"(bp));
    dwcheck_place place = {.address = pc, .key = pc + 1, .stack_pointer = sp, .frame_pointer = bp};
    const dwcheck_block stack = {sp - 128, (const uint8_t *)sp - 128, stack_end - (sp - 128)};
    size_t done = 0, more;
    uint32_t stop;
    do {
        dwcheck_walk(&rows, ~0ull, &place, &stack, 1, ours + done, ROOM - done, &more, &stop);
        done += more;
    } while (stop == DWCHECK_STOP_MISSING && fill(place.key - 1));
    return (int)done;
}

static __attribute__((noinline)) int kept_walk_with_registers(void)
{
    unw_context_t context;
    unw_getcontext(&context);
    const gregset_t *g = &context.uc_mcontext.gregs;
    dwcheck_register_place place = {
        .address = (uint64_t)(*g)[REG_RIP], .key = (uint64_t)(*g)[REG_RIP] + 1, .stack_pointer = (uint64_t)(*g)[REG_RSP],
        .rbx = (uint64_t)(*g)[REG_RBX], .rbp = (uint64_t)(*g)[REG_RBP], .r12 = (uint64_t)(*g)[REG_R12],
        .r13 = (uint64_t)(*g)[REG_R13], .r14 = (uint64_t)(*g)[REG_R14], .r15 = (uint64_t)(*g)[REG_R15]};
    uint64_t low = place.stack_pointer - 128;
    const dwcheck_block stack = {low, (const uint8_t *)low, stack_end - low};
    size_t done = 0, more;
    uint32_t stop;
    do {
        dwcheck_walk_frames(&rows, ~0ull, &place, &stack, 1, with_registers + done, ROOM - done, &more, &stop);
        done += more;
    } while (stop == DWCHECK_STOP_MISSING && fill(place.key - 1));
    return (int)done;
}

static int stepped(void)
{
    unw_context_t context;
    unw_cursor_t cursor;
    int n = 0;
    unw_getcontext(&context);
    unw_init_local(&cursor, &context);
    do {
        unw_word_t address;
        unw_get_reg(&cursor, UNW_REG_IP, &address);
        theirs[n++] = (void *)address;
    } while (n < ROOM && unw_step(&cursor) > 0);
    return n;
}

static int (*glibc_backtrace)(void **, int);
enum { ADDRESSES, BACKTRACE, STEPS, GLIBC, REGISTERS, WALKERS };
static const char *const names[] = {"dwcheck_walk", "unw_backtrace", "unw_step", "backtrace", "dwcheck_walk_frames"};
static double best[WALKERS];
static int frames[WALKERS], status;
static const char *stack_name;

static double now(void)
{
    struct timespec t;
    clock_gettime(CLOCK_MONOTONIC, &t);
    return (double)t.tv_sec * 1e9 + (double)t.tv_nsec;
}

static int walk(int which)
{
    switch (which) {
    case ADDRESSES: return kept_walk();
    case REGISTERS: return kept_walk_with_registers();
    case BACKTRACE: return unw_backtrace(theirs, ROOM);
    case STEPS: return stepped();
    default: return glibc_backtrace(theirs, ROOM);
    }
}

/* Walks from some frames further in, so that the innermost frames differ from walk to walk. */
static __attribute__((noinline)) void walk_from(int further, int which)
{
    char bytes[32];
    use(bytes);
    if (further) {
        walk_from(further - 1, which);
    } else {
        double begun = now();
        frames[which] = walk(which);
        double each = (now() - begun) / frames[which];
        if (each < best[which]) best[which] = each;
    }
    use(bytes);
}

/* How many frames differ from glibc's, but for the walkers' own ones. */
static int differing(int which)
{
    int least = frames[which] < frames[GLIBC] ? frames[which] : frames[GLIBC], differ = abs(frames[which] - frames[GLIBC]) > 2;
    for (int i = 1; i < least - 2; i++) {
        int at = frames[which] - i;
        uint64_t address = which == ADDRESSES ? ours[at] : with_registers[at].place.address;
        differ += address != (uint64_t)theirs[frames[GLIBC] - i];
    }
    return differ;
}

static void bottom(void)
{
    for (int i = 0; i < WALKERS; i++) best[i] = 1e30;
    walk_from(0, ADDRESSES);
    walk_from(0, REGISTERS);
    walk_from(0, GLIBC);
    int differ = differing(ADDRESSES) + differing(REGISTERS);
    fills = 0;
    for (int round = 0; round < ROUNDS; round++)
        for (int i = 0; i < WALKERS; i++)
            if ((i != STEPS && i != GLIBC) || round % 20 == 0) walk_from(round & 3, i);
    printf("%s: %d frames, %d differ from glibc's, %llu rows filled in again\n", stack_name, frames[0], differ, (unsigned long long)fills);
    for (int i = 0; i < WALKERS; i++) printf("    %-19s %7.2f ns a frame  %5.2f\n", names[i], best[i], best[i] / best[BACKTRACE]);
    status |= differ != 0;
}

static void try_stack(const char *name, int depth, int (*kind)(int))
{
    stack_name = name;
    for (int i = 0; i < KINDS; i++) kinds[i] = (uint8_t)kind(i);
    functions[0](depth);
}

static int in_a_cycle(int i) { return i % 10; }
static int in_any_order(int i) { (void)i; return rand() % 10; }
static int the_same(int i) { (void)i; return 0; }

/* What filling in a row takes beside a look-up of it, at addresses at random in the code of libc. */
static void try_fills(void)
{
    enum { ADDRESSES = 20000 };
    static uint64_t at[ADDRESSES];
    static dwcheck_rule rules[DWCHECK_MAX_RULES];
    const Loaded *libc = &loaded[slot_of((uint64_t)dlsym(RTLD_DEFAULT, "strtol"))];
    double fill_time = 1e30, look_up_time = 1e30;
    for (int i = 0; i < ADDRESSES; i++) at[i] = libc->first + (uint64_t)rand() % (libc->last - libc->first);
    for (int round = 0; round < 10; round++) {
        dwcheck_fault fault;
        dwcheck_row row;
        uint32_t is_signal_frame;
        double begun = now();
        for (int i = 0; i < ADDRESSES; i++) dwcheck_rows_fill(&rows, 63, &libc->module, &libc->header, at[i], &fault);
        double filled = now();
        for (int i = 0; i < ADDRESSES; i++)
            dwcheck_row_in(&libc->module, &libc->header, at[i], &row, rules, DWCHECK_MAX_RULES, &is_signal_frame, &fault);
        if (filled - begun < fill_time) fill_time = filled - begun;
        if (now() - filled < look_up_time) look_up_time = now() - filled;
    }
    printf("dwcheck_rows_fill %.0f ns, dwcheck_row_in %.0f ns, %.2f\n", fill_time / ADDRESSES, look_up_time / ADDRESSES,
           fill_time / look_up_time);
}

int main(void)
{
    *(void **)&glibc_backtrace = dlsym(dlopen("libc.so.6", RTLD_NOW), "backtrace");
    glibc_backtrace(theirs, 4);
    dl_iterate_phdr(add_module, NULL);
    pthread_attr_t attributes;
    void *stack;
    size_t size;
    pthread_getattr_np(pthread_self(), &attributes);
    pthread_attr_getstack(&attributes, &stack, &size);
    stack_end = (uint64_t)stack + size;
    srand(7);
    try_stack("a cycle of ten functions", 600, in_a_cycle);
    try_stack("the same functions in any order", 600, in_any_order);
    try_stack("one function", 600, the_same);
    try_stack("18 deep", 18, in_a_cycle);
    try_fills();
    return status;
}
