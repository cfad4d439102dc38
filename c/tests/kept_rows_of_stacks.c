/* Tests walks with kept rows on stacks of this process: their frames are those of glibc's backtrace. Prints a line with
   counts.
   usage: kept_rows_of_stacks LIBRARY
   LIBRARY has the function call_back(f), which calls f. */
#include "kept_rows.h"
#include <alloca.h>
#include <dlfcn.h>
#include <link.h>
#include <pthread.h>
#include <signal.h>

/* The sections of a module, as they lie in this process, and its code. */
struct loaded { uint64_t first, end; dwcheck_module module; dwcheck_header header; };
static struct loaded loaded[SLOTS];
static uint32_t loaded_count;

static int add_module(struct dl_phdr_info *info, size_t size, void *data) {
    (void)size, (void)data;
    struct loaded *to = &loaded[loaded_count];
    *to = (struct loaded){.first = ALL};
    for (int i = 0; i < info->dlpi_phnum; i++) {
        const ElfW(Phdr) *part = &info->dlpi_phdr[i];
        uint64_t at = info->dlpi_addr + part->p_vaddr;
        if (part->p_type == PT_GNU_EH_FRAME) to->header = (dwcheck_header){(const uint8_t *)at, part->p_memsz, at};
        if (part->p_type != PT_LOAD || !(part->p_flags & PF_X)) continue;
        if (at < to->first) to->first = at;
        if (at + part->p_memsz > to->end) to->end = at + part->p_memsz;
    }
    if (!to->header.bytes) return 0;
    int32_t to_frame; /* from the header's field that says so; the section lies in the same segment */
    memcpy(&to_frame, to->header.bytes + 4, sizeof to_frame);
    const uint8_t *frame = to->header.bytes + 4 + to_frame;
    for (int i = 0; i < info->dlpi_phnum; i++) {
        const ElfW(Phdr) *part = &info->dlpi_phdr[i];
        uint64_t at = info->dlpi_addr + part->p_vaddr, end = at + part->p_memsz;
        if (part->p_type == PT_LOAD && (uint64_t)frame >= at && (uint64_t)frame < end)
            to->module = (dwcheck_module){.frame = frame, .frame_length = end - (uint64_t)frame, .address_size = 8,
                                          .kind = DWCHECK_EH_FRAME, .section_address = (uint64_t)frame};
    }
    return ++loaded_count == SLOTS;
}

static struct loaded *loaded_at(uint64_t address) {
    for (uint32_t i = 0; i < loaded_count; i++)
        if (address >= loaded[i].first && address < loaded[i].end) return &loaded[i];
    return NULL;
}

/* A walk up a stack of this process, which keeps rows that are missing, and takes steps of a cursor where the walk says
   so. A cursor has rsp, rbp and the return address alone, which is enough for the rows of these stacks. */
struct stack_walk {
    dwcheck_place place; const dwcheck_block *blocks; size_t blocks_length;
    uint64_t found[ROOM]; size_t count; uint32_t stop; int fills, steps;
};

static void step(struct stack_walk *w) {
    static const uint16_t kept[] = {3, RBP, 12, 13, 14, 15};
    const struct loaded *module = loaded_at(w->place.key - 1);
    uint64_t contents[17] = {[RSP] = w->place.stack_pointer, [RBP] = w->place.frame_pointer, [RIP] = w->place.address};
    const uint8_t known[] = {1 << RSP | 1 << RBP, 0, 1};
    const dwcheck_state state = {.contents = contents, .contents_length = 17, .known = known, .known_length = 3,
                                 .blocks = w->blocks, .blocks_length = w->blocks_length,
                                 .kept = kept, .kept_length = 6, .stack_pointer = RSP, .has_stack_pointer = 1};
    dwcheck_cursor cursor;
    dwcheck_frame frame;
    dwcheck_fault fault;
    if (w->place.is_saved) memcpy(&contents[RBP], (const void *)w->place.frame_pointer, 8);
    IS(dwcheck_cursor_init(&cursor, w->place.address, &state, w->place.key != w->place.address, &fault), DWCHECK_DONE);
    IS(dwcheck_step_in(&module->module, &module->header, &cursor, &state, &frame, &fault), DWCHECK_DONE);
    w->found[w->count++] = frame.address;
    w->steps++;
    w->stop = cursor.stage > DWCHECK_CURSOR_CALLER ? cursor.stage - 1 : DWCHECK_STOP_OTHER;
    w->place = (dwcheck_place){.address = cursor.address, .stack_pointer = cursor.contents[RSP],
                               .key = cursor.address + (cursor.stage == DWCHECK_CURSOR_EXACT),
                               .frame_pointer = cursor.contents[RBP]};
}

static void walk_all(struct stack_walk *w) {
    dwcheck_fault fault;
    size_t more;
    do {
        dwcheck_walk(&rows, ALL, &w->place, w->blocks, w->blocks_length, w->found + w->count, ROOM - w->count, &more,
                     &w->stop);
        w->count += more;
        if (w->stop == DWCHECK_STOP_MISSING) {
            const struct loaded *module = loaded_at(w->place.key - 1);
            if (!module) break;
            uint32_t status = dwcheck_rows_fill(&rows, (uint32_t)(module - loaded), &module->module, &module->header,
                                                w->place.key - 1, &fault);
            if (status != DWCHECK_DONE && status != DWCHECK_NO_PLACE) break;
            w->fills++;
        } else if (w->stop == DWCHECK_STOP_OTHER) {
            step(w);
        }
    } while ((w->stop == DWCHECK_STOP_MISSING || w->stop == DWCHECK_STOP_OTHER) && w->fills + w->steps < 2 * ROOM);
}

static int (*glibc_backtrace)(void **frames, int room); /* not that of a sanitizer */
static void *theirs[ROOM];
static int their_count;

static dwcheck_block own_stack(uint64_t from) {
    pthread_attr_t attributes;
    void *low;
    size_t size;
    if (pthread_getattr_np(pthread_self(), &attributes) || pthread_attr_getstack(&attributes, &low, &size)) abort();
    pthread_attr_destroy(&attributes);
    return (dwcheck_block){from, (const uint8_t *)from, (uint64_t)low + size - from};
}

/* Compares a walk with the frames of glibc from the one at `from` on. */
static void is_theirs(const struct stack_walk *w, int from) {
    IS(w->stop, DWCHECK_STOP_RETURN_UNDEFINED);
    IS(w->count, their_count - from);
    for (int i = from; i < their_count; i++) IS(w->found[i - from], (uint64_t)theirs[i]);
}

/* Walks from the place of glibc's frame `from`, first without any rows and then with all of them. */
static struct stack_walk compare_from(dwcheck_place place, const dwcheck_block *blocks, size_t length, int from) {
    struct stack_walk w = {.place = place, .blocks = blocks, .blocks_length = length}, again = w;
    memset(&rows, 0, sizeof rows);
    walk_all(&w);
    is_theirs(&w, from);
    IS(w.fills > 3, 1);
    walk_all(&again);
    is_theirs(&again, from);
    IS(again.fills, 0); IS(again.steps, w.steps);
    return w;
}

/* Takes glibc's frames, and sets `here` to the place of the first one of them, that of the function itself. */
static dwcheck_place here;
#define TAKE_FRAMES()                                                                                    \
    do {                                                                                                 \
        uint64_t rsp_, rbp_;                                                                             \
        their_count = glibc_backtrace(theirs, ROOM);                                                     \
        __asm__ volatile("mov %%rsp, %0; mov %%rbp, %1" : "=r"(rsp_), "=r"(rbp_));                       \
        here = (dwcheck_place){(uint64_t)theirs[0], (uint64_t)theirs[0], rsp_, rbp_, 0, 0};              \
    } while (0)

/* Functions that keep different things on the stack and in registers while they call the next one. */
typedef uint64_t (*function)(int depth);
static function order[ROOM];
static uint64_t (*bottom)(void);
static void use(void *bytes) { __asm__ volatile("" : : "r"(bytes) : "memory"); }
#define NEXT(depth) ((depth) ? order[depth]((depth) - 1) : bottom())

static uint64_t plain(int depth) {
    char bytes[24];
    use(bytes);
    uint64_t sum = NEXT(depth);
    use(bytes);
    return sum + 1;
}

static uint64_t large(int depth) {
    char bytes[40000];
    use(bytes);
    uint64_t sum = NEXT(depth);
    use(bytes);
    return sum + 1;
}

static uint64_t saves(int depth) {
    uint64_t a = (uint64_t)depth * 3, b = (uint64_t)depth * 5, c = (uint64_t)depth ^ 9;
    __asm__ volatile("" : "+r"(a), "+r"(b), "+r"(c));
    uint64_t sum = NEXT(depth);
    __asm__ volatile("" : "+r"(a), "+r"(b), "+r"(c));
    return sum + a + b * c;
}

static uint64_t saves_all(int depth) {
    uint64_t a = (uint64_t)depth, b = a + 1, c = a + 2, d = a + 3, e = a * 7;
    __asm__ volatile("" : "+r"(a), "+r"(b), "+r"(c), "+r"(d), "+r"(e));
    uint64_t sum = NEXT(depth);
    __asm__ volatile("" : "+r"(a), "+r"(b), "+r"(c), "+r"(d), "+r"(e));
    return sum + a + b * c + d * e + (uint64_t)depth;
}

__attribute__((optimize("no-omit-frame-pointer"))) static uint64_t framed(int depth) {
    char bytes[40];
    use(bytes);
    uint64_t sum = NEXT(depth);
    use(bytes);
    return sum + 1;
}

static uint64_t grows(int depth) {
    void *bytes = alloca(16 + (size_t)(depth & 7) * 16);
    use(bytes);
    uint64_t sum = NEXT(depth);
    use(bytes);
    return sum + 1;
}

/* With gcc, the CFA of such a function is in memory, which is an expression's. There is a kind of row for it. */
static uint64_t realigns(int depth) {
    uint64_t aligned[8] __attribute__((aligned(64)));
    use(aligned);
    use(alloca(16 + (size_t)(depth & 3) * 16));
    uint64_t sum = NEXT(depth);
    use(aligned);
    return sum + 1;
}

/* Calls the next function from one that is called by other code, once: ASan's qsort compares more often. */
static int depth_left = -1;
static uint64_t sum_left;
static inline __attribute__((always_inline)) void go_on(void) {
    const int depth = depth_left;
    depth_left = -1;
    if (depth >= 0) sum_left = NEXT(depth);
    use(&sum_left);
}

/* Through the C library. */
static int compares(const void *a, const void *b) {
    (void)a, (void)b;
    go_on();
    return 0;
}

static uint64_t sorts(int depth) {
    int two[2] = {0, 0};
    depth_left = depth;
    qsort(two, 2, sizeof *two, compares);
    return sum_left + 1;
}

/* Through a shared library. */
static void (*call_back)(void (*f)(void));
static void called_back(void) { go_on(); }
static uint64_t calls_back(int depth) {
    depth_left = depth;
    call_back(called_back);
    return sum_left + 1;
}

/* Through a signal handler, on this stack or on another one. */
static dwcheck_block interrupted;
static void handles(int number, siginfo_t *info, void *context) {
    (void)info;
    const uint64_t rsp = (uint64_t)((ucontext_t *)context)->uc_mcontext.gregs[REG_RSP];
    if (number == SIGUSR2) interrupted = own_stack(rsp - 128);
    go_on();
}

static uint64_t raises(int depth) {
    depth_left = depth;
    raise(SIGUSR1);
    return sum_left + 1;
}

static uint64_t raises_elsewhere(int depth) {
    depth_left = depth;
    raise(SIGUSR2);
    return sum_left + 1;
}

static int stacks, lazy_stubs;
static int least_steps; /* those that the stack's frames must take by a cursor */
static int steps_taken;

static uint64_t compares_here(void) {
    TAKE_FRAMES();
    const dwcheck_block block = own_stack(here.stack_pointer);
    const struct stack_walk w = compare_from(here, &block, 1, 0);
    IS(w.steps >= least_steps, 1);
    steps_taken = w.steps;
    return (uint64_t)stacks++;
}

static uint8_t other_stack[1 << 17] __attribute__((aligned(64))); /* a fill takes some 53 KB */

static uint64_t compares_on_two_stacks(void) {
    TAKE_FRAMES();
    const uint64_t end = (uint64_t)other_stack + sizeof other_stack;
    const uint64_t rsp = here.stack_pointer;
    const dwcheck_block blocks[] = {{rsp, (const uint8_t *)rsp, end - rsp}, interrupted};
    const struct stack_walk w = compare_from(here, blocks, 2, 0);
    IS(w.steps >= 1, 1);
    return (uint64_t)stacks++;
}

/* Walks from `address`, where the function that the frames are of has called another one and `pushed` more words were
   pushed. Glibc's frames follow as the caller's. */
static struct stack_walk compare_after_call(uint64_t address, int pushed) {
    const dwcheck_block own = own_stack(here.stack_pointer);
    const uint64_t words[] = {0, (uint64_t)theirs[0]};
    const dwcheck_block blocks[] = {{own.base - 16, (const uint8_t *)words, 16}, own};
    struct stack_walk w = {.blocks = blocks, .blocks_length = 2, .place = here};
    w.place.address = address, w.place.key = address + 1, w.place.stack_pointer -= 8 + 8 * (uint64_t)pushed;
    memset(&rows, 0, sizeof rows);
    walk_all(&w);
    IS(w.found[0], address);
    if (w.count) w.count--;
    memmove(w.found, w.found + 1, w.count * 8);
    is_theirs(&w, 0);
    return w;
}

/* Before a function's first instruction, and in the stub by which the program calls a library's function. The stub's CFA
   may be an expression, but its frame takes no step of a cursor. A lazy stub pushes a number at its byte 6, and jumps at
   its byte 11. */
static uint64_t compares_at_a_call(void) {
    const uint8_t *stub;
    __asm__("lea raise@PLT(%%rip), %0" : "=r"(stub));
    TAKE_FRAMES();
    const int steps = compare_after_call((uint64_t)plain, 0).steps;
    compare_after_call((uint64_t)call_back, 0);
    compare_after_call((uint64_t)qsort, 0);
    IS(compare_after_call((uint64_t)stub, 0).steps, steps);
    if (stub[0] == 0xff && stub[6] == 0x68 && stub[11] == 0xe9) {
        IS(compare_after_call((uint64_t)stub + 6, 0).steps, steps);
        IS(compare_after_call((uint64_t)stub + 11, 1).steps, steps);
        lazy_stubs++;
    }
    return (uint64_t)stacks++;
}

static function const shapes[] = {plain, saves, framed, grows, saves_all,
                                  large, realigns, sorts, calls_back, raises};
enum { SHAPES = sizeof shapes / sizeof *shapes };

/* Calls these functions, of which the last one calls `last`. */
static void try_stack(const function *called, int depth, uint64_t (*last)(void)) {
    bottom = last;
    for (int i = 0; i < depth; i++) order[depth - 1 - i] = called[i];
    order[depth - 1](depth - 1);
}

/* Each shape alone, each after each other one, and all of them together. */
static void stacks_are_those_of_glibc(void) {
    function called[40];
    for (int i = 0; i < SHAPES; i++)
        for (int j = 0; j < SHAPES; j++) {
            called[0] = shapes[i], called[1] = shapes[j], called[2] = plain;
            least_steps = (shapes[i] == raises) + (shapes[j] == raises);
            try_stack(called, 3, compares_here);
        }
    for (int i = 0; i < 40; i++) called[i] = shapes[any() % SHAPES];
    least_steps = 0;
    try_stack(called, 40, compares_here);
    try_stack(shapes, SHAPES, compares_at_a_call);
}

#ifndef __SANITIZE_ADDRESS__ /* with it, such a function keeps its CFA in places that have no kind */
static int steps_of(const function *called, int depth) {
    least_steps = 0;
    try_stack(called, depth, compares_here);
    return steps_taken;
}

static void realigned_stacks_take_no_step_of_a_cursor(void) {
    static function const usual[] = {plain, saves, plain, saves_all, plain};
    static function const realigned[] = {realigns, saves, realigns, saves_all, realigns};
    IS(steps_of(realigned, 5), steps_of(usual, 5));
}
#else
static void realigned_stacks_take_no_step_of_a_cursor(void) {}
#endif

static void *runs(void *data) {
    (void)data;
    stacks_are_those_of_glibc();
    return NULL;
}

static void stacks_of_threads_are_those_of_glibc(void) {
    pthread_t thread;
    if (pthread_create(&thread, NULL, runs, NULL) || pthread_join(thread, NULL)) abort();
}

static void stacks_of_handlers_are_those_of_glibc(void) {
    const stack_t elsewhere = {.ss_sp = other_stack, .ss_size = sizeof other_stack};
    static function const called[] = {framed, saves, raises_elsewhere, grows, plain};
    if (sigaltstack(&elsewhere, NULL)) abort();
    try_stack(called, 5, compares_on_two_stacks);
}

int main(int argc, char **argv) {
    if (argc < 2) return 2;
    struct sigaction action = {.sa_sigaction = handles, .sa_flags = SA_SIGINFO | SA_NODEFER};
    sigaction(SIGUSR1, &action, NULL);
    action.sa_flags |= SA_ONSTACK;
    sigaction(SIGUSR2, &action, NULL);
    *(void **)&glibc_backtrace = dlsym(dlopen("libc.so.6", RTLD_NOW), "backtrace");
    *(void **)&call_back = dlsym(dlopen(argv[1], RTLD_NOW), "call_back");
    if (!glibc_backtrace || !call_back) return 2;
    glibc_backtrace(theirs, 1); /* it loads a library */
    dl_iterate_phdr(add_module, NULL);
    stacks_are_those_of_glibc();
    realigned_stacks_take_no_step_of_a_cursor();
    stacks_of_threads_are_those_of_glibc();
    stacks_of_handlers_are_those_of_glibc();
    printf("%d stacks are glibc's, %d with a lazy stub: %d wrong\n", stacks, lazy_stubs, wrong);
    return wrong != 0;
}
