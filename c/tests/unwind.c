/* Tests of libunwind's calls over the library, in a program that has both: at each frame of its stacks, registers,
   places where they are saved, names and functions are those of libunwind. Prints a line for each failure, and at the
   end a line with counts.
   usage: unwind LIBUNWIND     the path of libunwind's own libunwind.so.8 */
#include "unwind_processor.h"

#include <alloca.h>
#include <dlfcn.h>
#include <execinfo.h>
#include <pthread.h>
#include <semaphore.h>
#include <setjmp.h>
#include <signal.h>
#include <stdio.h>
#include <stdlib.h>
#include <string.h>
#include <sys/mman.h>

enum { ROOM = 200, NAME = 200 };
static int wrong, frames, walks;
#define IS(what, want)                                                                                      \
    do {                                                                                                    \
        long long is_ = (long long)(what), want_ = (long long)(want);                                       \
        if (is_ != want_ && wrong++ < 40) printf("%d: %s is %llx, not %llx\n", __LINE__, #what, is_, want_); \
    } while (0)

/* libunwind's own calls. */
static struct {
    int (*init_local2)(unw_cursor_t *, unw_context_t *, int);
    int (*step)(unw_cursor_t *);
    int (*get_reg)(unw_cursor_t *, int, unw_word_t *);
    int (*get_save_loc)(unw_cursor_t *, int, unw_save_loc_t *);
    int (*is_signal_frame)(unw_cursor_t *);
    int (*get_proc_info)(unw_cursor_t *, unw_proc_info_t *);
    int (*get_proc_name)(unw_cursor_t *, char *, size_t, unw_word_t *);
    void (*dyn_register)(unw_dyn_info_t *);
    void (*dyn_cancel)(unw_dyn_info_t *);
    const char *(*strerror)(int);
    const char *(*regname)(unw_regnum_t);
} theirs;
static bool is_of_1_8;

static void *call_of(void *library, const char *name) {
    void *call = dlsym(library, name);
    if (!call) printf("libunwind has no %s\n", name), exit(2);
    return call;
}

static void load(const char *path) {
    void *library = dlopen(path, RTLD_NOW | RTLD_LOCAL | RTLD_DEEPBIND);
    if (!library) printf("%s\n", dlerror()), exit(2);
    *(void **)&theirs.init_local2 = call_of(library, LOCAL "init_local2");
    *(void **)&theirs.step = call_of(library, LOCAL "step");
    *(void **)&theirs.get_reg = call_of(library, LOCAL "get_reg");
    *(void **)&theirs.get_save_loc = call_of(library, LOCAL "get_save_loc");
    *(void **)&theirs.is_signal_frame = call_of(library, LOCAL "is_signal_frame");
    *(void **)&theirs.get_proc_info = call_of(library, LOCAL "get_proc_info");
    *(void **)&theirs.get_proc_name = call_of(library, LOCAL "get_proc_name");
    *(void **)&theirs.dyn_register = call_of(library, "_U_dyn_register");
    *(void **)&theirs.dyn_cancel = call_of(library, "_U_dyn_cancel");
    *(void **)&theirs.strerror = call_of(library, OTHER "strerror");
    *(void **)&theirs.regname = call_of(library, OTHER "regname");
    IS(theirs.step != unw_step, 1);
    is_of_1_8 = dlsym(library, LOCAL "get_elf_filename") != NULL;
}

static void compare_registers(unw_cursor_t *our, unw_cursor_t *their) {
    for (int i = 0; i < SAVED; i++) {
        unw_word_t value = 0, their_value = 0;
        unw_save_loc_t place, their_place;
        IS(unw_get_reg(our, saved[i], &value), theirs.get_reg(their, saved[i], &their_value));
        IS(value, their_value);
        IS(unw_get_save_loc(our, saved[i], &place), theirs.get_save_loc(their, saved[i], &their_place));
        if (is_of_1_8 && saved[i] == UNW_REG_SP) continue; /* for aarch64 it says nothing of its place */
        IS(place.type, their_place.type);
        IS(place.u.addr, their_place.u.addr);
    }
}

static void compare_functions(unw_cursor_t *our, unw_cursor_t *their) {
    unw_proc_info_t info, their_info;
    char name[NAME] = "", their_name[NAME] = "";
    unw_word_t offset = 0, their_offset = 0;
    const int found = theirs.get_proc_info(their, &their_info);
    IS(unw_get_proc_info(our, &info), found);
    if (found == 0) {
        IS(info.start_ip, their_info.start_ip);
        IS(info.end_ip, their_info.end_ip);
        IS(info.lsda, their_info.lsda);
        IS(info.handler, their_info.handler);
    }
    if (is_in_kernels_code(our)) return;
    const int result = theirs.get_proc_name(their, their_name, NAME, &their_offset);
    if (is_of_1_8 && result == -UNW_ENOINFO) return; /* it names no function that ends before the address */
    /* For a registered table libunwind takes another format than the one that it has. */
    IS(unw_get_proc_name(our, name, NAME, &offset), result == -UNW_EINVAL ? -UNW_ENOINFO : result);
    IS(strcmp(name, their_name), 0);
    if (*name) IS(offset, their_offset);
}

/* Compares all frames from a context on. Returns their number. */
static int compare_from(unw_context_t *context, int flag) {
    unw_cursor_t our, their;
    int count = 0, result;
    bool is_end_of_theirs;
    IS(unw_init_local2(&our, context, flag), theirs.init_local2(&their, context, flag));
    do {
        IS(unw_is_signal_frame(&our), theirs.is_signal_frame(&their)); /* after get_proc_info theirs is of the next frame */
        compare_registers(&our, &their);
        compare_functions(&our, &their);
        result = theirs.step(&their);
        const int our_result = unw_step(&our);
        is_end_of_theirs = result == 0 && our_result == 1 && has_no_frame_pointer(&our);
        if (!is_end_of_theirs) IS(our_result, result);
        count++;
    } while (result > 0 && count < ROOM);
    if (!is_end_of_theirs) compare_functions(&our, &their); /* of no frame */
    frames += count, walks++;
    return count;
}

static int (*glibc_backtrace)(void **, int);

/* unw_backtrace gives glibc's addresses but for that of its own call, and unw_backtrace2 all from the context's on. */
__attribute__((noinline)) static void compare_addresses(unw_context_t *context) {
    void *ours[ROOM], *of_glibc[ROOM], *from_context[ROOM];
    int count = unw_backtrace(ours, ROOM), glibc_count = glibc_backtrace(of_glibc, ROOM);
    IS(count, glibc_count);
    for (int i = 1; i < count && i < glibc_count; i++) IS((long)ours[i], (long)of_glibc[i]);
    for (int size = 0; size < 4; size++) {
        IS(unw_backtrace(from_context, size), size);
        for (int i = 1; i < size; i++) IS((long)from_context[i], (long)ours[i]);
    }
    IS(unw_backtrace2(from_context, ROOM, context, 0), count - 1);
    for (int i = 1; i < count - 1; i++) IS((long)from_context[i], (long)ours[i + 1]);
}

__attribute__((noinline)) static void compare(void) {
    unw_context_t context;
    unw_getcontext(&context);
    compare_from(&context, 0);
    compare_addresses(&context);
    __asm__ volatile("");
}

/* ---- stacks of functions that save different things ---- */

typedef unsigned long (*function)(int depth);
static const function *order;
static void (*bottom)(void);
static void use(void *bytes) { __asm__ volatile("" : : "r"(bytes) : "memory"); }
static unsigned long next(int depth) {
    if (depth) return order[depth - 1](depth - 1) + 1;
    bottom();
    return 1;
}

__attribute__((noinline)) static unsigned long plain(int depth) {
    char bytes[24];
    use(bytes);
    unsigned long sum = next(depth);
    use(bytes);
    return sum;
}

__attribute__((noinline)) static unsigned long saves_all(int depth) {
    unsigned long a = (unsigned long)depth, b = a + 1, c = a + 2, d = a + 3, e = a * 7;
    __asm__ volatile("" : "+r"(a), "+r"(b), "+r"(c), "+r"(d), "+r"(e));
    unsigned long sum = next(depth);
    __asm__ volatile("" : "+r"(a), "+r"(b), "+r"(c), "+r"(d), "+r"(e));
    return sum + a + b * c + d * e;
}

__attribute__((noinline)) static unsigned long large(int depth) {
    char bytes[40000];
    use(bytes);
    unsigned long sum = next(depth);
    use(bytes);
    return sum;
}

/* gcc says by an expression where the CFA of such a function is. */
__attribute__((noinline)) static unsigned long realigns(int depth) {
    unsigned long aligned[8] __attribute__((aligned(64)));
    use(aligned);
    use(alloca(16 + (size_t)(depth & 3) * 16));
    unsigned long sum = next(depth);
    use(aligned);
    return sum;
}

static int depth_left;
static int compares(const void *a, const void *b) {
    (void)a, (void)b;
    if (depth_left >= 0) {
        int depth = depth_left;
        depth_left = -1;
        next(depth);
    }
    return 0;
}

__attribute__((noinline)) static unsigned long sorts(int depth) {
    int two[2] = {0, 0};
    depth_left = depth;
    qsort(two, 2, sizeof *two, compares);
    return (unsigned long)two[0] + 1;
}

static void handles(int number) {
    (void)number;
    compares(NULL, NULL);
}

__attribute__((noinline)) static unsigned long raises(int depth) {
    depth_left = depth;
    raise(SIGUSR1);
    return (unsigned long)depth_left;
}

__attribute__((noinline)) static unsigned long raises_elsewhere(int depth) {
    depth_left = depth;
    raise(SIGUSR2);
    return (unsigned long)depth_left;
}

static const function shapes[] = {plain, saves_all, realigns, sorts, large, raises};
enum { SHAPES = sizeof shapes / sizeof *shapes };

static void try_stack(const function *called, int depth, void (*last)(void)) {
    order = called;
    bottom = last;
    next(depth);
}

static const function elsewhere[] = {saves_all, plain, raises_elsewhere, saves_all};

static void stacks_are_those_of_libunwind(void) {
    for (int i = 0; i < SHAPES; i++)
        for (int j = 0; j < SHAPES; j++) {
            const function three[] = {shapes[i], shapes[j], plain};
            try_stack(three, 3, compare);
        }
    try_stack(shapes, SHAPES, compare);
}

/* A handler's stack may be smaller than what a look-up takes. */
__attribute__((noinline)) static void walk_here(void) {
    unw_context_t context;
    unw_cursor_t cursor;
    void *addresses[40];
    const int of_glibc = glibc_backtrace(addresses, 40);
    volatile int count = 1;
    unw_getcontext(&context);
    unw_init_local(&cursor, &context);
    while (unw_step(&cursor) > 0) count++;
    IS(count, of_glibc);
    IS(unw_backtrace(addresses, 40), of_glibc);
}

static void walks_need_little_stack(void) {
    static char small[SMALL_STACK] __attribute__((aligned(64))), large[1 << 17] __attribute__((aligned(64)));
    const stack_t other = {.ss_sp = small, .ss_size = sizeof small}, compared = {.ss_sp = large, .ss_size = sizeof large};
    memset(small, 0x5a, sizeof small);
    sigaltstack(&other, NULL);
    unw_flush_cache(unw_local_addr_space, 0, 0);
    try_stack(elsewhere, 4, walk_here);
    IS(small[0], 0x5a);
    sigaltstack(&compared, NULL);
    try_stack(elsewhere, 4, compare);
}

static void *in_a_thread(void *data) {
    (void)data;
    stacks_are_those_of_libunwind();
    return NULL;
}

/* ---- the context of another thread, which waits in a handler ---- */

static ucontext_t *of_thread;
static sem_t is_there, may_go;

static void waits_in_handler(int number, siginfo_t *info, void *context) {
    (void)number, (void)info;
    of_thread = context;
    sem_post(&is_there);
    while (sem_wait(&may_go) != 0) continue;
}

static void *waits(void *data) {
    (void)data;
    raise(SIGRTMIN);
    return NULL;
}

static void contexts_of_other_threads_are_walked(void) {
    struct sigaction action = {.sa_sigaction = waits_in_handler, .sa_flags = SA_SIGINFO};
    pthread_t thread;
    sigaction(SIGRTMIN, &action, NULL);
    sem_init(&is_there, 0, 0), sem_init(&may_go, 0, 0);
    if (pthread_create(&thread, NULL, waits, NULL)) abort();
    while (sem_wait(&is_there) != 0) continue;
    IS(compare_from((unw_context_t *)of_thread, UNW_INIT_SIGNAL_FRAME) > 3, 1);
    sem_post(&may_go);
    pthread_join(thread, NULL);
}

/* ---- frames without a row ---- */

WITHOUT_ROW;

static unw_guess_t guess_after(int steps, const char *want) {
    unw_context_t context;
    unw_cursor_t cursor;
    char name[NAME] = "";
    unw_getcontext(&context);
    unw_init_local(&cursor, &context);
    while (steps-- > 0) {
        IS(unw_is_guess(&cursor), UNW_GUESS_NONE);
        IS(unw_step(&cursor), 1);
    }
    unw_get_proc_name(&cursor, name, NAME, NULL);
    IS(strcmp(name, want), 0);
    return (unw_guess_t)unw_is_guess(&cursor);
}

void compare_guess(void);
void compare_guess(void) {
    unw_context_t context;
    IS(guess_after(3, "calls_without_row"), UNW_GUESS_FRAME_POINTER);
    unw_getcontext(&context);
    if (GUESSES_ARE_THEIRS) compare_from(&context, 0); /* glibc's backtrace ends here */
}

__attribute__((noinline, optimize("no-omit-frame-pointer"))) static void calls_without_row(void) {
    without_row();
    __asm__ volatile("");
}

static sigjmp_buf back;
static void after_wild_call(int number) {
    (void)number;
    IS(guess_after(4, "calls_nothing"), UNW_GUESS_CALL);
    siglongjmp(back, 1);
}

static void (*volatile nothing)(void);
__attribute__((noinline)) static void calls_nothing(void) {
    if (sigsetjmp(back, 1) == 0) nothing();
}

/* The program is linked without rows for entries of its PLT. */
static void in_plt(void) {
    unw_context_t context;
    unw_cursor_t cursor;
    unw_word_t stack[1], value;
    unw_getcontext(&context);
    come_to(&context, entry_of_raise(), stack);
    IS(unw_init_local2(&cursor, &context, UNW_INIT_SIGNAL_FRAME), 0);
    IS(unw_step(&cursor), 1);
    IS(unw_is_guess(&cursor), UNW_GUESS_PLT);
    unw_get_reg(&cursor, UNW_REG_IP, &value);
    IS(value, stack[0]);
    unw_get_reg(&cursor, UNW_REG_SP, &value);
    IS(value, (unw_word_t)stack + PUSHED_BY_CALL);
}

static void guesses_are_those_of_libunwind_and_marked(void) {
    calls_without_row();
    signal(SIGSEGV, after_wild_call);
    calls_nothing();
    signal(SIGSEGV, SIG_DFL);
    in_plt();
}

/* ---- functions that the program has made ---- */

/* A page with a function, the CIE and the FDE that say how it is unwound, and a search table with one entry. */
static struct made {
    uint8_t code[64], cie[24], fde[40];
    int32_t table[4];
} *made;
enum { PAGE = 4096 };

static void make_function(void) {
    made = mmap(NULL, PAGE, PROT_READ | PROT_WRITE | PROT_EXEC, MAP_PRIVATE | MAP_ANONYMOUS, -1, 0);
    memcpy(made->code, made_code, sizeof made_code);
    memcpy(made->cie, made_cie, sizeof made_cie);
    const int32_t words[] = {sizeof made->fde - 4, (int32_t)(made->fde + 4 - made->cie),
                             (int32_t)(made->code - (made->fde + 8)), sizeof made_code};
    memcpy(made->fde, words, sizeof words);
    memcpy(made->fde + sizeof words, made_program, sizeof made_program);
    made->table[1] = (int32_t)(made->fde - made->code);
    __builtin___clear_cache((char *)made->code, (char *)made->cie);
}

static void walk_through_made(void) {
    unw_context_t context;
    unw_getcontext(&context);
    IS(compare_from(&context, 0) > 4, 1);
    IS(guess_after(2, ""), UNW_GUESS_NONE);
}

static void registered_functions_are_walked_through(void) {
    unw_dyn_info_t ours = {.format = UNW_INFO_FORMAT_REMOTE_TABLE}, its;
    make_function();
    ours.start_ip = (unw_word_t)made->code, ours.end_ip = ours.start_ip + sizeof made_code;
    ours.u.rti.segbase = ours.start_ip, ours.u.rti.table_data = (unw_word_t)made->table, ours.u.rti.table_len = 1;
    its = ours;
    _U_dyn_register(&ours), theirs.dyn_register(&its);
    void (*function)(void (*)(void));
    *(void **)&function = made->code;
    function(walk_through_made);
    _U_dyn_cancel(&ours), theirs.dyn_cancel(&its);
}

/* ---- what a program writes is where libunwind says that it is ---- */

static unsigned long written;
__attribute__((noinline)) static void writes_register(void) {
    unw_context_t context;
    unw_cursor_t cursor;
    unw_save_loc_t place;
    unw_getcontext(&context);
    unw_init_local(&cursor, &context);
    IS(unw_step(&cursor), 1);
    IS(unw_set_reg(&cursor, KEPT_NUMBER, 0x1234), 0);
    IS(unw_get_save_loc(&cursor, KEPT_NUMBER, &place), 0);
    IS(place.type, UNW_SLT_MEMORY);
    IS(*(unsigned long *)place.u.addr, 0x1234);
    IS(unw_set_reg(&cursor, UNW_REG_SP, 1), -UNW_EREADONLYREG);
    __asm__ volatile("" : : : KEPT_NAME);
}

__attribute__((noinline)) static void registers_are_written_to_their_places(void) {
    register unsigned long value __asm__(KEPT_NAME) = 7;
    __asm__ volatile("" : "+r"(value));
    writes_register();
    __asm__ volatile("" : "+r"(value));
    written = value;
    IS(written, 0x1234);
}

static int rows_seen;
static int see_row(void *token, void *state, size_t size, unw_word_t start, unw_word_t end) {
    unw_word_t address = *(unw_word_t *)token;
    rows_seen++;
    if (start <= address && address < end) memcpy((char *)token + sizeof address, state, size);
    return 1;
}

static void a_step_by_a_passed_row_is_a_step(void) {
    unw_context_t context;
    unw_cursor_t cursor, other;
    struct { unw_word_t address; char state[64]; } token;
    unw_word_t one, two;
    unw_getcontext(&context);
    unw_init_local(&cursor, &context);
    other = cursor;
    unw_get_reg(&cursor, UNW_REG_IP, &token.address);
    IS(unw_reg_states_iterate(&cursor, see_row, &token), 1);
    IS(rows_seen > 1, 1);
    IS(unw_apply_reg_state(&cursor, token.state), 1);
    IS(unw_step(&other), 1);
    unw_get_reg(&cursor, UNW_REG_IP, &one), unw_get_reg(&other, UNW_REG_IP, &two);
    IS(one, two);
}

/* ---- texts ---- */

static void texts_are_those_of_libunwind(void) {
    for (int i = -15; i < 3; i++) IS(strcmp(unw_strerror(i), theirs.strerror(i)), 0);
    for (int i = 0; i < REGISTERS; i++) IS(strcmp(unw_regname(i), theirs.regname(i)), 0);
}

int main(int argc, char **argv) {
    struct sigaction action = {.sa_handler = handles, .sa_flags = SA_NODEFER};
    pthread_t thread;
    if (argc < 2) return 2;
    load(argv[1]);
    *(void **)&glibc_backtrace = dlsym(dlopen("libc.so.6", RTLD_NOW), "backtrace");
    sigaction(SIGUSR1, &action, NULL);
    action.sa_flags |= SA_ONSTACK;
    sigaction(SIGUSR2, &action, NULL);
    stacks_are_those_of_libunwind();
    walks_need_little_stack();
    if (pthread_create(&thread, NULL, in_a_thread, NULL) || pthread_join(thread, NULL)) abort();
    contexts_of_other_threads_are_walked();
    guesses_are_those_of_libunwind_and_marked();
    registered_functions_are_walked_through();
    registers_are_written_to_their_places();
    a_step_by_a_passed_row_is_a_step();
    texts_are_those_of_libunwind();
    printf("%d walks, %d frames: %d wrong\n", walks, frames, wrong);
    return wrong != 0;
}
