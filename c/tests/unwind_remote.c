/* Tests of libunwind's calls for other processes: at each frame of a stack, through a handler, registers, places where
   they are saved and functions are those of libunwind. Prints a line for each failure, and at the end a line with
   counts.
   usage: unwind_remote LIBUNWIND     the path of libunwind's own libunwind-x86_64.so.8 or libunwind-aarch64.so.8 */
#include "unwind_remote.h"

#include <dlfcn.h>
#include <pthread.h>
#include <sys/ptrace.h>
#include <sys/wait.h>

/* ---- what is kept ---- */

/* Walks to the end, and compares each frame with the C library's. */
static void frames_are_right(unw_cursor_t *cursor, int from) {
    int number = from, result;
    while ((result = step(cursor)) > 0) {
        number++;
        IS(address_of(cursor), number < frame_count ? (uint64_t)frames[number] : 0);
    }
    IS(result, 0);
    IS(number, frame_count - 1);
}

/* Each step has a search, unless rows are kept: then hardly any function is looked for twice until they are flushed.
   Where two have one entry, as their addresses in this run may have it, one of them is; and so is code without a row. */
static void a_walk_has_the_frames(unw_caching_policy_t policy) {
    unw_addr_space_t space = new_space(policy);
    unw_cursor_t cursor;
    long searches = frame_count;
    for (int walk = 0; walk < 3; walk++) {
        if (walk == 2) unw_flush_cache(space, 0, 0);
        target.searches = 0;
        begin(&cursor, space, NO_TROUBLE, -1);
        frames_are_right(&cursor, 0);
        if (walk == 0 && policy != UNW_CACHE_NONE) searches = target.searches;
        if (walk == 1 && policy != UNW_CACHE_NONE) IS(target.searches <= MOST_SEARCHES, 1);
        else IS(target.searches, searches);
        IS(searches > 5 && searches <= frame_count, 1);
    }
    unw_destroy_addr_space(space);
}

/* ---- beside libunwind ---- */

static struct {
    unw_addr_space_t (*create_addr_space)(unw_accessors_t *, int);
    int (*init_remote)(unw_cursor_t *, unw_addr_space_t, void *);
    int (*step)(unw_cursor_t *);
    int (*get_reg)(unw_cursor_t *, int, unw_word_t *);
    int (*get_save_loc)(unw_cursor_t *, int, unw_save_loc_t *);
    int (*is_signal_frame)(unw_cursor_t *);
    int (*get_proc_info)(unw_cursor_t *, unw_proc_info_t *);
    int (*search)(unw_addr_space_t, unw_word_t, unw_dyn_info_t *, unw_proc_info_t *, int, void *);
} theirs;

static void *call_of(void *library, const char *name) {
    void *call = dlsym(library, name);
    if (!call) printf("libunwind has no %s\n", name), exit(2);
    return call;
}

static void load(const char *path) {
    void *library = dlopen(path, RTLD_NOW | RTLD_LOCAL | RTLD_DEEPBIND);
    if (!library) printf("%s\n", dlerror()), exit(2);
    *(void **)&theirs.create_addr_space = call_of(library, NAME(create_addr_space));
    *(void **)&theirs.init_remote = call_of(library, NAME(init_remote));
    *(void **)&theirs.step = call_of(library, NAME(step));
    *(void **)&theirs.get_reg = call_of(library, NAME(get_reg));
    *(void **)&theirs.get_save_loc = call_of(library, NAME(get_save_loc));
    *(void **)&theirs.is_signal_frame = call_of(library, NAME(is_signal_frame));
    *(void **)&theirs.get_proc_info = call_of(library, NAME(get_proc_info));
    *(void **)&theirs.search = call_of(library, NAME(dwarf_search_unwind_table));
}

static void registers_are_the_same(unw_cursor_t *our_cursor, unw_cursor_t *their_cursor) {
    for (int number = 0; number < COMPARED; number++) {
        unw_word_t our_value = 0, their_value = 0;
        const int our_result = unw_get_reg(our_cursor, number, &our_value);
        const int their_result = theirs.get_reg(their_cursor, number, &their_value);
        IS(our_result < 0, their_result < 0);
        if (our_result == 0 && their_result == 0) IS(our_value, their_value);
        if (number == WITHOUT_PLACE) continue;
        unw_save_loc_t our_place, their_place;
        IS(unw_get_save_loc(our_cursor, number, &our_place), theirs.get_save_loc(their_cursor, number, &their_place));
        IS(our_place.type, their_place.type);
        if (our_place.type == UNW_SLT_MEMORY) IS(our_place.u.addr, their_place.u.addr);
        if (our_place.type == UNW_SLT_REG) IS(our_place.u.regnum, their_place.u.regnum);
    }
}

static void functions_are_the_same(unw_cursor_t *our_cursor, unw_cursor_t *their_cursor) {
    unw_proc_info_t our_info, their_info;
    search_table = theirs.search;
    const int result = theirs.get_proc_info(their_cursor, &their_info);
    search_table = dwarf_search_unwind_table;
    target.count = 0;
    IS(unw_get_proc_info(our_cursor, &our_info), result);
    if (result < 0) return;
    IS(our_info.start_ip, their_info.start_ip);
    IS(our_info.end_ip, their_info.end_ip);
    IS(our_info.lsda, their_info.lsda);
    IS(our_info.handler, their_info.handler);
}

static int no_list(unw_addr_space_t space, unw_word_t *address, void *context) {
    (void)space, (void)address, (void)context;
    return -UNW_ENOINFO;
}

/* libunwind 1.8 for aarch64 asks for names, and for the bits of signatures: 48 to 54. */
static int no_name(unw_addr_space_t space, unw_word_t address, char *name, size_t size, unw_word_t *offset, void *context) {
    (void)space, (void)address, (void)offset, (void)context;
    if (size > 0) name[0] = '\0';
    return -UNW_ENOINFO;
}

static unw_word_t mask(unw_addr_space_t space, void *context) { return (void)space, (void)context, UINT64_C(0x7f) << 48; }

/* libunwind asks for words more than once. */
static void frames_are_those_of_libunwind(unw_caching_policy_t policy) {
    static unw_accessors_t all;
    unw_addr_space_t space = new_space(policy);
    unw_cursor_t our_cursor, their_cursor;
    int our_result = 1, their_result = 1;
    all = accessors, all.get_dyn_info_list_addr = no_list, all.get_proc_name = no_name, all.ptrauth_insn_mask = mask;
    unw_addr_space_t their_space = theirs.create_addr_space(&all, 0);
    begin(&our_cursor, space, NO_TROUBLE, -1);
    IS(theirs.init_remote(&their_cursor, their_space, NULL), 0);
    for (target.is_silent = true; our_result > 0 && their_result > 0; target.is_silent = true) {
        functions_are_the_same(&our_cursor, &their_cursor);
        registers_are_the_same(&our_cursor, &their_cursor);
        search_table = theirs.search;
        their_result = theirs.step(&their_cursor);
        search_table = dwarf_search_unwind_table;
        target.is_silent = false;
        our_result = step(&our_cursor);
        target.is_silent = true;
        if (our_result > 0 && their_result == 0 && is_last_of_theirs(&our_cursor)) break;
        IS(our_result, their_result);
        IS(unw_is_signal_frame(&our_cursor), theirs.is_signal_frame(&their_cursor));
    }
    target.is_silent = false;
    unw_destroy_addr_space(space);
}

/* ---- functions that the process has registered ---- */

static int own_list(unw_addr_space_t space, unw_word_t *address, void *context) {
    (void)space, (void)context;
    *address = _U_dyn_info_list_addr();
    return 0;
}

/* A function of the stack is registered, by the table of its module; another one, below it, with a name alone. */
static void registered_functions_are_found(void) {
    struct wanted wanted = {.address = (unw_word_t)frames[frame_count - 4]};
    static char name[] = "named by the process", found[sizeof name];
    unw_accessors_t listing = accessors;
    unw_dyn_info_t named = {.start_ip = 4096, .end_ip = 8192, .u.pi.name_ptr = (unw_word_t)name};
    unw_cursor_t cursor;
    unw_proc_info_t info;
    unw_word_t offset;
    listing.get_dyn_info_list_addr = own_list;
    unw_addr_space_t space = unw_create_addr_space(&listing, 0);
    IS(dl_iterate_phdr(find_table, &wanted), 1);
    _U_dyn_register(&wanted.table), _U_dyn_register(&named);
    target.searches = 0;
    begin(&cursor, space, NO_TROUBLE, -1);
    frames_are_right(&cursor, 0);
    IS(target.searches > 0 && target.searches < 10, 1); /* those in the C library */
    target.is_silent = true;
    IS(unw_get_proc_name_by_ip(space, 5000, found, sizeof found, &offset, NULL), 0);
    IS(strcmp(found, name), 0);
    IS(offset, 5000 - 4096);
    IS(unw_get_proc_name_by_ip(space, 5000, found, 6, &offset, NULL), -UNW_ENOMEM);
    IS(unw_get_proc_info_by_ip(space, 5000, &info, NULL), 0);
    IS(info.end_ip, 8192);
    named.next = &named; /* a list without an end */
    IS(unw_get_proc_info_by_ip(space, 1, &info, NULL), -UNW_ENOINFO);
    named.next = &wanted.table;
    target.is_silent = false;
    _U_dyn_cancel(&named), _U_dyn_cancel(&wanted.table);
    unw_destroy_addr_space(space);
}

/* ---- a process that continues elsewhere ---- */

static volatile int is_left = 1;

static __attribute__((noinline)) int stop_here(void) {
    raise(SIGSTOP);
    if (is_left) _exit(1); /* if it isn't left as the test wants */
    return 0;
}

static int (*volatile stop)(void) = stop_here;

static __attribute__((noinline)) void call_and_exit(void) {
    ptrace(PTRACE_TRACEME, 0, NULL, NULL);
    _exit(stop());
}

/* It continues where a call returns, in a frame above the one where it stopped, with another result of the call. */
static void a_process_continues_in_a_caller(void) {
    const pid_t child = fork();
    if (child == 0) call_and_exit();
    waitpid(child, NULL, 0);
    unw_addr_space_t space = unw_create_addr_space(&_UPT_accessors, 0);
    void *context = _UPT_create(child);
    unw_cursor_t cursor;
    char name[64] = "";
    unw_word_t offset;
    int status = 0;
    IS(unw_init_remote(&cursor, space, context), 0);
    while (strcmp(name, "call_and_exit") != 0 && unw_step(&cursor) > 0) unw_get_proc_name(&cursor, name, sizeof name, &offset);
    IS(unw_set_reg(&cursor, UNW_REG_EH, 42), 0);
    IS(unw_resume(&cursor), 0);
    waitpid(child, &status, 0);
    IS(WIFEXITED(status) && WEXITSTATUS(status) == 42, 1);
    _UPT_destroy(context);
    unw_destroy_addr_space(space);
}

/* ---- threads with one address space; they have accessors that note nothing ---- */

static int read_only(unw_addr_space_t space, unw_word_t address, unw_word_t *value, int is_write, void *context) {
    (void)space, (void)context;
    if (is_write) return -UNW_EINVAL;
    memcpy(value, (const void *)address, sizeof *value);
    return 0;
}

static int find_only(unw_addr_space_t space, unw_word_t address, unw_proc_info_t *info, int need_unwind_info, void *context) {
    struct wanted wanted = {.address = address};
    if (!dl_iterate_phdr(find_table, &wanted)) return -UNW_ENOINFO;
    return search_table(space, address, &wanted.table, info, need_unwind_info, context);
}

static void *walk_often(void *space) {
    long different = 0;
    for (int i = 0; i < WALKS; i++) {
        unw_cursor_t cursor;
        int number = 0;
        if (i % 100 == 0) unw_flush_cache(space, 0, 0);
        unw_init_remote(&cursor, space, NULL);
        while (unw_step(&cursor) > 0) different += ++number >= frame_count || address_of(&cursor) != (uint64_t)frames[number];
        different += number != frame_count - 1;
    }
    return (void *)different;
}

static void threads_share_rows(void) {
    unw_accessors_t plain = {.find_proc_info = find_only, .access_mem = read_only, .access_reg = access_reg};
    unw_addr_space_t space = unw_create_addr_space(&plain, 0);
    pthread_t threads[4];
    void *different;
    unw_set_caching_policy(space, UNW_CACHE_GLOBAL);
    for (int i = 0; i < 4; i++) pthread_create(&threads[i], NULL, walk_often, space);
    for (int i = 0; i < 4; i++) {
        pthread_join(threads[i], &different);
        IS((long)different, 0);
    }
    unw_destroy_addr_space(space);
}

static void try_all(void) {
    frames_are_those_of_libunwind(UNW_CACHE_NONE);
    frames_are_those_of_libunwind(UNW_CACHE_GLOBAL);
    a_walk_has_the_frames(UNW_CACHE_NONE);
    a_walk_has_the_frames(UNW_CACHE_GLOBAL);
    a_walk_has_the_frames(UNW_CACHE_PER_THREAD);
    registered_functions_are_found();
    if (HAS_PTRACE) a_process_continues_in_a_caller();
    threads_share_rows();
}

int main(int argc, char **argv) {
    if (argc < 2) return 2;
    load(argv[1]);
    return on_the_stack(argc);
}
