/* Tests of libunwind's calls for other processes with accessors that do what they shouldn't: they fail, lie, step the cursor of
   the call, or leave it; tables and records that can't be right, and a process that dies. Prints a line for each failure, and
   at the end a line with counts. */
#include "unwind_remote.h"

#include <sys/mman.h>
#include <sys/ptrace.h>
#include <sys/wait.h>

/* ---- trouble at each word of a walk ---- */

/* Takes a step in which there may be trouble. Returns whether the cursor is at the next frame. */
static bool steps_on(unw_cursor_t *cursor, const unw_cursor_t *before, enum trouble trouble) {
    const int left = setjmp(target.out);
    const int result = left ? FAILURE : step(cursor);
    if (result == FAILURE) IS(memcmp(cursor, before, sizeof *before), 0);
    if (result != FAILURE) IS(result >= 0, 1);
    if (trouble == LEAVES) target.trouble = NO_TROUBLE;
    return result != FAILURE;
}

/* Walks with trouble at one word. After a failure the cursor is where it was, and the walk goes on from there. */
static bool walk_with_trouble(unw_addr_space_t space, enum trouble trouble, long at) {
    unw_cursor_t cursor, before;
    begin(&cursor, space, trouble, at);
    for (int number = 0; number + 1 < frame_count;) {
        memcpy(&before, &cursor, sizeof before);
        if (!steps_on(&cursor, &before, trouble)) continue;
        IS(address_of(&cursor), (uint64_t)frames[++number]);
    }
    return target.asked > at;
}

static void trouble_at_any_word_changes_no_frame(unw_caching_policy_t policy) {
    for (enum trouble trouble = FAILS; trouble <= LEAVES; trouble++) {
        unw_addr_space_t space = new_space(policy);
        for (long at = 0; trouble != LIES && walk_with_trouble(space, trouble, at); at++) continue;
        unw_destroy_addr_space(space);
    }
}

static void words_that_lie_get_an_answer(unw_caching_policy_t policy) {
    unw_addr_space_t space = new_space(policy);
    for (int i = 0; i < LIES_TOLD; i++) {
        unw_cursor_t cursor;
        unw_word_t value;
        begin(&cursor, space, LIES, -1);
        for (int j = 0; j < 30 && step(&cursor) > 0; j++) unw_get_reg(&cursor, (int)(any() % REGISTERS), &value);
    }
    target.trouble = NO_TROUBLE;
    unw_destroy_addr_space(space);
}

static void accessors_that_are_missing_get_an_answer(void) {
    unw_accessors_t some = accessors;
    unw_cursor_t cursor;
    unw_proc_info_t info;
    char name[8];
    some.find_proc_info = NULL, some.access_mem = NULL;
    unw_addr_space_t space = unw_create_addr_space(&some, 0);
    IS(unw_init_remote(&cursor, space, NULL), 0);
    IS(unw_step(&cursor), 0);
    IS(unw_get_proc_name(&cursor, name, sizeof name, NULL), -UNW_ENOINFO);
    IS(unw_get_proc_info_by_ip(space, 1, &info, NULL), -UNW_ENOINFO);
    IS(unw_resume(&cursor), -UNW_EINVAL);
    unw_destroy_addr_space(space);
    some.access_reg = NULL, space = unw_create_addr_space(&some, 0);
    IS(unw_init_remote(&cursor, space, NULL), -UNW_EBADREG);
    unw_destroy_addr_space(space);
    IS((long)unw_create_addr_space(&some, 4321), 0);
}

/* ---- tables and records that can't be right ---- */

/* A table of one entry, its FDE at the end of a page after which nothing can be read, and the CIE. */
struct page { int32_t table[2]; uint8_t cie[20]; };

static int search(unw_addr_space_t space, struct page *page, uint64_t entries, int32_t fde, unw_proc_info_t *info) {
    unw_dyn_info_t table = {.start_ip = (uint64_t)page, .end_ip = (uint64_t)page + 64, .format = UNW_INFO_FORMAT_REMOTE_TABLE};
    table.u.rti.segbase = (uint64_t)page, table.u.rti.table_data = (uint64_t)page->table, table.u.rti.table_len = entries;
    page->table[0] = 0, page->table[1] = fde;
    target.asked = 0, target.count = 0;
    return dwarf_search_unwind_table(space, (uint64_t)page + 8, &table, info, 1, NULL);
}

static void lengths_are_bounded(void) {
    enum { FDE = 24 };
    const size_t size = (size_t)sysconf(_SC_PAGESIZE);
    const int32_t at = (int32_t)size - FDE;
    static const uint32_t lengths[] = {0, 3, 65533, 0xffffffef, 0xfffffff0, 0xffffffff};
    uint8_t *memory = mmap(NULL, 2 * size, PROT_READ | PROT_WRITE, MAP_PRIVATE | MAP_ANONYMOUS, -1, 0);
    struct page *page = (void *)memory;
    unw_addr_space_t space = new_space(UNW_CACHE_NONE);
    unw_proc_info_t info;
    mprotect(memory + size, size, PROT_NONE);
    memcpy(page->cie, cie, sizeof cie);
    /* The length, the distance to the CIE, the first address from there, how many there are, no augmentation data. */
    const int32_t fde[] = {FDE - 4, (int32_t)(at + 4 - offsetof(struct page, cie)), -(at + 8), 64, 0, 0};
    memcpy(memory + at, fde, sizeof fde);
    IS(search(space, page, 1, at, &info), 0);
    IS(info.start_ip, (uint64_t)page);
    IS(info.end_ip, (uint64_t)page + 64);
    IS((uint64_t)info.unwind_info, (uint64_t)memory + at);
    for (size_t i = 0; i < sizeof lengths / sizeof *lengths; i++) {
        memcpy(memory + at, &lengths[i], sizeof lengths[i]);
        IS(search(space, page, 1, at, &info) < 0, 1);
        IS(target.asked <= 4, 1);
    }
    memcpy(memory + at, fde, sizeof fde);
    const uint64_t counts[] = {UINT64_C(1) << 32, UINT64_C(1) << 61, UINT64_MAX};
    for (int i = 0; i < 3; i++) {
        search(space, page, counts[i], at, &info);
        IS(target.asked <= 80, 1);
    }
    unw_destroy_addr_space(space);
    munmap(memory, 2 * size);
}

/* ---- what find_proc_info and records may be ---- */

static struct { unw_proc_info_t info; int result; } said; /* by find_proc_info */

static int say(unw_addr_space_t space, unw_word_t address, unw_proc_info_t *info, int need_unwind_info, void *context) {
    (void)space, (void)address, (void)need_unwind_info, (void)context;
    *info = said.info;
    return said.result;
}

static unw_addr_space_t space_that_says(void) {
    unw_accessors_t saying = accessors;
    saying.find_proc_info = say;
    return unw_create_addr_space(&saying, 0);
}

/* Of two records of 64 KB each word is asked for once; if they overlap, some twice. */
static void step_once(unw_addr_space_t space) {
    unw_cursor_t cursor;
    begin(&cursor, space, NO_TROUBLE, -1);
    target.is_silent = true;
    step(&cursor);
    target.is_silent = false;
    IS(target.asked <= 2 * (65536 / 8 + 2) + 100, 1);
}

static void any_description_gets_an_answer(void) {
    unw_addr_space_t space = space_that_says();
    for (int i = 0; i < 2000; i++) {
        const uint64_t any_address = any() % 2 ? any() : (uint64_t)&said + any() % 4096;
        said.result = any() % 8 ? 0 : -(int)(any() % 30);
        said.info = (unw_proc_info_t){.start_ip = any(), .end_ip = any(), .format = (int)(any() % 6) - 1,
                                      .unwind_info_size = (int)any(), .unwind_info = (void *)(any() % 4 ? any_address : 0)};
        step_once(space);
    }
    unw_destroy_addr_space(space);
}

/* An FDE for the address at which walks begin, and its CIE, with up to four other bytes. */
static void any_bytes_of_a_record_get_an_answer(unw_caching_policy_t policy) {
    static struct { uint8_t cie[20]; int32_t fde[4]; uint8_t program[48]; } records;
    unw_addr_space_t space = space_that_says();
    unw_set_caching_policy(space, policy);
    said.result = 0;
    said.info = (unw_proc_info_t){.format = UNW_INFO_FORMAT_TABLE, .unwind_info = records.fde};
    for (int i = 0; i < RECORDS; i++) {
        const int32_t head[4] = {sizeof head - 4 + sizeof records.program, sizeof records.cie + 4, 0, 256};
        memcpy(records.cie, cie, sizeof cie), memcpy(records.fde, head, sizeof head);
        for (size_t j = 0; j < sizeof records.program; j++) records.program[j] = j > 0 ? (uint8_t)any() : 0;
        for (unsigned long j = any() % 5; j > 0; j--) ((uint8_t *)&records)[any() % sizeof records] = (uint8_t)any();
        said.info.start_ip = target.registers[UNW_REG_IP] - any() % 128, said.info.end_ip = said.info.start_ip + 256;
        step_once(space);
        if (i % 16 == 0) unw_flush_cache(space, 0, 0);
    }
    unw_destroy_addr_space(space);
}

/* ---- a process that dies ---- */

static void wait_for_it(void) {
    ptrace(PTRACE_TRACEME, 0, NULL, NULL);
    raise(SIGSTOP);
    _exit(0);
}

static void a_process_may_die(void) {
    const pid_t child = fork();
    if (child == 0) wait_for_it();
    waitpid(child, NULL, 0);
    unw_addr_space_t space = unw_create_addr_space(&_UPT_accessors, 0);
    void *context = _UPT_create(child);
    unw_cursor_t cursor, copy;
    char name[64];
    unw_word_t offset;
    int named = 0, result;
    IS(unw_init_remote(&cursor, space, context), 0);
    for (copy = cursor; (result = unw_step(&copy)) > 0;)
        named += unw_get_proc_name(&copy, name, sizeof name, &offset) == 0 && strcmp(name, "main") == 0;
    IS(result, 0);
    IS(named, 1);
    unw_step(&cursor);
    kill(child, SIGKILL);
    waitpid(child, NULL, 0);
    for (result = 1; result > 0;) result = unw_step(&cursor);
    IS(result < 0, 1);
    IS(unw_init_remote(&cursor, space, context), -UNW_EBADREG);
    _UPT_destroy(context);
    unw_destroy_addr_space(space);
}

static void try_all(void) {
    trouble_at_any_word_changes_no_frame(UNW_CACHE_NONE);
    trouble_at_any_word_changes_no_frame(UNW_CACHE_GLOBAL);
    words_that_lie_get_an_answer(UNW_CACHE_NONE);
    words_that_lie_get_an_answer(UNW_CACHE_GLOBAL);
    accessors_that_are_missing_get_an_answer();
    lengths_are_bounded();
    any_description_gets_an_answer();
    any_bytes_of_a_record_get_an_answer(UNW_CACHE_NONE);
    any_bytes_of_a_record_get_an_answer(UNW_CACHE_GLOBAL);
    if (HAS_PTRACE) a_process_may_die();
}

int main(int argc, char **argv) {
    (void)argv;
    return on_the_stack(argc);
}
