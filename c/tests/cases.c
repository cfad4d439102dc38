/* Tests each call of the library with ordinary input and with edge cases. Prints a line for each
   failure, and at the end a line with counts. */
#include "dwcheck.h"
#include <dlfcn.h>
#include <pthread.h>
#include <stdio.h>
#include <stdlib.h>
#include <string.h>

static long until = -1, asked, held;
#ifdef REFUSING /* counts allocations, blocks in use, bytes asked for and bytes in use, and can make any allocation fail */
#include <malloc.h>
static long given, used;
static void *counted(void *p) {
    if (p) __atomic_add_fetch(&used, (long)malloc_usable_size(p), __ATOMIC_SEQ_CST);
    return p;
}
void *malloc(size_t n) {
    static void *(*real)(size_t);
    if (!real) *(void **)&real = dlsym(RTLD_NEXT, "malloc");
    asked++;
    if (until >= 0 && until-- == 0) return NULL;
    __atomic_add_fetch(&held, 1, __ATOMIC_SEQ_CST);
    given += (long)n;
    return counted(real(n));
}
void *realloc(void *p, size_t n) { /* to make a block smaller takes no memory, and doesn't fail */
    static void *(*real)(void *, size_t);
    if (!real) *(void **)&real = dlsym(RTLD_NEXT, "realloc");
    asked++;
    const int is_smaller = p && n <= malloc_usable_size(p);
    if (!is_smaller && until >= 0 && until-- == 0) return NULL;
    if (!p) __atomic_add_fetch(&held, 1, __ATOMIC_SEQ_CST);
    given += (long)n;
    long before = p ? (long)malloc_usable_size(p) : 0;
    void *grown = counted(real(p, n));
    if (grown) __atomic_sub_fetch(&used, before, __ATOMIC_SEQ_CST);
    return grown;
}
void free(void *p) {
    static void (*real)(void *);
    if (!real) *(void **)&real = dlsym(RTLD_NEXT, "free");
    if (p) __atomic_sub_fetch(&held, 1, __ATOMIC_SEQ_CST);
    if (p) __atomic_sub_fetch(&used, (long)malloc_usable_size(p), __ATOMIC_SEQ_CST);
    real(p);
}
#endif

static int wrong;
#define IS(what, want)                                                                                 \
    do {                                                                                               \
        long long is_ = (long long)(what), want_ = (long long)(want);                                  \
        if (is_ != want_) { wrong++; printf("%d: %s is %lld, not %lld\n", __LINE__, #what, is_, want_); } \
    } while (0)

/* a CIE (version 4, return address register 16, CFA r7+8, r16 at c-8) and an FDE of 0x1000..0x1100 */
static const uint8_t good[] = {
    0x14, 0, 0, 0, 0xff, 0xff, 0xff, 0xff, 4, 0, 8, 0, 1, 0x78, 16, 0x0c, 7, 8, 0x90, 1, 0, 0, 0, 0,
    0x14, 0, 0, 0, 0, 0, 0, 0, 0, 0x10, 0, 0, 0, 0, 0, 0, 0, 1, 0, 0, 0, 0, 0, 0};
/* the same with 4-byte addresses, return address register 8, CFA r4+4 and r8 at c-4 */
static const uint8_t four[] = {
    0x14, 0, 0, 0, 0xff, 0xff, 0xff, 0xff, 4, 0, 4, 0, 1, 0x7c, 8, 0x0c, 4, 4, 0x88, 1, 0, 0, 0, 0,
    0x0c, 0, 0, 0, 0, 0, 0, 0, 0, 0x10, 0, 0, 0, 1, 0, 0};
/* the same as `good`, in big-endian byte order */
static const uint8_t big[] = {
    0, 0, 0, 0x14, 0xff, 0xff, 0xff, 0xff, 4, 0, 8, 0, 1, 0x78, 16, 0x0c, 7, 8, 0x90, 1, 0, 0, 0, 0,
    0, 0, 0, 0x14, 0, 0, 0, 0, 0, 0, 0, 0, 0, 0, 0x10, 0, 0, 0, 0, 0, 0, 0, 1, 0};
static const uint8_t bad[] = {1, 0, 0, 0, 0};
static const size_t room = 1 << 20;

static dwcheck_fault fault = {9, 9, 9, 0};
static uint64_t contents[17];
static uint8_t known[3] = {0x80, 0, 0};
static uint16_t kept[200] = {3, 6};
static uint64_t words[4] = {0, 0x71f000001020, 0x55005, 0};
static dwcheck_block blocks[2] = {{0x7f00, NULL, 32}, {0x7f10, NULL, 8}};
static dwcheck_frame frames[8];
static dwcheck_rule rules[4];
static dwcheck_loaded loaded;
static dwcheck_register registers[4];

static dwcheck_state state(size_t keeps) {
    dwcheck_state s = {contents, 17, known, 3, blocks, 1, kept, keeps, 7, 1, 0, 0};
    return s;
}

static uint64_t id; /* what the last add gave */

/* a module with this section, for a little-endian target with 8-byte addresses, without a range */
static dwcheck_module module_of(const uint8_t *frame, size_t length, uint64_t load) {
    dwcheck_module m = {0};
    m.frame = frame; m.frame_length = length; m.load_address = load; m.room = room; m.address_size = 8;
    return m;
}

static uint32_t add_module(dwcheck_process *p, dwcheck_module m) { return dwcheck_process_add(p, &m, &id, &fault); }

static uint32_t add(dwcheck_process *p, uint64_t load) { return add_module(p, module_of(good, sizeof good, load)); }

static uint32_t add_section(dwcheck_process *p, const uint8_t *frame, size_t length, size_t its_room) {
    dwcheck_module m = module_of(frame, length, 0);
    m.room = its_room;
    return add_module(p, m);
}

static uint32_t add_for(dwcheck_process *p, const uint8_t *frame, size_t length, uint32_t order, uint32_t address_size, uint64_t load) {
    dwcheck_module m = module_of(frame, length, load);
    m.order = order; m.address_size = address_size;
    return add_module(p, m);
}

static uint32_t add_within(dwcheck_process *p, dwcheck_module m, uint64_t first, uint64_t last) {
    m.has_range = 1; m.first = first; m.last = last;
    return add_module(p, m);
}

/* Walks without a cache and with one that earlier walks filled, and compares all results. */
static uint32_t walk_twice(const dwcheck_process *p, uint64_t at, const dwcheck_state *s, dwcheck_frame *out, size_t n, size_t *found,
                           uint32_t *why, dwcheck_fault *refused) {
    static dwcheck_cache cache;
    static dwcheck_frame cached[512];
    size_t cached_count = 0;
    uint32_t cached_stop = 99, status = dwcheck_backtrace(p, at, s, out, n, found, why, refused);
    dwcheck_fault cached_fault;
    if (n > 512) return status;
    IS(dwcheck_backtrace_cached(p, at, s, cached, n, &cached_count, &cached_stop, &cache, &cached_fault), status);
    if (status == DWCHECK_DONE) {
        IS(cached_count, *found); IS(cached_stop, *why);
        for (size_t i = 0; i < *found; i++) {
            IS(cached[i].address, out[i].address); IS(cached[i].cfa.kind, out[i].cfa.kind); IS(cached[i].cfa.value, out[i].cfa.value);
        }
    }
    return status;
}

static size_t count;
static uint32_t stop;
static uint32_t walk(dwcheck_process *p, uint64_t at, size_t n, size_t keeps) {
    dwcheck_state s = state(keeps);
    return walk_twice(p, at, &s, frames, n, &count, &stop, &fault);
}

static void closed(void) {
    dwcheck_process p = DWCHECK_CLOSED;
    dwcheck_row row;
    dwcheck_caller caller;
    dwcheck_state s = state(2);
    IS(walk(&p, 0x1010, 8, 2), DWCHECK_DONE); IS(count, 1); IS(stop, DWCHECK_STOP_NOT_COVERED);
    IS(frames[0].address, 0x1010); IS(frames[0].cfa.kind, DWCHECK_ANSWER_NOT_COVERED);
    IS(walk(&p, 0x1010, 0, 2), DWCHECK_DONE); IS(count, 0); IS(stop, DWCHECK_STOP_LIMIT);
    IS(dwcheck_row_at(&p, 0x1010, &row, rules, 4), DWCHECK_NONE);
    IS(dwcheck_module_at(&p, 0x1010, &loaded), DWCHECK_NONE);
    IS(dwcheck_unwind(&p, 0x1010, &s, &caller, registers, 4, &fault), DWCHECK_NONE);
    IS(dwcheck_process_remove(&p, 0), DWCHECK_NONE); IS(dwcheck_process_remove(&p, 1), DWCHECK_NONE);
    dwcheck_process_close(&p);
    dwcheck_process_close(&p);
}

static void refusals(void) {
    dwcheck_process p = DWCHECK_CLOSED;
    fault.number = 9; id = 99;
    IS(add_for(&p, good, sizeof good, 2, 8, 0), DWCHECK_BAD_TARGET);
    IS(add_for(&p, good, sizeof good, 256, 8, 0), DWCHECK_BAD_TARGET);
    IS(add_for(&p, good, sizeof good, 0, 5, 0), DWCHECK_BAD_TARGET);
    IS(add_for(&p, good, sizeof good, 0, 264, 0), DWCHECK_BAD_TARGET);
    IS(add_section(&p, good, sizeof good, 10), DWCHECK_NO_ROOM);
    IS(add_section(&p, good, (size_t)1 << 32, room), DWCHECK_TOO_LONG);
    IS(fault.number, 9);
    IS(add_section(&p, bad, sizeof bad, room), DWCHECK_REFUSED);
    IS(fault.number, 1); IS(fault.within, DWCHECK_IN_FRAME); IS(id, 99);
    IS(p.opaque == NULL, 1); /* `p` is still closed: there is nothing to release */
    IS(dwcheck_check(good, sizeof good, bad, 0, 0, 8, &fault), DWCHECK_DONE);
    IS(dwcheck_check(good, 0, bad, 0, 0, 8, &fault), DWCHECK_DONE);
    IS(dwcheck_check(good, sizeof good, bad, 0, 3, 8, &fault), DWCHECK_BAD_TARGET);
    IS(dwcheck_check(good, sizeof good, bad, sizeof bad, 0, 8, &fault), DWCHECK_REFUSED); IS(fault.within, DWCHECK_IN_LISTS);
    IS(dwcheck_check(good, sizeof good, good, (size_t)1 << 32, 0, 8, &fault), DWCHECK_REFUSED); IS(fault.number, 61);
}

/* Row 16 of docs/WORKED.md: one table of one list, with expressions at 16 and 19. */
static const uint8_t some_lists[] = {0x12, 0, 0, 0, 5, 0, 8, 0, 0, 0, 0, 0, 4, 0, 0x10, 1, 0x50, 5, 2, 0x30, 0x9f, 0};

static void reports(void) {
    dwcheck_counts counts = {9, 9, 9, 9, 9, 9, 9};
    dwcheck_expression found[3] = {{0}};
    found[2].offset = 9;
    IS(dwcheck_report(good, sizeof good, some_lists, sizeof some_lists, 0, 8, &counts, found, 3, &fault), DWCHECK_DONE);
    IS(counts.cies, 1); IS(counts.fdes, 1); IS(counts.rows, 1); IS(counts.frame_expressions, 0);
    IS(counts.tables, 1); IS(counts.lists, 1); IS(counts.list_expressions, 2);
    IS(found[0].offset, 16); IS(found[0].length, 1); IS(found[0].within, DWCHECK_IN_LISTS);
    IS(found[0].kind, DWCHECK_EXPRESSION_LOCATION); IS(found[0].operations, 1); IS(found[0].depth, 0);
    IS(found[1].offset, 19); IS(found[1].operations, 2); IS(found[1].depth, 1); IS(found[2].offset, 9);
    found[1].offset = 9;
    IS(dwcheck_report(NULL, 0, some_lists, sizeof some_lists, 0, 8, &counts, found, 1, &fault), DWCHECK_DONE);
    IS(counts.cies, 0); IS(counts.list_expressions, 2); IS(found[1].offset, 9);
    IS(dwcheck_report(NULL, 0, some_lists, sizeof some_lists, 0, 8, &counts, NULL, 0, &fault), DWCHECK_DONE);
    counts.rows = 9;
    IS(dwcheck_report(good, sizeof good, bad, sizeof bad, 0, 8, &counts, found, 3, &fault), DWCHECK_REFUSED);
    IS(fault.within, DWCHECK_IN_LISTS); IS(counts.rows, 9);
    IS(dwcheck_report(good, sizeof good, NULL, 0, 3, 8, &counts, found, 3, &fault), DWCHECK_BAD_TARGET);
}

static void texts(void) {
    IS(strstr(dwcheck_fault_text(19), "6.4.2.2") != NULL, 1);
    IS(dwcheck_fault_text(8) == NULL, 1); IS(dwcheck_fault_text(UINT32_MAX) == NULL, 1);
    IS(strcmp(dwcheck_status_text(DWCHECK_NO_MEMORY), "out of memory"), 0); IS(dwcheck_status_text(12) == NULL, 1);
    IS(strcmp(dwcheck_stop_text(DWCHECK_STOP_NOT_COVERED), "not covered"), 0); IS(dwcheck_stop_text(7) == NULL, 1);
    for (uint32_t number = 0; number < 100; number++) { /* each fault with a name has a text */
        size_t size;
        IS(dwcheck_fault_text(number) != NULL, dwcheck_fault_name(number, NULL, 0, &size) == DWCHECK_DONE);
    }
}

static void walks(void) {
    dwcheck_process p = DWCHECK_CLOSED;
    dwcheck_row row;
    dwcheck_caller caller;
    dwcheck_state s = state(2);
    long before;
    size_t i;
    uint64_t upper;
    /* one module has an empty section; the others are loaded at 0x71f000000000, and at -0x800 modulo 2^64 */
    IS(add_within(&p, module_of(good, 0, 0), 0x5000, 0x5fff), DWCHECK_DONE);
    IS(add(&p, 0x71f000000000), DWCHECK_DONE);
    upper = id;
    IS(add(&p, (uint64_t)-0x800), DWCHECK_DONE);
    IS(walk(&p, 0x810, 8, 2), DWCHECK_DONE); IS(count, 3); IS(stop, DWCHECK_STOP_NOT_COVERED);
    IS(frames[0].cfa.value, 0x7f10); IS(frames[0].cfa.kind, DWCHECK_ANSWER_VALUE); IS(frames[1].address, 0x71f000001020);
    IS(frames[1].cfa.value, 0x7f18); IS(frames[2].address, 0x55005); IS(frames[2].cfa.kind, DWCHECK_ANSWER_NOT_COVERED);
    memset(frames, 0x55, sizeof frames); /* fewer slots than frames: only the slots are written */
    IS(walk(&p, 0x810, 2, 2), DWCHECK_DONE); IS(count, 2); IS(stop, DWCHECK_STOP_LIMIT); IS(frames[2].address, 0x5555555555555555);
    IS(dwcheck_row_at(&p, 0x71f0000010ff, &row, rules, 4), DWCHECK_DONE); IS(row.load_address, 0x71f000000000);
    IS(row.start, 0x1000); IS(row.end, 0x1100); IS(row.cfa.kind, DWCHECK_RULE_VAL_OFFSET); IS(row.cfa.reg, 7); IS(row.cfa.offset, 8);
    IS(row.return_reg, 16); IS(row.count, 1); IS(rules[0].kind, DWCHECK_RULE_OFFSET); IS(rules[0].reg, 16); IS(rules[0].offset, -8);
    rules[0].kind = 99;
    IS(dwcheck_row_at(&p, 0x71f0000010ff, &row, rules, 0), DWCHECK_DONE); IS(row.count, 1); IS(rules[0].kind, 99);
    IS(dwcheck_row_at(&p, 0x71f000001100, &row, rules, 4), DWCHECK_NONE);
    IS(dwcheck_unwind(&p, 0x810, &s, &caller, registers, 4, &fault), DWCHECK_DONE); IS(caller.cfa.value, 0x7f10);
    IS(caller.return_address.value, 0x71f000001020); IS(caller.count, 4); IS(registers[0].number, 3); IS(registers[0].kind, DWCHECK_ANSWER_UNREADABLE);
    IS(registers[2].number, 7); IS(registers[2].value, 0x7f10); IS(registers[3].number, 16); IS(registers[3].kind, DWCHECK_ANSWER_VALUE);
    registers[1].number = 99;
    IS(dwcheck_unwind(&p, 0x810, &s, &caller, registers, 1, &fault), DWCHECK_DONE); IS(caller.count, 4); IS(registers[1].number, 99);
    IS(dwcheck_unwind(&p, 0x9999, &s, &caller, registers, 4, &fault), DWCHECK_NONE);
    /* ABIs that are refused */
    kept[1] = 3;
    IS(walk(&p, 0x1010, 8, 2), DWCHECK_REFUSED); IS(fault.number, 63); IS(fault.offset, 1); IS(fault.within, DWCHECK_IN_ABI);
    kept[1] = 7;
    IS(walk(&p, 0x1010, 8, 2), DWCHECK_REFUSED); IS(fault.number, 63); IS(fault.offset, 2);
    IS(dwcheck_unwind(&p, 0x810, &s, &caller, registers, 4, &fault), DWCHECK_REFUSED);
    for (i = 0; i < 200; i++) kept[i] = (uint16_t)(100 + i);
    IS(walk(&p, 0x1010, 8, 128), DWCHECK_REFUSED); IS(fault.number, 62);
    IS(walk(&p, 0x810, 8, 127), DWCHECK_DONE); IS(count, 3);
    kept[0] = 3; kept[1] = 6;
    known[0] = 0; /* the stack pointer isn't known */
    IS(walk(&p, 0x810, 8, 2), DWCHECK_DONE); IS(count, 1); IS(stop, DWCHECK_STOP_RETURN_UNREADABLE); IS(frames[0].cfa.kind, DWCHECK_ANSWER_UNREADABLE);
    known[0] = 0x80;
    s = state(2);
    s.known_length = 0; /* `contents` has registers for which `known` has no bits */
    IS(walk_twice(&p, 0x810, &s, frames, 8, &count, &stop, &fault), DWCHECK_DONE); IS(count, 1); IS(stop, DWCHECK_STOP_RETURN_UNREADABLE);
    s = state(2);
    s.contents_length = 7; /* `known` has bits for which `contents` has no registers */
    IS(walk_twice(&p, 0x810, &s, frames, 8, &count, &stop, &fault), DWCHECK_DONE); IS(count, 1);
    blocks[0].length = 15; /* the last byte of the return address is missing */
    IS(walk(&p, 0x810, 8, 2), DWCHECK_DONE); IS(count, 1); IS(stop, DWCHECK_STOP_RETURN_UNREADABLE); IS(frames[0].cfa.kind, DWCHECK_ANSWER_VALUE);
    blocks[0].length = 12; /* a word whose bytes are in two blocks, which overlap */
    blocks[1].base = 0x7f0a; blocks[1].bytes = (uint8_t *)words + 10; blocks[1].length = 22;
    s = state(2);
    s.blocks_length = 2;
    IS(walk_twice(&p, 0x810, &s, frames, 8, &count, &stop, &fault), DWCHECK_DONE); IS(count, 3); IS(frames[1].address, 0x71f000001020);
    blocks[1].bytes = (uint8_t *)words; /* if two blocks have a byte, the first block counts */
    blocks[0].length = 32;
    IS(walk_twice(&p, 0x810, &s, frames, 8, &count, &stop, &fault), DWCHECK_DONE); IS(count, 3);
    s.has_stack_pointer = 0; /* the second CFA needs the stack pointer */
    IS(walk_twice(&p, 0x810, &s, frames, 8, &count, &stop, &fault), DWCHECK_DONE); IS(count, 2); IS(frames[1].cfa.kind, DWCHECK_ANSWER_UNREADABLE);
    before = asked; /* these calls don't allocate */
    s = state(2);
    IS(walk(&p, 0x810, 8, 2), DWCHECK_DONE);
    IS(dwcheck_row_at(&p, 0x810, &row, rules, 4), DWCHECK_DONE);
    IS(dwcheck_unwind(&p, 0x810, &s, &caller, registers, 4, &fault), DWCHECK_DONE);
    IS(dwcheck_module_at(&p, 0x810, &loaded), DWCHECK_DONE);
    IS(dwcheck_process_remove(&p, upper), DWCHECK_DONE);
    IS(asked - before, 0);
    IS(walk(&p, 0x810, 8, 2), DWCHECK_DONE); IS(count, 2); IS(stop, DWCHECK_STOP_NOT_COVERED);
    dwcheck_process_close(&p);
    IS(walk(&p, 0x810, 8, 2), DWCHECK_DONE); IS(count, 1);
}

/* Ids count up from 1, and none is given twice while a process is open. A process that shares modules
   has their ids and counts on. Rows and modules have the id and the cookie. */
static void ids_and_cookies(void) {
    dwcheck_process p = DWCHECK_CLOSED, q = DWCHECK_CLOSED;
    dwcheck_module m = module_of(good, sizeof good, 0x10000);
    dwcheck_row row;
    m.cookie = UINT64_MAX;
    IS(add_module(&p, m), DWCHECK_DONE); IS(id, 1);
    IS(add_section(&p, bad, sizeof bad, room), DWCHECK_REFUSED); IS(id, 1);
    IS(add(&p, 0x20000), DWCHECK_DONE); IS(id, 2);
    IS(dwcheck_row_at(&p, 0x11010, &row, rules, 4), DWCHECK_DONE); IS(row.id, 1); IS(row.cookie, UINT64_MAX); IS(row.load_address, 0x10000);
    IS(dwcheck_row_at(&p, 0x21010, &row, rules, 4), DWCHECK_DONE); IS(row.id, 2); IS(row.cookie, 0); IS(row.load_address, 0x20000);
    IS(dwcheck_process_remove(&p, 0), DWCHECK_NONE); IS(dwcheck_process_remove(&p, 3), DWCHECK_NONE);
    IS(dwcheck_process_remove(&p, 2), DWCHECK_DONE); IS(dwcheck_process_remove(&p, 2), DWCHECK_NONE);
    IS(dwcheck_row_at(&p, 0x21010, &row, rules, 4), DWCHECK_NONE); IS(dwcheck_module_at(&p, 0x21010, &loaded), DWCHECK_NONE);
    IS(add(&p, 0x20000), DWCHECK_DONE); IS(id, 3);
    IS(dwcheck_process_share(&p, &q), DWCHECK_DONE);
    IS(add(&q, 0x30000), DWCHECK_DONE); IS(id, 4);
    IS(add(&p, 0x40000), DWCHECK_DONE); IS(id, 4);
    IS(dwcheck_process_remove(&q, 1), DWCHECK_DONE); IS(dwcheck_module_at(&q, 0x11010, &loaded), DWCHECK_NONE);
    IS(dwcheck_module_at(&q, 0x21010, &loaded), DWCHECK_DONE); IS(loaded.id, 3);
    IS(dwcheck_module_at(&p, 0x11010, &loaded), DWCHECK_DONE); IS(loaded.id, 1); IS(loaded.cookie, UINT64_MAX);
    IS(loaded.load_address, 0x10000); IS(loaded.first, 0x11000); IS(loaded.last, 0x110ff);
    dwcheck_process_close(&p);
    IS(add(&p, 0), DWCHECK_DONE); IS(id, 1);
    dwcheck_process_close(&p);
    dwcheck_process_close(&q);
}

static void answers(dwcheck_process *p, uint64_t address, uint32_t has_module, uint32_t has_row) {
    dwcheck_row row;
    memset(&loaded, 0x55, sizeof loaded);
    IS(dwcheck_module_at(p, address, &loaded), has_module ? DWCHECK_DONE : DWCHECK_NONE);
    IS(dwcheck_row_at(p, address, &row, rules, 4), has_row ? DWCHECK_DONE : DWCHECK_NONE);
    if (!has_module) IS(loaded.last, 0x5555555555555555); /* then nothing is written */
}

/* `good` covers 0x1000 up to 0x10ff */
static void ranges(void) {
    dwcheck_process p = DWCHECK_CLOSED;
    dwcheck_module m = module_of(good, sizeof good, 0x10000), without_fdes = module_of(good, 24, 0x10000);
    m.room = 10; /* a range is refused before the room is */
    IS(add_within(&p, m, 5, 4), DWCHECK_BAD_RANGE); IS(add_within(&p, m, UINT64_MAX, 0), DWCHECK_BAD_RANGE);
    m.room = room;
    IS(add_module(&p, module_of(good, 0, 0)), DWCHECK_BAD_RANGE); IS(add_module(&p, without_fdes), DWCHECK_BAD_RANGE);
    IS(p.opaque == NULL, 1);
    IS(add_module(&p, m), DWCHECK_DONE); /* module 1 has no range: what the section covers */
    answers(&p, 0x10fff, 0, 0); answers(&p, 0x11000, 1, 1); answers(&p, 0x110ff, 1, 1); answers(&p, 0x11100, 0, 0);
    IS(add_within(&p, m, 0x11100, 0x111ff), DWCHECK_DONE); /* module 2 begins where 1 ends, and has no row there */
    answers(&p, 0x11100, 1, 0); IS(loaded.id, 2); answers(&p, 0x110ff, 1, 1); IS(loaded.id, 1);
    IS(add_within(&p, m, 0x10fff, 0x10fff), DWCHECK_DONE); /* module 3 has one address and ends where 1 begins */
    answers(&p, 0x10ffe, 0, 0); answers(&p, 0x10fff, 1, 0); IS(loaded.id, 3);
    IS(add_within(&p, m, 0x110ff, 0x110ff), DWCHECK_OVERLAPS); IS(id, 1);
    IS(add_within(&p, m, 0x111ff, 0x20000), DWCHECK_OVERLAPS); IS(id, 2);
    IS(add_within(&p, m, 0, 0x10fff), DWCHECK_OVERLAPS); IS(id, 3);
    IS(add_within(&p, m, 0x11010, 0x11020), DWCHECK_OVERLAPS); IS(id, 1);
    IS(add_within(&p, m, 0, UINT64_MAX), DWCHECK_OVERLAPS); IS(id >= 1 && id <= 3, 1);
    IS(add_module(&p, m), DWCHECK_OVERLAPS); IS(id, 1);
    m.load_address = 0x20000;
    IS(add_within(&p, m, 0x21010, 0x21020), DWCHECK_DONE); IS(id, 4); /* fewer addresses than the section covers */
    answers(&p, 0x2100f, 0, 0); answers(&p, 0x21010, 1, 1); answers(&p, 0x21020, 1, 1); answers(&p, 0x21021, 0, 0);
    IS(walk(&p, 0x2100f, 8, 2), DWCHECK_DONE); IS(count, 1); IS(stop, DWCHECK_STOP_NOT_COVERED);
    IS(add_within(&p, without_fdes, 0x30000, 0x30fff), DWCHECK_DONE); answers(&p, 0x30000, 1, 0);
    dwcheck_process_close(&p);
    IS(add_within(&p, m, 0, UINT64_MAX), DWCHECK_DONE);
    answers(&p, 0, 1, 0); answers(&p, UINT64_MAX, 1, 0); answers(&p, 0x21000, 1, 1);
    dwcheck_process_close(&p);
}

/* modules that reach the highest address, and that would reach past it */
static void ranges_at_the_top(void) {
    dwcheck_process p = DWCHECK_CLOSED;
    dwcheck_module m = module_of(four, sizeof four, 0xffffef01);
    dwcheck_row row;
    IS(add(&p, (uint64_t)-0x10ff), DWCHECK_BAD_RANGE); IS(add(&p, (uint64_t)-0x1001), DWCHECK_BAD_RANGE);
    IS(add(&p, (uint64_t)-0x1100), DWCHECK_DONE); answers(&p, UINT64_MAX, 1, 1); IS(loaded.first, UINT64_MAX - 0xff);
    IS(add(&p, (uint64_t)-0x1000), DWCHECK_DONE); answers(&p, 0, 1, 1); IS(loaded.last, 0xff); answers(&p, UINT64_MAX, 1, 1);
    /* a process has the target of its first module, until it is closed */
    IS(add_for(&p, four, sizeof four, DWCHECK_LITTLE, 4, 0x20000), DWCHECK_BAD_TARGET);
    IS(add_for(&p, big, sizeof big, DWCHECK_BIG, 8, 0x20000), DWCHECK_BAD_TARGET);
    IS(dwcheck_process_remove(&p, 1), DWCHECK_DONE); IS(dwcheck_process_remove(&p, 2), DWCHECK_DONE);
    IS(add_for(&p, four, sizeof four, DWCHECK_LITTLE, 4, 0x20000), DWCHECK_BAD_TARGET);
    dwcheck_process_close(&p);
    m.address_size = 4;
    IS(add_module(&p, m), DWCHECK_BAD_RANGE);
    IS(add_within(&p, m, 0, 0x100000000), DWCHECK_BAD_RANGE);
    IS(add_for(&p, four, sizeof four, 0, 4, 0xffffef00), DWCHECK_DONE); answers(&p, 0xffffffff, 1, 1);
    IS(add_for(&p, four, sizeof four, 0, 4, 0xfffff000), DWCHECK_DONE); /* 0x1010 is loaded at 0x10 */
    IS(dwcheck_row_at(&p, 0x10, &row, rules, 4), DWCHECK_DONE); IS(row.start, 0x1000); IS(row.return_reg, 8);
    answers(&p, 0x100000010, 0, 0); /* addresses of 2^32 and more have no row */
    dwcheck_process_close(&p);
}

/* The checks come in this order: each module here passes all of them up to one. */
static void first_refusals(void) {
    dwcheck_process p = DWCHECK_CLOSED;
    dwcheck_module m = module_of(bad, (size_t)1 << 32, 0);
    IS(add(&p, 0), DWCHECK_DONE);
    m.address_size = 4; m.has_range = 1; m.first = 0x1001; m.last = 0x1000; m.room = 10;
    IS(add_module(&p, m), DWCHECK_TOO_LONG);
    m.frame_length = sizeof bad; m.kind = 3;
    IS(add_module(&p, m), DWCHECK_BAD_KIND);
    m.kind = DWCHECK_DEBUG_FRAME;
    IS(add_module(&p, m), DWCHECK_BAD_TARGET);
    m.address_size = 8;
    IS(add_module(&p, m), DWCHECK_REFUSED);
    m.frame = good; m.frame_length = sizeof good;
    IS(add_module(&p, m), DWCHECK_BAD_RANGE);
    m.last = 0x1001;
    IS(add_module(&p, m), DWCHECK_OVERLAPS); IS(id, 1);
    m.first = m.last = 0x1100;
    IS(add_module(&p, m), DWCHECK_NO_ROOM);
    m.room = room;
    IS(add_module(&p, m), DWCHECK_DONE); IS(id, 2);
    dwcheck_process_close(&p);
}

enum { MANY = 1000 };

/* Module `i` of many answers for the addresses 0x200 * i + 0x1000 up to 0x200 * i + 0x10ff. Checks what
   answers for its first and last address, for one between, and for those beside. */
/* An .eh_frame section at 0x2000, by GNU as for x86-64, of one function at 0x1009 up to 0x100b: the CFA
   is the value of an expression, and so is register 3. */
static const uint8_t eh[] = {
    0x14, 0, 0, 0, 0, 0, 0, 0, 1, 'z', 'R', 'S', 0, 1, 0x78, 16, 1, 0x1b, 0x0c, 7, 8, 0x90, 1, 0,
    0x1c, 0, 0, 0, 0x1c, 0, 0, 0, 0xe9, 0xef, 0xff, 0xff, 3, 0, 0, 0, 0, 0x0f, 3, 0x77, 8, 6, 0x16, 3, 2, 0x23, 8, 0x42, 8, 3, 0, 0};

static void eh_frames(void) {
    dwcheck_process p = DWCHECK_CLOSED;
    dwcheck_module m = module_of(eh, sizeof eh, 0x10000);
    dwcheck_row row;
    uint8_t bytes[4] = {9, 9, 9, 9}, cut[sizeof eh];
    size_t size = 9;
    m.kind = DWCHECK_EH_FRAME; m.section_address = 0x2000;
    IS(add_module(&p, m), DWCHECK_DONE);
    IS(dwcheck_row_at(&p, 0x11008, &row, rules, 4), DWCHECK_NONE);
    uint32_t signal = 9;
    IS(dwcheck_is_signal_frame(&p, 0x11008, &signal), DWCHECK_DONE); IS(signal, 0);
    IS(dwcheck_is_signal_frame(&p, 0x1100b, &signal), DWCHECK_DONE); IS(signal, 1);
    IS(dwcheck_is_signal_frame(&p, 0x1009, &signal), DWCHECK_DONE); IS(signal, 0);
    IS(dwcheck_row_at(&p, 0x11009, &row, rules, 4), DWCHECK_DONE); IS(row.start, 0x1009); IS(row.end, 0x100b); IS(row.count, 2);
    IS(row.cfa.kind, DWCHECK_RULE_VAL_EXPRESSION); IS(row.cfa.length, 3); IS(rules[0].reg, 3); IS(rules[0].length, 2);
    IS(dwcheck_rule_bytes(&p, 0x11009, DWCHECK_CFA_RULE, bytes, 4, &size), DWCHECK_DONE); IS(size, 3);
    IS(memcmp(bytes, "\x77\x08\x06\x09", 4), 0);
    IS(dwcheck_rule_bytes(&p, 0x11009, 3, bytes, 1, &size), DWCHECK_DONE); IS(size, 2); IS(bytes[0], 0x23); IS(bytes[1], 8);
    IS(dwcheck_rule_bytes(&p, 0x11009, 3, NULL, 0, &size), DWCHECK_DONE); IS(size, 2);
    size = 9;
    IS(dwcheck_rule_bytes(&p, 0x11009, 16, bytes, 4, &size), DWCHECK_NONE); /* its rule has no expression */
    IS(dwcheck_rule_bytes(&p, 0x1100b, 3, bytes, 4, &size), DWCHECK_NONE);
    IS(dwcheck_rule_bytes(&p, 0x11009, 0x10003, bytes, 4, &size), DWCHECK_NONE);
    IS(dwcheck_rule_bytes(&p, 0x11009, UINT32_MAX, bytes, 4, &size), DWCHECK_NONE);
    IS(dwcheck_rule_bytes(&p, 0x11008, 3, bytes, 4, &size), DWCHECK_NONE); IS(size, 9); IS(bytes[0], 0x23);
    m.load_address = 0x20000; m.section_address = 0x3000; /* the pointer counts from where the section is */
    IS(add_module(&p, m), DWCHECK_DONE); IS(dwcheck_row_at(&p, 0x22009, &row, rules, 4), DWCHECK_DONE);
    memcpy(cut, eh, sizeof eh);
    cut[sizeof eh - 1] = 0x3f; /* no instruction */
    m.frame = cut; m.load_address = 0x30000;
    IS(add_module(&p, m), DWCHECK_REFUSED); IS(fault.number, 12); IS(fault.offset, sizeof eh - 1); IS(fault.within, DWCHECK_IN_FRAME);
    m.frame = eh; m.kind = DWCHECK_DEBUG_FRAME;
    IS(add_module(&p, m), DWCHECK_REFUSED);
    m.kind = DWCHECK_EH_FRAME; m.frame_length = 30;
    IS(add_module(&p, m), DWCHECK_REFUSED); IS(fault.number, 1); IS(fault.offset, 28);
    dwcheck_process_close(&p);
}

/* An .eh_frame section, linked at 0, of a signal frame at 0x10f0 up to 0x110f, whose CFA is r7+16. `good` covers the first
   half of these addresses, with the CFA r7+8. */
static const uint8_t beside[] = {
    0x14, 0, 0, 0, 0, 0, 0, 0, 1, 'z', 'R', 'S', 0, 1, 0x78, 16, 1, 0x0b, 0x0c, 7, 16, 0x90, 1, 0,
    0x10, 0, 0, 0, 0x1c, 0, 0, 0, 0xf0, 0x10, 0, 0, 0x20, 0, 0, 0, 0, 0, 0, 0};

static dwcheck_module eh_module_of(const uint8_t *frame, size_t length) {
    dwcheck_module m = module_of(frame, length, 0);
    m.kind = DWCHECK_EH_FRAME;
    return m;
}

static uint32_t add_both(dwcheck_process *p, dwcheck_module m, dwcheck_module e) { return dwcheck_process_add_both(p, &m, &e, &id, &fault); }

/* The CFA of an address is r7 plus `offset`, or there is no row if that is 0; and whether it is one of a signal frame. */
static void row_is(const dwcheck_process *p, uint64_t address, int64_t offset, uint32_t is_signal) {
    dwcheck_row row;
    uint32_t signal = 9;
    IS(dwcheck_row_at(p, address, &row, rules, 4), offset ? DWCHECK_DONE : DWCHECK_NONE);
    if (offset) { IS(row.cfa.reg, 7); IS(row.cfa.offset, offset); }
    IS(dwcheck_is_signal_frame(p, address, &signal), DWCHECK_DONE); IS(signal, is_signal);
}

static void has_both_rows(const dwcheck_process *p) {
    row_is(p, 0x10fff, 0, 0); row_is(p, 0x11000, 8, 0); row_is(p, 0x110ef, 8, 0); /* only in .debug_frame */
    row_is(p, 0x110f0, 8, 0); row_is(p, 0x110ff, 8, 0);                           /* in both */
    row_is(p, 0x11100, 16, 1); row_is(p, 0x1110f, 16, 1);                         /* only in .eh_frame */
    row_is(p, 0x11110, 0, 0); row_is(p, 0x10f0, 0, 0);                            /* in neither */
}

static void both_sections(void) {
    dwcheck_process p = DWCHECK_CLOSED, q = DWCHECK_CLOSED;
    dwcheck_module m = module_of(good, sizeof good, 0x10000), e = eh_module_of(beside, sizeof beside);
    uint8_t cut[sizeof beside];
    m.cookie = 5;
    e.load_address = 0x777; e.order = 7; e.address_size = 1; e.has_range = 1; e.first = 5; e.cookie = 6; /* none of these is used */
    IS(add_both(&p, m, e), DWCHECK_DONE); IS(id, 1);
    answers(&p, 0x11000, 1, 1); IS(loaded.first, 0x11000); IS(loaded.last, 0x1110f); IS(loaded.cookie, 5);
    has_both_rows(&p);
    IS(dwcheck_process_share(&p, &q), DWCHECK_DONE);
    has_both_rows(&q);
    dwcheck_process_close(&q);
    for (int i = 0; i < 2; i++) { /* the second time by hints of the first */
        IS(walk(&p, 0x110f8, 8, 2), DWCHECK_DONE); IS(count, 2); IS(frames[0].cfa.value, 0x7f10);
        IS(walk(&p, 0x11104, 8, 2), DWCHECK_DONE); IS(count, 2); IS(frames[0].cfa.value, 0x7f18); IS(frames[1].address, 0x55005);
    }
    m.load_address = 0x20000;
    IS(add_module(&p, m), DWCHECK_DONE); row_is(&p, 0x210f0, 8, 0); row_is(&p, 0x21100, 0, 0); /* one section as before */
    e = eh_module_of(beside, sizeof beside);
    e.load_address = 0x30000;
    IS(add_module(&p, e), DWCHECK_DONE); row_is(&p, 0x310ef, 0, 0); row_is(&p, 0x310f0, 16, 1);
    memcpy(cut, beside, sizeof cut);
    cut[sizeof cut - 1] = 0x3f; /* no instruction */
    m.load_address = 0x40000; e.frame = cut;
    IS(add_both(&p, m, e), DWCHECK_REFUSED); IS(fault.number, 12); IS(fault.offset, sizeof cut - 1); IS(fault.within, DWCHECK_IN_EH_FRAME);
    e.kind |= DWCHECK_LEAVE_OUT;
    IS(add_both(&p, m, e), DWCHECK_DONE); row_is(&p, 0x41000, 8, 0); row_is(&p, 0x410ff, 8, 0); row_is(&p, 0x41100, 0, 0);
    dwcheck_process_close(&p);
}

/* Each of two reasons to refuse both sections: the first one counts. */
static void first_refusals_of_both(void) {
    dwcheck_process p = DWCHECK_CLOSED;
    dwcheck_module m = module_of(bad, (size_t)1 << 32, 0), e = eh_module_of(bad, sizeof bad);
    IS(add(&p, 0), DWCHECK_DONE);
    m.address_size = 4; m.has_range = 1; m.first = 0x1001; m.last = 0x1000; m.room = 10; e.room = 10; e.kind = 3;
    IS(add_both(&p, m, e), DWCHECK_TOO_LONG);
    m.frame_length = sizeof bad; e.frame_length = (size_t)1 << 32;
    IS(add_both(&p, m, e), DWCHECK_TOO_LONG);
    e.frame_length = sizeof bad;
    IS(add_both(&p, m, e), DWCHECK_BAD_KIND);
    e.kind = DWCHECK_DEBUG_FRAME;
    IS(add_both(&p, m, e), DWCHECK_BAD_KIND);
    e.kind = m.kind = DWCHECK_EH_FRAME;
    IS(add_both(&p, m, e), DWCHECK_BAD_KIND);
    m.kind = DWCHECK_DEBUG_FRAME;
    IS(add_both(&p, m, e), DWCHECK_BAD_TARGET);
    m.address_size = 8;
    IS(add_both(&p, m, e), DWCHECK_REFUSED); IS(fault.number, 1); IS(fault.within, DWCHECK_IN_FRAME);
    m.frame = good; m.frame_length = sizeof good;
    IS(add_both(&p, m, e), DWCHECK_REFUSED); IS(fault.number, 1); IS(fault.within, DWCHECK_IN_EH_FRAME);
    e.frame = beside; e.frame_length = sizeof beside;
    IS(add_both(&p, m, e), DWCHECK_BAD_RANGE);
    m.last = 0x1001;
    IS(add_both(&p, m, e), DWCHECK_OVERLAPS); IS(id, 1);
    m.first = m.last = 0x1100;
    IS(add_both(&p, m, e), DWCHECK_NO_ROOM);
    m.room = room;
    IS(add_both(&p, m, e), DWCHECK_NO_ROOM);
    e.room = room;
    IS(add_both(&p, m, e), DWCHECK_DONE); IS(id, 2); row_is(&p, 0x1100, 16, 1); row_is(&p, 0x1101, 0, 0);
    dwcheck_process_close(&p);
}

/* The CIE and the FDE of `eh` and of `good`, read one after another, and what their sections contain. */
static void records(void) {
    dwcheck_module m = module_of(eh, sizeof eh, 0x10000);
    dwcheck_record found;
    uint8_t later[sizeof eh + 4] = {0};
    m.kind = DWCHECK_EH_FRAME; m.section_address = 0x2000;
    IS(dwcheck_record_at(&m, 0, &found, &fault), DWCHECK_DONE); IS(found.kind, DWCHECK_RECORD_CIE); IS(found.next, 24);
    IS(found.program, 18); IS(found.version, 1); IS(found.code_alignment_factor, 1); IS(found.data_alignment_factor, -8);
    IS(found.return_reg, 16); IS(found.is_signal_frame, 1); IS(found.cie, 0); IS(found.end, 0);
    IS(dwcheck_record_at(&m, found.next, &found, &fault), DWCHECK_DONE); IS(found.kind, DWCHECK_RECORD_FDE);
    IS(found.next, sizeof eh); IS(found.cie, 0); IS(found.start, 0x1009); IS(found.end, 0x100c); IS(found.program, 41);
    IS(found.is_signal_frame, 1); IS(found.version, 0);
    IS(dwcheck_record_at(&m, sizeof eh, &found, &fault), DWCHECK_NONE); IS(found.start, 0x1009);
    IS(dwcheck_record_at(&m, UINT64_MAX, &found, &fault), DWCHECK_NONE);
    IS(dwcheck_record_at(&m, 28, &found, &fault), DWCHECK_REFUSED); IS(fault.within, DWCHECK_IN_FRAME); IS(found.start, 0x1009);
    memcpy(later + 4, eh, sizeof eh); /* a record of length 0 before them */
    m.frame = later; m.frame_length = sizeof later;
    IS(dwcheck_record_at(&m, 0, &found, &fault), DWCHECK_DONE); IS(found.kind, DWCHECK_RECORD_EMPTY); IS(found.next, 4);
    IS(dwcheck_record_at(&m, 28, &found, &fault), DWCHECK_DONE); IS(found.cie, 4); IS(found.start, 0x100d);
    m = module_of(good, sizeof good, 0);
    IS(dwcheck_record_at(&m, 24, &found, &fault), DWCHECK_DONE); IS(found.kind, DWCHECK_RECORD_FDE);
    IS(found.next, sizeof good); IS(found.cie, 0); IS(found.start, 0x1000); IS(found.is_signal_frame, 0);
    m.order = 2;
    IS(dwcheck_record_at(&m, 24, &found, &fault), DWCHECK_BAD_TARGET);
    m.kind = 3;
    IS(dwcheck_record_at(&m, 24, &found, &fault), DWCHECK_BAD_KIND);
    m.frame_length = (size_t)1 << 32;
    IS(dwcheck_record_at(&m, 24, &found, &fault), DWCHECK_TOO_LONG);
    m = module_of(NULL, 0, 0);
    IS(dwcheck_record_at(&m, 0, &found, &fault), DWCHECK_NONE);
}

static void module_checks(void) {
    dwcheck_module m = module_of(eh, sizeof eh, 0x10000);
    dwcheck_counts counts = {9, 9, 9, 9, 9, 9, 9};
    uint8_t twice[sizeof eh + 32];
    long n, left, before = held;
    uint32_t got;
    m.kind = DWCHECK_EH_FRAME; m.section_address = 0x2000;
    IS(dwcheck_module_check(&m, &counts, &fault), DWCHECK_DONE); IS(counts.cies, 1); IS(counts.fdes, 1); IS(counts.rows, 2);
    IS(counts.frame_expressions, 2); IS(counts.tables, 0); IS(counts.lists, 0); IS(counts.list_expressions, 0);
    memcpy(twice, eh, sizeof eh); /* an exact copy of the FDE: 32 bytes later, so its pointers are 32 more and 32 less */
    memcpy(twice + sizeof eh, eh + 24, 32);
    twice[60] = 0x3c; twice[64] = 0xc9;
    m.frame = twice; m.frame_length = sizeof twice;
    IS(dwcheck_module_check(&m, &counts, &fault), DWCHECK_DONE); IS(counts.fdes, 1);
    twice[68] = 2; /* one address less: no copy, but an overlap */
    IS(dwcheck_module_check(&m, &counts, &fault), DWCHECK_REFUSED); IS(fault.number, 23); IS(fault.offset, 56); IS(counts.fdes, 1);
    m = module_of(good, sizeof good, 0);
    IS(dwcheck_module_check(&m, &counts, &fault), DWCHECK_DONE); IS(counts.rows, 1); IS(counts.frame_expressions, 0);
    for (n = 0;; n++) { /* each allocation fails in turn */
        until = n;
        got = dwcheck_module_check(&m, &counts, &fault);
        left = until;
        until = -1;
        IS(got, left >= 0 ? DWCHECK_DONE : DWCHECK_NO_MEMORY);
        if (left >= 0) break;
    }
    IS(held - before, 0);
    m.address_size = 5;
    IS(dwcheck_module_check(&m, &counts, &fault), DWCHECK_BAD_TARGET);
    m.kind = 3;
    IS(dwcheck_module_check(&m, &counts, &fault), DWCHECK_BAD_KIND);
    m.frame_length = (size_t)1 << 32;
    IS(dwcheck_module_check(&m, &counts, &fault), DWCHECK_TOO_LONG);
    m = module_of(NULL, 0, 0);
    IS(dwcheck_module_check(&m, &counts, &fault), DWCHECK_DONE); IS(counts.cies, 0);
}

/* The FDE of `eh` is left out once it has an instruction that doesn't exist, and its fault is listed if there is
   room. */
static void left_out(void) {
    uint8_t broken[sizeof eh];
    memcpy(broken, eh, sizeof eh);
    broken[sizeof eh - 1] = 0x3f;
    dwcheck_module m = module_of(broken, sizeof broken, 0x10000);
    dwcheck_process p = DWCHECK_CLOSED;
    dwcheck_left_out found[2] = {{9, {9, 9, 9, 9}}, {9, {9, 9, 9, 9}}};
    size_t count = 9;
    long n, left, before = held;
    uint32_t got;
    m.kind = DWCHECK_EH_FRAME; m.section_address = 0x2000;
    IS(dwcheck_module_left_out(&m, found, 2, &count, &fault), DWCHECK_BAD_KIND); IS(count, 9);
    m.kind |= DWCHECK_LEAVE_OUT;
    for (n = 0;; n++) { /* each allocation fails in turn */
        until = n;
        got = dwcheck_module_left_out(&m, found, 2, &count, &fault);
        left = until;
        until = -1;
        IS(got, left >= 0 ? DWCHECK_DONE : DWCHECK_NO_MEMORY);
        if (left >= 0) break;
        IS(count, 9); IS(found[0].offset, 9);
    }
    IS(held - before, 0);
    IS(count, 1); IS(found[0].offset, 24); IS(found[0].fault.number, 12); IS(found[0].fault.offset, sizeof eh - 1);
    IS(found[0].fault.within, DWCHECK_IN_FRAME); IS(found[1].offset, 9);
    IS(dwcheck_module_left_out(&m, NULL, 0, &count, &fault), DWCHECK_DONE); IS(count, 1);
    m.has_range = 1; m.first = 0x11000; m.last = 0x11fff;
    IS(add_module(&p, m), DWCHECK_DONE);
    dwcheck_row row;
    IS(dwcheck_row_at(&p, 0x11009, &row, rules, 4), DWCHECK_NONE);
    dwcheck_process_close(&p);
    broken[0] = 0x70; /* the CIE's length goes past the end */
    IS(dwcheck_module_left_out(&m, found, 2, &count, &fault), DWCHECK_REFUSED); IS(fault.number, 1); IS(fault.offset, 4); IS(count, 1);
    m = module_of(NULL, 0, 0);
    m.kind = DWCHECK_EH_FRAME | DWCHECK_LEAVE_OUT;
    IS(dwcheck_module_left_out(&m, found, 2, &count, &fault), DWCHECK_DONE); IS(count, 0);
    m.kind = DWCHECK_DEBUG_FRAME | DWCHECK_LEAVE_OUT;
    IS(dwcheck_module_left_out(&m, found, 2, &count, &fault), DWCHECK_BAD_KIND);
    IS(add_module(&p, m), DWCHECK_BAD_KIND);
}

/* A handler that returns to the signal frame of `eh`, which interrupted a function at its first address: the
   address before belongs to no function. `registers` are known, of which 97 have no place in a cursor. */
static void signal_walks(size_t its_registers) {
    static const uint64_t frame_words[6] = {0x1100a, 0, 0x7f20, 0x21000, 0x21005, 0};
    uint64_t its_contents[97] = {0};
    uint8_t its_known[13] = {0x80};
    dwcheck_block block = {0x7f00, (const uint8_t *)frame_words, 40};
    dwcheck_state s = {its_contents, its_registers, its_known, 13, &block, 1, NULL, 0, 7, 1, 0, 0};
    dwcheck_process p = DWCHECK_CLOSED;
    dwcheck_module m = module_of(eh, sizeof eh, 0x10000);
    m.kind = DWCHECK_EH_FRAME; m.section_address = 0x2000;
    IS(add_module(&p, m), DWCHECK_DONE);
    IS(add(&p, 0x20000), DWCHECK_DONE);
    its_contents[7] = 0x7f00; its_known[12] = 1;
    IS(walk_twice(&p, 0x21010, &s, frames, 8, &count, &stop, &fault), DWCHECK_DONE);
    IS(count, 4); IS(stop, DWCHECK_STOP_RETURN_UNREADABLE);
    IS(frames[0].address, 0x21010); IS(frames[0].cfa.value, 0x7f08);
    IS(frames[1].address, 0x1100a); IS(frames[1].cfa.value, 0x7f20);
    IS(frames[2].address, 0x21000); IS(frames[2].cfa.value, 0x7f28);
    IS(frames[3].address, 0x21005); IS(frames[3].cfa.value, 0x7f30);
    if (its_registers < 97) {
        dwcheck_cursor cursor;
        static const uint32_t stages[] = {DWCHECK_CURSOR_CALLER, DWCHECK_CURSOR_EXACT, DWCHECK_CURSOR_CALLER, DWCHECK_STOP_RETURN_UNREADABLE + 1};
        IS(dwcheck_cursor_init(&cursor, 0x21010, &s, 1, &fault), DWCHECK_DONE);
        for (int i = 0; i < 4; i++) {
            IS(dwcheck_cursor_step(&p, &cursor, &s, &frames[7]), DWCHECK_DONE);
            IS(cursor.stage, stages[i]); IS(frames[7].address, frames[i].address); IS(frames[7].cfa.value, frames[i].cfa.value);
        }
    }
    dwcheck_process_close(&p);
}

/* An .eh_frame section at 0x2000, as for aarch64, of one function at 0x1000 up to 0x1020. Its return address is signed
   from 0x1004 on, isn't from 0x100c on, is again from 0x1010 on, by a restore_state, and isn't from 0x1014 on. */
static const uint8_t eh_signed[] = {
    0x14, 0, 0, 0, 0, 0, 0, 0, 1, 'z', 'R', 0, 4, 0x78, 16, 1, 0x1b, 0x0c, 7, 8, 0x90, 1, 0, 0,
    0x18, 0, 0, 0, 0x1c, 0, 0, 0, 0xe0, 0xef, 0xff, 0xff, 0x20, 0, 0, 0, 0,
    0x41, 0x2d, 0x41, 0x0a, 0x41, 0x2d, 0x41, 0x0b, 0x41, 0x2d, 0};

static dwcheck_module signed_module(void) {
    dwcheck_module m = module_of(eh_signed, sizeof eh_signed, 0x20000);
    m.kind = DWCHECK_EH_FRAME_AARCH64; m.section_address = 0x2000;
    return m;
}

/* Where return addresses are signed: as 1 in this text, which has a digit for each four bytes of the function. */
static void signed_addresses(void) {
    static const char where[] = "01101000";
    dwcheck_process p = DWCHECK_CLOSED;
    uint32_t is_signed = 9;
    IS(dwcheck_is_signed(&p, 0x21004, &is_signed), DWCHECK_DONE); IS(is_signed, 0);
    IS(add_module(&p, signed_module()), DWCHECK_DONE);
    for (uint64_t i = 0; i < 0x20; i++) {
        is_signed = 9;
        IS(dwcheck_is_signed(&p, 0x21000 + i, &is_signed), DWCHECK_DONE); IS(is_signed, (uint32_t)(where[i / 4] - '0'));
    }
    IS(dwcheck_is_signed(&p, 0x20fff, &is_signed), DWCHECK_DONE); IS(is_signed, 0);
    IS(dwcheck_is_signed(&p, 0x21020, &is_signed), DWCHECK_DONE); IS(is_signed, 0);
    dwcheck_process_close(&p);
}

/* The same with a .debug_frame that covers the first two digits: there no return address is signed. */
static void signed_addresses_of_both(void) {
    static const char where[] = "00101000";
    dwcheck_process p = DWCHECK_CLOSED;
    uint8_t shorter[sizeof good];
    memcpy(shorter, good, sizeof good);
    shorter[sizeof good - 8] = 8; shorter[sizeof good - 7] = 0;
    IS(add_both(&p, module_of(shorter, sizeof shorter, 0x20000), signed_module()), DWCHECK_DONE);
    for (uint64_t i = 0; i < 0x20; i++) {
        uint32_t is_signed = 9;
        IS(dwcheck_is_signed(&p, 0x21000 + i, &is_signed), DWCHECK_DONE); IS(is_signed, (uint32_t)(where[i / 4] - '0'));
    }
    dwcheck_process_close(&p);
}

/* The same section with a byte changed: another code, one in the CIE's program, none that remembers, and as for other
   processors. `where` is NULL if it is refused, for a fault of this number at this offset. */
static void signed_with(size_t at, uint8_t byte, uint32_t kind, const char *where, uint32_t number, uint64_t offset) {
    uint8_t changed[sizeof eh_signed];
    dwcheck_process p = DWCHECK_CLOSED;
    dwcheck_module m = signed_module();
    memcpy(changed, eh_signed, sizeof changed);
    changed[at] = byte;
    m.frame = changed; m.kind = kind;
    IS(add_module(&p, m), where ? DWCHECK_DONE : DWCHECK_REFUSED);
    if (!where) { IS(fault.number, number); IS(fault.offset, offset); }
    for (uint64_t i = 0; where && i < 0x20; i += 4) {
        uint32_t is_signed = 9;
        IS(dwcheck_is_signed(&p, 0x21000 + i, &is_signed), DWCHECK_DONE); IS(is_signed, (uint32_t)(where[i / 4] - '0'));
    }
    dwcheck_process_close(&p);
}

static void other_signatures(void) {
    signed_with(42, 0x2c, DWCHECK_EH_FRAME_AARCH64, "01101000", 0, 0);
    signed_with(22, 0x2d, DWCHECK_EH_FRAME_AARCH64, "10010111", 0, 0);
    signed_with(44, 0, DWCHECK_EH_FRAME_AARCH64, NULL, 16, 48);
    signed_with(48, 0, DWCHECK_EH_FRAME_AARCH64, NULL, 17, 52);
    signed_with(51, 0, DWCHECK_EH_FRAME, NULL, 12, 42);
}

/* Return addresses whose bits 48 to 54 have a signature, as those of aarch64 may. The first one is signed by its row,
   at 0x21004, and the second one isn't, at 0x2100f. */
static void signed_walks(size_t its_registers) {
    static const uint64_t frame_words[2] = {0x7f000000021010, 0x12000000021020};
    uint64_t its_contents[97] = {0};
    uint8_t its_known[13] = {0x80};
    dwcheck_block block = {0x7f00, (const uint8_t *)frame_words, 16};
    dwcheck_state s = {its_contents, its_registers, its_known, 13, &block, 1, NULL, 0, 7, 1, 0, 0};
    dwcheck_process p = DWCHECK_CLOSED;
    IS(add_module(&p, signed_module()), DWCHECK_DONE);
    its_contents[7] = 0x7f00; its_known[12] = 1;
    IS(walk_twice(&p, 0x21004, &s, frames, 8, &count, &stop, &fault), DWCHECK_DONE);
    IS(count, 2); IS(stop, DWCHECK_STOP_NOT_COVERED); IS(frames[1].address, 0x7f000000021010);
    s.signed_bits = 0x7f000000000000;
    IS(walk_twice(&p, 0x21004, &s, frames, 8, &count, &stop, &fault), DWCHECK_DONE);
    IS(count, 3); IS(stop, DWCHECK_STOP_NOT_COVERED);
    IS(frames[1].address, 0x21010); IS(frames[2].address, 0x12000000021020);
    if (its_registers == 17) {
        const dwcheck_module module = signed_module();
        const dwcheck_header none = {0};
        dwcheck_cursor cursor, copy;
        IS(dwcheck_cursor_init(&cursor, 0x21004, &s, 1, &fault), DWCHECK_DONE);
        copy = cursor;
        for (uint64_t i = 0; i < 0x20; i += 4) {
            uint32_t here = 9, in_place = 9;
            IS(dwcheck_is_signed(&p, 0x21000 + i, &here), DWCHECK_DONE);
            IS(dwcheck_is_signed_in(&module, &none, 0x21000 + i, &in_place, &fault), DWCHECK_DONE); IS(in_place, here);
        }
        for (int i = 1; i < 3; i++) {
            IS(dwcheck_cursor_step(&p, &cursor, &s, &frames[7]), DWCHECK_DONE); IS(cursor.address, frames[i].address);
            IS(dwcheck_step_in(&module, &none, &copy, &s, &frames[7], &fault), DWCHECK_DONE);
            IS(copy.address, frames[i].address);
        }
    }
    dwcheck_process_close(&p);
}

static void answers_as(dwcheck_process *p, uint64_t i, uint64_t its_id) {
    static const uint64_t inside[3] = {0, 0x7b, 0xff};
    const uint64_t load = 0x200 * i, first = load + 0x1000;
    dwcheck_row row;
    for (int n = 0; n < 3; n++) {
        answers(p, first + inside[n], its_id != 0, its_id != 0);
        if (its_id == 0) continue;
        IS(loaded.id, its_id); IS(loaded.cookie, i); IS(loaded.load_address, load); IS(loaded.first, first); IS(loaded.last, first + 0xff);
        IS(dwcheck_row_at(p, first + inside[n], &row, rules, 4), DWCHECK_DONE);
        IS(row.id, its_id); IS(row.cookie, i); IS(row.load_address, load); IS(row.start, 0x1000);
    }
    answers(p, first - 1, 0, 0); answers(p, first + 0x100, 0, 0);
}

/* many modules, which are added and removed in orders that aren't that of their addresses */
static void many_modules(void) {
    static uint64_t ids[MANY];
    dwcheck_process p = DWCHECK_CLOSED;
    for (uint64_t n = 0; n < MANY; n++) {
        uint64_t i = n * 379 % MANY; /* each number once: 379 and 1000 have no common divisor */
        dwcheck_module m = module_of(good, sizeof good, 0x200 * i);
        m.cookie = i;
        IS(add_module(&p, m), DWCHECK_DONE); IS(id, n + 1);
        ids[i] = id;
        if (n % 100 == 0) answers_as(&p, i, id);
    }
    for (uint64_t i = 0; i < MANY; i++) answers_as(&p, i, ids[i]);
    for (uint64_t n = 0; n < MANY / 2; n++) {
        uint64_t i = n * 617 % MANY;
        IS(dwcheck_process_remove(&p, ids[i]), DWCHECK_DONE);
        ids[i] = 0;
    }
    for (uint64_t i = 0; i < MANY; i++) answers_as(&p, i, ids[i]);
    dwcheck_process_close(&p);
}

/* registers with numbers above 95 that have a content: walks keep them in another place than the others */
static void high_registers(void) {
    static uint64_t many[300];
    static uint8_t bits[38];
    static const uint16_t named[2] = {3, 264};
    dwcheck_process p = DWCHECK_CLOSED;
    dwcheck_caller caller;
    dwcheck_state s = {many, 300, bits, 38, blocks, 1, named, 2, 7, 1, 0, 0};
    many[7] = contents[7]; many[264] = 0x264;
    bits[0] = 0x80; bits[33] = 1;
    IS(add(&p, 0x71f000000000), DWCHECK_DONE);
    IS(add(&p, (uint64_t)-0x800), DWCHECK_DONE);
    for (int pointer = 0; pointer < 2; pointer++) { /* at first the ABI keeps it; then it is the stack pointer, too */
        IS(walk_twice(&p, 0x810, &s, frames, 8, &count, &stop, &fault), DWCHECK_DONE); IS(count, pointer ? 2 : 3);
        IS(stop, pointer ? DWCHECK_STOP_RETURN_UNREADABLE : DWCHECK_STOP_NOT_COVERED); IS(frames[0].address, 0x810);
        IS(frames[0].cfa.value, 0x7f10); IS(frames[1].address, 0x71f000001020);
        if (!pointer) { IS(frames[1].cfa.value, 0x7f18); IS(frames[2].address, 0x55005); }
        IS(walk_twice(&p, 0x810, &s, frames, 1, &count, &stop, &fault), DWCHECK_DONE); IS(count, 1); IS(stop, DWCHECK_STOP_LIMIT);
        s.kept_length = 1; s.stack_pointer = 264;
    }
    s.kept_length = 2; s.stack_pointer = 7;
    IS(dwcheck_unwind(&p, 0x810, &s, &caller, registers, 4, &fault), DWCHECK_DONE); IS(caller.count, 4);
    IS(registers[3].number, 264); IS(registers[3].kind, DWCHECK_ANSWER_VALUE); IS(registers[3].value, 0x264);
    dwcheck_process_close(&p);
}

/* after a module is added, the bytes of its section may be overwritten */
static void own_bytes(void) {
    dwcheck_process p = DWCHECK_CLOSED;
    dwcheck_row row;
    uint8_t own[sizeof good];
    memcpy(own, good, sizeof good);
    IS(add_section(&p, own, sizeof own, room), DWCHECK_DONE);
    memset(own, 0xff, sizeof own);
    IS(dwcheck_row_at(&p, 0x1010, &row, rules, 4), DWCHECK_DONE);
    dwcheck_process_close(&p);
}

static void *in_thread(void *process) {
    size_t i;
    dwcheck_state s = state(2);
    dwcheck_frame own[8];
    size_t many;
    uint32_t why;
    dwcheck_fault f;
    long errors = 0;
    for (i = 0; i < 20000; i++) {
        errors += dwcheck_backtrace(process, 0x810, &s, own, 8, &many, &why, &f) != DWCHECK_DONE || many != 3 || own[1].cfa.value != 0x7f18;
    }
    dwcheck_process_close(process);
    return (void *)errors;
}

static void threads(void) {
    dwcheck_process p = DWCHECK_CLOSED, others[4] = {DWCHECK_CLOSED, DWCHECK_CLOSED, DWCHECK_CLOSED, DWCHECK_CLOSED};
    pthread_t ids[4];
    void *errors;
    size_t i;
    IS(dwcheck_process_share(&p, &others[0]), DWCHECK_DONE);
    IS(walk(&others[0], 0x810, 8, 2), DWCHECK_DONE); IS(count, 1);
    IS(add(&p, 0x71f000000000), DWCHECK_DONE);
    IS(add(&p, (uint64_t)-0x800), DWCHECK_DONE);
    for (i = 0; i < 4; i++) IS(dwcheck_process_share(&p, &others[i]), DWCHECK_DONE);
    IS(dwcheck_process_remove(&p, 1), DWCHECK_DONE); /* the other processes still have the module */
    for (i = 0; i < 4; i++) pthread_create(&ids[i], NULL, in_thread, &others[i]);
    dwcheck_process_close(&p);
    for (i = 0; i < 4; i++) { pthread_join(ids[i], &errors); IS((long)errors, 0); }
}

static long memory(void) {
    long m, left, before = held;
    for (m = 0;; m++) { /* each allocation of two adds and a share fails in turn */
        dwcheck_process p = DWCHECK_CLOSED, q = DWCHECK_CLOSED;
        dwcheck_row row;
        uint32_t first, second, third;
        until = m;
        first = add(&p, 0);
        second = add(&p, 0x10000);
        third = dwcheck_process_share(&p, &q);
        left = until;
        until = -1;
        IS(first == DWCHECK_DONE || first == DWCHECK_NO_MEMORY, 1);
        IS((first == DWCHECK_NO_MEMORY) + (second == DWCHECK_NO_MEMORY) + (third == DWCHECK_NO_MEMORY), left < 0);
        IS(dwcheck_row_at(&p, 0x1010, &row, rules, 4), first == DWCHECK_DONE ? DWCHECK_DONE : DWCHECK_NONE);
        IS(dwcheck_row_at(&p, 0x11010, &row, rules, 4), second == DWCHECK_DONE ? DWCHECK_DONE : DWCHECK_NONE);
        IS(dwcheck_row_at(&q, 0x11010, &row, rules, 4), third == DWCHECK_DONE && second == DWCHECK_DONE ? DWCHECK_DONE : DWCHECK_NONE);
        dwcheck_process_close(&p);
        dwcheck_process_close(&q);
        IS(held - before, 0);
        if (left >= 0) return m;
    }
}

static long memory_of_both(void) {
    long m, left, before = held;
    for (m = 0;; m++) { /* each allocation of two adds of both sections and a share fails in turn */
        dwcheck_process p = DWCHECK_CLOSED, q = DWCHECK_CLOSED;
        dwcheck_module e = eh_module_of(beside, sizeof beside);
        uint32_t first, second, third;
        until = m;
        first = add_both(&p, module_of(good, sizeof good, 0), signed_module());
        second = add_both(&p, module_of(good, sizeof good, 0x10000), e);
        third = dwcheck_process_share(&p, &q);
        left = until;
        until = -1;
        IS(first == DWCHECK_DONE || first == DWCHECK_NO_MEMORY, 1);
        IS((first == DWCHECK_NO_MEMORY) + (second == DWCHECK_NO_MEMORY) + (third == DWCHECK_NO_MEMORY), left < 0);
        row_is(&p, 0x1010, first == DWCHECK_DONE ? 8 : 0, 0);
        row_is(&p, 0x11010, second == DWCHECK_DONE ? 8 : 0, 0);
        row_is(&p, 0x11100, second == DWCHECK_DONE ? 16 : 0, second == DWCHECK_DONE);
        row_is(&q, 0x11100, third == DWCHECK_DONE && second == DWCHECK_DONE ? 16 : 0, third == DWCHECK_DONE && second == DWCHECK_DONE);
        dwcheck_process_close(&p);
        dwcheck_process_close(&q);
        IS(held - before, 0);
        if (left >= 0) return m;
    }
}

static dwcheck_value value;
static dwcheck_piece pieces[3];
static uint8_t bytes[4];
static dwcheck_context context = {0x7f10, 0, 0, 1, 0, 0, 0};
static uint32_t evaluate(const char *expression, size_t length, uint32_t kind, uint32_t n) {
    dwcheck_state s = state(0);
    memset(bytes, '.', sizeof bytes);
    memset(pieces, 0x55, sizeof pieces);
    return dwcheck_evaluate((const uint8_t *)expression, length, DWCHECK_LITTLE, 8, kind, &context, &s, n, &value, pieces, 3,
                            bytes, sizeof bytes, &fault);
}

static void expressions(void) {
    char branches[305] = {0x31, 0x28, 0x01, 0x00}; /* lit1, bra over one nop, many nops, lit3 */
    long before, m, left;
    uint32_t got;
    memset(branches + 4, 0x96, sizeof branches - 5);
    branches[sizeof branches - 1] = 0x33;
    IS(evaluate("\x77\x08", 2, DWCHECK_EXPRESSION_CFA, 0), DWCHECK_DONE); IS(value.kind, DWCHECK_OUTCOME_VALUE); IS(value.value, 0x7f10); IS(value.steps, 1);
    IS(evaluate("\x77\x08\x06", 3, DWCHECK_EXPRESSION_CFA, 0), DWCHECK_DONE); IS(value.value, 0x55005);
    IS(evaluate("\x73\x00", 2, DWCHECK_EXPRESSION_CFA, 0), DWCHECK_DONE); IS(value.kind, DWCHECK_OUTCOME_UNREADABLE); IS(value.offset, 0);
    IS(evaluate("\x31\x30\x1b", 3, DWCHECK_EXPRESSION_CFA, 0), DWCHECK_DONE); IS(value.kind, DWCHECK_OUTCOME_DIVISION_BY_ZERO); IS(value.offset, 2);
    IS(evaluate("\x38\x1c", 2, DWCHECK_EXPRESSION_REGISTER, 0), DWCHECK_DONE); IS(value.value, 0x7f08); /* the stack begins with the CFA */
    IS(evaluate("", 0, DWCHECK_EXPRESSION_LOCATION, 0), DWCHECK_DONE); IS(value.kind, DWCHECK_LOCATION_NOWHERE); IS(value.steps, 0);
    IS(evaluate("\x9c\x38\x1c", 3, DWCHECK_EXPRESSION_LOCATION, 0), DWCHECK_DONE); IS(value.kind, DWCHECK_LOCATION_ADDRESS); IS(value.value, 0x7f08);
    IS(evaluate("\x53", 1, DWCHECK_EXPRESSION_LOCATION, 0), DWCHECK_DONE); IS(value.kind, DWCHECK_LOCATION_REGISTER); IS(value.value, 3);
    IS(evaluate("\x35\x9f", 2, DWCHECK_EXPRESSION_LOCATION, 0), DWCHECK_DONE); IS(value.kind, DWCHECK_LOCATION_VALUE); IS(value.value, 5);
    IS(evaluate("\x9e\x05" "abcde", 7, DWCHECK_EXPRESSION_LOCATION, 0), DWCHECK_DONE); IS(value.kind, DWCHECK_LOCATION_BYTES); IS(value.value, 5);
    IS(memcmp(bytes, "abcd", 4), 0);
    /* pieces: register 3, 4 bytes; nowhere, 2 bytes; bytes, 3 bits from bit 1 on; register 4, 1 byte */
    IS(evaluate("\x53\x93\x04\x93\x02\x9e\x02xy\x9d\x03\x01\x54\x93\x01", 15, DWCHECK_EXPRESSION_LOCATION, 2), DWCHECK_DONE);
    IS(value.kind, DWCHECK_LOCATION_PIECES); IS(value.count, 4); IS(memcmp(bytes, "xy..", 4), 0);
    IS(pieces[0].kind, DWCHECK_LOCATION_REGISTER); IS(pieces[0].value, 3); IS(pieces[0].size, 4); IS(pieces[0].is_bits, 0);
    IS(pieces[1].kind, DWCHECK_LOCATION_NOWHERE); IS(pieces[1].size, 2);
    IS(pieces[2].kind, DWCHECK_LOCATION_BYTES); IS(pieces[2].value, 2); IS(pieces[2].size, 3); IS(pieces[2].bit_offset, 1); IS(pieces[2].is_bits, 1);
    IS(evaluate("\x53\x93\x04", 3, DWCHECK_EXPRESSION_LOCATION, 9), DWCHECK_DONE); IS(memcmp(bytes, "....", 4), 0); IS(pieces[1].kind, 0x55555555);
    IS(evaluate("\x91\x08", 2, DWCHECK_EXPRESSION_LOCATION, 0), DWCHECK_DONE); IS(value.kind, DWCHECK_OUTCOME_UNREADABLE); IS(value.steps, 1);
    context.frame_base = 0x6000; context.has_frame_base = 1;
    IS(evaluate("\x91\x08", 2, DWCHECK_EXPRESSION_LOCATION, 0), DWCHECK_DONE); IS(value.kind, DWCHECK_LOCATION_ADDRESS); IS(value.value, 0x6008);
    IS(evaluate("\x97", 1, DWCHECK_EXPRESSION_LOCATION, 0), DWCHECK_DONE); IS(value.kind, DWCHECK_OUTCOME_UNREADABLE); IS(value.value, 0);
    context.object = 0x5000; context.has_object = 1;
    IS(evaluate("\x97", 1, DWCHECK_EXPRESSION_LOCATION, 0), DWCHECK_DONE); IS(value.kind, DWCHECK_LOCATION_ADDRESS); IS(value.value, 0x5000);
    context.has_cfa = 0; /* the rule of a register needs the CFA */
    IS(evaluate("\x38\x1c", 2, DWCHECK_EXPRESSION_REGISTER, 0), DWCHECK_DONE); IS(value.kind, DWCHECK_OUTCOME_UNREADABLE); IS(value.offset, 0); IS(value.steps, 0);
    context.has_cfa = 1;
    value.kind = 99;
    IS(evaluate("\x13", 1, DWCHECK_EXPRESSION_LOCATION, 0), DWCHECK_REFUSED); IS(fault.number, 35); IS(fault.within, DWCHECK_IN_EXPRESSION); IS(value.kind, 99);
    IS(evaluate("\x31", 1, 3, 0), DWCHECK_BAD_KIND);
    IS(evaluate("\x31", (size_t)1 << 32, DWCHECK_EXPRESSION_LOCATION, 0), DWCHECK_TOO_LONG);
    before = asked;
    IS(evaluate("\x53\x93\x04", 3, DWCHECK_EXPRESSION_LOCATION, 0), DWCHECK_DONE);
    IS(asked - before, 0);
    for (m = 0;; m++) { /* each allocation for the expression with the branch fails in turn */
        until = m;
        got = evaluate(branches, sizeof branches, DWCHECK_EXPRESSION_LOCATION, 0);
        left = until;
        until = -1;
        IS(got, left >= 0 ? DWCHECK_DONE : DWCHECK_NO_MEMORY);
        if (left >= 0) break;
    }
#ifdef REFUSING
    IS(m > 0, 1);
#endif
    IS(value.kind, DWCHECK_LOCATION_ADDRESS); IS(value.value, 3);
}

/* A table with one list, at offset 0xc. At addresses from the base address up to, but not
   including, the base address + 0x10, the object is in register 0; elsewhere its value is 0. */
static const uint8_t lists[] = {0x12, 0, 0, 0, 5, 0, 8, 0, 0, 0, 0, 0, 4, 0, 0x10, 1, 0x50, 5, 2, 0x30, 0x9f, 0};
static dwcheck_location locations[2];
static uint32_t look_up(size_t length, uint32_t list, uint64_t address, size_t n) {
    dwcheck_lookup lookup = {0x1000, 0, 0, 0};
    lookup.address = address;
    lookup.list = list;
    count = 99;
    memset(locations, 0x55, sizeof locations);
    return dwcheck_locations(lists, length, DWCHECK_LITTLE, 8, &lookup, locations, n, &count, &fault);
}

static void location_lists(void) {
    dwcheck_lookup lookup = {0, 0, 0, 0};
    long m, left;
    uint32_t got;
    IS(look_up(sizeof lists, 0xc, 0x1005, 2), DWCHECK_DONE); IS(count, 1); IS(locations[0].offset, 0x10); IS(locations[0].length, 1);
    IS(locations[1].offset, 0x5555555555555555);
    IS(look_up(sizeof lists, 0xc, 0x1010, 2), DWCHECK_DONE); IS(count, 1); IS(locations[0].offset, 0x13); IS(locations[0].length, 2);
    IS(look_up(sizeof lists, 0xc, 0x1005, 0), DWCHECK_DONE); IS(count, 0);
    IS(look_up(sizeof lists, 0xd, 0x1005, 2), DWCHECK_NONE); IS(count, 99);
    IS(look_up(0, 0, 0x1005, 2), DWCHECK_NONE);
    IS(look_up(sizeof lists - 1, 0xc, 0x1005, 2), DWCHECK_REFUSED); IS(fault.within, DWCHECK_IN_LISTS); IS(fault.number, 1); IS(count, 99);
    IS(look_up((size_t)1 << 32, 0xc, 0x1005, 2), DWCHECK_TOO_LONG);
    IS(dwcheck_locations(lists, sizeof lists, 0, 7, &lookup, locations, 2, &count, &fault), DWCHECK_BAD_TARGET);
    for (m = 0;; m++) { /* each allocation fails in turn */
        until = m;
        got = look_up(sizeof lists, 0xc, 0x1005, 2);
        left = until;
        until = -1;
        IS(got == DWCHECK_DONE || got == DWCHECK_NO_MEMORY, 1); /* some may fail without harm */
        if (got == DWCHECK_DONE) IS(locations[0].offset, 0x10);
        if (left >= 0) break;
    }
}

/* The same list without its table, after a byte that isn't its. */
static void one_list(void) {
    static const uint8_t bytes_of_one[] = {0xff, 4, 0, 0x10, 1, 0x50, 5, 2, 0x30, 0x9f, 0};
    dwcheck_lookup lookup = {0x1000, 0x1005, 1, 0};
    long m, left;
    uint32_t got;
    count = 99;
    IS(dwcheck_list_locations(bytes_of_one, 11, 0, 8, &lookup, locations, 2, &count, &fault), DWCHECK_DONE);
    IS(count, 1); IS(locations[0].offset, 5); IS(locations[0].length, 1);
    lookup.address = 0x1010;
    IS(dwcheck_list_locations(bytes_of_one, 11, 0, 8, &lookup, locations, 2, &count, &fault), DWCHECK_DONE);
    IS(count, 1); IS(locations[0].offset, 8); IS(locations[0].length, 2);
    IS(dwcheck_list_locations(bytes_of_one, 11, 0, 8, &lookup, NULL, 0, &count, &fault), DWCHECK_DONE); IS(count, 0);
    count = 99;
    IS(dwcheck_list_locations(bytes_of_one, 10, 0, 8, &lookup, locations, 2, &count, &fault), DWCHECK_REFUSED);
    IS(fault.number, 54); IS(fault.offset, 10); IS(fault.within, DWCHECK_IN_LISTS);
    lookup.list = 0;
    IS(dwcheck_list_locations(bytes_of_one, 11, 0, 8, &lookup, locations, 2, &count, &fault), DWCHECK_REFUSED);
    IS(fault.number, 51); IS(fault.offset, 0);
    lookup.list = 11;
    IS(dwcheck_list_locations(bytes_of_one, 11, 0, 8, &lookup, locations, 2, &count, &fault), DWCHECK_NONE);
    IS(dwcheck_list_locations(NULL, 0, 0, 8, &lookup, NULL, 0, &count, &fault), DWCHECK_NONE);
    IS(dwcheck_list_locations(bytes_of_one, (size_t)1 << 32, 0, 8, &lookup, locations, 2, &count, &fault), DWCHECK_TOO_LONG);
    IS(dwcheck_list_locations(bytes_of_one, 11, 2, 8, &lookup, locations, 2, &count, &fault), DWCHECK_BAD_TARGET); IS(count, 99);
    lookup.list = 1;
    for (m = 0;; m++) { /* each allocation fails in turn */
        until = m;
        got = dwcheck_list_locations(bytes_of_one, 11, 0, 8, &lookup, locations, 2, &count, &fault);
        left = until;
        until = -1;
        IS(got == DWCHECK_DONE || got == DWCHECK_NO_MEMORY, 1); /* some may fail without harm */
        if (left >= 0) break;
    }
}

/* a word that extends past the highest 4-byte address, 2^32 - 1, is unreadable, although the block
   contains the bytes after that address */
static void reads_past_the_top(void) {
    static const uint8_t word[8] = {1, 2, 3, 4, 5, 6, 7, 8};
    static const uint8_t at_the_top[] = {0x0c, 0xfc, 0xff, 0xff, 0xff, 0x06}, past_it[] = {0x0c, 0xfd, 0xff, 0xff, 0xff, 0x06};
    dwcheck_block block = {0xfffffffc, word, sizeof word};
    dwcheck_state s = {0};
    s.blocks = &block; s.blocks_length = 1;
    IS(dwcheck_evaluate(at_the_top, 6, DWCHECK_LITTLE, 4, DWCHECK_EXPRESSION_CFA, &context, &s, 0, &value, NULL, 0, NULL, 0, &fault), DWCHECK_DONE);
    IS(value.kind, DWCHECK_OUTCOME_VALUE); IS(value.value, 0x04030201);
    IS(dwcheck_evaluate(past_it, 6, DWCHECK_LITTLE, 4, DWCHECK_EXPRESSION_CFA, &context, &s, 0, &value, NULL, 0, NULL, 0, &fault), DWCHECK_DONE);
    IS(value.kind, DWCHECK_OUTCOME_UNREADABLE); IS(value.offset, 5);
}

/* Writes to `section` the CIE of `good`, but with these instructions as its program, and the FDE of
   `good`. Returns the length of the section. */
static size_t section_with(const char *instructions, size_t length, uint8_t *section) {
    memcpy(section, good, 15);
    memcpy(section + 15, instructions, length);
    section[0] = (uint8_t)(11 + length);
    memcpy(section + 15 + length, good + 24, 24);
    return 39 + length;
}

/* A rule of each kind (DWARF 5, 6.4.2): def_cfa; undefined r3; same_value r6; register r8 in r9;
   expression r10: lit8, minus; val_expression r11: lit8, plus; val_offset r12; offset r16. */
static void rules_of_each_kind(void) {
    dwcheck_process p = DWCHECK_CLOSED;
    uint8_t section[80];
    size_t length = section_with("\x0c\x07\x08\x07\x03\x08\x06\x09\x08\x09\x10\x0a\x02\x38\x1c\x16\x0b\x02\x38\x22\x14\x0c\x01\x90\x01", 25, section);
    static const uint32_t kinds[7] = {DWCHECK_RULE_UNDEFINED, DWCHECK_RULE_SAME_VALUE, DWCHECK_RULE_REGISTER, DWCHECK_RULE_EXPRESSION,
                                      DWCHECK_RULE_VAL_EXPRESSION, DWCHECK_RULE_VAL_OFFSET, DWCHECK_RULE_OFFSET};
    static const uint16_t numbers[7] = {3, 6, 8, 10, 11, 12, 16};
    dwcheck_rule found[DWCHECK_MAX_RULES];
    dwcheck_row row;
    size_t i;
    IS(add_section(&p, section, length, SIZE_MAX), DWCHECK_DONE); /* no bound */
    IS(dwcheck_row_at(&p, 0x1010, &row, found, DWCHECK_MAX_RULES), DWCHECK_DONE); IS(row.count, 7);
    for (i = 0; i < 7; i++) { IS(found[i].kind, kinds[i]); IS(found[i].reg, numbers[i]); }
    IS(found[2].source, 9); IS(found[5].offset, -8); IS(found[6].offset, -8);
    IS(found[3].length, 2); IS(memcmp(section + found[3].offset, "\x38\x1c", 2), 0);
    IS(found[4].length, 2); IS(memcmp(section + found[4].offset, "\x38\x22", 2), 0);
    dwcheck_process_close(&p);
}

/* A row as compilers write it (DWARF 5, 6.4.2.2 and 6.4.2.3): def_cfa r7 + 48; offset r3, r6, r12, r16. With
   room for any row, without it, and with one slot only. */
static void rules_of_saved_registers(void) {
    static const uint16_t numbers[4] = {3, 6, 12, 16};
    static const int64_t offsets[4] = {-32, -24, -16, -8};
    static const size_t rooms[3] = {DWCHECK_MAX_RULES, DWCHECK_MAX_RULES - 1, 1};
    dwcheck_process p = DWCHECK_CLOSED;
    uint8_t section[80];
    size_t i, n;
    IS(add_section(&p, section, section_with("\x0c\x07\x30\x83\x04\x86\x03\x8c\x02\x90\x01", 11, section), room), DWCHECK_DONE);
    for (n = 0; n < 3; n++) {
        dwcheck_rule found[DWCHECK_MAX_RULES];
        dwcheck_row row;
        memset(found, 0x55, sizeof found);
        IS(dwcheck_row_at(&p, 0x1010, &row, found, rooms[n]), DWCHECK_DONE); IS(row.count, 4);
        IS(row.cfa.kind, DWCHECK_RULE_VAL_OFFSET); IS(row.cfa.reg, 7); IS(row.cfa.offset, 48); IS(row.return_reg, 16);
        for (i = 0; i < 4 && i < rooms[n]; i++) { IS(found[i].kind, DWCHECK_RULE_OFFSET); IS(found[i].reg, numbers[i]); IS(found[i].offset, offsets[i]); }
        IS(found[i].reg, 0x5555);
    }
    dwcheck_process_close(&p);
}

static void walk_of(const char *instructions, size_t length, size_t keeps) {
    dwcheck_process p = DWCHECK_CLOSED;
    uint8_t section[80];
    IS(add_section(&p, section, section_with(instructions, length, section), room), DWCHECK_DONE);
    IS(walk(&p, 0x1010, 8, keeps), DWCHECK_DONE);
    dwcheck_process_close(&p);
}

static void ends_of_walks(void) {
    /* undefined r16 */
    walk_of("\x0c\x07\x08\x07\x10", 5, 2); IS(stop, DWCHECK_STOP_RETURN_UNDEFINED); IS(count, 1); IS(frames[0].cfa.value, 0x7f10);
    /* val_expression r16: lit1, lit0, div */
    walk_of("\x0c\x07\x08\x16\x10\x03\x31\x30\x1b", 9, 2); IS(stop, DWCHECK_STOP_RETURN_DIVISION_BY_ZERO); IS(count, 1);
    /* no rule for r16: the return address is known only if r16 is callee-saved */
    contents[16] = 0x55005; known[2] = 1;
    walk_of("\x0c\x07\x08", 3, 2); IS(stop, DWCHECK_STOP_RETURN_UNDEFINED); IS(count, 1);
    kept[1] = 16;
    walk_of("\x0c\x07\x08", 3, 2); IS(stop, DWCHECK_STOP_NOT_COVERED); IS(count, 2); IS(frames[1].address, 0x55005);
    contents[16] = 0; known[2] = 0; kept[1] = 6;
}

/* Takes a step of a cursor by a row of these instructions. */
static uint32_t step_by(const char *instructions, size_t length, const dwcheck_state *s) {
    dwcheck_process p = DWCHECK_CLOSED;
    dwcheck_cursor cursor;
    dwcheck_frame frame = {0};
    uint8_t section[80];
    uint32_t status;
    IS(add_section(&p, section, section_with(instructions, length, section), room), DWCHECK_DONE);
    IS(dwcheck_cursor_init(&cursor, 0x1010, s, 1, &fault), DWCHECK_DONE);
    status = dwcheck_cursor_step(&p, &cursor, s, &frame);
    IS(cursor.address, status == DWCHECK_DONE ? 0x71f000001020 : 0x1010); IS(frame.address, status == DWCHECK_DONE ? 0x1010 : 0);
    dwcheck_process_close(&p);
    return status;
}

/* Rows with rules for registers that have no place in a cursor: aarch64's z8 to z15, which have the numbers 104 to
   111. A step has no place only for a content. */
static void high_rules(void) {
    static const uint16_t z8[1] = {104};
    dwcheck_state s = state(2);
    /* def_cfa r7 + 8; offset r16; undefined r104 to r111 */
    static const char none[] = "\x0c\x07\x08\x90\x01\x07\x68\x07\x69\x07\x6a\x07\x6b\x07\x6c\x07\x6d\x07\x6e\x07\x6f";
    /* def_cfa r7 + 8; offset r16; offset r104: at c-8, and at c-512, where nothing is known */
    static const char saved[] = "\x0c\x07\x08\x90\x01\x05\x68\x01", unknown[] = "\x0c\x07\x08\x90\x01\x05\x68\x40";
    IS(step_by(none, 21, &s), DWCHECK_DONE);
    IS(step_by(unknown, 8, &s), DWCHECK_DONE);
    IS(step_by(saved, 8, &s), DWCHECK_NO_PLACE);
    s.kept = z8; s.kept_length = 1; /* the ABI keeps it */
    IS(step_by(none, 21, &s), DWCHECK_DONE);
    IS(step_by(none, 5, &s), DWCHECK_DONE);
    IS(step_by(saved, 8, &s), DWCHECK_NO_PLACE);
    s.kept_length = 0; s.stack_pointer = 104; /* it is the ABI's stack pointer, whose content is the CFA where the row has no rule */
    IS(step_by(none, 21, &s), DWCHECK_DONE);
    IS(step_by(unknown, 8, &s), DWCHECK_DONE);
    IS(step_by(none, 5, &s), DWCHECK_NO_PLACE);
    IS(step_by(saved, 8, &s), DWCHECK_NO_PLACE);
}

static void big_endian(void) {
    static const uint8_t word[8] = {0, 0, 0, 0, 0, 5, 0x50, 5};
    dwcheck_process p = DWCHECK_CLOSED;
    dwcheck_row row;
    dwcheck_block stack = {0x7f08, word, 8};
    dwcheck_state s = state(2);
    s.blocks = &stack;
    IS(add_for(&p, big, sizeof big, DWCHECK_BIG, 8, 0), DWCHECK_DONE);
    IS(dwcheck_row_at(&p, 0x10ff, &row, rules, 4), DWCHECK_DONE); IS(row.start, 0x1000); IS(row.end, 0x1100); IS(row.return_reg, 16);
    IS(walk_twice(&p, 0x1010, &s, frames, 8, &count, &stop, &fault), DWCHECK_DONE); IS(count, 2); IS(frames[1].address, 0x55005);
    dwcheck_process_close(&p);
}

static void refused_calls_keep_no_memory(void) {
    char long_one[305];
    long before = held;
    memset(long_one, 0x96, sizeof long_one); /* nops, and then a drop from an empty stack */
    long_one[sizeof long_one - 1] = 0x13;
    IS(dwcheck_check(good, sizeof good, bad, sizeof bad, DWCHECK_LITTLE, 8, &fault), DWCHECK_REFUSED);
    IS(evaluate(long_one, sizeof long_one, DWCHECK_EXPRESSION_LOCATION, 0), DWCHECK_REFUSED);
    IS(look_up(sizeof lists - 1, 0xc, 0x1005, 2), DWCHECK_REFUSED);
    IS(held - before, 0);
}

#ifdef REFUSING
static void share_frees_what_it_replaces(void) {
    dwcheck_process closed_one = DWCHECK_CLOSED, other = DWCHECK_CLOSED;
    long before = held;
    IS(add(&other, 0), DWCHECK_DONE); IS(held > before, 1);
    IS(dwcheck_process_share(&closed_one, &other), DWCHECK_DONE);
    IS(held - before, 0); IS(other.opaque == NULL, 1);
}

static void last_remove_frees_the_table(void) {
    dwcheck_process p = DWCHECK_CLOSED, q = DWCHECK_CLOSED;
    long with_it;
    IS(add(&p, 0), DWCHECK_DONE);
    IS(dwcheck_process_share(&p, &q), DWCHECK_DONE);
    with_it = held;
    IS(dwcheck_process_remove(&p, id), DWCHECK_DONE); IS(held, with_it); /* the other process still has the module */
    IS(dwcheck_process_remove(&q, id), DWCHECK_DONE); IS(held < with_it, 1);
    dwcheck_process_close(&p);
    dwcheck_process_close(&q);
}

/* writes 1,000 FDEs of one row each, which all have the same rules */
static void fill(uint8_t many[24 + 24 * 1000]) {
    memcpy(many, good, 24);
    for (size_t i = 0; i < 1000; i++) {
        uint64_t start = 0x1000 + 0x100 * i;
        memcpy(many + 24 + 24 * i, good + 24, 24);
        memcpy(many + 32 + 24 * i, &start, 8);
    }
}

/* What a process with one module takes besides its table, at most: the structures around it, and 4 KB by
   which the module of an address is guessed. */
enum { PROCESS = 5000 };

/* `room` is what a table takes: 16 bytes for each row and for the end of the last one, 64 for each set
   of rules and 16 for each register's rule in it, and 24 and its length for an expression. Here there
   are three sets: that of 1,000 rows, that of a row whose CFA is an expression of two bytes, and the
   set without rules that follows the last row. The memory in use is at most that, and the structures
   around it. */
static void room_bounds_what_a_table_takes(void) {
    static uint8_t many[24 + 24 * 1000 + 28];
    static const uint8_t last[28] = {0x18, 0, 0, 0, 0, 0, 0, 0, 0, 0xf8, 3, 0, 0, 0, 0, 0, 0, 1, 0, 0, 0, 0, 0, 0, 0x0f, 2, 0x77, 8};
    const size_t least = 16 * (1001 + 1) + (64 + 16) + (64 + 16) + 64 + (24 + 2);
    dwcheck_process p = DWCHECK_CLOSED;
    dwcheck_row row;
    long before = used;
    fill(many);
    memcpy(many + 24 + 24 * 1000, last, sizeof last);
    IS(add_section(&p, many, sizeof many, least - 1), DWCHECK_NO_ROOM);
    IS(used - before, 0);
    IS(add_section(&p, many, sizeof many, least), DWCHECK_DONE);
    IS(used - before <= (long)least + PROCESS, 1);
    IS(dwcheck_row_at(&p, 0x3f8ff, &row, rules, 4), DWCHECK_DONE); IS(row.cfa.kind, DWCHECK_RULE_VAL_EXPRESSION);
    dwcheck_process_close(&p);
    IS(used - before, 0);
}

/* The same where nearly all bytes are those of one expression of 60,000 bytes, and of 101 sets of 1 to
   101 rules: a table that stores anything twice takes more. The first FDE has the expression, and the
   second one has a row for each set. */
static void room_bounds_expressions_and_rules(void) {
    enum { LENGTH = 60000, RULES = 100 };
    static uint8_t s[24 + 24 + 4 + LENGTH + 24 + 4 * RULES];
    const size_t sets = 64 * (RULES + 1) + 16 * ((RULES + 1) * (RULES + 2) / 2);
    const size_t least = 16 * (1 + RULES + 1 + 1) + (64 + 16) + sets + 64 + (24 + LENGTH);
    static const uint8_t begin[4] = {0x0f, (LENGTH & 127) | 128, (LENGTH >> 7 & 127) | 128, LENGTH >> 14};
    uint32_t first = 20 + 4 + LENGTH, second = 20 + 4 * RULES;
    dwcheck_process p = DWCHECK_CLOSED;
    uint8_t *at = s + 24;
    long before = used;
    memcpy(s, good, 24);
    memcpy(at, good + 24, 24); memcpy(at, &first, 4);
    memcpy(at + 24, begin, 4);
    memset(at + 28, 0x96, LENGTH - 2); /* DW_OP_nop */
    at[28 + LENGTH - 2] = 0x77; at[28 + LENGTH - 1] = 8;
    at += 28 + LENGTH;
    memcpy(at, good + 24, 24); memcpy(at, &second, 4); at[9] = 0x11; /* 0x1100..0x1200 */
    for (int i = 0; i < RULES; i++) memcpy(at + 24 + 4 * i, (uint8_t[]){0x41, 5, (uint8_t)(20 + i), 2}, 4);
    IS(add_section(&p, s, sizeof s, least - 1), DWCHECK_NO_ROOM);
    IS(add_section(&p, s, sizeof s, least), DWCHECK_DONE);
    IS(used - before <= (long)least + PROCESS, 1);
    dwcheck_process_close(&p);
    IS(used - before, 0);
}

/* dwcheck_process_share allocates little, although the table is large: 1,000 FDEs */
static void share_copies_no_table(void) {
    static uint8_t many[24 + 24 * 1000];
    dwcheck_process p = DWCHECK_CLOSED, q = DWCHECK_CLOSED;
    dwcheck_row row;
    long before;
    fill(many);
    before = given;
    IS(add_section(&p, many, sizeof many, room), DWCHECK_DONE); IS(given - before > 16000, 1);
    before = given;
    IS(dwcheck_process_share(&p, &q), DWCHECK_DONE); IS(given - before < PROCESS, 1);
    dwcheck_process_close(&p);
    IS(dwcheck_row_at(&q, 0x1000 + 0x100 * 999, &row, rules, 4), DWCHECK_DONE); IS(row.start, 0x1000 + 0x100 * 999);
    dwcheck_process_close(&q);
}
#endif

static void names(void) {
    uint8_t text[32];
    size_t size = 99;
    memset(text, '.', sizeof text);
    IS(dwcheck_fault_name(9, text, sizeof text, &size), DWCHECK_DONE); IS(size, 9); IS(memcmp(text, "NoSuchCie.", 10), 0);
    memset(text, '.', sizeof text);
    IS(dwcheck_fault_name(9, text, 4, &size), DWCHECK_DONE); IS(size, 9); IS(memcmp(text, "NoSu.", 5), 0);
    IS(dwcheck_fault_name(16, text, sizeof text, &size), DWCHECK_DONE); IS(size, 22);
    IS(dwcheck_fault_name(8, text, sizeof text, &size), DWCHECK_NONE);
    IS(dwcheck_fault_name(265, text, sizeof text, &size), DWCHECK_NONE); IS(size, 22);
    IS(dwcheck_version(), DWCHECK_VERSION);
}

/* NULL with length 0 may be passed for every array */
static void nothing(void) {
    dwcheck_process p = DWCHECK_CLOSED;
    dwcheck_state none;
    memset(&none, 0, sizeof none);
    dwcheck_row row;
    dwcheck_caller caller;
    dwcheck_lookup lookup = {0, 0x10, 0, 0};
    IS(dwcheck_check(NULL, 0, NULL, 0, DWCHECK_LITTLE, 8, &fault), DWCHECK_DONE);
    IS(add_within(&p, module_of(NULL, 0, 0), 0, 0), DWCHECK_DONE);
    IS(add_both(&p, module_of(NULL, 0, 0), eh_module_of(NULL, 0)), DWCHECK_BAD_RANGE);
    IS(add_both(&p, module_of(NULL, 0, 0x5000), eh_module_of(beside, sizeof beside)), DWCHECK_DONE); row_is(&p, 0x60f0, 16, 1);
    IS(dwcheck_process_remove(&p, id), DWCHECK_DONE);
    IS(add_both(&p, module_of(good, sizeof good, 0x5000), eh_module_of(NULL, 0)), DWCHECK_DONE); row_is(&p, 0x60f0, 8, 0);
    IS(dwcheck_process_remove(&p, id), DWCHECK_DONE);
    IS(add(&p, 0x5000), DWCHECK_DONE);
    IS(dwcheck_row_at(&p, 0x6010, &row, NULL, 0), DWCHECK_DONE);
    IS(row.count, 1);
    IS(dwcheck_unwind(&p, 0x6010, &none, &caller, NULL, 0, &fault), DWCHECK_DONE);
    IS(caller.cfa.kind, DWCHECK_ANSWER_UNREADABLE);
    IS(caller.count, 1);
    IS(walk_twice(&p, 0x6010, &none, NULL, 0, &count, &stop, &fault), DWCHECK_DONE);
    IS(count, 0);
    IS(stop, DWCHECK_STOP_LIMIT);
    IS(dwcheck_evaluate(NULL, 0, DWCHECK_LITTLE, 8, DWCHECK_EXPRESSION_LOCATION, &context, &none, 0, &value, NULL, 0, NULL, 0, &fault),
       DWCHECK_DONE);
    IS(value.kind, DWCHECK_LOCATION_NOWHERE);
    IS(dwcheck_locations(NULL, 0, DWCHECK_LITTLE, 8, &lookup, NULL, 0, &count, &fault), DWCHECK_NONE);
    size_t size = 0;
    IS(dwcheck_fault_name(1, NULL, 0, &size), DWCHECK_DONE);
    IS(size > 0, 1);
    dwcheck_cursor cursor;
    dwcheck_frame frame;
    IS(dwcheck_cursor_init(&cursor, 0x6010, &none, 1, &fault), DWCHECK_DONE);
    IS(dwcheck_cursor_step(&p, &cursor, &none, &frame), DWCHECK_DONE);
    IS(frame.cfa.kind, DWCHECK_ANSWER_UNREADABLE);
    uint32_t (*volatile through_pointer)(uint32_t, uint8_t *, size_t, size_t *) = dwcheck_fault_name;
    IS(through_pointer(1, NULL, 0, &size), DWCHECK_DONE);
    dwcheck_process_close(&p);
}

int main(void) {
    long m;
    contents[7] = 0x7f08; /* so the CFA is 0x7f10, and the return address is at 0x7f08 */
    blocks[0].bytes = (uint8_t *)words;
    closed();
    refusals();
    walks();
    ids_and_cookies();
    ranges();
    ranges_at_the_top();
    first_refusals();
    reports();
    texts();
    eh_frames();
    both_sections();
    first_refusals_of_both();
    records();
    module_checks();
    left_out();
    signal_walks(17);
    signal_walks(97);
    signed_addresses();
    signed_addresses_of_both();
    other_signatures();
    signed_walks(17);
    signed_walks(97);
    many_modules();
    high_registers();
    own_bytes();
    names();
    expressions();
    location_lists();
    one_list();
    reads_past_the_top();
    rules_of_each_kind();
    rules_of_saved_registers();
    ends_of_walks();
    high_rules();
    big_endian();
    refused_calls_keep_no_memory();
#ifdef REFUSING
    share_frees_what_it_replaces();
    last_remove_frees_the_table();
    share_copies_no_table();
    room_bounds_what_a_table_takes();
    room_bounds_expressions_and_rules();
#endif
    nothing();
    threads();
    m = memory() + memory_of_both();
    printf("%ld requests for memory were refused, each alone; %d wrong\n", m, wrong);
    return wrong != 0;
}
