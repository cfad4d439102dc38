/* Times the look-ups of a process that has many modules: the module of an address, the row of an
   address, and a frame of a walk, also with a cache and by a cursor. Each module has the same section of
   64 functions with three rows each. Addresses are in the last module alone, so that its table is in the
   processor's caches, or in all modules in random order. Then it times walks of a few frames, their
   start included. Prints nanoseconds, the least of five passes.

     gcc -std=gnu11 -O2 -Wall -Wextra bench/times/modules.c $(pkg-config --cflags --libs dwcheck) -o modules && ./modules */
#include <stdint.h>
#include <stdio.h>
#include <stdlib.h>

enum { FUNCTIONS = 64, SIZE = 64, ADDRESSES = 4096, FRAMES = 500, PASSES = 5, TIMES = 200 };
static const uint64_t STEP = 0x100000, START = 0x1000, STACK = 0x7ffc0000;

#include "made_section.h"

static dwcheck_process process;
static uint64_t addresses[ADDRESSES];
static volatile uint64_t sink;

static void find_modules(void) {
    dwcheck_loaded module;
    for (int i = 0; i < ADDRESSES; i++)
        if (dwcheck_module_at(&process, addresses[i], &module) == DWCHECK_DONE) sink += module.id;
}

static void find_rows(void) {
    dwcheck_row row;
    dwcheck_rule rules[4];
    for (int i = 0; i < ADDRESSES; i++)
        if (dwcheck_row_at(&process, addresses[i], &row, rules, 4) == DWCHECK_DONE) sink += row.end;
}

/* A stack of frames of two words: the frame pointer before, and a return address. */
static uint64_t words[2 * FRAMES];
static size_t limit = FRAMES;

static const uint8_t known[] = {0xff, 0xff, 1};
static const uint16_t kept[] = {3, 6, 12, 13, 14, 15};
static const uint64_t registers[17] = {[6] = STACK, [7] = STACK};
static const dwcheck_block block = {STACK, (const uint8_t *)words, sizeof words};
static const dwcheck_state state = {registers, 17, known, sizeof known, &block, 1, kept, 6, 7, 1, 0, 0};

static void walk(void) {
    static dwcheck_frame frames[FRAMES];
    size_t count;
    uint32_t stop;
    dwcheck_fault fault;
    uint32_t status = dwcheck_backtrace(&process, addresses[0], &state, frames, limit, &count, &stop, &fault);
    if (status != DWCHECK_DONE || count != limit) exit(1);
}

/* The same walk with a cache, which the walks before it filled. */
static dwcheck_cache cache;

static void walk_cached(void) {
    static dwcheck_frame frames[FRAMES];
    size_t count;
    uint32_t stop;
    dwcheck_fault fault;
    uint32_t status = dwcheck_backtrace_cached(&process, addresses[0], &state, frames, limit, &count, &stop, &cache, &fault);
    if (status != DWCHECK_DONE || count != limit) exit(1);
}

/* The same walk by a cursor. */
static void step(void) {
    dwcheck_cursor cursor;
    dwcheck_frame frame;
    dwcheck_fault fault;
    if (dwcheck_cursor_init(&cursor, addresses[0], &state, 1, &fault) != DWCHECK_DONE) exit(1);
    for (size_t i = 0; i < limit; i++)
        if (dwcheck_cursor_step(&process, &cursor, &state, &frame) != DWCHECK_DONE) exit(1);
}

static double least(void (*what)(void), int times, double each) {
    double best = 1e18;
    for (int pass = 0; pass < PASSES; pass++) {
        double begun = now();
        for (int i = 0; i < times; i++) what();
        double took = (now() - begun) / times / each;
        if (took < best) best = took;
    }
    return best;
}

/* Fills in addresses in `count` modules from `first` on. */
static void choose(uint64_t first, uint64_t count) {
    for (int i = 0; i < ADDRESSES; i++)
        addresses[i] = (first + random_number() % count) * STEP + START + random_number() % (FUNCTIONS * SIZE);
    for (int i = 0; i < FRAMES; i++) {
        words[2 * i] = STACK + 16 * (uint64_t)(i + 1);
        words[2 * i + 1] = (first + random_number() % count) * STEP + START + random_number() % FUNCTIONS * SIZE + 40;
    }
    addresses[0] = words[1];
}

/* Adds modules to the process, which is closed. Returns whether all were added. */
static int add_modules(uint64_t count) {
    for (uint64_t n = 0; n < count; n++) {
        dwcheck_module module = {.frame = section, .frame_length = length, .load_address = n * STEP, .room = SIZE_MAX, .address_size = 8};
        dwcheck_fault fault;
        uint64_t id;
        if (dwcheck_process_add(&process, &module, &id, &fault) != DWCHECK_DONE) return 0;
    }
    return 1;
}

int main(void) {
    static const uint64_t counts[] = {1, 30, 300, 1000};
    make_section();
    for (int i = 0; i < 4; i++) {
        uint64_t count = counts[i];
        if (!add_modules(count)) return 1;
        printf("%4d modules:", (int)count);
        for (int in_all = 0; in_all < 2; in_all++) {
            choose(in_all ? 0 : count - 1, in_all ? count : 1);
            double module = least(find_modules, TIMES, ADDRESSES), row = least(find_rows, TIMES, ADDRESSES);
            double frame = least(walk, TIMES * 4, FRAMES), cached = least(walk_cached, TIMES * 4, FRAMES);
            double stepped = least(step, TIMES * 4, FRAMES);
            printf("%s module_at %.1f, row_at %.1f, a frame %.1f, with a cache %.1f, by a cursor %.1f", in_all ? "; in all" : " in the last",
                   module, row, frame, cached, stepped);
        }
        printf("\n");
        dwcheck_process_close(&process);
    }
    if (!add_modules(1)) return 1;
    choose(0, 1);
    for (limit = 4; limit <= 25; limit += 21)
        printf("walks of %zu frames: %.1f a frame, with a cache %.1f\n", limit, least(walk, TIMES * 100, (double)limit),
               least(walk_cached, TIMES * 100, (double)limit));
    dwcheck_process_close(&process);
    return 0;
}
