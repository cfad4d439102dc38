/* Times walks of one stack and of 256 different stacks, without a cache and with one, in processes of one
   module and of 30 modules. Each module has the same section of 2,000 functions with three rows each.
   The return addresses are random: any of them, or of 200 or 500 in all, which is how many a cache of
   512 places can mostly hold. Prints nanoseconds a frame, the least of 30 passes.

     gcc -std=gnu11 -O2 -Wall -Wextra bench/times/cache.c $(pkg-config --cflags --libs dwcheck) -o cache && ./cache */
#include <stdint.h>
#include <stdio.h>
#include <stdlib.h>

enum { FUNCTIONS = 2000, SIZE = 64, FRAMES = 32, STACKS = 256, MODULES = 30, PASSES = 30, WALKS = 20000 };
static const uint64_t STEP = 0x1000000, START = 0x1000, STACK = 0x7ffc0000;

#include "made_section.h"

static dwcheck_process process;
static dwcheck_cache cache;
static uint64_t words[STACKS][2 * FRAMES]; /* of each frame the frame pointer before, and a return address */

static uint64_t anywhere(uint64_t modules) {
    return random_number() % modules * STEP + START + random_number() % FUNCTIONS * SIZE + 40;
}

/* Makes the stacks, with `count` return addresses in all; any addresses if it is 0. */
static void make_stacks(uint64_t modules, uint64_t count) {
    static uint64_t among[500];
    for (uint64_t i = 0; i < count; i++) among[i] = anywhere(modules);
    for (int s = 0; s < STACKS; s++)
        for (int i = 0; i < FRAMES; i++) {
            words[s][2 * i] = STACK + 16 * (uint64_t)(i + 1);
            words[s][2 * i + 1] = count ? among[random_number() % count] : anywhere(modules);
        }
}

static void walk(int s, int with_cache) {
    static const uint8_t known[] = {0xff, 0xff, 1};
    static const uint16_t kept[] = {3, 6, 12, 13, 14, 15};
    static const uint64_t registers[17] = {[6] = STACK, [7] = STACK};
    static dwcheck_frame frames[FRAMES];
    dwcheck_block block = {STACK, (const uint8_t *)words[s], sizeof words[s]};
    dwcheck_state state = {registers, 17, known, sizeof known, &block, 1, kept, 6, 7, 1, 0, 0};
    dwcheck_fault fault;
    size_t count;
    uint32_t stop, status;
    if (with_cache)
        status = dwcheck_backtrace_cached(&process, words[s][1], &state, frames, FRAMES, &count, &stop, &cache, &fault);
    else
        status = dwcheck_backtrace(&process, words[s][1], &state, frames, FRAMES, &count, &stop, &fault);
    if (status != DWCHECK_DONE || count != FRAMES) exit(1);
}

static double least(int stacks, int with_cache) {
    double best = 1e18;
    int times = WALKS / stacks;
    memset(&cache, 0, sizeof cache);
    for (int pass = 0; pass < PASSES; pass++) {
        double begun = now();
        for (int time = 0; time < times; time++)
            for (int s = 0; s < stacks; s++) walk(s, with_cache);
        double took = (now() - begun) / times / stacks / FRAMES;
        if (took < best) best = took;
    }
    return best;
}

static void show(const char *what, int stacks) {
    double without = least(stacks, 0);
    printf("%s %.1f, with a cache %.1f", what, without, least(stacks, 1));
}

int main(void) {
    make_section();
    for (uint64_t modules = 1; modules <= MODULES; modules += MODULES - 1) {
        dwcheck_process_close(&process);
        for (uint64_t n = 0; n < modules; n++) {
            dwcheck_module module = {.frame = section, .frame_length = length, .load_address = n * STEP, .room = SIZE_MAX, .address_size = 8};
            dwcheck_fault fault;
            uint64_t id;
            if (dwcheck_process_add(&process, &module, &id, &fault) != DWCHECK_DONE) return 1;
        }
        printf("%2d modules:", (int)modules);
        make_stacks(modules, 0);
        show(" one stack", 1), show("; 256 stacks", STACKS);
        make_stacks(modules, 200);
        show("; of 200 addresses", STACKS);
        make_stacks(modules, 500);
        show("; of 500", STACKS);
        printf("\n");
    }
    dwcheck_process_close(&process);
    return 0;
}
