/* Tests walks with a cache beside walks without one: the frames, their number and the reason for the end
   are the same with an empty cache, one that earlier walks filled, one of random bytes, one of random
   small numbers, one of another process, one of the process before a module was removed, and one of
   the process before a module was added. Prints a line with counts. */
#define main readers_main
#include "readers.c"
#undef main

static dwcheck_process process, other;
static dwcheck_cache cache;
static long compared;

static uint64_t random_number(void) {
    static uint64_t x = 88172645463325252u;
    x ^= x << 13; x ^= x >> 7; x ^= x << 17;
    return x;
}

static void check_cached(const dwcheck_process *p, struct stack *s, size_t limit) {
    static dwcheck_frame frames[FRAMES + 8], cached[FRAMES + 8];
    dwcheck_fault fault;
    size_t count = 0, cached_count = 0;
    uint32_t stop = 99, cached_stop = 99;
    memset(frames, 0x5a, sizeof frames); memset(cached, 0x5a, sizeof cached);
    CHECK(dwcheck_backtrace(p, s->addresses[0], &s->state, frames, limit, &count, &stop, &fault) == DWCHECK_DONE);
    CHECK(dwcheck_backtrace_cached(p, s->addresses[0], &s->state, cached, limit, &cached_count, &cached_stop, &cache, &fault) == DWCHECK_DONE);
    CHECK(count == cached_count && stop == cached_stop && memcmp(frames, cached, sizeof frames) == 0);
    compared++;
}

/* Walks each stack of a row with the cache as it is, and then with what that walk left. */
static void check_stacks(const dwcheck_process *p, struct stack **stacks, size_t n) {
    for (size_t i = 0; i < n; i++) {
        check_cached(p, stacks[i], FRAMES + 8);
        check_cached(p, stacks[i], FRAMES + 8);
    }
    check_cached(p, stacks[0], 3);
    check_cached(p, stacks[0], 1);
}

static void fill_cache(int round) {
    for (size_t k = 0; k < 1024; k++) {
        uint32_t n = (uint32_t)(random_number() >> 32);
        cache.hints[k] = round % 4 == 0 ? n : round % 4 == 1 ? n % 4 : n % (4 * FDES);
        if (round % 4 == 3 && k % 2 == 0) cache.hints[k] = n % 3;
    }
}

static void check_refusal(struct stack *s) {
    static const uint16_t twice[] = {3, 3};
    dwcheck_frame frame;
    dwcheck_fault fault;
    dwcheck_cache before = cache;
    dwcheck_state state = s->state;
    size_t count = 7;
    uint32_t stop = 7;
    state.kept = twice; state.kept_length = 2;
    CHECK(dwcheck_backtrace_cached(&process, s->addresses[0], &state, &frame, 1, &count, &stop, &cache, &fault) == DWCHECK_REFUSED);
    CHECK(fault.within == DWCHECK_IN_ABI && count == 7 && stop == 7);
    CHECK(memcmp(&before, &cache, sizeof cache) == 0);
    /* arrays of no elements may be NULL */
    state = s->state; state.blocks = NULL; state.blocks_length = 0; state.kept = NULL; state.kept_length = 0;
    CHECK(dwcheck_backtrace_cached(&process, s->addresses[0], &state, NULL, 0, &count, &stop, &cache, &fault) == DWCHECK_DONE);
    CHECK(count == 0 && stop == DWCHECK_STOP_LIMIT);
}

int main(void) {
    enum { STACKS = 50, RANDOM = 200 };
    struct stack *stacks[STACKS];
    static const dwcheck_cache empty;
    uint64_t id, second_id, other_id;
    CHECK(sizeof(dwcheck_cache) == 4096);
    make_section();
    for (size_t seed = 0; seed < STACKS; seed++) stacks[seed] = new_stack(seed);
    CHECK(add(&process, size, load, cookie, &id) == DWCHECK_DONE);
    check_stacks(&process, stacks, STACKS);
    CHECK(memcmp(&cache, &empty, sizeof cache) != 0);
    for (int round = 0; round < RANDOM; round++) {
        fill_cache(round);
        check_stacks(&process, stacks, round % 8 + 1);
    }
    check_refusal(stacks[0]);

    /* another process has the section at another place, and a module below it */
    CHECK(add(&other, size, load + 3 * STEP, 1, &other_id) == DWCHECK_DONE);
    CHECK(add(&other, first_fde, second, 2, &second_id) == DWCHECK_DONE);
    check_stacks(&other, stacks, STACKS);
    check_stacks(&process, stacks, STACKS);

    /* a module below is added, and removed again; then the module of the frames is removed */
    CHECK(add(&process, first_fde, second, 3, &second_id) == DWCHECK_DONE);
    check_stacks(&process, stacks, STACKS);
    CHECK(dwcheck_process_remove(&process, second_id) == DWCHECK_DONE);
    check_stacks(&process, stacks, STACKS);
    CHECK(dwcheck_process_remove(&process, id) == DWCHECK_DONE);
    check_stacks(&process, stacks, STACKS);
    dwcheck_process_close(&process);
    dwcheck_process_close(&other);
    check_stacks(&process, stacks, 3); /* a closed process has no modules */
    printf("%ld walks with a cache: %ld wrong\n", compared, atomic_load(&wrong));
    return atomic_load(&wrong) != 0;
}
