/* Tests the steps of a cursor beside dwcheck_backtrace: for each limit, the steps give the frames and
   the reason that a walk with that limit gives, although the cursor is moved between steps; the walk
   goes on from a copy of any cursor; and the registers of the last frame stay. Then cursors of random
   bytes take steps, and registers without a place are refused. Prints a line with counts. */
#define main readers_main
#include "readers.c"
#undef main

static dwcheck_process process;

static uint64_t random_number(void) {
    static uint64_t x = 88172645463325252u;
    x ^= x << 13; x ^= x >> 7; x ^= x << 17;
    return x;
}

static void check_steps(struct stack *s, size_t limit) {
    static dwcheck_frame walked[FRAMES + 8], stepped[FRAMES + 8];
    static dwcheck_cursor cursors[FRAMES + 8];
    dwcheck_fault fault;
    dwcheck_cursor cursor;
    size_t count, n = 0, again = 0;
    uint32_t stop;
    CHECK(dwcheck_backtrace(&process, s->addresses[0], &s->state, walked, limit, &count, &stop, &fault) == DWCHECK_DONE);
    CHECK(dwcheck_cursor_init(&cursor, s->addresses[0], &s->state, 1, &fault) == DWCHECK_DONE);
    while (n < limit) {
        cursors[n] = cursor;
        memset(&cursor, 0x5a, sizeof cursor);
        cursor = cursors[n];
        if (dwcheck_cursor_step(&process, &cursor, &s->state, &stepped[n]) != DWCHECK_DONE) break;
        n++;
    }
    CHECK(n == count && memcmp(walked, stepped, n * sizeof *walked) == 0);
    CHECK((n == limit ? DWCHECK_STOP_LIMIT : cursor.stage - 1) == stop);
    if (n < limit) { /* the walk ended: the cursor keeps the last frame's address and registers */
        CHECK(cursor.address == walked[n - 1].address && cursor.stage > DWCHECK_CURSOR_CALLER);
        CHECK(memcmp(&cursor, &cursors[n - 1], offsetof(dwcheck_cursor, address)) == 0);
        CHECK(dwcheck_cursor_step(&process, &cursor, &s->state, &stepped[0]) == DWCHECK_NONE);
    }
    cursor = cursors[n / 2];
    for (size_t k = n / 2; k < n; k++) {
        dwcheck_frame frame;
        again += dwcheck_cursor_step(&process, &cursor, &s->state, &frame) == DWCHECK_DONE && memcmp(&frame, &walked[k], sizeof frame) == 0;
    }
    CHECK(again == n - n / 2);
}

static void check_random_cursor(struct stack *s, int i) {
    dwcheck_cursor cursor, copy;
    dwcheck_frame frame;
    for (size_t k = 0; k < sizeof cursor; k++) ((uint8_t *)&cursor)[k] = (uint8_t)random_number();
    if (i % 4) cursor.stage &= 3;
    if (i % 8 > 2) cursor.address = s->addresses[i % FRAMES];
    if (i % 8 > 4) cursor.contents[7] = top + random_number() % 4096, cursor.known[7] = 1;
    copy = cursor;
    uint32_t status = dwcheck_cursor_step(&process, &cursor, &s->state, &frame);
    CHECK((status == DWCHECK_NONE) == (copy.stage > DWCHECK_CURSOR_CALLER));
    CHECK(status == DWCHECK_DONE || memcmp(&cursor, &copy, sizeof copy) == 0);
    CHECK(status != DWCHECK_DONE || frame.address == copy.address);
}

static void check_places(struct stack *s) {
    uint64_t contents[97] = {0};
    uint8_t known[13] = {0};
    dwcheck_state state = s->state;
    dwcheck_cursor cursor, copy;
    dwcheck_fault fault;
    memset(&cursor, 0x5a, sizeof cursor);
    copy = cursor;
    state.contents = contents; state.contents_length = 97; state.known = known; state.known_length = 13;
    known[12] = 1; /* register 96 */
    CHECK(dwcheck_cursor_init(&cursor, 1, &state, 0, &fault) == DWCHECK_NO_PLACE);
    CHECK(memcmp(&cursor, &copy, sizeof copy) == 0);
    known[12] = 0; known[11] = 0x80; contents[95] = 5;
    CHECK(dwcheck_cursor_init(&cursor, 1, &state, 0, &fault) == DWCHECK_DONE);
    CHECK(cursor.known[95] && cursor.contents[95] == 5 && !cursor.known[94] && cursor.stage == DWCHECK_CURSOR_CALLER);
    static const uint16_t twice[] = {3, 3};
    state.kept = twice; state.kept_length = 2;
    CHECK(dwcheck_cursor_init(&cursor, 1, &state, 0, &fault) == DWCHECK_REFUSED && fault.within == DWCHECK_IN_ABI);
}

int main(void) {
    uint64_t id;
    long steps = 0;
    make_section();
    CHECK(add(&process, size, load, cookie, &id) == DWCHECK_DONE);
    for (size_t seed = 0; seed < 50; seed++) {
        struct stack *s = new_stack(seed);
        for (size_t limit = 1; limit < FRAMES + 8; limit++, steps++) check_steps(s, limit);
        if (seed == 0) {
            for (int i = 0; i < 200000; i++) check_random_cursor(s, i);
            check_places(s);
        }
        munmap(s, sizeof *s);
    }
    dwcheck_process_close(&process);
    struct stack *s = new_stack(1); /* a closed process has no modules */
    check_steps(s, 3);
    printf("%ld walks by steps, 200000 cursors of random bytes: %ld wrong\n", steps, atomic_load(&wrong));
    return atomic_load(&wrong) != 0;
}
