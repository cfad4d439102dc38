/* Tests libunwind's calls with input that can't be right: cursors of zeros and of random bytes, null pointers, contexts
   of random registers, of which each gets an answer. Prints a line for each failure, and at the end a line with
   counts. */
#include "unwind_processor.h"

#include <stdio.h>
#include <stdlib.h>
#include <string.h>

static int wrong, calls;
#define IS(what, want)                                                                                      \
    do {                                                                                                    \
        long long is_ = (long long)(what), want_ = (long long)(want);                                       \
        calls++;                                                                                            \
        if (is_ != want_ && wrong++ < 40) printf("%d: %s is %llx, not %llx\n", __LINE__, #what, is_, want_); \
    } while (0)

static unsigned long random_state = 20261130;
static unsigned long any(void) { /* xorshift64* */
    random_state ^= random_state >> 12, random_state ^= random_state << 25, random_state ^= random_state >> 27;
    return random_state * 0x2545f4914f6cdd1d;
}

static int see_row(void *token, void *state, size_t size, unw_word_t start, unw_word_t end) {
    (void)token, (void)state, (void)size, (void)start, (void)end;
    return 0;
}

static void refuses(unw_cursor_t *cursor) {
    unw_word_t value;
    unw_save_loc_t place;
    unw_proc_info_t info;
    char name[8];
    IS(unw_step(cursor), -UNW_EINVAL);
    IS(unw_get_reg(cursor, UNW_REG_IP, &value), -UNW_EINVAL);
    IS(unw_set_reg(cursor, UNW_REG_IP, 1), -UNW_EINVAL);
    IS(unw_get_save_loc(cursor, UNW_REG_IP, &place), -UNW_EINVAL);
    IS(unw_get_proc_info(cursor, &info), -UNW_EINVAL);
    IS(unw_get_proc_name(cursor, name, sizeof name, NULL), -UNW_EINVAL);
    IS(unw_is_signal_frame(cursor), -UNW_EINVAL);
    IS(unw_resume(cursor), -UNW_EINVAL);
    IS(unw_reg_states_iterate(cursor, see_row, NULL), -UNW_EINVAL);
    IS(unw_apply_reg_state(cursor, name), -UNW_EINVAL);
}

static void cursors_of_any_bytes_are_refused(void) {
    unw_cursor_t cursor;
    unw_context_t context;
    memset(&cursor, 0, sizeof cursor);
    refuses(&cursor);
    refuses(NULL);
    for (int i = 0; i < 1000; i++) {
        for (int j = 0; j < UNW_TDEP_CURSOR_LEN; j++) cursor.opaque[j] = any();
        refuses(&cursor);
    }
    IS(unw_init_local(&cursor, NULL), -UNW_EINVAL);
    IS(unw_init_local(NULL, &context), -UNW_EINVAL);
    IS(unw_init_local2(&cursor, &context, 2), -UNW_EINVAL);
    IS(unw_init_remote(&cursor, NULL, &context), -UNW_EINVAL);
    IS((long)unw_create_addr_space(NULL, 0), 0);
    IS(unw_backtrace(NULL, 0), 0);
}

/* A number that a register may have: of the stack, of code, near the ends of the addresses, or any. */
static unsigned long any_content(void) {
    const unsigned long near = any() % 4096;
    switch (any() % 6) {
    case 0: return (unsigned long)&near + near - 2048;
    case 1: return (unsigned long)refuses + near;
    case 2: return (unsigned long)qsort + near;
    case 3: return near - 2048;
    case 4: return any() >> (any() % 64);
    default: return any();
    }
}

static void contexts_of_any_registers_get_an_answer(void) {
    for (int i = 0; i < 20000; i++) {
        unw_context_t context;
        unw_cursor_t cursor;
        void *addresses[20];
        unw_getcontext(&context);
        for (int j = 0; j < GENERAL_REGISTERS; j++)
            if (any() % 2) REGISTER(&context, j) = (long long)any_content();
        IS(unw_init_local2(&cursor, &context, (int)(any() % 2)), 0);
        for (int j = 0; j < 20 && unw_step(&cursor) > 0; j++) continue;
        unw_backtrace2(addresses, 20, &context, (int)(any() % 2));
    }
}

int main(void) {
    cursors_of_any_bytes_are_refused();
    contexts_of_any_registers_get_an_answer();
    printf("%d calls: %d wrong\n", calls, wrong);
    return wrong != 0;
}
