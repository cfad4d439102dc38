/* Walks through the functions of both_rows.S, whose rows differ in .debug_frame and in .eh_frame: before
   dwcheck_dl_prepare the rows are those of .eh_frame, and after it those of .debug_frame where that has any.
   usage: both_rows [refused]
   With an argument, .debug_frame has a fault, and the rows stay those of .eh_frame. */
#include "dl.h"

void differs(void (*f)(void));
void partly(void (*f)(void));
extern const char decoy[];
extern uint64_t return_address;
uint64_t return_address; /* of the last call of the two functions */

/* The stacks of the three calls of this function: of each, the caller of the function that has called it. */
static int calls;
static struct seen {
    uint64_t address, from_frames, key, right;
} seen[3];

__attribute__((noinline)) static void see(void) {
    void *addresses[FRAMES] = {NULL};
    dwcheck_dl_frame frames[FRAMES];
    dwcheck_dl_request request = {.context = NULL};
    IS(dwcheck_dl_backtrace(addresses, FRAMES) > 2, 1);
    IS(dwcheck_dl_frames(&request, frames, FRAMES) > 2, 1);
    seen[calls++] = (struct seen){(uintptr_t)addresses[2], frames[2].place.address, frames[2].place.key, return_address};
}

static void see_all(void) {
    calls = 0;
    differs(see);
    partly(see);
    IS(calls, 3);
}

static void is_right(const struct seen *one) {
    IS(one->address, one->right);
    IS(one->from_frames, one->right);
    IS(one->key, one->right);
}

/* A signal frame has interrupted its caller, so that is looked up at its own address: the key is one more. */
static void is_decoy(const struct seen *one, int is_interrupted) {
    IS(one->address, (uintptr_t)decoy);
    IS(one->from_frames, (uintptr_t)decoy);
    IS(one->key, (uintptr_t)decoy + (uint64_t)is_interrupted);
}

static void test_eh_frame(void) {
    see_all();
    is_decoy(&seen[0], 1);
    is_decoy(&seen[1], 0);
    is_right(&seen[2]);
}

static void test_debug_frame(void) {
    see_all();
    for (int i = 0; i < 3; i++) is_right(&seen[i]);
}

int main(int count, char **arguments) {
    void (*const test)(void) = count > 1 ? test_eh_frame : test_debug_frame;
    (void)arguments;
    test_eh_frame();
    IS(dwcheck_dl_prepare(), DWCHECK_DONE);
    test();
    IS(dwcheck_dl_thread(), DWCHECK_DONE); /* walks of addresses alone then take another way */
    test();
    deep(DEPTH, compare);
    return report();
}
