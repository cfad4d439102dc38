/* Calls functions on stacks of this library, where the thread's may be too small. */
#define _GNU_SOURCE
#include "room.h"
#include "memory.h"
#include "processor.h"

#include <errno.h>
#include <signal.h>
#include <stdatomic.h>
#include <sys/syscall.h>
#include <unistd.h>

enum { SIZE = 96 << 10, STACKS = 6, FOR_ALL = 2 };

/* What a look-up doesn't take is for handlers that interrupt it. */
struct stack {
    uint8_t bytes[SIZE];
} __attribute__((aligned(64)));

static struct stack stacks[STACKS];
static atomic_bool is_taken[STACKS];

struct dwcheck_dl_room dwcheck_dl_room(void) {
    const uint64_t here = (uintptr_t)__builtin_frame_address(0);
    stack_t alternate = {.ss_flags = SS_DISABLE};
    const int before = errno;
    syscall(SYS_sigaltstack, NULL, &alternate);
    errno = before;
    if (alternate.ss_flags & SS_ONSTACK) return (struct dwcheck_dl_room){here - (uintptr_t)alternate.ss_sp, true};
    return (struct dwcheck_dl_room){dwcheck_dl_own_below(here), false};
}

/* A handler on the alternate stack that came now would begin at the top of that stack, since the stack pointer isn't
   there: so signals wait, but for those that an instruction causes. Returns the mask from before. */
static uint64_t block_signals(void) {
    static const uint64_t caused =
        1 << (SIGSEGV - 1) | 1 << (SIGBUS - 1) | 1 << (SIGILL - 1) | 1 << (SIGFPE - 1) | 1 << (SIGTRAP - 1);
    const uint64_t blocked = ~caused;
    uint64_t before = 0;
    syscall(SYS_rt_sigprocmask, SIG_BLOCK, &blocked, &before, sizeof before);
    return before;
}

/* Most of them are for alternate stacks, which can't do without. */
static int claim(bool is_alternate) {
    for (int i = is_alternate ? STACKS : FOR_ALL; i > 0; i--)
        if (!atomic_exchange(&is_taken[i - 1], true)) return i - 1;
    return -1;
}

static void call_on(int stack, bool is_alternate, void (*f)(void *data), void *data) {
    const int before = errno;
    uint64_t mask = 0;
    if (is_alternate) mask = block_signals();
    dwcheck_dl_call_on(data, f, stacks[stack].bytes + SIZE);
    if (is_alternate) syscall(SYS_rt_sigprocmask, SIG_SETMASK, &mask, NULL, sizeof mask);
    errno = before;
}

bool dwcheck_dl_call(struct dwcheck_dl_room room, void (*f)(void *data), void *data) {
    if (room.bytes >= DWCHECK_DL_NEEDED || (room.bytes == 0 && dwcheck_dl_is_in_valgrind())) return f(data), true;
    const int stack = claim(room.is_alternate);
    if (stack < 0) return room.bytes == 0 ? f(data), true : false;
    call_on(stack, room.is_alternate, f, data);
    atomic_store(&is_taken[stack], false);
    return true;
}
