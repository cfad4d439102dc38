/* Tests that walks of dwcheck-dl from contexts of any registers end: numbers at random, and addresses of the stack, of
   code, of data and of pages that can't be read, also signed ones and odd ones. Prints a line with counts. */
#define _GNU_SOURCE
#include "dl.h"

#include <sys/mman.h>
#include <ucontext.h>

enum { CONTEXTS = 20000, WORDS = 600, PAGE = 4096, KINDS = 9 };

static uint64_t state = 88172645463325252;
static uint64_t next_random(void) {
    state ^= state << 13;
    state ^= state >> 7;
    state ^= state << 17;
    return state;
}

static uint64_t stack[WORDS];
static uint8_t *unreadable;

/* Some number, often one that a walk takes for something. */
static uint64_t any_number(void) {
    const uint64_t random = next_random(), small = random >> 32 & 0xfff;
    switch (random % KINDS) {
    case 0: return random;
    case 1: return (uintptr_t)stack + small;
    case 2: return (uintptr_t)any_number + (small & 0xfc);
    case 3: return (uintptr_t)backtrace + (small & 0xffc);
    case 4: return (uintptr_t)unreadable + small;
    case 5: return small;
    case 6: return UINT64_MAX - small;
    case 7: return ((uintptr_t)any_number + (small & 0xfc)) | (random & UINT64_C(0x7f80000000000000)); /* as if it was signed */
    default: return (uintptr_t)stack + (small & 0xff0);
    }
}

static uint64_t address_in(const ucontext_t *context) {
#if defined(__x86_64__)
    return (uint64_t)context->uc_mcontext.gregs[REG_RIP];
#else
    return context->uc_mcontext.pc;
#endif
}

static void fill(ucontext_t *context) {
#if defined(__x86_64__)
    for (int i = 0; i < NGREG; i++) context->uc_mcontext.gregs[i] = (greg_t)any_number();
#else
    for (int i = 0; i < 31; i++) context->uc_mcontext.regs[i] = any_number();
    context->uc_mcontext.sp = any_number(), context->uc_mcontext.pc = any_number();
    context->uc_mcontext.fault_address = next_random() % 2 ? context->uc_mcontext.pc : any_number();
    for (size_t i = 0; i < 64; i++) context->uc_mcontext.__reserved[i] = (uint8_t)next_random();
#endif
    for (int i = 0; i < WORDS; i++) stack[i] = any_number();
}

int main(void) {
    static ucontext_t context;
    static uint8_t marks[FRAMES];
    void *addresses[FRAMES];
    long frames = 0;
    unreadable = mmap(NULL, PAGE, PROT_NONE, MAP_PRIVATE | MAP_ANONYMOUS, -1, 0);
    for (int i = 0; i < CONTEXTS; i++) {
        fill(&context);
        dwcheck_dl_request request = {.context = &context, .marks = marks, .options = i % 2 ? DWCHECK_DL_FRAME_POINTERS : 0};
        const int count = dwcheck_dl_walk(&request, addresses, FRAMES);
        IS(count >= 1 && count <= FRAMES, 1);
        IS((uintptr_t)addresses[0], address_in(&context));
        IS(request.stop <= DWCHECK_DL_STOP_STACK, 1);
        frames += count;
    }
    printf("%d contexts, %ld frames, %d wrong\n", CONTEXTS, frames, atomic_load(&wrong));
    deep(DEPTH, compare);
    return report();
}
