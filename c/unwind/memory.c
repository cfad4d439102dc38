/* What may be read. The kernel is asked, page by page: of the thread's own stack once, since it stays as long as the
   thread, and of any other memory in each walk anew, since a program may unmap it. */
#include "../dl/memory.h"
#include "unwind.h"

#include <string.h>
#include <sys/syscall.h>
#include <unistd.h>

enum { PAGE = 4096, RED_ZONE = 128, SAVED = 256, FIRST_PAGES = 2, MORE_PAGES = 16, MOST_PAGES = 2048, OVERFLOW_PAGES = 256,
       OWN_PAGES = 1 << 16 };

/* The main thread's stack ends near this address, which the loader has noted. */
extern void *__libc_stack_end;

/* The part of the thread's own stack that is known to be readable. It is in memory that each thread has from its start,
   so that to use it allocates nothing. */
static __thread struct { uint64_t low, end; } own __attribute__((tls_model("initial-exec")));

static const uint8_t nothing;

static bool is_readable(uint64_t page) { return dwcheck_dl_is_readable(page * PAGE); }

/* How many pages from `page` on can be read, at most `most`. */
static uint64_t count_readable(uint64_t page, uint64_t most) {
    uint64_t count = 0;
    while (count < most && is_readable(page + count)) count++;
    return count;
}

bool dwcheck_unwind_can_read(uint64_t address, uint64_t length) {
    uint64_t last = address + (length ? length - 1 : 0);
    return last >= address && is_readable(address / PAGE) && (last / PAGE == address / PAGE || is_readable(last / PAGE));
}

bool dwcheck_unwind_read(uint64_t address, uint64_t *word) {
    if (!dwcheck_unwind_can_read(address, sizeof *word)) return false;
    memcpy(word, (const void *)address, sizeof *word);
    return true;
}

static bool read_own(void *data, uint64_t address, uint64_t *word) {
    (void)data;
    return dwcheck_unwind_read(address, word);
}

const struct word_reader dwcheck_unwind_own_memory = {read_own, NULL};

static dwcheck_block block_of(uint64_t low, uint64_t end) {
    if (low >= end) return (dwcheck_block){low, &nothing, 0};
    return (dwcheck_block){low, (const uint8_t *)low, end - low};
}

static uint64_t end_of(const dwcheck_block *block) { return block->base + block->length; }

static bool has(const dwcheck_block *block, uint64_t address) { return address - block->base < block->length; }

bool dwcheck_unwind_has(const struct memory *memory, uint64_t address, uint64_t length) {
    const dwcheck_block *block = &memory->blocks[0];
    return (has(block, address) && block->length - (address - block->base) >= length)
           || dwcheck_unwind_can_read(address, length);
}

/* Where the thread's own stack ends: at the thread's control block, which glibc puts on top of the stack; or for the main
   thread where the loader found the stack. */
static uint64_t own_end(void) {
    const bool is_main = syscall(SYS_gettid) == getpid();
    return ((is_main ? (uint64_t)__libc_stack_end : (uint64_t)__builtin_thread_pointer()) / PAGE + 1) * PAGE;
}

/* How many pages before `page` can be read, at most `most`. */
static uint64_t count_readable_below(uint64_t page, uint64_t most) {
    uint64_t count = 0;
    while (count < most && is_readable(page - 1 - count)) count++;
    return count;
}

/* Makes the known part of the own stack reach down to this stack pointer, if it is on that stack. Returns whether it does.
   From the end on all pages are readable: so what is known is no other stack, which guard pages part from this one. */
static bool learn_own(uint64_t stack_pointer) {
    if (own.end == 0) {
        const uint64_t end = own_end();
        own.low = end;
        __asm__ volatile("" ::: "memory"); /* a signal handler sees a low end that belongs to the end */
        own.end = end;
    }
    const uint64_t low = (stack_pointer - RED_ZONE) / PAGE, known = own.low / PAGE;
    if (low >= known || known - low > OWN_PAGES) return false;
    own.low = (known - count_readable_below(known, known - low)) * PAGE;
    return own.low / PAGE == low;
}

/* The memory of a frame with this stack pointer, with its red zone. After an overflow the stack pointer is in pages that
   can't be read, and the frame's caller is above them. */
static dwcheck_block probe(uint64_t stack_pointer) {
    uint64_t page = (stack_pointer - RED_ZONE) / PAGE, i = 0;
    while (i < OVERFLOW_PAGES && !is_readable(page + i)) i++;
    if (i == OVERFLOW_PAGES) return block_of(stack_pointer, stack_pointer);
    return block_of((page + i) * PAGE, (page + i + 1 + count_readable(page + i + 1, FIRST_PAGES - 1)) * PAGE);
}

void dwcheck_unwind_reach(struct memory *memory, uint64_t stack_pointer) {
    const bool is_own = stack_pointer - own.low < own.end - own.low;
    if (is_own || (!has(&memory->blocks[0], stack_pointer) && learn_own(stack_pointer)))
        memory->blocks[0] = block_of(own.low, own.end);
    else if (!has(&memory->blocks[0], stack_pointer))
        memory->blocks[0] = probe(stack_pointer);
    for (int i = 1; i < BLOCKS; i++)
        if (!memory->blocks[i].bytes) memory->blocks[i].bytes = &nothing;
}

/* Makes the first block longer, at most to the number of pages that a walk may read. */
static bool lengthen(dwcheck_block *block, uint64_t pages) {
    uint64_t end = end_of(block);
    if (end % PAGE != 0 || block->length / PAGE + pages > 2 * MOST_PAGES) return false;
    uint64_t count = count_readable(end / PAGE, pages);
    block->length += count * PAGE;
    return count != 0;
}

bool dwcheck_unwind_extend(struct memory *memory, uint64_t stack_pointer, uint64_t cfa) {
    dwcheck_block *block = &memory->blocks[0];
    uint64_t end = end_of(block), last = cfa - sizeof(uint64_t); /* where the return address usually is */
    if (cfa == 0) return has(block, stack_pointer) && lengthen(block, MORE_PAGES);
    for (int i = 0; i < BLOCKS; i++)
        if (has(&memory->blocks[i], last)) return false;
    const bool is_near = last >= end && (last - end) / PAGE < MOST_PAGES;
    if (is_near && lengthen(block, (last - end) / PAGE + 1) && has(block, last)) return true;
    memory->blocks[2] = memory->blocks[1];
    memory->blocks[1] = probe(last - SAVED);
    return has(&memory->blocks[1], last);
}
