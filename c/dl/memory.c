/* Which memory a walk may read. The bounds of a thread's own stack are learned by dwcheck_dl_thread, and stay valid
   as long as the thread runs. Of other stacks nothing is remembered from one walk to the next, since a program may
   unmap them: the kernel is asked for their pages. */
#define _GNU_SOURCE
#include "memory.h"
#include "dwcheck-dl.h"
#include "list.h"
#include "processor.h"

#include <errno.h>
#include <pthread.h>
#include <sys/syscall.h>
#include <sys/uio.h>
#include <unistd.h>

enum { PAGE = 4096, SAVED = 1024, WORD = 8, MORE_PAGES = 2, NEAR_PAGES = 16, MOST_PAGES = 2048, OVERFLOW_PAGES = 256 };

/* ---- pages */

bool dwcheck_dl_is_in_valgrind(void) {
    enum { RUNNING_ON_VALGRIND = 0x1001 };
    volatile uint64_t question[6] = {RUNNING_ON_VALGRIND};
    return dwcheck_dl_ask_valgrind(question) != 0;
}

enum answer { READABLE, UNREADABLE, REFUSED };

/* The answer for the first byte of a page, asked so that valgrind doesn't complain: it takes what the probe below reads
   for a mask, which must be initialized. */
static enum answer ask_for_byte(uint64_t page) {
    char byte;
    struct iovec here = {&byte, 1}, there = {(void *)(uintptr_t)(page * PAGE), 1};
    if (process_vm_readv(getpid(), &here, 1, &there, 1, 0) == 1) return READABLE;
    return errno == EFAULT ? UNREADABLE : REFUSED;
}

/* The kernel reads the new mask before it finds that it doesn't know the first argument. So nothing changes, and
   the error says whether it could read. */
static enum answer ask_for_mask(uint64_t page) {
    if (syscall(SYS_rt_sigprocmask, ~0, page * PAGE, NULL, 8) != -1) return REFUSED;
    return errno == EINVAL ? READABLE : errno == EFAULT ? UNREADABLE : REFUSED;
}

/* Whether the page with this number can be read. */
static enum answer ask(uint64_t page) {
    if (page == 0) return UNREADABLE; /* the address 0 would mean that no mask is given */
    const int before = errno;
    enum answer answer = dwcheck_dl_is_in_valgrind() ? ask_for_byte(page) : REFUSED;
    if (answer == REFUSED) answer = ask_for_mask(page);
    errno = before;
    return answer;
}

bool dwcheck_dl_is_readable(uint64_t address) { return ask(address / PAGE) == READABLE; }

bool dwcheck_dl_is_unreadable(uint64_t address) { return ask(address / PAGE) == UNREADABLE; }

/* Any bytes may be there, also data that another thread is writing. Sanitizers would report that, though the bytes are only
   compared. */
__attribute__((no_sanitize("address", "thread"))) static bool are_there(const volatile uint8_t *place, const uint8_t *bytes,
                                                                        size_t length) {
    size_t count = 0;
    while (count < length && place[count] == bytes[count]) count++;
    return count == length;
}

/* Where it begins a page, the call before it may have been the last instruction of the module. */
bool dwcheck_dl_is_code(uint64_t address, const void *code, size_t length) {
    const uint64_t last = address + length - 1;
    const bool is_first = address % PAGE == 0;
    if ((is_first || last / PAGE != address / PAGE) && !dwcheck_dl_is_readable(last)) return false;
    return are_there((const volatile uint8_t *)(uintptr_t)address, code, length);
}

/* How many pages from `page` on can be read, at most `most`. */
static uint64_t count_readable(uint64_t page, uint64_t most) {
    uint64_t count = 0;
    while (count < most && ask(page + count) == READABLE) count++;
    return count;
}

/* The memory from an address on, of at most `most` pages. */
static dwcheck_block block_at(uint64_t address, uint64_t most) {
    static const uint8_t nothing;
    uint64_t count = count_readable(address / PAGE, most);
    if (count == 0) return (dwcheck_block){address, &nothing, 0};
    return (dwcheck_block){address, (const uint8_t *)(uintptr_t)address, (address / PAGE + count) * PAGE - address};
}

dwcheck_block dwcheck_dl_stack(uint64_t address) { return block_at(address, MOST_PAGES); }

/* ---- the thread's own stack. The variable is in the memory that a thread gets when it is made: so a handler that
   reads it allocates nothing. */

struct range {
    uint64_t first, end;
};
static __thread struct range own __attribute__((tls_model("initial-exec")));

uint32_t dwcheck_dl_thread(void) {
    pthread_attr_t attributes;
    void *first;
    size_t size;
    if (pthread_getattr_np(pthread_self(), &attributes) != 0) return DWCHECK_NO_MEMORY;
    int status = pthread_attr_getstack(&attributes, &first, &size);
    pthread_attr_destroy(&attributes);
    uint64_t here = (uintptr_t)__builtin_frame_address(0), low = (uintptr_t)first;
    if (status != 0 || here - low >= size) return DWCHECK_NONE; /* the call was made on another stack */
    own.end = 0; /* a handler may come between these two */
    __asm__ volatile("" : : : "memory");
    own.first = low;
    __asm__ volatile("" : : : "memory");
    own.end = low + size;
    return dwcheck_dl_list();
}

static bool is_own(uint64_t address) { return address >= own.first && address < own.end; }

static dwcheck_block up_to(uint64_t first, uint64_t end) {
    return (dwcheck_block){first, (const uint8_t *)(uintptr_t)first, end - first};
}

dwcheck_block dwcheck_dl_own_stack(uint64_t pointer) {
    if (is_own(pointer)) return up_to(pointer, own.end);
    return up_to(pointer, ((pointer - 1) | (PAGE - 1)) + 1); /* below `pointer` is the return address of a call just made */
}

bool dwcheck_dl_is_own(const dwcheck_block *block) { return own.end != 0 && block->base + block->length == own.end; }

uint64_t dwcheck_dl_own_below(uint64_t address) { return is_own(address) ? address - own.first : 0; }

/* ---- blocks */

static bool has(const dwcheck_block *block, uint64_t address, uint64_t length) {
    return address - block->base < block->length && block->length - (address - block->base) >= length;
}

dwcheck_block dwcheck_dl_stack_at(uint64_t pointer, uint64_t below, uint64_t pages) {
    if (is_own(pointer)) return up_to(pointer - below >= own.first ? pointer - below : pointer, own.end);
    dwcheck_block block = block_at(pointer - below, pages);
    if (block.base + block.length <= pointer) block = block_at(pointer, pages);
    for (uint64_t page = pointer / PAGE + 1, i = 0; block.length == 0 && i < OVERFLOW_PAGES; i++)
        block = block_at((page + i) * PAGE, pages);
    return block;
}

/* Makes a block longer by the pages up to an address, and by as many again as it has. */
static void grow(dwcheck_block *block, uint64_t address) {
    uint64_t end = block->base + block->length, pages = (address - end) / PAGE + 1 + block->length / PAGE;
    if (end % PAGE == 0) block->length += count_readable(end / PAGE, pages < NEAR_PAGES ? pages : NEAR_PAGES) * PAGE;
}

bool dwcheck_dl_extend(dwcheck_block *block, uint64_t cfa) {
    const uint64_t last = cfa - WORD, end = block->base + block->length;
    if (has(block, last, WORD)) return false;
    if (last >= end - WORD && last - end + WORD < (uint64_t)NEAR_PAGES * PAGE && !is_own(last)) grow(block, last + WORD - 1);
    if (has(block, last, WORD)) return true;
    dwcheck_block other = dwcheck_dl_stack_at(last, SAVED, MORE_PAGES);
    if (!has(&other, last, WORD)) return false;
    *block = other;
    return true;
}

bool dwcheck_dl_has(dwcheck_block *block, uint64_t address, uint64_t length) {
    if (has(block, address, length)) return true;
    dwcheck_block other = dwcheck_dl_stack_at(address, 0, length / PAGE + MORE_PAGES);
    if (!has(&other, address, length)) return false;
    *block = other;
    return true;
}
