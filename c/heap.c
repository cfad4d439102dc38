/* The calls by which proved code gets memory: malloc, realloc and free. The kit has them for x86-64 alone, and these are
   for every processor. */
#include <stdint.h>
#include <stdlib.h>

/* Whether there is memory (1 or 0), and where. If there is none, `at` is the address of a byte of its own. */
struct answer {
    uint64_t is_there;
    void *at;
};

struct answer rattle_alloc(uint64_t size, uint64_t align);
struct answer rattle_realloc(void *at, uint64_t old_size, uint64_t size, uint64_t align);
void rattle_dealloc(void *at, uint64_t size, uint64_t align);

static unsigned char nowhere;

static struct answer answer_of(void *at) { return (struct answer){at != NULL, at != NULL ? at : &nowhere}; }

/* Gives `size` bytes, or for none of them `align`. What malloc gives is aligned to 16 bytes, and Rattle asks for no
   more. */
struct answer rattle_alloc(uint64_t size, uint64_t align) { return answer_of(malloc(size != 0 ? size : align)); }

/* Makes memory larger or smaller, and may move it. */
struct answer rattle_realloc(void *at, uint64_t old_size, uint64_t size, uint64_t align) {
    (void)old_size;
    return answer_of(realloc(at, size != 0 ? size : align));
}

/* Gives memory back. */
void rattle_dealloc(void *at, uint64_t size, uint64_t align) {
    (void)size, (void)align;
    free(at);
}
