/* The first test of readers.c, but all that the library has allocated for the process is in memory that
   can't be written, too. A write to it ends this program by a fault. */
#include <dlfcn.h>
#include <stddef.h>
#include <stdint.h>
#include <string.h>

static char *arena, *next, *end; /* where allocations are made while `in_arena` is set */
static int in_arena;

static void *take(size_t n) { /* 16 bytes before each block contain its length */
    char *p = next;
    n = (n + 31) / 16 * 16;
    if (next + n > end) return NULL;
    next += n;
    *(size_t *)p = n - 16;
    return p + 16;
}

static int is_in_arena(void *p) {
    return arena && (char *)p >= arena && (char *)p < end;
}

void *malloc(size_t n) {
    static void *(*real)(size_t);
    if (!real) *(void **)&real = dlsym(RTLD_NEXT, "malloc");
    return in_arena ? take(n) : real(n);
}

void free(void *p) {
    static void (*real)(void *);
    if (!real) *(void **)&real = dlsym(RTLD_NEXT, "free");
    if (!is_in_arena(p)) real(p);
}

void *realloc(void *p, size_t n) {
    static void *(*real)(void *, size_t);
    size_t before;
    void *grown;
    if (!real) *(void **)&real = dlsym(RTLD_NEXT, "realloc");
    if (!in_arena && !is_in_arena(p)) return real(p, n);
    before = p ? *(size_t *)((char *)p - 16) : 0;
    grown = take(n);
    if (grown && p) memcpy(grown, p, before < n ? before : n);
    return grown;
}

#define main readers_main
#include "readers.c"
#undef main

int main(void) {
    size_t room = (size_t)256 << 20;
    uint64_t id;
    dwcheck_process *p;
    make_section();
    next = arena = mmap(NULL, room, PROT_READ | PROT_WRITE, MAP_PRIVATE | MAP_ANONYMOUS | MAP_NORESERVE, -1, 0);
    if (arena == MAP_FAILED) return 1;
    end = arena + room;
    p = (dwcheck_process *)take(sizeof *p);
    *p = DWCHECK_CLOSED;
    in_arena = 1;
    if (add(p, size, load, cookie, &id) != DWCHECK_DONE) return 1;
    in_arena = 0;
    mprotect(arena, room, PROT_READ);
    all_read(p);
    return counts();
}
