/* A function whose two epilogues clang 14 moves (docs/findings/moved-epilogue.md). bench/elf/trace_kinds.py compiles it, too. */
#include <stdlib.h>
struct S { long a, b; void *p; char inl[64]; int n; void **q; };
__attribute__((noinline)) void dealloc(void *p, long s, long a) { __asm__ volatile("" :: "r"(p), "r"(s), "r"(a) : "memory"); }
__attribute__((noinline)) void f(struct S *s) {
    void **q = s->q; int n = s->n;
    for (long i = 0; i < n; i++) dealloc(q[i], 7, 16);
    for (long i = 0; i < n; i++) dealloc(q[i], 4096, 16);
    if (s->p != s->inl) free(s->p);
}
int main(void) {
    struct S s = { .n = 2 }; void *v[2] = { &s, &s };
    s.q = v; s.p = s.inl; f(&s); s.p = malloc(10); f(&s); return 0;
}
