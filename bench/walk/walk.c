/* The program that run.sh compiles. It makes frames of many kinds, and gdb stops it in `innermost`,
   the function of the innermost frame. Until it exits, it calls no function of a library, except
   atol if it has an argument. */
#include <alloca.h>
#include <stdlib.h>

#ifdef __clang__
#define APART __attribute__((noinline))
#else
#define APART __attribute__((noinline, noclone))
#endif

#ifdef BOTH_SECTIONS
__asm__(".cfi_sections .eh_frame, .debug_frame");
#endif

typedef int (*callback)(int);
volatile int sink;

APART void touch(volatile char *bytes, int at) { bytes[at] = (char)at; sink += bytes[at]; }

/* where the walks begin */
APART int innermost(int n)
{
    int sum = 0;
    for (int i = 0; i < n; i++)
        sum += sink + i;
    sink = sum;
    return sum + n;
}

/* a function that doesn't return: its caller's return address may be after its caller's end */
_Noreturn APART void finish(int n)
{
    sink = innermost(n) + innermost(n + 1);
    exit(0);
}

/* keeps values across its calls, so it saves callee-saved registers */
APART int busy(int a, int b, int c, int d, int e, int f)
{
    int g = innermost(a), h = innermost(b), i = innermost(c), j = innermost(d);
    return a + b * c - d + e * f + g * innermost(g & 3) + h - i * j + f;
}

/* realigns the stack, so the CFA's rule may be an expression */
APART int aligned(int n)
{
    _Alignas(64) volatile char bytes[64];
    volatile char *more = alloca(n + 16);
    touch(bytes, n);
    touch(more, n);
    return busy(1, 2, n, 3, bytes[n], 4) + more[n];
}

/* a frame whose size depends on the argument */
APART int chosen(int n)
{
    volatile char *bytes = alloca(100 * n + 16);
    touch(bytes, n);
    return aligned(n) + bytes[n];
}

/* a large frame */
APART int large(int n)
{
    volatile char bytes[9000];
    touch(bytes, 50 * n);
    return chosen(n) + bytes[50 * n];
}

/* calls `call` once for each value */
APART int each(const int *values, int count, callback call)
{
    int sum = 0;
    for (int i = 0; i < count; i++)
        sum += call(values[i]) + i;
    return sum;
}

APART int recursive(int n, callback call)
{
    const int values[2] = {n, n + 1};
    if (n == 0)
        return each(values, 2, call);
    return recursive(n - 1, call) + n;
}

APART void last(int n)
{
    sink = recursive(n, large);
    finish(n);
}

/* the argument, if there is one, says how often recursive() is called before last() is */
int main(int argc, char **argv)
{
    for (long i = argc > 1 ? atol(argv[1]) : 0; i > 0; i--)
        sink = recursive(5, large);
    last(5);
}
