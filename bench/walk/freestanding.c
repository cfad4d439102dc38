/* The program that targets.py compiles for each target. It needs no C library. It makes frames of
   several kinds, and is stopped in the function `innermost`. */
typedef int (*callback)(int);

#define APART __attribute__((noinline))

static volatile int sink;

APART int innermost(int n)
{
    int sum = 0;
    for (int i = 0; i < (n & 3); i++)
        sum += sink + i;
    sink = sum;
    return sum + n;
}

/* keeps values across its calls, so it saves callee-saved registers */
APART static int busy(int a, int b, int c, int d, callback call)
{
    int e = a * b, f = b * c, g = c * d, h = d * a;
    int i = call(a);
    return a + b + c + d + e + f + g + h + i;
}

/* a large frame */
APART static int large(int n)
{
    volatile char bytes[3000];
    for (int i = 0; i < 3000; i += 500)
        bytes[i] = (char)n;
    return busy(n, n + 1, n + 2, n + 3, innermost) + bytes[500];
}

APART static int deep(int n) { return n > 0 ? deep(n - 1) + n : large(sink + 3); }

APART int started(void) { return deep(4); }

void _start(void)
{
    for (;;)
        sink = started();
}
