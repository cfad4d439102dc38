/* The library that modules.sh compiles. A call of through_library makes six frames of several
   kinds. The innermost, of `each`, calls back into the program. The functions don't call one
   another through the procedure linkage table, because its entries have no FDE in .debug_frame. */
#include "process.h"
#include <alloca.h>

static volatile int sink;

APART static void touch(volatile char *bytes, int at) { bytes[at] = (char)at; sink += bytes[at]; }

/* calls `call`, which is a function of the program, once for each value */
APART static int each(const int *values, int count, callback call)
{
    int sum = 0;
    for (int i = 0; i < count; i++)
        sum += call(values[i]) + i;
    return sum;
}

/* realigns the stack, so the CFA's rule may be an expression */
APART static int aligned(int n, callback call)
{
    _Alignas(64) volatile char bytes[64];
    const int values[2] = {n, n + 1};
    touch(bytes, n & 63);
    return each(values, 2, call) + bytes[n & 63];
}

/* a frame whose size depends on the argument */
APART static int chosen(int n, callback call)
{
    volatile char *bytes = alloca(100 * (n & 7) + 16);
    touch(bytes, n & 7);
    return aligned(n, call) + bytes[n & 7];
}

/* a large frame */
APART static int large(int n, callback call)
{
    volatile char bytes[9000];
    touch(bytes, 50 * (n & 7));
    return chosen(n, call) + bytes[50 * (n & 7)];
}

/* keeps values across its calls, so it saves callee-saved registers */
APART static int busy(int a, int b, int c, int d, callback call)
{
    int e = large(a, call), f = large(b, call);
    return a + b * c - d + e * f + large(a & b, call) - e + f;
}

int through_library(int n, callback call) { return busy(n, n + 1, n + 2, n + 3, call) + n; }
