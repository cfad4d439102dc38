/* The program that modules.sh compiles. gdb stops it in `innermost`. Then the stack has six frames
   of this program (from `main` to `first`), six of the library, and six more of this program (from
   `called` to `innermost`). */
#include "process.h"
#include <alloca.h>

static volatile int sink;

APART static void touch(volatile char *bytes, int at) { bytes[at] = (char)at; sink += bytes[at]; }

/* where the walks begin */
APART int innermost(int n)
{
    int sum = 0;
    for (int i = 0; i < (n & 3); i++)
        sum += sink + i;
    sink = sum;
    return sum + n;
}

/* keeps values across its calls, so it saves callee-saved registers */
APART static int busy(int a, int b, int c, int d)
{
    int e = innermost(a), f = innermost(b), g = innermost(c), h = innermost(d);
    return a + b * c - d + e * f + g * innermost(g & 3) + h;
}

APART static int aligned(int n)
{
    _Alignas(64) volatile char bytes[64];
    touch(bytes, n & 63);
    return busy(1, 2, n, 3) + bytes[n & 63];
}

APART static int chosen(int n)
{
    volatile char *bytes = alloca(100 * (n & 7) + 16);
    touch(bytes, n & 7);
    return aligned(n) + bytes[n & 7];
}

APART static int large(int n)
{
    volatile char bytes[1500];
    touch(bytes, 50 * (n & 7));
    return chosen(n) + bytes[50 * (n & 7)];
}

/* the function that the library calls: the sixth frame from the innermost */
APART static int called(int n) { return large(n) + n; }

APART static int first(int n) { return through_library(n, called) + n; }
APART static int second(int n) { return first(n + 1) + n; }
APART static int third(int n) { return second(n + 1) + n; }
APART static int fourth(int n) { return third(n + 1) + n; }
APART static int fifth(int n) { return fourth(n + 1) + n; }

int main(void)
{
    sink = fifth(2);
    return 0;
}
