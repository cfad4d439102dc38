/* The program of the kept core file and recording (tests/arm64/kept): without a C library, so that all of it is kept. With a
   word it works for a while, to be recorded; else it raises a signal, in whose handler it reads at a null pointer. */
#define EXIT 93
#define KILL 129
#define SIGACTION 134
#define GETPID 172
#define SIGUSR1 10

static long call(long number, long one, long two, long three, long four) {
    register long x8 __asm__("x8") = number, x0 __asm__("x0") = one, x1 __asm__("x1") = two;
    register long x2 __asm__("x2") = three, x3 __asm__("x3") = four;
    __asm__ volatile("svc #0" : "+r"(x0) : "r"(x8), "r"(x1), "r"(x2), "r"(x3) : "memory");
    return x0;
}

struct action { void (*handler)(int); unsigned long flags; void (*restorer)(void); unsigned long mask; };
struct point { int x; unsigned char name[4]; };

static int *volatile nowhere;

__attribute__((noinline)) static int reads(struct point point) {
    volatile int sum = point.x + point.name[0];
    return sum + *nowhere;
}

static void handles(int number) {
    volatile struct point point = {number, "abc"};
    point.x = reads(point) + point.x;
}

__attribute__((noinline)) static int raises(int depth) {
    volatile long square = depth * depth;
    if (depth < 3) return raises(depth + 1) + (int)square;
    const struct action action = {.handler = handles};
    call(SIGACTION, SIGUSR1, (long)&action, 0, sizeof action.mask);
    call(KILL, call(GETPID, 0, 0, 0, 0), SIGUSR1, 0, 0);
    return (int)square;
}

__attribute__((noinline)) static int works(int depth) {
    volatile int sum = depth;
    if (depth < 8) return works(depth + 1) + sum;
    for (unsigned long i = 0; i < 100000000; i++) sum += (int)i;
    return sum;
}

__attribute__((noinline, used)) static void main_of(long count) { call(EXIT, count > 1 ? works(0) & 1 : raises(1), 0, 0, 0); }

__asm__(".globl _start\n.type _start, %function\n_start: .cfi_startproc\n.cfi_undefined x30\nmov x29, #0\nldr x0, [sp]\nbl main_of\nudf #0\n"
        ".cfi_endproc\n.size _start, . - _start");
