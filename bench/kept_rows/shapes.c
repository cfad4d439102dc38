/* Calls functions of different shapes in random order, steps through every instruction of some of these calls, and
   walks the stack at each (own.h).
   usage: shapes CALLS STEPPED
   CALLS chains of calls are walked at their innermost function, and STEPPED others at each instruction. */
#define _GNU_SOURCE
#include "own.h"
#include <alloca.h>
#include <math.h>
#include <setjmp.h>
#include <signal.h>
#include <stdint.h>
#include <stdio.h>
#include <stdlib.h>
#include <string.h>
#include <time.h>
#include <unistd.h>

enum { DEPTH = 40 };
typedef uint64_t (*Function)(int depth);
static Function order[DEPTH];
static int is_stepped;
static void use(void *bytes) { __asm__ volatile("" : : "r"(bytes) : "memory"); }

/* Some of the C library, while each instruction is a stop. */
static uint64_t leaf(int n) { return (uint64_t)n * 7 + 1; }
static uint64_t bottom(void)
{
    if (!is_stepped) return own_compare(), leaf(3);
    char text[80];
    struct timespec now;
    snprintf(text, sizeof text, "%d %s", rand() % 100, "of these");
    clock_gettime(CLOCK_MONOTONIC, &now);
    free(malloc(strlen(text)));
    return leaf((int)strtol("17", NULL, 10)) + (uint64_t)getpid();
}

#define NEXT(depth) ((depth) ? order[depth]((depth) - 1) : bottom())

static uint64_t plain(int depth) { char bytes[24]; use(bytes); uint64_t sum = NEXT(depth); use(bytes); return sum + 1; }
static uint64_t large(int depth) { char bytes[40000]; use(bytes); uint64_t sum = NEXT(depth); use(bytes); return sum + 1; }

static uint64_t saves(int depth)
{
    uint64_t a = (uint64_t)depth * 3, b = (uint64_t)depth * 5, c = (uint64_t)depth ^ 9;
    __asm__ volatile("" : "+r"(a), "+r"(b), "+r"(c));
    uint64_t sum = NEXT(depth);
    __asm__ volatile("" : "+r"(a), "+r"(b), "+r"(c));
    return sum + a + b * c;
}

static uint64_t saves_all(int depth)
{
    uint64_t a = (uint64_t)depth, b = a + 1, c = a + 2, d = a + 3;
    __asm__ volatile("" : "+r"(a), "+r"(b), "+r"(c), "+r"(d));
    uint64_t sum = NEXT(depth);
    __asm__ volatile("" : "+r"(a), "+r"(b), "+r"(c), "+r"(d));
    return sum + a + b * c + d + (uint64_t)depth;
}

static uint64_t framed(int depth)
{
    use(__builtin_frame_address(0));
    uint64_t sum = NEXT(depth);
    use(__builtin_frame_address(0));
    return sum + 1;
}

static uint64_t grows(int depth)
{
    void *bytes = alloca(16 + (size_t)(depth & 7) * 16);
    use(bytes);
    uint64_t sum = NEXT(depth);
    use(bytes);
    return sum + 1;
}

static uint64_t realigns(int depth)
{
    uint64_t aligned[8] __attribute__((aligned(64)));
    use(aligned);
    uint64_t sum = NEXT(depth);
    use(aligned);
    return sum + 1;
}

static __attribute__((noinline)) uint64_t with_many(int depth, int a, int b, int c, int d, int e, int f, int g, int h)
{
    uint64_t aligned[8] __attribute__((aligned(64)));
    aligned[0] = (uint64_t)(f + g);
    use(aligned);
    use(alloca(16 + (size_t)(depth & 3) * 16));
    uint64_t sum = NEXT(depth);
    use(aligned);
    return sum + (uint64_t)(a + b + c + d + e + f + g + h);
}
static uint64_t realigns_with_many(int depth) { return with_many(depth, 1, 2, 3, 4, 5, 6, 7, depth) + 1; }

static int depth_left = -1;
static uint64_t sum_left;
static void go_on(void)
{
    int depth = depth_left;
    depth_left = -1;
    if (depth >= 0) sum_left = NEXT(depth);
}

static int compares(const void *a, const void *b) { (void)a, (void)b; go_on(); return 0; }
static uint64_t sorts(int depth)
{
    int two[2] = {0, 0};
    depth_left = depth;
    qsort(two, 2, sizeof *two, compares);
    return sum_left + 1;
}

static void handles(int number) { (void)number; go_on(); use(&sum_left); }
static uint64_t raises(int depth)
{
    depth_left = depth;
    raise(SIGUSR1);
    return sum_left + 1;
}

static uint64_t jumps(int depth)
{
    jmp_buf to;
    volatile uint64_t sum = 0;
    if (!setjmp(to)) {
        sum = NEXT(depth);
        longjmp(to, 1);
    }
    return sum + 1;
}

static uint64_t computes(int depth)
{
    volatile double x = depth + 0.5;
    uint64_t sum = NEXT(depth);
    return sum + (uint64_t)(exp(x / 100) + sqrt(x));
}

static uint64_t calls_last(int depth) { return NEXT(depth); } /* by a jump, if this is optimized */

static const Function shapes[] = {plain, large, saves, saves_all, framed, grows, realigns, realigns_with_many, sorts, raises, jumps, computes, calls_last};

static uint64_t try_one(int stepped)
{
    int depth = stepped ? 3 : 1 + rand() % (DEPTH - 1);
    for (int i = 0; i <= depth; i++) order[i] = shapes[rand() % (int)(sizeof shapes / sizeof *shapes)];
    is_stepped = stepped;
    if (stepped) own_begin();
    uint64_t sum = order[depth](depth - 1);
    if (stepped) own_end();
    return sum;
}

int main(int argc, char **argv)
{
    if (argc < 3) return 2;
    setvbuf(stdout, NULL, _IOLBF, 0);
    srand(11);
    struct sigaction action = {.sa_handler = handles, .sa_flags = SA_NODEFER};
    sigaction(SIGUSR1, &action, NULL);
    own_start();
    for (int i = 0; i < atoi(argv[1]); i++) try_one(0);
    for (int i = 0; i < atoi(argv[2]); i++) try_one(1);
    return own_report(argv[0]);
}
