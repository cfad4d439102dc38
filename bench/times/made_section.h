/* What modules.c and cache.c share: a section, random numbers and the time. A program that includes this
   defines FUNCTIONS, SIZE and START first. */
#include <dwcheck.h>
#include <stdint.h>
#include <string.h>
#include <time.h>

static uint8_t section[32 + 48 * FUNCTIONS];
static size_t length;

static void put(const void *bytes, size_t count) {
    memcpy(section + length, bytes, count);
    length += count;
}

/* A CIE, and an FDE for each function: its frame is 16 bytes from its second byte on, found by the
   stack pointer, and then by register 6. */
static void make_section(void) {
    static const uint8_t cie[] = {0x14, 0, 0, 0, 0xff, 0xff, 0xff, 0xff, 4, 0, 8, 0, 1, 0x78, 16, 0x0c, 7, 8, 0x90, 1, 0, 0, 0, 0};
    static const uint8_t program[] = {0x41, 0x0e, 16, 0x86, 2, 0x43, 0x0d, 6};
    put(cie, sizeof cie);
    for (uint64_t i = 0; i < FUNCTIONS; i++) {
        uint64_t begin = START + i * SIZE, size = SIZE;
        uint32_t head[2] = {4 + 8 + 8 + sizeof program, 0};
        put(head, sizeof head), put(&begin, 8), put(&size, 8), put(program, sizeof program);
    }
}

static uint64_t random_number(void) {
    static uint64_t x = 88172645463325252u;
    x ^= x << 13, x ^= x >> 7, x ^= x << 17;
    return x;
}

static double now(void) {
    struct timespec time;
    clock_gettime(CLOCK_MONOTONIC, &time);
    return (double)time.tv_sec * 1e9 + (double)time.tv_nsec;
}
