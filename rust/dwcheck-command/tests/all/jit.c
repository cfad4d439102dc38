/* Makes a function at run time, which uses rbp as a number, and lists it with its rows in the file jit-PID.dump, as
 * Linux' tools/perf/Documentation/jitdump-specification.txt and perf say. Then it runs the function. With an argument, it
 * lists no rows. */
#define _GNU_SOURCE
#include <fcntl.h>
#include <stdint.h>
#include <stdio.h>
#include <string.h>
#include <sys/mman.h>
#include <time.h>
#include <unistd.h>

static const unsigned char code[] = {
    0x55,                   /*  0: push %rbp */
    0x48, 0x83, 0xec, 0x20, /*  1: sub $32, %rsp */
    0x31, 0xed,             /*  5: xor %ebp, %ebp */
    0x48, 0xff, 0xc5,       /*  7: inc %rbp */
    0x48, 0x39, 0xfd,       /* 10: cmp %rdi, %rbp */
    0x75, 0xf8,             /* 13: jne 7 */
    0x48, 0x83, 0xc4, 0x20, /* 15: add $32, %rsp */
    0x5d,                   /* 19: pop %rbp */
    0xc3,                   /* 20: ret */
};

/* An .eh_frame section at the next multiple of 8 after the code, and its search table. */
static const unsigned char rows[] = {
    20, 0, 0, 0, 0, 0, 0, 0, 1, 'z', 'R', 0, 1, 0x78, 16, 1, 0x1b,
    0x0c, 7, 8, 0x90, 1, 0, 0,      /* cfa=rsp+8 ra=[c-8] */
    28, 0, 0, 0, 28, 0, 0, 0,
    0xc8, 0xff, 0xff, 0xff,         /* the code is 56 bytes before this field: 32 of the section, 24 of the code */
    21, 0, 0, 0, 0,
    0x41, 0x0e, 16, 0x86, 2,        /*  1: cfa=rsp+16 rbp=[c-16] */
    0x44, 0x0e, 48,                 /*  5: cfa=rsp+48 */
    0x4e, 0x0e, 16,                 /* 19: cfa=rsp+16 */
    0x41, 0x0e, 8, 0xc6,            /* 20: cfa=rsp+8, rbp as it was */
    0, 0, 0, 0,
    /* One row: the code is 84 bytes before the table, and its FDE 36. The section is 64 bytes before this field. */
    1, 0x1b, 0x03, 0x3b, 0xc0, 0xff, 0xff, 0xff, 1, 0, 0, 0, 0xac, 0xff, 0xff, 0xff, 0xdc, 0xff, 0xff, 0xff,
};

static void head(FILE *dump, uint32_t kind, uint32_t size) {
    struct timespec now;
    clock_gettime(CLOCK_MONOTONIC, &now);
    uint32_t words[2] = {kind, 16 + size};
    uint64_t time = now.tv_sec * 1000000000ull + now.tv_nsec;
    fwrite(words, sizeof words, 1, dump);
    fwrite(&time, sizeof time, 1, dump);
}

static void list(uint64_t address, int has_rows) {
    static const char name[] = "made";
    char path[64];
    snprintf(path, sizeof path, "jit-%d.dump", getpid());
    FILE *dump = fopen(path, "w+");
    uint32_t header[10] = {0x4a695444, 1, sizeof header, 62, 0, getpid()};
    fwrite(header, sizeof header, 1, dump);
    fflush(dump);
    mmap(0, 4096, PROT_READ | PROT_EXEC, MAP_PRIVATE, fileno(dump), 0);
    if (has_rows) {
        uint64_t sizes[3] = {sizeof rows, 20, 0};
        uint64_t padding = 0;
        head(dump, 4, sizeof sizes + sizeof rows + 8);
        fwrite(sizes, sizeof sizes, 1, dump);
        fwrite(rows, sizeof rows, 1, dump);
        fwrite(&padding, 8, 1, dump);
    }
    uint32_t task[2] = {getpid(), getpid()};
    uint64_t words[4] = {address, address, sizeof code, 1};
    head(dump, 0, sizeof task + sizeof words + sizeof name + sizeof code);
    fwrite(task, sizeof task, 1, dump);
    fwrite(words, sizeof words, 1, dump);
    fwrite(name, sizeof name, 1, dump);
    fwrite(code, sizeof code, 1, dump);
    fclose(dump);
}

__attribute__((noinline)) static void spin(void (*made)(long)) {
    made(300000000);
    __asm__ volatile("" : : : "memory");
}

int main(int argc, char **argv) {
    void *address = mmap(0, 4096, PROT_READ | PROT_WRITE | PROT_EXEC, MAP_PRIVATE | MAP_ANONYMOUS, -1, 0);
    memcpy(address, code, sizeof code);
    list((uint64_t)address, argc == 1);
    spin((void (*)(long))address);
    return argv[0] == 0;
}
