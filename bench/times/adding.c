/* Times what it takes to check an .eh_frame section, and to add it with its table to a process. Its
   arguments are files with the bytes of such sections; they are taken to lie at an address of their own,
   so FDEs that are encoded relative to their places are where the file has them. Prints milliseconds, the
   least of 25 runs, in which both calls take turns.

     objcopy --dump-section .eh_frame=libc.eh_frame /lib/x86_64-linux-gnu/libc.so.6 /dev/null
     gcc -std=gnu11 -O2 -Wall -Wextra bench/times/adding.c $(pkg-config --cflags --libs dwcheck) -o adding && ./adding libc.eh_frame */
#include <dwcheck.h>
#include <stdint.h>
#include <stdio.h>
#include <stdlib.h>
#include <time.h>

enum { RUNS = 25 };

static double now(void) {
    struct timespec time;
    clock_gettime(CLOCK_THREAD_CPUTIME_ID, &time);
    return (double)time.tv_sec * 1e3 + (double)time.tv_nsec / 1e6;
}

static double check(const dwcheck_module *module, dwcheck_counts *counts) {
    dwcheck_fault fault;
    const double start = now();
    if (dwcheck_module_check(module, counts, &fault) != DWCHECK_DONE) exit(1);
    return now() - start;
}

static double add(const dwcheck_module *module) {
    dwcheck_process process = {0};
    dwcheck_fault fault;
    uint64_t id;
    const double start = now();
    if (dwcheck_process_add(&process, module, &id, &fault) != DWCHECK_DONE) exit(1);
    const double took = now() - start;
    dwcheck_process_close(&process);
    return took;
}

static void time_section(const char *name) {
    static uint8_t bytes[64 << 20];
    FILE *file = fopen(name, "rb");
    if (file == NULL) exit(1);
    const dwcheck_module module = {.frame = bytes, .frame_length = fread(bytes, 1, sizeof bytes, file), .address_size = 8,
                                   .kind = DWCHECK_EH_FRAME, .section_address = 1u << 30, .room = 1u << 30};
    dwcheck_counts counts;
    double checked = 1e9, added = 1e9;
    for (int i = 0; i < RUNS; i++) {
        const double one = check(&module, &counts), other = add(&module);
        if (one < checked) checked = one;
        if (other < added) added = other;
    }
    printf("%s: check %.2f ms, adding %.2f ms, %.2f times the check\n", name, checked, added, added / checked);
    fclose(file);
}

int main(int count, char **names) {
    for (int i = 1; i < count; i++) time_section(names[i]);
}
