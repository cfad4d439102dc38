/* An example program: prints the stack of a running process's main thread. It stops the thread for as long
   as the walk takes, and reads of its memory only what the walk needs.
   usage: attach PID */
#define _GNU_SOURCE
#include "remote.h"

#include <elf.h>
#include <inttypes.h>
#include <stdio.h>
#include <stdlib.h>
#include <string.h>
#include <sys/ptrace.h>
#include <sys/uio.h>
#include <sys/wait.h>

/* Reads memory of the process whose number `data` points to. */
static bool read_memory(void *data, uint64_t address, uint8_t *bytes, size_t length) {
    struct iovec here = {bytes, length}, there = {(void *)(uintptr_t)address, length};
    return process_vm_readv(*(const pid_t *)data, &here, 1, &there, 1, 0) == (ssize_t)length;
}

/* Adds the modules of a process: each file's first mapping has its ELF header, and the code is in a later
   mapping of the same file. */
static void add_modules(dwcheck_process *process, const dwcheck_reader *reader, pid_t pid) {
    char path[64], line[4200], file[4200], base_file[4200] = "";
    snprintf(path, sizeof path, "/proc/%d/maps", (int)pid);
    FILE *maps = fopen(path, "r");
    uint64_t first, offset, base = 0;
    char flags[5];
    while (maps && fgets(line, sizeof line, maps)) {
        if (sscanf(line, "%" SCNx64 "-%*x %4s %" SCNx64 " %*s %*s %4199[^\n]", &first, flags, &offset, file) != 4) continue;
        if (offset == 0 && strcmp(file, base_file) != 0) base = first, strcpy(base_file, file);
        if (flags[2] != 'x' || base == 0 || strcmp(file, base_file) != 0) continue;
        add_module(process, reader, base);
        base = 0; /* once for each file */
    }
    if (maps) fclose(maps);
}

int main(int count, char **arguments) {
    pid_t pid = count == 2 ? (pid_t)atoi(arguments[1]) : 0;
    const dwcheck_reader reader = {read_memory, &pid, DWCHECK_LITTLE, 8};
    dwcheck_process process = DWCHECK_CLOSED;
    struct user_regs_struct registers;
    struct { uint64_t data, code; } masks = {0, 0}; /* of signatures */
    struct iovec general = {&registers, sizeof registers}, signatures = {&masks, sizeof masks};
    int status, result = 1;
    if (pid <= 0) return fprintf(stderr, "usage: attach PID\n"), 2;
    add_modules(&process, &reader, pid); /* it runs on meanwhile */
    if (ptrace(PTRACE_SEIZE, pid, 0, 0) != 0) return perror("attach"), 1;
    if (ptrace(PTRACE_INTERRUPT, pid, 0, 0) == 0 && waitpid(pid, &status, 0) == pid && WIFSTOPPED(status)) {
        ptrace(PTRACE_GETREGSET, pid, NT_ARM_PAC_MASK, &signatures); /* processors without signatures have no such set */
        if (ptrace(PTRACE_GETREGSET, pid, NT_PRSTATUS, &general) == 0)
            print_stack(&process, &reader, &registers, masks.code), result = 0;
        /* A signal that came first has stopped it, and is passed on. */
        long signal = status >> 16 == PTRACE_EVENT_STOP ? 0 : WSTOPSIG(status);
        ptrace(PTRACE_DETACH, pid, 0, signal);
    }
    dwcheck_process_close(&process);
    return result;
}
