/* An example program that looks up a row of its own in place: no process is made, nothing is added to one, and
   nothing is allocated. It prints the row, the CFA that the row gives, and the one that the compiler knows. */
#define _GNU_SOURCE
#include "state.h"

#include <inttypes.h>
#include <link.h>
#include <stdio.h>
#include <stdlib.h>
#include <string.h>

/* An address of this process, and what is found for it. */
struct look_up {
    uint64_t address;
    uint32_t status, is_signal_frame;
    dwcheck_row row;
    dwcheck_rule rules[DWCHECK_MAX_RULES];
    dwcheck_fault fault;
};

/* The end of the segment that has an address; 0 if the module has none. */
static uintptr_t end_of_segment(const struct dl_phdr_info *info, uintptr_t address) {
    for (int i = 0; i < info->dlpi_phnum; i++) {
        uintptr_t first = info->dlpi_addr + info->dlpi_phdr[i].p_vaddr;
        if (info->dlpi_phdr[i].p_type == PT_LOAD && address >= first && address - first < info->dlpi_phdr[i].p_memsz)
            return first + info->dlpi_phdr[i].p_memsz;
    }
    return 0;
}

static int look_up_in(struct dl_phdr_info *info, size_t size, void *data) {
    struct look_up *l = data;
    (void)size;
    if (end_of_segment(info, l->address) == 0) return 0; /* it is another module's */
    for (int i = 0; i < info->dlpi_phnum; i++) {
        if (info->dlpi_phdr[i].p_type != PT_GNU_EH_FRAME) continue;
        /* At 4 the header says how far .eh_frame is from there. The section ends before its segment does. */
        uintptr_t header = info->dlpi_addr + info->dlpi_phdr[i].p_vaddr;
        int32_t distance;
        memcpy(&distance, (const void *)(header + 4), sizeof distance);
        uintptr_t first = header + 4 + (uintptr_t)(intptr_t)distance;
        dwcheck_header table = {(const void *)header, info->dlpi_phdr[i].p_memsz, header};
        dwcheck_module module = {.frame = (const void *)first, .frame_length = end_of_segment(info, first) - first,
                                 .kind = KIND, .section_address = first, .order = DWCHECK_LITTLE, .address_size = 8};
        l->status = dwcheck_row_in(&module, &table, l->address, &l->row, l->rules, DWCHECK_MAX_RULES, &l->is_signal_frame, &l->fault);
    }
    return 1;
}

__attribute__((noinline)) static void print_row(void) {
    static struct look_up l = {.status = DWCHECK_NONE};
    ucontext_t context;
    uint64_t registers[REGISTERS];
    if (getcontext(&context) != 0) abort();
    copy_registers(&context, registers);
    l.address = registers[PC];
    dl_iterate_phdr(look_up_in, &l);
    if (l.status != DWCHECK_DONE || l.row.cfa.kind != DWCHECK_RULE_VAL_OFFSET) abort();
    printf("row 0x%" PRIx64 "..0x%" PRIx64 " of 0x%" PRIx64 ": %u registers are saved\n", l.row.start, l.row.end, l.address, l.row.count);
    printf("cfa 0x%" PRIx64 " by the row\ncfa 0x%" PRIx64 " by the compiler\n", registers[l.row.cfa.reg] + (uint64_t)l.row.cfa.offset,
           (uint64_t)__builtin_dwarf_cfa());
}

int main(void) {
    print_row();
    return 0;
}
