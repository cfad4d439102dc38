/* The modules and the stacks of another process, of which only what is needed is read: no stack and no file
   is copied first. The tables are those that the loader has mapped, .eh_frame. */
#include "remote.h"
#include "state.h"

#include <elf.h>
#include <inttypes.h>
#include <stdio.h>
#include <stdlib.h>
#include <string.h>

enum { FRAMES = 256, SEGMENTS = 32, LONGEST = 1 << 28, PCREL_SDATA4 = 0x1b };

static bool read_at(const dwcheck_reader *reader, uint64_t address, void *into, size_t length) {
    return reader->read(reader->data, address, into, length);
}

/* The number of bytes of the records from `first` on, up to and with the record of length 0 that ends a
   section, or up to `end`. */
static uint64_t length_of_records(const dwcheck_reader *reader, uint64_t first, uint64_t end) {
    uint64_t at = first;
    for (uint32_t length; end - at >= 4 && read_at(reader, at, &length, 4); at += 4 + length) {
        if (length == 0) return at + 4 - first;
        if (length > end - at - 4) break;
    }
    return at - first;
}

/* Where the .eh_frame section of a module begins, by the header that the linker writes for it. 0 if that
   isn't known. */
static uint64_t section_start(const dwcheck_reader *reader, uint64_t load, const Elf64_Phdr *segments, int count) {
    uint8_t header[8];
    int32_t distance;
    for (int i = 0; i < count; i++) {
        uint64_t at = load + segments[i].p_vaddr;
        if (segments[i].p_type != PT_GNU_EH_FRAME || !read_at(reader, at, header, sizeof header)) continue;
        if (header[1] != PCREL_SDATA4) continue;
        memcpy(&distance, header + 4, 4);
        return at + 4 + (uint64_t)(int64_t)distance;
    }
    return 0;
}

void add_module(dwcheck_process *process, const dwcheck_reader *reader, uint64_t base) {
    Elf64_Ehdr header;
    Elf64_Phdr segments[SEGMENTS];
    if (!read_at(reader, base, &header, sizeof header) || memcmp(header.e_ident, ELFMAG, SELFMAG) != 0) return;
    if (header.e_phnum > SEGMENTS) return;
    if (!read_at(reader, base + header.e_phoff, segments, header.e_phnum * sizeof *segments)) return;
    uint64_t load = base, end = 0, first = UINT64_MAX, last = 0, id;
    for (int i = header.e_phnum - 1; i >= 0; i--) /* the first segment that is loaded has the header */
        if (segments[i].p_type == PT_LOAD) load = base - segments[i].p_vaddr + segments[i].p_offset;
    uint64_t at = section_start(reader, load, segments, header.e_phnum);
    for (int i = 0; at != 0 && i < header.e_phnum; i++) {
        uint64_t begin = load + segments[i].p_vaddr;
        if (segments[i].p_type != PT_LOAD || segments[i].p_filesz == 0) continue;
        if (at - begin < segments[i].p_filesz) end = begin + segments[i].p_filesz;
        if (!(segments[i].p_flags & PF_X)) continue;
        if (begin < first) first = begin;
        if (begin + segments[i].p_memsz - 1 > last) last = begin + segments[i].p_memsz - 1;
    }
    uint64_t length = end && first <= last ? length_of_records(reader, at, end) : 0;
    uint8_t *section = length > 0 && length < LONGEST ? malloc(length) : NULL;
    dwcheck_fault fault;
    if (section && read_at(reader, at, section, length)) {
        dwcheck_module module = {.frame = section, .frame_length = length, .kind = KIND,
                                 .section_address = at - load, .load_address = load, .first = first,
                                 .last = last, .has_range = 1, .room = SIZE_MAX, .address_size = 8};
        uint32_t status = dwcheck_process_add(process, &module, &id, &fault);
        if (status != DWCHECK_DONE)
            fprintf(stderr, "0x%" PRIx64 ": not added: %s\n", base, dwcheck_status_text(status));
    }
    free(section);
}

/* Copies registers in the order of DWARF's numbers. */
static void copy_general(const struct user_regs_struct *r, uint64_t registers[REGISTERS]) {
#if defined(__aarch64__)
    memcpy(registers, r->regs, sizeof r->regs);
    registers[PC - 1] = r->sp;
    registers[PC] = r->pc;
#else
    const uint64_t all[REGISTERS] = {r->rax, r->rdx, r->rcx, r->rbx, r->rsi, r->rdi, r->rbp, r->rsp, r->r8,
                                     r->r9,  r->r10, r->r11, r->r12, r->r13, r->r14, r->r15, r->rip};
    memcpy(registers, all, sizeof all);
#endif
}

void print_stack(const dwcheck_process *process, const dwcheck_reader *reader, const struct user_regs_struct *r,
                 uint64_t signed_bits) {
    uint64_t registers[REGISTERS];
    copy_general(r, registers);
    dwcheck_state state = state_of(registers, NULL);
    state.blocks_length = 0;
    state.signed_bits = signed_bits;
    dwcheck_cursor cursor;
    dwcheck_frame frame;
    dwcheck_fault fault;
    if (dwcheck_cursor_init(&cursor, registers[PC], &state, 1, &fault) != DWCHECK_DONE) return;
    for (int i = 0; i < FRAMES && dwcheck_cursor_step_with(process, &cursor, &state, reader, &frame) == DWCHECK_DONE; i++)
        if (frame.cfa.kind == DWCHECK_ANSWER_VALUE)
            printf("frame %d 0x%016" PRIx64 " cfa 0x%016" PRIx64 "\n", i, frame.address, frame.cfa.value);
        else printf("frame %d 0x%016" PRIx64 "\n", i, frame.address);
}
