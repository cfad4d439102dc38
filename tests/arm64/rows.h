/* For comparisons with readelf's rows: the section of a library for arm64 as a module, its rows by both kinds of look-up,
   and rows as text. */
#include "../../c/tests/elf_file.h"
#include "dwcheck.h"

#include <inttypes.h>
#include <stdio.h>

static void print_rule(const dwcheck_rule *rule) {
    switch (rule->kind) {
    case DWCHECK_RULE_UNDEFINED: printf(" %u:u", rule->reg); break;
    case DWCHECK_RULE_SAME_VALUE: printf(" %u:s", rule->reg); break;
    case DWCHECK_RULE_OFFSET: printf(" %u:c%+" PRId64, rule->reg, rule->offset); break;
    case DWCHECK_RULE_VAL_OFFSET: printf(" %u:v%+" PRId64, rule->reg, rule->offset); break;
    case DWCHECK_RULE_REGISTER: printf(" %u:r%u", rule->reg, rule->source); break;
    case DWCHECK_RULE_EXPRESSION: printf(" %u:exp", rule->reg); break;
    default: printf(" %u:vexp", rule->reg);
    }
}

static void print_row(uint64_t address, const dwcheck_row *row, const dwcheck_rule *rules, uint32_t is_signed) {
    printf("%" PRIx64 " ", address);
    if (row->cfa.kind == DWCHECK_RULE_VAL_OFFSET) printf("%u%+" PRId64, row->cfa.reg, row->cfa.offset);
    else printf("exp");
    for (uint32_t i = 0; i < row->count; i++) print_rule(&rules[i]);
    printf("%s\n", is_signed ? " signed" : "");
}

/* A section as a module. */
static dwcheck_module module_of(const struct file *file, const Elf64_Shdr *section) {
    return (dwcheck_module){.frame = file->bytes + section->sh_offset, .frame_length = section->sh_size, .room = SIZE_MAX,
                            .order = DWCHECK_LITTLE, .address_size = 8, .section_address = section->sh_addr,
                            .kind = DWCHECK_EH_FRAME_AARCH64};
}

static dwcheck_header header_of(const struct file *file, const Elf64_Shdr *section) {
    return (dwcheck_header){file->bytes + section->sh_offset, section->sh_size, section->sh_addr};
}

/* Whether a look-up in place gives the row that the process has. */
static int is_in_place(const dwcheck_module *module, const dwcheck_header *header, uint64_t address, const dwcheck_row *row,
                       const dwcheck_rule *rules, uint32_t is_signed) {
    static dwcheck_rule others[DWCHECK_MAX_RULES];
    dwcheck_row other;
    dwcheck_fault fault;
    uint32_t is_signal_frame, is_signed_in;
    if (dwcheck_is_signed_in(module, header, address, &is_signed_in, &fault) != DWCHECK_DONE || is_signed_in != is_signed) return 0;
    if (dwcheck_row_in(module, header, address, &other, others, DWCHECK_MAX_RULES, &is_signal_frame, &fault) != DWCHECK_DONE) return 0;
    return other.start == row->start && other.count == row->count && other.cfa.reg == row->cfa.reg
           && other.cfa.offset == row->cfa.offset && memcmp(rules, others, row->count * sizeof *rules) == 0;
}

/* Finds the row of an address and whether its return address is signed. If a module is given, a look-up in place has to find
   the same. */
static int find_row(const dwcheck_process *process, const dwcheck_module *module, const dwcheck_header *header, uint64_t address,
                    dwcheck_row *row, dwcheck_rule rules[DWCHECK_MAX_RULES], uint32_t *is_signed) {
    dwcheck_is_signed(process, address, is_signed);
    if (dwcheck_row_at(process, address, row, rules, DWCHECK_MAX_RULES) != DWCHECK_DONE) return 0;
    return !module || is_in_place(module, header, address, row, rules, *is_signed);
}
