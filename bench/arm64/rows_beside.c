/* Compares the rows of a file for arm64 with those that readelf prints, as they come on standard input:
       aarch64-linux-gnu-readelf --wide --debug-dump=frames-interp FILE | rows_beside FILE
   Prints lines about a section that is refused, about its records that are left out then, and about the first rows that differ,
   and at the end `rows N differ N left-out N`: how many rows of readelf's were compared, how many of them differ, and how many
   are of records that are left out. The status is 3, and nothing is printed, if the file has no rows or no search table. */
#include "../../tests/arm64/rows.h"

#include <stdbool.h>

enum { SHOWN = 3, WITHOUT_TABLE = 3, RA = 30, SP = 31, VG = 46, VECTORS = 64, ADDRESS_DIGITS = 16, UNKNOWN = 0xffff };

/* A row of readelf's: what it says of the CFA and of the registers that have a rule. */
struct printed { uint64_t address; dwcheck_rule cfa, rules[DWCHECK_MAX_RULES]; uint32_t count; };

/* The FDE whose rows are read: its addresses end at `end`, and its columns are registers. There is none if `end` is 0. */
struct fde { uint64_t end; uint16_t columns[DWCHECK_MAX_RULES]; uint32_t count; bool is_left_out, has_row; };

struct comparison {
    dwcheck_process process;
    dwcheck_module module;
    dwcheck_header header;
    dwcheck_left_out *left_out;
    size_t left_out_count;
    struct fde fde;
    struct printed row;
    uint64_t rows, differ, rows_left_out;
};

/* ---- readelf's lines ---- */

/* The number of the register that begins a text, which then goes on at `rest`. */
static uint16_t register_of(const char *text, const char **rest) {
    const bool is_named = text[0] == 'r' && text[1] == 'a';
    *rest = text + 2;
    if (is_named) return RA;
    if (text[0] == 's' && text[1] == 'p') return SP;
    if (text[0] == 'v' && text[1] == 'g') return VG;
    char *end;
    const unsigned long number = strtoul(text + 1, &end, 10);
    *rest = end;
    if (end == text + 1 || !strchr("xrvdq", text[0])) return UNKNOWN;
    return (uint16_t)(number + (text[0] == 'x' || text[0] == 'r' ? 0 : VECTORS));
}

/* A register's rule. */
static dwcheck_rule rule_of(uint16_t number, const char *text) {
    dwcheck_rule rule = {.reg = number, .kind = UNKNOWN};
    const char *rest;
    if (!strcmp(text, "s")) rule.kind = DWCHECK_RULE_SAME_VALUE;
    else if (!strcmp(text, "exp")) rule.kind = DWCHECK_RULE_EXPRESSION;
    else if (!strcmp(text, "vexp")) rule.kind = DWCHECK_RULE_VAL_EXPRESSION;
    else if (text[0] == 'c' || (text[0] == 'v' && strchr("+-", text[1])))
        rule.kind = text[0] == 'c' ? DWCHECK_RULE_OFFSET : DWCHECK_RULE_VAL_OFFSET, rule.offset = strtoll(text + 1, NULL, 10);
    else rule.kind = DWCHECK_RULE_REGISTER, rule.source = register_of(text, &rest);
    return rule;
}

static dwcheck_rule cfa_of(const char *text) {
    const char *rest;
    const uint16_t number = register_of(text, &rest);
    if (number == UNKNOWN || !strchr("+-", *rest)) return (dwcheck_rule){.kind = DWCHECK_RULE_VAL_EXPRESSION};
    return (dwcheck_rule){.reg = number, .kind = DWCHECK_RULE_VAL_OFFSET, .offset = strtoll(rest, NULL, 10)};
}

/* The next word of a line, but for the other name that readelf gives a register: `r13 (x13)`. NULL at the end. */
static char *next_word(char **line) {
    char *word;
    do word = strtok_r(NULL, " \n", line);
    while (word && word[0] == '(');
    return word;
}

static void read_columns(struct fde *fde, char *line) {
    char *words;
    const char *rest;
    strtok_r(line, " \n", &words), next_word(&words);
    fde->count = 0;
    for (char *word; fde->count < DWCHECK_MAX_RULES && (word = next_word(&words)); fde->count++)
        fde->columns[fde->count] = register_of(word, &rest);
}

/* `u` isn't compared: the library has no rule then, or one that says so. */
static void read_row(const struct fde *fde, uint64_t address, char *line, struct printed *row) {
    char *words, *word;
    strtok_r(line, " \n", &words);
    word = next_word(&words);
    row->address = address, row->count = 0;
    row->cfa = cfa_of(word ? word : "");
    for (uint32_t column = 0; column < fde->count && (word = next_word(&words)); column++)
        if (strcmp(word, "u")) row->rules[row->count++] = rule_of(fde->columns[column], word);
}

/* ---- rows beside the library's ---- */

static bool is_same_rule(const dwcheck_rule *one, const dwcheck_rule *other) {
    if (one->kind != other->kind || one->reg != other->reg) return false;
    if (one->kind == DWCHECK_RULE_REGISTER) return one->source == other->source;
    return one->kind == DWCHECK_RULE_EXPRESSION || one->kind == DWCHECK_RULE_VAL_EXPRESSION || one->offset == other->offset;
}

static bool is_same_row(const struct printed *printed, const dwcheck_row *row, const dwcheck_rule *rules) {
    uint32_t count = 0;
    const bool has_expression = printed->cfa.kind == DWCHECK_RULE_VAL_EXPRESSION;
    if (has_expression ? row->cfa.kind != printed->cfa.kind : !is_same_rule(&printed->cfa, &row->cfa)) return false;
    for (uint32_t i = 0; i < row->count; i++) {
        if (rules[i].kind == DWCHECK_RULE_UNDEFINED) continue;
        if (count == printed->count || !is_same_rule(&printed->rules[count++], &rules[i])) return false;
    }
    return count == printed->count;
}

static void show(const char *whose, const struct printed *printed) {
    const dwcheck_row row = {.cfa = printed->cfa, .count = printed->count};
    printf("    %s: ", whose);
    print_row(printed->address, &row, printed->rules, 0);
}

/* Compares the row that was read last. Of a record that is left out, there must be none. */
static void compare(struct comparison *all) {
    static dwcheck_rule rules[DWCHECK_MAX_RULES];
    dwcheck_row row;
    uint32_t is_signed;
    if (!all->fde.has_row) return;
    all->fde.has_row = false;
    const uint64_t address = all->row.address;
    bool is_right;
    if (all->fde.is_left_out) is_right = dwcheck_row_at(&all->process, address, &row, rules, DWCHECK_MAX_RULES) == DWCHECK_NONE;
    else is_right = find_row(&all->process, &all->module, &all->header, address, &row, rules, &is_signed)
                    && is_same_row(&all->row, &row, rules);
    if (all->fde.is_left_out) all->rows_left_out++;
    else all->rows++;
    if (!is_right && all->differ++ < SHOWN) {
        show("readelf", &all->row);
        if (dwcheck_row_at(&all->process, address, &row, rules, DWCHECK_MAX_RULES) != DWCHECK_DONE) printf("    not: no row\n");
        else printf("    not: "), print_row(address, &row, rules, 0);
    }
}

static bool is_left_out(const struct comparison *all, uint64_t offset) {
    for (size_t i = 0; i < all->left_out_count; i++)
        if (all->left_out[i].offset == offset) return true;
    return false;
}

/* Takes a line of readelf's. Of several rows of an FDE that begin at one address, the last one counts. */
static void take(struct comparison *all, char *line, bool *is_inside) {
    char *end;
    const char *range = strstr(line, " FDE ") ? strstr(line, "..") : NULL;
    if (!strncmp(line, "Contents of the", sizeof "Contents of the" - 1)) {
        compare(all);
        *is_inside = strstr(line, " .eh_frame ") != NULL;
    } else if (range || strstr(line, " CIE ")) {
        compare(all);
        all->fde.end = range ? strtoull(range + 2, NULL, 16) : 0, all->fde.count = 0;
        all->fde.is_left_out = is_left_out(all, strtoull(line, NULL, 16));
    } else if (!strncmp(line, "   LOC ", sizeof "   LOC " - 1)) {
        read_columns(&all->fde, line);
    } else if (*is_inside) {
        const uint64_t address = strtoull(line, &end, 16);
        if (end != line + ADDRESS_DIGITS || address >= all->fde.end) return;
        if (all->fde.has_row && all->row.address != address) compare(all);
        read_row(&all->fde, address, line, &all->row);
        all->fde.has_row = true;
    }
}

/* ---- the file ---- */

static void print_fault(const dwcheck_fault *fault) {
    uint8_t name[32];
    size_t length = 0;
    dwcheck_fault_name(fault->number, name, sizeof name, &length);
    printf("%.*s at 0x%" PRIx32 "\n", (int)length, (const char *)name, fault->offset);
}

/* Adds the section without its bad records, and lists these. */
static bool add_without_bad_records(struct comparison *all) {
    dwcheck_fault fault;
    uint64_t id;
    all->module.kind |= DWCHECK_LEAVE_OUT;
    if (dwcheck_module_left_out(&all->module, NULL, 0, &all->left_out_count, &fault) != DWCHECK_DONE) return false;
    all->left_out = calloc(all->left_out_count, sizeof *all->left_out);
    if (!all->left_out) return false;
    dwcheck_module_left_out(&all->module, all->left_out, all->left_out_count, &all->left_out_count, &fault);
    for (size_t i = 0; i < all->left_out_count; i++) {
        printf("    left out: the record at 0x%" PRIx64 ": ", all->left_out[i].offset);
        print_fault(&all->left_out[i].fault);
    }
    return dwcheck_process_add(&all->process, &all->module, &id, &fault) == DWCHECK_DONE;
}

/* Adds the file's section. Returns false if the library doesn't take it, even without bad records. */
static bool add(struct comparison *all, const char *path) {
    dwcheck_fault fault;
    uint64_t id;
    const uint32_t status = dwcheck_process_add(&all->process, &all->module, &id, &fault);
    if (status == DWCHECK_DONE) return true;
    printf("%s: refused: ", path);
    if (status != DWCHECK_REFUSED) printf("%s\n", dwcheck_status_text(status));
    else print_fault(&fault);
    return status == DWCHECK_REFUSED && add_without_bad_records(all);
}

int main(int count, char **arguments) {
    if (count != 2) return 2;
    static struct comparison all;
    const struct file file = file_at(arguments[1]);
    const Elf64_Shdr *section = find_section(&file, ".eh_frame"), *table = find_section(&file, ".eh_frame_hdr");
    if (!section || !table) return WITHOUT_TABLE;
    all.module = module_of(&file, section), all.header = header_of(&file, table);
    if (!add(&all, arguments[1])) return 1;
    bool is_inside = false;
    char *line = NULL;
    size_t size = 0;
    while (getline(&line, &size, stdin) > 0) take(&all, line, &is_inside);
    compare(&all);
    printf("rows %" PRIu64 " differ %" PRIu64 " left-out %" PRIu64 "\n", all.rows, all.differ, all.rows_left_out);
    return 0;
}
