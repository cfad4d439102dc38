/* Rows that walks keep on aarch64: those that proved look-ups find, in 40 bytes each, and walks by them. This isn't
   proved. */
#if defined(__aarch64__)
#include "processor.h"
#include "rows.h"

#include <string.h>

enum { FIRST = 19, FP = 29, LR = 30, SP = 31, WORD = 8 };

/* The entries of procedure linkage tables push this many bytes before they jump to the function of glibc that looks a symbol
   up for the first time, _dl_runtime_resolve. Its rows count from its own first instruction: the return address, which was
   pushed last, is a word above what they call the CFA. No other row that was seen has it there, in the frame of the caller. */
enum { PUSHED = 16 };

/* What a row leads to: the frame's caller, nothing, since it is the outermost frame, or a caller that needs a cursor. */
enum { TO_CALLER, TO_END, TO_OTHER };

/* ---- keeping rows */

/* The number of the set that may have the row of a key. */
static uint64_t set_of(uint64_t key) {
    static const uint64_t factor = 0x9e3779b97f4a7c15;
    return (key * factor >> 32) % DWCHECK_DL_ROW_SETS;
}

/* The row of a key, if one is kept for a module that is confirmed; else NULL. */
static const struct dwcheck_dl_row *find(const dwcheck_dl_rows *rows, uint64_t confirmed, uint64_t key) {
    const struct dwcheck_dl_row *row = rows->sets[set_of(key)];
    for (int way = 0; way < DWCHECK_DL_ROW_WAYS; way++, row++)
        if (row->key == key && key != 0 && confirmed >> row->slot & 1) return row;
    return NULL;
}

static bool fits(int64_t offset) { return offset != 0 && offset == (int16_t)offset; }

/* Takes the rule of a register into a row. Returns whether a row can say it. Other registers than those of a place
   don't matter to a walk. */
static bool take_rule(struct dwcheck_dl_row *row, const dwcheck_rule *rule) {
    if (rule->reg == SP) return rule->kind == DWCHECK_RULE_VAL_OFFSET && rule->offset == 0;
    if (rule->reg < FIRST || rule->reg > LR || rule->kind == DWCHECK_RULE_SAME_VALUE) return true;
    if (rule->reg == LR && rule->kind == DWCHECK_RULE_UNDEFINED) return row->kind = TO_END, true;
    if (rule->kind != DWCHECK_RULE_OFFSET || !fits(rule->offset)) return false;
    row->saved[rule->reg - FIRST] = (int16_t)rule->offset;
    return true;
}

static bool take_cfa(struct dwcheck_dl_row *row, const dwcheck_rule *cfa) {
    if (cfa->kind != DWCHECK_RULE_VAL_OFFSET || cfa->reg < FIRST || cfa->reg > SP) return false;
    row->cfa_register = (uint8_t)cfa->reg, row->cfa_offset = (int32_t)cfa->offset;
    return cfa->offset == row->cfa_offset;
}

static bool take_rules(struct dwcheck_dl_row *row, const dwcheck_rule *rules, uint32_t count) {
    for (uint32_t i = 0; i < count; i++)
        if (!take_rule(row, &rules[i])) return false;
    return true;
}

/* The other row of the set is the one that was kept before. */
static void put(dwcheck_dl_rows *rows, const struct dwcheck_dl_row *row) {
    struct dwcheck_dl_row *set = rows->sets[set_of(row->key)];
    if (set[0].key != row->key) set[1] = set[0];
    set[0] = *row;
}

uint32_t dwcheck_dl_rows_fill(dwcheck_dl_rows *rows, uint32_t slot, const dwcheck_module *module, const dwcheck_header *header,
                              uint64_t address, dwcheck_fault *fault) {
    dwcheck_rule rules[DWCHECK_MAX_RULES];
    dwcheck_row found;
    uint32_t is_signal_frame;
    const uint32_t status = dwcheck_row_in(module, header, address, &found, rules, DWCHECK_MAX_RULES, &is_signal_frame, fault);
    if (status != DWCHECK_DONE) return status;
    struct dwcheck_dl_row row = {.key = address + 1, .slot = (uint8_t)(slot % 64), .kind = TO_CALLER};
    const bool is_usual = !is_signal_frame && found.return_reg == LR && take_cfa(&row, &found.cfa) && take_rules(&row, rules, found.count);
    if (!is_usual) row.kind = TO_OTHER;
    put(rows, &row);
    return is_usual ? DWCHECK_DONE : DWCHECK_NO_PLACE;
}

void dwcheck_dl_rows_forget(dwcheck_dl_rows *rows, uint32_t slot) {
    struct dwcheck_dl_row *row = rows->sets[0];
    for (size_t i = 0; i < DWCHECK_DL_ROW_SETS * DWCHECK_DL_ROW_WAYS; i++, row++)
        if (row->slot == slot % 64) row->key = 0;
}

/* ---- walking by them */

/* The stack pointer of a frame's caller. */
static uint64_t stack_of_caller(const struct dwcheck_dl_row *row, uint64_t cfa) {
    return row->saved[LR - FIRST] == WORD ? cfa + PUSHED : cfa;
}

/* Reads the word that is saved at an address. Returns whether the stack has it. */
static bool read_word(const dwcheck_block *stack, uint64_t address, uint64_t *word) {
    const uint64_t at = address - stack->base;
    if (at >= stack->length || stack->length - at < WORD) return false;
    memcpy(word, stack->bytes + at, WORD);
    return true;
}

static uint64_t cfa_of(const struct dwcheck_dl_row *row, const dwcheck_dl_place *place) {
    const uint64_t base = row->cfa_register == SP ? place->stack_pointer : place->x19_to_x30[row->cfa_register - FIRST];
    return base + (uint64_t)(int64_t)row->cfa_offset;
}

/* Restores the registers that a row says are saved. Returns whether all could be read. */
static bool restore(const struct dwcheck_dl_row *row, const dwcheck_block *stack, uint64_t cfa, uint64_t registers[12]) {
    for (int i = 0; i <= LR - FIRST; i++)
        if (row->saved[i] != 0 && !read_word(stack, cfa + (uint64_t)(int64_t)row->saved[i], &registers[i])) return false;
    return true;
}

/* Whether x30 is known in the frame's caller: it is saved, or the frame has made no call, which would have changed it. */
static bool has_return_address(const struct dwcheck_dl_row *row, const dwcheck_dl_place *place) {
    return row->saved[LR - FIRST] != 0 || place->key != place->address;
}

/* Goes on to the caller of the frame at a place. Returns whether there is one that could be found. */
static bool go_to_caller(const struct dwcheck_dl_row *row, const dwcheck_block *stack, dwcheck_dl_place *place, uint64_t cfa) {
    dwcheck_dl_place caller = *place;
    if (!has_return_address(row, place) || !restore(row, stack, cfa, caller.x19_to_x30)) return false;
    dwcheck_dl_continue_at(&caller, dwcheck_dl_unsigned(caller.x19_to_x30[LR - FIRST]));
    caller.stack_pointer = stack_of_caller(row, cfa);
    *place = caller;
    return true;
}

/* Why a walk can't go on from a frame without writing it; LIMIT if it can. The CFA of a frame that has made a call may
   not be x30 plus an offset. */
static uint32_t reason_before(const struct dwcheck_dl_row *row, const dwcheck_dl_place *place) {
    if (row == NULL) return DWCHECK_STOP_MISSING;
    const bool needs_link = row->cfa_register == LR && place->key == place->address;
    return row->kind == TO_OTHER || needs_link ? DWCHECK_STOP_OTHER : DWCHECK_STOP_LIMIT;
}

void dwcheck_dl_rows_walk_frames(dwcheck_dl_rows *rows, uint64_t confirmed, dwcheck_dl_place *place, const dwcheck_block *stack,
                                 dwcheck_dl_frame *frames, size_t room, size_t *count, uint32_t *stop) {
    size_t found = 0;
    *stop = DWCHECK_STOP_LIMIT;
    while (found < room && *stop == DWCHECK_STOP_LIMIT) {
        const struct dwcheck_dl_row *row = find(rows, confirmed, place->key);
        *stop = reason_before(row, place);
        if (*stop != DWCHECK_STOP_LIMIT) break;
        const uint64_t cfa = cfa_of(row, place);
        frames[found++] = (dwcheck_dl_frame){*place, stack_of_caller(row, cfa)};
        if (row->kind == TO_END) *stop = DWCHECK_STOP_RETURN_UNDEFINED;
        else if (!go_to_caller(row, stack, place, cfa)) *stop = DWCHECK_STOP_RETURN_UNREADABLE;
    }
    *count = found;
}

uint64_t dwcheck_dl_end_of_saved(const dwcheck_dl_rows *rows, uint64_t confirmed, const dwcheck_dl_frame *frame) {
    const struct dwcheck_dl_row *row = find(rows, confirmed, frame->place.key);
    int highest = INT16_MIN;
    for (int i = 0; row != NULL && i <= LR - FIRST; i++)
        if (row->saved[i] != 0 && row->saved[i] > highest) highest = row->saved[i];
    return highest == INT16_MIN ? frame->cfa : cfa_of(row, &frame->place) + (uint64_t)(int64_t)highest + WORD;
}

static bool saves_above_cfa(const dwcheck_rule *rule) {
    return rule->reg == LR && rule->kind == DWCHECK_RULE_OFFSET && rule->offset == WORD;
}

/* The row is looked up only if the word above the CFA is the return address, which is rare. */
void dwcheck_dl_pass_pushed(const dwcheck_module *module, const dwcheck_header *header, uint64_t address,
                            const dwcheck_block *stack, dwcheck_cursor *cursor, dwcheck_frame *frame) {
    dwcheck_rule rules[DWCHECK_MAX_RULES];
    dwcheck_row row;
    dwcheck_fault fault;
    uint64_t word;
    uint32_t is_signal_frame;
    if (!read_word(stack, cursor->contents[SP] + WORD, &word) || dwcheck_dl_unsigned(word) != dwcheck_dl_unsigned(cursor->address)) return;
    if (dwcheck_row_in(module, header, address, &row, rules, DWCHECK_MAX_RULES, &is_signal_frame, &fault) != DWCHECK_DONE) return;
    for (uint32_t i = 0; i < row.count; i++)
        if (saves_above_cfa(&rules[i])) frame->cfa.value = cursor->contents[SP] += PUSHED;
}

/* ---- addresses alone */

/* Goes on to the caller of a frame, of which only the stack pointer and x29 are known. Returns why it can't; LIMIT if it
   could. */
static uint32_t pass_frame(const struct dwcheck_dl_row *row, const dwcheck_block *stack, dwcheck_place *place, uint64_t bits) {
    uint64_t base = place->stack_pointer, link;
    const int saved_link = row->saved[LR - FIRST], saved_frame = row->saved[FP - FIRST];
    if (row->cfa_register == FP) {
        if (place->is_saved && !read_word(stack, place->frame_pointer, &base)) return DWCHECK_STOP_OTHER;
        if (!place->is_saved) base = place->frame_pointer;
    }
    const uint64_t cfa = base + (uint64_t)(int64_t)row->cfa_offset;
    if (!read_word(stack, cfa + (uint64_t)(int64_t)saved_link, &link)) return DWCHECK_STOP_OTHER;
    if (saved_frame != 0) place->frame_pointer = cfa + (uint64_t)(int64_t)saved_frame, place->is_saved = 1;
    place->address = place->key = link & ~bits;
    place->stack_pointer = stack_of_caller(row, cfa);
    return DWCHECK_STOP_LIMIT;
}

/* Why a walk of addresses can't go on from a frame without writing it. */
static uint32_t reason_before_address(const struct dwcheck_dl_row *row, const dwcheck_place *place) {
    if (row == NULL) return DWCHECK_STOP_MISSING;
    if (row->kind == TO_END) return DWCHECK_STOP_RETURN_UNDEFINED;
    const bool is_known = row->cfa_register == SP || row->cfa_register == FP;
    return row->kind == TO_CALLER && is_known && row->saved[LR - FIRST] != 0 && place->key == place->address ? DWCHECK_STOP_LIMIT
                                                                                                              : DWCHECK_STOP_OTHER;
}

void dwcheck_dl_rows_walk(dwcheck_dl_rows *rows, uint64_t confirmed, dwcheck_place *place, const dwcheck_block *stack,
                          uint64_t *addresses, size_t room, size_t *count, uint32_t *stop) {
    const uint64_t bits = ~dwcheck_dl_unsigned(UINT64_MAX);
    size_t found = 0;
    *stop = DWCHECK_STOP_LIMIT;
    while (found < room) {
        const struct dwcheck_dl_row *row = find(rows, confirmed, place->key);
        const uint64_t address = place->address;
        *stop = reason_before_address(row, place);
        if (*stop == DWCHECK_STOP_RETURN_UNDEFINED) addresses[found++] = address;
        if (*stop == DWCHECK_STOP_LIMIT) *stop = pass_frame(row, stack, place, bits);
        if (*stop != DWCHECK_STOP_LIMIT) break;
        addresses[found++] = address;
    }
    *count = found;
}

#endif
