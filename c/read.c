/* dwcheck_cursor_step_with: finds out which memory a step needs, asks for it, and makes the step. It isn't
   proved, but it makes each step by the proved dwcheck_cursor_step, over the bytes that it has got. */
#include "dwcheck.h"

enum { WORD = 8, MOST_BLOCKS = 192, MOST_BYTES = 256 };

/* What has been read so far, as blocks of one word or less. */
struct memory {
    const dwcheck_reader *reader;
    const dwcheck_state *given;
    dwcheck_block blocks[MOST_BLOCKS];
    uint8_t words[MOST_BLOCKS][WORD];
    size_t count;
};

/* Asks for a word; where the memory ends before the word does, for a shorter one. */
static bool fetch(struct memory *memory, uint64_t address) {
    const dwcheck_reader *reader = memory->reader;
    if (memory->count == MOST_BLOCKS) return false;
    for (size_t i = 0; i < memory->count; i++)
        if (memory->blocks[i].base == address) return true;
    uint8_t *word = memory->words[memory->count];
    for (size_t length = WORD; length > 0; length /= 2)
        if (reader->read(reader->data, address, word, length)) {
            memory->blocks[memory->count++] = (dwcheck_block){address, word, length};
            return true;
        }
    return false;
}

/* The highest address, 2^w - 1. */
static uint64_t highest(const struct memory *memory) { return memory->reader->address_size == 4 ? UINT32_MAX : UINT64_MAX; }

/* The state for the proved calls. */
static dwcheck_state state_with(const struct memory *memory) {
    dwcheck_state state = *memory->given;
    state.blocks = memory->blocks;
    state.blocks_length = memory->count;
    return state;
}

/* Evaluates an expression, and asks for memory until it has a value or fails for another reason. An
   operation that can't read takes its address from the stack, so the value of the operations before it
   is that address. (If these have branches past their end, that is refused, and the memory isn't asked
   for.) Writes the value, and returns whether there is one. */
static bool evaluate(struct memory *memory, const uint8_t *bytes, size_t length, uint32_t kind, const dwcheck_context *context,
                     const dwcheck_cursor *cursor, uint64_t *value) {
    const dwcheck_reader *reader = memory->reader;
    uint8_t known[12] = {0};
    for (int i = 0; i < 96; i++) known[i / 8] |= (uint8_t)((cursor->known[i] != 0) << (i % 8));
    for (;;) {
        dwcheck_state state = state_with(memory);
        state.contents = cursor->contents, state.contents_length = 96;
        state.known = known, state.known_length = sizeof known;
        dwcheck_value result, address;
        dwcheck_fault fault;
        if (dwcheck_evaluate(bytes, length, reader->order, reader->address_size, kind, context, &state, 0, &result, NULL, 0, NULL,
                             0, &fault) != DWCHECK_DONE)
            return false;
        *value = result.value;
        if (result.kind != DWCHECK_OUTCOME_UNREADABLE) return result.kind == DWCHECK_OUTCOME_VALUE;
        size_t before = memory->count;
        if (dwcheck_evaluate(bytes, result.offset, reader->order, reader->address_size, kind, context, &state, 0, &address, NULL,
                             0, NULL, 0, &fault) != DWCHECK_DONE
            || address.kind != DWCHECK_OUTCOME_VALUE || !fetch(memory, address.value) || memory->count == before)
            return false;
    }
}

/* Asks for what the rule of a register, or of the CFA, reads. Writes the address that the rule gives. */
static bool fetch_for_rule(struct memory *memory, const dwcheck_process *process, uint64_t looked_up, uint32_t reg,
                           const dwcheck_rule *rule, const dwcheck_context *context, const dwcheck_cursor *cursor,
                           uint64_t *value) {
    uint8_t bytes[MOST_BYTES];
    size_t length = 0;
    uint32_t kind = reg == DWCHECK_CFA_RULE ? DWCHECK_EXPRESSION_CFA : DWCHECK_EXPRESSION_REGISTER;
    if (dwcheck_rule_bytes(process, looked_up, reg, bytes, sizeof bytes, &length) != DWCHECK_DONE || length > sizeof bytes)
        return false;
    if (!evaluate(memory, bytes, length, kind, context, cursor, value)) return false;
    return rule->kind != DWCHECK_RULE_EXPRESSION || fetch(memory, *value);
}

/* Asks for the memory that the row of an address reads. */
static void fetch_for_row(struct memory *memory, const dwcheck_process *process, uint64_t looked_up, const dwcheck_cursor *cursor) {
    dwcheck_row row;
    dwcheck_rule rules[DWCHECK_MAX_RULES];
    dwcheck_context context = {0};
    uint64_t unused;
    if (dwcheck_row_at(process, looked_up, &row, rules, DWCHECK_MAX_RULES) != DWCHECK_DONE) return;
    if (row.cfa.kind == DWCHECK_RULE_VAL_OFFSET) {
        if (row.cfa.reg >= 96 || !cursor->known[row.cfa.reg]) return;
        context.cfa = (cursor->contents[row.cfa.reg] + (uint64_t)row.cfa.offset) & highest(memory);
    } else if (!fetch_for_rule(memory, process, looked_up, DWCHECK_CFA_RULE, &row.cfa, &context, cursor, &context.cfa)) {
        return;
    }
    context.has_cfa = 1;
    for (uint32_t i = 0; i < row.count; i++) {
        if (rules[i].kind == DWCHECK_RULE_OFFSET) fetch(memory, (context.cfa + (uint64_t)rules[i].offset) & highest(memory));
        if (rules[i].kind == DWCHECK_RULE_EXPRESSION || rules[i].kind == DWCHECK_RULE_VAL_EXPRESSION)
            fetch_for_rule(memory, process, looked_up, rules[i].reg, &rules[i], &context, cursor, &unused);
    }
}

uint32_t dwcheck_cursor_step_with(const dwcheck_process *process, dwcheck_cursor *cursor, const dwcheck_state *state,
                                  const dwcheck_reader *reader, dwcheck_frame *frame) {
    struct memory memory;
    memory.reader = reader, memory.given = state, memory.count = 0;
    bool is_exact = cursor->stage == DWCHECK_CURSOR_EXACT;
    if (cursor->stage <= DWCHECK_CURSOR_CALLER && (is_exact || cursor->address > 0))
        fetch_for_row(&memory, process, cursor->address - !is_exact, cursor);
    dwcheck_state full = state_with(&memory);
    return dwcheck_cursor_step(process, cursor, &full, frame);
}
