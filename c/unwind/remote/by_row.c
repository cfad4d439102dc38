/* Steps by an FDE and its CIE. A row that can be kept is kept, and the step is taken by it. Of any other row, the step asks for
   what the row says, and the proved step is taken with that. Where other registers are saved is noted, and asked for when
   somebody wants to know. */
#include "../../dl/processor.h"
#include "remote.h"

#include <string.h>

/* The registers and the memory that are known by now. */
enum { KNOWN = (REGISTERS + 7) / 8 };
struct known { uint8_t bits[KNOWN]; dwcheck_block blocks[MOST_WORDS]; dwcheck_state state; };

static void collect(const struct row_step *step, struct known *known) {
    const struct frame *frame = &step->walk->frame;
    for (int i = 0; i < KNOWN; i++) known->bits[i] = (uint8_t)(frame->known >> 8 * i);
    known->state = dwcheck_dl_state_of(known->blocks);
    known->state.contents = frame->values, known->state.contents_length = REGISTERS;
    known->state.known = known->bits, known->state.known_length = KNOWN;
    known->state.blocks_length = dwcheck_remote_blocks(step->words, known->blocks);
}

/* ---- expressions ---- */

enum { BREG0 = 0x70, BREG31 = 0x8f, LONGEST = 16 /* of a longer one dwcheck_evaluate may allocate memory */ };

struct expression { const uint8_t *bytes; size_t length; uint32_t kind; };

static uint32_t evaluate_with(const struct row_step *step, const struct expression *expression, size_t length, dwcheck_value *value) {
    const dwcheck_context context = {.cfa = step->cfa, .has_cfa = expression->kind == DWCHECK_EXPRESSION_REGISTER};
    struct known known;
    dwcheck_fault fault;
    collect(step, &known);
    return dwcheck_evaluate(expression->bytes, length, DWCHECK_LITTLE, 8, expression->kind, &context, &known.state, 0, value, NULL,
                            0, NULL, 0, &fault);
}

/* Asks for what the operation at which an expression has stopped needs: a register, or the word whose address the operations
   before it leave. Returns whether more is known now. */
static bool provide(const struct row_step *step, const struct expression *expression, uint32_t offset) {
    const uint8_t operation = expression->bytes[offset];
    const unsigned count = step->words->count;
    const uint64_t before = step->walk->frame.known;
    dwcheck_value address;
    uint64_t word;
    if (operation >= BREG0 && operation <= BREG31)
        return operation - BREG0 < REGISTERS && dwcheck_remote_fetch(step->walk, step->words, operation - BREG0)
               && step->walk->frame.known != before;
    return evaluate_with(step, expression, offset, &address) == DWCHECK_DONE && address.kind == DWCHECK_OUTCOME_VALUE
           && dwcheck_remote_ask(step->words, address.value, &word) && step->words->count != count;
}

/* The value of a rule's expression; or false if it has none. */
static bool evaluate(const struct row_step *step, const dwcheck_rule *rule, uint32_t kind, uint64_t *result) {
    const struct expression expression = {step->module.frame + rule->offset, rule->length, kind};
    dwcheck_value value;
    if (rule->length > LONGEST || (uint64_t)rule->offset + rule->length > step->module.frame_length) return false;
    do {
        if (evaluate_with(step, &expression, expression.length, &value) != DWCHECK_DONE) return false;
    } while (value.kind == DWCHECK_OUTCOME_UNREADABLE && value.offset < expression.length && provide(step, &expression, value.offset));
    *result = value.value;
    return value.kind == DWCHECK_OUTCOME_VALUE;
}

/* ---- what is asked for ---- */

static bool find_cfa(struct row_step *step) {
    const dwcheck_rule *cfa = &step->row.cfa;
    if (cfa->kind == DWCHECK_RULE_VAL_EXPRESSION) return evaluate(step, cfa, DWCHECK_EXPRESSION_CFA, &step->cfa);
    if (cfa->reg >= REGISTERS || !dwcheck_remote_fetch(step->walk, step->words, cfa->reg)) return false;
    step->cfa = step->walk->frame.values[cfa->reg] + (uint64_t)cfa->offset;
    return true;
}

/* Asks for what a rule reads. */
static bool provide_for(const struct row_step *step, const dwcheck_rule *rule) {
    uint64_t value;
    switch (rule->kind) {
    case DWCHECK_RULE_OFFSET: return dwcheck_remote_ask(step->words, step->cfa + (uint64_t)rule->offset, &value);
    case DWCHECK_RULE_REGISTER: return rule->source < REGISTERS && dwcheck_remote_fetch(step->walk, step->words, rule->source);
    case DWCHECK_RULE_SAME_VALUE: return rule->reg < REGISTERS && dwcheck_remote_fetch(step->walk, step->words, rule->reg);
    case DWCHECK_RULE_VAL_EXPRESSION: return evaluate(step, rule, DWCHECK_EXPRESSION_REGISTER, &value);
    case DWCHECK_RULE_EXPRESSION:
        return evaluate(step, rule, DWCHECK_EXPRESSION_REGISTER, &value) && dwcheck_remote_ask(step->words, value, &value);
    default: return true;
    }
}

/* The rule of a register; NULL if the row has none. */
static const dwcheck_rule *rule_of(const struct row_step *step, uint32_t number) {
    for (uint32_t i = 0; i < step->row.count && i < DWCHECK_MAX_RULES; i++)
        if (step->rules[i].reg == number) return &step->rules[i];
    return NULL;
}

/* ---- the caller ---- */

static struct place place_by(const struct row_step *step, const dwcheck_rule *rule, const struct place before[REGISTERS]) {
    uint64_t address;
    switch (rule->kind) {
    case DWCHECK_RULE_SAME_VALUE: return rule->reg < REGISTERS ? before[rule->reg] : (struct place){0, PLACE_NONE};
    case DWCHECK_RULE_OFFSET: return (struct place){step->cfa + (uint64_t)rule->offset, PLACE_MEMORY};
    case DWCHECK_RULE_REGISTER: return rule->source < REGISTERS ? before[rule->source] : (struct place){0, PLACE_NONE};
    case DWCHECK_RULE_EXPRESSION:
        if (evaluate(step, rule, DWCHECK_EXPRESSION_REGISTER, &address)) return (struct place){address, PLACE_MEMORY};
        return (struct place){0, PLACE_NONE};
    default: return (struct place){0, PLACE_NONE};
    }
}

/* Where the return address is. On aarch64 it may have no rule, since it is in x30. */
static struct place place_of_return(const struct row_step *step, const struct place before[REGISTERS]) {
    const uint32_t number = step->row.return_reg;
    const dwcheck_rule *returns = rule_of(step, number);
    if (returns) return place_by(step, returns, before);
    return number < REGISTERS && number != IP ? before[number] : (struct place){0, PLACE_NONE};
}

/* Makes the places those of the caller's registers. Returns the registers whose value may be another one now. A register
   without a rule stays where it was, as in libunwind. */
static uint64_t move_places(const struct row_step *step) {
    struct place before[REGISTERS], *places = step->walk->places;
    uint64_t changed = 0;
    memcpy(before, places, sizeof before);
    for (uint32_t i = 0; i < step->row.count && i < DWCHECK_MAX_RULES; i++) {
        const dwcheck_rule *rule = &step->rules[i];
        if (rule->reg >= REGISTERS) continue;
        places[rule->reg] = place_by(step, rule, before);
        if (rule->kind != DWCHECK_RULE_SAME_VALUE) changed |= UINT64_C(1) << rule->reg;
    }
    places[IP] = place_of_return(step, before);
    return changed;
}

/* Moves the frame to where the proved step has moved the cursor. */
static void go_to(const struct row_step *step, const dwcheck_cursor *cursor) {
    struct frame *frame = &step->walk->frame;
    frame->known &= ~move_places(step);
    for (int i = 0; i < ROW_REGISTERS; i++)
        if (cursor->known[i]) frame->values[i] = cursor->contents[i], frame->known |= UINT64_C(1) << i;
    if (!cursor->known[SP]) frame->values[SP] = step->cfa;
    frame->values[IP] = cursor->address;
    frame->known |= UINT64_C(1) << SP | UINT64_C(1) << IP;
    frame->is_interrupted = cursor->stage == DWCHECK_CURSOR_EXACT;
    if (!frame->is_interrupted) frame->known &= ~CHANGED_BY_CALLS;
    frame->key = cursor->address + frame->is_interrupted;
    frame->guess = UNW_GUESS_NONE;
}

/* Asks for the return address: by its rule; or without one for the register that has it, if no call has changed that. */
static bool provide_return(const struct row_step *step) {
    const uint32_t number = step->row.return_reg;
    const dwcheck_rule *returns = rule_of(step, number);
    const bool is_exact = step->walk->frame.key != step->walk->frame.values[IP];
    if (returns) return provide_for(step, returns);
    const bool is_there = is_exact && number < REGISTERS && CHANGED_BY_CALLS >> number & 1;
    return !is_there || dwcheck_remote_fetch(step->walk, step->words, (int)number);
}

/* Takes the proved step, with what was asked for. */
static int take(const struct row_step *step) {
    const uint32_t exact = step->key != step->walk->frame.values[IP];
    const dwcheck_header none = {.length = 0};
    struct known known;
    dwcheck_cursor cursor;
    dwcheck_frame written;
    dwcheck_fault fault;
    collect(step, &known);
    if (dwcheck_cursor_init(&cursor, step->key - exact, &known.state, exact, &fault) != DWCHECK_DONE
        || dwcheck_step_in(&step->module, &none, &cursor, &known.state, &written, &fault) != DWCHECK_DONE)
        return -UNW_EBADFRAME;
    if (cursor.stage == DWCHECK_STOP_NOT_COVERED + 1) return -UNW_ENOINFO;
    if (cursor.stage == DWCHECK_STOP_RETURN_UNDEFINED + 1) return dwcheck_unwind_end(&step->walk->frame);
    if (cursor.stage > DWCHECK_CURSOR_CALLER) return dwcheck_remote_error(step->words);
    go_to(step, &cursor);
    return 1;
}

int dwcheck_remote_step_by_record(struct remote_cursor *walk, struct words *words, uint64_t key, uint64_t load_address,
                                  const struct record *record) {
    struct row_step step = {.walk = walk, .words = words, .key = key, .module = dwcheck_remote_section(record, load_address)};
    const dwcheck_header none = {.length = 0};
    dwcheck_fault fault;
    const uint32_t status = dwcheck_row_in(&step.module, &none, key - 1, &step.row, step.rules, DWCHECK_MAX_RULES,
                                           &step.is_signal_frame, &fault);
    if (status == DWCHECK_NONE) return -UNW_ENOINFO;
    if (status != DWCHECK_DONE) return -UNW_EBADFRAME;
    const int result = dwcheck_remote_step_by_keeping(&step);
    if (result != NO_KEPT_ROW) return result;
    words->error = 0;
    if (!find_cfa(&step) || !provide_return(&step)) return dwcheck_remote_error(words);
    return take(&step);
}
