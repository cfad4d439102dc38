/* Steps of a cursor of dwcheck.h, which knows all registers and every kind of row: for rows that aren't kept, for
   memory that has to be asked for, and to find where registers are saved. They need much stack, so they run on a
   cache's own. */
#include "../dl/processor.h"
#include "unwind.h"

#include <string.h>

/* A step: what it begins with, and what it comes to. */
struct step {
    struct frame *frame;
    const struct memory *memory;
    uint64_t key; /* the address to look up, plus 1 */
    struct place *places;
    dwcheck_module module;
    dwcheck_header header;
    dwcheck_cursor cursor;
    dwcheck_frame written;
    uint32_t status, is_without_row;
};

/* A bit for each register that is known. */
enum { KNOWN = (REGISTERS + 7) / 8 };

static dwcheck_state state_of(const struct step *step, const uint8_t known[KNOWN]) {
    dwcheck_state state = dwcheck_dl_state_of(step->memory->blocks);
    state.blocks_length = BLOCKS;
    state.contents = step->frame->values, state.contents_length = REGISTERS;
    state.known = known, state.known_length = KNOWN;
    return state;
}

/* The address that a rule's expression gives, in the row's section; or false if it has none here. */
static bool expression_of(const struct step *step, const dwcheck_state *state, const dwcheck_rule *rule, uint64_t *address) {
    const dwcheck_context context = {.cfa = step->written.cfa.value, .has_cfa = 1};
    const dwcheck_module *section = &step->module;
    dwcheck_value value;
    dwcheck_fault fault;
    enum { LONGEST = 16 }; /* of a longer one dwcheck_evaluate may allocate memory */
    if (rule->length > LONGEST || (uint64_t)rule->offset + rule->length > section->frame_length) return false;
    if (dwcheck_evaluate(section->frame + rule->offset, rule->length, DWCHECK_LITTLE, 8, DWCHECK_EXPRESSION_REGISTER,
                         &context, state, 0, &value, NULL, 0, NULL, 0, &fault) != DWCHECK_DONE)
        return false;
    *address = value.value;
    return value.kind == DWCHECK_OUTCOME_VALUE;
}

/* Makes the places of a frame's registers those of its caller's, by one rule. */
static void move_place(const struct step *step, const dwcheck_state *state, const dwcheck_rule *rule,
                       const struct place before[REGISTERS]) {
    uint64_t address = step->written.cfa.value + (uint64_t)rule->offset;
    struct place *place = &step->places[rule->reg];
    switch (rule->kind) {
    case DWCHECK_RULE_SAME_VALUE: break;
    case DWCHECK_RULE_OFFSET: *place = (struct place){address, PLACE_MEMORY}; break;
    case DWCHECK_RULE_REGISTER: *place = rule->source < REGISTERS ? before[rule->source] : (struct place){0}; break;
    case DWCHECK_RULE_EXPRESSION:
        place->kind = expression_of(step, state, rule, &place->at) ? PLACE_MEMORY : PLACE_NONE;
        break;
    default: *place = (struct place){0};
    }
}

/* A register without a rule stays where it was, as in libunwind: also the stack pointer, whose value is the CFA. */
static void move_places(const struct step *step, const dwcheck_state *state) {
    dwcheck_row row;
    dwcheck_rule rules[DWCHECK_MAX_RULES];
    dwcheck_fault fault;
    uint32_t is_signal_frame;
    struct place before[REGISTERS];
    memcpy(before, step->places, sizeof before);
    if (dwcheck_row_in(&step->module, &step->header, step->key - 1, &row, rules, DWCHECK_MAX_RULES,
                       &is_signal_frame, &fault) != DWCHECK_DONE)
        return;
    for (uint32_t i = 0; i < row.count && i < DWCHECK_MAX_RULES; i++)
        if (rules[i].reg < REGISTERS) move_place(step, state, &rules[i], before);
    if (row.return_reg < REGISTERS) step->places[IP] = step->places[row.return_reg];
}

/* Takes the step, on a stack that is large enough. */
static void take(void *data) {
    struct step *step = data;
    uint8_t known[KNOWN];
    for (int i = 0; i < KNOWN; i++) known[i] = (uint8_t)(step->frame->known >> 8 * i);
    const dwcheck_state state = state_of(step, known);
    const uint32_t exact = step->key != step->frame->values[IP];
    dwcheck_fault fault;
    step->status = dwcheck_cursor_init(&step->cursor, step->key - !!exact, &state, exact, &fault);
    if (step->status == DWCHECK_DONE)
        step->status = dwcheck_step_in(&step->module, &step->header, &step->cursor, &state, &step->written, &fault);
    step->is_without_row = step->status == DWCHECK_DONE && step->cursor.stage == DWCHECK_STOP_NOT_COVERED + 1;
    if (step->places && step->status == DWCHECK_DONE && step->cursor.stage <= DWCHECK_CURSOR_CALLER)
        move_places(step, &state);
}

/* The kernel has saved the registers near a handler's stack pointer when it returns. */
static void go_to_caller(struct step *step) {
    struct frame *frame = step->frame;
    const dwcheck_cursor *cursor = &step->cursor;
    frame->is_interrupted = cursor->stage == DWCHECK_CURSOR_EXACT;
    if (frame->is_interrupted) frame->signal_context = frame->values[SP] + SAVED_CONTEXT;
    for (int i = 0; i < ROW_REGISTERS; i++) {
        if (cursor->known[i]) frame->values[i] = cursor->contents[i], frame->known |= UINT64_C(1) << i;
        else if (KEPT_REGISTERS >> i & 1) frame->known &= ~(UINT64_C(1) << i);
    }
    if (!frame->is_interrupted) frame->known &= ~CHANGED_BY_CALLS;
    frame->values[IP] = cursor->address;
    frame->key = cursor->address + frame->is_interrupted;
    frame->guess = UNW_GUESS_NONE;
}

/* Whether a register that the frame has is lost. */
static bool has_lost_register(const struct step *step) {
    for (int i = 0; i < ROW_REGISTERS; i++)
        if (KEPT_REGISTERS >> i & step->frame->known >> i & 1 && !step->cursor.known[i] && !(CHANGED_BY_CALLS >> i & 1)) return true;
    return false;
}

/* Whether a step might find more with more memory: then there is more. On aarch64 registers may be saved above the
   return address. */
static bool gets_memory(const struct step *step, struct memory *memory) {
    const uint32_t stage = step->cursor.stage;
    const bool is_short = DWCHECK_DL_SAVES_BELOW && stage <= DWCHECK_CURSOR_CALLER && has_lost_register(step);
    if (stage != DWCHECK_STOP_RETURN_UNREADABLE + 1 && !is_short) return false;
    uint64_t cfa = step->written.cfa.kind == DWCHECK_ANSWER_VALUE ? step->written.cfa.value : 0;
    return dwcheck_unwind_extend(memory, step->frame->values[SP], cfa);
}

int dwcheck_unwind_by_cursor(struct cache *cache, struct frame *frame, struct memory *memory, uint64_t key,
                             struct place *places) {
    struct dwcheck_dl_module module;
    if (key == 0 || !dwcheck_unwind_module_at(key - 1, &module)) return -UNW_ENOINFO;
    struct step step = {.frame = frame, .memory = memory, .key = key, .places = places,
                        .module = dwcheck_dl_as_module(&module.eh_frame), .header = dwcheck_dl_as_header(&module.eh_frame)};
    do {
        step.status = DWCHECK_REFUSED;
        dwcheck_unwind_on_stack(cache, take, &step);
        if (step.status == DWCHECK_NONE || step.is_without_row) return -UNW_ENOINFO;
        if (step.status != DWCHECK_DONE) return -UNW_EBADFRAME;
    } while (gets_memory(&step, memory));
    if (step.cursor.stage == DWCHECK_STOP_RETURN_UNDEFINED + 1) return dwcheck_unwind_end(frame);
    if (step.cursor.stage > DWCHECK_CURSOR_CALLER) return -UNW_EUNSPEC;
    go_to_caller(&step);
    return 1;
}
