/* Steps of other processes by kept rows, which the proved walk of x86-64 takes. And frames of signals, which have rows. */
#include "../remote/remote.h"

/* The caller's registers are where the row says that they are saved. */
static void move_places(struct remote_cursor *walk, const struct facts *facts, uint64_t cfa) {
    for (int i = 0; i < facts->count; i++) {
        walk->places[facts->saved[i].number] = (struct place){cfa + (uint64_t)(int64_t)facts->saved[i].offset, PLACE_MEMORY};
        walk->frame.known &= ~(UINT64_C(1) << facts->saved[i].number);
    }
    for (uint32_t left = facts->undefined; left; left &= left - 1) walk->places[__builtin_ctz(left)] = (struct place){0, PLACE_NONE};
    walk->frame.known &= ~facts->undefined;
}

/* What a step by a kept row reads is the return address, below the CFA, and rbp, if the CFA is counted from it. So only these
   are asked for. rbp is passed as a register that is saved where nothing can be read, unless the row needs it. */
int dwcheck_remote_step_by_kept_row(struct remote_cursor *walk, struct words *words, const struct facts *facts) {
    struct frame *frame = &walk->frame;
    if (!dwcheck_remote_fetch(walk, words, facts->cfa_register)) return dwcheck_remote_error(words);
    const uint64_t cfa = frame->values[facts->cfa_register] + (uint64_t)(int64_t)facts->cfa_offset;
    const uint64_t returns_at = cfa + (uint64_t)(int64_t)facts->return_offset;
    uint64_t word = 0;
    if (facts->has_return && !dwcheck_remote_ask(words, returns_at, &word)) return dwcheck_remote_error(words);
    const dwcheck_block block = {returns_at, (const uint8_t *)&word, facts->has_return ? sizeof word : 0};
    const bool is_needed = facts->cfa_register == RBP;
    dwcheck_place place = {.address = frame->values[RIP], .key = frame->key, .stack_pointer = frame->values[RSP],
                           .frame_pointer = is_needed ? frame->values[RBP] : UINT64_MAX, .is_saved = !is_needed};
    const uint32_t stop = dwcheck_remote_walk(walk, &place, &block);
    if (stop == DWCHECK_STOP_RETURN_UNDEFINED) return dwcheck_unwind_end(frame);
    if (stop != DWCHECK_STOP_LIMIT) return NO_KEPT_ROW;
    move_places(walk, facts, cfa);
    walk->places[RIP] = (struct place){returns_at, PLACE_MEMORY};
    frame->values[RIP] = place.address, frame->key = place.key, frame->values[RSP] = place.stack_pointer;
    frame->known |= UINT64_C(1) << RIP | UINT64_C(1) << RSP;
    frame->guess = UNW_GUESS_NONE, frame->is_interrupted = 0;
    return 1;
}

/* ---- what is kept ---- */

/* Notes what a rule says for steps by a kept row. Returns false if such a step can't follow it. */
static bool note(struct facts *facts, const dwcheck_rule *rule) {
    if (rule->kind == DWCHECK_RULE_SAME_VALUE) return true;
    if (rule->reg >= REGISTERS || rule->reg == RSP) return false;
    if (rule->kind == DWCHECK_RULE_UNDEFINED) facts->undefined |= UINT64_C(1) << rule->reg;
    if (rule->kind == DWCHECK_RULE_UNDEFINED) return true;
    if (rule->kind != DWCHECK_RULE_OFFSET || rule->offset != (int16_t)rule->offset) return false;
    if (rule->reg == RIP) facts->has_return = true, facts->return_offset = (int16_t)rule->offset;
    else if (facts->count == sizeof facts->saved / sizeof *facts->saved) return false;
    else facts->saved[facts->count++] = (struct saved){(int16_t)rule->offset, rule->reg};
    return true;
}

static bool facts_of(const struct row_step *step, struct facts *facts) {
    const dwcheck_rule *cfa = &step->row.cfa;
    *facts = (struct facts){.cfa_offset = (int32_t)cfa->offset, .cfa_register = (uint8_t)cfa->reg};
    bool is_noted = !step->is_signal_frame && step->row.return_reg == RIP && cfa->kind == DWCHECK_RULE_VAL_OFFSET
                    && (cfa->reg == RSP || cfa->reg == RBP) && cfa->offset == (int32_t)cfa->offset;
    for (uint32_t i = 0; is_noted && i < step->row.count && i < DWCHECK_MAX_RULES; i++) is_noted = note(facts, &step->rules[i]);
    return is_noted && (facts->has_return || facts->undefined >> RIP & 1);
}

/* Keeps the row, and takes the step by it, if such a step can follow it. */
int dwcheck_remote_step_by_keeping(const struct row_step *step) {
    struct facts facts;
    if (step->walk->space->policy == UNW_CACHE_NONE || !facts_of(step, &facts)) return NO_KEPT_ROW;
    dwcheck_remote_keep_row(step->walk, step->key, &facts, &step->module);
    if (step->key != step->walk->frame.key) return NO_KEPT_ROW;
    return dwcheck_remote_step_by_kept_row(step->walk, step->words, &facts);
}

/* ---- signals ---- */

int dwcheck_remote_leave_handler(struct remote_cursor *walk, struct words *words) { return (void)walk, (void)words, -UNW_ENOINFO; }

/* For libunwind it is the frame that the signal has interrupted. */
int dwcheck_remote_is_signal_frame(const struct remote_cursor *walk) { return (int)walk->frame.is_interrupted; }
