/* The calls of dwcheck.h that take arrays. In the proofs an array has an address even if it is empty,
   so each call here replaces NULL by an address for the proved one of the same name, which the
   Makefile calls proved_dwcheck_.. in libdwcheck.a. If no pointer is NULL, that is a few instructions
   and a jump; dwcheck_evaluate always copies the state. */
#include "dwcheck.h"

/* Any address that isn't NULL and is a multiple of each type's alignment. It isn't read. */
static _Alignas(16) uint8_t nothing[16];

#define OR_NOTHING(pointer) ((pointer) ? (pointer) : (const void *)nothing)
#define OR_NO_PLACE(pointer) ((pointer) ? (pointer) : (void *)nothing)

#define PROVED(name) extern __attribute__((visibility("hidden"))) __typeof__(name) proved_##name

static int has_all(const dwcheck_state *state) {
    return state->contents && state->known && state->blocks && state->kept;
}

static dwcheck_state with_all(const dwcheck_state *state) {
    dwcheck_state copy = *state;
    copy.contents = OR_NOTHING(copy.contents);
    copy.known = OR_NOTHING(copy.known);
    copy.blocks = OR_NOTHING(copy.blocks);
    copy.kept = OR_NOTHING(copy.kept);
    return copy;
}

PROVED(dwcheck_fault_name);
uint32_t dwcheck_fault_name(uint32_t number, uint8_t *text, size_t text_length, size_t *size) {
    return proved_dwcheck_fault_name(number, OR_NO_PLACE(text), text_length, size);
}

PROVED(dwcheck_check);
uint32_t dwcheck_check(const uint8_t *frame, size_t frame_length, const uint8_t *lists, size_t lists_length, uint32_t order,
                       uint32_t address_size, dwcheck_fault *fault) {
    return proved_dwcheck_check(OR_NOTHING(frame), frame_length, OR_NOTHING(lists), lists_length, order, address_size, fault);
}

PROVED(dwcheck_report);
uint32_t dwcheck_report(const uint8_t *frame, size_t frame_length, const uint8_t *lists, size_t lists_length, uint32_t order,
                        uint32_t address_size, dwcheck_counts *counts, dwcheck_expression *expressions, size_t expressions_length,
                        dwcheck_fault *fault) {
    return proved_dwcheck_report(OR_NOTHING(frame), frame_length, OR_NOTHING(lists), lists_length, order, address_size, counts,
                                 OR_NO_PLACE(expressions), expressions_length, fault);
}

/* A module whose section is empty, with an address for it. */
static dwcheck_module with_address(const dwcheck_module *module) {
    dwcheck_module copy = *module;
    copy.frame = nothing;
    return copy;
}

PROVED(dwcheck_module_check);
uint32_t dwcheck_module_check(const dwcheck_module *module, dwcheck_counts *counts, dwcheck_fault *fault) {
    if (module->frame) return proved_dwcheck_module_check(module, counts, fault);
    const dwcheck_module copy = with_address(module);
    return proved_dwcheck_module_check(&copy, counts, fault);
}

PROVED(dwcheck_module_left_out);
uint32_t dwcheck_module_left_out(const dwcheck_module *module, dwcheck_left_out *left_out, size_t left_out_length,
                                 size_t *count, dwcheck_fault *fault) {
    left_out = OR_NO_PLACE(left_out);
    if (module->frame) return proved_dwcheck_module_left_out(module, left_out, left_out_length, count, fault);
    const dwcheck_module copy = with_address(module);
    return proved_dwcheck_module_left_out(&copy, left_out, left_out_length, count, fault);
}

PROVED(dwcheck_record_at);
uint32_t dwcheck_record_at(const dwcheck_module *module, uint64_t offset, dwcheck_record *record, dwcheck_fault *fault) {
    if (module->frame) return proved_dwcheck_record_at(module, offset, record, fault);
    const dwcheck_module copy = with_address(module);
    return proved_dwcheck_record_at(&copy, offset, record, fault);
}

/* A header that is empty, with an address for it. */
static dwcheck_header header_with_address(const dwcheck_header *header) {
    dwcheck_header copy = *header;
    copy.bytes = nothing;
    return copy;
}

PROVED(dwcheck_row_in);
uint32_t dwcheck_row_in(const dwcheck_module *module, const dwcheck_header *header, uint64_t address, dwcheck_row *row,
                        dwcheck_rule *rules, size_t rules_length, uint32_t *is_signal_frame, dwcheck_fault *fault) {
    rules = OR_NO_PLACE(rules);
    if (module->frame && header->bytes)
        return proved_dwcheck_row_in(module, header, address, row, rules, rules_length, is_signal_frame, fault);
    const dwcheck_module section = module->frame ? *module : with_address(module);
    const dwcheck_header table = header->bytes ? *header : header_with_address(header);
    return proved_dwcheck_row_in(&section, &table, address, row, rules, rules_length, is_signal_frame, fault);
}

PROVED(dwcheck_is_signed_in);
uint32_t dwcheck_is_signed_in(const dwcheck_module *module, const dwcheck_header *header, uint64_t address,
                              uint32_t *is_signed, dwcheck_fault *fault) {
    if (module->frame && header->bytes) return proved_dwcheck_is_signed_in(module, header, address, is_signed, fault);
    const dwcheck_module section = module->frame ? *module : with_address(module);
    const dwcheck_header table = header->bytes ? *header : header_with_address(header);
    return proved_dwcheck_is_signed_in(&section, &table, address, is_signed, fault);
}

PROVED(dwcheck_step_in);
uint32_t dwcheck_step_in(const dwcheck_module *module, const dwcheck_header *header, dwcheck_cursor *cursor,
                         const dwcheck_state *state, dwcheck_frame *frame, dwcheck_fault *fault) {
    if (module->frame && header->bytes && has_all(state))
        return proved_dwcheck_step_in(module, header, cursor, state, frame, fault);
    const dwcheck_module section = module->frame ? *module : with_address(module);
    const dwcheck_header table = header->bytes ? *header : header_with_address(header);
    const dwcheck_state copy = with_all(state);
    return proved_dwcheck_step_in(&section, &table, cursor, &copy, frame, fault);
}

PROVED(dwcheck_rows_fill);
uint32_t dwcheck_rows_fill(dwcheck_rows *rows, uint32_t slot, const dwcheck_module *module, const dwcheck_header *header,
                           uint64_t address, dwcheck_fault *fault) {
    if (module->frame && header->bytes) return proved_dwcheck_rows_fill(rows, slot, module, header, address, fault);
    const dwcheck_module section = module->frame ? *module : with_address(module);
    const dwcheck_header table = header->bytes ? *header : header_with_address(header);
    return proved_dwcheck_rows_fill(rows, slot, &section, &table, address, fault);
}

PROVED(dwcheck_rows_fill_compact);
uint32_t dwcheck_rows_fill_compact(dwcheck_rows *rows, uint32_t slot, const dwcheck_module *module, const dwcheck_header *header,
                                   uint64_t address, dwcheck_fault *fault) {
    if (module->frame && header->bytes) return proved_dwcheck_rows_fill_compact(rows, slot, module, header, address, fault);
    const dwcheck_module section = module->frame ? *module : with_address(module);
    const dwcheck_header table = header->bytes ? *header : header_with_address(header);
    return proved_dwcheck_rows_fill_compact(rows, slot, &section, &table, address, fault);
}

PROVED(dwcheck_walk);
void dwcheck_walk(dwcheck_rows *rows, uint64_t confirmed, dwcheck_place *place, const dwcheck_block *blocks,
                  size_t blocks_length, uint64_t *addresses, size_t addresses_length, size_t *count, uint32_t *stop) {
    proved_dwcheck_walk(rows, confirmed, place, OR_NOTHING(blocks), blocks_length, OR_NO_PLACE(addresses), addresses_length,
                        count, stop);
}

PROVED(dwcheck_walk_frames);
void dwcheck_walk_frames(dwcheck_rows *rows, uint64_t confirmed, dwcheck_register_place *place, const dwcheck_block *blocks,
                         size_t blocks_length, dwcheck_register_frame *frames, size_t frames_length, size_t *count,
                         uint32_t *stop) {
    proved_dwcheck_walk_frames(rows, confirmed, place, OR_NOTHING(blocks), blocks_length, OR_NO_PLACE(frames), frames_length,
                               count, stop);
}

PROVED(dwcheck_process_add);
uint32_t dwcheck_process_add(dwcheck_process *process, const dwcheck_module *module, uint64_t *id, dwcheck_fault *fault) {
    if (module->frame) return proved_dwcheck_process_add(process, module, id, fault);
    const dwcheck_module copy = with_address(module);
    return proved_dwcheck_process_add(process, &copy, id, fault);
}

PROVED(dwcheck_process_add_both);
uint32_t dwcheck_process_add_both(dwcheck_process *process, const dwcheck_module *module, const dwcheck_module *eh_frame,
                                  uint64_t *id, dwcheck_fault *fault) {
    if (module->frame && eh_frame->frame) return proved_dwcheck_process_add_both(process, module, eh_frame, id, fault);
    dwcheck_module first = *module, second = *eh_frame;
    first.frame = OR_NOTHING(first.frame);
    second.frame = OR_NOTHING(second.frame);
    return proved_dwcheck_process_add_both(process, &first, &second, id, fault);
}

PROVED(dwcheck_row_at);
uint32_t dwcheck_row_at(const dwcheck_process *process, uint64_t address, dwcheck_row *row, dwcheck_rule *rules,
                        size_t rules_length) {
    return proved_dwcheck_row_at(process, address, row, OR_NO_PLACE(rules), rules_length);
}

PROVED(dwcheck_rule_bytes);
uint32_t dwcheck_rule_bytes(const dwcheck_process *process, uint64_t address, uint32_t reg, uint8_t *bytes,
                            size_t bytes_length, size_t *size) {
    return proved_dwcheck_rule_bytes(process, address, reg, OR_NO_PLACE(bytes), bytes_length, size);
}

PROVED(dwcheck_unwind);
uint32_t dwcheck_unwind(const dwcheck_process *process, uint64_t address, const dwcheck_state *state, dwcheck_caller *caller,
                        dwcheck_register *registers, size_t registers_length, dwcheck_fault *fault) {
    registers = OR_NO_PLACE(registers);
    if (has_all(state)) return proved_dwcheck_unwind(process, address, state, caller, registers, registers_length, fault);
    const dwcheck_state copy = with_all(state);
    return proved_dwcheck_unwind(process, address, &copy, caller, registers, registers_length, fault);
}

PROVED(dwcheck_backtrace);
uint32_t dwcheck_backtrace(const dwcheck_process *process, uint64_t address, const dwcheck_state *state, dwcheck_frame *frames,
                           size_t frames_length, size_t *count, uint32_t *stop, dwcheck_fault *fault) {
    frames = OR_NO_PLACE(frames);
    if (has_all(state)) return proved_dwcheck_backtrace(process, address, state, frames, frames_length, count, stop, fault);
    const dwcheck_state copy = with_all(state);
    return proved_dwcheck_backtrace(process, address, &copy, frames, frames_length, count, stop, fault);
}

PROVED(dwcheck_backtrace_cached);
uint32_t dwcheck_backtrace_cached(const dwcheck_process *process, uint64_t address, const dwcheck_state *state,
                                  dwcheck_frame *frames, size_t frames_length, size_t *count, uint32_t *stop,
                                  dwcheck_cache *cache, dwcheck_fault *fault) {
    frames = OR_NO_PLACE(frames);
    if (has_all(state))
        return proved_dwcheck_backtrace_cached(process, address, state, frames, frames_length, count, stop, cache, fault);
    const dwcheck_state copy = with_all(state);
    return proved_dwcheck_backtrace_cached(process, address, &copy, frames, frames_length, count, stop, cache, fault);
}

PROVED(dwcheck_cursor_init);
uint32_t dwcheck_cursor_init(dwcheck_cursor *cursor, uint64_t address, const dwcheck_state *state, uint32_t exact,
                             dwcheck_fault *fault) {
    if (has_all(state)) return proved_dwcheck_cursor_init(cursor, address, state, exact, fault);
    const dwcheck_state copy = with_all(state);
    return proved_dwcheck_cursor_init(cursor, address, &copy, exact, fault);
}

PROVED(dwcheck_cursor_step);
/* Not inlined: the usual path then needs no stack frame, and ends in a jump to the proved call. */
static __attribute__((noinline)) uint32_t step_without_null(const dwcheck_process *process, dwcheck_cursor *cursor,
                                                            const dwcheck_state *state, dwcheck_frame *frame) {
    const dwcheck_state copy = with_all(state);
    return proved_dwcheck_cursor_step(process, cursor, &copy, frame);
}

uint32_t dwcheck_cursor_step(const dwcheck_process *process, dwcheck_cursor *cursor, const dwcheck_state *state,
                             dwcheck_frame *frame) {
    if (has_all(state)) return proved_dwcheck_cursor_step(process, cursor, state, frame);
    return step_without_null(process, cursor, state, frame);
}

PROVED(dwcheck_evaluate);
uint32_t dwcheck_evaluate(const uint8_t *expression, size_t expression_length, uint32_t order, uint32_t address_size,
                          uint32_t kind, const dwcheck_context *context, const dwcheck_state *state, uint32_t n,
                          dwcheck_value *value, dwcheck_piece *pieces, size_t pieces_length, uint8_t *bytes,
                          size_t bytes_length, dwcheck_fault *fault) {
    const dwcheck_state copy = with_all(state);
    return proved_dwcheck_evaluate(OR_NOTHING(expression), expression_length, order, address_size, kind, context, &copy, n,
                                   value, OR_NO_PLACE(pieces), pieces_length, OR_NO_PLACE(bytes), bytes_length, fault);
}

PROVED(dwcheck_locations);
uint32_t dwcheck_locations(const uint8_t *lists, size_t lists_length, uint32_t order, uint32_t address_size,
                           const dwcheck_lookup *lookup, dwcheck_location *locations, size_t locations_length, size_t *count,
                           dwcheck_fault *fault) {
    return proved_dwcheck_locations(OR_NOTHING(lists), lists_length, order, address_size, lookup, OR_NO_PLACE(locations),
                                    locations_length, count, fault);
}

PROVED(dwcheck_list_locations);
uint32_t dwcheck_list_locations(const uint8_t *lists, size_t lists_length, uint32_t order, uint32_t address_size,
                                const dwcheck_lookup *lookup, dwcheck_location *locations, size_t locations_length,
                                size_t *count, dwcheck_fault *fault) {
    return proved_dwcheck_list_locations(OR_NOTHING(lists), lists_length, order, address_size, lookup,
                                         OR_NO_PLACE(locations), locations_length, count, fault);
}
