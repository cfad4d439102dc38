// libdwcheck as a module of C++20: `import dwcheck;` in place of the headers dwcheck.hpp and dwcheck.h.
//
//     clang++-16 -std=c++20 --precompile dwcheck.cppm -o dwcheck.pcm
//     clang++-16 -std=c++20 -fmodule-file=dwcheck=dwcheck.pcm -c program.cc
//
// It exports every name of both headers. A module has no macros, so DWCHECK_VERSION, DWCHECK_CLOSED and
// the sizes DWCHECK_MAX_.. need `#include <dwcheck.h>` beside the import.
module;
#include "dwcheck.hpp"
export module dwcheck;

// Structures.
export using ::dwcheck_fault, ::dwcheck_counts, ::dwcheck_expression, ::dwcheck_process,
    ::dwcheck_module, ::dwcheck_left_out, ::dwcheck_loaded, ::dwcheck_record, ::dwcheck_rule, ::dwcheck_row,
    ::dwcheck_block, ::dwcheck_state, ::dwcheck_answer, ::dwcheck_register, ::dwcheck_caller,
    ::dwcheck_frame, ::dwcheck_cache, ::dwcheck_cursor, ::dwcheck_reader, ::dwcheck_header, ::dwcheck_rows, ::dwcheck_place,
    ::dwcheck_register_place, ::dwcheck_register_frame, ::dwcheck_context,
    ::dwcheck_value, ::dwcheck_piece, ::dwcheck_lookup, ::dwcheck_location;

// Calls.
export using ::dwcheck_version, ::dwcheck_fault_name, ::dwcheck_fault_text, ::dwcheck_status_text,
    ::dwcheck_stop_text, ::dwcheck_check, ::dwcheck_report, ::dwcheck_process_add,
    ::dwcheck_process_add_both, ::dwcheck_process_remove, ::dwcheck_process_share, ::dwcheck_process_close, ::dwcheck_module_at,
    ::dwcheck_module_check, ::dwcheck_module_left_out, ::dwcheck_record_at, ::dwcheck_row_at,
    ::dwcheck_is_signal_frame, ::dwcheck_is_signed,
    ::dwcheck_rule_bytes, ::dwcheck_unwind, ::dwcheck_backtrace,
    ::dwcheck_backtrace_cached, ::dwcheck_cursor_init,
    ::dwcheck_cursor_step, ::dwcheck_cursor_step_with, ::dwcheck_row_in, ::dwcheck_is_signed_in,
    ::dwcheck_step_in,
    ::dwcheck_rows_fill, ::dwcheck_rows_fill_compact, ::dwcheck_rows_forget, ::dwcheck_walk, ::dwcheck_walk_frames,
    ::dwcheck_cursor_at_place, ::dwcheck_place_of_cursor, ::dwcheck_evaluate,
    ::dwcheck_locations, ::dwcheck_list_locations;

// Constants.
export using ::DWCHECK_DONE, ::DWCHECK_REFUSED, ::DWCHECK_NO_MEMORY, ::DWCHECK_NO_ROOM,
    ::DWCHECK_BAD_TARGET, ::DWCHECK_TOO_LONG, ::DWCHECK_BAD_KIND, ::DWCHECK_NONE,
    ::DWCHECK_OVERLAPS, ::DWCHECK_BAD_RANGE, ::DWCHECK_NO_PLACE, ::DWCHECK_NO_TABLE;
export using ::DWCHECK_LITTLE, ::DWCHECK_BIG;
export using ::DWCHECK_IN_FRAME, ::DWCHECK_IN_LISTS, ::DWCHECK_IN_EXPRESSION, ::DWCHECK_IN_ABI,
    ::DWCHECK_IN_EH_FRAME;
export using ::DWCHECK_DEBUG_FRAME, ::DWCHECK_EH_FRAME, ::DWCHECK_EH_FRAME_AARCH64, ::DWCHECK_LEAVE_OUT;
export using ::DWCHECK_RECORD_CIE, ::DWCHECK_RECORD_FDE, ::DWCHECK_RECORD_EMPTY;
export using ::DWCHECK_RULE_UNDEFINED, ::DWCHECK_RULE_SAME_VALUE, ::DWCHECK_RULE_OFFSET,
    ::DWCHECK_RULE_VAL_OFFSET, ::DWCHECK_RULE_REGISTER, ::DWCHECK_RULE_EXPRESSION,
    ::DWCHECK_RULE_VAL_EXPRESSION;
export using ::DWCHECK_ANSWER_NOT_COVERED, ::DWCHECK_ANSWER_VALUE, ::DWCHECK_ANSWER_UNDEFINED,
    ::DWCHECK_ANSWER_UNREADABLE, ::DWCHECK_ANSWER_DIVISION_BY_ZERO;
export using ::DWCHECK_STOP_LIMIT, ::DWCHECK_STOP_NOT_COVERED, ::DWCHECK_STOP_RETURN_UNDEFINED,
    ::DWCHECK_STOP_RETURN_UNREADABLE, ::DWCHECK_STOP_RETURN_DIVISION_BY_ZERO, ::DWCHECK_STOP_MISSING, ::DWCHECK_STOP_OTHER;
export using ::DWCHECK_CURSOR_EXACT, ::DWCHECK_CURSOR_CALLER;
export using ::DWCHECK_EXPRESSION_CFA, ::DWCHECK_EXPRESSION_REGISTER, ::DWCHECK_EXPRESSION_LOCATION;
export using ::DWCHECK_OUTCOME_VALUE, ::DWCHECK_OUTCOME_UNREADABLE,
    ::DWCHECK_OUTCOME_DIVISION_BY_ZERO, ::DWCHECK_LOCATION_NOWHERE, ::DWCHECK_LOCATION_ADDRESS,
    ::DWCHECK_LOCATION_REGISTER, ::DWCHECK_LOCATION_VALUE, ::DWCHECK_LOCATION_BYTES,
    ::DWCHECK_LOCATION_PIECES;

export namespace dwcheck {
using dwcheck::caller;
using dwcheck::check;
using dwcheck::eh_module_of;
using dwcheck::elements;
using dwcheck::failure;
using dwcheck::fault_name;
using dwcheck::in_place;
using dwcheck::module_of;
using dwcheck::process;
using dwcheck::result;
using dwcheck::row;
using dwcheck::walk;
} // namespace dwcheck
