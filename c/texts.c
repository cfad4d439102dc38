/* Texts for numbers: the rule that each fault breaks, and what statuses and reasons mean. They aren't proved. */
#include "dwcheck.h"

/* The rule that a fault breaks. In parentheses is the section of DWARF 5 with the rule, or "profile" if
   the standard leaves the point open and this library decides it (docs/PROFILE.md). */
static const char *const faults[] = {
    [1] = "a field has to end within its record, expression or section (DWARF 5, 6.4.1, 7.2.2)",
    [2] = "a LEB128 number has at most ten bytes and fits 64 bits (DWARF 5, 7.6; profile)",
    [3] = "lengths from 0xfffffff0 to 0xfffffffe are reserved (DWARF 5, 7.2.2)",
    [4] = "a CIE has the version 1, 3 or 4 (DWARF 5, 6.4.1 and appendix G)",
    [5] = "an augmentation changes what a CIE means, and this one isn't known (DWARF 5, 6.4.1)",
    [6] = "the address size of the record is that of the target (DWARF 5, 6.4.1, 7.29)",
    [7] = "the segment selector size is 0: segments aren't supported (DWARF 5, 6.4.1, 7.29; profile)",
    [9] = "the CIE pointer of an FDE is the offset of a CIE (DWARF 5, 6.4.1)",
    [10] = "a register number is at most 65535 (DWARF 5, 6.4.1; profile)",
    [11] = "the range of an FDE ends at the highest address or below it (DWARF 5, 6.4.1; profile)",
    [12] = "each instruction is one of DWARF 5: those of vendors aren't supported (DWARF 5, 7.24)",
    [13] = "the initial instructions of a CIE give rules: they don't advance, remember or restore (DWARF 5, 6.4.1; profile)",
    [14] = "set_loc moves to a higher address than the row before it (DWARF 5, 6.4.2.1)",
    [15] = "no row begins after the end of the FDE's range (DWARF 5, 6.4.1; profile)",
    [16] = "restore_state needs a remember_state before it (DWARF 5, 6.4.2.4)",
    [17] = "each remember_state has a restore_state in the same FDE (DWARF 5, 6.4.2.4; profile)",
    [18] = "at most 16 states are remembered at once (DWARF 5, 6.4.2.4; profile)",
    [19] = "the instruction is allowed only while the CFA is a register and an offset, and here it isn't (DWARF 5, 6.4.2.2)",
    [20] = "an offset from the CFA fits 64 signed bits (DWARF 5, 6.4.2; profile)",
    [21] = "at most 128 registers have a rule in one row (profile)",
    [22] = "each row that covers an address says what the CFA is (DWARF 5, 6.4.1)",
    [23] = "an address is covered by one FDE only, so that it has one row (DWARF 5, 6.4.1; profile)",
    [30] = "each operation is one of DWARF 5 that is supported (DWARF 5, 7.7.1)",
    [31] = "the operation isn't allowed in an expression of call frame information (DWARF 5, 6.4.2)",
    [32] = "deref_size reads 1, 2, 4 or 8 bytes, and at most an address (DWARF 5, 2.5.1.3)",
    [33] = "a branch goes forward, so that each run ends (DWARF 5, 2.5.1.5; profile)",
    [34] = "a branch leads to where an operation begins, or to the end (DWARF 5, 2.5.1.5)",
    [35] = "an operation finds the entries on the stack that it takes (DWARF 5, 2.5.1)",
    [36] = "the stack has at most 128 entries (profile)",
    [37] = "paths that meet have stacks of the same height (DWARF 5, 2.5.1.5; profile)",
    [38] = "each operation is on some path (profile)",
    [39] = "a register, a value or implicit bytes are a location of their own (DWARF 5, 2.6.1)",
    [40] = "an expression ends with a result (DWARF 5, 2.5, 2.6)",
    [41] = "a location has at most 32 pieces (DWARF 5, 2.6.1.2; profile)",
    [42] = "a piece has at most 2^32 - 1 bytes or bits (DWARF 5, 2.6.1.2; profile)",
    [50] = "a table of location lists has the version 5 (DWARF 5, 7.29)",
    [51] = "each entry is of a kind that is supported (DWARF 5, 2.6.2, 7.7.3)",
    [52] = "a range ends where it begins or after that (DWARF 5, 2.6.2)",
    [53] = "a list has at most one default location (DWARF 5, 2.6.2; profile)",
    [54] = "each list ends with end_of_list (DWARF 5, 2.6.2)",
    [55] = "each offset of a table leads to where a list of it begins (DWARF 5, 7.29)",
    [60] = "memory ran out",
    [61] = "a section has fewer than 2^32 bytes (profile)",
    [62] = "an ABI has at most 127 callee-saved registers (profile)",
    [63] = "an ABI names no register twice (profile)",
    [70] = "a certificate has a state for each operation (profile)",
    [71] = "a certificate has the states that a check finds (profile)",
};

static const char *const statuses[] = {
    [DWCHECK_DONE] = "done",
    [DWCHECK_REFUSED] = "refused because of a fault",
    [DWCHECK_NO_MEMORY] = "out of memory",
    [DWCHECK_NO_ROOM] = "the rows of the section may take more than the room given",
    [DWCHECK_BAD_TARGET] = "the byte order or the address size isn't supported, or isn't that of the process",
    [DWCHECK_TOO_LONG] = "2^32 bytes or more",
    [DWCHECK_BAD_KIND] = "the kind isn't known",
    [DWCHECK_NONE] = "what was looked up doesn't exist",
    [DWCHECK_OVERLAPS] = "the range shares addresses with another module",
    [DWCHECK_BAD_RANGE] = "no range of addresses to answer for",
    [DWCHECK_NO_PLACE] = "a register has no place in a cursor",
    [DWCHECK_NO_TABLE] = "the header has no search table of the usual form",
};

static const char *const stops[] = {
    [DWCHECK_STOP_LIMIT] = "limit",
    [DWCHECK_STOP_NOT_COVERED] = "not covered",
    [DWCHECK_STOP_RETURN_UNDEFINED] = "return undefined",
    [DWCHECK_STOP_RETURN_UNREADABLE] = "return unreadable",
    [DWCHECK_STOP_RETURN_DIVISION_BY_ZERO] = "return division by zero",
    [DWCHECK_STOP_MISSING] = "missing",
    [DWCHECK_STOP_OTHER] = "other",
};

#define TEXT(texts, number) ((number) < sizeof(texts) / sizeof *(texts) ? (texts)[number] : NULL)

const char *dwcheck_fault_text(uint32_t number) { return TEXT(faults, number); }
const char *dwcheck_status_text(uint32_t status) { return TEXT(statuses, status); }
const char *dwcheck_stop_text(uint32_t stop) { return TEXT(stops, stop); }
