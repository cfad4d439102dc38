//! Stubs of procedure linkage tables of x86 that find their function when it is first called.
//!
//! Such a stub is `push NUMBER`, `jmp FIRST`. The first entry of the table is `push OBJECT`, `jmp *LINKER`. So the
//! return address of the call is above one or two words.

/// The most bytes of code that are needed: a push, and the beginning of a jump.
pub(super) const LONGEST: usize = 9;

/// How many words a stub has pushed at an address with this code, before which these bytes are. `top` is the word at
/// the stack pointer, or its low half.
pub(super) fn words_pushed_by_stub(before: &[u8; 7], code: &[u8], top: u32) -> u64 {
    match (before, code) {
        // The number is on the stack.
        ([_, _, 0x68, number @ ..], [0xe9, ..] | [0xf2, 0xe9, ..]) if u32::from_le_bytes(*number) == top => 1,
        (_, [0xff, 0x35 | 0xb3, _, _, _, _, jump @ ..]) if is_jump_by_slot(jump) => 1,
        ([_, 0xff, 0x35 | 0xb3, ..], jump) if is_jump_by_slot(jump) => 2,
        _ => 0,
    }
}

/// Whether code begins with a jump to an address that memory has.
fn is_jump_by_slot(code: &[u8]) -> bool {
    matches!(code, [0xff, 0x25 | 0xa3, ..] | [0xf2, 0xff, 0x25 | 0xa3, ..])
}
