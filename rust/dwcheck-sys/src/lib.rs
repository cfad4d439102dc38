//! The declarations of `dwcheck.h`, the C interface of `dwcheck`, in the same order and with the same
//! fields. Names of numbers are the header's without `DWCHECK_`; those of structures are without
//! `dwcheck_` and in Rust's case. The crate `dwcheck` is the safe wrapper of these calls.
//!
//! The header has rules for the caller of every call, such as what pointers point to and which calls
//! may read a process at once. They hold for callers from Rust too, and nothing checks them.
//!
//! The crate's build script finds the library, in the folders that the variable DWCHECK_LIB_DIR lists
//! or else by pkg-config, and refuses one whose interface has another version.
//!
//! ```
//! use dwcheck_sys::{dwcheck_check, Fault, DONE, LITTLE};
//!
//! // The bytes of a CIE: a section without FDEs.
//! let section = [
//!     0x14, 0, 0, 0, 0xff, 0xff, 0xff, 0xff, 4, 0, 8, 0, 1, 0x78, 0x10, 0x0c, 7, 8, 0x90, 1, 0, 0, 0, 0,
//! ];
//! let (none, mut fault) = ([0u8; 1], Fault::default());
//! // SAFETY: both pointers are to that many bytes, and `fault` is a local.
//! let status = unsafe {
//!     dwcheck_check(section.as_ptr(), section.len(), none.as_ptr(), 0, LITTLE, 8, &mut fault)
//! };
//! assert_eq!(status, DONE);
//! ```

#![warn(rust_2018_idioms, unreachable_pub)]

mod calls;
#[cfg(feature = "dl")]
mod dl;
mod kept_rows;
#[cfg(test)]
mod layout;

pub use calls::*;
#[cfg(feature = "dl")]
pub use dl::*;
pub use kept_rows::*;

use std::mem::MaybeUninit;
use std::os::raw::c_void;

/// The call's results are written.
pub const DONE: u32 = 0;
/// `fault` says why.
pub const REFUSED: u32 = 1;
/// malloc or realloc returned NULL.
pub const NO_MEMORY: u32 = 2;
/// The table of the section can take more than `room` bytes; or see dwcheck_row_in.
pub const NO_ROOM: u32 = 3;
/// The section or expression has 2^32 bytes or more. (The statuses 4 and 6 are missing here: this
/// crate passes only byte orders, address sizes and kinds of expressions that the library knows, and
/// all modules of a process with the same target.)
pub const TOO_LONG: u32 = 5;
/// What was looked up doesn't exist.
pub const NONE: u32 = 7;
/// The module's range shares an address with another module's range.
pub const OVERLAPS: u32 = 8;
/// The module has no range that it could answer for.
pub const BAD_RANGE: u32 = 9;
/// A register that is known has no place in a cursor.
pub const NO_PLACE: u32 = 10;
/// The header has no search table of the usual form.
pub const NO_TABLE: u32 = 11;

/// Byte orders: the least significant byte first, or last.
pub const LITTLE: u32 = 0;
pub const BIG: u32 = 1;

/// A fault's `offset` counts bytes of the frame section, from 0. (The five IN_ constants are the
/// values of a fault's `within`.)
pub const IN_FRAME: u32 = 0;
/// A fault's `offset` counts bytes of the location list section.
pub const IN_LISTS: u32 = 1;
/// A fault's `offset` counts bytes of the expression.
pub const IN_EXPRESSION: u32 = 2;
/// A fault's `offset` counts elements of `kept`; `kept_length` stands for the stack pointer.
pub const IN_ABI: u32 = 3;
/// A fault's `offset` counts bytes of `.eh_frame`, in `dwcheck_process_add_both` alone.
pub const IN_EH_FRAME: u32 = 4;

/// Why an input is refused. `number` says what is wrong (docs/PROFILE.md lists the numbers),
/// `offset` says where, and `within` says what the offset counts.
#[repr(C)]
#[derive(Clone, Copy, Debug, Default)]
pub struct Fault {
    pub number: u32,
    pub offset: u32,
    pub within: u32,
    pub reserved: u32,
}

/// A record that is left out of a section: the offset of its first byte, and the first reason why.
#[repr(C)]
#[derive(Clone, Copy, Debug, Default)]
pub struct LeftOut {
    pub offset: u64,
    pub fault: Fault,
}

/// What two sections contain. A number of rows of 2^64 or more is shown as 2^64 - 1.
#[repr(C)]
#[derive(Clone, Copy, Debug, Default)]
pub struct Counts {
    pub cies: u64,
    pub fdes: u64,
    pub rows: u64,
    pub frame_expressions: u64,
    pub tables: u64,
    pub lists: u64,
    pub list_expressions: u64,
}

/// An expression of a section: where it begins, its length in bytes, its section (as in a fault),
/// what it is used for (an EXPRESSION_ constant), its number of operations, and the greatest depth of
/// its stack.
#[repr(C)]
#[derive(Clone, Copy, Debug, Default)]
pub struct Expression {
    pub offset: u64,
    pub length: u64,
    pub within: u32,
    pub kind: u32,
    pub operations: u32,
    pub depth: u32,
}

/// A record of a module's section: a CIE, an FDE, or in .eh_frame a record of length 0 (`kind` is a RECORD_
/// constant). Its program is the bytes from `program` up to `next`, the offset after the record. An FDE has the
/// offset of its CIE, and covers the addresses as linked from `start` up to, but not including, `end`. A CIE has its
/// version, its factors, and the register of the return address. Fields that a record doesn't have are 0.
#[repr(C)]
#[derive(Clone, Copy, Debug, Default)]
pub struct Record {
    pub next: u64,
    pub program: u64,
    pub cie: u64,
    pub start: u64,
    pub end: u64,
    pub code_alignment_factor: u64,
    pub data_alignment_factor: i64,
    pub kind: u32,
    pub version: u32,
    pub return_reg: u32,
    pub is_signal_frame: u32,
}

/// A process: its modules, each a compiled .debug_frame or .eh_frame section with a load address. The
/// fields are private. A process whose bytes are all 0 is closed: it has no module, and every call accepts it.
/// The library writes one byte of `opaque_open`, and may leave its other bytes uninitialized.
#[repr(C)]
pub struct Process {
    pub opaque: *mut c_void,
    pub opaque_open: MaybeUninit<u64>,
}

/// What a module's section is: .debug_frame of DWARF 5.
pub const DEBUG_FRAME: u32 = 0;
/// .eh_frame.
pub const EH_FRAME: u32 = 1;
/// .eh_frame of aarch64, which has instructions of its own.
pub const EH_FRAME_AARCH64: u32 = 2;
/// Or'ed to the number of an .eh_frame section: bad records are left out instead of refusing the section.
pub const LEAVE_OUT: u32 = 4;

pub const RECORD_CIE: u32 = 0;
pub const RECORD_FDE: u32 = 1;
pub const RECORD_EMPTY: u32 = 2;

/// A module to be added: `frame_length` bytes of its section, its load address and, if has_range isn't
/// 0, the first and the last address, as loaded, that it answers for. Otherwise these are the first
/// and the last address that the section covers. `cookie` is a number of the caller's own. `room`
/// bounds the number of bytes that the module's table stores; SIZE_MAX sets no bound. `kind` says what
/// the section is. The other three are for .eh_frame, and are addresses as linked: that of the
/// section, and what pointers relative to text and to data count from, or 0 if that isn't known.
#[repr(C)]
pub struct Module {
    pub frame: *const u8,
    pub frame_length: usize,
    pub load_address: u64,
    pub first: u64,
    pub last: u64,
    pub cookie: u64,
    pub room: usize,
    pub order: u32,
    pub address_size: u32,
    pub has_range: u32,
    pub kind: u32,
    pub section_address: u64,
    pub text_start: u64,
    pub data_start: u64,
}

/// A module of a process: its id, its cookie, its load address, and the first and the last address,
/// as loaded, that it answers for.
#[repr(C)]
#[derive(Clone, Copy, Debug, Default)]
pub struct Loaded {
    pub id: u64,
    pub cookie: u64,
    pub load_address: u64,
    pub first: u64,
    pub last: u64,
}

/// The value isn't available. (The seven RULE_ constants are the values of a rule's `kind`.)
pub const RULE_UNDEFINED: u32 = 1;
/// The value that the register has now.
pub const RULE_SAME_VALUE: u32 = 2;
/// Saved in memory at CFA + `offset`.
pub const RULE_OFFSET: u32 = 3;
/// The number CFA + `offset`.
pub const RULE_VAL_OFFSET: u32 = 4;
/// The value that register `source` has now.
pub const RULE_REGISTER: u32 = 5;
/// Saved in memory at the address that the expression gives.
pub const RULE_EXPRESSION: u32 = 6;
/// The value that the expression gives.
pub const RULE_VAL_EXPRESSION: u32 = 7;

/// How to find the value of register `reg` in the caller. If `kind` is one of the two for
/// expressions, the expression begins at `offset` in the section and has `length` bytes.
#[repr(C)]
#[derive(Clone, Copy, Debug, Default)]
pub struct Rule {
    pub offset: i64,
    pub length: u64,
    pub reg: u16,
    pub source: u16,
    pub kind: u32,
}

pub const MAX_RULES: usize = 128;

/// Stands for the CFA's rule where a register's number is expected.
pub const CFA_RULE: u32 = 0x10000;

/// A row of the module with this id, cookie and load address. The row covers the addresses as linked
/// from `start` up to, but not including, `end`. If cfa.kind is RULE_VAL_OFFSET, the CFA is the
/// value of register cfa.reg plus cfa.offset. If it is RULE_VAL_EXPRESSION, the CFA is the value
/// that an expression gives. `return_reg` is the register of the return address, and `count` the
/// number of registers that have a rule, at most MAX_RULES.
#[repr(C)]
#[derive(Clone, Copy, Debug, Default)]
pub struct Row {
    pub id: u64,
    pub cookie: u64,
    pub load_address: u64,
    pub start: u64,
    pub end: u64,
    pub cfa: Rule,
    pub return_reg: u32,
    pub count: u32,
}

/// A block of memory that starts at address `base`.
#[repr(C)]
#[derive(Clone, Copy)]
pub struct Block {
    pub base: u64,
    pub bytes: *const u8,
    pub length: usize,
}

/// The state of a stopped thread. The value of register n is contents[n] if contents[n] and
/// known[n / 8] exist and bit n % 8 of known[n / 8] is set (bit 0 is the least significant);
/// otherwise it isn't known. Memory is the bytes of the blocks; if two blocks contain an address,
/// the byte of the first block counts. The ABI is `kept` (the callee-saved registers, 127 at most)
/// and, if has_stack_pointer isn't 0, stack_pointer. The ABI applies to registers to which the row
/// gives no rule: in the caller, a register in `kept` has the value that it has now, the stack
/// pointer is the CFA, and any other register is undefined. The ABI names no register twice.
/// `signed_bits` are the bits of a signed return address that have its signature. Walks take them off
/// where the rows say that the return address is signed, and nowhere else.
#[repr(C)]
pub struct State {
    pub contents: *const u64,
    pub contents_length: usize,
    pub known: *const u8,
    pub known_length: usize,
    pub blocks: *const Block,
    pub blocks_length: usize,
    pub kept: *const u16,
    pub kept_length: usize,
    pub stack_pointer: u16,
    pub has_stack_pointer: u16,
    pub reserved: u32,
    pub signed_bits: u64,
}

/// No FDE covers the frame. This occurs only in the last frame of a walk. (This and the next four
/// are the values of `kind` in `Answer` and `Register`.)
pub const ANSWER_NOT_COVERED: u32 = 0;
/// The CFA, return address or register is `value`, which is below 2^w, where w is the address size
/// in bits.
pub const ANSWER_VALUE: u32 = 1;
/// The CFA, return address or register isn't available.
pub const ANSWER_UNDEFINED: u32 = 2;
/// The CFA, return address or register depends on a register or memory that isn't known, or on
/// memory past the highest address, 2^w - 1, where w is the address size in bits.
pub const ANSWER_UNREADABLE: u32 = 3;
/// The expression for the CFA, return address or register divides by zero.
pub const ANSWER_DIVISION_BY_ZERO: u32 = 4;

/// What is known of a CFA or a return address.
#[repr(C)]
#[derive(Clone, Copy, Debug, Default)]
pub struct Answer {
    pub value: u64,
    pub kind: u32,
    pub reserved: u32,
}

/// What is known of the register with this number.
#[repr(C)]
#[derive(Clone, Copy, Debug, Default)]
pub struct Register {
    pub value: u64,
    pub kind: u32,
    pub number: u32,
}

/// A caller. `cfa` is the canonical frame address of the frame that was called. `return_address` is
/// where the caller continues, just after the call. `count` is the number of registers that have a
/// rule from the row or the ABI, at most MAX_REGISTERS.
#[repr(C)]
#[derive(Clone, Copy, Debug, Default)]
pub struct Caller {
    pub cfa: Answer,
    pub return_address: Answer,
    pub count: u64,
}

pub const MAX_REGISTERS: usize = 256;

/// A frame: its address as loaded, and its canonical frame address (CFA).
#[repr(C)]
#[derive(Clone, Copy, Debug, Default)]
pub struct Frame {
    pub address: u64,
    pub cfa: Answer,
}

/// Remembers where recent walks found their rows, for dwcheck_backtrace_cached. Any bytes are a valid
/// cache, and affect only the time of a walk. No two calls may use the same cache at once.
#[repr(C)]
#[derive(Clone, Copy)]
pub struct Cache {
    pub hints: [u32; 1024],
}

impl Cache {
    /// Nothing was looked up yet.
    pub const EMPTY: Cache = Cache { hints: [0; 1024] };
}

/// The frame of a cursor is looked up at its address. (At any stage but this one and the next, the
/// walk has ended, and the stage minus 1 is the reason.)
pub const CURSOR_EXACT: u32 = 0;
/// The frame of a cursor is looked up at its address minus 1, inside of the call.
pub const CURSOR_CALLER: u32 = 1;

/// Where a walk up a stack is: the address of a frame, and its registers. The value of register n is
/// contents[n], if known[n] isn't 0; registers with numbers of 96 or more have no place. Any bytes
/// are a cursor.
#[repr(C)]
#[derive(Clone, Copy)]
pub struct Cursor {
    pub contents: [u64; 96],
    pub known: [u8; 96],
    pub address: u64,
    pub stage: u32,
    pub reserved: u32,
}

impl Cursor {
    /// No register is known.
    pub const EMPTY: Cursor = Cursor {
        contents: [0; 96],
        known: [0; 96],
        address: 0,
        stage: CURSOR_EXACT,
        reserved: 0,
    };
}

/// Reads `length` bytes of memory at `address` into `bytes`, and returns whether it could. `order` and
/// `address_size` are those of the process.
#[repr(C)]
pub struct Reader {
    pub read: Option<unsafe extern "C" fn(*mut c_void, u64, *mut u8, usize) -> bool>,
    pub data: *mut c_void,
    pub order: u32,
    pub address_size: u32,
}

/// The .eh_frame_hdr section of a module, which begins at `address` as linked. Its search table leads
/// from an address to the record of an FDE. If `length` is 0, there is none, and the section's records
/// are gone through.
#[repr(C)]
pub struct Header {
    pub bytes: *const u8,
    pub length: usize,
    pub address: u64,
}

/// The walk ends because `frames` has no room for more. (The five STOP_ constants are the reasons.)
pub const STOP_LIMIT: u32 = 0;
/// There is no row for the last frame.
pub const STOP_NOT_COVERED: u32 = 1;
/// The return address of the last frame is undefined. Either the row's rule says so, and then the
/// walk is complete (DWARF 5, section 6.4.4); or neither the row nor `kept` names the return
/// address register.
pub const STOP_RETURN_UNDEFINED: u32 = 2;
/// The return address of the last frame is UNREADABLE.
pub const STOP_RETURN_UNREADABLE: u32 = 3;
/// The return address of the last frame is DIVISION_BY_ZERO.
pub const STOP_RETURN_DIVISION_BY_ZERO: u32 = 4;

/// The expression is the rule of a CFA: the stack is empty at first. (This and the next two are the
/// kinds of expressions.)
pub const EXPRESSION_CFA: u32 = 0;
/// The expression is in the rule of a register: the stack begins with the CFA.
pub const EXPRESSION_REGISTER: u32 = 1;
/// The expression is the location of an object: the stack is empty at first.
pub const EXPRESSION_LOCATION: u32 = 2;

/// Values that an expression may need and that depend on where the program stopped: the CFA, the
/// frame base (for DW_OP_fbreg) and the address of the object (for DW_OP_push_object_address). Each
/// is known only if its flag, such as has_cfa, isn't 0.
#[repr(C)]
#[derive(Clone, Copy, Debug, Default)]
pub struct Context {
    pub cfa: u64,
    pub frame_base: u64,
    pub object: u64,
    pub has_cfa: u32,
    pub has_frame_base: u32,
    pub has_object: u32,
    pub reserved: u32,
}

/// The result is `value`, for the rule of a CFA or register. (This and the next eight are the
/// values of `kind` in `Value`. Those from LOCATION_NOWHERE to LOCATION_BYTES also occur in
/// `Piece`.)
pub const OUTCOME_VALUE: u32 = 0;
/// The operation at `offset` needs a register, memory or a context value that isn't known, or reads
/// memory past 2^w - 1. If has_cfa is 0, the rule of a register always has this outcome, at offset
/// 0 and after 0 steps.
pub const OUTCOME_UNREADABLE: u32 = 1;
/// The operation at `offset` divides by zero.
pub const OUTCOME_DIVISION_BY_ZERO: u32 = 2;
/// The object, or this piece of it, was optimized away.
pub const LOCATION_NOWHERE: u32 = 3;
/// In memory, at `value`.
pub const LOCATION_ADDRESS: u32 = 4;
/// In register `value`.
pub const LOCATION_REGISTER: u32 = 5;
/// Nowhere, but the object's value is `value`.
pub const LOCATION_VALUE: u32 = 6;
/// Nowhere, but the object's value is bytes, and `value` is their number.
pub const LOCATION_BYTES: u32 = 7;
/// `count` pieces, 32 at most.
pub const LOCATION_PIECES: u32 = 8;

/// The outcome of an expression. `value` is 0 for kinds whose comment doesn't mention it. `steps`
/// is the number of operations that were reached, including one that failed.
#[repr(C)]
#[derive(Clone, Copy, Debug, Default)]
pub struct Value {
    pub value: u64,
    pub kind: u32,
    pub offset: u32,
    pub steps: u32,
    pub count: u32,
}

/// A piece: where it is (`kind` and `value`, as in `Value`), and its size. The size is in bytes;
/// but if is_bits isn't 0, it is in bits, and the piece begins at bit bit_offset.
#[repr(C)]
#[derive(Clone, Copy, Debug, Default)]
pub struct Piece {
    pub value: u64,
    pub kind: u32,
    pub size: u32,
    pub bit_offset: u32,
    pub is_bits: u32,
}

pub const MAX_PIECES: usize = 32;

/// What to look up: `address`, an address as linked, in the list whose first byte is at offset
/// `list` of the section. `base` is the base address of the unit to which the list belongs.
#[repr(C)]
#[derive(Clone, Copy, Debug, Default)]
pub struct Lookup {
    pub base: u64,
    pub address: u64,
    pub list: u32,
    pub reserved: u32,
}

/// An expression: the offset in the section where it begins, and its length in bytes.
#[repr(C)]
#[derive(Clone, Copy, Debug, Default)]
pub struct Location {
    pub offset: u64,
    pub length: u64,
}
