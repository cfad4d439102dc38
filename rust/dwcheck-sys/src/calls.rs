//! The calls of `dwcheck.h`. Its structures and numbers are in lib.rs.

use crate::*;
use std::os::raw::c_char;

extern "C" {
    /// The version of the library's interface: 65536 * major + minor. A program keeps working with
    /// a library that has the same major version and the same or a later minor version.
    pub fn dwcheck_version() -> u32;

    /// Writes the name of a fault, such as "NoSuchCie", to `text`, without a NUL at the end and as
    /// much as fits. Writes the length of the whole name, at most 22, to `size`. Returns DONE; or
    /// NONE if no fault has the number, and then nothing is written. The call neither allocates nor
    /// frees.
    pub fn dwcheck_fault_name(
        number: u32,
        text: *mut u8,
        text_length: usize,
        size: *mut usize,
    ) -> u32;

    /// The text of a fault: the rule that it breaks, with its section of DWARF 5. NULL for other
    /// numbers.
    pub fn dwcheck_fault_text(number: u32) -> *const c_char;

    /// The text of a status. NULL for other numbers.
    pub fn dwcheck_status_text(status: u32) -> *const c_char;

    /// The text of the reason why a walk ends. NULL for other numbers.
    pub fn dwcheck_stop_text(stop: u32) -> *const c_char;

    /// Checks a .debug_frame section and a .debug_loclists section, either of which may be empty.
    /// Returns DONE if both are well formed; REFUSED, with the first fault in `fault`, if one
    /// isn't; NO_MEMORY; or BAD_TARGET. A section of 2^32 bytes or more is refused with fault 61,
    /// SectionTooLong. The length of the frame section is checked first, then that of the lists,
    /// then the frame section itself, then the lists. The call allocates memory in proportion to
    /// the sections, and frees it.
    pub fn dwcheck_check(
        frame: *const u8,
        frame_length: usize,
        lists: *const u8,
        lists_length: usize,
        order: u32,
        address_size: u32,
        fault: *mut Fault,
    ) -> u32;

    /// Checks a module's section as `dwcheck_process_add` does, but adds it nowhere. DONE writes what the section
    /// contains to `counts`, where exact copies of an FDE count once.
    pub fn dwcheck_module_check(
        module: *const Module,
        counts: *mut Counts,
        fault: *mut Fault,
    ) -> u32;

    /// Checks a module's section whose kind has LEAVE_OUT. DONE writes the number of records that are left out to
    /// `count`, and the records to `left_out`, as many as fit.
    pub fn dwcheck_module_left_out(
        module: *const Module,
        left_out: *mut LeftOut,
        left_out_length: usize,
        count: *mut usize,
        fault: *mut Fault,
    ) -> u32;

    /// Reads the record at `offset` of a module's section. Returns NONE if the section has no byte there.
    /// The call neither allocates nor frees.
    pub fn dwcheck_record_at(
        module: *const Module,
        offset: u64,
        record: *mut Record,
        fault: *mut Fault,
    ) -> u32;

    /// Checks as `dwcheck_check` does. DONE also writes what the sections contain to `counts`, and
    /// their expressions to `expressions`, those of the frame section first, as many as fit.
    pub fn dwcheck_report(
        frame: *const u8,
        frame_length: usize,
        lists: *const u8,
        lists_length: usize,
        order: u32,
        address_size: u32,
        counts: *mut Counts,
        expressions: *mut Expression,
        expressions_length: usize,
        fault: *mut Fault,
    ) -> u32;

    /// Checks a module's section, compiles all its rows into a table, and adds the module to the
    /// process. The section's bytes aren't needed after the call returns. `id` becomes the module's
    /// id. Ids count up from 1, so a process doesn't give an id twice while it is open, even if the
    /// module is removed. A process that dwcheck_process_share makes counts on from the same number.
    /// In the table, rows may share their rules. The call may return NO_ROOM although the table
    /// would fit thanks to this sharing. `room` doesn't bound the memory that the call uses while it
    /// checks and compiles. No two modules may answer for the same address. Returns DONE; REFUSED
    /// with the first fault of the section; NO_MEMORY; NO_ROOM; BAD_TARGET; TOO_LONG; BAD_KIND;
    /// OVERLAPS, and
    /// then `id` becomes the id of a module whose range shares an address with this one's; or
    /// BAD_RANGE. BAD_RANGE means that `first` is above `last` or `last` is 2^w or more; or that
    /// has_range is 0, and the section covers no address, or covers addresses on both sides of the
    /// highest one, 2^w - 1, as loaded. Only DONE changes the process, only DONE and OVERLAPS write
    /// `id`, and only REFUSED writes `fault`.
    pub fn dwcheck_process_add(
        process: *mut Process,
        module: *const Module,
        id: *mut u64,
        fault: *mut Fault,
    ) -> u32;

    /// Adds one module with both sections, as `dwcheck_process_add` does with one. The row of an
    /// address is that of `.debug_frame`, or if that has none, that of `.eh_frame`. Where
    /// `.debug_frame` has a row, an address is neither one of a signal frame nor one at which return
    /// addresses are signed. `module` has `.debug_frame`, and all that `dwcheck_process_add` uses of
    /// such a module. Of `eh_frame` only `frame`, `frame_length`, `kind`, `room` and the three fields
    /// at the end are used. Each `room` bounds the table of its own section. Without a range, the
    /// module answers for the addresses from the first to the last one that either section covers.
    /// Returns what `dwcheck_process_add` returns. The fault of REFUSED is that of `.debug_frame`
    /// (`IN_FRAME`), or if that has none, that of `.eh_frame` (`IN_EH_FRAME`).
    pub fn dwcheck_process_add_both(
        process: *mut Process,
        module: *const Module,
        eh_frame: *const Module,
        id: *mut u64,
        fault: *mut Fault,
    ) -> u32;

    /// Removes the module with this id. Returns DONE; or NONE if no module has this id. The call
    /// doesn't allocate. It frees the module's tables if no other process shares them.
    pub fn dwcheck_process_remove(process: *mut Process, id: u64) -> u32;

    /// Makes `other` a process with the modules of `process`, after closing what `other` was
    /// before. If `process` is closed, `other` is closed too, and the call returns DONE. The modules
    /// keep their ids. The tables are shared, not copied, and are freed with the last process that
    /// has them. Returns DONE; or NO_MEMORY, and then `other` is unchanged. `process` is unchanged in
    /// either case.
    pub fn dwcheck_process_share(process: *const Process, other: *mut Process) -> u32;

    /// Releases all modules and closes the process. A closed process may be closed again.
    pub fn dwcheck_process_close(process: *mut Process);

    /// Writes the module that answers for `address`, an address as loaded. Returns DONE; or NONE if
    /// no module does, and then nothing is written. The call takes O(log n) time among n modules. It
    /// neither allocates nor frees.
    pub fn dwcheck_module_at(process: *const Process, address: u64, module: *mut Loaded) -> u32;

    /// Writes the row that covers `address`, an address as loaded, from the module that answers for
    /// the address. The rules of registers go into `rules` in ascending order of registers, as many
    /// as fit. Returns DONE; or NONE if there is no such row, and then nothing is written. The call
    /// neither allocates nor frees.
    pub fn dwcheck_row_at(
        process: *const Process,
        address: u64,
        row: *mut Row,
        rules: *mut Rule,
        rules_length: usize,
    ) -> u32;

    /// Writes 1 to `is_signal_frame` if `address`, as loaded, is where a signal handler returns to, by
    /// the module's .eh_frame, else 0. Returns DONE.
    pub fn dwcheck_is_signal_frame(
        process: *const Process,
        address: u64,
        is_signal_frame: *mut u32,
    ) -> u32;

    /// Writes 1 to `is_signed` if the return address of a frame is signed at `address`, as loaded, by
    /// the module's .eh_frame for aarch64, else 0. Returns DONE.
    pub fn dwcheck_is_signed(process: *const Process, address: u64, is_signed: *mut u32) -> u32;

    /// Writes the bytes of a rule's expression to `bytes`, as many as fit, and their number to `size`.
    /// The rule is that of register `reg`, or of the CFA if `reg` is CFA_RULE, in the row that
    /// dwcheck_row_at gives for `address`. Returns DONE; or NONE if there is no row, or if the rule has
    /// no expression, and then nothing is written. The call neither allocates nor frees.
    pub fn dwcheck_rule_bytes(
        process: *const Process,
        address: u64,
        reg: u32,
        bytes: *mut u8,
        bytes_length: usize,
        size: *mut usize,
    ) -> u32;

    /// Writes the caller of the frame at `address`, an address as loaded, by the row that
    /// dwcheck_row_at gives for it. The address itself is looked up. So for the caller's own caller,
    /// pass the caller's return address, without its signed bits if dwcheck_is_signed wrote 1 for
    /// `address`, and minus 1 unless dwcheck_is_signal_frame did. The caller's registers go into `registers` in
    /// ascending order, as many as fit. Returns DONE; NONE if there is no row; or REFUSED if the ABI
    /// names too many registers or names one twice. Only DONE writes `caller` and `registers`, and
    /// only REFUSED writes `fault`. The call neither allocates nor frees.
    pub fn dwcheck_unwind(
        process: *const Process,
        address: u64,
        state: *const State,
        caller: *mut Caller,
        registers: *mut Register,
        registers_length: usize,
        fault: *mut Fault,
    ) -> u32;

    /// Walks up the stack from the frame at `address`, an address as loaded, and writes the frames
    /// to `frames`, the innermost first, as many as fit. `count` becomes their number, and `stop`
    /// the reason why there are no more. Frame 0 is looked up at its address, and each later frame
    /// at its address minus 1; but the caller of a signal frame at its address. Returns DONE; or REFUSED if the ABI names too many registers or
    /// names one twice. Only DONE writes `frames`, `count` and `stop`, and only REFUSED writes
    /// `fault`. The call neither allocates nor frees.
    pub fn dwcheck_backtrace(
        process: *const Process,
        address: u64,
        state: *const State,
        frames: *mut Frame,
        frames_length: usize,
        count: *mut usize,
        stop: *mut u32,
        fault: *mut Fault,
    ) -> u32;

    /// Does what dwcheck_backtrace does, with the same results, whatever `cache` holds. If the cache
    /// says where the row of a frame is, it isn't searched for; otherwise that is written to the
    /// cache. `cache` is never null. The call neither allocates nor frees.
    pub fn dwcheck_backtrace_cached(
        process: *const Process,
        address: u64,
        state: *const State,
        frames: *mut Frame,
        frames_length: usize,
        count: *mut usize,
        stop: *mut u32,
        cache: *mut Cache,
        fault: *mut Fault,
    ) -> u32;

    /// Places a cursor at the frame at `address`, an address as loaded, with the registers of
    /// `state`. The frame is looked up at its address if `exact` isn't 0, and at its address minus 1
    /// if it is. Returns DONE; REFUSED if the ABI names too many registers or names one twice; or
    /// NO_PLACE if a register with a number of 96 or more is known. Only DONE writes `cursor`, and
    /// only REFUSED writes `fault`. The call neither allocates nor frees.
    pub fn dwcheck_cursor_init(
        cursor: *mut Cursor,
        address: u64,
        state: *const State,
        exact: u32,
        fault: *mut Fault,
    ) -> u32;

    /// Writes the frame that a cursor is at to `frame`, and moves the cursor to the frame's caller.
    /// The memory and the ABI are those of `state`, and the registers those of the cursor. If there
    /// is no caller, the cursor keeps the frame's address and registers, and its stage says why.
    /// Returns DONE; NONE if the walk has ended; or NO_PLACE if a register of the caller with a
    /// number of 96 or more would be known. Only DONE changes `cursor` and `frame`. The call neither
    /// allocates nor frees.
    pub fn dwcheck_cursor_step(
        process: *const Process,
        cursor: *mut Cursor,
        state: *const State,
        frame: *mut Frame,
    ) -> u32;

    /// Steps as dwcheck_cursor_step does, but asks `reader` for the words that the step needs. The
    /// blocks of `state` aren't used. In a rule whose expression has branches, only what is read
    /// before the first branch is asked for. The call allocates only as dwcheck_evaluate does.
    pub fn dwcheck_cursor_step_with(
        process: *const Process,
        cursor: *mut Cursor,
        state: *const State,
        reader: *const Reader,
        frame: *mut Frame,
    ) -> u32;

    /// Writes the row that covers `address`, an address as loaded, without preparation: only the FDE to
    /// which the table of `header` leads and its CIE are read and checked. The row is written as by
    /// dwcheck_row_at, with the id 0, and `is_signal_frame` as by dwcheck_is_signal_frame. Returns DONE;
    /// NONE if the table leads to no FDE that covers the address; REFUSED with the first fault of the
    /// FDE and its CIE; NO_ROOM if the two have more than 32 expressions, or one of more than 16 bytes;
    /// TOO_LONG; BAD_KIND; BAD_TARGET; or NO_TABLE. Only DONE writes `row`, `rules` and
    /// `is_signal_frame`, and only REFUSED writes `fault`. The call neither allocates nor frees.
    pub fn dwcheck_row_in(
        module: *const Module,
        header: *const Header,
        address: u64,
        row: *mut Row,
        rules: *mut Rule,
        rules_length: usize,
        is_signal_frame: *mut u32,
        fault: *mut Fault,
    ) -> u32;

    /// Looks up `address` as dwcheck_row_in does, and writes 1 to `is_signed` if the return address is
    /// signed in its row, else 0. Returns what dwcheck_row_in returns. Only DONE writes `is_signed`, and
    /// only REFUSED writes `fault`.
    pub fn dwcheck_is_signed_in(
        module: *const Module,
        header: *const Header,
        address: u64,
        is_signed: *mut u32,
        fault: *mut Fault,
    ) -> u32;

    /// Steps as dwcheck_cursor_step does, by the row that dwcheck_row_in finds for the frame. If it
    /// finds none, the walk ends. Returns DONE; NONE if the walk has ended; NO_PLACE; or any other
    /// status that dwcheck_row_in returns. Only DONE changes `cursor` and `frame`, and only REFUSED
    /// writes `fault`. The call neither allocates nor frees.
    pub fn dwcheck_step_in(
        module: *const Module,
        header: *const Header,
        cursor: *mut Cursor,
        state: *const State,
        frame: *mut Frame,
        fault: *mut Fault,
    ) -> u32;

    /// Checks all paths of an expression, and runs it with the registers and memory of `state`,
    /// whose ABI isn't used. The pieces of the result go into `pieces`, as many as fit. If the
    /// result is LOCATION_BYTES, or if piece `n` (counted from 0) is, these bytes go into `bytes`,
    /// as many as fit. Returns DONE; REFUSED with the first fault of the expression; NO_MEMORY;
    /// BAD_TARGET; TOO_LONG; or BAD_KIND. Only DONE writes `value`, `pieces` and `bytes`, and only
    /// REFUSED writes `fault`. The call allocates memory only if the expression has more than 16
    /// operations and branches or is refused, and frees the memory.
    pub fn dwcheck_evaluate(
        expression: *const u8,
        expression_length: usize,
        order: u32,
        address_size: u32,
        kind: u32,
        context: *const Context,
        state: *const State,
        n: u32,
        value: *mut Value,
        pieces: *mut Piece,
        pieces_length: usize,
        bytes: *mut u8,
        bytes_length: usize,
        fault: *mut Fault,
    ) -> u32;

    /// Checks a .debug_loclists section, and writes the expressions of a list that apply at an
    /// address into `locations`, in the order of the list, as many as fit. `count` becomes the
    /// number written; if it is `locations_length`, there may be more. Returns DONE; NONE if no
    /// list begins at `lookup.list`; REFUSED with the first fault; NO_MEMORY; BAD_TARGET; or
    /// TOO_LONG. Only DONE writes `locations` and `count`, and only REFUSED writes `fault`. The
    /// call takes time and memory in proportion to the section, and frees the memory.
    pub fn dwcheck_locations(
        lists: *const u8,
        lists_length: usize,
        order: u32,
        address_size: u32,
        lookup: *const Lookup,
        locations: *mut Location,
        locations_length: usize,
        count: *mut usize,
        fault: *mut Fault,
    ) -> u32;

    /// The same, but reads only the list at `lookup.list`. NONE means that the section has no byte
    /// there, and REFUSED that the bytes there are no list.
    pub fn dwcheck_list_locations(
        lists: *const u8,
        lists_length: usize,
        order: u32,
        address_size: u32,
        lookup: *const Lookup,
        locations: *mut Location,
        locations_length: usize,
        count: *mut usize,
        fault: *mut Fault,
    ) -> u32;
}
