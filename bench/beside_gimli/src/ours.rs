//! Calls the functions that crates/dw_times exports; those call dwcheck's libraries. A section or
//! an expression is passed as a pointer and a length. Where this file doesn't say what a function
//! returns, it is a sum of the results, so that the compiler can't leave out any of the work.


type Start = *const u8;

unsafe extern "C" {
    fn bench_check(section: Start, n: usize) -> usize;
    fn bench_check_lists(section: Start, n: usize) -> usize;
    fn bench_rows(section: Start, n: usize) -> u64;
    fn bench_rows_in(section: Start, n: usize) -> u64;
    fn bench_rows_again(section: Start, n: usize) -> u64;
    fn bench_rows_into(section: Start, n: usize) -> u64;
    fn bench_look_up(section: Start, n: usize, addresses: *const u64, m: usize, times: u32) -> u64;
    fn bench_unwind(section: Start, n: usize, addresses: *const u64, m: usize, times: u32) -> u64;
    fn bench_look_up_by_table(section: Start, n: usize, addresses: *const u64, m: usize, times: u32) -> u64;
    fn bench_unwind_by_table(section: Start, n: usize, addresses: *const u64, m: usize, times: u32) -> u64;
    fn bench_table_answer(section: Start, n: usize, big: bool, small: bool, addresses: *const u64, m: usize) -> u64;
    fn bench_check_eh_frame(section: Start, n: usize, section_address: u64) -> usize;
    fn bench_compile_eh_frame(section: Start, n: usize, section_address: u64) -> usize;
    fn bench_look_up_in_place(
        bytes: Start,
        n: usize,
        section_address: u64,
        header: Start,
        m: usize,
        header_address: u64,
        addresses: *const u64,
        count: usize,
        keeps: u32,
    ) -> u64;
    fn bench_evaluate(bytes: Start, n: usize, times: u32) -> u64;
    fn bench_check_expression(bytes: Start, n: usize, times: u32) -> u64;
    fn bench_certify(bytes: Start, n: usize, times: u32) -> u64;
    fn bench_frame_answer(section: Start, n: usize, big: bool, small: bool) -> u64;
    fn bench_lists_answer(
        section: Start,
        n: usize,
        big: bool,
        small: bool,
        base: u64,
        addresses: *const u64,
        m: usize,
    ) -> u64;
    fn bench_expression_answer(bytes: Start, n: usize, big: bool, small: bool, location: bool) -> u64;
}

/// Checks a frame section. Returns the number of its FDEs, or 0 if it is refused.
pub fn check(section: &[u8]) -> usize {
    unsafe { bench_check(section.as_ptr(), section.len()) }
}

/// Checks a section of location lists. Returns the number of its expressions, or 0 if it is
/// refused.
pub fn check_lists(section: &[u8]) -> usize {
    unsafe { bench_check_lists(section.as_ptr(), section.len()) }
}

/// Checks a section, and gets all rows from iterators, a new one for each FDE.
pub fn rows(section: &[u8]) -> u64 {
    unsafe { bench_rows(section.as_ptr(), section.len()) }
}

/// Checks a section, and gets all rows from iterators, a new one for each FDE, which run in one context.
pub fn rows_in(section: &[u8]) -> u64 {
    unsafe { bench_rows_in(section.as_ptr(), section.len()) }
}

/// Checks a section, and gets all rows from one iterator, which is reset for each FDE.
pub fn rows_again(section: &[u8]) -> u64 {
    unsafe { bench_rows_again(section.as_ptr(), section.len()) }
}

/// Checks a section, and writes all rows, one after another, to the same variable.
pub fn rows_into(section: &[u8]) -> u64 {
    unsafe { bench_rows_into(section.as_ptr(), section.len()) }
}

/// Checks a section once; then looks up the row of each address, `times` times.
pub fn look_up(section: &[u8], addresses: &[u64], times: u32) -> u64 {
    unsafe { bench_look_up(section.as_ptr(), section.len(), addresses.as_ptr(), addresses.len(), times) }
}

/// Checks a section once; then finds the caller of the frame at each address, `times` times.
pub fn unwind(section: &[u8], addresses: &[u64], times: u32) -> u64 {
    unsafe { bench_unwind(section.as_ptr(), section.len(), addresses.as_ptr(), addresses.len(), times) }
}

/// Checks the `.eh_frame` section at an address, and returns how many FDEs it has, or 0 if it is refused.
pub fn check_eh_frame(section: &[u8], address: u64) -> usize {
    unsafe { bench_check_eh_frame(section.as_ptr(), section.len(), address) }
}

/// Checks the `.eh_frame` section at an address and compiles its table, and returns how many FDEs the
/// section has, or 0 if that can't be done with one run of each program.
pub fn compile_eh_frame(section: &[u8], address: u64) -> usize {
    unsafe { bench_compile_eh_frame(section.as_ptr(), section.len(), address) }
}

/// Checks a section and compiles its table, once; then looks up the row of each address, `times`
/// times.
pub fn look_up_by_table(section: &[u8], addresses: &[u64], times: u32) -> u64 {
    unsafe { bench_look_up_by_table(section.as_ptr(), section.len(), addresses.as_ptr(), addresses.len(), times) }
}

/// Checks a section and compiles its table, once; then finds the caller of the frame at each
/// address, `times` times.
pub fn unwind_by_table(section: &[u8], addresses: &[u64], times: u32) -> u64 {
    unsafe { bench_unwind_by_table(section.as_ptr(), section.len(), addresses.as_ptr(), addresses.len(), times) }
}

/// The checksum of the rows that a section's compiled table has for these addresses, or 0 if the
/// section is refused.
pub fn table_answer(section: &[u8], big: bool, small: bool, addresses: &[u64]) -> u64 {
    unsafe { bench_table_answer(section.as_ptr(), section.len(), big, small, addresses.as_ptr(), addresses.len()) }
}

/// Checks the expression of a register's rule once, and evaluates it `times` times.
pub fn evaluate(bytes: &[u8], times: u32) -> u64 {
    unsafe { bench_evaluate(bytes.as_ptr(), bytes.len(), times) }
}

/// Checks the expression of a register's rule `times` times. Only whether it is accepted is found
/// out, without the certificate that `certify` makes.
pub fn check_expression(bytes: &[u8], times: u32) -> u64 {
    unsafe { bench_check_expression(bytes.as_ptr(), bytes.len(), times) }
}

/// Checks the expression of a register's rule `times` times. Each time its certificate is made,
/// which has the state of the stack at each operation.
pub fn certify(bytes: &[u8], times: u32) -> u64 {
    unsafe { bench_certify(bytes.as_ptr(), bytes.len(), times) }
}

/// The checksum of what a frame section contains, or the number of its first fault. The highest bit
/// is set only in a checksum.
pub fn frame_answer(section: &[u8], big: bool, small: bool) -> u64 {
    unsafe { bench_frame_answer(section.as_ptr(), section.len(), big, small) }
}

/// The checksum of what a section of location lists contains and of the expressions that apply at
/// some addresses, or the number of the section's first fault. The highest bit is set only in a
/// checksum. `base` is the base address of the unit.
pub fn lists_answer(section: &[u8], big: bool, small: bool, base: u64, addresses: &[u64]) -> u64 {
    unsafe {
        let (start, n) = (section.as_ptr(), section.len());
        bench_lists_answer(start, n, big, small, base, addresses.as_ptr(), addresses.len())
    }
}

/// The checksum of an expression's operations and outcome, or the number of its first fault. The
/// highest bit is set only in a checksum. The expression is a location if `location` is true, and a
/// register's rule otherwise.
pub fn expression_answer(bytes: &[u8], big: bool, small: bool, location: bool) -> u64 {
    unsafe { bench_expression_answer(bytes.as_ptr(), bytes.len(), big, small, location) }
}

/// How rows are looked up where they lie.
#[derive(Clone, Copy)]
pub enum Way {
    /// Each by itself.
    Alone = 0,
    /// With the rules of the last two CIEs kept from one look-up to the next.
    Kept = 1,
    /// Each by itself, as a compact row where it is one.
    Compact = 2,
}

/// Adds up where the rows of these addresses end, looked up in an `.eh_frame` section where it lies by
/// its `.eh_frame_hdr`. Each section comes with its address.
pub fn look_up_in_place(section: (&[u8], u64), header: (&[u8], u64), addresses: &[u64], way: Way) -> u64 {
    unsafe {
        bench_look_up_in_place(
            section.0.as_ptr(),
            section.0.len(),
            section.1,
            header.0.as_ptr(),
            header.0.len(),
            header.1,
            addresses.as_ptr(),
            addresses.len(),
            way as u32,
        )
    }
}
