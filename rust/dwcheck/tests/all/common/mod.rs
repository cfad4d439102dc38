//! For all test files: the example sections of docs/WORKED.md, and helper functions. memory.rs doesn't
//! use all of them, so unused code is allowed.
#![allow(dead_code)]

use dwcheck::{Error, Module, ModuleId, Process, Target};

/// Converts hexadecimal digits to bytes. Spaces and line breaks are skipped.
pub fn hex(text: &str) -> Vec<u8> {
    let digits: Vec<u8> = text
        .chars()
        .filter(|c| !c.is_whitespace())
        .map(|c| c.to_digit(16).expect("hex text") as u8)
        .collect();
    assert_eq!(digits.len() % 2, 0, "whole bytes");
    digits
        .chunks(2)
        .map(|pair| pair[0] * 16 + pair[1])
        .collect()
}

/// The CIE that docs/WORKED.md calls C1, in hexadecimal.
pub const C1: &str = "14000000 ffffffff 04 00 08 00 01 78 10 0c0708 9001 00000000";

/// The header of the FDE that docs/WORKED.md calls H1, in hexadecimal. A program of eight bytes has
/// to follow.
pub const H1: &str = "1c000000 00000000 0010000000000000 2000000000000000";

/// The section that consists of [`C1`], [`H1`] and a program, which is padded with nops (zeros) to
/// eight bytes.
pub fn with_program(program: &str) -> Vec<u8> {
    let mut section = hex(&format!("{} {} {}", C1, H1, program));
    section.resize(section.len().max(56), 0);
    section
}

/// The section of row 1 in docs/WORKED.md.
pub fn row_1() -> Vec<u8> {
    with_program("41 0e10 8602 43 0d06")
}

/// The section that docs/WORKED.md calls X.
pub fn x() -> Vec<u8> {
    with_program("10 06 02 2308 16 07 00")
}

/// The location lists of row 16 in docs/WORKED.md.
pub fn row_16() -> Vec<u8> {
    hex("12000000 0500 08 00 00000000 04 00 10 01 50 05 02 309f 00")
}

/// The location lists that docs/WORKED.md calls L.
pub fn l() -> Vec<u8> {
    hex(
        "36000000 0500 08 00 00000000 06 0020000000000000 04 00 10 01 50
         08 0820000000000000 10 01 51 07 0020000000000000 0020000000000000 01 52 00",
    )
}

/// An `.eh_frame` section at 0x2000, by GNU as and ld for x86-64: the functions 0x1000..0x1009 and
/// 0x1009..0x100c, the second a signal frame whose CFA is the value of an expression.
pub fn eh_frame() -> Vec<u8> {
    hex(
        "1c000000 00000000 01 7a504c5200 01 78 10 07 9bed0f0000 1b 1b 0c0708 9001 0000
         24000000 24000000 d8efffff 09000000 04 cf1f0000 41 0e10 8602 43 0d06 41 2e10 41 0a 41 0c0708 41 0b 00000000
         14000000 00000000 01 7a525300 01 78 10 01 1b 0c0708 9001 00
         1c000000 1c000000 9defffff 03000000 00 0f03770806 16030223 08 42 0803 0000",
    )
}

/// An FDE with this initial location, this address range, and a program of eight nops. Its CIE is
/// at offset 0.
pub fn fde(initial: u64, range: u64) -> Vec<u8> {
    let mut bytes = hex("1c000000 00000000");
    bytes.extend(initial.to_le_bytes());
    bytes.extend(range.to_le_bytes());
    bytes.extend([0; 8]);
    bytes
}

/// A process with one module, whose section is for a little-endian target with 8-byte addresses.
pub fn process_at(section: &[u8], load_address: u64) -> Process {
    let mut process = Process::new(Target::LITTLE_64);
    add(&mut process, section, load_address).expect("a good section");
    process
}

pub fn add(process: &mut Process, section: &[u8], load_address: u64) -> Result<ModuleId, Error> {
    process.add(section, Module::at(load_address))
}

/// Adds a section to a process without modules, as a module that answers for all addresses, so that
/// it isn't refused if it covers no address.
pub fn add_alone(section: &[u8]) -> Result<(), Error> {
    let whole = Module::at(u64::MAX).range(0..=u64::MAX);
    Process::new(Target::LITTLE_64)
        .add(section, whole)
        .map(drop)
}

/// The name and the offset of the fault in a refusal, such as `NoSuchCie` and 28. `None` if the
/// result is `Ok`.
pub fn refusal<T>(result: Result<T, Error>) -> Option<(&'static str, u32)> {
    match result {
        Ok(_) => None,
        Err(Error::Refused(fault)) => Some((fault.name(), fault.offset)),
        Err(other) => panic!("{}", other),
    }
}
