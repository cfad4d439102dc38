//! Tests of steps that ask for memory.

use crate::common::*;
use dwcheck::{Abi, Block, Cursor, EhFrame, Module, Process, Registers, State, Stop, Target};
use std::panic::{catch_unwind, AssertUnwindSafe};

/// A state with these registers and no memory.
fn state(registers: &Registers) -> State<'_> {
    State {
        registers,
        memory: &[],
        abi: Abi::X86_64,
    }
}

/// Reads from the bytes at `base`.
fn read_at(base: u64, memory: &[u8], address: u64, bytes: &mut [u8]) -> bool {
    let start = address.wrapping_sub(base) as usize;
    match start
        .checked_add(bytes.len())
        .and_then(|end| memory.get(start..end))
    {
        Some(found) => bytes.copy_from_slice(found),
        None => return false,
    }
    true
}

#[test]
fn only_the_words_that_the_rules_read_are_asked_for() {
    let process = process_at(&row_1(), 0);
    let registers = Registers::from([(6, 0x7f00)]);
    let stack = hex("0080000000000000 3412000000000000");
    let mut cursor = Cursor::new(0x1010, &state(&registers)).unwrap();
    let mut asked = Vec::new();
    let frame = process.step_with(&mut cursor, &state(&registers), |address, bytes| {
        asked.push((address, bytes.len()));
        read_at(0x7f00, &stack, address, bytes)
    });
    assert_eq!(frame.unwrap().unwrap().address(), 0x1010);
    assert_eq!(asked, [(0x7f00, 8), (0x7f08, 8)]);
    assert_eq!(
        (cursor.address(), cursor.register(6)),
        (0x1234, Some(0x8000))
    );
    // no row covers the caller, so nothing is asked for
    let last = process.step_with(&mut cursor, &state(&registers), |_, _| unreachable!());
    assert_eq!(last.unwrap().unwrap().cfa(), None);
    let ended = process.step_with(&mut cursor, &state(&registers), |_, _| unreachable!());
    assert_eq!(ended, Ok(None));
}

/// An `.eh_frame` section at 0x2000, by GNU as for x86-64. The CFA of 0x1009 is the word at register 7
/// plus 8, register 3 is the CFA plus 8, and register 16 is saved at the CFA minus 8.
fn by_expressions() -> Process {
    let section = hex("14000000 00000000 01 7a525300 01 78 10 01 1b 0c0708 9001 00
         1c000000 1c000000 e9efffff 03000000 00 0f03770806 16030223 08 42 0803 0000");
    let mut process = Process::new(Target::LITTLE_64);
    let module = Module::at(0).eh_frame(EhFrame::at(0x2000));
    process.add(&section, module).unwrap();
    process
}

#[test]
fn a_step_is_the_one_over_blocks_also_by_expressions() {
    let process = by_expressions();
    let registers = Registers::from([(7, 0x7f00)]);
    let stack = hex("ffffffffffffffff 187f000000000000 7856000000000000");
    let blocks = [Block::new(0x7f00, &stack)];
    let with_blocks = State {
        memory: &blocks,
        ..state(&registers)
    };
    let mut whole = Cursor::new(0x1009, &with_blocks).unwrap();
    let mut asking = Cursor::new(0x1009, &state(&registers)).unwrap();
    let frame = process.step(&mut whole, &with_blocks).unwrap();
    let asked = process.step_with(&mut asking, &state(&registers), |address, bytes| {
        read_at(0x7f00, &stack, address, bytes)
    });
    assert_eq!(asked.unwrap(), frame);
    assert_eq!((whole.address(), whole.register(3)), (0x5678, Some(0x7f20)));
    assert_eq!(asking.address(), 0x5678);
    for number in 0..96 {
        assert_eq!(asking.register(number), whole.register(number));
    }
}

#[test]
fn what_cannot_be_read_is_unreadable_and_a_panic_goes_on() {
    let process = by_expressions();
    let registers = Registers::from([(7, 0x7f00)]);
    let mut cursor = Cursor::new(0x1009, &state(&registers)).unwrap();
    let panic = catch_unwind(AssertUnwindSafe(|| {
        process.step_with(&mut cursor, &state(&registers), |_, _| panic!("no memory"))
    }));
    assert_eq!(panic.unwrap_err().downcast_ref(), Some(&"no memory"));
    assert_eq!((cursor.address(), cursor.stop()), (0x1009, None));
    let frame = process.step_with(&mut cursor, &state(&registers), |_, _| false);
    assert!(frame.unwrap().unwrap().cfa().is_some());
    assert_eq!(cursor.stop(), Some(Stop::ReturnUnreadable));
}

#[test]
fn a_word_of_four_bytes_is_asked_for_where_eight_are_not_there() {
    let section = hex("00000010 ffffffff 04 00 04 00 04 7c 0e 0c0d04 8e01
         00000014 00000000 00008000 00000010 0000000000000000");
    let mut process = Process::new(Target::BIG_32);
    process.add(&section, Module::at(0)).unwrap();
    let registers = Registers::from([(13, 0x100)]);
    let mut cursor = Cursor::new(0x8000, &state(&registers)).unwrap();
    let stack = hex("00009999"); // at 0x100, and there the memory ends
    process
        .step_with(&mut cursor, &state(&registers), |address, bytes| {
            read_at(0x100, &stack, address, bytes)
        })
        .unwrap();
    assert_eq!(cursor.address(), 0x9999);
}
