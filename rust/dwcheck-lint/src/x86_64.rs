//! x86-64: its calling convention, and its decoder.

mod common;

use crate::instruction::Instruction;
use crate::machine::Machine;
use crate::register::{Register, Registers};
use crate::x86::remembered::Remembered;
use crate::x86::{direct_jump, Processor};
use crate::zydis::{text_by_zydis, Mode};
use common::decode_common;
use dwcheck_types::abi::{self, callee_saved};
use std::cell::RefCell;

const NAMES: [&str; 33] = [
    "rax", "rdx", "rcx", "rbx", "rsi", "rdi", "rbp", "rsp", "r8", "r9", "r10", "r11", "r12", "r13", "r14", "r15", "ra",
    "xmm0", "xmm1", "xmm2", "xmm3", "xmm4", "xmm5", "xmm6", "xmm7", "xmm8", "xmm9", "xmm10", "xmm11", "xmm12", "xmm13",
    "xmm14", "xmm15",
];

/// The DWARF numbers of the registers, by the numbers that instructions have for them.
const DWARF: [Register; 16] = {
    const fn r(number: u8) -> Register {
        Register(number)
    }
    [r(0), r(2), r(1), r(3), r(7), r(6), r(4), r(5), r(8), r(9), r(10), r(11), r(12), r(13), r(14), r(15)]
};

const RBP: Register = Register(abi::X86_64.frame_pointer as u8);
const RSP: Register = Register(abi::X86_64.stack_pointer as u8);

/// The callee-saved registers.
const CALLEE_SAVED: [Register; callee_saved::X86_64.len()] = {
    let mut callee_saved = [Register(0); callee_saved::X86_64.len()];
    let mut index = 0;
    while index < callee_saved.len() {
        callee_saved[index] = Register(callee_saved::X86_64[index] as u8);
        index += 1;
    }
    callee_saved
};

/// x86-64 with the calling convention of System V.
pub static X86_64: Machine = Machine {
    number: abi::X86_64.machine,
    address_bytes: 8,
    names: &NAMES,
    followed: 16,
    register: |number| Register(u8::try_from(number).unwrap_or(u8::MAX)),
    stack_pointer: RSP,
    frame_pointer: RBP,
    return_address: Register(abi::X86_64.program_counter as u8),
    callee_saved: &CALLEE_SAVED,
    callee_saved_if_named: Registers::NONE,
    stack_alignment: 1,
    has_rows_for_calls: false,
    changeable: Registers::of(&[0, 1, 2, 4, 5, 8, 9, 10, 11]),
    callees_pop: false,
    call_writes: Registers::NONE,
    entry_offset: 8,
    return_slot: Some(-8),
    exception_data: Registers::of(&[0, 1]),
    // exit, exit_group and rt_sigreturn.
    exits: (Register(0), &[60, 231, 15]),
    stub: |_, _| None,
    decode: decode_x86_64,
    text: |bytes, address| {
        text_by_zydis(Mode::X86_64, bytes, address).unwrap_or_else(|| "(not an instruction)".to_string())
    },
};

/// x86-64 as a processor that runs instructions of x86. A system call overwrites rax, rcx and r11.
const PROCESSOR: Processor = Processor {
    mode: Mode::X86_64,
    address_bytes: 8,
    registers: &DWARF,
    stack_pointer: RSP,
    system: Registers::of(&[0, 2, 11]),
};

thread_local! {
    static REMEMBERED: RefCell<Remembered> = RefCell::new(Remembered::new());
}

fn decode_x86_64(bytes: &[u8], address: u64) -> Instruction {
    if let Some(jump) = direct_jump(bytes, address, u64::MAX) {
        return jump;
    }
    match decode_common(bytes, address) {
        Some(found) => PROCESSOR.instruction(&found),
        None => REMEMBERED
            .with(|remembered| remembered.borrow_mut().instruction(bytes, || PROCESSOR.by_zydis(bytes, address))),
    }
}
