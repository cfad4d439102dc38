//! i386: its calling convention, and its decoder.

use crate::instruction::{Effect, Instruction};
use crate::machine::Machine;
use crate::register::{Register, Registers};
use crate::x86::remembered::Remembered;
use crate::x86::{direct_jump, Processor};
use crate::zydis::{text_by_zydis, Mode};
use dwcheck_types::abi::{self, callee_saved};
use std::cell::RefCell;

const NAMES: [&str; 29] = [
    "eax", "ecx", "edx", "ebx", "esp", "ebp", "esi", "edi", "ra", "eflags", "?", "st0", "st1", "st2", "st3", "st4",
    "st5", "st6", "st7", "?", "?", "xmm0", "xmm1", "xmm2", "xmm3", "xmm4", "xmm5", "xmm6", "xmm7",
];

/// The DWARF numbers of the registers are those that instructions have for them.
const DWARF: [Register; 8] = {
    const fn r(number: u8) -> Register {
        Register(number)
    }
    [r(0), r(1), r(2), r(3), r(4), r(5), r(6), r(7)]
};

const ESP: Register = Register(abi::I386.stack_pointer as u8);

/// The callee-saved registers.
const CALLEE_SAVED: [Register; callee_saved::I386.len()] = {
    let mut callee_saved = [Register(0); callee_saved::I386.len()];
    let mut index = 0;
    while index < callee_saved.len() {
        callee_saved[index] = Register(callee_saved::I386[index] as u8);
        index += 1;
    }
    callee_saved
};

/// The bit of an address that says that it is relative to the global offset table, by which position-independent code
/// of i386 finds the pointers of its procedure linkage table.
pub const IN_OFFSET_TABLE: u64 = 1 << 63;

/// i386 with the calling convention of System V.
pub static I386: Machine = Machine {
    number: abi::I386.machine,
    address_bytes: 4,
    names: &NAMES,
    followed: 8,
    register: |number| Register(u8::try_from(number).unwrap_or(u8::MAX)),
    stack_pointer: ESP,
    frame_pointer: Register(abi::I386.frame_pointer as u8),
    return_address: Register(abi::I386.program_counter as u8),
    callee_saved: &CALLEE_SAVED,
    callee_saved_if_named: Registers::NONE,
    stack_alignment: 1,
    has_rows_for_calls: false,
    changeable: Registers::of(&[0, 1, 2]),
    callees_pop: true,
    call_writes: Registers::NONE,
    entry_offset: 4,
    return_slot: Some(-4),
    exception_data: Registers::of(&[0, 2]),
    // exit, sigreturn, rt_sigreturn and exit_group.
    exits: (Register(0), &[1, 119, 173, 252]),
    stub: pointer_of_stub,
    decode: decode_i386,
    text: |bytes, address| {
        text_by_zydis(Mode::I386, bytes, address).unwrap_or_else(|| "(not an instruction)".to_string())
    },
};

/// i386 as a processor that runs instructions of x86. A system call overwrites eax.
const PROCESSOR: Processor = Processor {
    mode: Mode::I386,
    address_bytes: 4,
    registers: &DWARF,
    stack_pointer: ESP,
    system: Registers::of(&[0]),
};

thread_local! {
    static REMEMBERED: RefCell<Remembered> = RefCell::new(Remembered::new());
}

fn decode_i386(bytes: &[u8], address: u64) -> Instruction {
    // A call of the next instruction is how code finds its own address: it pops what the call has pushed.
    if let [0xe8, 0, 0, 0, 0, ..] = *bytes {
        let number = (address.wrapping_add(5) & u64::from(u32::MAX)) as i64;
        return Instruction { length: 5, effect: Effect::PushNumber { number } };
    }
    direct_jump(bytes, address, u32::MAX.into()).unwrap_or_else(|| {
        REMEMBERED.with(|remembered| remembered.borrow_mut().instruction(bytes, || PROCESSOR.by_zydis(bytes, address)))
    })
}

/// The pointer by which position-independent code jumps, `jmp *N(%ebx)`, perhaps after `endbr32`.
fn pointer_of_stub(bytes: &[u8], _: u64) -> Option<u64> {
    match bytes.strip_prefix(&[0xf3, 0x0f, 0x1e, 0xfb]).unwrap_or(bytes) {
        [0xff, 0xa3, a, b, c, d, ..] => Some(IN_OFFSET_TABLE | u64::from(u32::from_le_bytes([*a, *b, *c, *d]))),
        _ => None,
    }
}
