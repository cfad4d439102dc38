//! aarch64: its calling convention, and its decoder of instruction words: immediates, branches, system, registers,
//! vectors.
//!
//! A64 has a few regular encodings, all of 4 bytes. The fields of an instruction are named by their
//! highest and lowest bits, as the architecture's manual numbers them.

mod memory;
mod signing;
mod text;

use crate::instruction::{Condition, Effect, Instruction, Scale, Target};
use crate::machine::Machine;
use crate::register::{Register, Registers};
use dwcheck_types::abi::{self, callee_saved};

const NAMES: [&str; 40] = [
    "x0", "x1", "x2", "x3", "x4", "x5", "x6", "x7", "x8", "x9", "x10", "x11", "x12", "x13", "x14", "x15", "x16", "x17",
    "x18", "x19", "x20", "x21", "x22", "x23", "x24", "x25", "x26", "x27", "x28", "x29", "x30", "sp", "d8", "d9", "d10",
    "d11", "d12", "d13", "d14", "d15",
];

/// The register of the return address.
const LINK: Register = Register(30);
const SP: Register = Register(abi::AARCH64.stack_pointer as u8);

/// The callee-saved registers: x19 to x29, and d8 to d15.
const CALLEE_SAVED: [Register; 19] = {
    let mut callee_saved = [Register(0); 19];
    let mut index = 0;
    while index < 19 {
        // x30, the last one of the general registers, isn't given back.
        let is_general = index < callee_saved::AARCH64.len() - 1;
        callee_saved[index] = Register(if is_general { callee_saved::AARCH64[index] as u8 } else { 21 + index as u8 });
        index += 1;
    }
    callee_saved
};

/// aarch64 with the calling convention of Arm's AAPCS64.
pub static AARCH64: Machine = Machine {
    number: abi::AARCH64.machine,
    address_bytes: 8,
    names: &NAMES,
    followed: 40,
    // The lower halves of v8 to v15 have the DWARF numbers 72 to 79.
    register: |number| match number {
        0..=31 => Register(number as u8),
        72..=79 => Register(number as u8 - 40),
        _ => Register(u8::MAX),
    },
    stack_pointer: SP,
    frame_pointer: Register(abi::AARCH64.frame_pointer as u8),
    return_address: LINK,
    callee_saved: &CALLEE_SAVED,
    callee_saved_if_named: Registers::of(&[32, 33, 34, 35, 36, 37, 38, 39]),
    stack_alignment: 16,
    // LLVM up to 14 writes such.
    has_rows_for_calls: true,
    changeable: Registers::of(&[0, 1, 2, 3, 4, 5, 6, 7, 8, 9, 10, 11, 12, 13, 14, 15, 16, 17, 18]),
    callees_pop: false,
    call_writes: Registers::of(&[30]),
    entry_offset: 0,
    return_slot: None,
    exception_data: Registers::of(&[0, 1, 2, 3]),
    // exit, exit_group and rt_sigreturn.
    exits: (Register(8), &[93, 94, 139]),
    stub: plt_stub_slot,
    decode: decode_aarch64,
    text: text::aarch64_text,
};

/// An instruction.
#[derive(Clone, Copy)]
struct Word(u32);

fn decode_aarch64(bytes: &[u8], address: u64) -> Instruction {
    match Word::read(bytes) {
        Some(word) => Instruction { length: 4, effect: word.effect(address) },
        None => Instruction { length: bytes.len().max(1) as u8, effect: Effect::Invalid },
    }
}

/// The entries of procedure linkage tables: `adrp x16; ldr x17, [x16, ..]; add x16, ..; br x17`, perhaps
/// after `bti c`, and perhaps with `autia1716` before the jump.
fn plt_stub_slot(bytes: &[u8], address: u64) -> Option<u64> {
    let effect =
        |index: usize| Some(Word::read(bytes.get(4 * index..)?)?.effect(address.wrapping_add(4 * index as u64)));
    let first = usize::from(effect(0)? == Effect::Nothing);
    let (page, pointer) = match (effect(first)?, effect(first + 1)?) {
        (Effect::Set { to, number }, Effect::Load { to: pointer, from }) if from.base == to => {
            (number.wrapping_add(from.offset.into()), pointer)
        }
        _ => return None,
    };
    let jump = Effect::Jump { target: Target::Register(pointer) };
    Some(page as u64).filter(|_| (first + 2..=first + 4).any(|index| effect(index) == Some(jump)))
}

/// A register that may be changed, or nothing for the register that is always zero.
fn write_of_register(register: Option<Register>) -> Effect {
    let mut registers = Registers::NONE;
    register.into_iter().for_each(|register| registers.insert(register));
    match register {
        Some(_) => Effect::Write { registers, stored: None },
        None => Effect::Nothing,
    }
}

impl Word {
    fn read(bytes: &[u8]) -> Option<Word> {
        Some(Word(u32::from_le_bytes(bytes.get(..4)?.try_into().ok()?)))
    }

    /// The bits from `high` down to `low`.
    fn bits(self, high: u32, low: u32) -> u32 {
        self.0 >> low & (u32::MAX >> (31 - (high - low)))
    }

    fn bit(self, place: u32) -> bool {
        self.0 >> place & 1 != 0
    }

    /// The bits as a signed number.
    fn signed(self, high: u32, low: u32) -> i32 {
        (self.0 << (31 - high)) as i32 >> (31 - high + low)
    }

    /// The general register whose number begins at a bit. `None` for the one that is always zero.
    fn general(self, low: u32) -> Option<Register> {
        Some(self.general_or_sp(low)).filter(|register| *register != SP)
    }

    /// The general register whose number begins at a bit, or the stack pointer.
    fn general_or_sp(self, low: u32) -> Register {
        Register(self.bits(low + 4, low) as u8)
    }

    /// The vector register whose number begins at a bit. `None` if it isn't followed.
    fn vector(self, low: u32) -> Option<Register> {
        vector_register(self.bits(low + 4, low))
    }

    fn is_wide(self) -> bool {
        self.bit(31)
    }

    /// The address that is a signed number of words, which these bits are, from the instruction.
    fn target(self, high: u32, low: u32, address: u64) -> u64 {
        address.wrapping_add((4 * i64::from(self.signed(high, low))) as u64)
    }

    fn effect(self, address: u64) -> Effect {
        match self.bits(28, 25) {
            0b1000 | 0b1001 => self.immediate(address),
            0b1010 | 0b1011 => self.branch(address),
            0b0100 | 0b0110 | 0b1100 | 0b1110 => self.memory(),
            0b0101 | 0b1101 => self.of_registers(),
            0b0111 | 0b1111 => self.of_vectors(),
            0b0010 => self.scalable_vectors(),
            _ if self.bits(31, 16) == 0 => Effect::Stop,
            _ => Effect::Invalid,
        }
    }

    /// Data processing with an immediate.
    fn immediate(self, address: u64) -> Effect {
        let to = self.general(0);
        match self.bits(25, 23) {
            0b000 | 0b001 => {
                let offset = i64::from(self.signed(23, 5)) << 2 | i64::from(self.bits(30, 29));
                let place = if self.is_wide() { (address & !0xfff) as i64 } else { address as i64 };
                let offset = if self.is_wide() { offset << 12 } else { offset };
                to.map_or(Effect::Nothing, |to| Effect::Set { to, number: place.wrapping_add(offset) })
            }
            0b010 => self.add_immediate(),
            0b011 => Effect::Derive { to: self.general_or_sp(0), from: self.general_or_sp(5) },
            0b100 => self.logical_immediate(),
            0b101 => self.move_wide(),
            _ => write_of_register(to),
        }
    }

    fn add_immediate(self) -> Effect {
        let (is_subtraction, sets_flags) = (self.bit(30), self.bit(29));
        let magnitude = i64::from(self.bits(21, 10)) << if self.bit(22) { 12 } else { 0 };
        let number = if is_subtraction { -magnitude } else { magnitude };
        let (to, from) = (self.general_or_sp(0), self.general_or_sp(5));
        match (sets_flags && to == SP, number) {
            (true, _) if is_subtraction => Effect::CompareNumber { number: magnitude },
            (true, _) => Effect::Nothing,
            _ if !self.is_wide() => write_of_register(Some(to)),
            (false, 0) => Effect::Move { to, from },
            (false, number) => Effect::Add { to, from, number },
        }
    }

    fn logical_immediate(self) -> Effect {
        let (operation, to) = (self.bits(30, 29), self.general_or_sp(0));
        let mask = bitmask_immediate(self.bits(22, 22), self.bits(21, 16), self.bits(15, 10)).map(|mask| mask as i64);
        match (operation, self.general(5), mask) {
            (0b11, ..) => write_of_register(self.general(0)),
            (0b01, None, Some(mask)) if self.is_wide() => Effect::Set { to, number: mask },
            (0b01, None, Some(mask)) => Effect::Set { to, number: mask & 0xffff_ffff },
            (0b00, Some(from), mask) if self.is_wide() => Effect::Align { to, from, mask },
            (_, Some(from), _) if to == SP => Effect::Derive { to, from },
            _ => write_of_register(Some(to)),
        }
    }

    fn move_wide(self) -> Effect {
        let shift = 16 * self.bits(22, 21);
        let field = i64::from(self.bits(20, 5)) << shift;
        let all = if self.is_wide() { -1 } else { 0xffff_ffff };
        match (self.general(0), self.bits(30, 29)) {
            (Some(to), 0b00) => Effect::Set { to, number: !field & all },
            (Some(to), 0b10) => Effect::Set { to, number: field },
            (Some(to), 0b11) => Effect::Insert { to, mask: 0xffff << shift, number: field },
            (to, _) => write_of_register(to),
        }
    }

    /// Branches, exceptions, and instructions of the system.
    fn branch(self, address: u64) -> Effect {
        let jump_if = |target, condition| Effect::JumpIf { target, condition };
        match (self.bits(31, 29), self.bits(28, 24)) {
            (0b000, 0b10100..=0b10111) => Effect::Jump { target: Target::Code(self.target(25, 0, address)) },
            (0b100, 0b10100..=0b10111) => Effect::Call { target: Target::Code(self.target(25, 0, address)) },
            (0b001 | 0b101, 0b10100 | 0b10101) => jump_if(self.target(23, 5, address), Condition::Other),
            (0b001 | 0b101, 0b10110 | 0b10111) => jump_if(self.target(18, 5, address), Condition::Other),
            (0b010, 0b10100) => match self.bits(3, 0) {
                0 => jump_if(self.target(23, 5, address), Condition::Equal),
                1 => jump_if(self.target(23, 5, address), Condition::NotEqual),
                14 | 15 => Effect::Jump { target: Target::Code(self.target(23, 5, address)) },
                _ => jump_if(self.target(23, 5, address), Condition::Other),
            },
            (0b110, 0b10110 | 0b10111) => self.branch_register(),
            (0b110, 0b10100) => self.exception(),
            (0b110, 0b10101) => self.system(),
            _ => Effect::Invalid,
        }
    }

    fn branch_register(self) -> Effect {
        let target = Target::Register(self.general_or_sp(5));
        // The highest bit says that the address is authenticated first.
        match self.bits(23, 21) {
            0b000 => Effect::Jump { target },
            0b001 => Effect::Call { target },
            // With authentication, the register isn't named.
            0b010 if matches!(self.bits(9, 5), 30 | 31) => Effect::Return { popped: 0 },
            0b010 => Effect::Jump { target },
            _ => Effect::Stop,
        }
    }

    fn exception(self) -> Effect {
        match (self.bits(23, 21), self.bits(1, 0)) {
            (0b000, 0b01) => Effect::System { registers: Registers::of(&[0]) },
            (0b000, _) => write_of_register(Some(Register(0))),
            _ => Effect::Stop,
        }
    }

    /// Hints, among which are the signing and the authentication of the return address, and registers of the
    /// system.
    fn system(self) -> Effect {
        match self.0 {
            0xd503_201f => Effect::Padding,
            // `dsb sy`, `isb` and `sb`, which hand-written code has after each return.
            0xd503_3f9f | 0xd503_3fdf | 0xd503_30ff => Effect::Padding,
            _ if self.bits(31, 12) == 0xd5032 && self.bits(4, 0) == 0b11111 => self.hint(),
            _ if self.bit(21) => write_of_register(self.general(0)),
            _ => Effect::Nothing,
        }
    }

    /// Data processing of registers.
    fn of_registers(self) -> Effect {
        let to = self.general(0);
        match (self.bits(28, 24), self.bits(23, 21)) {
            (0b01010, _) => self.logical(),
            (0b01011, _) if self.bit(21) => self.add_extended(),
            (0b01011, _) => self.add_shifted(),
            (0b11010, 0b000) if self.bits(15, 10) != 0 => Effect::Nothing,
            (0b11010, 0b010) => Effect::Nothing,
            (0b11010, 0b100) => self.conditional_select(),
            (0b11010, 0b110) if self.bit(30) && self.bits(20, 16) == 1 => self.signing(),
            _ => write_of_register(to),
        }
    }

    fn logical(self) -> Effect {
        let is_copy = self.bits(30, 29) == 0b01 && !self.bit(21) && self.bits(15, 10) == 0 && self.general(5).is_none();
        match (self.general(0), self.general(16)) {
            (Some(to), Some(from)) if is_copy && self.is_wide() => Effect::Move { to, from },
            (Some(to), None) if is_copy => Effect::Set { to, number: 0 },
            (to, _) => write_of_register(to),
        }
    }

    fn add_shifted(self) -> Effect {
        let (is_subtraction, sets_flags) = (self.bit(30), self.bit(29));
        let (is_left, shift) = (self.bits(23, 22) == 0, self.bits(15, 10) as u8);
        let (to, from, by) = match (self.general(0), self.general(5), self.general(16)) {
            (None, Some(one), Some(other)) if is_subtraction && sets_flags && self.is_wide() && shift == 0 => {
                return Effect::Compare { one, other };
            }
            (Some(to), Some(from), Some(by)) if self.is_wide() => (to, from, by),
            (to, ..) => return write_of_register(to),
        };
        match (is_subtraction, is_left) {
            (true, _) => Effect::SubtractRegister { to, from, by: Some(by).filter(|_| shift == 0) },
            (false, true) => Effect::AddRegister { to, from, by, scale: Scale { shift, is_extended: false } },
            (false, false) => write_of_register(Some(to)),
        }
    }

    fn add_extended(self) -> Effect {
        let (is_subtraction, sets_flags) = (self.bit(30), self.bit(29));
        let (to, from, extension) = (self.general_or_sp(0), self.general_or_sp(5), self.bits(15, 13));
        let shift = self.bits(12, 10) as u8;
        let is_plain = extension == 0b011 && shift == 0;
        match self.general(16) {
            Some(other) if is_subtraction && sets_flags && to == SP && is_plain => Effect::Compare { one: from, other },
            _ if sets_flags && to == SP => Effect::Nothing,
            Some(by) if !is_subtraction && self.is_wide() => {
                Effect::AddRegister { to, from, by, scale: Scale { shift, is_extended: extension >= 0b100 } }
            }
            by if is_subtraction && self.is_wide() => {
                Effect::SubtractRegister { to, from, by: by.filter(|_| is_plain) }
            }
            _ => write_of_register(Some(to)),
        }
    }

    /// One of two registers, by a condition.
    fn conditional_select(self) -> Effect {
        let is_copy = self.is_wide() && !self.bit(30) && self.bits(11, 10) == 0;
        match (self.general(0), self.general(5), self.general(16)) {
            (Some(to), Some(one), Some(other)) if is_copy && to == one => Effect::MayMove { to, from: other },
            (Some(to), Some(one), Some(other)) if is_copy && to == other => Effect::MayMove { to, from: one },
            (to, ..) => write_of_register(to),
        }
    }

    /// Floating point and vectors.
    fn of_vectors(self) -> Effect {
        let is_scalar = self.bits(28, 24) == 0b11110 && !self.bit(30);
        let is_conversion = is_scalar && self.bit(21) && self.bits(15, 10) == 0;
        let is_fixed_point = is_scalar && !self.bit(21);
        let is_comparison = is_scalar && self.bit(21) && (self.bits(13, 10) == 0b1000 || self.bits(11, 10) == 0b01);
        let is_copy = self.bits(28, 21) == 0b0111_0000 && !self.bit(29) && !self.bit(15) && self.bit(10);
        let to_general = match self.bits(18, 16) {
            _ if is_copy => matches!(self.bits(14, 11), 0b0101 | 0b0111),
            0b010 | 0b011 => false,
            0b111 => is_fixed_point,
            _ => is_conversion || is_fixed_point,
        };
        match (to_general, is_comparison) {
            (true, _) => write_of_register(self.general(0)),
            (false, true) => Effect::Nothing,
            (false, false) => write_of_register(self.vector(0)),
        }
    }

    /// Whether an instruction of the scalable vector extension writes a general register: those that count elements,
    /// or take one out of a vector.
    fn is_scalable_to_general(self) -> bool {
        let (group, is_count) = (self.bits(31, 24), self.bits(15, 14) == 0b10);
        match (group, self.bits(21, 19)) {
            (0x04, 0b100..=0b111) => matches!(self.bits(15, 12), 0b0101 | 0b1110 | 0b1111),
            (0x05, _) => matches!(self.bits(21, 17), 0b10000 | 0b11000) && self.bits(15, 13) == 0b101,
            (0x25, 0b100) => is_count,
            (0x25, 0b101) => self.bits(15, 11) == 0b10001,
            _ => false,
        }
    }

    /// The scalable vector extension. Which vectors and predicates its instructions write isn't told apart.
    fn scalable_vectors(self) -> Effect {
        if self.bits(31, 23) == 0b0_0000_1000 && self.bit(21) && self.bits(15, 12) == 0b0101 {
            return Effect::Derive { to: self.general_or_sp(0), from: self.general_or_sp(16) };
        }
        if self.is_scalable_to_general() {
            return write_of_register(self.general(0));
        }
        let mut registers = Registers::NONE;
        self.vector(0).into_iter().for_each(|register| registers.insert(register));
        Effect::MayWrite { registers }
    }
}

/// A vector register by its number. `None` if it isn't followed.
fn vector_register(number: u32) -> Option<Register> {
    Some(Register(number as u8 + 24)).filter(|_| (8..16).contains(&number))
}

/// The immediate of logical instructions: a run of ones, rotated, and repeated. `None` if there is none.
fn bitmask_immediate(wide: u32, rotation: u32, ones: u32) -> Option<u64> {
    let highest = 31u32.checked_sub((wide << 6 | !ones & 0x3f).leading_zeros())?;
    let (size, levels) = (1 << highest, (1 << highest) - 1);
    let (ones, rotation) = (ones & levels, rotation & levels);
    if highest < 1 || ones == levels {
        return None;
    }
    let run = (1u64 << (ones + 1)) - 1;
    let within = u64::MAX >> (64 - size);
    let element = if rotation == 0 { run } else { (run >> rotation | run << (size - rotation)) & within };
    Some((0..64 / size).fold(0, |mask, index| mask | element << (index * size)))
}
