//! The opcodes that are read without Zydis.

use crate::zydis::Mnemonic;

/// Which operands an instruction has, and where.
#[derive(Clone, Copy, Debug, PartialEq, Eq)]
pub(super) enum Shape {
    /// The instruction isn't read here.
    Unread,
    /// There are none that matter.
    Nothing,
    /// A register, whose number is in the opcode, and perhaps a number.
    InOpcode,
    /// rax or a part of it, and a number.
    Accumulator,
    /// A number.
    Number,
    /// A register or memory, and a register.
    ToEither,
    /// A register, and a register or memory.
    ToRegister,
    /// A register or memory, and perhaps a number. The ModRM byte says what is done.
    Either,
    /// A register or memory, and a vector.
    VectorToEither,
    /// A vector or a register that doesn't matter, and what is read for it.
    ToVector,
}

/// What an opcode says.
#[derive(Clone, Copy, Debug)]
pub(super) struct Opcode {
    pub shape: Shape,
    pub mnemonic: Mnemonic,
    /// The bytes of its operands. 0 stands for 4, or 8 if REX says so.
    pub bytes: u8,
    /// The bytes of its immediate number.
    pub immediate: u8,
    /// Whether its first operand is written.
    pub is_written: bool,
}

/// The prefixes before opcodes of two bytes: 1 to 3 for 0x66, 0xf3 and 0xf2, and 0 for what isn't one of them.
pub(super) static PREFIXES: [u8; 256] = {
    let mut prefixes = [0; 256];
    (prefixes[0x66], prefixes[0xf3], prefixes[0xf2]) = (1, 2, 3);
    prefixes
};

/// The opcodes of one byte, and those of two bytes, of which the first is 0x0f: without another prefix, and after
/// 0x66, 0xf3 and 0xf2.
pub(super) static OPCODES: [[Opcode; 256]; 5] =
    [one_byte_opcodes(), two_byte_opcodes(), vector_opcodes(0x66), vector_opcodes(0xf3), vector_opcodes(0xf2)];

const UNREAD: Opcode = Opcode::of(Shape::Unread, Mnemonic::Other);

/// The operations of the opcodes below 0x40, and of the groups 0x80 to 0x83.
const SUMS: [Mnemonic; 8] = [
    Mnemonic::Add,
    Mnemonic::Or,
    Mnemonic::Other,
    Mnemonic::Other,
    Mnemonic::And,
    Mnemonic::Subtract,
    Mnemonic::Xor,
    Mnemonic::Compare,
];

impl Opcode {
    const fn of(shape: Shape, mnemonic: Mnemonic) -> Opcode {
        Opcode { shape, mnemonic, bytes: 0, immediate: 0, is_written: false }
    }

    const fn bytes(self, bytes: u8) -> Opcode {
        Opcode { bytes, ..self }
    }

    const fn immediate(self, immediate: u8) -> Opcode {
        Opcode { immediate, ..self }
    }

    const fn written(self) -> Opcode {
        Opcode { is_written: true, ..self }
    }
}

const fn one_byte_opcodes() -> [Opcode; 256] {
    let (mut opcodes, mut number) = ([UNREAD; 256], 0);
    while number < 256 {
        opcodes[number] = one_byte_opcode(number as u8);
        number += 1;
    }
    opcodes
}

const fn two_byte_opcodes() -> [Opcode; 256] {
    let (mut opcodes, mut number) = ([UNREAD; 256], 0);
    while number < 256 {
        opcodes[number] = two_byte_opcode(number as u8);
        number += 1;
    }
    opcodes
}

const fn vector_opcodes(prefix: u8) -> [Opcode; 256] {
    let (mut opcodes, mut number) = ([UNREAD; 256], 0);
    while number < 256 {
        opcodes[number] = vector_opcode(prefix, number as u8);
        number += 1;
    }
    opcodes
}

const fn one_byte_opcode(number: u8) -> Opcode {
    use Mnemonic::*;
    match number {
        0x00..=0x3f => sum_opcode(number),
        0x50..=0x57 => Opcode::of(Shape::InOpcode, Push).bytes(8),
        0x58..=0x5f => Opcode::of(Shape::InOpcode, Pop).bytes(8),
        0x63 => Opcode::of(Shape::ToRegister, Movsxd).written(),
        0x68 => Opcode::of(Shape::Number, Push).immediate(4),
        0x69 => Opcode::of(Shape::ToRegister, Other).immediate(4).written(),
        0x6a => Opcode::of(Shape::Number, Push).immediate(1),
        0x6b => Opcode::of(Shape::ToRegister, Other).immediate(1).written(),
        0x80 => Opcode::of(Shape::Either, Other).bytes(1).immediate(1),
        0x81 => Opcode::of(Shape::Either, Other).immediate(4),
        0x83 | 0xc1 => Opcode::of(Shape::Either, Other).immediate(1),
        0x84 => Opcode::of(Shape::ToEither, Other).bytes(1),
        0x85 => Opcode::of(Shape::ToEither, Other),
        0x88 => Opcode::of(Shape::ToEither, Mov).bytes(1).written(),
        0x89 => Opcode::of(Shape::ToEither, Mov).written(),
        0x8a => Opcode::of(Shape::ToRegister, Mov).bytes(1).written(),
        0x8b => Opcode::of(Shape::ToRegister, Mov).written(),
        0x8d => Opcode::of(Shape::ToRegister, Lea).written(),
        0x90 | 0xcc => Opcode::of(Shape::Nothing, Padding),
        0xa8 => Opcode::of(Shape::Nothing, Other).immediate(1),
        0xa9 => Opcode::of(Shape::Nothing, Other).immediate(4),
        0xb0..=0xb7 => Opcode::of(Shape::InOpcode, Mov).bytes(1).immediate(1).written(),
        0xb8..=0xbf => Opcode::of(Shape::InOpcode, Mov).immediate(4).written(),
        0xc0 => Opcode::of(Shape::Either, Other).bytes(1).immediate(1),
        0xc3 => Opcode::of(Shape::Nothing, Return),
        0xc6 => Opcode::of(Shape::Either, Mov).bytes(1).immediate(1).written(),
        0xc7 => Opcode::of(Shape::Either, Mov).immediate(4).written(),
        0xc9 => Opcode::of(Shape::Nothing, Leave),
        0xd0 | 0xd2 | 0xf6 | 0xfe => Opcode::of(Shape::Either, Other).bytes(1),
        0xd1 | 0xd3 | 0xf7 | 0xff => Opcode::of(Shape::Either, Other),
        _ => UNREAD,
    }
}

/// Sums and the like: six opcodes of each, of which four have two operands of one byte or more, in both orders.
const fn sum_opcode(number: u8) -> Opcode {
    let mnemonic = SUMS[(number >> 3) as usize];
    let opcode = match number & 7 {
        0 => Opcode::of(Shape::ToEither, mnemonic).bytes(1),
        1 => Opcode::of(Shape::ToEither, mnemonic),
        2 => Opcode::of(Shape::ToRegister, mnemonic).bytes(1),
        3 => Opcode::of(Shape::ToRegister, mnemonic),
        4 => Opcode::of(Shape::Accumulator, mnemonic).bytes(1).immediate(1),
        5 => Opcode::of(Shape::Accumulator, mnemonic).immediate(4),
        _ => UNREAD,
    };
    match mnemonic {
        Mnemonic::Compare => opcode,
        _ => opcode.written(),
    }
}

/// What a ModRM byte with this number says of an opcode. `None` if it isn't read here.
pub(super) fn opcode_of_group(number: u8, field: u8, opcode: Opcode) -> Option<Opcode> {
    use Mnemonic::*;
    let (mnemonic, is_written) = match (number, field) {
        (0x80..=0x83, _) => (SUMS[usize::from(field & 7)], field != 7),
        (0x90..=0x9f | 0xc6 | 0xc7, 0) => (opcode.mnemonic, opcode.is_written),
        (0xc0 | 0xc1, 4) => (ShiftLeft, true),
        (0xc0 | 0xc1, 5) => (ShiftRight, true),
        (0xc0 | 0xc1 | 0xd0..=0xd3, 0..=3 | 7) | (0xd2 | 0xd3, 4 | 5) => (Other, true),
        (0xf6 | 0xf7, 2) => (Invert, true),
        (0xf6 | 0xf7, 3) => (Negate, true),
        (0xf6, 0) => return Some(opcode.immediate(1)),
        (0xf7, 0) => return Some(opcode.immediate(4)),
        (0xfe | 0xff, 0) => (Increment, true),
        (0xfe | 0xff, 1) => (Decrement, true),
        (0xff, 2) => return Some(Opcode { mnemonic: Call, ..opcode.bytes(8) }),
        (0xff, 4) => return Some(Opcode { mnemonic: Jump, ..opcode.bytes(8) }),
        (0xff, 6) => return Some(Opcode { mnemonic: Push, ..opcode.bytes(8) }),
        (0x1f, 0) => (Padding, false),
        _ => return None,
    };
    Some(Opcode { mnemonic, is_written, ..opcode })
}

const fn two_byte_opcode(number: u8) -> Opcode {
    use Mnemonic::*;
    match number {
        0x05 => Opcode::of(Shape::Nothing, System),
        0x0b => Opcode::of(Shape::Nothing, Stop),
        0x1f => Opcode::of(Shape::Either, Padding),
        0x11 | 0x29 => Opcode::of(Shape::VectorToEither, Other).bytes(16),
        0x10 | 0x28 | 0x2e | 0x2f | 0x54..=0x5f => Opcode::of(Shape::ToVector, Other),
        0x40..=0x4f => Opcode::of(Shape::ToRegister, MoveIf).written(),
        0x90..=0x9f => Opcode::of(Shape::Either, Other).bytes(1).written(),
        0xaf | 0xb6 | 0xb7 | 0xbe | 0xbf => Opcode::of(Shape::ToRegister, Other).written(),
        _ => UNREAD,
    }
}

const fn vector_opcode(prefix: u8, number: u8) -> Opcode {
    let to_vector = Opcode::of(Shape::ToVector, Mnemonic::Other);
    let store = Opcode::of(Shape::VectorToEither, Mnemonic::Other);
    match (prefix, number) {
        (0x66, 0x11 | 0x29 | 0x7f) | (0xf3, 0x7f) => store.bytes(16),
        (0x66, 0xd6) | (0xf2, 0x11) => store.bytes(8),
        (0xf3, 0x11) => store.bytes(4),
        (_, 0x10 | 0x58 | 0x59 | 0x5c | 0x5e) | (0x66 | 0xf3, 0x6f) | (0xf3, 0x7e) => to_vector,
        (0xf2 | 0xf3, 0x2a) => to_vector,
        (0x66, 0x28 | 0x2e | 0x2f | 0x54..=0x57 | 0x60..=0x62 | 0x6c | 0x6d | 0x74..=0x76) => to_vector,
        (0x66, 0xd4 | 0xdb | 0xeb | 0xef | 0xfa..=0xfe) => to_vector,
        (0x66, 0x70) => to_vector.immediate(1),
        _ => UNREAD,
    }
}
