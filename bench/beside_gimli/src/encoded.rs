//! Splits the programs and expressions of real sections into parts, such that they can be encoded
//! for another byte order and address size.

use crate::target::Target;

/// A part of a program or an expression.
#[derive(Clone, Debug)]
enum Part {
    /// Bytes that are the same for every target.
    Bytes(Vec<u8>),
    /// A number that isn't an address, and its size in bytes.
    Fixed(u64, usize),
    Address(u64),
    /// An expression that is the operand of an instruction. Its length comes before it.
    Block(Encoded),
}

#[derive(Clone, Debug, Default)]
pub struct Encoded {
    parts: Vec<Part>,
}

/// The kinds of the operands of a call frame instruction, one letter or digit for each: `a` is an
/// address, a digit is a number of that many bytes, `u` is a LEB128 number, and `b` is an
/// expression with its length before it. `None` if the opcode isn't known.
fn instruction_operands(code: u8) -> Option<&'static str> {
    Some(match code {
        0x40..=0x7f | 0xc0..=0xff => "",
        0x80..=0xbf => "u",
        0x00 | 0x0a | 0x0b => "",
        0x01 => "a",
        0x02 => "1",
        0x03 => "2",
        0x04 => "4",
        0x06 | 0x07 | 0x08 | 0x0d | 0x0e | 0x13 => "u",
        0x05 | 0x09 | 0x0c | 0x11 | 0x12 | 0x14 | 0x15 => "uu",
        0x0f => "b",
        0x10 | 0x16 => "ub",
        _ => return None,
    })
}

/// The kinds of the operands of an operation, in the letters of `instruction_operands`. In
/// addition, `i` is a LEB128 length followed by that many bytes. `None` if the opcode isn't known.
fn operation_operands(code: u8) -> Option<&'static str> {
    Some(match code {
        0x03 => "a",
        0x08 | 0x09 | 0x15 | 0x94 => "1",
        0x0a | 0x0b | 0x28 | 0x2f => "2",
        0x0c | 0x0d => "4",
        0x0e | 0x0f => "8",
        0x10 | 0x11 | 0x23 | 0x70..=0x91 | 0x93 => "u",
        0x92 | 0x9d => "uu",
        0x9e => "i",
        0x06 | 0x12..=0x14 | 0x16..=0x17 | 0x19..=0x22 | 0x24..=0x27 | 0x29..=0x2e => "",
        0x30..=0x6f | 0x96 | 0x97 | 0x9c | 0x9f => "",
        _ => return None,
    })
}

/// The unsigned LEB128 number at the start of `bytes`, and its length in bytes. `None` if it has
/// more than nine bytes or doesn't end.
pub fn uleb(bytes: &[u8]) -> Option<(u64, usize)> {
    let mut number = 0;
    for (place, byte) in bytes.iter().take(9).enumerate() {
        number |= u64::from(byte & 0x7f) << (7 * place);
        if byte & 0x80 == 0 {
            return Some((number, place + 1));
        }
    }
    None
}

pub fn push_uleb(bytes: &mut Vec<u8>, mut number: u64) {
    while number >= 0x80 {
        bytes.push(number as u8 | 0x80);
        number >>= 7;
    }
    bytes.push(number as u8);
}

/// The first `size` bytes as a little-endian number. `None` if there are fewer bytes.
pub fn little(bytes: &[u8], size: usize) -> Option<u64> {
    let bytes = bytes.get(..size)?;
    Some(bytes.iter().rev().fold(0, |number, byte| number << 8 | u64::from(*byte)))
}

impl Encoded {
    /// Splits a little-endian program with addresses of 8 bytes. `None` if an opcode isn't known,
    /// or if an operand isn't complete.
    pub fn program(bytes: &[u8]) -> Option<Self> {
        Self::read(bytes, instruction_operands)
    }

    /// Splits a little-endian expression with addresses of 8 bytes. `None` if an opcode isn't
    /// known, or if an operand isn't complete.
    pub fn expression(bytes: &[u8]) -> Option<Self> {
        Self::read(bytes, operation_operands)
    }

    fn read(mut bytes: &[u8], operands: fn(u8) -> Option<&'static str>) -> Option<Self> {
        let mut parts = Vec::new();
        while let Some((&code, rest)) = bytes.split_first() {
            parts.push(Part::Bytes(vec![code]));
            bytes = rest;
            for operand in operands(code)?.bytes() {
                let (part, length) = Self::operand(operand, bytes)?;
                parts.push(part);
                bytes = bytes.get(length..)?;
            }
        }
        Some(Encoded { parts })
    }

    fn operand(operand: u8, bytes: &[u8]) -> Option<(Part, usize)> {
        Some(match operand {
            b'a' => (Part::Address(little(bytes, 8)?), 8),
            b'u' => {
                let end = bytes.iter().position(|byte| byte & 0x80 == 0)? + 1;
                (Part::Bytes(bytes[..end].to_vec()), end)
            }
            b'b' => {
                let (length, begin) = uleb(bytes)?;
                let end = begin + length as usize;
                (Part::Block(Self::expression(bytes.get(begin..end)?)?), end)
            }
            b'i' => {
                let (length, begin) = uleb(bytes)?;
                let end = begin + length as usize;
                (Part::Bytes(bytes.get(..end)?.to_vec()), end)
            }
            digit => {
                let size = usize::from(digit - b'0');
                (Part::Fixed(little(bytes, size)?, size), size)
            }
        })
    }

    /// Whether this is a program in which an instruction has an expression.
    pub fn has_expression(&self) -> bool {
        self.parts.iter().any(|part| matches!(part, Part::Block(_)))
    }

    /// The bytes of the program or expression for `target`.
    pub fn bytes(&self, target: Target) -> Vec<u8> {
        let mut bytes = Vec::new();
        for part in &self.parts {
            match part {
                Part::Bytes(same) => bytes.extend(same),
                Part::Fixed(number, size) => bytes.extend(target.number(*number, *size)),
                Part::Address(address) => bytes.extend(target.number(*address, target.size().into())),
                Part::Block(block) => {
                    let inner = block.bytes(target);
                    push_uleb(&mut bytes, inner.len() as u64);
                    bytes.extend(inner);
                }
            }
        }
        bytes
    }
}
