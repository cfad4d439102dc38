//! Reads the instructions that most code is made of, without Zydis: an opcode of one or two bytes with general
//! registers and memory, or with vectors. They are read into what is asked of Zydis, and a test compares them with
//! what Zydis gives.

mod opcodes;

use crate::zydis::{Decoded, Mnemonic, Operand, NO_REGISTER, RIP};
use opcodes::{opcode_of_group, Opcode, Shape, OPCODES, PREFIXES};
use std::convert::TryInto;

/// How many bytes there have to be, so that no instruction ends after them.
const ENOUGH: usize = 16;

/// The bits of REX, by their numbers: a fourth bit for the numbers of three registers, and operands of 64 bits.
const OF_BASE: u8 = 0;
const OF_INDEX: u8 = 1;
const OF_FIELD: u8 = 2;
const WIDE: u8 = 3;

/// The number in a ModRM byte that says that a SIB byte follows, and the one in a SIB byte that there is no index.
const SIB: u8 = 4;

/// The number for which there is no base.
const NO_BASE: u8 = 5;

/// What is known of an instruction before its operands are read.
struct Head<'a> {
    code: &'a [u8; ENOUGH],
    has_rex: bool,
    /// The bits of REX. 0 without it.
    rex: u8,
    /// The last byte of its opcode.
    number: u8,
    opcode: Opcode,
    /// Where the bytes after the opcode begin.
    at: usize,
}

/// The instruction at the first byte, which is at this address. `None` if it isn't one that is read here.
pub(super) fn decode_common(bytes: &[u8], address: u64) -> Option<Decoded> {
    let head = Head::read(bytes.get(..ENOUGH)?.try_into().ok()?)?;
    match head.opcode.shape {
        Shape::Unread => None,
        Shape::Nothing => Some(head.decoded(head.at)),
        Shape::InOpcode | Shape::Accumulator | Shape::Number => head.without_modrm(),
        _ => head.with_modrm(address),
    }
}

impl Head<'_> {
    fn read(code: &[u8; ENOUGH]) -> Option<Head<'_>> {
        let table = PREFIXES[usize::from(code[0])];
        let mut at = usize::from(table > 0);
        let has_rex = code[at] & 0xf0 == 0x40;
        let rex = (code[at] & 15) * u8::from(has_rex);
        at += usize::from(has_rex);
        let is_long = code[at] == 0x0f;
        at += usize::from(is_long);
        let number = code[at];
        // REX makes another instruction of `nop`.
        if !is_long && (table > 0 || has_rex && number == 0x90) {
            return None;
        }
        let opcode = OPCODES[usize::from(table + u8::from(is_long))][usize::from(number)];
        Some(Head { code, has_rex, rex, number, opcode, at: at + 1 })
    }

    /// The number of a register, of which REX has a fourth bit.
    fn numbered(&self, low: u8, bit: u8) -> u8 {
        low & 7 | (self.rex >> bit & 1) << 3
    }

    /// The bytes of its operands.
    fn bytes(&self) -> u8 {
        match self.opcode.bytes {
            0 => 4 << (self.rex >> WIDE),
            bytes => bytes,
        }
    }

    /// A general register. Without REX, the last four registers of one byte are the second bytes of the first four.
    fn register(&self, number: u8) -> Operand {
        let bytes = self.bytes();
        let is_second_byte = bytes == 1 && !self.has_rex;
        Operand::general(if is_second_byte { number & 3 } else { number }, bytes * 8)
    }

    /// A number of up to 4 bytes at an offset, with its sign.
    fn signed(&self, at: usize, bytes: u8) -> Option<i64> {
        let word = u32::from_le_bytes(self.code.get(at..at + 4)?.try_into().ok()?);
        let unused = 64 - 8 * u32::from(bytes);
        Some(u64::from(word).checked_shl(unused).map_or(0, |word| word as i64 >> unused))
    }

    fn decoded(&self, end: usize) -> Decoded {
        Decoded::of(self.opcode.mnemonic, (end + usize::from(self.opcode.immediate)) as u8)
    }

    /// An instruction whose register, if it has one, is in its opcode.
    fn without_modrm(mut self) -> Option<Decoded> {
        let mut number = self.signed(self.at, self.opcode.immediate)?;
        let is_move = self.opcode.shape == Shape::InOpcode && self.opcode.mnemonic == Mnemonic::Mov;
        if is_move && self.bytes() == 8 {
            self.opcode.immediate = 8;
            number = i64::from_le_bytes(self.code.get(self.at..self.at + 8)?.try_into().ok()?);
        }
        let mut decoded = self.decoded(self.at);
        let register = match self.opcode.shape {
            Shape::InOpcode => self.register(self.numbered(self.number, OF_BASE)),
            Shape::Accumulator => self.register(0),
            _ => Operand::number(number),
        };
        decoded.operands = [register, Operand::number(number)];
        if self.opcode.is_written {
            decoded.write(&register, self.bytes());
        }
        Some(decoded)
    }

    /// An instruction with a register or memory.
    fn with_modrm(mut self, address: u64) -> Option<Decoded> {
        let modrm = self.code[self.at];
        let field = self.numbered(modrm >> 3, OF_FIELD);
        if self.opcode.shape == Shape::Either {
            self.opcode = opcode_of_group(self.number, field & 7, self.opcode)?;
        }
        let (mut either, end) = match modrm >> 6 {
            3 => (self.register(self.numbered(modrm, OF_BASE)), self.at + 1),
            _ => self.memory(modrm)?,
        };
        let mut decoded = self.decoded(end);
        if either.base == RIP {
            either.value = either.value.wrapping_add(address.wrapping_add(decoded.length.into()) as i64);
        }
        decoded.operands = match self.opcode.shape {
            Shape::ToEither => [either, self.register(field)],
            Shape::ToRegister => [self.register(field), either],
            Shape::Either => [either, Operand::number(self.signed(end, self.opcode.immediate)?)],
            _ => return Some(self.with_vector(decoded, &either)),
        };
        let [first, second] = decoded.operands;
        if self.opcode.mnemonic == Mnemonic::Lea && !second.is_memory() {
            return None;
        }
        if self.opcode.is_written {
            decoded.write(&first, self.bytes());
        }
        Some(decoded)
    }

    /// An instruction one of whose operands is a vector. Only what it stores matters.
    fn with_vector(&self, mut decoded: Decoded, either: &Operand) -> Decoded {
        if self.opcode.shape == Shape::VectorToEither && either.is_memory() {
            decoded.write(either, self.bytes());
        }
        decoded
    }

    /// Memory, and where its bytes end.
    fn memory(&self, modrm: u8) -> Option<(Operand, usize)> {
        let (mode, low, sib) = (modrm >> 6, modrm & 7, self.code[self.at + 1]);
        let has_sib = low == SIB;
        let low = if has_sib { sib & 7 } else { low };
        let has_base = low != NO_BASE || mode != 0;
        let no_base = if has_sib { NO_REGISTER } else { RIP };
        let base = if has_base { self.numbered(low, OF_BASE) } else { no_base };
        let index = self.numbered(sib >> 3, OF_INDEX);
        let has_index = has_sib && index != SIB;
        let (index, scale) = if has_index { (index, 1 << (sib >> 6)) } else { (NO_REGISTER, 0) };
        let bytes = if has_base { [0, 1, 4, 0][usize::from(mode)] } else { 4 };
        let at = self.at + 1 + usize::from(has_sib);
        Some((Operand::memory(base, index, scale, self.signed(at, bytes)?), at + usize::from(bytes)))
    }
}

#[cfg(test)]
mod tests {
    use super::super::PROCESSOR;
    use super::*;

    /// Bytes after a ModRM byte that make each form of a SIB byte, with a displacement and an immediate number.
    const SIBS: [u8; 6] = [0x24, 0x25, 0x65, 0x88, 0xe5, 0x1c];

    /// Compares each instruction that begins with these bytes and is read here with what Zydis gives. Returns how
    /// many there are.
    fn compare(begin: &[u8]) -> usize {
        let (mut count, mut bytes) = (0, [0x83; ENOUGH]);
        bytes[..begin.len()].copy_from_slice(begin);
        for modrm in 0..=255u8 {
            let has_sib = modrm < 0xc0 && modrm & 7 == SIB;
            for sib in SIBS.into_iter().take(if has_sib { SIBS.len() } else { 1 }) {
                bytes[begin.len()..begin.len() + 2].copy_from_slice(&[modrm, sib]);
                if let Some(found) = decode_common(&bytes, 0x1000) {
                    assert_eq!(PROCESSOR.instruction(&found), PROCESSOR.by_zydis(&bytes, 0x1000).0, "{:x?}", bytes);
                    count += 1;
                }
            }
        }
        count
    }

    #[test]
    fn instructions_are_read_as_by_zydis() {
        let prefixes: [&[u8]; 4] = [&[], &[0x66], &[0xf3], &[0xf2]];
        let rexes: [&[u8]; 5] = [&[], &[0x40], &[0x43], &[0x48], &[0x4f]];
        let mut count = 0;
        for (prefix, rex) in prefixes.iter().flat_map(|prefix| rexes.iter().map(move |rex| (prefix, rex))) {
            for opcode in 0..=255 {
                count += compare(&[prefix, *rex, &[opcode]].concat());
                count += compare(&[prefix, *rex, &[0x0f, opcode]].concat());
            }
        }
        assert!(count > 350_000, "{}", count);
    }
}
