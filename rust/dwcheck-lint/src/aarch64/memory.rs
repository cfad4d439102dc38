//! Loads and stores of aarch64.

use super::{vector_register, write_of_register, Word, SP};
use crate::instruction::{Effect, Entry, MemoryOperand, Transfer};
use crate::register::{Register, Registers};

/// How the address of a load or a store is made.
#[derive(Clone, Copy, PartialEq, Eq)]
enum Mode {
    /// A register plus an offset.
    Offset,
    /// The same, and the register becomes the sum.
    Before,
    /// The register, to which the offset is added afterwards.
    After,
}

impl Word {
    pub(super) fn memory(self) -> Effect {
        match (self.bits(29, 27), self.bits(25, 24)) {
            (0b001, _) if self.bit(26) => self.vector_structures(),
            (0b001, _) => self.exclusive_transfer(),
            (0b011, 0b00) => write_of_register(self.loaded_or_stored(0)),
            (0b011, _) if self.bit(21) => self.memory_tags(),
            (0b011, _) if self.bits(11, 10) == 0b01 => self.memory_copy(),
            (0b011, _) => self.ordered_transfer(),
            (0b101, _) => self.pair_transfer(),
            (0b111, _) => self.single_transfer(),
            _ => Effect::Invalid,
        }
    }

    /// The register that is loaded or stored: a general one or a vector.
    fn loaded_or_stored(self, low: u32) -> Option<Register> {
        if self.bit(26) {
            self.vector(low)
        } else {
            self.general(low)
        }
    }

    /// A transfer with this offset.
    fn memory_transfer(self, mode: Mode, offset: i32, transfer: Transfer) -> Effect {
        let base = self.general_or_sp(5);
        let place = MemoryOperand { base, offset: if mode == Mode::After { 0 } else { offset } };
        let added = if mode == Mode::Offset { 0 } else { offset };
        if mode != Mode::Offset || transfer.count > 1 || self.bit(26) {
            return Effect::Transfer(Transfer { place, added, ..transfer });
        }
        let first = transfer.registers.iter().next().flatten();
        match (first, transfer.is_load, transfer.is_whole) {
            (Some(to), true, true) => Effect::Load { to, from: place },
            (Some(from), false, true) => Effect::Store { from, to: Some(place) },
            (register, true, _) => write_of_register(register),
            (_, false, _) => Effect::write(Registers::NONE, place, transfer.bytes),
        }
    }

    fn pair_transfer(self) -> Effect {
        let (size, is_load) = (self.bits(31, 30), self.bit(22));
        let (bytes, is_whole) = match (self.bit(26), size) {
            (true, size) => (4 << size.min(2), size > 0),
            (false, 0b10) => (8, true),
            (false, 0b01) if !is_load => return Effect::MayWrite { registers: Registers::NONE },
            (false, _) => (4, false),
        };
        let mode = match self.bits(24, 23) {
            0b01 => Mode::After,
            0b11 => Mode::Before,
            _ => Mode::Offset,
        };
        let registers = [self.loaded_or_stored(0), self.loaded_or_stored(10), None, None].into();
        let place = MemoryOperand { base: SP, offset: 0 };
        let transfer = Transfer { is_load, registers, count: 2, bytes, is_whole, place, added: 0 };
        self.memory_transfer(mode, self.signed(21, 15) * i32::from(bytes), transfer)
    }

    /// A load or a store of one register.
    fn single_transfer(self) -> Effect {
        let (size, operation, is_vector) = (self.bits(31, 30), self.bits(23, 22), self.bit(26));
        let is_wide_vector = is_vector && operation >= 0b10;
        let bytes = if is_wide_vector { 16 } else { 1 << size };
        let is_load = if is_vector { operation & 1 != 0 } else { operation != 0 };
        let is_whole = if is_vector { bytes >= 8 } else { size == 3 };
        let is_immediate = self.bit(24) || !self.bit(21);
        if !is_vector && size == 3 && operation >= 0b10 && (is_immediate || self.bits(11, 10) == 0b10) {
            return Effect::Nothing; // A prefetch.
        }
        let (mode, offset) = match (self.bit(24), self.bit(21), self.bits(11, 10)) {
            (true, ..) => (Mode::Offset, self.bits(21, 10) as i32 * i32::from(bytes)),
            (false, false, 0b01) => (Mode::After, self.signed(20, 12)),
            (false, false, 0b11) => (Mode::Before, self.signed(20, 12)),
            (false, false, _) => (Mode::Offset, self.signed(20, 12)),
            (false, true, 0b10) => return self.indexed_transfer(bytes, is_load, is_whole),
            (false, true, 0b00) => return self.atomic_operation(bytes),
            (false, true, _) => return self.authenticated_load(),
        };
        let registers = [self.loaded_or_stored(0), None, None, None].into();
        let place = MemoryOperand { base: SP, offset: 0 };
        self.memory_transfer(mode, offset, Transfer { is_load, registers, count: 1, bytes, is_whole, place, added: 0 })
    }

    /// A load or a store at the sum of two registers. Tables of jumps are read by such loads.
    fn indexed_transfer(self, bytes: u8, is_load: bool, is_whole: bool) -> Effect {
        let is_signed = self.bits(23, 22) >= 0b10;
        match (self.loaded_or_stored(0), is_load) {
            (Some(to), true) if !self.bit(26) => {
                let entry = Entry { bytes, is_signed, shift: 0 };
                Effect::LoadEntry { to, base: Some(self.general_or_sp(5)), offset: 0, entry }
            }
            (to, true) => write_of_register(to),
            (Some(from), false) if is_whole => Effect::Store { from, to: None },
            (_, false) => Effect::Nothing,
        }
    }

    /// An operation on memory, which loads the old value.
    fn atomic_operation(self, bytes: u8) -> Effect {
        let mut registers = Registers::NONE;
        self.general(0).into_iter().for_each(|register| registers.insert(register));
        let place = MemoryOperand { base: self.general_or_sp(5), offset: 0 };
        Effect::write(registers, place, bytes)
    }

    /// A load at an address that is authenticated first.
    fn authenticated_load(self) -> Effect {
        let mut registers = Registers::NONE;
        self.general(0).into_iter().for_each(|register| registers.insert(register));
        if self.bit(11) {
            registers.insert(self.general_or_sp(5));
        }
        Effect::MayWrite { registers }
    }

    /// Exclusive and ordered loads and stores, and `cas`.
    fn exclusive_transfer(self) -> Effect {
        let (is_ordered, is_load, is_pair) = (self.bit(23), self.bit(22), self.bit(21));
        let mut registers = Registers::NONE;
        let mut add = |register: Option<Register>| register.into_iter().for_each(|register| registers.insert(register));
        let is_pair_swap = !is_ordered && is_pair && !self.bit(31);
        match (is_ordered && is_pair, is_load) {
            (true, _) => add(self.general(16)),
            (false, _) if is_pair_swap => {
                add(self.general(16));
                add(Word(self.0 | 1 << 16).general(16));
            }
            (false, true) => {
                add(self.general(0));
                add(self.general(10).filter(|_| is_pair));
            }
            (false, false) if !is_ordered => add(self.general(16)),
            (false, false) => {}
        }
        let bytes = 1 << (self.bits(31, 30) + u32::from(is_pair && !is_ordered));
        let place = MemoryOperand { base: self.general_or_sp(5), offset: 0 };
        match !is_load || is_pair {
            true => Effect::write(registers, place, bytes),
            false => Effect::Write { registers, stored: None },
        }
    }

    /// `ldapur` and `stlur`.
    fn ordered_transfer(self) -> Effect {
        let place = MemoryOperand { base: self.general_or_sp(5), offset: self.signed(20, 12) };
        match (self.bits(23, 22) != 0, self.general(0)) {
            (true, to) => write_of_register(to),
            (false, Some(from)) if self.bits(31, 30) == 3 => Effect::Store { from, to: Some(place) },
            (false, _) => Effect::write(Registers::NONE, place, 1 << self.bits(31, 30)),
        }
    }

    /// Loads and stores of the tags of memory.
    fn memory_tags(self) -> Effect {
        match (self.bits(11, 10), self.general_or_sp(5)) {
            (0b00, _) => write_of_register(self.general(0)),
            (0b10, _) => Effect::Nothing,
            (_, base) => Effect::Derive { to: base, from: base },
        }
    }

    /// Instructions that copy or set memory, and count in three registers.
    fn memory_copy(self) -> Effect {
        let mut registers = Registers::NONE;
        [0, 5, 16].into_iter().filter_map(|low| self.general(low)).for_each(|register| registers.insert(register));
        Effect::Write { registers, stored: None }
    }

    /// Loads and stores of one to four vectors.
    fn vector_structures(self) -> Effect {
        let (is_multiple, is_load, is_after) = (!self.bit(24), self.bit(22), self.bit(23));
        let (count, is_whole) = match (is_multiple, self.bits(15, 12)) {
            (true, 0b0000) => (4, false),
            (true, 0b0010) => (4, true),
            (true, 0b0100) => (3, false),
            (true, 0b0110) => (3, true),
            (true, 0b0111) => (1, true),
            (true, 0b1000) => (2, false),
            (true, 0b1010) => (2, true),
            (true, _) => return Effect::Invalid,
            (false, operation) => (1 + (operation >> 1 & 1) * 2 + self.bits(21, 21), false),
        };
        let first = self.bits(4, 0);
        let mut registers = [None; 4];
        for (index, register) in registers.iter_mut().enumerate().take(count as usize) {
            *register = vector_register((first + index as u32) % 32);
        }
        let bytes = match (is_multiple, self.bits(15, 14)) {
            (true, _) => 8 << self.bits(30, 30),
            (false, 0b10) => 4 << self.bits(10, 10),
            (false, 0b11) => 1 << self.bits(11, 10),
            (false, scale) => 1 << scale,
        };
        let place = MemoryOperand { base: self.general_or_sp(5), offset: 0 };
        // A register that isn't known is added, or the number of bytes.
        let is_by_register = is_after && self.bits(20, 16) != 31;
        let added = if is_after && !is_by_register { count as i32 * i32::from(bytes) } else { 0 };
        if is_by_register && registers.iter().all(Option::is_none) {
            return Effect::Derive { to: place.base, from: place.base };
        }
        let registers = registers.into();
        Effect::Transfer(Transfer { is_load, registers, count: count as u8, bytes, is_whole, place, added })
    }
}
