//! What is known of a value: the lattice of the data flow, in which values are joined, merged, derived, masked.

use crate::instruction::{Entry, Key};
use crate::register::Register;

/// What an address is relative to.
///
/// The CFA is one base, and so is an address relative to it that was rounded down. Each place in the code
/// that computes an address in a way that isn't followed makes another, and so does each place where two
/// ways meet that bring different addresses. Two addresses with the same base differ by the difference of
/// their offsets, and nothing is known of addresses with different bases.
#[derive(Clone, Copy, Debug, PartialEq, Eq, PartialOrd, Ord, Hash)]
pub struct Base(u32);

/// What is known of a value.
#[derive(Clone, Copy, Debug, PartialEq, Eq)]
#[allow(missing_docs)] // The fields' names say what they are.
pub enum Value {
    /// Nothing.
    Unknown,
    /// It isn't a register's value at the function's entry, and it isn't the address of a slot that
    /// is followed. Telling this from an unknown value is what keeps findings on registers quiet.
    Clobbered,
    /// The value that a register had when the function was entered.
    Entry(Register),
    /// The return address that the function was entered with, signed by the CFA plus a number, and with a key, if that
    /// is known.
    SignedReturn { by: i64, key: Option<Key> },
    /// An address: a base plus an offset.
    Address { base: Base, offset: i64 },
    /// A number, or an address in the program.
    Number(i64),
    /// An entry of a table of jumps.
    TableEntry { table: i64, entry: Entry },
    /// The address that an entry of a table of jumps stands for. `anchor` is the distance from the table
    /// of the address that is added to the entry.
    TableTarget { table: i64, anchor: i32, entry: Entry },
}

impl Base {
    /// The CFA.
    pub const CFA: Base = Base(0);
    const ASSUMED: u32 = 1 << 31;
    const JOINED: u32 = 1 << 30;
    const ALIGNED: u32 = 1 << 29;

    /// The base that the code at an offset in its function makes.
    pub fn made_at(offset: u32) -> Base {
        Base((offset & (Base::ALIGNED - 1)) + 1)
    }

    /// The base of a register's value where a row was taken as an assumption.
    pub fn assumed(offset: u32, register: Register) -> Base {
        Base(Base::ASSUMED | Base::of(offset, register))
    }

    /// The base of a register's value where two ways meet.
    pub fn joined(offset: u32, register: Register) -> Base {
        Base(Base::JOINED | Base::of(offset, register))
    }

    /// A function has less than 2^23 bytes of code.
    fn of(offset: u32, register: Register) -> u32 {
        offset & 0x7f_ffff | u32::from(register.0 & 63) << 23
    }

    /// The CFA plus an offset, rounded down to a multiple of 2 to the power of `bits`. The CFA is a multiple
    /// of 16, as calling conventions demand, so the lowest 4 bits of the offset don't matter. `None` if the
    /// numbers are too large, or `bits` is less than 4.
    fn aligned(offset: i64, bits: u32) -> Option<Base> {
        let units = i32::try_from(offset >> 4).ok().filter(|units| (-(1 << 22)..1 << 22).contains(units))?;
        let units = units as u32 & 0x7f_ffff;
        Some(Base(Base::ALIGNED | units | bits << 23)).filter(|_| (4..64).contains(&bits))
    }

    /// Whether the base comes of a row that was taken as an assumption.
    pub fn is_assumed(self) -> bool {
        self.0 & Base::ASSUMED != 0
    }

    /// Whether two ways meet at an offset that bring different addresses.
    pub fn is_joined_at(self, offset: u32) -> bool {
        self.is_joined() && (self.0 ^ offset) & 0x7f_ffff == 0
    }

    /// Whether two ways meet that bring different addresses.
    pub fn is_joined(self) -> bool {
        self.0 & (Base::ASSUMED | Base::JOINED) == Base::JOINED
    }
}

impl Value {
    /// The return address as tables say that it is signed: by the CFA.
    pub fn signed_by_cfa(key: Option<Key>) -> Value {
        Value::SignedReturn { by: 0, key }
    }

    /// An address relative to the CFA.
    pub fn from_cfa(offset: i64) -> Value {
        Value::Address { base: Base::CFA, offset }
    }

    /// The offset of an address from the CFA.
    pub fn cfa_offset(self) -> Option<i64> {
        match self {
            Value::Address { base: Base::CFA, offset } => Some(offset),
            _ => None,
        }
    }

    /// The value plus a number.
    #[must_use]
    pub fn plus(self, number: i64) -> Value {
        match self {
            Value::Address { base, offset } => Value::Address { base, offset: offset.wrapping_add(number) },
            Value::Number(value) => Value::Number(value.wrapping_add(number)),
            Value::Unknown => Value::Unknown,
            other if number == 0 => other,
            _ => Value::Clobbered,
        }
    }

    /// The bits of an address that are in a mask. What the stack pointer is always a multiple of, so is the
    /// CFA. `None` if the result isn't known.
    pub fn masked(self, mask: i64, stack_alignment: i64) -> Option<Value> {
        let (offset, bits) = (self.cfa_offset()?, mask.trailing_zeros());
        if mask.leading_ones() + bits != 64 {
            return None;
        }
        if stack_alignment & mask == stack_alignment {
            return Some(Value::from_cfa(offset & mask));
        }
        Base::aligned(offset, bits).map(|base| Value::Address { base, offset: 0 })
    }

    /// What is known of the value of a register that is one of two, where two ways meet.
    #[must_use]
    pub fn joined(self, other: Value, offset: u32, register: Register) -> Value {
        let is_free = |value| matches!(value, Value::Address { base, .. } if !base.is_assumed());
        if self != other && is_free(self) && is_free(other) {
            return Value::Address { base: Base::joined(offset, register), offset: 0 };
        }
        self.merged(other)
    }

    /// Whether two values are the same, and neither is an address or has a number. This is a quick test.
    #[inline]
    pub fn is_plainly(self, other: Value) -> bool {
        match (self, other) {
            (Value::Unknown, Value::Unknown) | (Value::Clobbered, Value::Clobbered) => true,
            (Value::Entry(one), Value::Entry(other)) => one == other,
            _ => false,
        }
    }

    /// What is known of a value that is one of two.
    #[must_use]
    pub fn merged(self, other: Value) -> Value {
        let can_be_entry = |value| {
            matches!(value, Value::Unknown | Value::Entry(_) | Value::SignedReturn { .. } | Value::Address { .. })
        };
        match (self, other) {
            (one, other) if one == other => one,
            (one, other) if can_be_entry(one) || can_be_entry(other) => Value::Unknown,
            _ => Value::Clobbered,
        }
    }

    /// Whether it is known to be an entry value, or to be none.
    pub fn is_entry_or_none(self) -> bool {
        matches!(self, Value::Clobbered | Value::Entry(_) | Value::SignedReturn { .. })
    }

    /// What is known of a value that was made of this one in a way that isn't followed.
    #[must_use]
    pub fn derived(self) -> Value {
        match self {
            Value::Unknown => Value::Unknown,
            _ => Value::Clobbered,
        }
    }

    /// Whether it may be any address: nothing is known of it, or only that ways meet that bring different
    /// ones.
    pub fn is_open(self) -> bool {
        match self {
            Value::Unknown => true,
            Value::Address { base, .. } => base.is_joined(),
            _ => false,
        }
    }

    /// Whether two values contradict each other as addresses: both are addresses, and differ.
    pub fn contradicts(self, other: Value) -> bool {
        let is_address = |value| matches!(value, Value::Address { base, .. } if !base.is_joined());
        is_address(self) && is_address(other) && self != other
    }
}

#[cfg(test)]
mod tests {
    use super::*;

    #[test]
    fn merging_keeps_what_both_say() {
        let entry = Value::Entry(Register(3));
        assert_eq!(entry.merged(entry), entry);
        assert_eq!(entry.merged(Value::Clobbered), Value::Unknown);
        assert_eq!(Value::Number(1).merged(Value::Clobbered), Value::Clobbered);
        assert_eq!(Value::from_cfa(-8).merged(Value::from_cfa(-16)), Value::Unknown);
    }

    #[test]
    fn sums_of_entry_values_are_clobbered() {
        assert_eq!(Value::Entry(Register(6)).plus(8), Value::Clobbered);
        assert_eq!(Value::Entry(Register(6)).plus(0), Value::Entry(Register(6)));
        assert_eq!(Value::from_cfa(-8).plus(8), Value::from_cfa(0));
    }

    #[test]
    fn bases_of_code_and_of_rows_differ() {
        assert!(!Base::made_at(0).is_assumed() && Base::made_at(0) != Base::CFA);
        assert!(Base::assumed(0, Register(0)).is_assumed());
        assert!(
            Base::joined(0, Register(0)).is_joined() && Base::joined(8, Register(1)) != Base::joined(8, Register(2))
        );
    }

    #[test]
    fn addresses_are_rounded_down() {
        // The CFA is a multiple of 16, so these two are the same multiple of 32.
        assert_eq!(Value::from_cfa(-16).masked(-32, 1), Value::from_cfa(-8).masked(-32, 1));
        assert_ne!(Value::from_cfa(-16).masked(-32, 1), Value::from_cfa(-32).masked(-32, 1));
        assert_ne!(Value::from_cfa(-16).masked(-32, 1), Value::from_cfa(-16).masked(-64, 1));
        assert_eq!(Value::from_cfa(-24).masked(-16, 16), Some(Value::from_cfa(-32)));
        assert_eq!(Value::from_cfa(-24).masked(0xff, 1), None);
    }
}
