//! Registers, by numbers, and sets of them: what a set contains, with or without others.

use std::fmt;

/// A register, by the number that its [`Machine`](crate::machine::Machine) has for it. For a general
/// register, that is its DWARF number.
#[derive(Clone, Copy, Debug, PartialEq, Eq, PartialOrd, Ord, Hash)]
pub struct Register(pub u8);

/// A set of registers with numbers below 64.
#[derive(Clone, Copy, Default, PartialEq, Eq, Hash)]
pub struct Registers(u64);

impl Register {
    /// The index of the register in an array with a place for each register.
    pub fn index(self) -> usize {
        usize::from(self.0)
    }
}

impl Registers {
    /// No register.
    pub const NONE: Registers = Registers(0);

    /// The set of these registers.
    pub const fn of(numbers: &[u8]) -> Registers {
        let (mut bits, mut at) = (0, 0);
        while at < numbers.len() {
            bits |= 1 << (numbers[at] & 63);
            at += 1;
        }
        Registers(bits)
    }

    /// Whether a register is in the set.
    pub fn contains(self, register: Register) -> bool {
        register.0 < 64 && self.0 >> register.0 & 1 != 0
    }

    /// Adds a register.
    pub fn insert(&mut self, register: Register) {
        self.0 |= 1 << (register.0 & 63);
    }

    /// Whether no register is in the set.
    pub fn is_empty(self) -> bool {
        self.0 == 0
    }

    /// The registers that are in one of two sets.
    #[must_use]
    pub fn with(self, other: Registers) -> Registers {
        Registers(self.0 | other.0)
    }

    /// The registers that are in this set, and not in the other.
    #[must_use]
    pub fn without(self, other: Registers) -> Registers {
        Registers(self.0 & !other.0)
    }

    /// The registers that are in both sets.
    #[must_use]
    pub fn both(self, other: Registers) -> Registers {
        Registers(self.0 & other.0)
    }

    /// The registers, ascending.
    pub fn iter(self) -> impl Iterator<Item = Register> {
        let mut bits = self.0;
        std::iter::from_fn(move || {
            let register = Register(bits.trailing_zeros() as u8);
            (bits != 0).then(|| {
                bits &= bits - 1;
                register
            })
        })
    }
}

impl fmt::Debug for Registers {
    fn fmt(&self, f: &mut fmt::Formatter<'_>) -> fmt::Result {
        f.debug_set().entries(self.iter()).finish()
    }
}

#[cfg(test)]
mod tests {
    use super::*;

    #[test]
    fn sets_list_their_registers() {
        let set = Registers::of(&[12, 3, 63]);
        assert_eq!(set.iter().map(|register| register.0).collect::<Vec<_>>(), [3, 12, 63]);
        assert_eq!(set.without(Registers::of(&[3])).both(Registers::of(&[3, 12])), Registers::of(&[12]));
        assert_eq!(Registers::NONE.iter().count(), 0);
    }
}
