//! The problems of location lists: which rule a list or an entry breaks.

use super::references::Reference;
use dwcheck::FaultKind;
use gimli::UnitOffset;
use std::fmt;

/// A rule that is broken.
#[derive(Clone, Copy, Debug, PartialEq, Eq)]
pub(crate) enum Kind {
    /// A rule of `dwcheck`.
    Dwcheck(FaultKind),
    /// An index of `.debug_info` leads to no list.
    NoSuchList,
    /// An index leads to no address of `.debug_addr`.
    NoSuchAddress,
}

/// A limit of `dwcheck` that the standard doesn't have.
#[derive(Clone, Copy, Debug, PartialEq, Eq, PartialOrd, Ord)]
pub enum Limit {
    /// A branch goes backward.
    Backward,
    /// The stack has more than 128 entries.
    TooDeep,
    /// The object has more than 32 pieces.
    TooManyPieces,
    /// A piece has 2^32 bytes or bits, or more.
    PieceSize,
    /// A register number is above 65535.
    RegisterNumber,
}

impl fmt::Display for Limit {
    fn fmt(&self, f: &mut fmt::Formatter<'_>) -> fmt::Result {
        f.write_str(match self {
            Limit::Backward => "backward branches",
            Limit::TooDeep => "stacks of more than 128 entries",
            Limit::TooManyPieces => "objects of more than 32 pieces",
            Limit::PieceSize => "pieces of 2^32 bytes or more",
            Limit::RegisterNumber => "register numbers above 65535",
        })
    }
}

/// Something wrong with a list.
#[derive(Clone, Copy, Debug, PartialEq, Eq)]
pub(crate) struct Problem {
    /// What is wrong.
    pub kind: Kind,
    /// The offset in the section of the fault.
    pub at: usize,
    /// The offset in the section of the list's entry, or `at` if it is in none.
    pub entry: usize,
    /// The offset of the list. `None` if there is none.
    pub list: Option<u64>,
    /// The entry of `.debug_info` that refers to the list, by its offset in the unit.
    pub reference: UnitOffset<usize>,
}

impl Problem {
    /// A fault at an offset of the section, in an entry that begins there.
    pub fn of(reference: &Reference, at: usize, kind: Kind) -> Self {
        Problem { kind, at, entry: at, list: reference.list, reference: reference.entry }
    }

    /// The limit of `dwcheck` that the expression passes, which the standard doesn't have. `None` if it breaks
    /// a rule of the standard.
    pub fn limit(&self) -> Option<Limit> {
        match self.kind {
            Kind::Dwcheck(FaultKind::Backward) => Some(Limit::Backward),
            Kind::Dwcheck(FaultKind::TooDeep) => Some(Limit::TooDeep),
            Kind::Dwcheck(FaultKind::TooManyPieces) => Some(Limit::TooManyPieces),
            Kind::Dwcheck(FaultKind::PieceSize) => Some(Limit::PieceSize),
            Kind::Dwcheck(FaultKind::RegisterNumber) => Some(Limit::RegisterNumber),
            _ => None,
        }
    }
}

impl Kind {
    /// Its name, such as `Underflow`.
    pub fn name(self) -> &'static str {
        match self {
            Kind::Dwcheck(kind) => kind.name(),
            Kind::NoSuchList => "NoSuchList",
            Kind::NoSuchAddress => "NoSuchAddress",
        }
    }

    /// The rule in words.
    pub fn rule(self) -> &'static str {
        match self {
            Kind::Dwcheck(kind) => kind.rule(),
            Kind::NoSuchList => {
                "an index of a location list is below the number of offsets in the table (DWARF 5, 7.29)"
            }
            Kind::NoSuchAddress => "an index of an address is one of the unit's part of .debug_addr (DWARF 5, 7.27)",
        }
    }
}
