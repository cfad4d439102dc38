//! What differs between two tables.

use crate::cfi::table_row::TableRow;
use std::fmt;
use std::ops::Range;

pub use dwcheck_lint::finding::Severity;

macro_rules! kinds {
    ($($kind:ident = $name:literal: $meaning:literal,)*) => {
        /// What two tables say differently.
        #[derive(Clone, Copy, Debug, PartialEq, Eq, PartialOrd, Ord, Hash)]
        #[allow(missing_docs)] // KINDS says what each of them is.
        pub enum Kind {
            $($kind,)*
        }

        /// All kinds, each with its name and what it means.
        pub const KINDS: &[(Kind, &str, &str)] = &[$((Kind::$kind, $name, $meaning),)*];
    };
}

kinds! {
    Cfa = "different CFA": "The tables give other values of the CFA.",
    ReturnAddress = "different return address": "The tables find the return address in other places, or one says that there is none.",
    Register = "different register": "The tables find the caller's value of a register in other places.",
    Signing = "different signing": "One table says that the return address is signed, and the other that it isn't.",
    SignalFrame = "different signal frame": "One table says that a frame is a signal frame, and the other that it isn't.",
    NoFde = "entry without FDE": "An entry of .eh_frame_hdr leads to no FDE.",
    OtherAddress = "entry with another address": "An entry of .eh_frame_hdr has another address than its FDE.",
    OutOfOrder = "entry out of order": "An entry of .eh_frame_hdr has a lower address than the one before it, so that a binary search may miss it.",
    Missing = "FDE without entry": "An FDE has no entry in .eh_frame_hdr, so that it isn't found while a program runs.",
}

impl Kind {
    /// Its name, such as `different CFA`.
    pub fn name(self) -> &'static str {
        KINDS.iter().find(|(kind, ..)| *kind == self).map_or("", |(_, name, _)| name)
    }

    /// How bad it is.
    pub fn severity(self) -> Severity {
        match self {
            Kind::Register => Severity::RegisterLost,
            _ => Severity::BacktraceBroken,
        }
    }
}

impl fmt::Display for Kind {
    fn fmt(&self, f: &mut fmt::Formatter<'_>) -> fmt::Result {
        f.write_str(self.name())
    }
}

/// Which of two rows the code supports.
#[derive(Clone, Copy, Debug, PartialEq, Eq)]
pub enum Support {
    /// That of the first table.
    First,
    /// That of the second table.
    Second,
    /// Neither.
    Neither,
    /// It isn't known.
    Unknown,
}

/// What differs between the rows of two tables, in one FDE of the first.
#[derive(Clone, Debug)]
pub struct Difference {
    /// What differs.
    pub kind: Kind,
    /// The first address of the FDE of the first table.
    pub fde: u64,
    /// The first address at which it differs and the code says which row is wrong; if it never does, the first address at
    /// which it differs.
    pub address: u64,
    /// At how many addresses it does.
    pub bytes: u64,
    /// In how many ranges these addresses are.
    pub places: usize,
    /// The DWARF numbers of the registers whose rules differ at the first address.
    pub registers: Vec<u16>,
    /// The rows of both tables at this address.
    pub rows: [TableRow; 2],
    /// Which of them the code supports.
    pub support: Support,
    /// What the code says at this address, in the form of a row. `None` if that isn't known.
    pub code: Option<String>,
    /// The address after the last one.
    pub(super) end: u64,
    /// Where it differs, ascending, as far as it is kept.
    pub(super) kept: Vec<Place>,
    /// Whether there are more places than are kept.
    pub(super) is_cut: bool,
}

/// Addresses that follow one another at which two rows differ.
#[derive(Clone, Debug)]
pub(super) struct Place {
    pub range: Range<u64>,
    pub rows: [TableRow; 2],
}

impl Place {
    /// Whether the same rows go on at these addresses.
    pub fn goes_on(&self, range: &Range<u64>, rows: [&TableRow; 2]) -> bool {
        let [first, second] = &self.rows;
        let is_same = |one: &TableRow, other: &TableRow| {
            one.row.has_rules_of(&other.row)
                && one.is_signed == other.is_signed
                && one.is_outermost == other.is_outermost
        };
        self.range.end == range.start && is_same(first, rows[0]) && is_same(second, rows[1])
    }
}
