//! The rules of SFrame sections, by their numbers. docs/SFRAME.md has the same list.

use std::fmt;

macro_rules! rules {
    ($($number:literal $kind:ident: $rule:literal,)*) => {
        /// The rule of docs/SFRAME.md that a section breaks.
        #[derive(Clone, Copy, Debug, PartialEq, Eq, PartialOrd, Ord, Hash)]
        #[allow(missing_docs)] // RULES says what each of them is.
        pub enum FaultKind {
            $($kind = $number,)*
        }

        /// All rules: the kind of fault of a section that breaks one, and what it demands.
        pub const RULES: &[(FaultKind, &str)] = &[$((FaultKind::$kind, $rule),)*];

        impl FaultKind {
            /// Its name, such as `RowOrder`.
            pub fn name(self) -> &'static str {
                match self {
                    $(FaultKind::$kind => stringify!($kind),)*
                }
            }
        }
    };
}

rules! {
    1 Truncated: "the section has a header of 28 bytes, and the auxiliary header whose length that says",
    2 Magic: "the section begins with the number 0xdee2",
    3 Version: "the version is 1, 2 or 3",
    4 Flags: "no flag is set that the version doesn't have",
    5 Abi: "the code of the ABI is that of the file's machine and byte order",
    6 FixedOffsets: "the return address of AMD64 has a fixed offset, and nothing else has",
    7 IndexPastEnd: "the function index is inside of the section",
    8 RowsPastEnd: "the row entries are inside of the section",
    9 IndexOverRows: "the function index and the row entries share no byte",
    10 FunctionInfo: "the type of a function's rows is known, and no bit is set that has no meaning",
    11 BlockSize: "a function whose rows are those of a block says how many bytes a block has",
    12 FunctionRange: "no function passes the highest address",
    13 OutsideOfCode: "each function is inside of a section with code",
    14 FunctionOrder: "in an index that is said to be sorted, no function begins before the one before it",
    15 RowsOffset: "the row entries of a function begin inside of the row entries",
    16 RowTruncated: "each row entry ends inside of the row entries",
    17 RowOutside: "each row begins inside of its function, or of its block",
    18 RowOrder: "each row begins after the one before it",
    19 RowInfo: "the size of a row's words is 1, 2 or 4 bytes, and only AArch64 signs return addresses",
    20 WordCount: "a row has the words that its ABI asks for, and no more; none only in version 3",
    21 ControlWord: "each item of a flexible row has a control word with a known meaning, and its offset",
    22 RowsShared: "no two functions share bytes of row entries",
    23 RowCount: "the header says how many row entries the functions have together",
    24 FunctionOverlap: "no two functions share an address",
}

impl FaultKind {
    /// The number of the rule.
    pub fn number(self) -> u8 {
        self as u8
    }

    /// What the rule demands.
    pub fn rule(self) -> &'static str {
        RULES.iter().find(|(kind, _)| *kind == self).map_or("", |(_, rule)| rule)
    }
}

impl fmt::Display for FaultKind {
    fn fmt(&self, f: &mut fmt::Formatter<'_>) -> fmt::Result {
        f.write_str(self.name())
    }
}

/// Where a section breaks a rule.
#[derive(Clone, Copy, Debug, PartialEq, Eq)]
pub struct Fault {
    /// The rule.
    pub kind: FaultKind,
    /// The offset in the section of the field or the entry that breaks it.
    pub offset: u64,
    /// The offset in the section of the function's entry in the index. `None` if it is in none.
    pub function: Option<u64>,
}

impl Fault {
    pub(super) fn at(kind: FaultKind, offset: u64) -> Self {
        Fault { kind, offset, function: None }
    }

    pub(super) fn of_function(kind: FaultKind, offset: u64, function: u64) -> Self {
        Fault { kind, offset, function: Some(function) }
    }
}

impl fmt::Display for Fault {
    fn fmt(&self, f: &mut fmt::Formatter<'_>) -> fmt::Result {
        write!(f, "{} at {:#x}: {}", self.kind, self.offset, self.kind.rule())
    }
}

impl std::error::Error for Fault {}
