//! Why a symbol file or a rule of it can't be read.

use std::fmt;

/// Why a symbol file can't be read.
#[derive(Clone, Debug, PartialEq, Eq)]
pub enum SymbolsError {
    /// It doesn't begin with a `MODULE` record.
    NoModule,
    /// A kept index doesn't belong to the file, or is damaged.
    OtherIndex,
}

/// Why a rule of a row can't be used.
#[derive(Clone, Copy, Debug, PartialEq, Eq)]
pub enum RuleError {
    /// It doesn't begin with a name and a colon.
    NoName,
    /// It has a word that is no number, no operator and no register of the machine.
    Word,
    /// It has too few values for an operator, or doesn't end with one value.
    Stack,
    /// It has more words than are read.
    TooLong,
}

impl fmt::Display for SymbolsError {
    fn fmt(&self, f: &mut fmt::Formatter<'_>) -> fmt::Result {
        f.write_str(match self {
            SymbolsError::NoModule => {
                "not a symbol file: it doesn't begin with MODULE, a system, a machine, an id and a name"
            }
            SymbolsError::OtherIndex => "the index isn't that of the symbol file",
        })
    }
}

impl fmt::Display for RuleError {
    fn fmt(&self, f: &mut fmt::Formatter<'_>) -> fmt::Result {
        f.write_str(match self {
            RuleError::NoName => "a rule doesn't begin with a name and a colon",
            RuleError::Word => "a word is no number, no operator and no register",
            RuleError::Stack => "the operators don't fit the values",
            RuleError::TooLong => "a rule has too many words",
        })
    }
}

impl std::error::Error for SymbolsError {}

impl std::error::Error for RuleError {}
