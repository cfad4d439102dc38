//! Writes addresses, rows and results in the form in which the program `dwcheck` writes them.
//!
//! The text of [`Outcomes`] is one line or several, each with a line feed. The text of any other
//! type here is a line or a part of a line, without a line feed. Addresses have 8 or 16 hexadecimal
//! digits, by the address size; offsets have 8.

pub use crate::elf::escaped::Escaped;

use crate::cfi::row::Row;
use dwcheck::{Answer, Evaluation, Location, Outcome, PieceSize};
use dwcheck_types::target::{AddressSize, Target};
use std::fmt;

/// An address, such as `0x000000000040116b`.
///
/// ```
/// use dwcheck_elf::target::{AddressSize, Order, Target};
/// use dwcheck_elf::text::Address;
///
/// let target = Target { order: Order::Little, address_size: AddressSize::Four };
/// assert_eq!(Address(target, 0x116b).to_string(), "0x0000116b");
/// ```
#[derive(Clone, Copy, Debug)]
pub struct Address(pub Target, pub u64);

/// An offset in a section, such as `0x00000018`.
#[derive(Clone, Copy, Debug)]
pub struct Offset(pub u64);

/// A row: `row START..END cfa=RULE rN=RULE`, without a line feed.
#[derive(Clone, Copy, Debug)]
pub struct RowLine<'a>(pub Target, pub &'a Row<'a>);

/// What is known of a register, a CFA or a return address: `value V`, `undefined`, `unreadable` or
/// `division by zero`.
#[derive(Clone, Copy, Debug)]
pub struct Known(pub Target, pub Answer);

/// The result of an expression, in one line or several. A line feed ends each line.
#[derive(Clone, Copy, Debug)]
pub struct Outcomes<'a> {
    /// The byte order and the address size of the expression.
    pub target: Target,
    /// The result.
    pub evaluation: &'a Evaluation,
    /// The greatest height of the expression's stack.
    pub depth: u64,
}

impl fmt::Display for Address {
    fn fmt(&self, f: &mut fmt::Formatter<'_>) -> fmt::Result {
        match self.0.address_size {
            AddressSize::Four => write!(f, "{:#010x}", self.1),
            AddressSize::Eight => write!(f, "{:#018x}", self.1),
        }
    }
}

impl fmt::Display for Offset {
    fn fmt(&self, f: &mut fmt::Formatter<'_>) -> fmt::Result {
        write!(f, "{:#010x}", self.0)
    }
}

impl fmt::Display for RowLine<'_> {
    fn fmt(&self, f: &mut fmt::Formatter<'_>) -> fmt::Result {
        let RowLine(target, row) = self;
        write!(f, "row {}..{} cfa={}", Address(*target, row.begin), Address(*target, row.end), row.cfa)?;
        row.rules.iter().try_for_each(|(register, rule)| write!(f, " r{}={}", register, rule))
    }
}

impl fmt::Display for Known {
    fn fmt(&self, f: &mut fmt::Formatter<'_>) -> fmt::Result {
        match self.1 {
            Answer::Value(value) => write!(f, "value {}", Address(self.0, value)),
            other => other.fmt(f),
        }
    }
}

/// A location, such as `register 5`.
struct Place<'a>(Target, &'a Location);

impl fmt::Display for Place<'_> {
    fn fmt(&self, f: &mut fmt::Formatter<'_>) -> fmt::Result {
        match self.1 {
            Location::Nowhere => f.write_str("empty"),
            Location::Address(address) => write!(f, "address {}", Address(self.0, *address)),
            Location::Register(register) => write!(f, "register {}", register),
            Location::Value(value) => write!(f, "value {}", Address(self.0, *value)),
            Location::Bytes(bytes) => {
                f.write_str("bytes ")?;
                bytes.iter().try_for_each(|byte| write!(f, "{:02x}", byte))
            }
            other => write!(f, "{:?}", other),
        }
    }
}

impl fmt::Display for Outcomes<'_> {
    fn fmt(&self, f: &mut fmt::Formatter<'_>) -> fmt::Result {
        let target = self.target;
        match &self.evaluation.outcome {
            Outcome::Value(value) => writeln!(f, "value {}", Address(target, *value))?,
            Outcome::Location(location) => writeln!(f, "{}", Place(target, location))?,
            Outcome::Unreadable { at } => writeln!(f, "unreadable at {}", Offset(u64::from(*at)))?,
            Outcome::DivisionByZero { at } => writeln!(f, "division by zero at {}", Offset(u64::from(*at)))?,
            Outcome::Pieces(pieces) => {
                writeln!(f, "pieces {}", pieces.len())?;
                for piece in pieces {
                    write!(f, "piece {} ", Place(target, &piece.location))?;
                    match piece.size {
                        PieceSize::Bytes(bytes) => writeln!(f, "bytes {}", bytes)?,
                        PieceSize::Bits { size, offset } => writeln!(f, "bits {} offset {}", size, offset)?,
                    }
                }
            }
            other => writeln!(f, "{:?}", other)?,
        }
        writeln!(f, "steps {} depth {}", self.evaluation.steps, self.depth)
    }
}
