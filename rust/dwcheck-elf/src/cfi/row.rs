//! The rows of an unwind table, with the bytes of their expressions.

use dwcheck_types::row;
use std::borrow::Cow;

/// A row of an unwind table: the rules for a range of addresses.
pub type Row<'a> = row::Row<Cow<'a, [u8]>>;

/// How the canonical frame address is computed.
pub type Cfa<'a> = row::Cfa<Cow<'a, [u8]>>;

/// Where the caller's value of a register is (DWARF 5, section 6.4.1).
pub type Rule<'a> = row::Rule<Cow<'a, [u8]>>;
