//! Rows of unwind tables, and how they are written.
//!
//! `E` is what a rule has of an expression, such as its bytes. `R` is how registers are named: by their DWARF numbers,
//! unless a crate has numbers of its own.

use std::fmt;

/// A row of an unwind table: the rules for a range of addresses.
#[derive(Clone, Debug, PartialEq, Eq)]
pub struct Row<E, R = u16> {
    /// The first address.
    pub begin: u64,
    /// The address after the last one.
    pub end: u64,
    /// How the CFA is computed.
    pub cfa: Cfa<E, R>,
    /// The rule of each register that has a rule, ascending.
    pub rules: Vec<(R, Rule<E, R>)>,
}

/// How the canonical frame address is computed.
#[derive(Clone, Copy, Debug, PartialEq, Eq)]
pub enum Cfa<E, R = u16> {
    /// A register plus an offset.
    RegisterOffset {
        /// The register.
        register: R,
        /// The offset in bytes.
        offset: i64,
    },
    /// The value of a DWARF expression.
    Expression(E),
}

/// Where the caller's value of a register is (DWARF 5, section 6.4.1).
#[derive(Clone, Copy, Debug, PartialEq, Eq)]
pub enum Rule<E, R = u16> {
    /// Nowhere: the value can't be recovered.
    Undefined,
    /// In the register itself.
    SameValue,
    /// In memory, at the CFA plus an offset.
    Offset(i64),
    /// The value isn't stored: it is the CFA plus an offset.
    ValOffset(i64),
    /// In another register.
    Register(R),
    /// In memory, at the address that an expression gives.
    Expression(E),
    /// The value isn't stored: it is what an expression gives.
    ValExpression(E),
    /// The CIE's augmentation defines the rule.
    Architectural,
}

impl<E: PartialEq, R: PartialEq> Row<E, R> {
    /// Whether two rows have the same rules.
    pub fn has_rules_of(&self, other: &Row<E, R>) -> bool {
        self.cfa == other.cfa && self.rules == other.rules
    }
}

impl<E: Copy, R: Copy + PartialEq> Row<E, R> {
    /// The rule of a register. `None` if it has none, so that the ABI decides.
    pub fn rule(&self, register: R) -> Option<Rule<E, R>> {
        self.rules.iter().find(|(other, _)| *other == register).map(|(_, rule)| *rule)
    }
}

impl<E: Default, R> Default for Row<E, R> {
    fn default() -> Self {
        Row { begin: 0, end: 0, cfa: Cfa::Expression(E::default()), rules: Vec::new() }
    }
}

fn write_hex(f: &mut fmt::Formatter<'_>, bytes: &[u8]) -> fmt::Result {
    bytes.iter().try_for_each(|byte| write!(f, "{:02x}", byte))
}

impl<E: AsRef<[u8]>> fmt::Display for Cfa<E> {
    fn fmt(&self, f: &mut fmt::Formatter<'_>) -> fmt::Result {
        match self {
            Cfa::RegisterOffset { register, offset } => write!(f, "r{}{:+}", register, offset),
            Cfa::Expression(bytes) => {
                f.write_str("expr(")?;
                write_hex(f, bytes.as_ref())?;
                f.write_str(")")
            }
        }
    }
}

impl<E: AsRef<[u8]>> fmt::Display for Rule<E> {
    fn fmt(&self, f: &mut fmt::Formatter<'_>) -> fmt::Result {
        match self {
            Rule::Undefined => f.write_str("u"),
            Rule::SameValue => f.write_str("s"),
            Rule::Offset(offset) => write!(f, "[c{:+}]", offset),
            Rule::ValOffset(offset) => write!(f, "c{:+}", offset),
            Rule::Register(register) => write!(f, "r{}", register),
            Rule::Expression(bytes) => {
                f.write_str("[expr(")?;
                write_hex(f, bytes.as_ref())?;
                f.write_str(")]")
            }
            Rule::ValExpression(bytes) => {
                f.write_str("expr(")?;
                write_hex(f, bytes.as_ref())?;
                f.write_str(")")
            }
            Rule::Architectural => f.write_str("a"),
        }
    }
}

/// The text of a row is `START..END cfa=RULE rN=RULE`, where `rN=RULE` is repeated for each
/// register that has a rule. Addresses aren't padded with zeros.
impl<E: AsRef<[u8]>> fmt::Display for Row<E> {
    fn fmt(&self, f: &mut fmt::Formatter<'_>) -> fmt::Result {
        write!(f, "{:#x}..{:#x} cfa={}", self.begin, self.end, self.cfa)?;
        self.rules.iter().try_for_each(|(register, rule)| write!(f, " r{}={}", register, rule))
    }
}
