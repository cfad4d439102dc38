//! Rows of unwind tables, and their rules.

use crate::ffi;
use crate::module::ModuleId;
use std::ops::Range;

/// Where an expression lies in a section. For an expression of a row, the section is the
/// `.debug_frame` section that was passed to [`Process::add`](crate::Process::add); of an `.eh_frame`
/// section only the length counts. [`Process::rule_bytes`](crate::Process::rule_bytes) gives the
/// bytes in both cases.
#[derive(Clone, Copy, Debug, Default, PartialEq, Eq, Hash)]
#[repr(C)]
pub struct Span {
    /// The offset of the expression's first byte in the section.
    pub offset: u64,
    /// The expression's length in bytes.
    pub length: u64,
}

impl Span {
    /// The expression's bytes in `section`. `None` if the section is too short.
    ///
    /// ```
    /// let span = dwcheck::Span { offset: 1, length: 2 };
    /// assert_eq!(span.of(&[5, 6, 7, 8]), Some(&[6, 7][..]));
    /// assert_eq!(span.of(&[5, 6]), None);
    /// ```
    pub fn of<'a>(&self, section: &'a [u8]) -> Option<&'a [u8]> {
        let start = usize::try_from(self.offset).ok()?;
        let length = usize::try_from(self.length).ok()?;
        section.get(start..start.checked_add(length)?)
    }

    /// A pointer to the first element of `slots`, as the type that the library takes.
    pub(crate) fn raw_slots(slots: &mut [Span]) -> *mut ffi::Location {
        // a `Span` has the same fields and the same layout as an `ffi::Location`
        slots.as_mut_ptr().cast()
    }

    fn in_raw(raw: &ffi::Rule) -> Option<Span> {
        Some(Span {
            offset: u64::try_from(raw.offset).ok()?,
            length: raw.length,
        })
    }
}

/// How to find a register's value in the caller.
#[derive(Clone, Copy, Debug, PartialEq, Eq, Hash)]
#[non_exhaustive]
pub enum Rule {
    /// The value isn't available.
    Undefined,
    /// The value that the register has now.
    SameValue,
    /// Saved in memory at the CFA plus this many bytes.
    Offset(i64),
    /// The CFA plus this many bytes.
    ValOffset(i64),
    /// The value that this other register has now.
    Register(u16),
    /// Saved in memory at the address that an expression gives. The CFA is pushed before the
    /// expression is run.
    Expression(Span),
    /// The value that an expression gives. The CFA is pushed before the expression is run.
    ValExpression(Span),
    /// The number of a rule that this crate doesn't know, because the library is newer.
    Other(u32),
}

impl Rule {
    fn of(raw: &ffi::Rule) -> Rule {
        let known = match raw.kind {
            ffi::RULE_UNDEFINED => Some(Rule::Undefined),
            ffi::RULE_SAME_VALUE => Some(Rule::SameValue),
            ffi::RULE_OFFSET => Some(Rule::Offset(raw.offset)),
            ffi::RULE_VAL_OFFSET => Some(Rule::ValOffset(raw.offset)),
            ffi::RULE_REGISTER => Some(Rule::Register(raw.source)),
            ffi::RULE_EXPRESSION => Span::in_raw(raw).map(Rule::Expression),
            ffi::RULE_VAL_EXPRESSION => Span::in_raw(raw).map(Rule::ValExpression),
            _ => None,
        };
        known.unwrap_or(Rule::Other(raw.kind))
    }
}

/// How to find the canonical frame address (CFA).
#[derive(Clone, Copy, Debug, PartialEq, Eq, Hash)]
#[non_exhaustive]
pub enum CfaRule {
    /// A register's value, plus an offset in bytes.
    RegisterAndOffset {
        /// The register.
        register: u16,
        /// The offset.
        offset: i64,
    },
    /// The value that an expression gives. The expression's stack is empty at first.
    Expression(Span),
    /// The number of a rule that this crate doesn't know, because the library is newer.
    Other(u32),
}

impl CfaRule {
    fn of(raw: &ffi::Rule) -> CfaRule {
        let known = match raw.kind {
            ffi::RULE_VAL_OFFSET => Some(CfaRule::RegisterAndOffset {
                register: raw.reg,
                offset: raw.offset,
            }),
            ffi::RULE_VAL_EXPRESSION => Span::in_raw(raw).map(CfaRule::Expression),
            _ => None,
        };
        known.unwrap_or(CfaRule::Other(raw.kind))
    }
}

/// A row of an unwind table: the rules that apply at a range of addresses in a module.
#[derive(Clone, Debug, PartialEq, Eq, Hash)]
#[non_exhaustive]
pub struct Row {
    /// The id of the module.
    pub id: ModuleId,
    /// The [cookie](crate::Module::cookie) of the module.
    pub cookie: u64,
    /// The load address of the module.
    pub load_address: u64,
    /// The addresses that the row covers, as linked. To get them as loaded, add the load address,
    /// modulo 2^w, where w is the address size in bits.
    pub addresses: Range<u64>,
    /// The rule of the CFA.
    pub cfa: CfaRule,
    /// The register of the return address.
    pub return_register: u16,
    /// The registers that have a rule, with their rules, in ascending order, 128 at most. For all
    /// other registers, the ABI decides.
    pub rules: Vec<(u16, Rule)>,
}

impl Row {
    /// The rule of a register. `None` if it has none, so that the ABI decides.
    pub fn rule(&self, register: u16) -> Option<Rule> {
        let place = self
            .rules
            .binary_search_by_key(&register, |(number, _)| *number)
            .ok()?;
        Some(self.rules[place].1)
    }

    /// A row without addresses, which [`set`](Row::set) overwrites.
    pub(crate) fn empty() -> Row {
        Row {
            id: ModuleId(0),
            cookie: 0,
            load_address: 0,
            addresses: 0..0,
            cfa: CfaRule::Other(0),
            return_register: 0,
            rules: Vec::new(),
        }
    }

    /// Overwrites this row with the one that the library wrote to `raw`, and its rules with those
    /// that the library wrote to the first `raw.count` elements of `rules`. `None` if the number of
    /// the return address register doesn't fit 16 bits, which never happens.
    pub(crate) fn set(&mut self, raw: &ffi::Row, rules: &[ffi::Rule]) -> Option<()> {
        let count = usize::try_from(raw.count).ok()?.min(rules.len());
        self.id = ModuleId(raw.id);
        self.cookie = raw.cookie;
        self.load_address = raw.load_address;
        self.addresses = raw.start..raw.end;
        self.cfa = CfaRule::of(&raw.cfa);
        self.return_register = u16::try_from(raw.return_reg).ok()?;
        self.rules.clear();
        let known = rules[..count].iter();
        self.rules
            .extend(known.map(|rule| (rule.reg, Rule::of(rule))));
        Some(())
    }
}
