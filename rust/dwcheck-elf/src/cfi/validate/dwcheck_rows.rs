//! `dwcheck`'s rows, and their comparison with gimli's.

use super::comparable::comparable_bytes;
use super::gimli_rows::{Bounded, Bytes, GimliRows};
use super::{compare_rows, skip_record, Difference, RowError, RowSource, What};
use crate::cfi::frames::{Counts, Frames, Kind, Name, Record, RecordStatus};
use crate::cfi::row::{Cfa, Row, Rule};
use dwcheck::{CfaRule, Process, Rows};
use dwcheck_types::cursor::Cursor;
use gimli::{
    BaseAddresses, DebugFrame, Register, RegisterRule, UnwindContext, UnwindOffset, UnwindSection, UnwindTable,
    UnwindTableRow,
};
use std::borrow::Cow;
use std::ops::Range;

/// `dwcheck`'s rows of an FDE. The first row is looked up at the FDE's first address, and each
/// other row at the address where the row before it ends.
///
/// [`new`](Self::new) leaves out the rules that say that a register is undefined, because gimli
/// does so too. [`whole`](Self::whole) keeps them.
pub struct DwcheckRows<'a> {
    process: &'a Process,
    rows: Rows<'a>,
    next: u64,
    end: u64,
    return_register: Option<u16>,
    has_undefined: bool,
}

impl<'a> DwcheckRows<'a> {
    /// The rows from `begin` up to, not including, `end`. The section's FDEs have to cover all
    /// these addresses. Otherwise reading a row gives an error.
    pub fn new(process: &'a Process, begin: u64, end: u64) -> Self {
        DwcheckRows { process, rows: process.rows(), next: begin, end, return_register: None, has_undefined: false }
    }

    /// The rows from `begin` up to, not including, `end`, with the rules for undefined registers.
    /// The section's FDEs have to cover all these addresses.
    pub fn whole(process: &'a Process, begin: u64, end: u64) -> Self {
        DwcheckRows { has_undefined: true, ..DwcheckRows::new(process, begin, end) }
    }

    /// The register of the return address in the last row that was read. `None` before the first
    /// row.
    pub fn return_register(&self) -> Option<u16> {
        self.return_register
    }

    /// Continues with the rows from `begin` up to, not including, `end`.
    pub fn restart(&mut self, begin: u64, end: u64) {
        self.next = begin;
        self.end = end;
        self.return_register = None;
    }
}

/// The bytes of the expression of a rule: of a register's, or of the CFA's.
fn rule_expression(process: &Process, address: u64, register: Option<u16>) -> Result<Cow<'static, [u8]>, RowError> {
    let bytes = process.rule_bytes(address, register).map(Cow::Owned);
    bytes.ok_or(RowError::NoExpression(address))
}

fn rule_of_dwcheck(process: &Process, at: u64, register: u16, rule: dwcheck::Rule) -> Result<Rule<'static>, RowError> {
    Ok(match rule {
        dwcheck::Rule::Undefined => Rule::Undefined,
        dwcheck::Rule::SameValue => Rule::SameValue,
        dwcheck::Rule::Offset(offset) => Rule::Offset(offset),
        dwcheck::Rule::ValOffset(offset) => Rule::ValOffset(offset),
        dwcheck::Rule::Register(register) => Rule::Register(register),
        dwcheck::Rule::Expression(_) => Rule::Expression(rule_expression(process, at, Some(register))?),
        dwcheck::Rule::ValExpression(_) => Rule::ValExpression(rule_expression(process, at, Some(register))?),
        other => return Err(RowError::Rule(other)),
    })
}

fn cfa_of_dwcheck(process: &Process, at: u64, rule: CfaRule) -> Result<Cfa<'static>, RowError> {
    match rule {
        CfaRule::RegisterAndOffset { register, offset } => Ok(Cfa::RegisterOffset { register, offset }),
        CfaRule::Expression(_) => rule_expression(process, at, None).map(Cfa::Expression),
        other => Err(RowError::CfaRule(other)),
    }
}

impl<'r> RowSource<'r> for DwcheckRows<'_> {
    fn next_row(&mut self, row: &mut Row<'r>) -> Result<bool, RowError> {
        let DwcheckRows { process, rows, next, end, .. } = self;
        if *next >= *end {
            return Ok(false);
        }
        let found = rows.row(*next).ok_or(RowError::NoRow(*next))?;
        if found.addresses.end <= *next {
            return Err(RowError::EndsAt(found.addresses.end));
        }
        row.begin = found.addresses.start;
        row.end = found.addresses.end;
        row.cfa = cfa_of_dwcheck(process, *next, found.cfa)?;
        row.rules.clear();
        for (register, rule) in &found.rules {
            if self.has_undefined || *rule != dwcheck::Rule::Undefined {
                row.rules.push((*register, rule_of_dwcheck(process, *next, *register, *rule)?));
            }
        }
        *next = found.addresses.end;
        self.return_register = Some(found.return_register);
        Ok(true)
    }
}

/// Compares gimli's rows of a section in the file with the library's rows, for each FDE.
///
/// `process` has to be the result of [`Frames::process`] for the load address 0. If the library
/// refuses the section, there is no such process, and only what is left of it without what is refused
/// ([`accepted_part`](crate::cfi::one_by_one::accepted_part)) can be compared.
///
/// # Errors
///
/// The first difference. A row that gimli refuses is a difference, too.
pub fn validate_rows(frames: &Frames<'_>, process: &Process) -> Result<Counts, Difference> {
    let comparable = comparable_bytes(frames);
    let (order, address_size) = (frames.target().gimli_order(), frames.target().address_size.bytes());
    let has_gaps = frames.left_out() > 0;
    match frames.name() {
        Name::EhFrame => {
            let mut section = gimli::EhFrame::new(&comparable, order);
            section.set_address_size(address_size);
            Comparison { frames, process, bases: frames.format().bases(), section, has_gaps }.run()
        }
        _ => {
            let mut section = DebugFrame::new(&comparable, order);
            section.set_address_size(address_size);
            Comparison { frames, process, bases: BaseAddresses::default(), section, has_gaps }.run()
        }
    }
}

/// Buffers that are used for one FDE after another.
struct Room<'a> {
    context: Box<UnwindContext<Bytes<'a>, Bounded>>,
    found: Rows<'a>,
    ours: DwcheckRows<'a>,
    rows: (Row<'a>, Row<'a>),
}

/// A section in the file, as gimli reads it, and the process that has it.
struct Comparison<'a, S> {
    frames: &'a Frames<'a>,
    process: &'a Process,
    bases: BaseAddresses,
    section: S,
    /// Whether records are left out.
    has_gaps: bool,
}

impl<'a, S> Comparison<'a, S>
where
    S: UnwindSection<Bytes<'a>>,
    S::Offset: UnwindOffset<usize>,
{
    fn run(&self) -> Result<Counts, Difference> {
        let mut room = Room {
            context: Box::new(UnwindContext::new_in()),
            found: self.process.rows(),
            ours: DwcheckRows::new(self.process, 0, 0),
            rows: Default::default(),
        };
        let mut agreement = Counts::default();
        let mut cursor = Cursor::new(&self.frames.source().bytes, self.frames.target());
        let mut records = self.frames.records().iter().filter(|record| record.kind != Kind::Empty);
        while let Some(offset) = skip_record(&mut cursor) {
            let record = records.next().filter(|record| record.offset == offset as u64);
            let compared =
                record.ok_or(What::Missing).and_then(|record| self.record(record, &mut agreement, &mut room));
            compared.map_err(|what| Difference { section: self.frames.name(), record: offset as u64, what })?;
        }
        Ok(agreement)
    }

    /// Compares a record, unless it is left out, and counts it, unless it is a copy.
    fn record(&self, record: &Record, agreement: &mut Counts, room: &mut Room<'a>) -> Result<(), What> {
        match (record.status, record.kind) {
            _ if record.is_left_out() => {}
            (_, Kind::Empty | Kind::Unread(_)) => {}
            // A copy's rows are those of the FDE that it is a copy of, which may be left out.
            (RecordStatus::Copy, _) if self.has_gaps => {}
            (status, Kind::Fde { begin, end, .. }) => {
                let rows = self.compare(record.offset as usize, begin..end, room)?;
                let is_counted = status == RecordStatus::Used;
                agreement.fdes += usize::from(is_counted);
                agreement.rows += if is_counted { rows } else { 0 };
            }
            (_, Kind::Cie { .. }) => {
                let read = self.section.cie_from_offset(&self.bases, (record.offset as usize).into());
                read.map_err(What::of_cie)?;
                agreement.cies += 1;
            }
        }
        Ok(())
    }

    /// Compares gimli's rows of the FDE at an offset with the library's, which reads these addresses. Returns the
    /// number of rows, or the first difference.
    fn compare(&self, offset: usize, range: Range<u64>, room: &mut Room<'a>) -> Result<usize, What> {
        let unreadable = |error: gimli::Error| What::Unreadable(error.to_string());
        let fde = self.section.fde_from_offset(&self.bases, offset.into(), S::cie_from_offset).map_err(unreadable)?;
        let target = self.frames.target();
        let begin = target.wrap(fde.initial_address());
        let end = begin.saturating_add(target.wrap(fde.len()));
        if (begin, end) != (range.start, range.end) {
            return Err(What::Range { gimli: (begin, end), library: (range.start, range.end) });
        }
        let Room { context, found, ours, rows } = room;
        let register = fde.cie().return_address_register().0;
        let table = fde.rows(&self.section, &self.bases, context).map_err(unreadable)?;
        if let Some(count) = self.count_equal(table, range.clone(), register, found) {
            return Ok(count);
        }
        // The rows differ, or gimli refuses a row. Comparing again is slower, but shows which row
        // it is.
        let table = fde.rows(&self.section, &self.bases, context).map_err(unreadable)?;
        ours.restart(range.start, range.end);
        let count = compare_rows(&mut GimliRows { table, target }, ours, rows)?;
        match ours.return_register() {
            Some(found) if found != register => Err(What::Numbers),
            _ => Ok(count),
        }
    }

    /// Counts an FDE's rows. `None` if gimli can't read a row, if a row of gimli's differs from
    /// the library's, or if the return address register of a row isn't `register`.
    fn count_equal(
        &self,
        mut table: UnwindTable<'_, '_, Bytes<'a>, Bounded>,
        range: Range<u64>,
        register: u16,
        found: &mut Rows<'a>,
    ) -> Option<usize> {
        let target = self.frames.target();
        let (mut next, mut count) = (range.start, 0);
        while let Some(theirs) = table.next_row().ok()? {
            let extent = target.wrap(theirs.start_address())..target.wrap(theirs.end_address());
            if extent.start == extent.end {
                continue;
            }
            let ours = found.row(next).filter(|ours| ours.addresses == extent && ours.return_register == register)?;
            if !self.same_rules(ours, theirs) {
                return None;
            }
            next = extent.end;
            count += 1;
        }
        Some(count).filter(|_| next >= range.end)
    }

    /// Whether two rows have the same rules. gimli doesn't store a rule for an undefined register, so
    /// such rules aren't counted.
    fn same_rules(&self, ours: &dwcheck::Row, theirs: &UnwindTableRow<Bytes<'_>, Bounded>) -> bool {
        let at = ours.addresses.start;
        let same_bytes = |register, other: &[u8]| self.process.rule_bytes(at, register).as_deref() == Some(other);
        let same_cfa = match (&ours.cfa, theirs.cfa()) {
            (
                CfaRule::RegisterAndOffset { register, offset },
                gimli::CfaRule::RegisterAndOffset { register: other, offset: by },
            ) => *register == other.0 && offset == by,
            (CfaRule::Expression(_), gimli::CfaRule::Expression(other)) => same_bytes(None, other.0.slice()),
            _ => false,
        };
        let same = |(register, rule): &(u16, dwcheck::Rule)| {
            let same_bytes = |other: &[u8]| same_bytes(Some(*register), other);
            is_same_rule(*rule, &theirs.register(Register(*register)), same_bytes)
        };
        let defined = ours.rules.iter().filter(|(_, rule)| *rule != dwcheck::Rule::Undefined);
        same_cfa && ours.rules.iter().all(same) && defined.count() == theirs.registers().count()
    }
}

fn is_same_rule(ours: dwcheck::Rule, theirs: &RegisterRule<Bytes<'_>>, same_bytes: impl Fn(&[u8]) -> bool) -> bool {
    match (ours, theirs) {
        (dwcheck::Rule::Undefined, RegisterRule::Undefined) => true,
        (dwcheck::Rule::SameValue, RegisterRule::SameValue) => true,
        (dwcheck::Rule::Offset(offset), RegisterRule::Offset(other)) => offset == *other,
        (dwcheck::Rule::ValOffset(offset), RegisterRule::ValOffset(other)) => offset == *other,
        (dwcheck::Rule::Register(register), RegisterRule::Register(other)) => register == other.0,
        (dwcheck::Rule::Expression(_), RegisterRule::Expression(other)) => same_bytes(other.0.slice()),
        (dwcheck::Rule::ValExpression(_), RegisterRule::ValExpression(other)) => same_bytes(other.0.slice()),
        _ => false,
    }
}
