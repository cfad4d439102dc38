//! What two checked sections contain.

use crate::expression::ExpressionKind;
use crate::fault::{Error, Section};
use crate::ffi;
use crate::{DebugFrame, DebugLoclists};
use dwcheck_types::target::Target;

/// The number of expressions for which the first call of [`report`] has room.
const FIRST_EXPRESSIONS: usize = 64;

/// What two sections without a fault contain, from [`report`].
#[derive(Clone, Debug, Default, PartialEq, Eq)]
#[non_exhaustive]
pub struct Report {
    /// The number of CIEs.
    pub cies: u64,
    /// The number of FDEs.
    pub fdes: u64,
    /// The number of rows of all FDEs; 2^64 - 1 if there are more.
    pub rows: u64,
    /// The number of tables of location lists.
    pub tables: u64,
    /// The number of location lists.
    pub lists: u64,
    /// The expressions of the frame section, those of CIEs first, and then those of the location
    /// lists, each in the order of the section.
    pub expressions: Vec<CheckedExpression>,
}

/// An expression of a section without a fault.
#[derive(Clone, Copy, Debug, PartialEq, Eq, Hash)]
#[non_exhaustive]
pub struct CheckedExpression {
    /// Its section: [`Section::Frame`] or [`Section::Lists`].
    pub section: Section,
    /// The offset of its first byte in the section.
    pub offset: u64,
    /// Its length in bytes.
    pub length: u64,
    /// What it is used for. `None` if the library is newer and has another use for it.
    pub kind: Option<ExpressionKind>,
    /// Its number of operations.
    pub operations: u32,
    /// The greatest number of values on its stack, on any path.
    pub depth: u32,
}

impl CheckedExpression {
    fn of(raw: &ffi::Expression) -> Self {
        CheckedExpression {
            section: Section::from_number(raw.within),
            offset: raw.offset,
            length: raw.length,
            kind: ExpressionKind::from_number(raw.kind),
            operations: raw.operations,
            depth: raw.depth,
        }
    }
}

/// Checks a `.debug_frame` section and a `.debug_loclists` section, either of which may be empty, as
/// [`check`](crate::check) does, and says what they contain.
///
/// If there are more than 64 expressions, the sections are checked twice.
///
/// # Errors
///
/// Those of [`check`](crate::check).
///
/// ```
/// use dwcheck::{report, DebugFrame, DebugLoclists, Section, Target};
///
/// // One table with one list, at 0xc: register 0 from base to base + 0xf, else the value 0.
/// let lists = [
///     0x12, 0, 0, 0, 5, 0, 8, 0, 0, 0, 0, 0, 4, 0, 0x10, 1, 0x50, 5, 2, 0x30, 0x9f, 0,
/// ];
/// let report = report(DebugFrame(&[]), DebugLoclists(&lists), Target::LITTLE_64)?;
/// assert_eq!((report.tables, report.lists), (1, 1));
/// let last = report.expressions[1];
/// assert_eq!((last.section, last.offset), (Section::Lists, 0x13));
/// assert_eq!((last.operations, last.depth), (2, 1));
/// # Ok::<(), dwcheck::Error>(())
/// ```
pub fn report(
    frame: DebugFrame<'_>,
    lists: DebugLoclists<'_>,
    target: Target,
) -> Result<Report, Error> {
    let mut found = Vec::new();
    let mut slots = FIRST_EXPRESSIONS;
    loop {
        let more = slots - found.len();
        found.try_reserve_exact(more).map_err(|_| Error::NoMemory)?;
        found.resize(slots, ffi::Expression::default());
        let counts = report_into(frame.0, lists.0, target, &mut found)?;
        let all = counts
            .frame_expressions
            .saturating_add(counts.list_expressions);
        let all = usize::try_from(all).map_err(|_| Error::NoMemory)?;
        if all <= slots {
            found.truncate(all);
            return Ok(Report {
                cies: counts.cies,
                fdes: counts.fdes,
                rows: counts.rows,
                tables: counts.tables,
                lists: counts.lists,
                expressions: found.iter().map(CheckedExpression::of).collect(),
            });
        }
        slots = all;
    }
}

/// Writes the expressions to `slots`, as many as fit, and returns what the sections contain.
fn report_into(
    frame: &[u8],
    lists: &[u8],
    target: Target,
    slots: &mut [ffi::Expression],
) -> Result<ffi::Counts, Error> {
    let mut counts = ffi::Counts::default();
    // SAFETY: the sections are only read, `slots` and the fault's place are borrowed exclusively, and the
    // other pointer is to a local.
    Error::of_call(|fault| unsafe {
        ffi::dwcheck_report(
            frame.as_ptr(),
            frame.len(),
            lists.as_ptr(),
            lists.len(),
            ffi::order_number(target),
            target.address_size.bytes().into(),
            &mut counts,
            slots.as_mut_ptr(),
            slots.len(),
            fault,
        )
    })?;
    Ok(counts)
}
