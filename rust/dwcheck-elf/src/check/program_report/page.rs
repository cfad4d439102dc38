//! Writes reports as one page, which any browser shows without a network: sections, a map of the code, what is
//! refused, and a search for functions, whose rows are shown beside their instructions.

use super::details::Details;
use super::{Difference, Function, GapKind, Refusal, Report, Section, SectionStatus};
use crate::check::page::{self, write_separated};
use serde_json::{json, Value};
use std::io::{self, Write};

/// The page, with a mark where the data go.
const PAGE: &str = include_str!("page.html");

/// How many bytes of rows and instructions a page has at most, with little more.
pub const ROOM: usize = 20 << 20;

/// What a page shows.
pub struct Contents<'a, 'data> {
    /// The programs.
    pub reports: &'a [Report<'data>],
    /// How the second one differs from the first one, if that is shown.
    pub difference: Option<Difference>,
    /// For each program the functions whose rows are shown. `None` for as many as have room.
    pub only: Option<Vec<Vec<usize>>>,
    /// How many bytes of rows and instructions the page has at most, with little more.
    pub room: usize,
}

/// Writes a page.
///
/// # Errors
///
/// Those of `out`.
pub fn write(contents: &Contents<'_, '_>, out: &mut impl Write) -> io::Result<()> {
    page::write_page(PAGE, out, |out| write_page_data(contents, out))
}

fn write_page_data(contents: &Contents<'_, '_>, out: &mut impl Write) -> io::Result<()> {
    let orders = contents.orders();
    let room = contents.room / contents.reports.len().max(1);
    out.write_all(b"{\"programs\":[")?;
    write_separated(out, contents.reports.iter().zip(&orders), |(report, order), out| {
        write_program_data(report, &Details::of(report, order, room), out)
    })?;
    let difference = contents.difference.as_ref().map(|difference| {
        let Difference { added, removed, changed, resized, same, unnamed } = difference;
        json!({ "added": added, "removed": removed, "changed": changed, "resized": resized, "same": same,
            "unnamed": unnamed })
    });
    out.write_all(b"],\"difference\":")?;
    write_json_value(&difference.unwrap_or(Value::Null), out)?;
    out.write_all(b"}")
}

impl Contents<'_, '_> {
    /// For each program its functions, in the order in which they get room.
    fn orders(&self) -> Vec<Vec<usize>> {
        if let Some(only) = &self.only {
            return only.clone();
        }
        let first = self.difference.as_ref().map_or_else(Default::default, Difference::interesting);
        let first = first.iter().map(Vec::as_slice).chain(std::iter::repeat(&[][..]));
        self.reports.iter().zip(first).map(|(report, first)| order_with_first(report.functions.len(), first)).collect()
    }
}

/// These numbers below `count`, and then all others.
fn order_with_first(count: usize, first: &[usize]) -> Vec<usize> {
    let mut is_first = vec![false; count];
    first.iter().for_each(|index| is_first[*index] = true);
    first.iter().copied().chain((0..count).filter(|index| !is_first[*index])).collect()
}

fn write_program_data(report: &Report<'_>, details: &Details, out: &mut impl Write) -> io::Result<()> {
    let totals = report.coverage.totals;
    let (no_rows, no_instructions) = details.left_out();
    let code = report
        .coverage
        .code
        .iter()
        .map(|(name, range)| json!([name, hex_address(range.start), hex_address(range.end)]));
    let head = json!({
        "title": report.title,
        "registers": report.machine().map_or(&[][..], |machine| machine.names),
        "isDecoded": report.machine().is_some(),
        "sections": report.sections.iter().map(section_value).collect::<Vec<_>>(),
        "totals": { "code": totals.code, "covered": totals.covered(), "padding": totals.padding,
            "refused": totals.refused, "noRows": totals.no_rows },
        "code": code.collect::<Vec<_>>(),
        "refusals": report.refusals.iter().map(refusal_value).collect::<Vec<_>>(),
        "cfas": details.cfas.all(),
        "rules": details.rules.all(),
        "leftOut": { "rows": no_rows, "instructions": no_instructions },
    });
    out.write_all(b"{\"head\":")?;
    write_json_value(&head, out)?;
    out.write_all(b",\"gaps\":[")?;
    write_separated(out, report.coverage.gaps.iter(), |gap, out| {
        let kind = match gap.kind {
            GapKind::NoFde => 0,
            GapKind::Padding => 1,
            GapKind::Refused => 2,
        };
        let (begin, end) = (hex_address(gap.addresses.start), hex_address(gap.addresses.end));
        write_json_value(&json!([begin, end, kind, gap.symbol.as_deref().unwrap_or("")]), out)
    })?;
    out.write_all(b"],\"functions\":[")?;
    write_separated(out, report.functions.iter(), |one, out| write_json_value(&function_value(report, one), out))?;
    out.write_all(b"],\"rows\":")?;
    serde_json::to_writer(&mut *out, &details.rows)?;
    out.write_all(b",\"instructions\":")?;
    serde_json::to_writer(&mut *out, &details.listings)?;
    out.write_all(b"}")
}

fn write_json_value(value: &Value, out: &mut impl Write) -> io::Result<()> {
    serde_json::to_writer(out, value).map_err(io::Error::from)
}

/// An address. Numbers in JSON may lose digits in a browser.
fn hex_address(address: u64) -> String {
    format!("{:x}", address)
}

/// A function: its addresses, the index of its section, its name, how many rows it has, and its register of the return
/// address.
fn function_value(report: &Report<'_>, function: &Function) -> Value {
    let name = report.section_of(function);
    let section = report.sections.iter().position(|section| Some(section.name) == name);
    let shown = function.shown().unwrap_or_default();
    let (rows, register) = (function.rows, function.return_register);
    json!([hex_address(function.begin), hex_address(function.end), section, shown, rows, register])
}

fn section_value(section: &Section) -> Value {
    let (status, text) = match &section.status {
        SectionStatus::Accepted => ("accepted", String::new()),
        SectionStatus::Refused(_, left_out) => ("refused", left_out.map_or_else(String::new, |rest| rest.to_string())),
        SectionStatus::Unread(why) => ("not checked", why.clone()),
    };
    let faults = match section.status {
        SectionStatus::Refused(count, _) => count,
        _ => 0,
    };
    let held = section.held.map(|held| {
        json!({ "cies": held.cies, "fdes": held.fdes, "rows": held.rows, "expressions": held.expressions,
            "signalFrames": held.signal_frames })
    });
    json!({ "name": section.name.to_string(), "bytes": section.bytes, "standing": status, "text": text,
        "faults": faults, "held": held, "notes": section.notes })
}

fn refusal_value(refusal: &Refusal) -> Value {
    let Refusal { defect, bytes, length, addresses, listing } = refusal;
    let digits: Vec<_> = bytes.iter().map(|byte| format!("{:02x}", byte)).collect();
    json!({ "text": defect.to_string(), "rule": defect.rule, "hint": defect.hint, "record": defect.at,
        "offset": defect.offset, "bytes": digits.concat(), "length": length,
        "begin": addresses.as_ref().map(|range| hex_address(range.start)), "listing": listing })
}
