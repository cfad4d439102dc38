//! Writes findings as text and as JSON.

use crate::correct_row::Location;
use crate::coverage::{Coverage, REASONS};
use crate::finding::Finding;
use crate::instruction::Key;
use crate::judge::{Facts, WrongCfa, WrongRule};
use crate::judging::Way;
use crate::machine::Machine;
use crate::module::Module;
use crate::register::Register;
use crate::table::{Cfa, Row, Rule};
use std::fmt::{self, Write};

/// Names an address: the function, with an offset after it if there is one.
pub type Names<'a> = dyn Fn(u64) -> Option<String> + 'a;

/// A row, as it is shown: `cfa=rsp+16 rbx=[c-16] ra=[c-8]`.
pub struct RowText<'a>(pub &'a Machine, pub &'a Row<'a>);

/// A finding in several lines.
pub struct Text<'a, 'm>(pub &'a Module<'m>, pub &'a Finding<'m>, pub &'a Names<'a>);

/// A finding as an object of JSON.
pub struct Json<'a, 'm>(pub &'a Module<'m>, pub &'a Finding<'m>, pub &'a Names<'a>);

/// An address as it is shown: `0x1234`, or in an unlinked object `.text.f+0x12`, where the names of its
/// sections stand for their addresses.
pub struct ShownAddress<'a, 'm>(pub &'a Module<'m>, pub u64);

/// A string of JSON, with its quotes.
pub struct Quoted<'a>(pub &'a str);

/// What is said of a finding that rests on an assumption.
const ASSUMED_NOTE: &str = "nothing is seen to lead to this code, or to the code that leads here, \
    so an earlier row was taken to be right, which may be the wrong one";

/// A register plus a number: `rsp+16`.
pub struct Sum<'a>(pub &'a Machine, pub Register, pub i64);

impl fmt::Display for Sum<'_> {
    fn fmt(&self, f: &mut fmt::Formatter<'_>) -> fmt::Result {
        write!(f, "{}{:+}", self.0.name(self.1), self.2)
    }
}

impl fmt::Display for ShownAddress<'_, '_> {
    fn fmt(&self, f: &mut fmt::Formatter<'_>) -> fmt::Result {
        match self.0.section_of(self.1) {
            Some((name, offset)) => write!(f, "{}+{:#x}", name, offset),
            None => write!(f, "{:#x}", self.1),
        }
    }
}

impl fmt::Display for RowText<'_> {
    fn fmt(&self, f: &mut fmt::Formatter<'_>) -> fmt::Result {
        let RowText(machine, row) = self;
        match row.cfa {
            Cfa::RegisterOffset { register, offset } => write!(f, "cfa={}", Sum(machine, register, offset))?,
            Cfa::Expression(_) => f.write_str("cfa=expression")?,
        }
        for (register, rule) in &row.rules {
            write!(f, " {}=", machine.name(*register))?;
            match rule {
                Rule::Undefined => f.write_str("undefined")?,
                Rule::SameValue => f.write_str("same")?,
                Rule::Offset(offset) => write!(f, "[c{:+}]", offset)?,
                Rule::Register(other) => f.write_str(machine.name(*other))?,
                Rule::Expression(_) => f.write_str("[expression]")?,
                Rule::ValOffset(_) | Rule::ValExpression(_) | Rule::Architectural => f.write_str("value")?,
            }
        }
        Ok(())
    }
}

impl Finding<'_> {
    /// What is wrong, in words.
    pub fn what(&self, machine: &Machine) -> String {
        if !self.mark.verdict.wrong.has_frame() {
            let names: Vec<_> = self.wrong.names(machine).collect();
            return format!("the row has {} wrong", names.join(", "));
        }
        match self.mark.verdict.cfa {
            Some(WrongCfa::OffBy(by)) => format!("the row's CFA is off by {}", by),
            Some(WrongCfa::Dynamic) => "the row's CFA is at no fixed distance from the true one".to_string(),
            Some(WrongCfa::Clobbered) => "the register of the row's CFA has been overwritten".to_string(),
            Some(WrongCfa::Restored) => "the register of the row's CFA has the caller's value".to_string(),
            Some(WrongCfa::Number) => "the row's CFA is a number".to_string(),
            None => match (self.mark.verdict.return_address, self.mark.correct_row.return_address) {
                (Some(WrongRule::Signing), Some((_, true))) => {
                    "the row says that the return address isn't signed".to_string()
                }
                (Some(WrongRule::Signing), _) => "the row says that the return address is signed".to_string(),
                (Some(WrongRule::Key(key)), _) => {
                    format!("the table says that the return address is signed with key {}", key.other())
                }
                _ => "the row's return address is wrong".to_string(),
            },
        }
    }

    /// What the code says.
    pub fn correct_row(&self, machine: &Machine) -> String {
        if self.mark.verdict.wrong.has(Facts::CFA) {
            return match self.mark.correct_row.cfa {
                Some((register, offset)) => format!("cfa={}", Sum(machine, register, offset)),
                None => "no register has a known distance from the CFA".to_string(),
            };
        }
        let place = |register, location| match location {
            Some(Location::Register(other)) => format!("{}={}", machine.name(register), machine.name(other)),
            Some(Location::Slot(offset)) => format!("{}=[c{:+}]", machine.name(register), offset),
            None => format!("{} is lost", machine.name(register)),
        };
        let correct_row = &self.mark.correct_row;
        let callee_saved = machine.callee_saved.iter().zip(&correct_row.callee_saved).enumerate();
        let wrong = callee_saved.filter(|(index, _)| self.wrong.has(Facts::callee_saved(*index)));
        let mut places: Vec<_> = wrong.map(|(_, (register, location))| place(*register, *location)).collect();
        if self.mark.verdict.wrong.has(Facts::RETURN_ADDRESS) {
            let text = place(machine.return_address, correct_row.return_address.map(|(location, _)| location));
            let is_signed = correct_row.return_address.map_or(false, |(_, is_signed)| is_signed);
            let signature = match self.mark.verdict.return_address {
                Some(WrongRule::Key(key)) if is_signed => format!(" signed with key {}", key),
                _ if is_signed => " signed".to_string(),
                _ => String::new(),
            };
            places.insert(0, text + &signature);
        }
        places.join(" ")
    }

    /// Whether what is known of the code was taken from a row, so that this one is wrong only if that one is right.
    pub fn is_assumed(&self) -> bool {
        self.mark.is_assumed
    }

    /// The directive that would have made the row right, if one would. `None` if that rests on an assumption.
    pub fn directive(&self) -> Option<String> {
        if self.is_assumed() {
            return None;
        }
        match (self.mark.row.cfa, self.mark.correct_row.cfa) {
            (Cfa::RegisterOffset { register, .. }, Some((other, offset)))
                if self.mark.verdict.wrong.has(Facts::CFA) =>
            {
                if register == other {
                    return Some(format!(".cfi_def_cfa_offset {}", offset));
                }
                Some(format!(".cfi_def_cfa {}, {}", other.0, offset))
            }
            _ if self.mark.verdict.return_address == Some(WrongRule::Signing) => {
                Some(".cfi_negate_ra_state".to_string())
            }
            // For key A there is no directive.
            _ if self.mark.verdict.return_address == Some(WrongRule::Key(Key::B)) => {
                Some(".cfi_b_key_frame".to_string())
            }
            _ => None,
        }
    }
}

impl fmt::Display for Text<'_, '_> {
    fn fmt(&self, f: &mut fmt::Formatter<'_>) -> fmt::Result {
        let Text(module, finding, names) = self;
        let (machine, mark) = (module.machine, &finding.mark);
        let address = mark.address;
        let name = names(address).unwrap_or_else(|| "a function without a name".to_string());
        let place = |address| ShownAddress(module, address);
        write!(f, "{} at {} ({}): {}: ", finding.kind, name, place(address), finding.severity)?;
        f.write_str(&finding.what(machine))?;
        let count = |count, one, many| if count == 1 { one } else { many };
        write!(f, ", {} {}", finding.addresses, count(finding.addresses, "address", "addresses"))?;
        if finding.places > 1 {
            write!(f, " in {} places", finding.places)?;
        }
        let text = |address| (machine.text)(module.bytes_at(address), address);
        if let Some((before, _)) = mark.before {
            let word = if mark.way == Way::Here { "after" } else { "from" };
            write!(f, "\n    {} {}: {}", word, place(before), text(before))?;
        }
        write!(f, "\n    at {}: {}", place(address), text(address))?;
        match &module.table {
            Some(table) => write!(f, "\n    row of {}: {}", table, RowText(machine, &mark.row))?,
            None => write!(f, "\n    row: {}", RowText(machine, &mark.row))?,
        }
        write!(f, "\n    code: {}", finding.correct_row(machine))?;
        if let Some(directive) = finding.directive() {
            write!(f, "; right would be: {}", directive)?;
        }
        if finding.is_assumed() {
            write!(f, "\n    note: {}", ASSUMED_NOTE)?;
        }
        if finding.has_odd_return {
            f.write_str("\n    note: at a return of this function the stack pointer isn't at the return address")?;
        }
        Ok(())
    }
}

impl fmt::Display for Json<'_, '_> {
    fn fmt(&self, f: &mut fmt::Formatter<'_>) -> fmt::Result {
        let Json(module, finding, names) = self;
        let (machine, mark) = (module.machine, &finding.mark);
        let text = |address| (machine.text)(module.bytes_at(address), address);
        write!(f, "{{\"kind\":{}", Quoted(&finding.kind.to_string()))?;
        write!(f, ",\"severity\":{}", Quoted(&finding.severity.to_string()))?;
        write!(f, ",\"fde\":{},\"address\":{}", finding.fde, mark.address)?;
        if let Some((section, offset)) = module.section_of(mark.address) {
            write!(f, ",\"section\":{},\"offset\":{}", Quoted(section), offset)?;
        }
        if let Some(name) = names(mark.address) {
            write!(f, ",\"function\":{}", Quoted(&name))?;
        }
        if let Some((before, _)) = mark.before {
            write!(f, ",\"before\":{},\"before-address\":{}", Quoted(&text(before)), before)?;
        }
        write!(f, ",\"instruction\":{}", Quoted(&text(mark.address)))?;
        if let Some(table) = &module.table {
            write!(f, ",\"table\":{}", Quoted(table))?;
        }
        write!(f, ",\"row\":{}", Quoted(&RowText(machine, &mark.row).to_string()))?;
        write!(f, ",\"what\":{}", Quoted(&finding.what(machine)))?;
        write!(f, ",\"code\":{}", Quoted(&finding.correct_row(machine)))?;
        if let Some(directive) = finding.directive() {
            write!(f, ",\"directive\":{}", Quoted(&directive))?;
        }
        let names: Vec<_> = finding.wrong.names(machine).map(|name| Quoted(name).to_string()).collect();
        write!(f, ",\"registers\":[{}]", names.join(","))?;
        write!(f, ",\"addresses\":{},\"places\":{}", finding.addresses, finding.places)?;
        write!(f, ",\"assumed\":{},\"odd-return\":{}}}", finding.is_assumed(), finding.has_odd_return)
    }
}

impl fmt::Display for Quoted<'_> {
    fn fmt(&self, f: &mut fmt::Formatter<'_>) -> fmt::Result {
        f.write_char('"')?;
        for c in self.0.chars() {
            match c {
                '"' | '\\' => write!(f, "\\{}", c)?,
                c if c.is_control() => write!(f, "\\u{:04x}", u32::from(c))?,
                c => f.write_char(c)?,
            }
        }
        f.write_char('"')
    }
}

/// What was judged, in a line: how many instructions, and how many not, by the reason.
impl fmt::Display for Coverage {
    fn fmt(&self, f: &mut fmt::Formatter<'_>) -> fmt::Result {
        write!(f, "fdes {} instructions {} judged {}", self.fdes, self.instructions, self.judged)?;
        let skipped = REASONS.iter().map(|(reason, name)| (*name, self.skipped(*reason)));
        let others = [("signal-frames", self.signal_frames), ("unread", self.unread), ("undecoded", self.undecoded)];
        let mut counts = skipped.chain(others).filter(|(_, count)| *count > 0);
        counts.try_for_each(|(name, count)| write!(f, " {} {}", name, count))
    }
}
