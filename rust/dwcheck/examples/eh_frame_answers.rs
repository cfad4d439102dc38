//! Checks `.eh_frame` sections, and writes what is found in them. The script
//! `bench/comparisons/compare_eh_frame.py` compares this with what a model in Python says.
//!
//! Each line of standard input is a section, in words: `little` or `big`; the address size; `aarch64`
//! or `other`; the addresses of the section, of text and of data (0 if one of the last two isn't
//! known); an address to look up; and the section's bytes, or `-` if it has none. Numbers but the
//! size, and bytes, are hexadecimal. After what is written for a section comes a line with a dot.

use dwcheck::{
    AddressSize, CfaRule, EhFrame, Error, FrameSection, Module, Order, Process, Record, RecordKind,
    Row, Rule, Target,
};
use std::fmt;
use std::io::{self, BufRead, BufWriter, Write as _};
use std::num::NonZeroU64;
use std::ops::Range;

/// A line of standard input.
struct Case {
    target: Target,
    section: EhFrame,
    lookup: u64,
    bytes: Vec<u8>,
}

fn bytes_of(word: &str) -> Option<Vec<u8>> {
    let pairs = (0..word.len()).step_by(2);
    pairs
        .map(|at| u8::from_str_radix(word.get(at..at + 2)?, 16).ok())
        .collect()
}

impl Case {
    /// `None` if the line isn't as described above.
    fn read(line: &str) -> Option<Case> {
        let words: Vec<&str> = line.split_whitespace().collect();
        let (order, size, processor, numbers, bytes) = match words.as_slice() {
            [order, size, processor, numbers @ .., bytes] => {
                (*order, *size, *processor, numbers, *bytes)
            }
            _ => return None,
        };
        let numbers: Option<Vec<u64>> = numbers
            .iter()
            .map(|word| u64::from_str_radix(word, 16).ok())
            .collect();
        let [address, text, data, lookup]: [u64; 4] = numbers?.try_into().ok()?;
        let mut section = EhFrame::at(address);
        section.text_start = NonZeroU64::new(text);
        section.data_start = NonZeroU64::new(data);
        section.is_aarch64 = processor == "aarch64";
        let target = Target {
            order: match order {
                "little" => Order::Little,
                "big" => Order::Big,
                _ => return None,
            },
            address_size: match size {
                "4" => AddressSize::Four,
                "8" => AddressSize::Eight,
                _ => return None,
            },
        };
        let bytes = if bytes == "-" { "" } else { bytes };
        Some(Case {
            target,
            section,
            lookup,
            bytes: bytes_of(bytes)?,
        })
    }

    /// The number of digits of an address.
    fn digits(&self) -> usize {
        match self.target.address_size {
            AddressSize::Four => 8,
            AddressSize::Eight => 16,
        }
    }
}

/// A section that is accepted, and the process that has it.
struct Answers<'a> {
    case: &'a Case,
    section: FrameSection<'a>,
    process: Process,
}

impl Answers<'_> {
    fn span(&self, addresses: &Range<u64>) -> String {
        let digits = self.case.digits();
        let (start, end) = (addresses.start, addresses.end);
        format!("0x{:0digits$x}..0x{:0digits$x}", start, end)
    }

    fn row(&self, address: u64) -> String {
        match self.process.row(address) {
            Some(row) => {
                let (process, addresses) = (&self.process, self.span(&row.addresses));
                let rules = Rules { process, row: &row };
                format!("row {} {}\n", addresses, rules)
            }
            None => "none\n".to_string(),
        }
    }

    /// The rows of an FDE, one after another.
    fn rows(&self, addresses: &Range<u64>) -> String {
        let mut text = String::new();
        let mut next = addresses.start;
        while next < addresses.end {
            text += &self.row(next);
            let row = self.process.row(next);
            next = row.map_or(addresses.end, |row| row.addresses.end);
        }
        text
    }

    /// A line about an FDE, and its rows. Nothing for another record.
    fn record(&self, record: &Record) -> Result<String, Error> {
        let (cie, addresses) = match &record.kind {
            RecordKind::Fde { cie, addresses } => (*cie, addresses),
            _ => return Ok(String::new()),
        };
        let register = match self.section.record(cie)?.map(|record| record.kind) {
            Some(RecordKind::Cie {
                return_register, ..
            }) => format!("r{}", return_register),
            other => format!("{:?}", other),
        };
        let (offset, span) = (record.offset, self.span(addresses));
        let rows = self.rows(addresses);
        Ok(format!(
            "fde 0x{offset:08x} cie 0x{cie:08x} {span} ra {register}\n{rows}"
        ))
    }

    /// All FDEs, and which of them are signal frames'.
    fn records(&self) -> Result<String, Error> {
        let records = self.section.records().collect::<Result<Vec<_>, _>>()?;
        let mut text = String::new();
        for record in &records {
            text += &self.record(record)?;
        }
        let signals: String = records
            .iter()
            .filter(|record| self.is_signal_frame(record))
            .map(|record| format!(" 0x{:08x}", record.offset))
            .collect();
        if !signals.is_empty() {
            text += &format!("signal frames{}\n", signals);
        }
        Ok(text)
    }

    /// Whether a record is an FDE of signal frames. The process must say the same of its addresses.
    fn is_signal_frame(&self, record: &Record) -> bool {
        match &record.kind {
            RecordKind::Fde { addresses, .. } if !addresses.is_empty() => {
                let last = addresses.end - 1;
                let said =
                    [addresses.start, last].map(|address| self.process.is_signal_frame(address));
                assert_eq!(said, [record.is_signal_frame; 2]);
                record.is_signal_frame
            }
            RecordKind::Fde { .. } => record.is_signal_frame,
            _ => false,
        }
    }
}

/// The rules of a row.
struct Rules<'a> {
    process: &'a Process,
    row: &'a Row,
}

impl Rules<'_> {
    /// The bytes of the expression of a rule: of a register's, or of the CFA's.
    fn expression(&self, register: Option<u16>) -> String {
        let bytes = self.process.rule_bytes(self.row.addresses.start, register);
        let bytes = bytes.expect("the bytes of an expression");
        let digits: String = bytes.iter().map(|byte| format!("{:02x}", byte)).collect();
        format!("expr({})", digits)
    }

    fn rule(&self, register: u16, rule: Rule) -> String {
        match rule {
            Rule::Undefined => "u".to_string(),
            Rule::SameValue => "s".to_string(),
            Rule::Offset(offset) => format!("[c{:+}]", offset),
            Rule::ValOffset(offset) => format!("c{:+}", offset),
            Rule::Register(other) => format!("r{}", other),
            Rule::Expression(_) => format!("[{}]", self.expression(Some(register))),
            Rule::ValExpression(_) => self.expression(Some(register)),
            other => format!("{:?}", other),
        }
    }
}

impl fmt::Display for Rules<'_> {
    fn fmt(&self, f: &mut fmt::Formatter<'_>) -> fmt::Result {
        match self.row.cfa {
            CfaRule::RegisterAndOffset { register, offset } => {
                write!(f, "cfa=r{}{:+}", register, offset)?
            }
            CfaRule::Expression(_) => write!(f, "cfa={}", self.expression(None))?,
            other => write!(f, "cfa={:?}", other)?,
        }
        let mut rules = self.row.rules.iter();
        rules.try_for_each(|(register, rule)| {
            write!(f, " r{}={}", register, self.rule(*register, *rule))
        })
    }
}

/// What is found in a section, if it isn't refused.
fn found(case: &Case) -> Result<String, Error> {
    let section = FrameSection::eh_frame(&case.bytes, case.section.clone(), case.target);
    let contents = section.check()?;
    let greatest = u64::MAX >> (64 - 4 * case.digits());
    let module = Module::at(0).range(0..=greatest);
    let mut process = Process::new(case.target);
    process.add(&case.bytes, module.eh_frame(case.section.clone()))?;
    let answers = Answers {
        case,
        section,
        process,
    };
    let counts = format!(
        "accepted cies {} fdes {} rows {} expressions {}\n",
        contents.cies, contents.fdes, contents.rows, contents.expressions
    );
    Ok(counts + &answers.records()? + "at " + &answers.row(case.lookup))
}

fn answer(case: &Case) -> String {
    match found(case) {
        Ok(text) => text,
        Err(Error::Refused(fault)) => {
            let (number, name) = (fault.number(), fault.name());
            format!("refused {} {} 0x{:08x}\n", number, name, fault.offset)
        }
        Err(other) => format!("error {}\n", other),
    }
}

fn main() -> io::Result<()> {
    let mut out = BufWriter::new(io::stdout().lock());
    for line in io::stdin().lock().lines() {
        let case = Case::read(&line?).expect("a line as the beginning of this file describes it");
        writeln!(out, "{}.", answer(&case))?;
    }
    out.flush()
}
