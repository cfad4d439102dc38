//! Adds the `.eh_frame` section of each program to a process of the C library, whose reading of it is
//! proved, and compares each row with gimli's. Programs are named by lines of standard input. Prints
//! a line for each section that is refused or has a row that differs, and then the counts.
//!
//! ```text
//! find /usr/lib -name '*.so*' -type f | cargo run --release --example eh_rows
//! ```
use dwcheck::{CfaRule, EhFrame, Module, Process, Row, Rule, Target};
use gimli::{BaseAddresses, CieOrFde, EndianSlice, RegisterRule, RunTimeEndian, UnwindContext, UnwindSection};
use object::{Architecture, Object, ObjectSection};
use std::error::Error;
use std::io::{stdin, BufRead};

type Bytes<'a> = EndianSlice<'a, RunTimeEndian>;

/// What a file's section has.
#[derive(Default)]
struct Counts {
    sections: usize,
    refused: usize,
    rows: usize,
}

/// The rules of a row of gimli's, as text. Registers that are undefined are left out: gimli doesn't
/// tell them from those without a rule.
fn gimli_text(row: &gimli::UnwindTableRow<Bytes<'_>>) -> String {
    let mut rules: Vec<_> = row.registers().filter(|(_, rule)| *rule != RegisterRule::Undefined).collect();
    rules.sort_by_key(|(register, _)| register.0);
    let cfa = match row.cfa() {
        gimli::CfaRule::RegisterAndOffset { register, offset } => format!("r{}+{}", register.0, offset),
        gimli::CfaRule::Expression(bytes) => format!("{:x?}", bytes.0.slice()),
    };
    let rules = rules.iter().map(|(register, rule)| match rule {
        RegisterRule::SameValue => format!(" {}=same", register.0),
        RegisterRule::Offset(offset) => format!(" {}=at {}", register.0, offset),
        RegisterRule::ValOffset(offset) => format!(" {}=cfa {}", register.0, offset),
        RegisterRule::Register(other) => format!(" {}=r{}", register.0, other.0),
        RegisterRule::Expression(bytes) => format!(" {}=at {:x?}", register.0, bytes.0.slice()),
        RegisterRule::ValExpression(bytes) => format!(" {}={:x?}", register.0, bytes.0.slice()),
        other => format!(" {}={:?}", register.0, other),
    });
    format!("{:#x}..{:#x} {}{}", row.start_address(), row.end_address(), cfa, rules.collect::<String>())
}

/// The same of a row of the library's.
fn library_text(process: &Process, row: &Row) -> String {
    let bytes = |register| process.rule_bytes(row.addresses.start, register).unwrap_or_default();
    let cfa = match row.cfa {
        CfaRule::RegisterAndOffset { register, offset } => format!("r{}+{}", register, offset),
        _ => format!("{:x?}", bytes(None)),
    };
    let rules = row.rules.iter().filter(|(_, rule)| *rule != Rule::Undefined).map(|(register, rule)| match rule {
        Rule::SameValue => format!(" {}=same", register),
        Rule::Offset(offset) => format!(" {}=at {}", register, offset),
        Rule::ValOffset(offset) => format!(" {}=cfa {}", register, offset),
        Rule::Register(other) => format!(" {}=r{}", register, other),
        Rule::Expression(_) => format!(" {}=at {:x?}", register, bytes(Some(*register))),
        Rule::ValExpression(_) => format!(" {}={:x?}", register, bytes(Some(*register))),
        other => format!(" {}={:?}", register, other),
    });
    format!("{:#x}..{:#x} {}{}", row.addresses.start, row.addresses.end, cfa, rules.collect::<String>())
}

/// Compares the rows of all FDEs, and returns how many there are. `Err` says which differs.
fn compare_rows(
    process: &Process,
    section: &gimli::EhFrame<Bytes<'_>>,
    bases: &BaseAddresses,
) -> Result<usize, Box<dyn Error>> {
    let mut context = UnwindContext::new();
    let mut rows = process.rows();
    let mut count = 0;
    let mut entries = section.entries(bases);
    while let Some(entry) = entries.next()? {
        let partial = match entry {
            CieOrFde::Fde(partial) => partial,
            CieOrFde::Cie(_) => continue,
        };
        let fde = partial.parse(gimli::EhFrame::cie_from_offset)?;
        let mut table = fde.rows(section, bases, &mut context)?;
        while let Some(row) = table.next_row()? {
            if row.start_address() == row.end_address() {
                continue;
            }
            let theirs = gimli_text(row);
            let ours = rows.row(row.start_address()).map(|row| library_text(process, row));
            if ours.as_ref() != Some(&theirs) {
                let ours = ours.unwrap_or_else(|| "none".into());
                return Err(format!("{} is gimli's, and {} ours", theirs, ours).into());
            }
            count += 1;
        }
    }
    Ok(count)
}

/// Compares a file's section, if it has one. `Err` is a line about what is wrong.
fn compare_file(bytes: &[u8], counts: &mut Counts) -> Result<(), Box<dyn Error>> {
    let file = match object::File::parse(bytes) {
        Ok(file) if file.kind() != object::ObjectKind::Relocatable => file,
        _ => return Ok(()),
    };
    let section = match file.section_by_name(".eh_frame") {
        Some(section) => section,
        None => return Ok(()),
    };
    let data = match section.data() {
        Ok(data) if !data.is_empty() => data,
        _ => return Ok(()),
    };
    let target = match (file.is_little_endian(), file.is_64()) {
        (true, true) => Target::LITTLE_64,
        (true, false) => Target::LITTLE_32,
        (false, true) => Target::BIG_64,
        (false, false) => Target::BIG_32,
    };
    let mut eh_frame = EhFrame::at(section.address());
    if file.architecture() == Architecture::Aarch64 {
        eh_frame = eh_frame.aarch64();
    }
    let whole = 0..=if file.is_64() { u64::MAX } else { u64::from(u32::MAX) };
    let mut process = Process::new(target);
    counts.sections += 1;
    if let Err(why) = process.add(data, Module::at(0).range(whole).eh_frame(eh_frame)) {
        counts.refused += 1;
        return Err(why.into());
    }
    let endian = if file.is_little_endian() { RunTimeEndian::Little } else { RunTimeEndian::Big };
    let mut section_of_gimli = gimli::EhFrame::new(data, endian);
    section_of_gimli.set_address_size(if file.is_64() { 8 } else { 4 });
    let bases = BaseAddresses::default().set_eh_frame(section.address());
    counts.rows += compare_rows(&process, &section_of_gimli, &bases)?;
    Ok(())
}

fn main() {
    let mut counts = Counts::default();
    for name in stdin().lock().lines().map_while(Result::ok) {
        match std::fs::read(&name).map(|bytes| compare_file(&bytes, &mut counts)) {
            Ok(Err(why)) => println!("{}: {}", name, why),
            _ => continue,
        }
    }
    println!("{} sections, {} refused, {} rows are gimli's", counts.sections, counts.refused, counts.rows);
}
