//! Compares the tables of a program with each other: at each address that two of them cover, the CFA, the return
//! address and the registers of which both can speak.
//!
//! [`compare`] reads the tables and compares them. What differs is a [`Difference`], with what the code says of both
//! rows where that is known; what a table can't say is counted.

mod cfa;
mod difference;
mod header;
mod pair;
mod rules;
mod support;

pub use crate::cfi::table::TableName;
pub use crate::cfi::table_row::TableRow;
pub use difference::{Difference, Kind, Severity, Support, KINDS};
pub use header::{HeaderDifference, HeaderPair};
pub use pair::{NotSaid, Pair};
pub use support::named;

use crate::cfi::frames::{Frames, Name};
use crate::cfi::one_by_one::accepted_part_with_rows;
use crate::cfi::sframe::SframeSection;
use crate::cfi::table::Table;
use crate::check::lint::{LintError, Sections};
use crate::elf::functions::Functions;
use crate::elf::program::{Kind as FileKind, Program};
use cfa::Values;
use dwcheck::Process;
use dwcheck_symbols::{Architecture, SymbolFile};

/// What a comparison of a program's tables has found.
#[derive(Debug, Default)]
pub struct Compared {
    /// The pairs of tables with rows.
    pub pairs: Vec<Pair>,
    /// The sorted table of `.eh_frame_hdr`, if there is one.
    pub header: Option<HeaderPair>,
    /// What of the tables isn't used, and why.
    pub unused: Vec<String>,
}

/// The tables of a program, read and checked.
pub struct Tables<'data> {
    sections: Option<Sections<'data>>,
    separate: Vec<(Frames<'data>, Process)>,
    sframe: Option<SframeSection<'data>>,
    symbols: Option<(SymbolFile<'data>, Architecture)>,
    unused: Vec<String>,
}

/// What a program's own tables are compared with.
#[derive(Clone, Copy, Default)]
pub struct Others<'p, 'data> {
    /// Its separate file of debug information.
    pub separate: Option<&'p Program<'data>>,
    /// The text of its symbol file.
    pub symbols: Option<&'data [u8]>,
}

impl<'data> Tables<'data> {
    /// Reads the tables with rows of a program, and those of its separate file of debug information. Nothing is read if
    /// there are no two of them.
    fn read(program: &Program<'data>, Others { separate, symbols }: Others<'_, 'data>) -> Self {
        let mut tables =
            Tables { sections: None, separate: Vec::new(), sframe: None, symbols: None, unused: Vec::new() };
        let own = [".eh_frame", ".debug_frame", ".sframe"];
        let count = |program: &Program<'_>| own.iter().filter(|name| program.has_bytes(name)).count();
        let others = separate.map_or(0, count) + usize::from(symbols.is_some());
        if count(program) == 0 || count(program) + others < 2 {
            return tables;
        }
        match symbols.map(|text| symbols_of(program, text)).transpose() {
            Ok(symbols) => tables.symbols = symbols,
            Err(why) => tables.unused.push(why),
        }
        let sections = Sections::read(program);
        tables.unused.extend(sections.unused.iter().cloned());
        tables.sections = Some(sections);
        match SframeSection::read(program) {
            Ok(section) => tables.sframe = section,
            Err(error) => tables.unused.push(error.to_string()),
        }
        for frames in separate.iter().flat_map(|program| Frames::all(program)) {
            tables.add_separate(frames.map_err(|error| error.to_string()));
        }
        tables
    }

    fn add_separate(&mut self, frames: Result<Frames<'data>, String>) {
        match frames.and_then(|frames| accepted_part_with_rows(frames).map_err(|error| error.to_string())) {
            Ok((frames, process, problem)) => {
                self.separate.push((frames, process));
                self.unused.extend(problem);
            }
            Err(why) => self.unused.push(format!("in the separate file: {}", why)),
        }
    }
}

/// The symbol file of a program, and its machine.
fn symbols_of<'data>(program: &Program<'_>, text: &'data [u8]) -> Result<(SymbolFile<'data>, Architecture), String> {
    let symbols = SymbolFile::read(text).map_err(|error| format!("the symbol file: {}", error))?;
    let architecture = symbols.architecture().filter(|one| one.abi().machine == program.machine());
    let architecture = architecture.ok_or("the symbol file is that of another machine")?;
    match program.build_id() {
        Some(id) if !symbols.identity().is_of(id) => Err("the symbol file is that of another build".to_string()),
        _ => Ok((symbols, architecture)),
    }
}

/// Compares the tables of a program with each other, and with others. This takes time in proportion
/// to what they have; where something differs, also that of a lint of the program.
pub fn compare<'data>(
    program: &Program<'data>,
    others: Others<'_, 'data>,
    functions: &dyn Fn() -> Functions<'data>,
) -> Compared {
    let tables = Tables::read(program, others);
    let mut compared = Compared { unused: tables.unused.clone(), ..Compared::default() };
    match header::compared(program) {
        Ok(header) => compared.header = header,
        Err(why) => compared.unused.push(why),
    }
    let sections = match &tables.sections {
        Some(sections) => sections,
        None => return compared,
    };
    let sframe = tables.sframe.as_ref().map(SframeSection::check).transpose();
    let sframe = sframe.unwrap_or_else(|error| {
        compared.unused.push(format!("{}: {}", Name::Sframe, error));
        None
    });
    let is_linked = program.kind() != FileKind::Relocatable;
    let own = sections.all().iter().map(|(frames, process)| Table::of_frames(frames, process, false, is_linked));
    let of_sframe = sframe.as_ref().map(Table::of_sframe);
    let others = tables.separate.iter().map(|(frames, process)| Table::of_frames(frames, process, true, is_linked));
    let of_symbols = tables
        .symbols
        .as_ref()
        .map(|(symbols, architecture)| Table::of_symbols(symbols, *architecture, program.image_address()));
    let mut all: Vec<_> =
        own.chain(of_sframe).chain(others).chain(of_symbols).filter(|table| !table.is_empty()).collect();
    let machine = LintError::of(program).ok();
    let values = machine.map(Values::new);
    if let Some((first, others)) = all.split_first_mut() {
        let pairs = others.iter_mut().map(|second| Pair::of(first, second, values.as_ref()));
        compared.pairs.extend(pairs);
    }
    if compared.pairs.iter().any(|pair| !pair.differences.is_empty()) && machine.is_some() {
        support::judge(program, sections, &functions(), &mut compared.pairs);
    }
    compared
}
