//! What the page of `report` shows: what the frame sections of a program hold, what of them is refused, which
//! code has rows, and the rows of each function beside its instructions.
//!
//! [`Report::read`] reads a program, [`Difference::of`] compares two of them, and [`page::write`] writes the page.

mod compare;
mod coverage;
mod details;
mod frame_section;
mod instructions;
pub mod page;
mod refusal;
mod tables;

pub use compare::Difference;
pub use coverage::{Coverage, Gap, GapKind, Totals};
pub use frame_section::{Held, Section, SectionStatus};
pub use refusal::Refusal;

use crate::cfi::frames::{Frames, Kind, Name};
use crate::cfi::one_by_one::accepted_part_with_rows;
use crate::cfi::row::Row;
use crate::cfi::sframe::{Sframe, SframeSection};
use crate::cfi::validate::{DwcheckRows, RowSource};
use crate::check::inspect::{inspect_frame_sections, inspect_sframe, Check, Inspected};
use crate::check::lint::LintError;
use crate::elf::covered::Covered;
use crate::elf::demangle::{raw_name, shown_name};
use crate::elf::functions::Functions;
use crate::elf::program::Program;
use dwcheck::Process;
use dwcheck_lint::machine::Machine;
use dwcheck_types::target::Target;
use instructions::Memory;
use std::ops::Range;
use tables::{Table, TableRows};

/// What a report says of a program.
pub struct Report<'data> {
    /// The name of the program, such as its path.
    pub title: String,
    /// The byte order and the address size.
    pub target: Target,
    /// The frame sections that have bytes, and the SFrame section.
    pub sections: Vec<Section>,
    /// The FDEs that are accepted: section by section, each in the order of its FDEs.
    pub functions: Vec<Function>,
    /// Which code has rows.
    pub coverage: Coverage,
    /// The records that are refused, at most [`refusal::MOST`] of each section.
    pub refusals: Vec<Refusal>,
    /// The rows of each section that has accepted FDEs.
    tables: Vec<Table>,
    memory: Memory<'data>,
}

/// The code of an accepted FDE. This is mostly a function, or a part of one.
#[derive(Clone, Debug, PartialEq, Eq)]
pub struct Function {
    /// The function's name in the file, without control characters. `None` if the file has no name for the
    /// first address.
    pub symbol: Option<String>,
    /// How far the first address is from that of the symbol.
    pub offset: u64,
    /// The first address.
    pub begin: u64,
    /// The address after the last one.
    pub end: u64,
    /// How many rows it has.
    pub rows: usize,
    /// The DWARF number of the register of the return address.
    pub return_register: u16,
    /// The index of its rows in [`Report::tables`].
    table: usize,
}

impl<'data> Report<'data> {
    /// Reads the frame sections of a program and checks them, each record alone where a section is refused. This
    /// takes time and memory in proportion to the program's frame sections and symbols.
    pub fn read(title: String, program: &Program<'data>) -> Self {
        let functions = program.functions();
        let machine = LintError::of(program).ok();
        let memory = Memory { image: program.image(), machine };
        let inspected = inspect_frame_sections(program, Check { all: true, ..Check::default() });
        let mut report = Report {
            title,
            target: program.target(),
            sections: Vec::new(),
            functions: Vec::new(),
            coverage: Coverage::default(),
            refusals: Vec::new(),
            tables: Vec::new(),
            memory,
        };
        let mut refused = Covered::default();
        for one in &inspected {
            report.add(one, program, &functions, &mut refused);
        }
        report.add_sframe(program, &functions);
        let mut covered = Covered::default();
        report.functions.iter().for_each(|function| covered.insert(function.begin, function.end));
        report.coverage = Coverage::of(program, &functions, &report.memory, &covered, &refused);
        report
    }

    /// Adds a section. `refused` gets the addresses of the FDEs that are left out.
    fn add(
        &mut self,
        inspected: &Inspected<'data>,
        program: &Program<'data>,
        functions: &Functions<'data>,
        refused: &mut Covered,
    ) {
        let section = Section::of(inspected, program);
        let is_read = section.status.is_read();
        self.sections.push(section);
        self.refusals.extend(Refusal::all(inspected, &self.memory));
        let frames = inspected.frames.as_ref().filter(|_| is_read);
        if let Some((frames, process, _)) = frames.and_then(|frames| accepted_part_with_rows(frames.clone()).ok()) {
            let left_out = frames.records().iter().filter(|record| !record.is_used());
            let addresses = left_out.filter_map(|record| record.addresses());
            addresses.filter(|range| !range.is_empty()).for_each(|range| refused.insert(range.start, range.end));
            let table = self.tables.len();
            self.functions.extend(functions_of(&frames, &process, functions, table));
            self.tables.push(Table::Frames(frames.name(), process));
        }
    }

    /// Adds the SFrame section, if there is one.
    fn add_sframe(&mut self, program: &Program<'data>, functions: &Functions<'data>) {
        if let Some(inspected) = inspect_sframe(program) {
            self.sections.push(Section::of(&inspected, program));
        }
        let section = SframeSection::read(program).ok().flatten();
        if let Some(sframe) = section.as_ref().and_then(|section| section.check().ok()) {
            let table = self.tables.len();
            self.functions.extend(functions_of_sframe(&sframe, functions, table));
            self.tables.push(Table::of_sframe(&sframe));
        }
    }

    /// The machine, if its instructions are decoded.
    pub fn machine(&self) -> Option<&'static Machine> {
        self.memory.machine
    }

    /// The section that has a function's rows.
    pub fn section_of(&self, function: &Function) -> Option<Name> {
        self.tables.get(function.table).map(Table::name)
    }

    /// The rows of a function, which is one of this report.
    fn rows_of(&self, function: &Function) -> Option<TableRows<'_>> {
        Some(self.tables.get(function.table)?.rows(function.begin, function.end))
    }

    /// The indexes of the functions that have this name in the file, or are shown with it.
    pub fn named<'a>(&'a self, name: &'a str) -> impl Iterator<Item = usize> + 'a {
        let is_named = move |function: &Function| {
            function.symbol.as_deref().map_or(false, |symbol| symbol == name || shown_name(symbol) == name)
        };
        self.functions.iter().enumerate().filter(move |(_, function)| is_named(function)).map(|(index, _)| index)
    }
}

/// The accepted FDEs of a section.
fn functions_of<'a>(
    frames: &'a Frames<'_>,
    process: &'a Process,
    functions: &'a Functions<'_>,
    table: usize,
) -> impl Iterator<Item = Function> + 'a {
    let mut row = Row::default();
    frames.used().filter_map(move |record| {
        let (begin, end) = match record.kind {
            Kind::Fde { begin, end, .. } if begin < end => (begin, end),
            _ => return None,
        };
        let mut source = DwcheckRows::whole(process, begin, end);
        let mut rows = 0;
        while let Ok(true) = source.next_row(&mut row) {
            rows += 1;
        }
        let return_register = source.return_register().unwrap_or(0);
        Some(Function::new(functions, begin..end, rows, return_register, table))
    })
}

/// The functions of an SFrame section that have addresses. Rows of a block count once.
fn functions_of_sframe<'a>(
    sframe: &'a Sframe<'_>,
    functions: &'a Functions<'_>,
    table: usize,
) -> impl Iterator<Item = Function> + 'a {
    let register = sframe.header().abi.return_address();
    let function = move |one: &crate::cfi::sframe::Function| {
        Function::new(functions, one.addresses(), sframe.rows(one).count(), register, table)
    };
    sframe.by_address().map(function)
}

impl Function {
    /// A function with these addresses, which is named by the symbol there.
    fn new(functions: &Functions<'_>, range: Range<u64>, rows: usize, return_register: u16, table: usize) -> Self {
        let found = functions.at(range.start);
        let symbol = found.map(|(function, _)| raw_name(&function.name));
        let offset = found.map_or(0, |(_, offset)| offset);
        Function { symbol, offset, begin: range.start, end: range.end, rows, return_register, table }
    }

    /// The function's name as it is shown, with an offset if it doesn't begin at its symbol. `None` if the file has no
    /// name for it.
    pub fn shown(&self) -> Option<String> {
        self.symbol.as_deref().map(|symbol| match self.offset {
            0 => shown_name(symbol),
            offset => format!("{}+{:#x}", shown_name(symbol), offset),
        })
    }
}
