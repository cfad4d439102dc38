//! Gives the lint what it takes: the code of a program, its FDEs, and `dwcheck`'s rows.
//!
//! [`Sections`] reads and checks the frame sections, and [`Sections::module`] makes a
//! [`Module`](dwcheck_lint::module::Module), which [`dwcheck_lint::lint`] judges.

mod sframe;

use crate::cfi::frames::{Frames, Kind, Name, Record};
use crate::cfi::one_by_one::accepted_part_with_rows;
use crate::cfi::sframe::Sframe;
use crate::cfi::validate::comparable_bytes;
use crate::elf::functions::Functions;
use crate::elf::image::{Image, Part};
use crate::elf::program::Program;
use dwcheck::{CfaRule, Process};
use dwcheck_lint::error::Error;
use dwcheck_lint::instruction::Key;
use dwcheck_lint::landings::landings;
use dwcheck_lint::machine::Machine;
use dwcheck_lint::module::{Convention, Module, Segment};
use dwcheck_lint::table::{Cfa, Fde, Row, Rows, Rule};
use gimli::{CallFrameInstruction, EndianSlice, Pointer, RunTimeEndian, UnwindSection};
use sframe::SframeRows;
use std::cell::RefCell;
use std::collections::HashSet;
use std::fmt;
use std::ops::Range;

type Bytes<'a> = EndianSlice<'a, RunTimeEndian>;
type Header<'a> = gimli::FrameDescriptionEntry<Bytes<'a>>;

/// The frame sections of a program, checked, with all their rows, and its code.
pub struct Sections<'data> {
    all: Vec<(Frames<'data>, Process)>,
    image: Image<'data>,
    /// What of them isn't used, and why.
    pub unused: Vec<String>,
}

/// Why a program can't be linted.
#[derive(Clone, Copy, Debug, PartialEq, Eq)]
pub enum LintError {
    /// The code of the machine with this number (`e_machine`) isn't read.
    Machine(u16),
}

impl<'data> Sections<'data> {
    /// Reads the frame sections of a program, `.eh_frame` first, and its code. CIEs and FDEs that
    /// `dwcheck` refuses are left out.
    pub fn read(program: &Program<'data>) -> Self {
        let mut sections = Sections { all: Vec::new(), image: program.image(), unused: Vec::new() };
        for frames in Frames::all(program) {
            match frames.map(accepted_part_with_rows) {
                Ok(Ok((frames, process, problem))) => {
                    sections.all.push((frames, process));
                    sections.unused.extend(problem);
                }
                Ok(Err(error)) => sections.unused.push(error.to_string()),
                Err(error) => sections.unused.push(error.to_string()),
            }
        }
        sections.all.sort_by_key(|(frames, _)| frames.name() != Name::EhFrame);
        sections
    }

    /// The module that is linted.
    pub fn module<'a>(&'a self, program: &Program<'a>, functions: &Functions<'_>) -> Result<Module<'a>, LintError> {
        let machine = LintError::of(program)?;
        let parts = &self.image.parts;
        let segment = |part: &'a Part<'_>| {
            let (address, bytes, is_executable) = (part.address, &*part.bytes, part.is_executable);
            Segment { address, bytes, is_executable }
        };
        let section = |part: &'a Part<'_>| Some((part.address, part.section.as_deref()?));
        let mut module = Module {
            machine,
            segments: parts.iter().map(segment).collect(),
            sections: parts.iter().filter_map(section).collect(),
            fdes: Vec::new(),
            imports: self.image.imports.iter().copied().collect(),
            convention: register_convention(program, functions, &self.image),
            rows: Box::new(SectionRows::of(self, machine)),
            table: None,
        };
        module.fdes = self.fdes(&module);
        Ok(module)
    }

    /// The same, but with the functions and the rows of the program's SFrame section.
    pub fn sframe_module<'a>(
        &'a self,
        program: &Program<'a>,
        functions: &Functions<'_>,
        sframe: &Sframe<'_>,
    ) -> Result<Module<'a>, LintError> {
        let module = self.module(program, functions)?;
        let rows = SframeRows::of(sframe, module.machine);
        let fdes = rows.fdes(&module.fdes);
        let table = Some(Name::Sframe.to_string());
        Ok(Module { fdes, rows: Box::new(rows), table, ..module })
    }

    /// The sections, checked, in the order in which their rows are taken.
    pub(super) fn all(&self) -> &[(Frames<'data>, Process)] {
        &self.all
    }

    /// The checked sections, in the order in which their rows are taken.
    pub fn processes(&self) -> impl Iterator<Item = &Process> {
        self.all.iter().map(|(_, process)| process)
    }

    /// The FDEs of all sections, ascending. If two share an address, the one that begins first is
    /// taken, or the one of `.eh_frame`.
    fn fdes(&self, module: &Module<'_>) -> Vec<Fde> {
        let mut fdes: Vec<Fde> = self.all.iter().flat_map(|(frames, _)| fdes_of_section(frames, module)).collect();
        // Linkers leave FDEs of functions that they drop at address 0.
        let is_linked = module.sections.is_empty();
        fdes.retain(|fde| (fde.begin != 0 || !is_linked) && fde.begin < fde.end);
        fdes.sort_by_key(|fde| fde.begin);
        let mut end = 0;
        fdes.retain(|fde| {
            let is_free = fde.begin >= end;
            end = end.max(fde.end);
            is_free
        });
        fdes
    }
}

/// What the functions of a program do with registers: those of Go and OCaml keep none.
fn register_convention(program: &Program<'_>, functions: &Functions<'_>, image: &Image<'_>) -> Convention {
    let is_caml = |name: &str| matches!(name, "caml_call_gc" | "caml_start_program");
    let is_defined = functions.all().iter().any(|function| is_caml(&function.name));
    if program.has_section(".gopclntab") || program.has_section(".go.buildinfo") {
        Convention::Go
    } else if is_defined || image.imports.iter().any(|(_, name)| is_caml(name)) {
        Convention::KeepsNone
    } else {
        Convention::KeepsRegisters
    }
}

/// The FDEs of a section.
fn fdes_of_section(frames: &Frames<'_>, module: &Module<'_>) -> Vec<Fde> {
    let signs = Signs::of(frames.signed());
    if frames.name() == Name::EhFrame {
        return eh_frame_fdes(frames, module, &signs);
    }
    // What has `.eh_frame` in a program of Go is in C.
    let is_called = module.convention == Convention::Go;
    let ranges = frames.used().filter_map(Record::addresses);
    let fde = |Range { start: begin, end }| {
        let signed = signs.of_fde(begin, end);
        Fde { begin, end, is_called, signed, ..Fde::default() }
    };
    ranges.map(fde).collect()
}

/// The ranges of addresses at which the return address is signed, in all FDEs of a section, ascending.
struct Signs(Vec<Range<u64>>);

impl Signs {
    fn of(mut ranges: Vec<Range<u64>>) -> Self {
        ranges.sort_by_key(|range| range.start);
        Signs(ranges)
    }

    /// Those in an FDE.
    fn of_fde(&self, begin: u64, end: u64) -> Vec<Range<u64>> {
        let first = self.0.partition_point(|range| range.start < begin);
        self.0[first..].iter().take_while(|range| range.start < end).cloned().collect()
    }
}

/// The FDEs of `.eh_frame`, with what only their headers have.
fn eh_frame_fdes(frames: &Frames<'_>, module: &Module<'_>, signs: &Signs) -> Vec<Fde> {
    let bytes = comparable_bytes(frames);
    let bases = frames.format().bases();
    let mut section = gimli::EhFrame::new(&bytes, frames.target().gimli_order());
    section.set_address_size(frames.target().address_size.bytes());
    let cies_of_key_b = frames.cies_of_key_b();
    let fde = |record: &Record| {
        let (begin, end, is_signal, key) = match record.kind {
            Kind::Fde { cie, begin, end, is_signal_frame, .. } => {
                (begin, end, is_signal_frame, key_of(cies_of_key_b.contains(&cie)))
            }
            _ => return None,
        };
        let offset = (record.offset as usize).into();
        let header = section.fde_from_offset(&bases, offset, gimli::EhFrame::cie_from_offset).ok()?;
        let landings = match header.lsda() {
            Some(Pointer::Direct(address)) => landings(module.bytes_at(address), begin, module.machine.address_bytes),
            _ => Vec::new(),
        };
        let argument_bytes = argument_bytes(&header, header.instructions(&section, &bases));
        Some(Fde {
            begin,
            end,
            is_signal,
            is_called: false,
            landings,
            argument_bytes,
            signed: signs.of_fde(begin, end),
            key: Some(key),
        })
    };
    frames.used().filter_map(fde).collect()
}

/// The key with which return addresses are signed.
fn key_of(is_b: bool) -> Key {
    if is_b {
        Key::B
    } else {
        Key::A
    }
}

/// From which address on how many bytes of arguments are on the stack.
fn argument_bytes<'a>(
    header: &Header<'a>,
    mut instructions: gimli::CallFrameInstructionIter<'_, Bytes<'a>>,
) -> Vec<(u64, u64)> {
    let mut found = Vec::new();
    let mut address = header.initial_address();
    while let Ok(Some(instruction)) = instructions.next() {
        match instruction {
            CallFrameInstruction::AdvanceLoc { delta } => {
                let distance = u64::from(delta).wrapping_mul(header.cie().code_alignment_factor());
                address = address.wrapping_add(distance);
            }
            CallFrameInstruction::SetLoc { address: next } => address = next,
            CallFrameInstruction::ArgsSize { size } => found.push((address, size)),
            _ => {}
        }
    }
    found
}

/// The library's rows of all sections, of which those of `.eh_frame` are taken first.
struct SectionRows<'a> {
    machine: &'static Machine,
    all: Vec<OneSection<'a>>,
}

/// The rows of a section.
struct OneSection<'a> {
    process: &'a Process,
    rows: RefCell<dwcheck::Rows<'a>>,
    /// All expressions of the section. The library gives a copy of the one that a rule has.
    expressions: HashSet<&'a [u8]>,
}

impl<'a> SectionRows<'a> {
    fn of(sections: &'a Sections<'a>, machine: &'static Machine) -> Self {
        let all = sections.all.iter().map(|(frames, process)| OneSection {
            process,
            rows: RefCell::new(process.rows()),
            expressions: frames.expressions().map(|expression| expression.bytes).collect(),
        });
        SectionRows { machine, all: all.collect() }
    }

    fn row(&self, address: u64) -> Option<Row<'a>> {
        self.all.iter().find_map(|one| one.rows.borrow_mut().row(address).map(|row| one.row_of(self.machine, row)))?
    }
}

impl Rows for SectionRows<'_> {
    fn rows(&self, fde: &Fde) -> Result<Vec<Row<'_>>, Error> {
        let (mut rows, mut next) = (Vec::new(), fde.begin);
        while next < fde.end {
            let row = self.row(next).filter(|row| row.end > next);
            let row = row.ok_or(Error::NoRow(next))?;
            next = row.end;
            rows.push(row);
        }
        Ok(rows)
    }

    fn row(&self, address: u64) -> Option<Row<'_>> {
        SectionRows::row(self, address)
    }
}

impl<'a> OneSection<'a> {
    /// The expression of a register's rule, or of the CFA's, in the row that has an address.
    fn expression(&self, address: u64, register: Option<u16>) -> Option<&'a [u8]> {
        let bytes = self.process.rule_bytes(address, register)?;
        self.expressions.get(bytes.as_slice()).copied()
    }

    /// A row of the library's. `None` if its rules aren't known.
    fn row_of(&self, machine: &Machine, row: &dwcheck::Row) -> Option<Row<'a>> {
        let (register, begin) = (machine.register, row.addresses.start);
        let cfa = match row.cfa {
            CfaRule::RegisterAndOffset { register: number, offset } => {
                Cfa::RegisterOffset { register: register(number), offset }
            }
            CfaRule::Expression(_) => Cfa::Expression(self.expression(begin, None)?),
            _ => return None,
        };
        let rule = |number: u16, rule| {
            Some(match rule {
                dwcheck::Rule::Undefined => Rule::Undefined,
                dwcheck::Rule::SameValue => Rule::SameValue,
                dwcheck::Rule::Offset(offset) => Rule::Offset(offset),
                dwcheck::Rule::ValOffset(offset) => Rule::ValOffset(offset),
                dwcheck::Rule::Register(number) => Rule::Register(register(number)),
                dwcheck::Rule::Expression(_) => Rule::Expression(self.expression(begin, Some(number))?),
                dwcheck::Rule::ValExpression(_) => Rule::ValExpression(self.expression(begin, Some(number))?),
                _ => return None,
            })
        };
        let rules = row.rules.iter().map(|(number, found)| Some((register(*number), rule(*number, *found)?)));
        let rules = rules.collect::<Option<_>>()?;
        Some(Row { begin, end: row.addresses.end, cfa, rules })
    }
}

impl LintError {
    /// The machine of a program whose code can be read, or why it can't.
    pub fn of(program: &Program<'_>) -> Result<&'static Machine, LintError> {
        let bytes = program.target().address_size.bytes();
        let machine = Machine::numbered(program.machine()).filter(|machine| machine.address_bytes == bytes);
        machine.ok_or_else(|| LintError::Machine(program.machine()))
    }
}

impl fmt::Display for LintError {
    fn fmt(&self, f: &mut fmt::Formatter<'_>) -> fmt::Result {
        match self {
            LintError::Machine(number) => {
                write!(f, "the code of machine {} isn't read, only that of x86-64, i386 and aarch64", number)
            }
        }
    }
}

impl std::error::Error for LintError {}
