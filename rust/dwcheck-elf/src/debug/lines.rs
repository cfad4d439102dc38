//! Finds the source lines and the inlined functions of addresses, by the debug information of a
//! program.

mod contexts;

use crate::debug::debug_info::{file_path, Slice, UnitsByAddress};
use crate::elf::debug_files::DebugFiles;
use crate::elf::program::Program;
use contexts::{Context, Contexts};
use gimli::{AttributeValue, UnitOffset};

/// A line of a source file.
#[derive(Clone, Debug, PartialEq, Eq)]
pub struct SourceLine {
    /// The path of the file, as the debug information has it.
    pub file: String,
    /// The number of the line, from 1 on. `None` if it isn't known.
    pub line: Option<u32>,
    /// The number of the column, from 1 on. `None` if it isn't known.
    pub column: Option<u32>,
}

/// A function at an address, by the debug information.
#[derive(Clone, Debug, PartialEq, Eq)]
pub struct At {
    /// Its name as linkers see it, or else as in the source code. `None` if it isn't known.
    pub name: Option<String>,
    /// The line of its code that runs, or that calls the function that is inlined there.
    pub source: Option<SourceLine>,
}

/// The debug information of a program.
pub struct Lines<'a>(Contexts<'a>);

impl<'a> Lines<'a> {
    /// Opens the debug information of a program, with that of the file that its `.gnu_debugaltlink`
    /// names. `files` keeps what is decompressed. `None` if the program has no debug information that can be read.
    pub fn read(program: &Program<'a>, shared: Option<&Program<'a>>, files: &'a DebugFiles) -> Option<Self> {
        let is_there = program.has_section(".debug_info");
        is_there.then(|| Contexts::open(program, shared, files)).flatten().map(Lines)
    }

    /// The line of an address. `None` if no table has it.
    pub fn line(&self, address: u64) -> Option<SourceLine> {
        self.0.find(address, |context| SourceLine::of(context.units.find_location(address).ok()??))
    }

    /// The functions at an address, the innermost first. The last one is the function that isn't
    /// inlined.
    pub fn functions(&self, address: u64) -> Vec<At> {
        let functions = |context: &Context<'_>| match context.is_deep {
            true => Some(Vec::new()),
            false => Some(functions_in(&context.units, address)).filter(|found| !found.is_empty()),
        };
        self.0.find(address, functions).unwrap_or_default()
    }

    /// All units, without what files share.
    pub(crate) fn all_units(&self) -> Option<UnitsByAddress<'a>> {
        self.0.all_units()
    }

    /// Gives back the memory of what was read of the file into which `.debug_info` was decompressed.
    pub(crate) fn give_back(&self) {
        self.0.give_back();
    }

    /// Whether the debug information of the unit at an address is in a file of its own (`-gsplit-dwarf`).
    pub(crate) fn is_split(&self, address: u64) -> bool {
        let is_split = |context: &Context<'_>| Some(context.units.find_dwarf_unit(address)?.dwo_id.is_some());
        self.0.find(address, is_split).unwrap_or(false)
    }
}

/// The functions that some units have at an address, the innermost first.
fn functions_in(units: &addr2line::Context<Slice<'_>>, address: u64) -> Vec<At> {
    let mut found = Vec::new();
    if let Ok(mut frames) = units.find_frames(address) {
        let mut inlined = None;
        while let Ok(Some(frame)) = frames.next() {
            let name = frame.function.as_ref().and_then(|function| Some(function.raw_name().ok()?.into_owned()));
            let source = frame.location.and_then(|location| source(units, location, address, inlined));
            found.push(At { name, source });
            inlined = frame.dw_die_offset;
        }
    }
    found
}

/// The line of a location: that of an address, or that of the call of an inlined function, which has its entry
/// at this offset. `addr2line` has no file for a call in the file 0, which in DWARF 5 is the unit's own.
fn source(
    units: &addr2line::Context<Slice<'_>>,
    location: addr2line::Location<'_>,
    address: u64,
    inlined: Option<UnitOffset<usize>>,
) -> Option<SourceLine> {
    if location.file.is_some() {
        return SourceLine::of(location);
    }
    let unit = units.find_dwarf_unit(address)?;
    let file = match unit.entry(inlined?).ok()?.attr_value(gimli::DW_AT_call_file).ok()?? {
        AttributeValue::FileIndex(index) => file_path(units.dwarf(), unit, index)?,
        _ => return None,
    };
    SourceLine::of(addr2line::Location { file: Some(&file), ..location })
}

impl SourceLine {
    fn of(found: addr2line::Location<'_>) -> Option<Self> {
        let column = found.column.filter(|column| *column > 0);
        Some(SourceLine { file: found.file?.to_string(), line: found.line, column })
    }
}
