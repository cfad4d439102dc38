//! SFrame sections, versions 1, 2 and 3, for AMD64 and AArch64: their check, and their rows.
//!
//! docs/SFRAME.md states what is read, and has the rules, which `rules` lists too. A section that breaks none is an
//! [`Sframe`]; its rows are those of DWARF with fewer registers.

mod function;
mod header;
mod notes;
mod rows;
mod rules;
#[cfg(test)]
mod tests;

pub use function::Function;
pub use header::{Abi, Header, Version};
pub use notes::SframeNotes;
pub use rows::SframeRow;
pub use rules::{Fault, FaultKind, RULES};

use crate::elf::program::{Kind, Program, ProgramError, Section};
use dwcheck_types::cursor::Cursor;
use dwcheck_types::target::Target;
use rows::{RowEntries, RowEntry};
use std::fmt;
use std::ops::Range;

/// An SFrame section as it is in the file.
#[derive(Clone, Debug)]
pub struct SframeSection<'data> {
    /// The bytes, decompressed and with relocations applied.
    pub source: Section<'data>,
    /// The byte order and the address size.
    pub target: Target,
    /// The machine's number (`e_machine`).
    pub machine: u16,
    /// Whether the file is an unlinked object. There, first addresses are always relative to their fields.
    pub is_object: bool,
    /// The addresses of the sections with code, ascending.
    pub code: Vec<Range<u64>>,
}

/// A section that breaks no rule.
///
/// ```no_run
/// use dwcheck_elf::program::Program;
/// use dwcheck_elf::sframe::SframeSection;
///
/// let data = std::fs::read("program")?;
/// let program = Program::read(&data)?;
/// if let Some(section) = SframeSection::read(&program)? {
///     let sframe = section.check()?;
///     println!("{} functions, {:?}", sframe.functions().len(), sframe.row(0x1136));
/// }
/// # Ok::<(), Box<dyn std::error::Error>>(())
/// ```
#[derive(Clone, Debug)]
pub struct Sframe<'a> {
    section: &'a SframeSection<'a>,
    header: Header,
    /// In the order of the index.
    functions: Vec<Function>,
    /// The places in `functions` of those that have addresses, ascending by these.
    by_address: Vec<usize>,
}

/// What a section has that breaks no rule.
#[derive(Clone, Copy, Debug, PartialEq, Eq)]
pub struct SframeCounts {
    /// Its version.
    pub version: Version,
    /// Its functions.
    pub functions: usize,
    /// Their rows, those of a block once.
    pub rows: usize,
}

/// Why a section has no rows.
#[derive(Clone, Copy, Debug, PartialEq, Eq)]
pub enum SframeError {
    /// It breaks a rule.
    Refused(Fault),
    /// SFrame has no ABI for this machine (`e_machine`), or it isn't read.
    Machine(u16),
}

impl<'data> SframeSection<'data> {
    /// Reads the section `.sframe` of a program. `None` if the program doesn't have it, or if it is empty.
    ///
    /// # Errors
    ///
    /// That its bytes can't be read from the file.
    pub fn read(program: &Program<'data>) -> Result<Option<Self>, ProgramError> {
        let section = |source| {
            let mut code: Vec<_> = program.code_sections().into_iter().map(|(_, range)| range).collect();
            code.sort_by_key(|range| range.start);
            let (target, machine) = (program.target(), program.machine());
            SframeSection { source, target, machine, is_object: program.kind() == Kind::Relocatable, code }
        };
        Ok(program.sframe()?.map(section))
    }

    /// Checks the section by all rules. This takes O(n log n) time for n bytes, and memory in proportion to them.
    ///
    /// # Errors
    ///
    /// [`SframeError::Refused`] with the first fault, in the order of docs/SFRAME.md.
    pub fn check(&self) -> Result<Sframe<'_>, SframeError> {
        let (abi, code) = Abi::of(self.machine, self.target.order).ok_or(SframeError::Machine(self.machine))?;
        let header = Header::read(self, abi, code)?;
        let mut sframe = Sframe { section: self, header, functions: Vec::new(), by_address: Vec::new() };
        sframe.read_functions()?;
        sframe.check_sharing()?;
        Ok(sframe)
    }

    /// The addresses that the entry of the index at an offset gives to its function, as far as it can be read. It may
    /// break rules.
    pub fn addresses_of(&self, entry: u64) -> Option<Range<u64>> {
        let (abi, code) = Abi::of(self.machine, self.target.order)?;
        let header = Header::read(self, abi, code).ok()?;
        function::addresses(self, &header, entry)
    }

    /// Whether a range of addresses is inside of a section with code.
    fn is_code(&self, begin: u64, end: u64) -> bool {
        let after = self.code.partition_point(|range| range.start <= begin);
        let before = after.checked_sub(1).and_then(|last| self.code.get(last));
        before.map_or(false, |range| end <= range.end)
    }
}

impl<'a> Sframe<'a> {
    /// Reads all functions, and checks their rows. What the rows take together is at most what the header says, so
    /// that the time stays in proportion to the section.
    fn read_functions(&mut self) -> Result<(), Fault> {
        let (mut last, mut bytes, mut count) = (0, 0, 0);
        let room = self.header.rows.end - self.header.rows.start;
        for number in 0..self.header.function_count {
            let offset = self.header.index.start + number * self.header.version.entry_size();
            let function = Function::read(self.section, &self.header, offset)?;
            if self.header.is_sorted && function.begin < last {
                return Err(Fault::of_function(FaultKind::FunctionOrder, offset, offset));
            }
            last = function.begin;
            bytes += self.row_bytes(&function)?;
            count += function.row_count;
            if bytes > room {
                return Err(Fault::of_function(FaultKind::RowsShared, offset, offset));
            }
            self.functions.push(function);
        }
        match count == self.header.row_count {
            true => Ok(()),
            false => Err(Fault::at(FaultKind::RowCount, 12)),
        }
    }

    /// How many bytes the rows of a function have, with its attributes. All of them are checked.
    fn row_bytes(&self, function: &Function) -> Result<u64, Fault> {
        let mut entries = self.entries(function);
        while let Some(entry) = entries.next() {
            entry?;
        }
        Ok(entries.at() - function.bytes)
    }

    /// Checks that functions share neither bytes of rows nor addresses.
    fn check_sharing(&mut self) -> Result<(), Fault> {
        let bytes = |function: &Function| {
            let mut entries = self.entries(function);
            while entries.next().is_some() {}
            function.bytes..entries.at()
        };
        let ranges: Vec<_> = self.functions.iter().map(bytes).collect();
        if let Some(shared) = sharing(&ranges).1 {
            return Err(self.fault_of(FaultKind::RowsShared, shared));
        }
        let ranges: Vec<_> = self.functions.iter().map(Function::addresses).collect();
        let (by_address, shared) = sharing(&ranges);
        self.by_address = by_address;
        match shared {
            Some(shared) => Err(self.fault_of(FaultKind::FunctionOverlap, shared)),
            None => Ok(()),
        }
    }

    fn fault_of(&self, kind: FaultKind, function: usize) -> Fault {
        let offset = self.functions.get(function).map_or(0, |function| function.offset);
        Fault::of_function(kind, offset, offset)
    }

    fn entries<'s>(&'s self, function: &'s Function) -> RowEntries<'s> {
        let bytes = self.section.source.bytes.get(..self.header.rows.end as usize).unwrap_or(&[]);
        RowEntries::new(&self.header, function, Cursor::new(bytes, self.section.target))
    }

    /// The header.
    pub fn header(&self) -> &Header {
        &self.header
    }

    /// The functions, in the order of the index.
    pub fn functions(&self) -> &[Function] {
        &self.functions
    }

    /// The functions that have addresses, ascending by these. No two share an address.
    pub fn by_address(&self) -> impl Iterator<Item = &Function> {
        self.by_address.iter().filter_map(|place| self.functions.get(*place))
    }

    /// The function that covers an address. This takes O(log n) time for n functions.
    pub fn function(&self, address: u64) -> Option<&Function> {
        let begin = |place: &usize| self.functions.get(*place).map_or(0, |function| function.begin);
        let after = self.by_address.partition_point(|place| begin(place) <= address);
        let place = self.by_address.get(after.checked_sub(1)?)?;
        self.functions.get(*place).filter(|function| function.addresses().contains(&address))
    }

    /// The rows of a function, ascending. If all blocks have the same ones, those of the first block. They may begin
    /// after the function's first address; from there on there is no gap.
    pub fn rows<'s>(&'s self, function: &'s Function) -> impl Iterator<Item = SframeRow> + 's {
        let end = function.block.map_or(function.end, |block| function.end.min(function.begin.saturating_add(block)));
        self.rows_between(function, function.begin, end)
    }

    /// The rows of a function, or of a block of it, which begins and ends at these addresses.
    fn rows_between<'s>(
        &'s self,
        function: &'s Function,
        begin: u64,
        end: u64,
    ) -> impl Iterator<Item = SframeRow> + 's {
        let mut entries = self.entries(function);
        // All entries were read before, so none has a fault.
        let mut next_entry = move || entries.next().and_then(Result::ok);
        let mut entry: Option<RowEntry> = next_entry();
        std::iter::from_fn(move || {
            let this = entry.take()?;
            entry = next_entry();
            let first = begin.saturating_add(this.start).min(end);
            let last = entry.as_ref().map_or(end, |next| begin.saturating_add(next.start).min(end));
            Some(this.row(&self.header, function, first, last))
        })
        .filter(|row| row.row.begin < row.row.end)
    }

    /// The row of an address. This takes time in proportion to the rows of its function.
    pub fn row(&self, address: u64) -> Option<SframeRow> {
        let function = self.function(address)?;
        let (begin, end) = function.block_at(address);
        self.rows_between(function, begin, end).find(|row| (row.row.begin..row.row.end).contains(&address))
    }

    /// Whether it can say that frames are signal frames.
    pub fn has_signal_frames(&self) -> bool {
        self.header.version == Version::Three
    }

    /// What the section has.
    pub fn counts(&self) -> SframeCounts {
        let (functions, rows) = (self.functions.len(), self.header.row_count as usize);
        SframeCounts { version: self.header.version, functions, rows }
    }
}

impl Function {
    /// The first address of the block that has an address, and the address after the block: all addresses of the
    /// function if it has no blocks.
    pub fn block_at(&self, address: u64) -> (u64, u64) {
        match self.block.filter(|block| *block > 0) {
            Some(block) => {
                let begin = address - address.wrapping_sub(self.begin) % block;
                (begin, begin.saturating_add(block).min(self.end))
            }
            None => (self.begin, self.end),
        }
    }
}

/// The places of ranges that aren't empty, ascending, and the place of the first range that shares something with the
/// one before it.
fn sharing(ranges: &[Range<u64>]) -> (Vec<usize>, Option<usize>) {
    let mut places: Vec<_> = (0..ranges.len()).filter(|place| !ranges[*place].is_empty()).collect();
    places.sort_by_key(|place| ranges[*place].start);
    let shared = places.windows(2).find(|pair| ranges[pair[1]].start < ranges[pair[0]].end).map(|pair| pair[1]);
    (places, shared)
}

impl From<Fault> for SframeError {
    fn from(fault: Fault) -> Self {
        SframeError::Refused(fault)
    }
}

impl fmt::Display for SframeError {
    fn fmt(&self, f: &mut fmt::Formatter<'_>) -> fmt::Result {
        match self {
            SframeError::Refused(fault) => fault.fmt(f),
            SframeError::Machine(number) => {
                write!(f, "SFrame rows of machine {} aren't read, only those of x86-64 and aarch64", number)
            }
        }
    }
}

impl std::error::Error for SframeError {
    fn source(&self) -> Option<&(dyn std::error::Error + 'static)> {
        match self {
            SframeError::Refused(fault) => Some(fault),
            SframeError::Machine(_) => None,
        }
    }
}
