//! The files whose code processes run: their FDEs, rows and functions, which of them are selected, and the sites that
//! rows are judged at.

use super::confirm::{suspects_of_lint, Suspect};
use super::registers::{CALLEE_SAVED, SAVED_COUNT};
use super::rules::Rule;
use super::site::{Judged, SavedAt, Site};
use dwcheck::Process;
use dwcheck_elf::functions::Functions;
use dwcheck_elf::lint::{LintError, Sections};
use dwcheck_elf::live::Map;
use dwcheck_elf::mapped::Bytes;
use dwcheck_elf::names::FunctionOffset;
use dwcheck_elf::program::{Program, ProgramError, Segment};
use dwcheck_lint::flow::is_entry_row;
use dwcheck_lint::judge::why_unjudged;
use dwcheck_lint::machine::Machine;
use dwcheck_lint::module::{Convention, Module};
use dwcheck_lint::register::{Register, Registers};
use dwcheck_lint::table::{Cfa, Row, Rule as RowRule};
use std::cell::RefCell;
use std::collections::{BTreeSet, HashMap};
use std::ffi::OsStr;
use std::fmt;
use std::io;
use std::ops::Range;
use std::os::unix::ffi::OsStrExt;
use std::path::{Path, PathBuf};
use typed_arena::Arena;

/// The function of dynamic linkers that they call when they have loaded or unloaded modules.
const MODULES_CHANGED: &str = "_dl_debug_state";

/// The path of the kernel's module.
pub(super) const VDSO: &[u8] = b"[vdso]";

/// A file with code that a process runs.
pub struct ModuleFile<'s> {
    /// Its path.
    pub path: PathBuf,
    /// Its code, FDEs and rows.
    pub module: Module<'s>,
    /// Its functions.
    pub functions: Functions<'s>,
    /// Why a part of its frame sections isn't used.
    pub unused: Vec<String>,
    /// Whether its functions are stepped.
    pub is_stepped: bool,
    /// What the lint finds in it, if that is asked for.
    pub suspects: Vec<Suspect>,
    sections: &'s Sections<'s>,
    segments: Vec<Segment>,
    /// The addresses at which functions begin that are stepped.
    pub(super) entries: BTreeSet<u64>,
    /// The addresses at which other modules may have been loaded.
    pub(super) loads: BTreeSet<u64>,
    last_row: RefCell<Option<LastRow>>,
}

/// The row that was looked up last. Most instructions have the row of the one that was asked for before.
struct LastRow {
    fde: usize,
    addresses: Range<u64>,
    judged: Result<Judged, Rule>,
}

/// Why a file can't be read.
#[derive(Debug)]
pub enum ModuleFileError {
    /// It can't be opened.
    Unread(io::Error),
    /// It isn't an ELF file that can be read.
    Program(ProgramError),
    /// Its code isn't read.
    Code(LintError),
}

/// Which files are stepped.
#[derive(Clone, Debug, Default)]
pub(super) struct Selection {
    /// Patterns for their paths and names. All, if there are none.
    pub patterns: Vec<glob::Pattern>,
    /// Whether only functions in which the lint finds something are stepped.
    pub only_suspects: bool,
}

impl fmt::Debug for ModuleFile<'_> {
    fn fmt(&self, f: &mut fmt::Formatter<'_>) -> fmt::Result {
        f.debug_struct("ModuleFile").field("path", &self.path).finish_non_exhaustive()
    }
}

/// All files.
pub(super) struct Files<'b, 's> {
    bytes: &'b Arena<Bytes>,
    sections: &'s Arena<Sections<'b>>,
    all: Vec<ModuleFile<'s>>,
    /// The index of each file, by its path and its number. `None` if it can't be read.
    known: HashMap<(Vec<u8>, u64), Option<usize>>,
    /// Why files can't be read.
    pub unread: Vec<(PathBuf, ModuleFileError)>,
    selection: Selection,
}

impl<'b: 's, 's> Files<'b, 's> {
    /// No files yet.
    pub fn new(bytes: &'b Arena<Bytes>, sections: &'s Arena<Sections<'b>>, selection: Selection) -> Self {
        Files { bytes, sections, all: Vec::new(), known: HashMap::new(), unread: Vec::new(), selection }
    }

    /// All files that were read.
    pub fn all(&self) -> &[ModuleFile<'s>] {
        &self.all
    }

    /// The file with this index.
    pub fn at(&self, index: usize) -> &ModuleFile<'s> {
        &self.all[index]
    }

    /// The file of executable memory of a process, which is read when it is first asked for. `vdso` gives
    /// the bytes of the kernel's module. `None` if it isn't in a file that can be read.
    pub fn open(&mut self, pid: i32, map: &Map, vdso: impl FnOnce() -> Option<Vec<u8>>) -> Option<usize> {
        let key = (map.path.clone(), map.inode);
        if let Some(index) = self.known.get(&key) {
            return *index;
        }
        let bytes = match map.path.as_slice() {
            VDSO => Some(Bytes::from(vdso()?)),
            path if path.starts_with(b"/") => self.content(pid, map),
            _ => None,
        };
        let index = bytes.and_then(|bytes| self.add(&map.path, bytes));
        self.known.insert(key, index);
        index
    }

    /// The bytes of a mapped file: the very file, also if it was replaced, or what is at its path.
    fn content(&mut self, pid: i32, map: &Map) -> Option<Bytes> {
        let path = Path::new(OsStr::from_bytes(&map.path));
        let mapped = format!("/proc/{}/map_files/{:x}-{:x}", pid, map.begin, map.end);
        let inside = path.strip_prefix("/").unwrap_or(path);
        let root = PathBuf::from(format!("/proc/{}/root", pid)).join(inside);
        let bytes = Bytes::of_elf(Path::new(&mapped)).or_else(|_| Bytes::of_elf(&root));
        bytes.map_err(|error| self.unread.push((path.to_path_buf(), ModuleFileError::Unread(error)))).ok()
    }

    fn add(&mut self, path: &[u8], bytes: Bytes) -> Option<usize> {
        let path = PathBuf::from(OsStr::from_bytes(path));
        let bytes = self.bytes.alloc(bytes);
        match ModuleFile::read(path.clone(), bytes, self.sections, &self.selection) {
            Ok(file) => {
                self.all.push(file);
                Some(self.all.len() - 1)
            }
            Err(error) => {
                self.unread.push((path, error));
                None
            }
        }
    }
}

impl<'s> ModuleFile<'s> {
    fn read<'b: 's>(
        path: PathBuf,
        bytes: &'b [u8],
        arena: &'s Arena<Sections<'b>>,
        selection: &Selection,
    ) -> Result<Self, ModuleFileError> {
        let program = Program::read(bytes).map_err(ModuleFileError::Program)?;
        let functions = program.functions();
        let sections: &'s Sections<'s> = arena.alloc(Sections::read(&program));
        let module = sections.module(&program, &functions).map_err(ModuleFileError::Code)?;
        // The stacks of Go move while functions are on them.
        let is_stepped = selection.selects(&path) && module.convention != Convention::Go;
        let load = functions.all().iter().find(|function| function.name == MODULES_CHANGED);
        let loads = load.map(|function| function.begin).into_iter().chain(Some(program.entry()));
        let loads: BTreeSet<u64> = loads.filter(|address| *address != 0).collect();
        let mut file = ModuleFile {
            path,
            functions,
            unused: sections.unused.clone(),
            is_stepped,
            suspects: Vec::new(),
            sections,
            segments: program.segments(),
            entries: BTreeSet::new(),
            loads,
            last_row: RefCell::new(None),
            module,
        };
        if is_stepped {
            file.choose(selection);
        }
        Ok(file)
    }

    /// Chooses the functions that are stepped.
    fn choose(&mut self, selection: &Selection) {
        let begins = self.module.fdes.iter().filter(|fde| !fde.is_signal).map(|fde| fde.begin);
        let entries: BTreeSet<u64> = begins.filter(|begin| self.is_called(*begin)).collect();
        if !selection.only_suspects {
            self.entries = entries;
            return;
        }
        self.suspects = suspects_of_lint(&self.module, &self.functions);
        let wanted = self.suspects.iter().filter_map(|suspect| self.function_of_part(suspect.fde));
        self.entries = wanted.filter(|begin| entries.contains(begin)).collect();
    }

    /// Whether a function that is called begins at an address: the return address is at the stack pointer.
    fn is_called(&self, begin: u64) -> bool {
        let address = self.module.machine.return_address;
        let is_slot = |row: &Row<'_>| matches!(row.rule(address), None | Some(RowRule::Offset(-8)));
        self.module.rows.row(begin).map_or(false, |row| is_entry_row(&self.module, &row) && is_slot(&row))
    }

    /// Where the function begins that an FDE is a part of, as names say it: `f.cold` is a part of `f`.
    fn function_of_part(&self, begin: u64) -> Option<u64> {
        if self.is_called(begin) {
            return Some(begin);
        }
        let (part, _) = self.functions.at(begin)?;
        let (whole, _) = part.name.split_once('.')?;
        self.functions.all().iter().find(|function| function.name == whole).map(|function| function.begin)
    }

    /// The name of an address: its function, with an offset after it if there is one.
    pub fn name(&self, address: u64) -> Option<String> {
        FunctionOffset::at(&self.functions, address).map(|spot| spot.to_string())
    }

    /// What is added to an address in the file to get the one in a process that has mapped the file this
    /// way. `None` if no code is mapped there.
    pub(super) fn bias(&self, map: &Map) -> Option<u64> {
        let end = map.offset.saturating_add(map.end - map.begin);
        let is_mapped = |segment: &&Segment| {
            segment.is_executable
                && map.offset < segment.offset.saturating_add(segment.file_size)
                && segment.offset < end
        };
        let segment = self.segments.iter().find(is_mapped)?;
        Some(map.begin.wrapping_sub(map.offset).wrapping_add(segment.offset).wrapping_sub(segment.address))
    }

    /// The checked frame section with this index.
    pub(super) fn process(&self, index: usize) -> Option<&Process> {
        self.sections.processes().nth(index)
    }

    /// The instruction at an address of this file, whose index is `index`.
    pub(super) fn site(&self, index: usize, address: u64) -> Site {
        let fde = self.module.fde_at(address);
        let begin = fde.map(|fde| self.module.fdes[fde].begin);
        Site {
            file: Some(index),
            fde: fde.map(|fde| (index, fde)),
            is_entry: begin == Some(address),
            is_load: self.loads.contains(&address),
            row: self.judged(address, fde),
            ..Site::nameless(address, self.module.instruction_at(address))
        }
    }

    /// How the row of an address is judged, or why it isn't.
    fn judged(&self, address: u64, fde: Option<usize>) -> Result<Judged, Rule> {
        let is_last = |last: &LastRow| Some(last.fde) == fde && last.addresses.contains(&address);
        if let Some(judged) = self.last_row.borrow().as_ref().filter(|last| is_last(last)).map(|last| last.judged) {
            return judged;
        }
        let row = self.module.rows.row(address).ok_or(Rule::NoRow)?;
        let judged = self.judged_by(&row, address, fde);
        let addresses = row.begin..row.end;
        *self.last_row.borrow_mut() = fde.map(|fde| LastRow { fde, addresses, judged });
        judged
    }

    /// How this row is judged, which an address has.
    fn judged_by(&self, row: &Row<'_>, address: u64, fde: Option<usize>) -> Result<Judged, Rule> {
        let section = self.sections.processes().position(|process| process.row(address).is_some());
        let section = section.ok_or(Rule::NoRow)?;
        let is_signal = fde.map_or(false, |fde| self.module.fdes[fde].is_signal);
        if !is_signal {
            why_unjudged(self.module.machine, row).map_or(Ok(()), |reason| Err(Rule::from(reason)))?;
        }
        let keeps = self.module.convention == Convention::KeepsRegisters;
        let callee_saved = CALLEE_SAVED.map(|number| match row.rule(Register(number as u8)) {
            _ if !keeps => SavedAt::Unknown,
            Some(RowRule::Undefined) => SavedAt::Unknown,
            None | Some(RowRule::SameValue) => SavedAt::InPlace,
            Some(_) => SavedAt::Elsewhere,
        });
        let reads = registers_of_row(self.module.machine, row, &callee_saved);
        Ok(Judged { section, callee_saved, begin: row.begin, reads, lowest: lowest_saved_offset(row), is_signal })
    }
}

/// The registers by which a row finds the CFA, the return address and the callee-saved registers. `None` if it has
/// an expression for one of them.
fn registers_of_row(machine: &Machine, row: &Row<'_>, callee_saved: &[SavedAt; SAVED_COUNT]) -> Option<Registers> {
    let mut reads = Registers::NONE;
    match row.cfa {
        Cfa::RegisterOffset { register, .. } => reads.insert(register),
        Cfa::Expression(_) => return None,
    }
    let judged = CALLEE_SAVED.iter().zip(callee_saved).filter(|(_, callee_saved)| **callee_saved != SavedAt::Unknown);
    let judged = judged.map(|(number, _)| Register(*number as u8)).chain([machine.return_address]);
    for register in judged {
        match row.rule(register) {
            None | Some(RowRule::SameValue) => reads.insert(register),
            Some(RowRule::Register(other)) => reads.insert(other),
            Some(RowRule::Offset(_) | RowRule::Undefined) => {}
            Some(_) => return None,
        }
    }
    Some(reads)
}

/// The lowest offset from the CFA at which a row finds a register.
fn lowest_saved_offset(row: &Row<'_>) -> i64 {
    let offsets = row.rules.iter().filter_map(|(_, rule)| match rule {
        RowRule::Offset(offset) => Some(*offset),
        _ => None,
    });
    offsets.min().unwrap_or(0)
}

impl Selection {
    fn selects(&self, path: &Path) -> bool {
        let name = path.file_name().map_or(path, Path::new);
        let is_meant = |pattern: &glob::Pattern| pattern.matches_path(path) || pattern.matches_path(name);
        self.patterns.is_empty() || self.patterns.iter().any(is_meant)
    }
}

impl fmt::Display for ModuleFileError {
    fn fmt(&self, f: &mut fmt::Formatter<'_>) -> fmt::Result {
        match self {
            ModuleFileError::Unread(error) => write!(f, "cannot read: {}", error),
            ModuleFileError::Program(error) => error.fmt(f),
            ModuleFileError::Code(error) => error.fmt(f),
        }
    }
}

impl std::error::Error for ModuleFileError {
    fn source(&self) -> Option<&(dyn std::error::Error + 'static)> {
        match self {
            ModuleFileError::Unread(error) => Some(error),
            ModuleFileError::Program(error) => Some(error),
            ModuleFileError::Code(error) => Some(error),
        }
    }
}
