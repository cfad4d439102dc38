//! The unwind tables of a process's modules. The first rows of a file are looked up in place, where its
//! `.eh_frame_hdr` leads to them. For others all records of its sections are read, and an FDE is checked and compiled
//! when a look-up first needs it.

use super::in_place::InPlace;
use crate::cfi::section_table::{add_fde, SectionTable};
use crate::elf::program::Program;
use crate::process::core_file::{Image, Module};
use crate::process::without_row::address_of_sigpanic;
use dwcheck::{Answer, Error, Process, Registers, Rule, State};
use dwcheck_types::target::Target;
use std::collections::{HashMap, HashSet};
use std::ops::Range;
use std::path::PathBuf;

/// The modules of a process, with the tables that say how to unwind in their code.
pub(super) struct Tables<'a> {
    target: Target,
    modules: Vec<Module<'a>>,
    /// Where which module's code is, in ascending order.
    code: Vec<Code>,
    /// What was read of each file that was needed so far.
    files: HashMap<FileKey, FileTables<'a>>,
    process: Process,
    /// What is known of the FDEs in `process`, by their cookies.
    compiled: Vec<Compiled>,
    /// The FDEs that can't be used: the file, the index of its section, and that of the FDE.
    refused: HashSet<(FileKey, usize, usize)>,
    problems: Vec<(PathBuf, String)>,
}

/// The frame sections of a file, none of which is there if the file can't be read.
#[derive(Default)]
struct FileTables<'a> {
    program: Option<Program<'a>>,
    /// Where rows are looked up first.
    in_place: Option<InPlace<'a>>,
    /// `.debug_frame` first. `None` if no look-up has needed them.
    sections: Option<Vec<SectionTable<'a>>>,
    /// The address of Go's function [`address_of_sigpanic`].
    sigpanic: Option<u64>,
}

/// What tells files apart: the index of a mapped file, or that it is the program or the vDSO. A file
/// that is mapped several times is read once.
pub(super) type FileKey = (u8, usize);

/// A part of a module's code: its addresses in the process, and the index of the module.
#[derive(Clone, Debug)]
struct Code {
    range: Range<u64>,
    module: usize,
}

/// An address for which a row is needed.
struct Wanted {
    address: u64,
    /// The address in the module's file.
    linked: u64,
    file: FileKey,
    code: Code,
}

/// An FDE that `dwcheck` has accepted.
struct Compiled {
    /// Its first address in the process.
    begin: u64,
    is_signal_frame: bool,
    is_signal_return: bool,
}

/// The caller of a frame that a row was found for.
pub(super) struct Found {
    /// The frame's CFA, if it is known.
    pub cfa: Option<u64>,
    /// Where the caller continues.
    pub return_address: Answer,
    /// The registers of the caller that are known.
    pub registers: Registers,
    /// Whether the frame is a signal frame, whose caller was interrupted and didn't call.
    pub is_signal_frame: bool,
    /// Whether it is a signal frame to which a handler returns, which didn't call either.
    pub is_signal_return: bool,
}

impl<'a> Tables<'a> {
    /// The tables of these modules. Reads nothing yet.
    pub fn new(target: Target, modules: Vec<Module<'a>>) -> Self {
        let mut tables = Tables {
            target,
            modules,
            code: Vec::new(),
            files: HashMap::new(),
            process: Process::new(target),
            compiled: Vec::new(),
            refused: HashSet::new(),
            problems: Vec::new(),
        };
        tables.place_code();
        tables
    }

    /// Adds a module.
    pub fn add(&mut self, module: Module<'a>) {
        self.modules.push(module);
        self.place_code();
    }

    fn place_code(&mut self) {
        let of = |(module, one): (usize, &Module<'_>)| {
            one.code.iter().map(|range| Code { range: range.clone(), module }).collect::<Vec<_>>()
        };
        self.code = self.modules.iter().enumerate().flat_map(of).collect();
        self.code.sort_by_key(|code| code.range.start);
    }

    /// The modules.
    pub fn modules(&self) -> &[Module<'a>] {
        &self.modules
    }

    /// The index of the module that has code at an address.
    pub fn module_at(&self, address: u64) -> Option<usize> {
        self.code_at(address).map(|code| code.module)
    }

    /// Whether an address is one of a module, of its code or its data.
    pub fn is_in_module(&self, address: u64) -> bool {
        self.modules.iter().any(|module| (module.begin..module.end).contains(&address))
    }

    /// The files with something that isn't used, and why.
    pub fn problems(&self) -> &[(PathBuf, String)] {
        &self.problems
    }

    fn code_at(&self, address: u64) -> Option<&Code> {
        let next = self.code.partition_point(|code| code.range.start <= address);
        self.code.get(next.checked_sub(1)?).filter(|code| code.range.contains(&address))
    }

    /// The caller of the frame that is looked up at an address. `None` if no FDE that can be used
    /// covers the address.
    pub fn caller(&mut self, address: u64, state: &State<'_>) -> Result<Option<Found>, Error> {
        if self.compiled_at(address).is_none() {
            let found = self.in_place_at(address).and_then(|(in_place, linked)| in_place.caller(linked, state));
            if found.is_some() {
                return Ok(found);
            }
        }
        self.caller_by_table(address, state)
    }

    /// The same, but only if an FDE begins at the address.
    pub fn caller_at_begin(&mut self, address: u64, state: &State<'_>) -> Result<Option<Found>, Error> {
        let caller = self.caller_by_table(address, state)?;
        Ok(caller.filter(|_| self.compiled_at(address).map_or(false, |compiled| compiled.begin == address)))
    }

    /// Whether the row by which a caller was found for an address saves a register at this offset from the CFA.
    pub fn saves(&mut self, address: u64, register: u16, offset: i64) -> bool {
        let row = match self.compiled_at(address) {
            Some(_) => self.process.row(address),
            None => self.in_place_at(address).and_then(|(in_place, linked)| in_place.row(linked)),
        };
        row.map_or(false, |row| row.rules.contains(&(register, Rule::Offset(offset))))
    }

    /// Whether an FDE that can be used covers an address.
    pub fn covers(&mut self, address: u64) -> Result<bool, Error> {
        if self.in_place_at(address).map_or(false, |(in_place, linked)| in_place.covers(linked)) {
            return Ok(true);
        }
        self.compile(address)?;
        Ok(self.compiled_at(address).is_some())
    }

    /// The caller by a compiled FDE.
    fn caller_by_table(&mut self, address: u64, state: &State<'_>) -> Result<Option<Found>, Error> {
        self.compile(address)?;
        let compiled = self.compiled_at(address);
        let caller = self.process.unwind(address, state)?;
        Ok(compiled.zip(caller).map(|(compiled, caller)| Found {
            cfa: caller.cfa.value(),
            return_address: caller.return_address,
            registers: caller.known(),
            is_signal_frame: compiled.is_signal_frame,
            is_signal_return: compiled.is_signal_return,
        }))
    }

    fn compiled_at(&self, address: u64) -> Option<&Compiled> {
        self.process.module_at(address).and_then(|module| self.compiled.get(module.cookie as usize))
    }

    /// What the file at an address has for look-ups in place, and the address as linked.
    fn in_place_at(&mut self, address: u64) -> Option<(&mut InPlace<'a>, u64)> {
        let wanted = self.wanted(address)?;
        Some((self.file_of(&wanted).in_place.as_mut()?, wanted.linked))
    }

    /// An address that is one of a module's code.
    fn wanted(&self, address: u64) -> Option<Wanted> {
        let code = self.code_at(address)?.clone();
        let module = &self.modules[code.module];
        let linked = self.target.wrap(address.wrapping_sub(module.bias));
        Some(Wanted { address, linked, file: file_key(module), code })
    }

    /// The file of an address, which is opened if nothing has needed it before.
    fn file_of(&mut self, wanted: &Wanted) -> &mut FileTables<'a> {
        let module = &self.modules[wanted.code.module];
        let problems = &mut self.problems;
        self.files.entry(wanted.file).or_insert_with(|| match Program::read(module.image.bytes()) {
            Ok(program) => FileTables::of(program),
            Err(error) => {
                problems.push((module.path.clone(), error.to_string()));
                FileTables::default()
            }
        })
    }

    /// Checks and compiles the FDE that covers an address, if that wasn't done before, and if there is one that can
    /// be used.
    fn compile(&mut self, address: u64) -> Result<(), Error> {
        if self.process.module_at(address).is_some() {
            return Ok(());
        }
        let wanted = match self.wanted(address) {
            Some(wanted) => wanted,
            None => return Ok(()),
        };
        let (count, unread) = self.file_of(&wanted).read_sections();
        let path = &self.modules[wanted.code.module].path;
        self.problems.extend(unread.into_iter().map(|problem| (path.clone(), problem)));
        for section in 0..count {
            if self.compile_in(section, &wanted)? {
                break;
            }
        }
        Ok(())
    }

    /// Does [`compile`](Self::compile) with one of the file's sections. Returns whether an FDE was
    /// added.
    fn compile_in(&mut self, section: usize, wanted: &Wanted) -> Result<bool, Error> {
        let module = &self.modules[wanted.code.module];
        let FileTables { sections, sigpanic, .. } = &self.files[&wanted.file];
        let table = match sections.as_ref().and_then(|sections| sections.get(section)) {
            Some(table) => table,
            None => return Ok(false),
        };
        let piece = match table.find(wanted.linked) {
            Some(piece) if !self.refused.contains(&(wanted.file, section, piece.fde)) => piece,
            _ => return Ok(false),
        };
        // The addresses of the piece in the process, as far as they are in this code.
        let before = wanted.linked - piece.range.start;
        let after = piece.range.end - wanted.linked;
        let begin = wanted.address.saturating_sub(before).max(wanted.code.range.start);
        let end = wanted.address.saturating_add(after).min(wanted.code.range.end);
        let cookie = self.compiled.len() as u64;
        let added = table.table_of_one_fde(piece.fde).map(|one| {
            let loaded = one.format.module(&one.bytes, module.bias).cookie(cookie).range(begin..=end - 1);
            (add_fde(&mut self.process, &one, &loaded, wanted.address), one)
        });
        let reason = match added {
            Ok((Ok(()), one)) => {
                let is_signal_frame = one.is_signal_frame || *sigpanic == Some(piece.range.start);
                let begin = piece.range.start.wrapping_add(module.bias);
                self.compiled.push(Compiled { begin, is_signal_frame, is_signal_return: one.is_signal_frame });
                return Ok(true);
            }
            Ok((Err(Error::Refused(fault)), _)) => fault.name(),
            Ok((Err(error), _)) => return Err(error),
            Err(reason) => reason,
        };
        self.problems.push((module.path.clone(), table.problem(piece.fde, reason)));
        self.refused.insert((wanted.file, section, piece.fde));
        Ok(false)
    }
}

impl<'a> FileTables<'a> {
    fn of(program: Program<'a>) -> Self {
        let sigpanic = address_of_sigpanic(&program);
        // Which frames are signal frames doesn't depend on `.eh_frame` alone then.
        let in_place = if sigpanic.is_none() { InPlace::of(&program) } else { None };
        FileTables { program: Some(program), in_place, sections: None, sigpanic }
    }

    /// Reads all records of the frame sections, if that wasn't done before. Returns the number of sections, and which
    /// can't be read, the first time.
    fn read_sections(&mut self) -> (usize, Vec<String>) {
        let (mut problems, program) = (Vec::new(), &self.program);
        let sections = self.sections.get_or_insert_with(|| {
            let (sections, unread) = program.as_ref().map(SectionTable::all).unwrap_or_default();
            problems = unread;
            sections
        });
        (sections.len(), problems)
    }
}

/// What tells the file of a module from others.
pub(super) fn file_key(module: &Module<'_>) -> FileKey {
    match module.image {
        Image::File(place, _) => (0, place),
        Image::Program(_) => (1, 0),
        Image::Vdso(_) => (2, 0),
    }
}
