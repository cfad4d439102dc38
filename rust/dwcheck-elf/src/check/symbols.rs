//! Writes Breakpad's symbol file of a program: its functions and lines by its debug information, its other names by its
//! symbols, and the rows of its frame sections, which were checked.
//!
//! What [`Unsaid`] lists is left out of the rows and counted.

mod frames;
mod functions;

pub use crate::cfi::stack_cfi::Unsaid;

use crate::elf::code_id::build_id_of_code;
use crate::elf::debug_files::DebugFiles;
use crate::elf::functions::Functions;
use crate::elf::mapped::Bytes;
use crate::elf::program::{Kind, Program};
use dwcheck_symbols::{debug_id, Architecture, Identity, Writer};
use dwcheck_types::abi::abi;
use dwcheck_types::target::Order;
use frames::FrameWriter;
use functions::FunctionWriter;
use std::collections::BTreeMap;
use std::fmt;
use std::io::{self, Read, Seek, SeekFrom, Write};
use std::path::Path;

/// A program whose symbol file is written.
pub struct SymbolSource<'p, 'data> {
    /// The program.
    pub program: &'p Program<'data>,
    /// The path of its file, whose name is in the symbol file.
    pub path: &'p Path,
    /// The bytes of its file.
    pub bytes: &'data Bytes,
    /// Its separate file of debug information.
    pub separate: Option<Separate<'p, 'data>>,
    /// The file that has what several files of debug information share.
    pub shared: Option<&'p Program<'data>>,
    /// Where files are looked for that have the rest of single units (`-gsplit-dwarf`).
    pub files: &'data DebugFiles,
    /// Whether to write names of functions as they are in the file, not demangled.
    pub raw_names: bool,
}

/// A separate file of debug information.
#[derive(Clone, Copy)]
pub struct Separate<'p, 'data> {
    /// Its path.
    pub path: &'p Path,
    /// Its bytes.
    pub bytes: &'data Bytes,
    /// The same, read.
    pub program: &'p Program<'data>,
}

/// What was written, counted.
#[derive(Clone, Debug, Default, PartialEq, Eq)]
pub struct SymbolCounts {
    /// `FUNC` records.
    pub functions: usize,
    /// Lines.
    pub lines: usize,
    /// `INLINE` records.
    pub inlined: usize,
    /// `PUBLIC` records.
    pub publics: usize,
    /// `STACK CFI INIT` records.
    pub frames: usize,
    /// `STACK CFI` records.
    pub rows: usize,
    /// What can't be said, and of how many rows, rules or FDEs.
    pub unsaid: BTreeMap<Unsaid, usize>,
    /// What of the program isn't used, and why.
    pub unused: Vec<String>,
}

/// Why a symbol file can't be written.
#[derive(Debug)]
pub enum SymbolsWriteError {
    /// Breakpad has no registers of the machine with this number (`e_machine`) that are known.
    Machine(u16),
    /// The file isn't a program or a library.
    NotLinked,
    /// What was written can't be stored.
    Write(io::Error),
}

impl SymbolSource<'_, '_> {
    /// What the symbol file is for.
    ///
    /// # Errors
    ///
    /// [`SymbolsWriteError::Machine`] and [`SymbolsWriteError::NotLinked`].
    pub fn identity(&self) -> Result<Identity<'static>, SymbolsWriteError> {
        let architecture = self.architecture()?;
        let name = self.path.file_name().map_or_else(String::new, |name| name.to_string_lossy().into_owned());
        let id = match self.program.build_id() {
            Some(id) => debug_id(id),
            None => debug_id(&build_id_of_code(self.bytes).unwrap_or_default()),
        };
        let (system, machine) = ("Linux".into(), architecture.name().into());
        Ok(Identity { system, machine, id: id.into(), name: name.into() })
    }

    fn architecture(&self) -> Result<Architecture, SymbolsWriteError> {
        let target = self.program.target();
        let abi = abi(self.program.machine(), target.address_size).filter(|_| target.order == Order::Little);
        let architecture = abi.and_then(Architecture::of_abi);
        let architecture = architecture.ok_or_else(|| SymbolsWriteError::Machine(self.program.machine()))?;
        match self.program.kind() {
            Kind::Executable | Kind::Shared => Ok(architecture),
            _ => Err(SymbolsWriteError::NotLinked),
        }
    }

    /// All names of code.
    fn functions(&self) -> Functions<'_> {
        let (own, _) = self.program.all_functions();
        match self.separate {
            Some(separate) => own.with(separate.program.functions()),
            None => own,
        }
    }

    /// Writes the symbol file to `out`. Functions are kept in `spool`, which is empty at first, until all names of files
    /// are known. A unit of debug information at a time is in memory.
    ///
    /// # Errors
    ///
    /// If the machine isn't known or something can't be written.
    pub fn write<S>(&self, out: impl Write, spool: &mut S) -> Result<SymbolCounts, SymbolsWriteError>
    where
        S: Read + Write + Seek,
    {
        let architecture = self.architecture()?;
        let mut counts = SymbolCounts::default();
        let mut head = Writer::new(out, architecture);
        head.module(&self.identity()?, self.program.build_id())?;
        let functions = self.functions();
        let body = Writer::new(io::BufWriter::new(&mut *spool), architecture);
        let mut writer = FunctionWriter::new(self, &functions, head, body);
        writer.write_units(&mut counts)?;
        writer.write_publics(&mut counts)?;
        let mut out = writer.finish()?;
        spool.seek(SeekFrom::Start(0))?;
        io::copy(spool, &mut out)?;
        let mut frames = FrameWriter::new(Writer::new(out, architecture), architecture, self.program.image_address());
        frames.write_all(self.program, &mut counts)?;
        frames.into_inner().flush()?;
        Ok(counts)
    }
}

impl From<io::Error> for SymbolsWriteError {
    fn from(error: io::Error) -> Self {
        SymbolsWriteError::Write(error)
    }
}

impl fmt::Display for SymbolsWriteError {
    fn fmt(&self, f: &mut fmt::Formatter<'_>) -> fmt::Result {
        match self {
            SymbolsWriteError::Machine(number) => {
                write!(f, "symbol files of machine {} aren't written, only those of x86-64, i386 and aarch64", number)
            }
            SymbolsWriteError::NotLinked => f.write_str("neither a program nor a library: link it first"),
            SymbolsWriteError::Write(error) => write!(f, "cannot write: {}", error),
        }
    }
}

impl std::error::Error for SymbolsWriteError {
    fn source(&self) -> Option<&(dyn std::error::Error + 'static)> {
        match self {
            SymbolsWriteError::Write(error) => Some(error),
            _ => None,
        }
    }
}
