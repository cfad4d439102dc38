//! What names the functions and lines of a file's findings: its own symbols and debug information, and those of its
//! separate file of debug information, which is looked for once a finding needs a name.

use crate::end::shown_path;
use crate::inquiry::Subject;
use dwcheck_elf::debug_files::DebugFiles;
use dwcheck_elf::functions::Functions;
use dwcheck_elf::lines::{Lines, SourceLine};
use dwcheck_elf::mapped::Bytes;
use dwcheck_elf::names::FunctionOffset;
use dwcheck_elf::program::Program;
use dwcheck_store::Digest;
use once_cell::unsync::OnceCell;
use std::path::{Path, PathBuf};

/// The names of a file.
pub struct Names<'n> {
    subject: &'n Subject<'n>,
    program: &'n Program<'n>,
    /// The program's own functions.
    own: &'n Functions<'n>,
    /// Where its separate file is looked for.
    files: &'n DebugFiles,
    /// Whether lines are needed, too.
    has_lines: bool,
    others: OnceCell<Others<'n>>,
    found: OnceCell<Found<'n>>,
}

/// The other files that give names.
#[derive(Default)]
struct Others<'n> {
    separate: Option<Separate<'n>>,
    /// The file with what several separate files share, if lines are needed.
    shared: Option<&'n Bytes>,
    /// Why a file of debug information isn't used.
    problem: Option<String>,
}

/// A separate file of debug information.
struct Separate<'n> {
    path: PathBuf,
    bytes: &'n Bytes,
    program: Program<'n>,
}

/// What all files have.
struct Found<'n> {
    functions: Functions<'n>,
    lines: Option<Lines<'n>>,
}

impl<'n> Names<'n> {
    /// The names of a program, with lines if these are needed.
    pub fn of(
        subject: &'n Subject<'n>,
        program: &'n Program<'n>,
        own: &'n Functions<'n>,
        files: &'n DebugFiles,
        has_lines: bool,
    ) -> Self {
        Names { subject, program, own, files, has_lines, others: OnceCell::new(), found: OnceCell::new() }
    }

    /// The function at an address, with the offset in it.
    pub fn function(&self, address: u64) -> Option<String> {
        FunctionOffset::at(&self.found().functions, address).map(|spot| spot.to_string())
    }

    /// The line of an address.
    pub fn line(&self, address: u64) -> Option<SourceLine> {
        self.found().lines.as_ref()?.line(address)
    }

    /// Why the separate file isn't used, if it was looked for and can't be.
    pub fn problem(&self) -> Option<String> {
        self.others.get()?.problem.clone()
    }

    /// The other files that give names, as a store knows them. `None` if one can't be used.
    pub fn inputs(&self) -> Option<Vec<String>> {
        self.others().inputs()
    }

    /// The same of those that were looked for so far.
    pub fn used_inputs(&self) -> Option<Vec<String>> {
        self.others.get().map_or_else(|| Some(Vec::new()), Others::inputs)
    }

    fn others(&self) -> &Others<'n> {
        self.others.get_or_init(|| self.find_others())
    }

    fn find_others(&self) -> Others<'n> {
        if self.subject.is_member {
            return Others::default();
        }
        // It is also found by the folder of the program.
        let path = self.whole_path();
        let (separate, problem) = match self.files.find(&path, self.program) {
            Ok(separate) => (separate, None),
            Err((file, why)) => (None, Some(format!("{}: {}", shown_path(&file), why))),
        };
        let separate =
            separate.and_then(|(path, bytes)| Some(Separate { path, bytes, program: Program::read(bytes).ok()? }));
        let shared = if self.has_lines { self.shared(&path, separate.as_ref()) } else { None };
        Others { separate, shared, problem }
    }

    fn whole_path(&self) -> PathBuf {
        self.subject.path.canonicalize().unwrap_or_else(|_| self.subject.path.to_path_buf())
    }

    /// What the file shares that has the debug information.
    fn shared(&self, path: &Path, separate: Option<&Separate<'n>>) -> Option<&'n Bytes> {
        match separate.filter(|_| !self.has_debug_info()) {
            Some(separate) => self.files.shared(&separate.path, &separate.program),
            None => self.files.shared(path, self.program),
        }
        .ok()
        .flatten()
    }

    fn has_debug_info(&self) -> bool {
        self.program.has_section(".debug_info")
    }

    fn found(&self) -> &Found<'n> {
        self.found.get_or_init(|| {
            let own = self.own.clone();
            let functions = match &self.others().separate {
                Some(separate) => own.with(separate.program.functions()),
                None => own,
            };
            Found { functions, lines: if self.has_lines { self.lines() } else { None } }
        })
    }

    /// The lines of the file that has the debug information.
    fn lines(&self) -> Option<Lines<'n>> {
        let Others { separate, shared, .. } = self.others();
        let separate = separate.as_ref().filter(|_| !self.has_debug_info());
        let program = separate.map_or(self.program, |separate| &separate.program);
        let shared = shared.and_then(|bytes| Program::read(bytes).ok());
        Lines::read(program, shared.as_ref(), self.files)
    }
}

impl Others<'_> {
    fn inputs(&self) -> Option<Vec<String>> {
        let named = [("separate", self.separate.as_ref().map(|separate| separate.bytes)), ("shared", self.shared)];
        let named = named.into_iter().filter_map(|(name, bytes)| Some((name, bytes?)));
        let input = |(name, bytes): (&str, &Bytes)| format!("{}={}", name, Digest::of(bytes));
        self.problem.is_none().then(|| named.map(input).collect())
    }
}
