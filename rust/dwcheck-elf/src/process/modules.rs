//! The modules of a process: files with frame sections, each loaded at some address.

use crate::cfi::frames::{Frames, Record};
use crate::elf::program::Program;
use dwcheck::{Error, ModuleId, Process};
use dwcheck_types::target::Target;
use std::fmt;
use std::ops::RangeInclusive;
use std::path::{Path, PathBuf};

/// The modules of a process, with the paths of their files.
///
/// A file answers for the addresses of its executable segments, or, if it has none, for those from
/// the first to the last one that its sections cover.
#[derive(Debug)]
pub struct Modules {
    process: Process,
    target: Target,
    paths: Vec<(ModuleId, PathBuf)>,
}

/// Why a file isn't used.
#[derive(Clone, Debug, PartialEq, Eq)]
pub enum Lost {
    /// The file has another byte order or address size than the process.
    Target,
    /// One of its addresses is also an address of this other file.
    Overlaps(PathBuf),
    /// It has no executable segments, and its sections cover no address.
    NoAddress,
    /// Its addresses would pass the highest address.
    PastTop,
}

impl Modules {
    /// No modules.
    pub fn new(target: Target) -> Self {
        Modules { process: Process::new(target), target, paths: Vec::new() }
    }

    /// The process to look up and walk with.
    pub fn process(&self) -> &Process {
        &self.process
    }

    /// Adds a file that is loaded at `load`. `sections` are its frame sections, `.debug_frame` first, each of which the
    /// library has to accept. If both cover an address, `.debug_frame` counts. Does nothing if there are no sections.
    ///
    /// Returns why the file isn't used, if it isn't.
    ///
    /// # Errors
    ///
    /// The errors of [`Process::add`], but those for ranges aren't among them.
    pub fn add(
        &mut self,
        path: &Path,
        program: &Program<'_>,
        sections: &[Frames<'_>],
        load: u64,
    ) -> Result<Option<Lost>, Error> {
        let first = match sections.first() {
            Some(first) => first,
            None => return Ok(None),
        };
        if program.target() != self.target {
            return Ok(Some(Lost::Target));
        }
        let code = program.code(load);
        let covers = |frames: &Frames<'_>| frames.used().filter_map(Record::addresses).any(|range| !range.is_empty());
        let has_addresses = code.is_some() || sections.iter().any(covers);
        match self.add_sections(first, sections.get(1), code, load) {
            Ok(id) => {
                self.paths.push((id, path.to_path_buf()));
                Ok(None)
            }
            Err(Error::Overlaps(other)) => Ok(Some(Lost::Overlaps(self.path_of(other)))),
            Err(Error::Range) if has_addresses => Ok(Some(Lost::PastTop)),
            Err(Error::Range) => Ok(Some(Lost::NoAddress)),
            Err(other) => Err(other),
        }
    }

    /// Adds a module with one section, or with both, that answers for these addresses, as loaded.
    fn add_sections(
        &mut self,
        first: &Frames<'_>,
        second: Option<&Frames<'_>>,
        range: Option<RangeInclusive<u64>>,
        load: u64,
    ) -> Result<ModuleId, Error> {
        let mut module = first.module(load);
        module.range = range;
        let second = second.map(|frames| (frames, frames.module(load)));
        match second.and_then(|(frames, module)| Some((frames, module.room, module.eh_frame?))) {
            Some((eh_frame, room, section)) => {
                module.room = module.room.max(room);
                self.process.add_both(first.bytes(), eh_frame.bytes(), section, module)
            }
            None => self.process.add(first.bytes(), module),
        }
    }

    fn path_of(&self, id: ModuleId) -> PathBuf {
        let found = self.paths.iter().find(|(other, _)| *other == id);
        found.map_or_else(PathBuf::new, |(_, path)| path.clone())
    }
}

impl fmt::Display for Lost {
    fn fmt(&self, f: &mut fmt::Formatter<'_>) -> fmt::Result {
        match self {
            Lost::Target => f.write_str("not used: another byte order or address size"),
            Lost::Overlaps(path) => write!(f, "not used: its addresses overlap those of {}", path.display()),
            Lost::NoAddress => f.write_str("not used: its frame sections cover no address"),
            Lost::PastTop => f.write_str("not used: its addresses would pass the highest one"),
        }
    }
}
