//! The programs and libraries of a process that died, and where they were loaded.

use super::{CoreFile, Files, Mapping};
use crate::elf::program::{Program, Segment};
use std::collections::HashMap;
use std::ffi::OsStr;
use std::ops::Range;
use std::os::unix::ffi::OsStrExt;
use std::path::{Path, PathBuf};

/// Where a module's ELF file is.
#[derive(Clone, Copy, Debug, PartialEq, Eq)]
pub enum Image<'a> {
    /// A mapped file, by its index in [`Files::all`], and its bytes.
    File(usize, &'a [u8]),
    /// The bytes of a program that the caller passed, for a core that doesn't list its mapped
    /// files.
    Program(&'a [u8]),
    /// The bytes of the kernel's vDSO, which are in the core's memory.
    Vdso(&'a [u8]),
}

/// A program or library that the process had loaded.
#[derive(Clone, Debug, PartialEq, Eq)]
pub struct Module<'a> {
    /// The path of its file, or `[vdso]`.
    pub path: PathBuf,
    /// What is added to an address in the file to get the address in the process, modulo 2^32 or
    /// 2^64.
    pub bias: u64,
    /// The first address of its mappings.
    pub begin: u64,
    /// The address after its last mapping.
    pub end: u64,
    /// The addresses in the process of the parts of its code that are mapped and can be executed,
    /// ascending. The file's unwind tables say nothing about any other address.
    pub code: Vec<Range<u64>>,
    /// The module's ELF file.
    pub image: Image<'a>,
}

impl<'a> Image<'a> {
    /// The bytes of the module's ELF file.
    pub fn bytes(&self) -> &'a [u8] {
        match self {
            Image::File(_, bytes) | Image::Program(bytes) | Image::Vdso(bytes) => bytes,
        }
    }
}

/// A module that a minidump lists, with its file.
pub(super) struct Listed<'a> {
    /// The index of the file in [`Files::all`], its path and its bytes.
    pub place: usize,
    path: &'a Path,
    pub bytes: &'a [u8],
    /// What is added to an address in the file to get the address in the process.
    pub bias: u64,
    /// Its segments.
    pub segments: Vec<Segment>,
}

/// An ELF file that is mapped with some bias, as far as the mappings that were looked at so far
/// show. It is a module if some of its code is mapped. `place` is the file's index in
/// [`Files::all`].
struct Candidate<'a> {
    place: usize,
    module: Module<'a>,
}

/// Finds the modules among the mappings of a core.
struct Finder<'a> {
    core: &'a CoreFile<'a>,
    files: &'a Files,
    /// The segments of each file that was read, by the file's index in [`Files::all`].
    segments: HashMap<usize, Vec<Segment>>,
    found: Vec<Candidate<'a>>,
}

impl CoreFile<'_> {
    /// The modules, in the order of their first mappings. The vDSO comes last.
    ///
    /// A mapped ELF file is a module if one of its executable segments is mapped. A file that is
    /// loaded twice, at different addresses, is two modules.
    pub fn modules<'a>(&'a self, files: &'a Files) -> Vec<Module<'a>> {
        let mut finder = Finder { core: self, files, segments: HashMap::new(), found: Vec::new() };
        self.mappings().iter().for_each(|mapping| finder.add(mapping));
        let mapped = finder.found.into_iter().map(|candidate| candidate.module);
        let listed = self.listed_modules(files).into_iter().map(|listed| self.module_of(listed));
        let mut modules: Vec<_> = mapped.chain(listed).filter(|module| !module.code.is_empty()).collect();
        let is_known = |vdso: &Module<'_>| modules.iter().any(|module| module.begin == vdso.begin);
        let vdso = self.vdso_module().filter(|vdso| !vdso.code.is_empty() && !is_known(vdso));
        modules.extend(vdso);
        modules.iter_mut().for_each(|module| module.code.sort_unstable_by_key(|range| range.start));
        modules
    }

    /// The modules that a minidump lists, and whose files are known.
    pub(super) fn listed_modules<'a>(&self, files: &'a Files) -> Vec<Listed<'a>> {
        let listed = self.listed().unwrap_or(&[]).iter().enumerate();
        let known = listed.filter_map(|(index, module)| {
            let (place, path, bytes) = files.module(index)?;
            let program = Program::read(bytes).ok()?;
            let segments = program.segments();
            let bias = self.target().wrap(module.begin.wrapping_sub(program.image_address()));
            Some(Listed { place, path, bytes, bias, segments })
        });
        known.collect()
    }

    fn module_of<'a>(&self, Listed { place, path, bytes, bias, segments }: Listed<'a>) -> Module<'a> {
        let loaded = |address: u64| self.target().wrap(address.wrapping_add(bias));
        let begin = segments.iter().map(|segment| loaded(segment.address)).min().unwrap_or(0);
        let ends = segments.iter().map(|segment| loaded(segment.address).saturating_add(segment.size));
        let end = ends.max().unwrap_or(begin);
        let code = self.code_of(&segments, bias);
        Module { path: path.to_path_buf(), bias, begin, end, code, image: Image::File(place, bytes) }
    }

    /// Makes a module of the program, for a core that doesn't list its mapped files, such as
    /// qemu's. The bias comes from the address of the program's first instruction, which is in the
    /// core's auxiliary vector. `None` if the core doesn't have that address, or if the program
    /// can't be read, has no segments, or isn't for the core's byte order and address size.
    pub fn program_module<'a>(&self, path: &Path, bytes: &'a [u8]) -> Option<Module<'a>> {
        let program = Program::read(bytes).ok().filter(|program| program.target() == self.target())?;
        let bias = self.target().wrap(self.entry?.wrapping_sub(program.entry()));
        let segments = program.segments();
        let begin = segments.iter().map(|segment| segment.address).min()?.wrapping_add(bias);
        let end = segments.iter().map(|segment| segment.address.saturating_add(segment.size)).max()?.wrapping_add(bias);
        let code = self.code_of(&segments, bias);
        Some(Module { path: path.to_path_buf(), bias, begin, end, code, image: Image::Program(bytes) })
    }

    /// The addresses in the process of the executable segments of a file that is loaded as a whole.
    fn code_of(&self, segments: &[Segment], bias: u64) -> Vec<Range<u64>> {
        let code = segments.iter().filter(|segment| segment.is_executable);
        let loaded = code.map(|segment| {
            let begin = self.target().wrap(segment.address.wrapping_add(bias));
            begin..begin.saturating_add(segment.size)
        });
        loaded.flat_map(|range| self.executable_in(&range)).collect()
    }

    /// The name of the file that is mapped at the address of the program's first instruction.
    pub(super) fn program_path(&self) -> Option<&[u8]> {
        let entry = self.entry?;
        let holds = |mapping: &&Mapping<'_>| (mapping.begin..mapping.end).contains(&entry);
        self.mappings().iter().find(holds).map(|mapping| mapping.path)
    }

    /// Whether the program's first instruction is in a module: whether this is the program, and not a library.
    pub(crate) fn begins_in(&self, module: &Module<'_>) -> bool {
        self.entry.map_or(false, |entry| (module.begin..module.end).contains(&entry))
    }

    /// Whether the mappings of a file are those of a program with these bytes: each segment is
    /// mapped, and all have the bias of the program's first instruction.
    pub(super) fn maps_segments(&self, path: &[u8], bytes: &[u8]) -> bool {
        let program = Program::read(bytes).ok().filter(|program| program.target() == self.target());
        let (entry, program) = match (self.entry, program) {
            (Some(entry), Some(program)) => (entry, program),
            _ => return false,
        };
        let target = self.target();
        let expected = target.wrap(entry.wrapping_sub(program.entry()));
        let mappings = self.mappings().iter().filter(|mapping| mapping.path == path);
        let is_mapped = |segment: &Segment| {
            let mut shown = mappings.clone().filter(|mapping| maps_bytes_of_segment(mapping, segment));
            shown.any(|mapping| target.wrap(load_bias(mapping, segment)) == expected)
        };
        let segments = program.segments();
        !segments.is_empty() && segments.iter().filter(|segment| segment.file_size > 0).all(is_mapped)
    }

    /// The vDSO as a module. Its whole ELF file is in the core's memory. `None` if the core has no
    /// vDSO that can be read.
    fn vdso_module(&self) -> Option<Module<'_>> {
        let begin = self.vdso?;
        let bytes = self.bytes_from(begin)?;
        let segments = Program::read(bytes).ok()?.segments();
        let bias = begin.wrapping_sub(segments.first()?.address);
        let end = begin.saturating_add(bytes.len() as u64);
        let (path, bias) = (PathBuf::from("[vdso]"), self.target().wrap(bias));
        let code = self.code_of(&segments, bias);
        Some(Module { path, bias, begin, end, code, image: Image::Vdso(bytes) })
    }
}

impl<'a> Finder<'a> {
    /// Finds out to which module a mapping belongs, and adds the mapping to that module, or begins
    /// a new module with it. Does nothing if the mapping has no part of an ELF file that can be
    /// read.
    fn add(&mut self, mapping: &Mapping<'_>) {
        let (place, bytes) = match self.files.find_image(mapping.path) {
            Some(found) => found,
            None => return,
        };
        let read = || Program::read(bytes).map_or(Vec::new(), |program| program.segments());
        let segments = self.segments.entry(place).or_insert_with(read);
        let target = self.core.target();
        let shown: Vec<_> = segments.iter().filter(|segment| maps_bytes_of_segment(mapping, segment)).collect();
        let bias_of = |segment: &Segment| target.wrap(load_bias(mapping, segment));
        let is_module = |candidate: &Candidate<'_>, bias| candidate.place == place && candidate.module.bias == bias;
        let is_known = |bias: &u64| self.found.iter().any(|candidate| is_module(candidate, *bias));
        let mut biases = shown.iter().map(|segment| bias_of(segment));
        let bias = match biases.clone().find(is_known).or_else(|| biases.next()) {
            Some(bias) => bias,
            None => return,
        };
        let executable = shown.iter().filter(|segment| segment.is_executable && bias_of(segment) == bias);
        let code = executable.flat_map(|segment| self.core.executable_in(&mapped_part(mapping, segment)));
        let mut code: Vec<_> = code.collect();
        if let Some(candidate) = self.found.iter_mut().find(|candidate| is_module(candidate, bias)) {
            candidate.module.code.append(&mut code);
            candidate.module.begin = candidate.module.begin.min(mapping.begin);
            candidate.module.end = candidate.module.end.max(mapping.end);
            return;
        }
        let path = PathBuf::from(OsStr::from_bytes(mapping.path));
        let image = Image::File(place, bytes);
        let module = Module { path, bias, begin: mapping.begin, end: mapping.end, code, image };
        self.found.push(Candidate { place, module });
    }
}

/// The addresses in the process at which a mapping has bytes of a segment.
fn mapped_part(mapping: &Mapping<'_>, segment: &Segment) -> Range<u64> {
    let address = |offset: u64| mapping.begin.saturating_add(offset.saturating_sub(mapping.offset));
    let begin = address(segment.offset);
    begin..address(segment.offset.saturating_add(segment.file_size)).min(mapping.end).max(begin)
}

/// Whether a mapping has at least one byte of a segment.
///
/// If one segment ends in the page of the file in which the next one begins, that page is mapped
/// for both segments. So a mapping can have bytes of a segment that it wasn't made for, and then
/// more than one segment gives a bias. The right bias is the one that another mapping of the file
/// has given already, if there is one.
fn maps_bytes_of_segment(mapping: &Mapping<'_>, segment: &Segment) -> bool {
    let mapped_end = mapping.offset.saturating_add(mapping.end.saturating_sub(mapping.begin));
    let segment_end = segment.offset.saturating_add(segment.file_size);
    mapping.offset < segment_end && segment.offset < mapped_end
}

/// The bias of a module, if `mapping` maps its segment `segment`.
fn load_bias(mapping: &Mapping<'_>, segment: &Segment) -> u64 {
    let file_begin = mapping.begin.wrapping_sub(mapping.offset);
    file_begin.wrapping_add(segment.offset).wrapping_sub(segment.address)
}
