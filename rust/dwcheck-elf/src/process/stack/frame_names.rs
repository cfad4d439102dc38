//! Names of the functions of frames, and their lines of source files.

use crate::debug::inlined;
use crate::debug::lines::{At, Lines, SourceLine};
use crate::debug::variables::{CallSites, Called, TailCall};
use crate::elf::debug_files::{build_id_hex, DebugFiles};
use crate::elf::demangle::{raw_name, shown_name, without_version, STUB};
use crate::elf::function_offset::FunctionOffset;
use crate::elf::functions::Functions;
use crate::elf::mapped::Bytes;
use crate::elf::program::Program;
use once_cell::unsync::OnceCell;
use rustc_hash::FxHashMap;
use std::path::{Path, PathBuf};

/// What compilers add to the name of a function for a part or a copy of it, perhaps with a number.
const PARTS: [&str; 7] = [".cold", ".part.", ".isra.", ".constprop.", ".lto_priv.", ".llvm.", ".__part."];

/// The most names of one function that are looked at.
const MOST_NAMES: usize = 64;

/// What linkers add to the name of a function for code that leads to it from far away.
const FAR: [&str; 3] = ["_veneer", "__AArch64ADRPThunk_", "__AArch64AbsLongThunk_"];

/// Which names a stack shows.
#[derive(Clone, Copy, Debug, PartialEq, Eq)]
pub struct NameOptions {
    /// Whether to show inlined functions.
    pub inlined: bool,
    /// Whether to show files and lines of source code.
    pub source: bool,
    /// Whether to show names as they are in the file, not demangled.
    pub raw: bool,
}

impl NameOptions {
    /// A function's name as it is shown.
    fn shown(self, name: &str) -> String {
        if self.raw {
            raw_name(name)
        } else {
            shown_name(name)
        }
    }
}

/// A function that was inlined at a frame's address.
#[derive(Clone, Debug, PartialEq, Eq)]
pub struct Inlined {
    /// Its name.
    pub name: String,
    /// The line of its code that runs.
    pub source: Option<SourceLine>,
}

/// What is known of where a frame is.
#[derive(Clone, Debug, Default, PartialEq, Eq)]
pub struct Position {
    /// The file whose code it is in.
    pub module: Option<PathBuf>,
    /// The file's build id, in hex digits.
    pub build_id: Option<String>,
    /// The frame's address as it is in the file.
    pub address_in_module: Option<u64>,
    /// The name of the function.
    pub function: Option<String>,
    /// The number of bytes from the function's first address to the frame's address. `None` if only
    /// the debug information names the function.
    pub offset: Option<u64>,
    /// The line of the function's code that runs, or that calls the last one of `inlined`.
    pub source: Option<SourceLine>,
    /// The functions that were inlined there, the innermost first.
    pub inlined: Vec<Inlined>,
}

/// What the debug information of a module says of addresses.
enum Debug<'a> {
    /// Nothing.
    None,
    /// All that there is, which is read when it is asked for.
    Lines(Box<Lines<'a>>),
    /// The names of the functions at some addresses, the innermost first.
    Functions(FxHashMap<u64, inlined::Functions>),
}

impl Debug<'_> {
    /// The functions at an address, the innermost first.
    fn functions(&self, address: u64) -> Vec<At> {
        match self {
            Debug::None => Vec::new(),
            Debug::Lines(lines) => lines.functions(address),
            Debug::Functions(functions) => {
                let names = functions.get(&address).map_or(&[][..], Vec::as_slice);
                names.iter().map(|name| At { name: name.clone(), source: None }).collect()
            }
        }
    }
}

/// The names of a module.
pub struct Names<'a> {
    /// The build id of the file, in hex digits.
    pub build_id: Option<String>,
    functions: Functions<'a>,
    debug: Debug<'a>,
    /// The files of debug information that aren't used, and why.
    pub problems: Vec<(PathBuf, String)>,
}

impl Default for NameOptions {
    fn default() -> Self {
        NameOptions { inlined: true, source: true, raw: false }
    }
}

/// A separate file of debug information.
struct Separate<'a> {
    path: PathBuf,
    bytes: &'a Bytes,
    program: Program<'a>,
}

/// A file, and its separate file of debug information.
struct Files<'p, 'a> {
    path: &'p Path,
    program: Program<'a>,
    debug: Option<Separate<'a>>,
    /// The files of debug information that aren't used, and why.
    problems: Vec<(PathBuf, String)>,
}

impl<'a> Separate<'a> {
    fn read((path, bytes): (PathBuf, &'a Bytes)) -> Option<Self> {
        Some(Separate { path, bytes, program: Program::read(bytes).ok()? })
    }
}

impl<'p, 'a> Files<'p, 'a> {
    fn open(path: &'p Path, bytes: &'a [u8], debug_files: &'a DebugFiles) -> Option<Self> {
        let program = Program::read(bytes).ok()?;
        let (debug, problems) = match debug_files.find(path, &program) {
            Ok(debug) => (debug.and_then(Separate::read), Vec::new()),
            Err((path, why)) => (None, vec![(path, why.to_string())]),
        };
        Some(Files { path, program, debug, problems })
    }

    /// The file that has the debug information, and its path.
    fn source(&self) -> (&Path, &Program<'a>) {
        let separate = self.debug.as_ref().filter(|_| !self.program.has_section(".debug_info"));
        separate.map_or((self.path, &self.program), |separate| (&separate.path, &separate.program))
    }

    /// The file that has what several files of debug information share. If it isn't there, that is one of the problems.
    fn shared(&mut self, debug_files: &'a DebugFiles) -> Option<Program<'a>> {
        let (path, source) = self.source();
        match debug_files.shared(path, source) {
            Ok(shared) => shared.and_then(|bytes| Program::read(bytes).ok()),
            Err(why) => {
                self.problems.push((self.path.to_path_buf(), why.to_string()));
                None
            }
        }
    }

    /// The symbols of both files.
    fn symbols(&self) -> Names<'a> {
        let (own, problem) = self.program.all_functions();
        let problem = problem.map(|problem| (self.path.to_path_buf(), problem.to_string()));
        Names {
            build_id: self.program.build_id().map(build_id_hex),
            functions: match &self.debug {
                Some(separate) => own.with(separate.program.functions()),
                None => own,
            },
            debug: Debug::None,
            problems: problem.into_iter().chain(self.problems.iter().cloned()).collect(),
        }
    }
}

impl<'a> Names<'a> {
    /// Reads the symbols and the debug information of a file with these bytes, also those of its separate
    /// file of debug information.
    pub fn read(path: &Path, bytes: &'a [u8], debug_files: &'a DebugFiles, options: NameOptions) -> Self {
        let mut files = match Files::open(path, bytes, debug_files) {
            Some(files) => files,
            None => return Names::none(),
        };
        if !options.source && !options.inlined {
            return files.symbols();
        }
        let shared = files.shared(debug_files);
        let lines = Lines::read(files.source().1, shared.as_ref(), debug_files);
        let names =
            Names { debug: lines.map_or(Debug::None, |lines| Debug::Lines(Box::new(lines))), ..files.symbols() };
        // What is compressed in it isn't read again.
        files.debug.iter().for_each(|separate| separate.bytes.give_back(0..separate.bytes.len()));
        names
    }

    /// The same for addresses that are known beforehand, ascending, and without lines. This takes less time.
    pub fn read_for(path: &Path, bytes: &'a [u8], debug_files: &'a DebugFiles, addresses: &[u64]) -> Self {
        let mut files = match Files::open(path, bytes, debug_files) {
            Some(files) => files,
            None => return Names::none(),
        };
        let shared = files.shared(debug_files);
        let (_, source) = files.source();
        // Linkers make the stubs in these sections, of which compilers say nothing.
        let stubs: Vec<_> = source.code_sections().into_iter().filter(|(name, _)| name.starts_with(".plt")).collect();
        let is_stub = |address: &u64| stubs.iter().any(|(_, range)| range.contains(address));
        let wanted: Vec<u64> = addresses.iter().copied().filter(|address| !is_stub(address)).collect();
        let inlined = || inlined::functions_at(source, shared.as_ref(), &wanted);
        let (names, functions) = rayon::join(|| files.symbols(), inlined);
        Names { debug: Debug::Functions(functions), ..names }
    }

    /// No names.
    fn none() -> Self {
        Names { build_id: None, functions: Functions::default(), debug: Debug::None, problems: Vec::new() }
    }

    /// Whether the debug information of an address is in a file of its own (`-gsplit-dwarf`).
    pub fn is_split(&self, address: u64) -> bool {
        matches!(&self.debug, Debug::Lines(lines) if lines.is_split(address))
    }

    /// Where an address in the file is. `looked_up` is `address`, or the byte before it if `address`
    /// follows a call.
    pub fn position(&self, address: u64, looked_up: u64, options: NameOptions) -> Position {
        self.position_of(address, looked_up, self.debug.functions(looked_up), options)
    }

    /// The same, with the functions that a file of its own has there, the outermost first.
    pub(crate) fn position_in(
        &self,
        address: u64,
        looked_up: u64,
        called: Vec<Called>,
        options: NameOptions,
    ) -> Position {
        let line = match &self.debug {
            Debug::Lines(lines) => lines.line(looked_up),
            _ => None,
        };
        let calls = called.iter().skip(1).map(|inner| inner.call.clone()).chain([line]);
        let mut found: Vec<_> =
            called.iter().zip(calls).map(|(one, source)| At { name: one.name.clone(), source }).collect();
        found.reverse();
        self.position_of(address, looked_up, found, options)
    }

    /// For each call, by the address to which it returns and one in the function that was reached, the jumps at the
    /// ends of functions between them, if call sites prove them.
    pub fn tail_calls(&self, calls: &[(u64, u64)]) -> Vec<Vec<TailCall>> {
        let none = || calls.iter().map(|_| Vec::new()).collect();
        let lines = match &self.debug {
            Debug::Lines(lines) => lines,
            _ => return none(),
        };
        let named = OnceCell::new();
        let address_of = |name: &str| named.get_or_init(|| self.addresses_by_name()).get(name).copied();
        let sites = lines.all_units().map(CallSites::of);
        let jumps = |sites: CallSites<'_>| {
            calls.iter().map(|(returned, reached)| sites.tail_calls(*returned, *reached, address_of)).collect()
        };
        let found = sites.map_or_else(none, jumps);
        lines.give_back();
        found
    }

    /// The addresses of functions by their names. Of several with one name, the first one counts.
    fn addresses_by_name(&self) -> FxHashMap<&str, u64> {
        let mut addresses = FxHashMap::default();
        for function in self.functions.all() {
            addresses.entry(without_version(&function.name)).or_insert(function.begin);
        }
        addresses
    }

    /// The name of the function at whose first address a call leads, if what it reached is in another function. `None`
    /// if it may be in a part of the same one, or if it isn't known where both functions end.
    pub fn left(&self, called: u64, reached: u64, options: NameOptions) -> Option<String> {
        let (from, past) = self.functions.at(called)?;
        let (to, _) = self.functions.at(reached)?;
        let are_apart = from.size > 0 && to.size > 0 && (from.end() <= to.begin || to.end() <= from.begin);
        if past > 0 || !are_apart || from.name.ends_with(STUB) || FAR.iter().any(|part| from.name.contains(part)) {
            return None;
        }
        let is_part = self
            .functions
            .beginning_at(from.begin)
            .take(MOST_NAMES)
            .any(|one| name_without_suffixes(&one.name) == name_without_suffixes(&to.name));
        let function = |address| self.debug.functions(address).pop().and_then(|function| function.name);
        let is_same = |name: String| function(reached) == Some(name);
        let is_left = !is_part && !function(called).map_or(false, is_same);
        is_left.then(|| options.shown(without_version(&from.name)))
    }

    fn position_of(&self, address: u64, looked_up: u64, mut found: Vec<At>, options: NameOptions) -> Position {
        let mut position = Position::default();
        if let Some(spot) = FunctionOffset::at(&self.functions, looked_up) {
            position.function = Some(options.shown(without_version(spot.name)));
            position.offset = Some(spot.offset.saturating_add(address.wrapping_sub(looked_up)));
        }
        if let Some(At { name, source }) = found.pop() {
            position.source = source.filter(|_| options.source);
            position.function = position.function.or_else(|| name.map(|name| options.shown(&name)));
        }
        let inlined = found.into_iter().filter(|_| options.inlined).map(|At { name, source }| Inlined {
            name: name.map_or_else(String::new, |name| options.shown(&name)),
            source: source.filter(|_| options.source),
        });
        position.inlined = inlined.collect();
        position
    }
}

/// A function's name without what compilers add to the names of its parts and copies.
fn name_without_suffixes(name: &str) -> &str {
    let ends = PARTS.iter().filter_map(|part| name.find(part)).filter(|end| *end > 0);
    ends.min().map_or(name, |end| &name[..end])
}
