//! The names of the functions of frames, with those that are inlined there.

use super::kernel::Kernel;
use super::memory::Memory;
use super::objects::{Kind, Object};
use super::{Frame, Profile};
use dwcheck_elf::debug_files::DebugFiles;
use dwcheck_elf::internal::{short_name, Names as ModuleNames};
use dwcheck_elf::stack;
use dwcheck_elf::text::Escaped;
use rayon::prelude::*;
use rustc_hash::FxHashMap;
use std::path::{Path, PathBuf};

/// Which names are read.
#[derive(Clone, Debug)]
pub struct NameOptions {
    /// Whether to show functions that were inlined.
    pub inlined: bool,
    /// Whether to show files and lines of source code.
    pub lines: bool,
    /// A list of the kernel's functions: `/proc/kallsyms` or `System.map` of the recorded machine.
    pub kernel: Option<PathBuf>,
}

impl Default for NameOptions {
    fn default() -> Self {
        NameOptions { inlined: true, lines: false, kernel: None }
    }
}

/// The index of a text.
pub type TextId = u32;

/// A function at a frame.
#[derive(Clone, Copy, Debug, PartialEq, Eq)]
pub struct Function {
    /// Its name, or what stands for it.
    pub name: TextId,
    /// Whether the name is known. If not, [`name`](Self::name) is that of the object in brackets.
    pub is_known: bool,
    /// Whether it was inlined into the function that follows.
    pub is_inlined: bool,
    /// The distance of the frame from the begin of the function that isn't inlined.
    pub offset: u64,
    /// The line of its code that runs, such as `main.c:12`.
    pub line: Option<TextId>,
    /// The object, as perf shows it.
    pub object: TextId,
}

/// The functions of all frames of a profile.
#[derive(Debug, Default)]
pub struct Names {
    /// For each frame the end of its functions in `functions`, which begin where those of the frame before end.
    ends: Vec<u32>,
    functions: Vec<Function>,
    texts: Texts,
    /// Files of debug information that aren't used, and why.
    pub problems: Vec<(String, String)>,
}

/// Texts, each once, without control characters.
#[derive(Debug, Default)]
struct Texts {
    all: Vec<String>,
    ids: FxHashMap<String, TextId>,
}

impl Texts {
    fn id(&mut self, text: &str) -> TextId {
        if let Some(id) = self.ids.get(text) {
            return *id;
        }
        if text.contains(char::is_control) {
            return self.id(&Escaped(text).to_string());
        }
        let id = self.all.len() as TextId;
        self.all.push(text.to_string());
        self.ids.insert(text.to_string(), id);
        id
    }
}

/// A function that was found, with texts of its own.
struct Found {
    name: Option<String>,
    is_inlined: bool,
    offset: u64,
    line: Option<String>,
    /// The object, if it isn't the frame's.
    object: Option<String>,
}

/// The functions of a frame, by its index, the innermost first.
type Named = (u32, Vec<Found>);

impl Names {
    /// Reads the names of all frames of a profile. Files are read in parallel.
    pub fn read(profile: &Profile, options: &NameOptions) -> Names {
        let mut by_object: FxHashMap<u32, Vec<u32>> = FxHashMap::default();
        for (place, frame) in profile.frames.iter().enumerate() {
            by_object.entry(frame.place.object).or_default().push(place as u32);
        }
        let mut objects: Vec<_> = by_object.into_iter().collect();
        objects.sort_unstable_by_key(|(object, _)| *object);
        let read = |(object, frames): (u32, Vec<u32>)| match profile.objects.get(object as usize) {
            Some(object) => names_of_object(profile, object, frames, options),
            None => (Vec::new(), Vec::new()),
        };
        let read: Vec<_> = objects.into_par_iter().map(read).collect();
        let mut named: Vec<Vec<Found>> = Vec::new();
        named.resize_with(profile.frames.len(), Vec::new);
        let mut names = Names::default();
        for (found, problems) in read {
            names.problems.extend(problems);
            found.into_iter().for_each(|(frame, functions)| named[frame as usize] = functions);
        }
        for (frame, found) in profile.frames.iter().zip(named) {
            names.add(profile, frame, found);
        }
        names
    }

    /// The functions of a frame, the innermost first.
    pub fn of(&self, frame: u32) -> &[Function] {
        let frame = frame as usize;
        let end = self.ends.get(frame).copied().unwrap_or(0);
        let start = frame.checked_sub(1).and_then(|before| self.ends.get(before)).copied().unwrap_or(0);
        self.functions.get(start as usize..end as usize).unwrap_or(&[])
    }

    /// A text. It has no control characters.
    pub fn text(&self, id: TextId) -> &str {
        self.texts.all.get(id as usize).map_or("", String::as_str)
    }

    fn add(&mut self, profile: &Profile, frame: &Frame, mut found: Vec<Found>) {
        if found.is_empty() {
            found.push(Found { name: None, is_inlined: false, offset: 0, line: None, object: None });
        }
        let object = profile.object(frame).map_or("[unknown]", |object| object.name.as_str());
        for one in found {
            let object = one.object.as_deref().unwrap_or(object);
            let name = match &one.name {
                Some(name) => self.texts.id(name),
                None => self.texts.id(&name_in_brackets(profile, frame, object)),
            };
            let function = Function {
                name,
                is_known: one.name.is_some(),
                is_inlined: one.is_inlined,
                offset: one.offset,
                line: one.line.map(|line| self.texts.id(&line)),
                object: self.texts.id(object),
            };
            self.functions.push(function);
        }
        self.ends.push(self.functions.len() as u32);
    }
}

/// What stands for the name of a function that isn't known: the name of its object.
fn name_in_brackets(profile: &Profile, frame: &Frame, name: &str) -> String {
    let name = name.strip_prefix('[').and_then(|name| name.strip_suffix(']')).unwrap_or(name);
    match profile.object(frame).map(|object| object.kind) {
        Some(Kind::Memory(_)) | None => "[unknown]".to_string(),
        _ => format!("[{}]", name.rsplit('/').next().unwrap_or(name)),
    }
}

/// The functions of frames of an object, and the problems with its files.
fn names_of_object(
    profile: &Profile,
    object: &Object,
    frames: Vec<u32>,
    options: &NameOptions,
) -> (Vec<Named>, Vec<(String, String)>) {
    let address = |frame: &u32| profile.frames[*frame as usize].place.address;
    match object.kind {
        Kind::File => names_of_file(profile, object, frames, options),
        Kind::Kernel => {
            let listed = options.kernel.as_ref().and_then(|path| Kernel::of_file(path, profile.kernel_start).ok());
            let own = || Kernel::of_recording(&profile.features, &profile.search_paths, profile.kernel_start);
            let kernel = listed.unwrap_or_else(own);
            let named = frames.into_iter().filter_map(|frame| {
                let (name, module, offset) = kernel.at(address(&frame))?;
                Some((frame, vec![found_name(name.to_string(), offset, module)]))
            });
            (named.collect(), Vec::new())
        }
        Kind::Memory(pid) | Kind::MemoryFile(pid) => {
            let dump = profile.dumps.get(&pid).map(PathBuf::as_path);
            let memory = Memory::of_process(pid, &profile.search_paths.root, dump);
            let named = frames.into_iter().filter_map(|frame| {
                let (name, offset) = memory.at(address(&frame))?;
                let name = name.chars().filter(|c| !c.is_control()).collect();
                Some((frame, vec![found_name(name, offset, None)]))
            });
            (named.collect(), Vec::new())
        }
    }
}

fn found_name(name: String, offset: u64, object: Option<&str>) -> Found {
    Found { name: Some(name), is_inlined: false, offset, line: None, object: object.map(str::to_string) }
}

/// The functions of frames of a file.
fn names_of_file(
    profile: &Profile,
    object: &Object,
    mut frames: Vec<u32>,
    options: &NameOptions,
) -> (Vec<Named>, Vec<(String, String)>) {
    let loaded = match object.opened() {
        Some(loaded) => loaded,
        None => return Default::default(),
    };
    let bytes = match &loaded.bytes {
        Some(bytes) => bytes,
        None => return Default::default(),
    };
    let search_paths = &profile.search_paths;
    let debug_files = DebugFiles::new(&search_paths.root).fetching(&search_paths.fetcher);
    let wanted = stack::NameOptions { inlined: options.inlined, source: options.lines, raw: true };
    let address = |frame: u32| profile.frames[frame as usize].place.address;
    frames.sort_unstable_by_key(|frame| address(*frame));
    let path = Path::new(&object.name);
    let names = match options.inlined && !options.lines {
        true => {
            let addresses: Vec<u64> = frames.iter().map(|frame| address(*frame)).collect();
            ModuleNames::read_for(path, bytes, &debug_files, &addresses)
        }
        false => ModuleNames::read(path, bytes, &debug_files, wanted),
    };
    let mut shown = Shown::default();
    let named = frames
        .into_iter()
        .map(|frame| (frame, shown.functions(names.position(address(frame), address(frame), wanted))));
    let named = named.collect();
    let problems = names.problems.iter().map(|(path, why)| (path.to_string_lossy().into_owned(), why.clone()));
    (named, problems.collect())
}

/// Names as they are shown, each demangled once.
#[derive(Default)]
struct Shown(FxHashMap<String, String>);

impl Shown {
    fn name(&mut self, raw: String) -> String {
        if let Some(name) = self.0.get(&raw) {
            return name.clone();
        }
        let name = short_name(&raw);
        self.0.insert(raw, name.clone());
        name
    }

    /// The functions of a place, the innermost first.
    fn functions(&mut self, place: stack::Position) -> Vec<Found> {
        let offset = place.offset.unwrap_or(0);
        let line = |source: Option<stack::SourceLine>| {
            source.map(|source| {
                let file = source.file.rsplit('/').next().unwrap_or("").to_string();
                source.line.map_or(file.clone(), |line| format!("{}:{}", file, line))
            })
        };
        let mut found = Vec::with_capacity(place.inlined.len() + 1);
        for one in place.inlined {
            let name = Some(one.name).filter(|name| !name.is_empty()).map(|name| self.name(name));
            found.push(Found { name, is_inlined: true, offset, line: line(one.source), object: None });
        }
        let name = place.function.map(|name| self.name(name));
        found.push(Found { name, is_inlined: false, offset, line: line(place.source), object: None });
        found
    }
}
