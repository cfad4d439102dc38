//! Opens the files that a process had mapped into memory when it died, and sees whether they are still the same.

use super::in_memory::{build_id_in_bytes, has_same_id, image_in_memory};
use super::search::{Finder, Search, Wanted};
use super::{CoreFile, Loaded, Mapping};
use crate::elf::debug_files::DebugFiles;
use crate::elf::escaped::Escaped;
use crate::elf::mapped::Bytes;
use crate::elf::program::Program;
use crate::process::maps::Process;
use dwcheck_minidump::BuildId;
use std::collections::{HashMap, HashSet};
use std::ffi::OsStr;
use std::fmt;
use std::fs::File;
use std::os::unix::ffi::OsStrExt;
use std::path::{Component, Path, PathBuf};

/// How many of a file's first bytes are compared with the core's memory.
const COMPARED: usize = 4096;

/// A file that the process had mapped.
#[derive(Debug)]
pub struct MappedFile {
    /// The file's name in the core. For a module of a minidump, where the file was found.
    pub path: PathBuf,
    /// The bytes that the file has now, or why they can't be used. If
    /// [`use_program`](Files::use_program) has replaced them, the bytes of the program.
    pub bytes: Result<Bytes, FileError>,
    /// If they can't be used, the bytes of the file that the core has, without section headers, if it has all of its
    /// segments that can't be written to.
    image: Option<Bytes>,
    /// The build id that the core has of it.
    build_id: Option<Vec<u8>>,
    /// Whether the file is the kernel's and in no folder.
    is_vdso: bool,
}

impl MappedFile {
    /// Whether the file was looked for and isn't used. The kernel's vDSO is in no folder, so that it isn't missed.
    pub(crate) fn is_missed(&self) -> bool {
        self.bytes.is_err() && !self.is_vdso
    }

    /// Whether neither the file nor what the core has of it can be used.
    pub(crate) fn is_lost(&self) -> bool {
        self.bytes.is_err() && self.image.is_none()
    }

    /// The build id that the core has of the file.
    pub(crate) fn build_id(&self) -> Option<&[u8]> {
        self.build_id.as_deref()
    }
}

/// Why a mapped file can't be used.
#[derive(Debug)]
pub enum FileError {
    /// The file's name isn't an absolute path, or contains `..`. The kernel gives no such name.
    Name,
    /// The file can't be read.
    Read(std::io::Error),
    /// The file isn't a regular file, or its size is 0, like that of files in `/proc`.
    NotRegular,
    /// The file isn't the one that was mapped: its first bytes differ from those in the core.
    Changed,
    /// There is no file of a module of a minidump, which has this build id.
    NotFound(Option<String>),
    /// The file with the name of a module of a minidump has another build id, the first one, or none. The second one is
    /// that of the module.
    OtherBuild(PathBuf, Option<String>, String),
}

/// The files whose code a process had mapped, each once. Other mapped files, such as those with data
/// alone, aren't opened.
#[derive(Debug, Default)]
pub struct Files {
    files: Vec<MappedFile>,
    /// The index of each file in `files`, by its name.
    places: HashMap<Vec<u8>, usize>,
    /// The index in `files` of the file of each module that a minidump lists.
    listed: Vec<usize>,
    debug_files: DebugFiles,
}

impl Files {
    /// Opens the files that a core names and of which the process could execute a part. Their paths
    /// are looked up in the folder `root`, which is `/` for this machine's own files.
    pub fn read(core: &CoreFile<'_>, root: &Path) -> Self {
        Files::read_with(core, &Search::new(root))
    }

    /// The same, but files are looked for in other folders too. Those of a minidump's modules are also looked for where
    /// libraries and programs are installed; each has to have the module's build id, if the minidump has it.
    pub fn read_with(core: &CoreFile<'_>, search: &Search) -> Self {
        if let Some(modules) = core.listed() {
            return Files::of_modules(core, modules, search);
        }
        let mut files = Files::open(core, &search.root, |mapping| {
            let path = Path::new(OsStr::from_bytes(mapping.path));
            path_below_root(&search.root, path).and_then(|path| open_regular_file(&path))
        });
        if !search.folders.is_empty() || search.fetcher.is_on() {
            files.debug_files = debug_files_of(search);
            files.look_in(core, search);
        }
        files
    }

    /// Opens the files of the modules of a minidump.
    fn of_modules(core: &CoreFile<'_>, modules: &[Loaded<'_>], search: &Search) -> Self {
        let debug_files = debug_files_of(search);
        let mut files = Files { debug_files, ..Files::default() };
        let finder = Finder::new(search);
        let mut known = HashMap::new();
        for module in modules {
            let id = module.build_id.map(|id| id.bytes().to_vec());
            let place = *known.entry((&module.name, id.clone())).or_insert(files.files.len());
            files.listed.push(place);
            if place < files.files.len() {
                continue;
            }
            let is_vdso = module.is_vdso();
            let wanted = Wanted { name: &module.name, build_id: module.build_id, target: core.target(), is_vdso };
            let found = if is_vdso { find_vdso(&wanted, &finder) } else { finder.find(&wanted) };
            let own = path_below_root(&search.root, &module.name).ok();
            let elsewhere = found.as_ref().ok().map(|(path, _)| path).filter(|path| Some(*path) != own.as_ref());
            let path = elsewhere.unwrap_or(&module.name).clone();
            let bytes = found.map(|(_, bytes)| bytes);
            files.files.push(MappedFile { path, bytes, image: None, build_id: id, is_vdso });
        }
        files
    }

    /// Looks in the given folders for the files of a core that can't be used, and of which it has the build id.
    fn look_in(&mut self, core: &CoreFile<'_>, search: &Search) {
        let finder = Finder::new(search);
        for file in self.files.iter_mut().filter(|file| file.bytes.is_err()) {
            let id = file.build_id.clone();
            let build_id = id.as_deref().map(BuildId::Whole);
            let wanted = Wanted { name: &file.path, build_id, target: core.target(), is_vdso: file.is_vdso };
            match wanted.build_id.map(|_| finder.find(&wanted)) {
                Some(Ok((_, bytes))) => (file.bytes, file.image) = (Ok(bytes), None),
                // Who asks servers wants to know that one has sent another file.
                Some(Err(error @ FileError::OtherBuild(..))) if search.fetcher.is_on() => file.bytes = Err(error),
                _ => {}
            }
        }
    }

    /// Opens the files of which the process with this id, which runs, can execute a part. They are
    /// the mapped files themselves, even if they were deleted or replaced, as far as this program may
    /// open these; otherwise the files at their paths.
    pub fn of_live(core: &CoreFile<'_>, pid: u32) -> Self {
        let pid = crate::process::maps::thread_with_memory(pid);
        let folder = PathBuf::from(format!("/proc/{}", pid));
        let (root, program) = (folder.join("root"), folder.join("exe"));
        let own = program.read_link().unwrap_or_default();
        Files::open(core, &root, |mapping| {
            let mapped = folder.join(format!("map_files/{:x}-{:x}", mapping.begin, mapping.end));
            let path = Path::new(OsStr::from_bytes(mapping.path));
            let at_path = || path_below_root(&root, path).and_then(|path| open_regular_file(&path));
            open_regular_file(&mapped)
                .or_else(|error| if path == own { open_regular_file(&program) } else { Err(error) })
                .or_else(|_| at_path())
        })
    }

    fn open(core: &CoreFile<'_>, root: &Path, open: impl Fn(&Mapping<'_>) -> Result<Bytes, FileError>) -> Self {
        let has_code = |mapping: &&Mapping<'_>| !core.executable_in(&(mapping.begin..mapping.end)).is_empty();
        let mut starts = mappings_of_file_starts(core);
        let mut files = Files { debug_files: DebugFiles::new(root), ..Files::default() };
        for mapping in core.mappings().iter().filter(has_code) {
            if files.places.contains_key(mapping.path) {
                continue;
            }
            files.places.insert(mapping.path.to_vec(), files.files.len());
            let path = PathBuf::from(OsStr::from_bytes(mapping.path));
            let bytes = open(mapping);
            let starts = starts.remove(mapping.path).unwrap_or_default();
            let bytes = bytes.and_then(|bytes| require_mapped_file(core, &starts, bytes));
            let build_id =
                starts.iter().find_map(|start| build_id_in_bytes(core.bytes_from(start.begin)?).map(<[u8]>::to_vec));
            files.files.push(MappedFile { path, bytes, image: None, build_id, is_vdso: false });
        }
        files.take_images(core);
        files
    }

    /// Takes the bytes of files that can't be used from the core, all together not more than the core has.
    fn take_images(&mut self, core: &CoreFile<'_>) {
        if self.files.iter().all(|file| file.bytes.is_ok()) {
            return;
        }
        let (memory, starts) = (core.memory_in_core(), mappings_of_file_starts(core));
        let held: usize = memory.blocks().map(|block| block.bytes.len()).sum();
        let mut left = held.min(core.size());
        for file in self.files.iter_mut().filter(|file| file.bytes.is_err()) {
            let starts = starts.get(file.path.as_os_str().as_bytes()).map_or(&[][..], Vec::as_slice);
            let mut begins = starts.iter().map(|start| start.begin);
            file.image =
                begins.find_map(|begin| image_in_memory(&memory, begin, core.target(), &mut left)).map(Bytes::from);
        }
    }

    /// Uses `bytes` as the content of the program's file, for a program that isn't at its path in
    /// the core anymore. Returns false, and changes nothing, if `bytes` can't be what the process
    /// had mapped there: the segments have to be those that are mapped, and the first bytes have to
    /// be those in the core, if the core has them.
    ///
    /// Of a minidump, it is used as the content of the module that has its build id; if the minidump has no build id of
    /// its first module, which is the program in most of them, of that one.
    pub fn use_program(&mut self, core: &CoreFile<'_>, bytes: &Bytes) -> bool {
        if let Some(modules) = core.listed() {
            return self.use_module(core, modules, bytes);
        }
        let starts = |path: &[u8]| mappings_of_file_starts(core).remove(path).unwrap_or_default();
        let is_mapped = |path: &&[u8]| core.maps_segments(path, bytes) && is_mapped_file(core, &starts(path), bytes);
        let place = core.program_path().filter(is_mapped).and_then(|path| self.places.get(path));
        match place.and_then(|place| self.files.get_mut(*place)) {
            Some(file) => {
                file.bytes = Ok(bytes.clone());
                file.image = None;
                true
            }
            None => false,
        }
    }

    fn use_module(&mut self, core: &CoreFile<'_>, modules: &[Loaded<'_>], bytes: &Bytes) -> bool {
        let program = Program::read(bytes).ok().filter(|program| program.target() == core.target());
        let program = match program {
            Some(program) => program,
            None => return false,
        };
        let has_id = |module: &Loaded<'_>| match (module.build_id, program.build_id()) {
            (Some(wanted), Some(found)) => wanted.is_of(found),
            _ => false,
        };
        let is_first = modules.first().map_or(false, |module| module.build_id.is_none());
        let index = modules.iter().position(has_id).or(if is_first { Some(0) } else { None });
        let file = index.and_then(|index| self.files.get_mut(*self.listed.get(index)?));
        if let Some(file) = file {
            file.bytes = Ok(bytes.clone());
            return true;
        }
        false
    }

    /// The program's file: the one that is mapped at the address of the program's first
    /// instruction. `None` if the core doesn't have that address or names no file there.
    pub fn program(&self, core: &CoreFile<'_>) -> Option<&MappedFile> {
        if core.is_minidump() {
            return self.listed(0);
        }
        self.places.get(core.program_path()?).and_then(|place| self.files.get(*place))
    }

    /// The file of the module of a minidump with this index.
    pub(crate) fn listed(&self, index: usize) -> Option<&MappedFile> {
        self.files.get(*self.listed.get(index)?)
    }

    /// The index in [`all`](Self::all) of the same file, its path, and its bytes if they can be used.
    pub(super) fn module(&self, index: usize) -> Option<(usize, &Path, &[u8])> {
        let place = *self.listed.get(index)?;
        let file = self.files.get(place)?;
        Some((place, &file.path, file.bytes.as_deref().ok()?))
    }

    /// The separate files of debug information, which are opened when they are needed.
    pub(crate) fn debug_files(&self) -> &DebugFiles {
        &self.debug_files
    }

    /// All files, in the order in which the core first names them.
    pub fn all(&self) -> &[MappedFile] {
        &self.files
    }

    /// The index of a file in [`all`](Self::all), and its bytes. `None` if the core doesn't name
    /// the file, or if its bytes can't be used.
    pub(super) fn find(&self, path: &[u8]) -> Option<(usize, &[u8])> {
        let place = *self.places.get(path)?;
        let bytes = self.files.get(place)?.bytes.as_deref().ok()?;
        Some((place, bytes))
    }

    /// The same, but for a file that can't be used, the bytes of it that the core has.
    pub(super) fn find_image(&self, path: &[u8]) -> Option<(usize, &[u8])> {
        let place = *self.places.get(path)?;
        let file = self.files.get(place)?;
        let bytes = file.bytes.as_deref().ok().or(file.image.as_deref())?;
        Some((place, bytes))
    }
}

/// Where files of debug information are looked for.
fn debug_files_of(search: &Search) -> DebugFiles {
    DebugFiles::with_folders(&search.root, &search.folders).fetching(&search.fetcher)
}

/// Where a file that a core names is on this machine: the absolute path `/a/b` is `a/b` in the
/// folder `root`.
fn path_below_root(root: &Path, path: &Path) -> Result<PathBuf, FileError> {
    let inner = path.strip_prefix("/").map_err(|_| FileError::Name)?;
    let goes_down = inner.components().all(|part| matches!(part, Component::Normal(_)));
    if goes_down {
        Ok(root.join(inner))
    } else {
        Err(FileError::Name)
    }
}

/// Finds the vDSO of a minidump: in the given folders, or in the memory of this program, if it runs on the same kernel.
fn find_vdso(wanted: &Wanted<'_>, finder: &Finder<'_>) -> Result<(PathBuf, Bytes), FileError> {
    finder.find(wanted).or_else(|why| {
        let own = Process::read(std::process::id()).ok().and_then(|own| own.vdso());
        let is_same =
            |bytes: &[u8]| build_id_in_bytes(bytes).zip(wanted.build_id).map_or(false, |(own, id)| id.is_of(own));
        let own = own.map(|(_, bytes)| bytes).filter(|bytes| is_same(bytes));
        own.map(|bytes| (wanted.name.to_path_buf(), Bytes::from(bytes))).ok_or(why)
    })
}

/// Opens a regular file. Other files, such as devices and pipes, aren't opened.
pub(crate) fn open_regular_file(path: &Path) -> Result<Bytes, FileError> {
    if !path.metadata().map_err(FileError::Read)?.is_file() {
        return Err(FileError::NotRegular);
    }
    let file = File::open(path).map_err(FileError::Read)?;
    let size = file.metadata().map_err(FileError::Read)?.len();
    if size == 0 {
        return Err(FileError::NotRegular);
    }
    Bytes::of_file(&file, size).map_err(FileError::Read)
}

/// Returns the bytes of a file if the file still seems to be the one that was mapped.
fn require_mapped_file(core: &CoreFile<'_>, starts: &[&Mapping<'_>], bytes: Bytes) -> Result<Bytes, FileError> {
    if is_mapped_file(core, starts, &bytes) {
        Ok(bytes)
    } else {
        Err(FileError::Changed)
    }
}

/// Whether a file with these bytes still seems to be the one that was mapped. `starts` are the
/// mappings of its beginning. If the core has the beginning of an ELF file there, the file has to
/// begin with the same bytes, or to have the same build id: a process may change its code. Other files
/// aren't compared.
fn is_mapped_file(core: &CoreFile<'_>, starts: &[&Mapping<'_>], bytes: &[u8]) -> bool {
    starts.iter().all(|mapping| {
        let size = usize::try_from(mapping.end.saturating_sub(mapping.begin)).unwrap_or(COMPARED).min(COMPARED);
        let held = core.bytes_from(mapping.begin).unwrap_or(&[]);
        let held = held.get(..size).unwrap_or(held);
        let held = held.get(..bytes.len()).unwrap_or(held);
        let is_same = || {
            bytes.starts_with(held) || core.bytes_from(mapping.begin).map_or(false, |memory| has_same_id(memory, bytes))
        };
        !held.starts_with(b"\x7fELF") || is_same()
    })
}

/// The mappings of the beginning of each file, by its name, to which nothing is written. In a small
/// program the other segments are in the file's first page too. That page is then mapped again for
/// each of them, right after the mapping before it, and the data in it may have changed.
fn mappings_of_file_starts<'c>(core: &'c CoreFile<'_>) -> HashMap<&'c [u8], Vec<&'c Mapping<'c>>> {
    let ends: HashSet<(&[u8], u64)> = core.mappings().iter().map(|mapping| (mapping.path, mapping.end)).collect();
    let mut starts: HashMap<&[u8], Vec<&Mapping<'_>>> = HashMap::new();
    for mapping in core.mappings().iter().filter(|mapping| mapping.offset == 0) {
        if !ends.contains(&(mapping.path, mapping.begin)) {
            starts.entry(mapping.path).or_default().push(mapping);
        }
    }
    starts
}

impl fmt::Display for FileError {
    fn fmt(&self, f: &mut fmt::Formatter<'_>) -> fmt::Result {
        match self {
            FileError::Name => f.write_str("isn't the absolute path of a file"),
            FileError::Read(error) => write!(f, "can't be read: {}", error),
            FileError::NotRegular => f.write_str("isn't a regular file with bytes"),
            FileError::Changed => f.write_str("isn't the file that was mapped"),
            FileError::NotFound(id) => {
                id.as_ref().map_or(Ok(()), |id| write!(f, "build id {}: ", id))?;
                f.write_str("not found; --path FOLDER says where it may be")
            }
            FileError::OtherBuild(path, found, wanted) => {
                write!(f, "{} is another build: ", Escaped(&path.to_string_lossy()))?;
                match found {
                    Some(found) => write!(f, "its build id is {}, and that of the module {}", found, wanted),
                    None => write!(f, "it has no build id, and that of the module is {}", wanted),
                }
            }
        }
    }
}

impl std::error::Error for FileError {
    fn source(&self) -> Option<&(dyn std::error::Error + 'static)> {
        match self {
            FileError::Read(error) => Some(error),
            _ => None,
        }
    }
}
