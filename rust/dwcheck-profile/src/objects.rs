//! The files whose code samples pass, and other code that has an owner: the kernel, the vDSO, and code that a compiler
//! made at run time; where each is looked for.

use super::error::Error;
use super::jitdump::{is_jitdump_path, Dump};
use super::made_code::MadeCode;
use super::recording::{BuildId, Features, Mapped};
use super::space::Mapping;
use super::tables::Tables;
use dwcheck_elf::fetch::Fetcher;
use dwcheck_elf::internal::without_row::{address_of_sigpanic, SignalReturn};
use dwcheck_elf::internal::SectionTable;
use dwcheck_elf::mapped::Bytes;
use dwcheck_elf::program::{Program, Segment};
use dwcheck_types::abi::{abi, Abi};
use dwcheck_types::target::Target;
use once_cell::sync::OnceCell;
use std::collections::HashMap;
use std::ffi::OsStr;
use std::fs::File;
use std::ops::Range;
use std::os::unix::ffi::OsStrExt;
use std::path::{Component, Path, PathBuf};
use std::sync::Arc;

/// The index of an object.
pub(super) type ObjectId = u32;

/// What an object is.
#[derive(Clone, Copy, Debug, PartialEq, Eq, Hash)]
pub enum Kind {
    /// A file, or the vDSO.
    File,
    /// The kernel and its modules.
    Kernel,
    /// Memory of this process that is no file's: code that was made at run time.
    Memory(u32),
    /// A file of this process that is in memory only (`memfd_create`), so that nobody can read it later.
    MemoryFile(u32),
}

/// Code that has an owner.
#[derive(Debug)]
pub struct Object {
    /// Its name: the path of a file, or what perf writes for it.
    pub name: String,
    /// What it is.
    pub kind: Kind,
    /// The name as the recording has it.
    recorded: Vec<u8>,
    build_id: Option<BuildId>,
    loaded: OnceCell<Loaded>,
}

/// What is known of an object's file, or of code that was made at run time.
#[derive(Debug, Default)]
pub(super) struct Loaded {
    pub bytes: Option<Bytes>,
    pub machine: Option<(Target, &'static Abi)>,
    /// The segments that may be executed. `None` for code that is in no file, whose tables have its addresses.
    code: Option<Vec<Segment>>,
    /// The tables of the frame sections, `.debug_frame` first. None if the machine isn't known.
    pub tables: Tables,
    /// The addresses of signal frames, as linked: those that tables mark, and those of Go's `sigpanic`.
    signals: Vec<Range<u64>>,
    /// What isn't used of the file, and why.
    pub problems: Vec<String>,
}

impl Loaded {
    /// The address as linked of the byte at an address of a mapping. `None` if it isn't code, or if it is code of no
    /// file that no table covers.
    pub fn linked(&self, mapping: &Mapping, address: u64) -> Option<u64> {
        let code = match &self.code {
            Some(code) => code,
            None => return Some(address).filter(|address| self.tables.covers(*address)),
        };
        let offset = mapping.file_offset(address);
        let has = |segment: &&Segment| offset.checked_sub(segment.offset).map_or(false, |at| at < segment.file_size);
        let segment = code.iter().find(has)?;
        Some(offset.wrapping_sub(segment.offset).wrapping_add(segment.address))
    }

    /// The offset in the file of the code at an address as linked.
    pub fn offset_of(&self, linked: u64) -> Option<u64> {
        let past = |segment: &Segment| linked.checked_sub(segment.address).filter(|past| *past < segment.file_size);
        self.code.as_ref()?.iter().find_map(|segment| Some(segment.offset.wrapping_add(past(segment)?)))
    }

    /// The bytes of the file from the code at an address as linked on.
    pub fn code_at(&self, linked: u64) -> Option<&[u8]> {
        self.bytes.as_ref()?.get(usize::try_from(self.offset_of(linked)?).ok()?..)
    }

    /// Whether the frames of code at an address as linked are signal frames, whose callers were interrupted.
    pub fn is_signal_frame(&self, address: u64) -> bool {
        self.signals.iter().any(|range| range.contains(&address))
    }

    /// Whether signal handlers return to the kernel by the code at an offset of the file.
    pub fn is_signal_return(&self, offset: u64) -> bool {
        let code = usize::try_from(offset).ok().and_then(|offset| self.bytes.as_ref()?.get(offset..));
        let found = self.machine.zip(code).and_then(|((_, abi), code)| SignalReturn::of(abi.machine, code));
        found.is_some()
    }

    fn of(bytes: Bytes) -> Loaded {
        let mut loaded = Loaded::default();
        match Program::read(&bytes) {
            Ok(program) => {
                let target = program.target();
                loaded.machine = abi(program.machine(), target.address_size).map(|abi| (target, abi));
                let segments = program.segments().into_iter();
                loaded.code = Some(segments.filter(|segment| segment.is_executable).collect());
                let (sections, problems) = SectionTable::all(&program);
                loaded.signals = sections.iter().flat_map(|section| section.signal_frames()).collect();
                let sigpanic =
                    address_of_sigpanic(&program).and_then(|begin| sections.iter().find_map(|one| one.find(begin)));
                loaded.signals.extend(sigpanic.map(|piece| piece.range));
                loaded.problems = problems;
                if sections.is_empty() && loaded.problems.is_empty() {
                    loaded.problems.push("has no unwind table".into());
                }
                if loaded.machine.is_some() {
                    loaded.tables = Tables::of(sections.into_iter().map(SectionTable::into_owned).collect());
                }
            }
            Err(error) => return Loaded { bytes: Some(bytes), ..Loaded::problem(error.to_string()) },
        }
        loaded.bytes = Some(bytes);
        loaded
    }

    /// The code that a process has listed in a file.
    fn of_dump(path: &Path) -> Loaded {
        match Dump::open(path) {
            Some(dump) => {
                let made = MadeCode::of(dump, MOST_MADE);
                let abi = abi(made.machine, made.target.address_size);
                let tables = Tables::of_ranges(made.tables, made.ranges);
                Loaded { machine: abi.map(|abi| (made.target, abi)), tables, ..Loaded::default() }
            }
            None => Loaded::default(),
        }
    }

    fn problem(problem: String) -> Loaded {
        Loaded { problems: vec![problem], code: Some(Vec::new()), ..Loaded::default() }
    }
}

/// Where files are looked for.
#[derive(Clone, Debug)]
pub struct SearchPaths {
    /// The folder that stands for `/`.
    pub root: PathBuf,
    /// perf's cache of files by build id, such as `~/.debug`.
    pub cache: Option<PathBuf>,
    /// What fetches files that aren't in a folder, by their build ids.
    pub fetcher: Fetcher,
}

impl Default for SearchPaths {
    fn default() -> Self {
        let home = std::env::var_os("HOME").filter(|home| !home.is_empty());
        let cache = home.map(|home| Path::new(&home).join(".debug"));
        SearchPaths { root: PathBuf::from("/"), cache, fetcher: Fetcher::default() }
    }
}

impl SearchPaths {
    /// A file of perf's cache: what the program, the vDSO or the kernel with this build id had.
    pub(super) fn cached(&self, id: &BuildId, name: &str) -> Option<PathBuf> {
        let digits: String = id.bytes().iter().map(|byte| format!("{:02x}", byte)).collect();
        let (first, rest) = digits.split_at(digits.len().min(2));
        let folder = self.cache.as_ref()?.join(".build-id").join(first).join(rest);
        Some(folder.join(name)).filter(|path| path.is_file())
    }

    /// Where a file with this name is. `None` if it isn't the absolute path of a file.
    fn inside(&self, name: &[u8]) -> Option<PathBuf> {
        let path = Path::new(OsStr::from_bytes(name)).strip_prefix("/").ok()?;
        path.components().all(|part| matches!(part, Component::Normal(_))).then(|| self.root.join(path))
    }
}

/// All objects of a recording.
#[derive(Debug, Default)]
pub(super) struct Objects {
    all: Vec<Arc<Object>>,
    files: HashMap<(Vec<u8>, Option<BuildId>), ObjectId>,
    /// The memory of processes, by its names.
    memory: HashMap<(u32, Vec<u8>), ObjectId>,
    /// For each process what stands for code that it hasn't mapped.
    unmapped: HashMap<u32, ObjectId>,
    kernel: Option<ObjectId>,
    /// The files in which processes list code that they have made.
    dumps: HashMap<u32, PathBuf>,
    search_paths: SearchPaths,
}

/// The most bytes of unwind tables of code that a process has made.
const MOST_MADE: usize = 256 << 20;

/// What the kernel adds to the name of a file that was deleted.
const DELETED: &[u8] = b" (deleted)";

/// The name of the vDSO.
const VDSO: &[u8] = b"[vdso]";

impl Objects {
    pub fn new(search_paths: SearchPaths) -> Self {
        Objects { search_paths, ..Objects::default() }
    }

    pub fn all(&self) -> &[Arc<Object>] {
        &self.all
    }

    pub fn search_paths(&self) -> &SearchPaths {
        &self.search_paths
    }

    /// The files in which processes list code that they have made.
    pub fn into_dumps(self) -> HashMap<u32, PathBuf> {
        self.dumps
    }

    fn add(&mut self, name: &[u8], kind: Kind, build_id: Option<BuildId>) -> ObjectId {
        let id = self.all.len() as ObjectId;
        self.all.push(Arc::new(Object {
            name: String::from_utf8_lossy(name).into_owned(),
            kind,
            recorded: name.to_vec(),
            build_id,
            loaded: OnceCell::new(),
        }));
        id
    }

    /// The kernel.
    pub fn kernel(&mut self) -> ObjectId {
        match self.kernel {
            Some(id) => id,
            None => {
                let id = self.add(b"[kernel.kallsyms]", Kind::Kernel, None);
                *self.kernel.insert(id)
            }
        }
    }

    /// What stands for code at addresses that a process hasn't mapped.
    pub fn unmapped(&mut self, pid: u32) -> ObjectId {
        if let Some(id) = self.unmapped.get(&pid) {
            return *id;
        }
        let id = self.add(b"[unknown]", Kind::Memory(pid), None);
        self.unmapped.insert(pid, id);
        id
    }

    /// Memory of a process that is no file's, which has this name.
    fn memory(&mut self, pid: u32, name: &[u8]) -> ObjectId {
        let (name, kind) = match is_anonymous_memory(name) {
            true => (format!("/tmp/perf-{}.map", pid).into_bytes(), Kind::Memory(pid)),
            false if name.starts_with(MEMORY_FILE) => (name.to_vec(), Kind::MemoryFile(pid)),
            false => (name.to_vec(), Kind::Memory(pid)),
        };
        let key = (pid, name);
        if let Some(id) = self.memory.get(&key) {
            return *id;
        }
        let id = self.add(&key.1, kind, None);
        self.memory.insert(key, id);
        id
    }

    /// The kernel, if it was asked for before.
    pub fn of_kernel(&self) -> Option<ObjectId> {
        self.kernel
    }

    /// What stands for code that a process hasn't mapped, if it was asked for before.
    pub fn of_unmapped(&self, pid: u32) -> Option<ObjectId> {
        self.unmapped.get(&pid).copied()
    }

    /// What a process mapped.
    pub fn mapped(&mut self, mapped: &Mapped<'_>, features: &Features) -> ObjectId {
        if is_jitdump_path(mapped.name) {
            self.dumps.extend(self.search_paths.inside(mapped.name).map(|path| (mapped.pid, path)));
        }
        let is_memory = is_anonymous_memory(mapped.name) || mapped.name.starts_with(MEMORY_FILE);
        let is_file = mapped.name == VDSO || self.search_paths.inside(mapped.name).is_some() && !is_memory;
        if !is_file {
            return self.memory(mapped.pid, mapped.name);
        }
        let build_id = mapped.build_id.clone().or_else(|| features.build_id(mapped.name).cloned());
        let key = (mapped.name.to_vec(), build_id.clone());
        if let Some(id) = self.files.get(&key) {
            return *id;
        }
        let id = self.add(mapped.name, Kind::File, build_id);
        self.files.insert(key, id);
        id
    }

    /// The object with this index.
    pub fn get(&self, id: ObjectId) -> Option<&Arc<Object>> {
        self.all.get(id as usize)
    }

    /// What is known of the file of an object, or of the file in which its process lists code that it has made. It is
    /// opened when this is first asked.
    pub fn loaded(&self, id: ObjectId) -> Option<&Loaded> {
        let object = self.get(id)?;
        match object.kind {
            Kind::File => Some(object.loaded.get_or_init(|| object.open(&self.search_paths))),
            Kind::Memory(pid) | Kind::MemoryFile(pid) => {
                let dump = self.dumps.get(&pid)?;
                Some(object.loaded.get_or_init(|| Loaded::of_dump(dump)))
            }
            Kind::Kernel => None,
        }
    }
}

/// How the kernel names a file that is in memory only.
const MEMORY_FILE: &[u8] = b"/memfd:";

/// Whether the name is one that the kernel gives to memory without a name of its own. perf shows such memory by the
/// name of the file in which the process may list its code.
fn is_anonymous_memory(name: &[u8]) -> bool {
    const NAMES: [&[u8]; 6] = [b"//", b"/dev/zero", b"/anon_hugepage", b"/SYSV", b"[heap]", b"[stack"];
    name.is_empty() || NAMES.into_iter().any(|begin| name.starts_with(begin))
}

impl Object {
    /// The build id that was recorded. `None` if none was.
    pub fn build_id(&self) -> Option<&BuildId> {
        self.build_id.as_ref()
    }

    /// What is known of the file, if it was opened.
    pub(super) fn opened(&self) -> Option<&Loaded> {
        self.loaded.get()
    }

    fn open(&self, search_paths: &SearchPaths) -> Loaded {
        if self.recorded == VDSO {
            return self.open_vdso(search_paths);
        }
        let name = self.recorded.strip_suffix(DELETED).unwrap_or(&self.recorded);
        let same = |path: PathBuf| map_regular_file(&path).ok().filter(|bytes| self.is_same(bytes));
        let kept = || {
            let id = self.build_id.as_ref()?;
            let cached = search_paths.cached(id, "elf").and_then(same);
            cached.or_else(|| search_paths.fetcher.executable(id.bytes()).and_then(same))
        };
        match map_regular_file(&search_paths.inside(name).unwrap_or_default()) {
            Ok(bytes) if self.is_same(&bytes) => Loaded::of(bytes),
            other => match (kept(), other) {
                (Some(bytes), _) => Loaded::of(bytes),
                (None, Ok(_)) => Loaded::problem("isn't the file that was recorded: its build id is another".into()),
                (None, Err(why)) => Loaded::problem(why.to_string()),
            },
        }
    }

    /// The vDSO: that of perf's cache, or that of this program, which is the same if the kernel is.
    fn open_vdso(&self, search_paths: &SearchPaths) -> Loaded {
        let cached = self.build_id.as_ref().and_then(|id| search_paths.cached(id, "vdso"));
        let cached = cached.and_then(|path| map_regular_file(&path).ok());
        let bytes = cached.or_else(own_vdso).filter(|bytes| self.is_same(bytes));
        match bytes {
            Some(bytes) => Loaded::of(bytes),
            None => Loaded::problem("no vDSO with its build id is there".into()),
        }
    }

    /// Whether a file has the build id that was recorded, or none was.
    fn is_same(&self, bytes: &Bytes) -> bool {
        let own = Program::read(bytes).ok().and_then(|program| program.build_id().map(<[u8]>::to_vec));
        match (&self.build_id, own) {
            (Some(recorded), Some(own)) => BuildId::of(&own).as_ref() == Some(recorded),
            (None, _) => true,
            (Some(_), None) => false,
        }
    }
}

/// The bytes of a regular file.
fn map_regular_file(path: &Path) -> Result<Bytes, Error> {
    let metadata = path.metadata().map_err(Error::Read)?;
    if !metadata.is_file() {
        return Err(Error::NotRegular);
    }
    let file = File::open(path).map_err(Error::Read)?;
    Bytes::of_file(&file, metadata.len()).map_err(Error::Read)
}

/// The vDSO of this program.
fn own_vdso() -> Option<Bytes> {
    use std::os::unix::fs::FileExt;
    let maps = dwcheck_elf::internal::Process::read(std::process::id()).ok()?.maps;
    let map = maps.into_iter().find(|map| map.path == VDSO)?;
    let mut bytes = vec![0; usize::try_from(map.end.checked_sub(map.begin)?).ok()?];
    File::open("/proc/self/mem").ok()?.read_exact_at(&mut bytes, map.begin).ok()?;
    Some(Bytes::from(bytes))
}
