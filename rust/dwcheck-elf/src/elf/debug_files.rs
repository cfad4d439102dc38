//! Finds separate files of debug information: by build id in `/usr/lib/debug/.build-id`, or by the
//! section `.gnu_debuglink`.

use crate::elf::compressed::SectionBytes;
use crate::elf::escaped::Escaped;
use crate::elf::fetch::Fetcher;
use crate::elf::mapped::Bytes;
use crate::elf::program::Program;
use std::borrow::Cow;
use std::ffi::{OsStr, OsString};
use std::fmt;
use std::fs::File;
use std::io;
use std::os::unix::ffi::OsStrExt;
use std::path::{Component, Path, PathBuf};
use typed_arena::Arena;

/// The folder in which separate files of debug information are installed.
const FOLDER: &str = "usr/lib/debug";

/// The separate files of debug information that were opened, and what was decompressed of them.
pub struct DebugFiles {
    /// The folder that stands for `/`.
    root: PathBuf,
    /// Folders that count before it.
    folders: Vec<PathBuf>,
    /// What fetches files that aren't in the folders.
    fetcher: Fetcher,
    files: Arena<Bytes>,
    unpacked: Arena<Vec<u8>>,
}

/// The file that has what several files of debug information share isn't there. It should have this name.
#[derive(Clone, Debug, PartialEq, Eq)]
pub struct NotShared(PathBuf);

/// Why a file of debug information that was found isn't used.
#[derive(Clone, Debug, PartialEq, Eq)]
pub enum NotUsed {
    /// It can't be read.
    Unreadable(String),
    /// Its build id is the first one, that of the program is the second one.
    BuildId(Vec<u8>, Vec<u8>),
    /// Its checksum isn't the one in `.gnu_debuglink`.
    Checksum,
}

impl DebugFiles {
    /// Looks for files in the folder `root`, which stands for `/`.
    pub fn new(root: &Path) -> Self {
        DebugFiles::with_folders(root, &[])
    }

    /// Looks in these folders first: by build id, as in `.build-id` or without it, and by the name in `.gnu_debuglink`.
    pub(crate) fn with_folders(root: &Path, folders: &[PathBuf]) -> Self {
        let (root, folders) = (root.to_path_buf(), folders.to_vec());
        DebugFiles { root, folders, fetcher: Fetcher::default(), files: Arena::new(), unpacked: Arena::new() }
    }

    /// Also fetches files that aren't in a folder.
    pub fn fetching(self, fetcher: &Fetcher) -> Self {
        DebugFiles { fetcher: fetcher.clone(), ..self }
    }

    /// Looks in the same folders, and keeps none of the files that were opened.
    pub(crate) fn emptied(&self) -> Self {
        DebugFiles { fetcher: self.fetcher.clone(), ..DebugFiles::with_folders(&self.root, &self.folders) }
    }

    /// Where the bytes of sections that are decompressed are kept.
    pub fn unpacked(&self) -> &Arena<Vec<u8>> {
        &self.unpacked
    }

    /// Keeps the bytes of a section.
    pub(crate) fn keep<'f>(&'f self, bytes: SectionBytes<'f>) -> &'f [u8] {
        match bytes {
            SectionBytes::Held(Cow::Borrowed(bytes)) => bytes,
            SectionBytes::Held(Cow::Owned(bytes)) => self.unpacked.alloc(bytes),
            SectionBytes::InFile(bytes) => self.files.alloc(bytes),
        }
    }

    /// The file of debug information of a program whose file is `path`. `None` if there is none. If
    /// the file that has its name can't be used, the error has its path and the reason.
    pub fn of(&self, path: &Path, program: &Program<'_>) -> Result<Option<&Bytes>, (PathBuf, NotUsed)> {
        Ok(self.find(path, program)?.map(|(_, bytes)| bytes))
    }

    /// The same file, with its path.
    pub fn find(&self, path: &Path, program: &Program<'_>) -> Result<Option<(PathBuf, &Bytes)>, (PathBuf, NotUsed)> {
        if let Some(id) = program.build_id() {
            let given = self.folders.iter().flat_map(|folder| [folder.join(".build-id"), folder.clone()]);
            for folder in given.chain([self.root.join(FOLDER).join(".build-id")]) {
                let file = folder.join(name_by_build_id(id));
                if let Some(bytes) = self.open(&file)? {
                    return check_build_id(file, bytes, id);
                }
            }
        }
        let linked = match program.debug_link() {
            Some((name, checksum)) => self.linked(path, program, (name, checksum)),
            None => Ok(None),
        };
        match (linked, program.build_id()) {
            (Ok(None), Some(id)) if !program.has_section(".debug_info") => self.fetched(id),
            (linked, _) => linked,
        }
    }

    /// The file that a server has for a build id.
    fn fetched(&self, id: &[u8]) -> Result<Option<(PathBuf, &Bytes)>, (PathBuf, NotUsed)> {
        let file = match self.fetcher.debug_info(id) {
            Some(file) => file,
            None => return Ok(None),
        };
        match self.open(&file)? {
            Some(bytes) => check_whole_build_id(file, bytes, id),
            None => Ok(None),
        }
    }

    /// The file that `.gnu_debuglink` names: in the program's folder, in `.debug` there, or in the
    /// folder of debug information.
    fn linked(
        &self,
        path: &Path,
        program: &Program<'_>,
        (name, checksum): (&[u8], u32),
    ) -> Result<Option<(PathBuf, &Bytes)>, (PathBuf, NotUsed)> {
        let name = Path::new(OsStr::from_bytes(name));
        let is_plain =
            name.components().count() == 1 && name.components().all(|part| matches!(part, Component::Normal(_)));
        let folder = path.parent().and_then(|folder| folder.strip_prefix("/").ok());
        let folder = match folder.filter(|_| is_plain) {
            Some(folder) => folder,
            None => return Ok(None),
        };
        let inner = self.root.join(folder);
        // A file that has the name may be another one, such as the program itself.
        let mut unfit = None;
        let given = self.folders.iter().map(|folder| folder.join(name));
        let usual = [inner.join(name), inner.join(".debug").join(name), self.root.join(FOLDER).join(folder).join(name)];
        for file in given.chain(usual) {
            let found = match self.open(&file) {
                Ok(None) => continue,
                Ok(Some(bytes)) if crc32fast::hash(bytes) != checksum => Err((file, NotUsed::Checksum)),
                Ok(Some(bytes)) => check_build_id(file, bytes, program.build_id().unwrap_or(&[])),
                Err(why) => Err(why),
            };
            match found {
                Ok(found) => return Ok(found),
                Err(why) => unfit = unfit.or(Some(why)),
            }
        }
        unfit.map_or(Ok(None), Err)
    }

    /// The file that `.gnu_debugaltlink` of the file `path` names, which has what several such files share: by its
    /// build id, or by its path, which may be relative to the folder of `path`. If it isn't there, the error says so.
    pub fn shared(&self, path: &Path, program: &Program<'_>) -> Result<Option<&Bytes>, NotShared> {
        let (name, id) = match program.debug_alt_link() {
            Some(found) => found,
            None => return Ok(None),
        };
        let name = Path::new(OsStr::from_bytes(name));
        let by_id = self.root.join(FOLDER).join(".build-id").join(name_by_build_id(id));
        let has_id = |bytes: &&Bytes| Program::read(bytes).map_or(false, |program| program.build_id() == Some(id));
        let mut found = std::iter::once(by_id).chain(self.named_by(path, name));
        let found = found.find_map(|file| self.open(&file).ok().flatten().filter(has_id));
        found.map(Some).ok_or_else(|| NotShared(name.to_path_buf()))
    }

    /// The files that may have the debug information of units of a program whose file is `path` (`NAME.dwp`): next to
    /// it, and in the folder of debug information by its path, its name or its build id.
    pub(crate) fn packages(&self, path: &Path, program: &Program<'_>) -> Vec<(PathBuf, &Bytes)> {
        let (folder, name) = match (path.parent().and_then(|folder| folder.strip_prefix("/").ok()), path.file_name()) {
            (Some(folder), Some(name)) => (folder, package_name(name)),
            _ => return Vec::new(),
        };
        let (inner, central) = (self.root.join(folder), self.root.join(FOLDER));
        let by_name = [inner.join(&name), inner.join(".debug").join(&name), central.join(folder).join(&name)];
        let by_id =
            program.build_id().map(|id| central.join(".build-id").join(name_by_build_id(id)).with_extension("dwp"));
        let all = by_name.into_iter().chain([central.join(&name)]).chain(by_id);
        all.filter_map(|file| Some((file.clone(), self.open(&file).ok()??))).collect()
    }

    /// Where a file may be that the file `path` names.
    fn named_by(&self, path: &Path, name: &Path) -> Vec<PathBuf> {
        let whole = path.canonicalize().ok();
        let near = [Some(path), whole.as_deref()].into_iter().flatten().filter_map(Path::parent);
        let inside = |path: PathBuf| path.strip_prefix(&self.root).map_or_else(|_| path.clone(), Path::to_path_buf);
        near.map(|folder| self.root.join(without_parent_folders(&inside(folder.join(name))))).collect()
    }

    /// The file at an absolute path. `None` if it isn't there, or can't be read.
    pub(crate) fn at(&self, path: &Path) -> Option<&Bytes> {
        let inner = path.strip_prefix("/").ok()?;
        let goes_down = inner.components().all(|part| matches!(part, Component::Normal(_)));
        if goes_down {
            self.open(&self.root.join(inner)).ok()?
        } else {
            None
        }
    }

    /// Opens a regular file. `None` if it isn't there.
    fn open(&self, path: &Path) -> Result<Option<&Bytes>, (PathBuf, NotUsed)> {
        let read = || -> io::Result<Option<Bytes>> {
            if !path.metadata()?.is_file() {
                return Ok(None);
            }
            let file = File::open(path)?;
            let size = file.metadata()?.len();
            Bytes::of_file(&file, size).map(Some)
        };
        match read() {
            Ok(bytes) => Ok(bytes.map(|bytes| &*self.files.alloc(bytes))),
            Err(error) if error.kind() == io::ErrorKind::NotFound => Ok(None),
            Err(error) => Err((path.to_path_buf(), NotUsed::Unreadable(error.to_string()))),
        }
    }
}

/// A path without `..`, relative to the folder that stands for `/`.
fn without_parent_folders(path: &Path) -> PathBuf {
    let mut straight = PathBuf::new();
    for part in path.components() {
        match part {
            Component::Normal(part) => straight.push(part),
            Component::ParentDir => {
                straight.pop();
            }
            _ => {}
        }
    }
    straight
}

/// The name of the package of a program.
fn package_name(program: &OsStr) -> OsString {
    let mut name = program.to_os_string();
    name.push(".dwp");
    name
}

/// The name of a file by its build id, such as `3f/2ab01c.debug`.
fn name_by_build_id(id: &[u8]) -> String {
    let digits = build_id_hex(id);
    let (first, rest) = digits.split_at(digits.len().min(2));
    format!("{}/{}.debug", first, rest)
}

/// A build id in hex digits.
pub(crate) fn build_id_hex(id: &[u8]) -> String {
    id.iter().map(|byte| format!("{:02x}", byte)).collect()
}

/// Returns a file if it has this build id, or none.
fn check_build_id<'b>(
    file: PathBuf,
    bytes: &'b Bytes,
    id: &[u8],
) -> Result<Option<(PathBuf, &'b Bytes)>, (PathBuf, NotUsed)> {
    match require_build_id(bytes, id) {
        Ok(bytes) => Ok(Some((file, bytes))),
        Err(why) => Err((file, why)),
    }
}

/// Returns a file if it has this build id.
fn check_whole_build_id<'b>(
    file: PathBuf,
    bytes: &'b Bytes,
    id: &[u8],
) -> Result<Option<(PathBuf, &'b Bytes)>, (PathBuf, NotUsed)> {
    match Program::read(bytes).map(|program| program.build_id().unwrap_or_default().to_vec()) {
        Ok(own) if own == id => Ok(Some((file, bytes))),
        Ok(own) => Err((file, NotUsed::BuildId(own, id.to_vec()))),
        Err(error) => Err((file, NotUsed::Unreadable(error.to_string()))),
    }
}

/// Returns the bytes of a file if it has this build id, or none.
fn require_build_id<'b>(bytes: &'b Bytes, id: &[u8]) -> Result<&'b Bytes, NotUsed> {
    let program = Program::read(bytes).map_err(|error| NotUsed::Unreadable(error.to_string()))?;
    match program.build_id() {
        Some(other) if other != id && !id.is_empty() => Err(NotUsed::BuildId(other.to_vec(), id.to_vec())),
        _ => Ok(bytes),
    }
}

impl Default for DebugFiles {
    fn default() -> Self {
        DebugFiles::new(Path::new("/"))
    }
}

impl fmt::Debug for DebugFiles {
    fn fmt(&self, f: &mut fmt::Formatter<'_>) -> fmt::Result {
        f.debug_struct("DebugFiles").field("root", &self.root).finish_non_exhaustive()
    }
}

impl fmt::Display for NotShared {
    fn fmt(&self, f: &mut fmt::Formatter<'_>) -> fmt::Result {
        let name = self.0.to_string_lossy();
        write!(f, "the file with debug information that it shares, {}, isn't there", Escaped(&name))
    }
}

impl std::error::Error for NotShared {}

impl std::error::Error for NotUsed {}

impl fmt::Display for NotUsed {
    fn fmt(&self, f: &mut fmt::Formatter<'_>) -> fmt::Result {
        match self {
            NotUsed::Unreadable(error) => write!(f, "can't be read: {}", error),
            NotUsed::BuildId(own, program) => {
                write!(
                    f,
                    "not used: its build id is {}, that of the program is {}",
                    build_id_hex(own),
                    build_id_hex(program)
                )
            }
            NotUsed::Checksum => f.write_str("not used: its checksum isn't the one in .gnu_debuglink"),
        }
    }
}
