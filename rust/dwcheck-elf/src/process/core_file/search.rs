//! Finds the files of modules by their names and build ids.

use super::files::open_regular_file;
use super::in_memory::build_id_in_bytes;
use super::FileError;
use crate::elf::code_id::build_id_of_code;
use crate::elf::debug_files::build_id_hex;
use crate::elf::fetch::Fetcher;
use crate::elf::mapped::Bytes;
use crate::elf::program::Program;
use dwcheck_minidump::BuildId;
use dwcheck_types::target::Target;
use once_cell::unsync::OnceCell;
use std::collections::HashMap;
use std::ffi::{OsStr, OsString};
use std::io;
use std::path::{Component, Path, PathBuf};

/// The most files and folders in given folders that are looked at.
const MOST_ENTRIES: usize = 1 << 20;

/// The folders of a system with libraries and programs, and those in which files are named by build ids.
const LIBRARIES: [&str; 16] = [
    "usr/lib/x86_64-linux-gnu",
    "usr/lib/i386-linux-gnu",
    "usr/lib/aarch64-linux-gnu",
    "usr/lib64",
    "usr/lib",
    "usr/lib32",
    "usr/local/lib",
    "lib/x86_64-linux-gnu",
    "lib/i386-linux-gnu",
    "lib/aarch64-linux-gnu",
    "lib64",
    "lib",
    "lib32",
    "usr/bin",
    "usr/sbin",
    "usr/local/bin",
];
const BY_BUILD_ID: [&str; 2] = ["usr/lib/.build-id", "usr/lib/debug/.build-id"];

/// Where the files of a process are looked for.
#[derive(Clone, Debug)]
pub struct Search {
    /// The folder that stands for `/`.
    pub root: PathBuf,
    /// Folders with files of the process, which count before `root`: each file there and in the folders below, by its
    /// name or its build id.
    pub folders: Vec<PathBuf>,
    /// What fetches files that aren't in a folder, by their build ids.
    pub fetcher: Fetcher,
}

impl Search {
    /// Looks in the folder `root`, which stands for `/`, and nowhere else.
    pub fn new(root: &Path) -> Self {
        Search { root: root.to_path_buf(), folders: Vec::new(), fetcher: Fetcher::default() }
    }
}

/// A file that is looked for.
pub(super) struct Wanted<'w> {
    /// Its path, or only a name.
    pub name: &'w Path,
    /// Its build id. Without one, the name decides.
    pub build_id: Option<BuildId<'w>>,
    /// Its byte order and address size.
    pub target: Target,
    /// Whether it is the kernel's, which no server is asked for.
    pub is_vdso: bool,
}

/// Looks for files in folders, which are read when they are first needed.
pub(super) struct Finder<'s> {
    search: &'s Search,
    tree: OnceCell<Tree>,
}

/// The files in the given folders and below.
#[derive(Default)]
struct Tree {
    by_name: HashMap<OsString, Vec<PathBuf>>,
    by_id: OnceCell<HashMap<Vec<u8>, PathBuf>>,
}

impl<'s> Finder<'s> {
    /// Looks where `search` says.
    pub fn new(search: &'s Search) -> Self {
        Finder { search, tree: OnceCell::new() }
    }

    /// Finds a file, and returns its path and its bytes.
    ///
    /// # Errors
    ///
    /// If there is no such file; if there is one with its name but another build id, the error says so.
    pub fn find(&self, wanted: &Wanted<'_>) -> Result<(PathBuf, Bytes), FileError> {
        let (mut other, mut unread) = (None, None);
        let mut fits = |path: PathBuf| {
            let bytes = open_regular_file(&path).map_err(|error| keep_first_unread(&mut unread, error)).ok()?;
            match wanted.compare(&bytes)? {
                Ok(()) => Some((path, bytes)),
                Err(found) => {
                    other.get_or_insert((path, found));
                    None
                }
            }
        };
        let given = self.given(wanted).into_iter().find_map(&mut fits);
        let in_tree = || self.in_tree(wanted).into_iter().find_map(&mut fits);
        let found = given.or_else(in_tree).or_else(|| self.installed(wanted).into_iter().find_map(&mut fits));
        let found = found.or_else(|| self.fetched(wanted).and_then(&mut fits));
        found.ok_or_else(|| match (other, unread, wanted.build_id) {
            (Some((path, found)), _, Some(id)) => {
                FileError::OtherBuild(path, found.map(|id| build_id_hex(&id)), build_id_hex(id.bytes()))
            }
            (_, Some(unread), _) => unread,
            (_, _, id) => FileError::NotFound(id.map(|id| build_id_hex(id.bytes()))),
        })
    }

    /// Where the file may be in the given folders: at its path below one, by its name, or by its build id.
    fn given(&self, wanted: &Wanted<'_>) -> Vec<PathBuf> {
        let mut paths = Vec::new();
        for folder in &self.search.folders {
            paths.extend(path_inside_folder(wanted.name).map(|inner| folder.join(inner)));
            paths.extend(wanted.name.file_name().map(|name| folder.join(name)));
            paths.extend(
                wanted.by_id().into_iter().flat_map(|id| [folder.join(".build-id").join(&id), folder.join(id)]),
            );
        }
        paths
    }

    /// Where the file may be in the given folders and below: the files with its name, and the one with its build id.
    fn in_tree(&self, wanted: &Wanted<'_>) -> Vec<PathBuf> {
        if self.search.folders.is_empty() {
            return Vec::new();
        }
        let tree = self.tree.get_or_init(|| Tree::of(&self.search.folders));
        let named = wanted.name.file_name().and_then(|name| tree.by_name.get(name));
        let mut paths = named.cloned().unwrap_or_default();
        if let Some(BuildId::Whole(id)) = wanted.build_id {
            paths.extend(tree.with_id(id).cloned());
        }
        paths
    }

    /// Where the file may be installed: at its path, by its build id, and by its name in the folders of libraries and
    /// programs.
    fn installed(&self, wanted: &Wanted<'_>) -> Vec<PathBuf> {
        let root = &self.search.root;
        let at_path =
            path_inside_folder(wanted.name).filter(|_| wanted.name.is_absolute()).map(|inner| root.join(inner));
        let by_id = wanted.by_id().into_iter().flat_map(|id| BY_BUILD_ID.map(|folder| root.join(folder).join(&id)));
        let name = wanted.name.file_name().filter(|_| wanted.build_id.is_some());
        let named = name.into_iter().flat_map(|name| LIBRARIES.map(|folder| root.join(folder).join(name)));
        at_path.into_iter().chain(by_id).chain(named).collect()
    }
}

impl Finder<'_> {
    /// The file that a server has for the build id.
    fn fetched(&self, wanted: &Wanted<'_>) -> Option<PathBuf> {
        match wanted.build_id {
            Some(BuildId::Whole(id)) if !wanted.is_vdso => self.search.fetcher.executable(id),
            _ => None,
        }
    }
}

/// Keeps the first error of a file that is there but can't be read.
fn keep_first_unread(first: &mut Option<FileError>, error: FileError) {
    let is_there = matches!(&error, FileError::Read(why) if why.kind() != io::ErrorKind::NotFound);
    if is_there && first.is_none() {
        *first = Some(error);
    }
}

impl Wanted<'_> {
    /// Whether a file with these bytes is the one that is looked for. `None` if it isn't an ELF file for the process;
    /// an error with its build id if that is another one.
    fn compare(&self, bytes: &[u8]) -> Option<Result<(), Option<Vec<u8>>>> {
        let program = Program::read(bytes).ok().filter(|program| program.target() == self.target)?;
        let found = program.build_id().or_else(|| build_id_in_bytes(bytes));
        let wanted = match &self.build_id {
            Some(wanted) => wanted,
            None => return Some(Ok(())),
        };
        let is_same = match found {
            Some(found) => wanted.is_of(found),
            None => build_id_of_code(bytes).map_or(false, |id| wanted.is_of(&id)),
        };
        Some(if is_same { Ok(()) } else { Err(found.map(<[u8]>::to_vec)) })
    }

    /// The path of the file in a folder of build ids, such as `ab/cdef`.
    fn by_id(&self) -> Option<PathBuf> {
        let digits = match &self.build_id {
            Some(BuildId::Whole(id)) => build_id_hex(id),
            _ => return None,
        };
        let (first, rest) = (digits.get(..2)?, digits.get(2..).filter(|rest| !rest.is_empty())?);
        Some(Path::new(first).join(rest))
    }
}

impl Tree {
    /// The files in these folders and below. Links to folders aren't followed.
    fn of(folders: &[PathBuf]) -> Self {
        let mut tree = Tree::default();
        let mut left: Vec<PathBuf> = folders.iter().rev().cloned().collect();
        let mut seen = 0;
        while let Some(folder) = left.pop().filter(|_| seen < MOST_ENTRIES) {
            let mut entries: Vec<_> = folder.read_dir().into_iter().flatten().flatten().collect();
            entries.sort_by_key(|entry| entry.file_name());
            seen += entries.len();
            for entry in entries {
                match entry.file_type() {
                    Ok(kind) if kind.is_dir() => left.push(entry.path()),
                    Ok(_) => tree.by_name.entry(entry.file_name()).or_default().push(entry.path()),
                    Err(_) => {}
                }
            }
        }
        tree
    }

    /// The file with a build id.
    fn with_id(&self, id: &[u8]) -> Option<&PathBuf> {
        let by_id = self.by_id.get_or_init(|| {
            let mut all: Vec<_> = self.by_name.values().flatten().collect();
            all.sort_unstable();
            let read =
                |path: &PathBuf| Some((build_id_in_bytes(&open_regular_file(path).ok()?)?.to_vec(), path.clone()));
            all.into_iter().rev().filter_map(read).collect()
        });
        by_id.get(id)
    }
}

/// A path relative to the folder that stands for `/`. `None` if it would lead out of it.
fn path_inside_folder(path: &Path) -> Option<&Path> {
    let inner = path.strip_prefix("/").unwrap_or(path);
    let goes_down = inner.components().all(|part| matches!(part, Component::Normal(_)));
    Some(inner).filter(|inner| goes_down && *inner != OsStr::new(""))
}
