//! Symbol files of Breakpad's in a store, for the modules of a process whose ELF files aren't there.
//!
//! A store has them as `NAME/ID/NAME.sym`. A file is used only if its id is that of the module's build id. An index may be
//! kept beside it, as `NAME.sym.index`; it is used if it belongs to the file as it is.

use crate::elf::debug_files::build_id_hex;
use crate::elf::mapped::Bytes;
use crate::process::core_file::{open_regular_file, CoreFile, Files, Loaded};
use dwcheck_symbols::{debug_id, Index, Stamp, SymbolFile};
use std::ffi::{OsStr, OsString};
use std::fs::{self, File, OpenOptions};
use std::io::{self, Write};
use std::os::unix::ffi::OsStrExt;
use std::os::unix::fs::MetadataExt;
use std::path::{Path, PathBuf};

/// The most folders of a store that are looked at for a module that has another name there.
const MOST_FOLDERS: usize = 1 << 16;

/// Where symbol files are looked for.
#[derive(Clone, Debug)]
pub struct SymbolStore {
    /// The folder of the store, or a single symbol file.
    pub path: PathBuf,
    /// Whether to keep an index beside each symbol file that has none.
    pub keeps_indexes: bool,
}

/// The symbol files that were found.
#[derive(Debug, Default)]
pub struct SymbolFiles {
    found: Vec<FoundFile>,
    problems: Vec<(PathBuf, String)>,
}

/// A module whose ELF file isn't there, with its symbol file.
#[derive(Debug)]
struct FoundFile {
    module: MissingModule,
    text: Bytes,
    index: Bytes,
    stamp: Stamp,
}

/// A module whose ELF file isn't there.
#[derive(Clone, Debug)]
struct MissingModule {
    path: PathBuf,
    build_id: Vec<u8>,
    /// The address at which the beginning of its file is, and the address after its last one.
    begin: u64,
    end: u64,
}

/// A module, and what its symbol file says.
#[derive(Debug)]
pub(crate) struct SymbolModule<'a> {
    /// Its path, or only a name.
    pub path: &'a Path,
    /// Its build id, in hex digits.
    pub build_id: String,
    /// The address at which the beginning of its file is.
    pub begin: u64,
    /// The address after its last one.
    pub end: u64,
    /// The symbol file.
    pub symbols: SymbolFile<'a>,
}

impl SymbolFiles {
    /// Looks in stores for the symbol files of the modules whose ELF files aren't there.
    pub fn find(core: &CoreFile<'_>, files: &Files, stores: &[SymbolStore]) -> Self {
        let mut all = SymbolFiles::default();
        for module in missing_modules(core, files) {
            if let Some((path, keeps_index)) = stores.iter().find_map(|store| store.find(&module)) {
                match FoundFile::open(module, &path, keeps_index, core, &mut all.problems) {
                    Ok(file) => all.found.push(file),
                    Err(why) => all.problems.push((path, why)),
                }
            }
        }
        all
    }

    /// The symbol files that can't be used, and the indexes that can't be kept; each with the reason.
    pub fn problems(&self) -> &[(PathBuf, String)] {
        &self.problems
    }

    /// The modules with symbol files, by their addresses.
    pub(crate) fn modules(&self) -> Vec<SymbolModule<'_>> {
        let mut modules: Vec<_> = self.found.iter().filter_map(FoundFile::module).collect();
        modules.sort_by_key(|module| module.begin);
        modules
    }
}

/// The modules whose ELF files aren't there, and whose build ids are known.
fn missing_modules(core: &CoreFile<'_>, files: &Files) -> Vec<MissingModule> {
    if let Some(listed) = core.listed() {
        let is_missing = |index: usize| files.listed(index).map_or(true, |file| file.bytes.is_err());
        let missing = listed.iter().enumerate().filter(|(index, module)| is_missing(*index) && !module.is_vdso());
        let missing = missing.filter_map(|(_, Loaded { name, begin, end, build_id })| {
            let build_id = build_id.as_ref()?.bytes().to_vec();
            Some(MissingModule { path: name.clone(), build_id, begin: *begin, end: *end })
        });
        return missing.collect();
    }
    let missing = files.all().iter().filter(|file| file.is_missed());
    let module = |file: &crate::process::core_file::MappedFile| {
        let name = file.path.as_os_str().as_bytes();
        let own = || core.mappings().iter().filter(|mapping| mapping.path == name);
        let begin = own().find(|mapping| mapping.offset == 0)?.begin;
        let end = own().map(|mapping| mapping.end).max()?;
        Some(MissingModule { path: file.path.clone(), build_id: file.build_id()?.to_vec(), begin, end })
    };
    missing.filter_map(module).collect()
}

impl SymbolStore {
    /// The symbol file of a module, and whether an index is to be kept beside it.
    fn find(&self, module: &MissingModule) -> Option<(PathBuf, bool)> {
        let id = debug_id(&module.build_id);
        if self.path.is_file() {
            let bytes = open_regular_file(&self.path).ok()?;
            let identity = SymbolFile::identity_of(&bytes).ok()?;
            return identity.is_of(&module.build_id).then(|| (self.path.clone(), self.keeps_indexes));
        }
        let name = module.path.file_name()?;
        let found = self.with_name(name, &id).or_else(|| self.with_id(&id))?;
        Some((found, self.keeps_indexes))
    }

    /// The file of a module that has this name in the store.
    fn with_name(&self, name: &OsStr, id: &str) -> Option<PathBuf> {
        let ids = [id.to_string(), id.to_ascii_lowercase()];
        let paths = ids.iter().map(|id| self.path.join(name).join(id).join(with_ending(name, ".sym")));
        paths.into_iter().find(|path| path.is_file())
    }

    /// The file of a module that has another name there: dumps may name libraries as they name themselves.
    fn with_id(&self, id: &str) -> Option<PathBuf> {
        let folders = self.path.read_dir().ok()?.flatten().take(MOST_FOLDERS);
        folders.filter_map(|folder| self.with_name(&folder.file_name(), id)).next()
    }
}

fn with_ending(name: &OsStr, ending: &str) -> OsString {
    let mut whole = name.to_os_string();
    whole.push(ending);
    whole
}

impl FoundFile {
    /// Opens a symbol file, with its index or after a pass over it.
    fn open(
        module: MissingModule,
        path: &Path,
        keeps_index: bool,
        core: &CoreFile<'_>,
        problems: &mut Vec<(PathBuf, String)>,
    ) -> Result<Self, String> {
        let text = open_regular_file(path).map_err(|error| error.to_string())?;
        let stamp = stamp_of(path).map_err(|error| error.to_string())?;
        let identity = SymbolFile::identity_of(&text).map_err(|error| error.to_string())?;
        if !identity.is_of(&module.build_id) {
            return Err(format!("is of another build: its id is {}", identity.id));
        }
        let index_path = PathBuf::from(with_ending(path.as_os_str(), ".index"));
        let kept = open_regular_file(&index_path).ok().filter(|kept| Index::kept(kept, &text, stamp).is_ok());
        let index = kept.unwrap_or_else(|| {
            let index = Index::of(&text, stamp);
            if keeps_index {
                let stored = store(&index_path, index.bytes());
                problems.extend(stored.err().map(|error| (index_path.clone(), format!("can't be kept: {}", error))));
            }
            Bytes::from(index.bytes().to_vec())
        });
        let file = FoundFile { module, text, index, stamp };
        let opened = file.module().ok_or("can't be read")?;
        if opened.symbols.architecture().map_or(true, |one| one.abi().machine != core.abi().machine) {
            return Err(format!("is of another machine: {}", opened.symbols.identity().machine));
        }
        match opened.symbols.index().unread_lines() {
            0 => {}
            count => problems.push((path.to_path_buf(), format!("{} lines can't be read", count))),
        }
        Ok(file)
    }

    fn module(&self) -> Option<SymbolModule<'_>> {
        let index = Index::kept(&self.index, &self.text, self.stamp).ok()?;
        let MissingModule { path, build_id, begin, end } = &self.module;
        Some(SymbolModule {
            path,
            build_id: build_id_hex(build_id),
            begin: *begin,
            end: *end,
            symbols: SymbolFile::with_index(&self.text, index).ok()?,
        })
    }
}

/// When a file was changed last.
fn stamp_of(path: &Path) -> io::Result<Stamp> {
    let file = File::open(path)?.metadata()?;
    Ok(Stamp((file.mtime() as u64).wrapping_mul(1_000_000_000).wrapping_add(file.mtime_nsec() as u64)))
}

/// Stores a file whole or not at all. Another program may do the same at the same time.
fn store(path: &Path, bytes: &[u8]) -> io::Result<()> {
    let partial = PathBuf::from(with_ending(path.as_os_str(), &format!(".{}.part", std::process::id())));
    let mut file = OpenOptions::new().write(true).create_new(true).open(&partial)?;
    let stored = file.write_all(bytes).and_then(|()| fs::rename(&partial, path));
    if stored.is_err() {
        let _ = fs::remove_file(&partial);
    }
    stored
}
