//! What is in folders. All folders of a level are read at once, since to ask the file system takes most of the time of a
//! run over files that a store knows.

use dwcheck_store::Stamp;
use rayon::prelude::*;
use std::collections::HashMap;
use std::ffi::OsString;
use std::fs::Metadata;
use std::io;
use std::os::unix::fs::MetadataExt;
use std::path::{Path, PathBuf};

/// A file or a folder, by the device and the inode that the file system gives it.
pub type Id = (u64, u64);

/// The entries of folders.
pub type Entries = HashMap<Id, io::Result<Vec<Entry>>>;

/// An entry of a folder.
pub struct Entry {
    /// Its name.
    pub name: OsString,
    /// What it is. An error if the file system doesn't say.
    pub found: io::Result<Found>,
}

/// What the file system says of a file or a folder.
#[derive(Clone, Copy)]
pub struct Found {
    /// Which one it is.
    pub id: Id,
    /// What it is.
    pub kind: Kind,
    /// How many bytes it has.
    pub size: u64,
    /// By what a store knows it again.
    pub stamp: Stamp,
}

/// What can be found in a folder.
#[derive(Clone, Copy, PartialEq, Eq)]
pub enum Kind {
    /// A regular file.
    File,
    /// A folder.
    Folder,
    /// Anything else, such as a symbolic link.
    Other,
}

impl Found {
    /// What the file system says.
    pub fn of(metadata: &Metadata) -> Found {
        let kind = match metadata {
            file if file.is_file() => Kind::File,
            folder if folder.is_dir() => Kind::Folder,
            _ => Kind::Other,
        };
        Found { id: (metadata.dev(), metadata.ino()), kind, size: metadata.len(), stamp: Stamp::of(metadata) }
    }
}

/// The entries of a folder and of all folders below it, each in order of names.
pub fn entries_below(root: &Path, id: Id) -> Entries {
    let mut entries = Entries::new();
    let mut level = vec![(id, root.to_path_buf())];
    while !level.is_empty() {
        let read: Vec<_> = level.par_iter().map(|(_, path)| entries_of(path)).collect();
        let mut next = Vec::new();
        for ((id, path), list) in level.into_iter().zip(read) {
            next.extend(list.iter().flatten().filter_map(|entry| entry.folder_in(&path)));
            entries.insert(id, list);
        }
        next.retain(|(id, _)| !entries.contains_key(id));
        level = next;
    }
    entries
}

impl Entry {
    /// Which folder it is, and its path. `None` if it isn't a folder.
    fn folder_in(&self, path: &Path) -> Option<(Id, PathBuf)> {
        let found = self.found.as_ref().ok().filter(|found| found.kind == Kind::Folder)?;
        Some((found.id, path.join(&self.name)))
    }
}

fn entries_of(path: &Path) -> io::Result<Vec<Entry>> {
    let listed = path.read_dir()?.collect::<io::Result<Vec<_>>>()?;
    let entry =
        |one: std::fs::DirEntry| Entry { name: one.file_name(), found: one.metadata().map(|of| Found::of(&of)) };
    let mut entries: Vec<_> = listed.into_iter().map(entry).collect();
    entries.sort_by(|one, other| one.name.cmp(&other.name));
    Ok(entries)
}
