//! Finds the ELF files in folders, and the packages with such files, each once.

mod folders;

use self::folders::{entries_below, Entries, Found, Id, Kind};
use crate::packages::is_input_package;
use dwcheck_elf::mapped::Bytes;
use dwcheck_elf::other_file::OtherFile;
use dwcheck_elf::program::ProgramError;
use dwcheck_package::Package;
use dwcheck_store::{Digest, Listing, Place, SeenFile, Shard, Stamp, Stamps};
use rayon::prelude::*;
use std::collections::hash_map::RandomState;
use std::collections::{HashMap, HashSet};
use std::fs::File;
use std::hash::{BuildHasher, Hasher};
use std::io::{self, Read};
use std::path::{Path, PathBuf};
use std::time::SystemTime;

/// The most bytes that a file may have. A larger file isn't read, because some system files, such
/// as `/proc/kcore`, stand for all of memory.
pub const LARGEST: u64 = 4 << 30;

/// What an ELF file begins with.
const MAGIC: &[u8; 4] = b"\x7fELF";

/// Which files are taken, and what a store knows of them.
#[derive(Default)]
pub struct Selection {
    /// The part of the files that is taken. `None` for all.
    pub shard: Option<Shard>,
    /// The files that the store knows. `None` if there is no store.
    pub stamps: Option<Stamps>,
}

/// ELF files, and packages of Debian. No two have the same bytes.
#[derive(Debug, Default)]
pub struct Files {
    /// The files, in the order in which they were found.
    pub found: Vec<FoundFile>,
    /// The number of further ELF files, each with the same bytes as a file in `found`.
    pub repeated: usize,
    /// Files and folders that can't be read, and files that were named and aren't ELF files, and why.
    pub unread: Vec<(PathBuf, String)>,
    /// What a store has to know of them. Empty if there is no store.
    pub listing: Listing,
}

/// An ELF file, or a package with such files.
#[derive(Debug)]
pub struct FoundFile {
    /// Its path.
    pub path: PathBuf,
    /// The SHA-256 of its content, if there is a store and it is an ELF file that can be read.
    pub digest: Option<Digest>,
    /// Whether it is a package of Debian.
    pub is_package: bool,
    /// The contents in a package, as far as a store knows them.
    pub places: Option<Vec<Place>>,
    /// Its path from the root on, if there is a store.
    pub whole_path: PathBuf,
    /// What the file system said of it when it was found.
    pub stamp: Stamp,
}

/// A regular file with bytes, which may be an ELF file.
struct Candidate {
    path: PathBuf,
    size: u64,
    stamp: Stamp,
    /// Its path from the root on, as a store has it.
    whole_path: PathBuf,
}

/// What was found out about a candidate.
enum Looked {
    /// It is neither an ELF file nor a package.
    Other,
    /// One of them that isn't taken.
    OtherShard,
    /// One of them.
    Taken(Taken),
}

/// A file that is taken.
#[derive(Clone, Debug)]
enum Taken {
    /// An ELF file, with the SHA-256 of its content if there is a store.
    Elf(Option<Digest>),
    /// A package, with the contents in it, as far as a store knows them.
    Package(Option<Vec<Place>>),
}

/// Goes through folders, and visits each file and folder once. Symbolic links in folders aren't
/// followed.
#[derive(Default)]
struct Walk {
    found: Vec<Candidate>,
    seen: HashSet<Id>,
    /// What is in the folders that weren't gone through yet.
    entries: Entries,
    links: usize,
    unread: Vec<(PathBuf, String)>,
    /// Whether a store has to know the paths from the root on.
    has_store: bool,
    /// What was named, with its path from the root on.
    roots: Vec<PathBuf>,
    /// The same of what is walked now.
    named: PathBuf,
}

impl Files {
    /// The ELF files among `paths`, and those in the folders among `paths` and below. If several
    /// files have the same bytes, only the one that was found first is listed.
    pub fn once_each(paths: &[PathBuf], selection: &Selection) -> Self {
        let mut walk = Walk { has_store: selection.stamps.is_some(), ..Walk::default() };
        paths.iter().for_each(|path| walk.start(path));
        let Walk { found, links, unread, roots, .. } = walk;
        let read = SystemTime::now();
        let looked: Vec<_> = found.into_par_iter().map(|one| (selection.look(&one), one)).collect();
        let mut files = Files { unread, listing: Listing { roots, ..Listing::default() }, ..Files::default() };
        let mut taken = Vec::new();
        for (answer, candidate) in looked {
            match answer {
                Ok(Looked::Other) => {}
                Ok(Looked::OtherShard) => files.listing.all.push((candidate.whole_path, candidate.stamp)),
                Ok(Looked::Taken(one)) => taken.push((candidate, one)),
                Err(error) => files.unread.push((candidate.path, error.to_string())),
            }
        }
        if let Some(stamps) = &selection.stamps {
            files.list(&taken, stamps, read);
        }
        let count = taken.len();
        files.found = first_of_each(taken);
        files.repeated = links + count - files.found.len();
        files
    }

    /// Lists the files for a store: all of them, and the ELF files that it doesn't know. A package is noted when it was
    /// read.
    fn list(&mut self, taken: &[(Candidate, Taken)], stamps: &Stamps, read: SystemTime) {
        for (Candidate { whole_path, stamp, size, .. }, one) in taken {
            self.listing.all.push((whole_path.clone(), *stamp));
            let digest = if let Taken::Elf(digest) = one { *digest } else { None };
            if let Some(digest) = digest.filter(|_| stamps.places(whole_path, stamp).is_none()) {
                let place = Place { member: String::new(), digest, bytes: *size };
                let (path, stamp) = (whole_path.clone(), *stamp);
                self.listing.read.push(SeenFile { path, stamp, read, package: None, places: vec![place] });
            }
        }
    }
}

/// The first file with each content. Without digests, files of the same size are compared by another hash.
fn first_of_each(taken: Vec<(Candidate, Taken)>) -> Vec<FoundFile> {
    let marks = content_hashes(&taken);
    let (mut seen, mut seen_digests) = (HashSet::new(), HashSet::new());
    let mut is_first = |(one, taken): &(Candidate, Taken), mark: Option<u128>| match (taken, mark) {
        (Taken::Elf(Some(digest)), _) => seen_digests.insert(*digest),
        (_, Some(mark)) => seen.insert((one.size, mark)),
        (_, None) => true,
    };
    let first = taken.into_iter().zip(marks).filter_map(|(one, mark)| is_first(&one, mark).then(|| one));
    first.map(|(one, taken)| FoundFile::of(one, taken)).collect()
}

impl FoundFile {
    fn of(candidate: Candidate, taken: Taken) -> Self {
        let Candidate { path, stamp, whole_path, .. } = candidate;
        let (digest, is_package, places) = match taken {
            Taken::Elf(digest) => (digest, false, None),
            Taken::Package(places) => (None, true, places),
        };
        FoundFile { path, digest, is_package, places, whole_path, stamp }
    }

    /// Whether the file is still what it was when it was found.
    pub fn is_unchanged(&self) -> bool {
        self.path.metadata().map_or(false, |metadata| Stamp::of(&metadata) == self.stamp)
    }
}

impl Selection {
    /// Whether a candidate is taken. If there is a store, the content of an ELF file is hashed, unless the store knows the
    /// file.
    fn look(&self, one: &Candidate) -> io::Result<Looked> {
        let known = self.stamps.as_ref().and_then(|stamps| stamps.places(&one.whole_path, &one.stamp));
        let taken = match known {
            Some([Place { member, digest, .. }]) if member.is_empty() => Taken::Elf(Some(*digest)),
            Some(places) => Taken::Package(Some(places.to_vec())),
            None => match kind_of_file(&first_bytes(&one.path)?) {
                Some(FileKind::Elf) => Taken::Elf(None),
                Some(FileKind::Package) if is_input_package(&one.path) => Taken::Package(None),
                _ => return Ok(Looked::Other),
            },
        };
        if let Some(shard) = self.shard {
            if !shard.has(File::open(&one.path)?, one.size)? {
                return Ok(Looked::OtherShard);
            }
        }
        Ok(Looked::Taken(match taken {
            // If the file can't be read, that is reported later.
            Taken::Elf(None) if self.stamps.is_some() => {
                Taken::Elf(File::open(&one.path).and_then(Digest::of_reader).ok())
            }
            taken => taken,
        }))
    }
}

/// A kind of file that is taken.
#[derive(Clone, Copy, Debug, PartialEq, Eq)]
enum FileKind {
    Elf,
    Package,
}

/// The kind of a file that begins with these bytes.
fn kind_of_file(start: &[u8]) -> Option<FileKind> {
    let of_package = Package::MAGIC.get(..OtherFile::STARTS).unwrap_or(Package::MAGIC);
    let kinds = [(&MAGIC[..], FileKind::Elf), (of_package, FileKind::Package)];
    kinds.into_iter().find(|(magic, _)| start.starts_with(magic)).map(|(_, kind)| kind)
}

impl Walk {
    /// Adds a file or a folder that the user named. Follows it if it is a symbolic link. Of what is in folders only the
    /// ELF files matter, but a file that was named is one that the user wants to know of.
    fn start(&mut self, path: &Path) {
        if self.has_store {
            self.named = path.to_path_buf();
            self.roots.push(path.canonicalize().unwrap_or_else(|_| path.to_path_buf()));
        }
        let found = path.metadata().map(|metadata| Found::of(&metadata));
        match found.and_then(|found| Ok((why_not_elf(path, found.kind)?, found))) {
            Ok((None, found)) => {
                if found.kind == Kind::Folder && !self.seen.contains(&found.id) {
                    self.entries = entries_below(path, found.id);
                }
                self.add(path.to_path_buf(), &found);
            }
            Ok((Some(why), _)) => self.unread.push((path.to_path_buf(), why)),
            Err(error) => self.unread.push((path.to_path_buf(), error.to_string())),
        }
    }

    fn add(&mut self, path: PathBuf, found: &Found) {
        let is_file = found.kind == Kind::File;
        if found.kind == Kind::Other || is_file && found.size == 0 {
            return;
        }
        if !self.seen.insert(found.id) {
            self.links += usize::from(is_file && is_elf_file(&path).unwrap_or(false));
        } else if is_file {
            let whole_path = self.whole_path(&path);
            self.found.push(Candidate { path, size: found.size, stamp: found.stamp, whole_path });
        } else {
            self.folder(&path, found.id);
        }
    }

    /// The path from the root on of a file in what is walked. Nothing if there is no store.
    fn whole_path(&self, path: &Path) -> PathBuf {
        let below = path.strip_prefix(&self.named).unwrap_or(path);
        match self.roots.last() {
            None => PathBuf::new(),
            Some(root) if below.as_os_str().is_empty() => root.clone(),
            Some(root) => root.join(below),
        }
    }

    /// Goes through a folder and the folders below it, in order of names.
    fn folder(&mut self, path: &Path, id: Id) {
        let entries = match self.entries.remove(&id) {
            Some(Ok(entries)) => entries,
            Some(Err(error)) => return self.unread.push((path.to_path_buf(), error.to_string())),
            None => return,
        };
        for entry in entries {
            let path = path.join(&entry.name);
            match entry.found {
                Ok(found) => self.add(path, &found),
                Err(error) => self.unread.push((path, error.to_string())),
            }
        }
    }
}

fn is_elf_file(path: &Path) -> io::Result<bool> {
    Ok(first_bytes(path)?.starts_with(MAGIC))
}

/// Why a file that was named isn't an ELF file. `None` if it is one, or a folder.
fn why_not_elf(path: &Path, kind: Kind) -> io::Result<Option<String>> {
    match kind {
        Kind::Folder => return Ok(None),
        Kind::Other => return Ok(Some("neither a regular file nor a folder".to_string())),
        Kind::File => {}
    }
    let start = first_bytes(path)?;
    if kind_of_file(&start).is_some() {
        return Ok(None);
    }
    Ok(Some(ProgramError::NotElf(OtherFile::of(&start)).to_string()))
}

/// The first bytes of a file, by which its kind is known.
fn first_bytes(path: &Path) -> io::Result<Vec<u8>> {
    let mut start = Vec::with_capacity(OtherFile::STARTS);
    File::open(path)?.take(OtherFile::STARTS as u64).read_to_end(&mut start)?;
    Ok(start)
}

/// For each file, a 128-bit hash of its bytes, or `None` if no other file has the same size, if the
/// file can't be read, or if it has a digest. Two files with different bytes have the same hash with a probability of about
/// 2^-128.
fn content_hashes(files: &[(Candidate, Taken)]) -> Vec<Option<u128>> {
    let mut sizes: HashMap<u64, usize> = HashMap::new();
    files.iter().for_each(|(file, _)| *sizes.entry(file.size).or_insert(0) += 1);
    let keys = (RandomState::new(), RandomState::new());
    let mark = |(file, taken): &(Candidate, Taken)| {
        let repeats = !matches!(taken, Taken::Elf(Some(_))) && sizes.get(&file.size).map_or(false, |count| *count > 1);
        // If the file can't be read, that is reported later, when it is checked.
        if repeats {
            hash_of_content(&file.path, &keys).ok()
        } else {
            None
        }
    };
    files.par_iter().map(mark).collect()
}

fn hash_of_content(path: &Path, keys: &(RandomState, RandomState)) -> io::Result<u128> {
    let mut file = File::open(path)?;
    let (mut one, mut other) = (keys.0.build_hasher(), keys.1.build_hasher());
    let mut bytes = vec![0; 1 << 16];
    loop {
        match file.read(&mut bytes)? {
            0 => return Ok(u128::from(one.finish()) << 64 | u128::from(other.finish())),
            count => {
                one.write(&bytes[..count]);
                other.write(&bytes[..count]);
            }
        }
    }
}

/// The bytes of a file of at most [`LARGEST`] bytes, which is mapped.
pub fn map_file(path: &Path) -> io::Result<Bytes> {
    let size = path.metadata()?.len();
    if size > LARGEST {
        return Err(io::Error::new(io::ErrorKind::Other, format!("it has {} bytes", size)));
    }
    Bytes::of_elf(path)
}
