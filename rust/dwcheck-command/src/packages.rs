//! Packages of Debian among the files of a run: the ELF files in each are asked as others are. The package NAME-dbgsym
//! beside a package NAME is used for names.

use crate::end::Failure;
use crate::files::{FoundFile, LARGEST};
use crate::inquiry::{question, unread, Answered, Inputs, Inquiry, Subject};
use crate::output::temporary_file;
use dwcheck_elf::mapped::Bytes;
use dwcheck_elf::program::Program;
use dwcheck_elf::text::Escaped;
use dwcheck_package::{Control, Member, Package, PackageError};
use dwcheck_store::{Digest, Place, SeenFile};
use std::collections::HashMap;
use std::fs::File;
use std::io::{self, BufWriter, Read, Write};
use std::path::{Path, PathBuf};
use std::time::SystemTime;

/// What an ELF file begins with.
const MAGIC: &[u8; 4] = b"\x7fELF";

/// How many ELF files of a package are read.
const MOST: usize = 1 << 16;

/// A file with more bytes is unpacked to disk.
const IN_MEMORY: u64 = 16 << 20;

/// How many separate files of debug information of a package are used, and how many bytes of them. They are all on disk
/// at once.
const MOST_DEBUG_FILES: usize = 1 << 14;
const MOST_DEBUG_BYTES: usize = 16 << 30;

/// Why a package isn't read on.
enum Stop {
    /// The package can't be read.
    Package(PackageError),
    /// The run ends.
    Run(Failure),
}

impl From<PackageError> for Stop {
    fn from(error: PackageError) -> Self {
        Stop::Package(error)
    }
}

impl From<Failure> for Stop {
    fn from(failure: Failure) -> Self {
        Stop::Run(failure)
    }
}

/// The package with the debug information of another one.
struct DebugPackage {
    path: PathBuf,
    digest: Digest,
}

/// Separate files of debug information, by their build ids.
type DebugFiles = HashMap<Vec<u8>, Bytes>;

/// What was found in a package so far.
#[derive(Default)]
struct Unpacked {
    answered: Vec<Answered>,
    places: Vec<Place>,
}

/// Whether a package in a folder is taken: its name ends as those of packages do, and it isn't used for the names of
/// another one.
pub fn is_input_package(path: &Path) -> bool {
    let name = path.file_name().map(|name| name.to_string_lossy().into_owned()).unwrap_or_default();
    let of = name.contains("-dbgsym_").then(|| path.with_file_name(name.replacen("-dbgsym_", "_", 1)));
    name.ends_with(".deb") && !of.map_or(false, |of| of.is_file())
}

impl DebugPackage {
    /// The one beside a package, if it is there and can be read.
    fn beside(package: &Path) -> Option<DebugPackage> {
        let (name, rest) = package.file_name()?.to_str()?.split_once('_')?;
        let path = package.with_file_name(format!("{}-dbgsym_{}", name, rest));
        let digest = File::open(&path).and_then(Digest::of_reader).ok()?;
        Some(DebugPackage { path, digest })
    }

    /// The files in it, as far as it can be read.
    fn files(&self) -> DebugFiles {
        let (mut files, mut size) = (DebugFiles::new(), 0);
        let opened = File::open(&self.path).map_err(PackageError::Read).and_then(Package::open);
        let _: Result<(), Stop> = opened.map_err(Stop::Package).and_then(|package| {
            package.each_file(|member| {
                let bytes = unpack_elf(member, 0)?;
                size += bytes.as_ref().map_or(0, |bytes| bytes.len());
                let bytes = bytes.filter(|_| files.len() < MOST_DEBUG_FILES && size < MOST_DEBUG_BYTES);
                let id = bytes.as_ref().and_then(|bytes| Some(Program::read(bytes).ok()?.build_id()?.to_vec()));
                files.extend(id.zip(bytes));
                Ok(())
            })
        });
        files
    }
}

impl Inputs {
    /// The answers of the ELF files in a package, in the order of their paths. If it can't be read to its end, the last
    /// answer says so.
    pub fn ask_package(&self, inquiry: &impl Inquiry, file: &FoundFile) -> Result<Vec<Answered>, Failure> {
        let debug = DebugPackage::beside(&file.path);
        let names = debug.as_ref().map(|debug| debug.digest);
        if let Some(kept) = self.kept_package(inquiry, file, names)? {
            return Ok(kept);
        }
        let read = SystemTime::now();
        let mut unpacked = Unpacked::default();
        let error = match File::open(&file.path).map_err(PackageError::Read).and_then(Package::open) {
            Err(error) => Some(error),
            Ok(package) => {
                let files = debug.as_ref().map(DebugPackage::files).unwrap_or_default();
                let each = |member: Member<'_>| self.ask_member(inquiry, file, member, (&files, names), &mut unpacked);
                match package.each_file(each) {
                    Ok(()) => {
                        self.note_package(file, package.control(), read, &unpacked)?;
                        None
                    }
                    Err(Stop::Package(error)) => Some(error),
                    Err(Stop::Run(failure)) => return Err(failure),
                }
            }
        };
        let mut answered = unpacked.answered;
        answered.sort_by(|one, other| one.path.cmp(&other.path));
        let unread = |error: PackageError| unread(error.to_string());
        answered.extend(error.map(|error| Answered { path: file.path.clone(), digest: None, answer: unread(error) }));
        Ok(answered)
    }

    /// The answers of a package that a store has, if it has all of them.
    fn kept_package(
        &self,
        inquiry: &impl Inquiry,
        file: &FoundFile,
        names: Option<Digest>,
    ) -> Result<Option<Vec<Answered>>, Failure> {
        let (store, places) = match (&self.store, &file.places) {
            (Some(store), Some(places)) if !inquiry.looks_beside() => (store, places),
            _ => return Ok(None),
        };
        let question = question(inquiry, Vec::new(), names);
        let each = places.iter().map(|place| {
            let answer = store.answer(place.digest, &question)?;
            let path = file.path.join(&place.member);
            Ok(answer.map(|answer| Answered { path, digest: Some(place.digest), answer }))
        });
        let kept = each.collect::<Result<Option<Vec<_>>, Failure>>()?;
        Ok(kept.map(|mut kept| {
            kept.sort_by(|one, other| one.path.cmp(&other.path));
            kept
        }))
    }

    /// Asks a file of a package, if it is an ELF file.
    fn ask_member(
        &self,
        inquiry: &impl Inquiry,
        file: &FoundFile,
        member: Member<'_>,
        (files, names): (&DebugFiles, Option<Digest>),
        unpacked: &mut Unpacked,
    ) -> Result<(), Stop> {
        let (member_path, leads_out, size) = (member.path.clone(), member.leads_out, member.size);
        let path = file.path.join(&member_path);
        let bytes = match unpack_elf(member, IN_MEMORY)? {
            None => return Ok(()),
            Some(_) if unpacked.answered.len() == MOST => return Err(PackageError::Members(MOST as u64).into()),
            Some(bytes) => bytes,
        };
        let refused = match (leads_out, size > LARGEST) {
            (false, false) => None,
            (true, _) => Some(format!("{}: the path leads out of the package", Escaped(&member_path))),
            (false, true) => Some(format!("{}: it has {} bytes", Escaped(&member_path), size)),
        };
        if let Some(why) = refused {
            unpacked.answered.push(Answered { path: file.path.clone(), digest: None, answer: unread(why) });
            return Ok(());
        }
        let digest = Digest::of(&bytes);
        let id = Program::read(&bytes).ok().and_then(|program| program.build_id().map(<[u8]>::to_vec));
        let separate = id.and_then(|id| files.get(&id));
        let subject = Subject { path: &path, data: &bytes, names: separate.map(|bytes| &bytes[..]), is_member: true };
        let answer = self.ask_content(inquiry, &subject, Some(digest), names, || true)?;
        unpacked.places.push(Place { member: member_path, digest, bytes: bytes.len() as u64 });
        unpacked.answered.push(Answered { path, digest: Some(digest), answer });
        Ok(())
    }

    /// Notes in the store what is in a package, if that was read whole.
    fn note_package(
        &self,
        file: &FoundFile,
        control: &Control,
        read: SystemTime,
        unpacked: &Unpacked,
    ) -> Result<(), Failure> {
        let is_whole = unpacked.places.len() == unpacked.answered.len() && file.is_unchanged();
        let store = match self.store.as_ref().filter(|_| is_whole) {
            Some(store) => store,
            None => return Ok(()),
        };
        let Control { name, version, architecture, source } = control.clone();
        store.note_file(&SeenFile {
            path: file.whole_path.clone(),
            stamp: file.stamp,
            read,
            package: Some(dwcheck_store::Package { name, version, architecture, source }),
            places: unpacked.places.clone(),
        })
    }
}

/// The bytes of a file of a package, if it is an ELF file. Of one that claims more than a file may have, only the first
/// ones. One with more than `in_memory` bytes is unpacked to disk.
fn unpack_elf(member: Member<'_>, in_memory: u64) -> Result<Option<Bytes>, Stop> {
    let size = member.size;
    let of_package = |error| Stop::Package(PackageError::Read(error));
    let mut start = Vec::new();
    member.bytes.take(MAGIC.len() as u64).read_to_end(&mut start).map_err(of_package)?;
    if start != MAGIC {
        return Ok(None);
    }
    let mut bytes = start.chain(member.bytes);
    if size > LARGEST {
        return Ok(Some(Bytes::from(MAGIC.to_vec())));
    }
    if size <= in_memory {
        let mut held = Vec::new();
        bytes.read_to_end(&mut held).map_err(of_package)?;
        return Ok(Some(Bytes::from(held)));
    }
    let mut file = BufWriter::new(temporary_file()?);
    let count = io::copy(&mut bytes, &mut file).map_err(of_package)?;
    file.flush().map_err(of_package)?;
    Bytes::of_file(file.get_ref(), count).map(Some).map_err(of_package)
}
