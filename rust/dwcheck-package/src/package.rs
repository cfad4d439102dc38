//! A package that is open.

use crate::archive::{parts, Part};
use crate::compression::unpacked;
use crate::control::Control;
use crate::error::PackageError;
use crate::members::{each_member, Member};
use std::fs::File;
use std::io::{self, Read, Seek, SeekFrom};

/// How many bytes are unpacked of the description, and of its file `control`.
const MOST_CONTROL: u64 = 64 << 20;
const LONGEST_CONTROL: u64 = 1 << 20;

/// How many bytes are unpacked of the files. What is after them isn't read.
const MOST_DATA: u64 = 64 << 30;

/// A package that is open.
#[derive(Debug)]
pub struct Package {
    file: File,
    control: Control,
    data: Part,
}

/// How the look for the file `control` ends.
enum Search {
    Found(Vec<u8>),
    Failed(PackageError),
}

impl From<PackageError> for Search {
    fn from(error: PackageError) -> Self {
        Search::Failed(error)
    }
}

impl Package {
    /// What the file of a package begins with.
    pub const MAGIC: &'static [u8] = b"!<arch>\ndebian-binary";

    /// Opens a package, and reads its description.
    ///
    /// # Errors
    ///
    /// If the file isn't a package that can be read.
    pub fn open(file: File) -> Result<Package, PackageError> {
        let parts = parts(&file)?;
        let part = |start: &'static str| {
            parts.iter().find(|part| part.name.starts_with(start)).cloned().ok_or(PackageError::Missing(start))
        };
        let (described, data) = (part("control.tar")?, part("data.tar")?);
        let reader = reader(&file, &described)?.take(MOST_CONTROL);
        let control = Control::read(&read_control(reader)?)?;
        Ok(Package { file, control, data })
    }

    /// What the package says of itself.
    pub fn control(&self) -> &Control {
        &self.control
    }

    /// Calls `each` with the regular files in the package, in their order. What it doesn't read is passed over.
    ///
    /// # Errors
    ///
    /// If the package can't be read to its end, and those of `each`.
    pub fn each_file<E: From<PackageError>>(&self, each: impl FnMut(Member<'_>) -> Result<(), E>) -> Result<(), E> {
        each_member(reader(&self.file, &self.data)?.take(MOST_DATA), each)
    }
}

/// The bytes of a part, decompressed.
fn reader<'f>(mut file: &'f File, part: &Part) -> Result<Box<dyn Read + 'f>, PackageError> {
    file.seek(SeekFrom::Start(part.offset))?;
    unpacked(&part.name, io::BufReader::new(file.take(part.size)))
}

/// The text of the file `control`.
fn read_control(archive: impl Read) -> Result<String, PackageError> {
    let found = each_member(archive, |member: Member<'_>| {
        if member.path != "control" {
            return Ok(());
        }
        let mut text = Vec::new();
        member.bytes.take(LONGEST_CONTROL).read_to_end(&mut text).map_err(PackageError::Read)?;
        Err(Search::Found(text))
    });
    match found {
        Err(Search::Found(text)) => Ok(String::from_utf8_lossy(&text).into_owned()),
        Err(Search::Failed(error)) => Err(error),
        Ok(()) => Err(PackageError::Missing("control")),
    }
}
