//! The regular files in an archive of `tar`.

use crate::error::PackageError;
use std::io::{self, Read};
use tar::{Archive, Entry, EntryType};

/// How many members an archive may have.
const MOST: u64 = 1 << 22;

/// How many bytes are read of a path, or of a list of attributes in which a path may be.
const LONGEST: u64 = 1 << 16;

/// A regular file in a package.
pub struct Member<'a> {
    /// Its path, without the `./` at the beginning.
    pub path: String,
    /// Whether the path leads out of the package, by `..`. No file of a package that dpkg made has such a path.
    pub leads_out: bool,
    /// How many bytes it claims to have.
    pub size: u64,
    /// Its bytes: as many as it claims, or fewer.
    pub bytes: &'a mut dyn Read,
}

/// Calls `each` with the regular files of an archive, in their order. Links and devices are passed over.
///
/// The crate `tar` would read paths of any length into memory, so those in members of their own are read here.
pub(crate) fn each_member<E: From<PackageError>>(
    archive: impl Read,
    mut each: impl FnMut(Member<'_>) -> Result<(), E>,
) -> Result<(), E> {
    let mut archive = Archive::new(archive);
    let entries = archive.entries().map_err(PackageError::Read)?.raw(true);
    let mut long_path = None;
    for (number, entry) in (0..).zip(entries) {
        let mut entry = entry.map_err(PackageError::Read)?;
        if number >= MOST {
            return Err(PackageError::Members(MOST).into());
        }
        match entry.header().entry_type() {
            EntryType::GNULongName => long_path = Some(read_long_path(&mut entry).map_err(PackageError::Read)?),
            EntryType::XHeader => long_path = read_attributes(&mut entry).map_err(PackageError::Read)?.or(long_path),
            EntryType::GNULongLink | EntryType::XGlobalHeader => {}
            EntryType::Regular | EntryType::Continuous => {
                let own = entry.path_bytes().into_owned();
                let path = String::from_utf8_lossy(&long_path.take().unwrap_or(own)).into_owned();
                let size = entry.header().entry_size().map_err(PackageError::Read)?;
                each(member(path, size, &mut entry))?;
            }
            _ => long_path = None,
        }
    }
    Ok(())
}

fn member(path: String, size: u64, bytes: &mut dyn Read) -> Member<'_> {
    let path = path.trim_start_matches("./").trim_start_matches('/').to_string();
    Member { leads_out: path.split('/').any(|part| part == ".."), path, size, bytes }
}

/// The path that the next member has, which ends at the first zero.
fn read_long_path(entry: &mut Entry<'_, impl Read>) -> io::Result<Vec<u8>> {
    let mut path = Vec::new();
    entry.take(LONGEST).read_to_end(&mut path)?;
    let end = path.iter().position(|byte| *byte == 0).unwrap_or(path.len());
    path.truncate(end);
    Ok(path)
}

/// The path in a list of attributes of the next member (pax(1)): lines `LENGTH path=PATH`.
fn read_attributes(entry: &mut Entry<'_, impl Read>) -> io::Result<Option<Vec<u8>>> {
    let mut bytes = Vec::new();
    entry.take(LONGEST).read_to_end(&mut bytes)?;
    let mut lines = bytes.split(|byte| *byte == b'\n');
    let path = lines.find_map(|line| {
        let begin = line.iter().position(|byte| *byte == b' ')? + 1;
        line.get(begin..)?.strip_prefix(b"path=")
    });
    Ok(path.map(<[u8]>::to_vec))
}
