//! The archive of `ar` that a package is (deb(5)): a head of 60 bytes before each part. Names have at most 16 bytes.
//!
//! The crate `ar` isn't used: of version 0.9, an archive that names a part by a table of names which it lacks makes it
//! panic, and one that claims a table of gigabytes makes it allocate these.

use crate::error::{invalid, PackageError};
use std::io::{Read, Seek, SeekFrom};

/// What an archive begins with.
const MAGIC: &[u8] = b"!<arch>\n";

/// How many parts are looked at. A package has three.
const MOST: usize = 64;

/// A part of the archive.
#[derive(Clone, Debug, PartialEq, Eq)]
pub(crate) struct Part {
    /// Its name, such as `data.tar.xz`.
    pub name: String,
    /// Where its bytes begin.
    pub offset: u64,
    /// How many it claims to have.
    pub size: u64,
}

/// The parts of an archive. Those after the first ones of [`MOST`] are passed over.
pub(crate) fn parts(mut archive: impl Read + Seek) -> Result<Vec<Part>, PackageError> {
    let mut magic = [0; 8];
    archive.read_exact(&mut magic)?;
    if magic != MAGIC {
        return Err(invalid("it isn't an archive").into());
    }
    let mut parts = Vec::new();
    let mut offset = MAGIC.len() as u64;
    while parts.len() < MOST {
        let mut head = Vec::with_capacity(60);
        archive.seek(SeekFrom::Start(offset))?;
        if archive.by_ref().take(60).read_to_end(&mut head)? < 60 {
            break;
        }
        let part = part_of_head(&head, offset + 60)?;
        // Each part begins at an even offset.
        offset = part.offset.saturating_add(part.size).saturating_add(part.size % 2);
        parts.push(part);
    }
    Ok(parts)
}

fn part_of_head(head: &[u8], offset: u64) -> Result<Part, PackageError> {
    let text = |range| head.get(range).and_then(|bytes| std::str::from_utf8(bytes).ok()).map(str::trim_end);
    let (name, size) = match (text(0..16), text(48..58), head.ends_with(b"`\n")) {
        (Some(name), Some(size), true) => (name.trim_end_matches('/'), size),
        _ => return Err(invalid("the head of a part isn't one").into()),
    };
    let size = size.parse().map_err(|_| invalid("the size of a part isn't a number"))?;
    Ok(Part { name: name.to_string(), offset, size })
}
