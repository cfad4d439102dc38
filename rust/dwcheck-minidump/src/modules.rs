//! The program and the libraries that were loaded (`MINIDUMP_MODULE`).

use crate::budget::Budget;
use crate::directory::Directory;
use crate::file::{entries, fields, read_location, File};
use crate::problem::{Problem, Problems, StreamKind};
use dwcheck_types::cursor::ReadError;

/// The size of an entry of the list.
const ENTRY: usize = 108;

/// The most modules that are read. No program has as many, and each is looked for in several folders.
const MOST_MODULES: usize = 1 << 14;

/// The size of the version information of an entry (`VS_FIXEDFILEINFO`), which Linux has none of.
const VERSION: u64 = 52;

/// How the record of a build id begins: `BpEL`, of Breakpad's `MDCVInfoELF`; and `RSDS`, of `CV_INFO_PDB70`.
const ELF: &[u8] = b"LEpB";
const PDB70: &[u8] = b"RSDS";

/// The size of a GUID.
const GUID: usize = 16;

/// A program or a library that was loaded.
#[derive(Clone, Debug, PartialEq, Eq)]
pub struct Module<'data> {
    /// Its path, or only a name: Crashpad has the one that libraries give themselves (`DT_SONAME`).
    pub name: String,
    /// The address at which the beginning of its file is.
    pub base: u64,
    /// How many bytes of memory it has from there. LLDB counts only those of its first segment.
    pub size: u64,
    /// Its build id, if the file has it.
    pub build_id: Option<BuildId<'data>>,
}

/// What a minidump has of a build id.
#[derive(Clone, Copy, Debug, PartialEq, Eq)]
pub enum BuildId<'data> {
    /// All of it.
    Whole(&'data [u8]),
    /// Its first 16 bytes, with zeros for those that it doesn't have: what older Breakpads keep.
    First([u8; GUID]),
}

impl BuildId<'_> {
    /// Whether it may be what the minidump has of this build id.
    pub fn is_of(&self, id: &[u8]) -> bool {
        match self {
            BuildId::Whole(held) => *held == id,
            BuildId::First(held) => {
                let shown = id.len().min(GUID);
                !id.is_empty() && held[..shown] == id[..shown] && held[shown..].iter().all(|byte| *byte == 0)
            }
        }
    }

    /// The bytes.
    pub fn bytes(&self) -> &[u8] {
        match self {
            BuildId::Whole(held) => held,
            BuildId::First(held) => held,
        }
    }
}

/// The modules in the order of the file. Those that have no name have an empty one.
pub(crate) fn read_modules<'data>(
    file: File<'data>,
    directory: &Directory,
    budget: &mut Budget,
    problems: &mut Problems,
) -> Vec<Module<'data>> {
    let bytes = match directory.bytes(file, StreamKind::Modules) {
        Some(bytes) => bytes,
        None => return Vec::new(),
    };
    let (listed, is_whole) = entries(bytes, ENTRY);
    if !is_whole {
        problems.add(Problem::Count(StreamKind::Modules));
    }
    let mut modules = Vec::new();
    for entry in listed {
        if modules.len() == MOST_MODULES {
            problems.add(Problem::Most(StreamKind::Modules, MOST_MODULES));
            break;
        }
        modules.extend(read_module(file, entry, budget, problems).ok());
    }
    modules
}

fn read_module<'data>(
    file: File<'data>,
    entry: &[u8],
    budget: &mut Budget,
    problems: &mut Problems,
) -> Result<Module<'data>, ReadError> {
    let mut entry = fields(entry);
    let (base, size) = (entry.number(8)?, entry.number(4)?);
    // A checksum and a time.
    entry.take(8)?;
    let name_at = entry.number(4)?;
    entry.take(VERSION)?;
    let record = read_location(&mut entry)?;
    let name = file.utf16(name_at, budget);
    if name.is_none() {
        problems.add_part(StreamKind::Modules, name_at);
    }
    let held = file.whole(record).filter(|_| record.size > 0);
    if held.is_none() && record.size > 0 {
        problems.add_part(StreamKind::Modules, record.offset);
    }
    Ok(Module { name: name.unwrap_or_default(), base, size, build_id: held.and_then(build_id_of_record) })
}

/// The build id in a record. `None` if it has none, or only zeros.
fn build_id_of_record(record: &[u8]) -> Option<BuildId<'_>> {
    let (kind, rest) = record.split_at(record.len().min(4));
    let id = match kind {
        ELF => BuildId::Whole(rest),
        PDB70 => BuildId::First(build_id_of_guid(rest.get(..GUID)?.try_into().ok()?)),
        _ => return None,
    };
    Some(id).filter(|id| id.bytes().iter().any(|byte| *byte != 0))
}

/// The bytes of a build id of which a GUID was made. A GUID begins with numbers of 4, 2 and 2 bytes.
fn build_id_of_guid(bytes: [u8; GUID]) -> [u8; GUID] {
    let mut id = bytes;
    id[..4].reverse();
    id[4..6].reverse();
    id[6..8].reverse();
    id
}

#[cfg(test)]
mod tests {
    use super::*;

    /// A GUID, as minidumps have it, of the build id 00112233445566778899aabbccddeeff01020304.
    #[test]
    fn a_build_id_and_the_guid_that_was_made_of_it() {
        let id: Vec<u8> = (0..16).map(|byte| byte * 0x11).chain([1, 2, 3, 4]).collect();
        let record = [b"LEpB", id.as_slice()].concat();
        assert_eq!(build_id_of_record(&record), Some(BuildId::Whole(&id)));
        assert!(
            build_id_of_record(&record).unwrap().is_of(&id) && !build_id_of_record(&record).unwrap().is_of(&id[..16])
        );
        let guid = [0x33, 0x22, 0x11, 0, 0x55, 0x44, 0x77, 0x66, 0x88, 0x99, 0xaa, 0xbb, 0xcc, 0xdd, 0xee, 0xff];
        let record = [b"RSDS", &guid[..], &[0; 5]].concat();
        let held = build_id_of_record(&record).unwrap();
        assert!(held.is_of(&id) && held.is_of(&id[..16]) && !held.is_of(&id[..8]) && !held.is_of(&[]));
        assert_eq!(build_id_of_record(&[b"RSDS", &[0; 20][..]].concat()), None);
        assert_eq!(build_id_of_record(b"LEpB"), None);
        assert_eq!(build_id_of_record(b"RS"), None);
    }
}
