//! The header and the directory of streams.

use crate::file::{fields, read_location, File, Location};
use crate::problem::{MinidumpError, Problem, Problems, StreamKind};
use crate::Minidump;
use std::collections::BTreeMap;

/// The size of the header (`MINIDUMP_HEADER`).
const HEADER: u64 = 32;

/// The size of an entry of the directory (`MINIDUMP_DIRECTORY`).
const ENTRY: u64 = 12;

/// The most exceptions that are looked at. LLDB writes one for each thread that has a reason to stop.
const MOST_EXCEPTIONS: usize = 1 << 16;

/// Where the streams are.
#[derive(Clone, Debug, Default)]
pub(crate) struct Directory {
    /// The first stream of each kind that isn't empty.
    streams: BTreeMap<StreamKind, Location>,
    /// All exceptions.
    pub exceptions: Vec<Location>,
}

impl Directory {
    /// Reads the header and the directory.
    pub fn read(file: File<'_>, problems: &mut Problems) -> Result<Self, MinidumpError> {
        let start = file.held(Location { offset: 0, size: HEADER });
        let magic = start.get(..4).ok_or(MinidumpError::NotMinidump)?;
        if magic.iter().rev().eq(Minidump::MAGIC) {
            return Err(MinidumpError::BigEndian);
        }
        if magic != Minidump::MAGIC {
            return Err(MinidumpError::NotMinidump);
        }
        let mut header = fields(start);
        let mut number = || header.number(4).map_err(|_| MinidumpError::Header);
        let (_magic, _version, count, offset) = (number()?, number()?, number()?, number()?);
        if (start.len() as u64) < HEADER {
            return Err(MinidumpError::Header);
        }
        let entries = file.held(Location { offset, size: count.saturating_mul(ENTRY) });
        if (entries.len() as u64) < count.saturating_mul(ENTRY) {
            problems.add(Problem::Cut(StreamKind::Directory));
        }
        let mut directory = Directory::default();
        entries.chunks_exact(ENTRY as usize).for_each(|entry| directory.add(entry));
        let is_cut = |location: &Location| file.whole(*location).is_none();
        let cut = directory.streams.iter().filter(|(_, location)| is_cut(location));
        cut.for_each(|(kind, _)| problems.add(Problem::Cut(*kind)));
        Ok(directory)
    }

    /// Adds a stream, by its entry. Does nothing for one that isn't read.
    fn add(&mut self, entry: &[u8]) {
        let mut entry = fields(entry);
        let kind = entry.number(4).ok().and_then(StreamKind::numbered);
        let (kind, place) = match (kind, read_location(&mut entry)) {
            (Some(kind), Ok(place)) if place.size > 0 => (kind, place),
            _ => return,
        };
        if kind == StreamKind::Exception && self.exceptions.len() < MOST_EXCEPTIONS {
            self.exceptions.push(place);
        }
        self.streams.entry(kind).or_insert(place);
    }

    /// The bytes of a stream, as far as the file has them. `None` if there is no such stream.
    pub fn bytes<'data>(&self, file: File<'data>, kind: StreamKind) -> Option<&'data [u8]> {
        let place = self.streams.get(&kind)?;
        Some(file.held(*place)).filter(|bytes| !bytes.is_empty())
    }
}
