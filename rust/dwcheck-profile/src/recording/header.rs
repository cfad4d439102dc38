//! The header of a recording, and what the file has beside its records.

use super::{Damage, Event};
use dwcheck_types::cursor::Cursor;
use dwcheck_types::target::{AddressSize, Order, Target};
use std::io::{Read, Seek, SeekFrom};

/// The first bytes where the byte order is little. Where it is big, they are reversed.
const MAGIC: &[u8; 8] = b"PERFILE2";

/// The first bytes of recordings of perf before 2009.
const OLD_MAGIC: &[u8; 8] = b"PERFFILE";

/// The length of the header of what perf writes to a pipe.
pub(super) const PIPE_SIZE: u64 = 16;

/// The length of the header of a file.
const FILE_SIZE: u64 = 104;

/// The most bytes of the descriptions of events, and of a feature, that are read.
const MOST: u64 = 64 << 20;

/// The numbers of features are below this.
const FEATURES: u32 = 256;

/// A part of the file: the offset of its first byte, and its length.
#[derive(Clone, Copy, Debug, Default)]
struct Part {
    offset: u64,
    size: u64,
}

impl Part {
    fn read_from(cursor: &mut Cursor<'_>) -> Result<Part, Damage> {
        Ok(Part { offset: cursor.number(8)?, size: cursor.number(8)? })
    }

    /// Its bytes. A part that is longer than the file or than [`MOST`] is an error.
    fn bytes<R: Read + Seek>(&self, file: &mut R) -> Result<Vec<u8>, Damage> {
        if self.size > MOST {
            return Err(Damage::Short);
        }
        file.seek(SeekFrom::Start(self.offset))?;
        let mut bytes = Vec::new();
        file.take(self.size).read_to_end(&mut bytes)?;
        match bytes.len() as u64 == self.size {
            true => Ok(bytes),
            false => Err(Damage::Cut(self.offset)),
        }
    }

    /// The offset after its last byte, at most `size`.
    fn end(&self, size: u64) -> u64 {
        self.offset.saturating_add(self.size).min(size)
    }
}

/// The header of a recording.
#[derive(Debug)]
pub(super) struct Header {
    pub order: Order,
    /// Whether all that follows are records.
    pub is_pipe: bool,
    attribute_size: u64,
    attributes: Part,
    data: Part,
    /// Which features the file has, a bit for each.
    features: [u64; 4],
}

impl Header {
    /// Reads the header from the beginning of a recording.
    pub fn read<R: Read>(input: &mut R) -> Result<Header, Damage> {
        let mut bytes = Vec::new();
        input.take(PIPE_SIZE).read_to_end(&mut bytes)?;
        let magic = bytes.get(..8).ok_or(Damage::Magic)?;
        let reversed: Vec<u8> = magic.iter().rev().copied().collect();
        let order = match (magic, reversed.as_slice()) {
            (magic, _) if magic == MAGIC => Order::Little,
            (_, reversed) if reversed == MAGIC => Order::Big,
            (magic, _) if magic == OLD_MAGIC => return Err(Damage::Format("an old perf wrote it, in another format")),
            _ => return Err(Damage::Magic),
        };
        let target = Target { order, address_size: AddressSize::Eight };
        let size = Cursor::new(bytes.get(8..).unwrap_or(&[]), target).number(8)?;
        let mut header = Header {
            order,
            is_pipe: size == PIPE_SIZE,
            attribute_size: 0,
            attributes: Part::default(),
            data: Part::default(),
            features: [0; 4],
        };
        if header.is_pipe {
            return Ok(header);
        }
        input.take(FILE_SIZE - PIPE_SIZE).read_to_end(&mut bytes)?;
        let mut cursor = Cursor::new(bytes.get(16..).unwrap_or(&[]), target);
        header.attribute_size = cursor.number(8)?;
        header.attributes = Part::read_from(&mut cursor)?;
        header.data = Part::read_from(&mut cursor)?;
        Part::read_from(&mut cursor)?;
        for word in &mut header.features {
            *word = cursor.number(8)?;
        }
        Ok(header)
    }

    /// The events that the file describes, with their ids.
    pub fn events<R: Read + Seek>(&self, file: &mut R, target: Target) -> Result<Vec<Event>, Damage> {
        let bytes = self.attributes.bytes(file)?;
        let size = usize::try_from(self.attribute_size).ok().filter(|size| *size >= 16).ok_or(Damage::Short)?;
        let mut events = Vec::new();
        let mut left = MOST;
        for described in bytes.chunks_exact(size) {
            let mut event = Event::read(&mut Cursor::new(described, target))?;
            let ids = described.get(size - 16..).unwrap_or(&[]);
            let ids = Part::read_from(&mut Cursor::new(ids, target))?;
            left = left.checked_sub(ids.size).ok_or(Damage::Short)?;
            let ids = ids.bytes(file)?;
            event.ids = ids.chunks_exact(8).map(|id| target.number(id)).collect();
            events.push(event);
        }
        Ok(events)
    }

    /// Calls `add` with the number and the bytes of each feature. A feature that can't be read is
    /// left out: perf writes them last, so they are missing if it was killed.
    pub fn features<R: Read + Seek>(
        &self,
        file: &mut R,
        target: Target,
        mut add: impl FnMut(u64, &[u8]),
    ) -> Result<(), Damage> {
        if self.data.size == 0 {
            return Ok(());
        }
        let has = |number: &u32| self.features[(*number / 64) as usize] >> (*number % 64) & 1 != 0;
        let numbers: Vec<u32> = (0..FEATURES).filter(has).collect();
        let table = Part { offset: self.data.offset.saturating_add(self.data.size), size: 16 * numbers.len() as u64 };
        let table = match table.bytes(file) {
            Ok(table) => table,
            Err(_) => return Ok(()),
        };
        for (number, entry) in numbers.into_iter().zip(table.chunks_exact(16)) {
            let part = Part::read_from(&mut Cursor::new(entry, target))?;
            if let Ok(bytes) = part.bytes(file) {
                add(u64::from(number), &bytes);
            }
        }
        Ok(())
    }

    /// Where the records begin and end in a file of this size. If perf was killed, the header says
    /// that there are none, but they go on to the end of the file.
    pub fn data(&self, size: u64) -> (u64, u64) {
        let end = if self.data.size == 0 { size } else { self.data.end(size) };
        (self.data.offset, end.max(self.data.offset))
    }

    /// What is wrong with where the records should be.
    pub fn data_damage(&self, size: u64) -> Option<Damage> {
        let is_cut = self.data.size == 0 || self.data.offset.saturating_add(self.data.size) > size;
        is_cut.then_some(Damage::Format("perf didn't finish it, or it is cut off"))
    }
}
