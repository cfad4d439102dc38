//! What a recording says of itself and of the machine.

use super::event::Events;
use super::{Damage, Event, RecordHead};
use dwcheck_types::cursor::Cursor;
use dwcheck_types::target::Target;
use std::collections::HashMap;

/// The numbers of features (`HEADER_`).
mod number {
    pub const BUILD_ID: u64 = 2;
    pub const HOST: u64 = 3;
    pub const RELEASE: u64 = 4;
    pub const VERSION: u64 = 5;
    pub const ARCHITECTURE: u64 = 6;
    pub const COMMAND: u64 = 11;
    pub const EVENTS: u64 = 12;
}

/// The flag of a record that says that its build id has a length.
const HAS_SIZE: u16 = 1 << 15;

/// The most bytes of a build id.
const LONGEST: usize = 20;

/// The most events that a feature may describe.
const MOST_EVENTS: u64 = 4096;

/// A build id: at most 20 bytes.
#[derive(Clone, Debug, PartialEq, Eq, Hash)]
pub struct BuildId(Vec<u8>);

impl BuildId {
    /// `None` if all bytes are 0: perf writes that for a file without a build id.
    pub fn of(bytes: &[u8]) -> Option<BuildId> {
        let bytes = bytes.get(..bytes.len().min(LONGEST)).unwrap_or(bytes);
        bytes.iter().any(|byte| *byte != 0).then(|| BuildId(bytes.to_vec()))
    }

    /// The bytes.
    pub fn bytes(&self) -> &[u8] {
        &self.0
    }
}

/// What a recording says of itself and of the machine.
#[derive(Clone, Debug, Default)]
pub struct Features {
    /// The name of the machine.
    pub host: Option<String>,
    /// The version of the kernel.
    pub release: Option<String>,
    /// The version of perf.
    pub version: Option<String>,
    /// The architecture as `uname -m` has it, such as `x86_64`.
    pub architecture: Option<String>,
    /// The command line of perf.
    pub command: Vec<String>,
    /// The build ids of mapped files and of the kernel, by their names.
    build_ids: HashMap<Vec<u8>, BuildId>,
}

/// The text up to the first zero byte.
pub(super) fn text_until_zero(bytes: &[u8]) -> String {
    String::from_utf8_lossy(bytes_until_zero(bytes)).into_owned()
}

/// The bytes up to the first zero byte.
pub(super) fn bytes_until_zero(bytes: &[u8]) -> &[u8] {
    bytes.split(|byte| *byte == 0).next().unwrap_or(bytes)
}

/// A text with its length in front.
fn counted_text(cursor: &mut Cursor<'_>) -> Result<String, Damage> {
    let size = cursor.number(4)?;
    Ok(text_until_zero(cursor.take(size)?))
}

impl Features {
    /// The build id of the file with this name. `None` if the recording doesn't have it.
    pub fn build_id(&self, name: &[u8]) -> Option<&BuildId> {
        self.build_ids.get(name)
    }

    /// Reads a feature. What is damaged or not known is left out.
    pub(super) fn add(&mut self, number: u64, bytes: &[u8], target: Target, events: &mut Events) {
        let mut cursor = Cursor::new(bytes, target);
        let first = || counted_text(&mut Cursor::new(bytes, target)).ok();
        match number {
            number::BUILD_ID => self.add_build_ids(cursor),
            number::HOST => self.host = first(),
            number::RELEASE => self.release = first(),
            number::VERSION => self.version = first(),
            number::ARCHITECTURE => self.architecture = first(),
            number::COMMAND => {
                let count = cursor.number(4).unwrap_or(0);
                self.command = (0..count).map_while(|_| counted_text(&mut cursor).ok()).collect();
            }
            number::EVENTS => {
                let _ = name_events(&mut cursor, events);
            }
            _ => {}
        }
    }

    fn add_build_ids(&mut self, mut cursor: Cursor<'_>) {
        let target = cursor.target();
        while let Ok(head) = cursor.take(8) {
            let head: [u8; 8] = head.try_into().unwrap_or_default();
            let head = RecordHead::read(&head, target);
            match cursor.take(u64::from(head.size).saturating_sub(8)) {
                Ok(body) if !body.is_empty() => self.add_build_id(head, body, target),
                _ => return,
            }
        }
    }

    /// Reads a build id: the process, 20 bytes, their number, and the file's name.
    pub(super) fn add_build_id(&mut self, head: RecordHead, body: &[u8], target: Target) {
        let mut cursor = Cursor::new(body, target);
        let mut read = || -> Result<(BuildId, Vec<u8>), Damage> {
            cursor.take(4)?;
            let id = cursor.take(LONGEST as u64)?;
            let size = cursor.number(1)? as usize;
            cursor.take(3)?;
            let size = if head.misc & HAS_SIZE != 0 { size.min(LONGEST) } else { LONGEST };
            let id = id.get(..size).and_then(BuildId::of).ok_or(Damage::Short)?;
            Ok((id, bytes_until_zero(cursor.rest()).to_vec()))
        };
        if let Ok((id, name)) = read() {
            self.build_ids.insert(name, id);
        }
    }
}

/// Reads the names of events: for each its description, the number of its ids, its name, its ids.
fn name_events(cursor: &mut Cursor<'_>, events: &mut Events) -> Result<(), Damage> {
    let (count, size) = (cursor.number(4)?, cursor.number(4)?);
    for place in 0..count.min(MOST_EVENTS) {
        let mut described = Cursor::new(cursor.take(size)?, cursor.target());
        let ids = cursor.number(4)?;
        let name = counted_text(cursor)?;
        let ids: Vec<_> = (0..ids).map_while(|_| cursor.number(8).ok()).collect();
        match ids.first() {
            Some(id) => events.rename(*id, name),
            None => events.rename_unnumbered(place as usize, &Event::read(&mut described)?, name),
        }
    }
    Ok(())
}
