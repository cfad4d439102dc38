//! The events that were recorded, their names and ids, and what each of their samples and trailers has.

use super::Damage;
use dwcheck_types::cursor::{Cursor, ReadError};
use dwcheck_types::target::Order;

/// The parts that a sample may have (`PERF_SAMPLE_`), as far as they are read.
pub(super) mod part {
    pub const IP: u64 = 1 << 0;
    pub const TID: u64 = 1 << 1;
    pub const TIME: u64 = 1 << 2;
    pub const ADDR: u64 = 1 << 3;
    pub const READ: u64 = 1 << 4;
    pub const CALLCHAIN: u64 = 1 << 5;
    pub const ID: u64 = 1 << 6;
    pub const CPU: u64 = 1 << 7;
    pub const PERIOD: u64 = 1 << 8;
    pub const STREAM_ID: u64 = 1 << 9;
    pub const RAW: u64 = 1 << 10;
    pub const BRANCH_STACK: u64 = 1 << 11;
    pub const REGS_USER: u64 = 1 << 12;
    pub const STACK_USER: u64 = 1 << 13;
    pub const IDENTIFIER: u64 = 1 << 16;
}

/// The bits of `branch_sample_type` that matter here.
pub(super) mod branch {
    /// The branches are the calls that haven't returned yet.
    pub const CALL_STACK: u64 = 1 << 11;
    /// A word comes before the branches.
    pub const HW_INDEX: u64 = 1 << 17;
}

/// The flag for a frequency in the place of a period.
const FREQUENCY: u32 = 10;

/// The flag that says that other records than samples have ids and times, too.
const SAMPLE_ID_ALL: u32 = 18;

/// The fewest bytes of the kernel's structure `perf_event_attr`: its first version.
const LEAST_SIZE: u32 = 64;

/// An event that was recorded, and what its samples have.
#[derive(Clone, Debug, Default, PartialEq, Eq)]
pub struct Event {
    /// The event's name, such as `cycles:u`.
    pub name: String,
    /// The numbers by which records name the event, one for each processor or thread.
    pub(super) ids: Vec<u64>,
    /// The parts of a sample (`PERF_SAMPLE_`).
    pub(super) parts: u64,
    pub(super) read_format: u64,
    pub(super) branch_type: u64,
    /// The registers of a sample: bit n is perf's register n.
    pub(super) registers: u64,
    /// What a sample without a period counts.
    pub(super) period: u64,
    pub(super) has_id_all: bool,
}

impl Event {
    /// Reads a `perf_event_attr`, which takes as many bytes as it says itself.
    pub(super) fn read(cursor: &mut Cursor<'_>) -> Result<Event, Damage> {
        let mut look = cursor.clone();
        let (kind, size) = (look.number(4)?, look.number(4)? as u32);
        if size < LEAST_SIZE {
            return Err(Damage::Attribute(size));
        }
        let bytes = cursor.take(u64::from(size))?;
        let mut fields = Cursor::new(bytes, cursor.target());
        fields.take(8)?;
        let config = fields.number(8)?;
        let period = fields.number(8)?;
        let (parts, read_format) = (fields.number(8)?, fields.number(8)?);
        let flags = Flags { bits: fields.number(8)?, order: cursor.target().order };
        let later = |at: usize| {
            let mut field = Cursor::new(bytes.get(at..).unwrap_or(&[]), cursor.target());
            field.number(8).unwrap_or(0)
        };
        Ok(Event {
            name: default_name(kind as u32, config),
            ids: Vec::new(),
            parts,
            read_format,
            branch_type: later(72),
            registers: later(80),
            period: if flags.has(FREQUENCY) { 1 } else { period.max(1) },
            has_id_all: flags.has(SAMPLE_ID_ALL),
        })
    }

    /// What a sample counts that doesn't say it.
    pub fn period(&self) -> u64 {
        self.period
    }

    /// Whether a sample has a part.
    pub(super) fn has(&self, part: u64) -> bool {
        self.parts & part != 0
    }

    /// The index of the word of a sample that is the event's id. `None` if it has no id.
    pub(super) fn id_word(&self) -> Option<usize> {
        if self.has(part::IDENTIFIER) {
            return Some(0);
        }
        let before = [part::IP, part::TID, part::TIME, part::ADDR];
        self.has(part::ID).then(|| before.into_iter().filter(|before| self.has(*before)).count())
    }

    /// How many words a record that isn't a sample has at its end for ids and times.
    fn trailer_words(&self) -> usize {
        let all = [part::TID, part::TIME, part::ID, part::STREAM_ID, part::CPU, part::IDENTIFIER];
        all.into_iter().filter(|part| self.has_id_all && self.has(*part)).count()
    }

    /// The length in bytes of what a record that isn't a sample has at its end for ids and times.
    pub(super) fn trailer(&self) -> usize {
        8 * self.trailer_words()
    }
}

/// The flags of an event. C's bit fields begin with the highest bit where the byte order is big.
struct Flags {
    bits: u64,
    order: Order,
}

impl Flags {
    fn has(&self, flag: u32) -> bool {
        let bit = if self.order == Order::Little { flag } else { 63 - flag };
        self.bits >> bit & 1 != 0
    }
}

/// The name of an event for which the recording has none.
fn default_name(kind: u32, config: u64) -> String {
    const HARDWARE: [&str; 10] = [
        "cycles",
        "instructions",
        "cache-references",
        "cache-misses",
        "branches",
        "branch-misses",
        "bus-cycles",
        "stalled-cycles-frontend",
        "stalled-cycles-backend",
        "ref-cycles",
    ];
    const SOFTWARE: [&str; 12] = [
        "cpu-clock",
        "task-clock",
        "page-faults",
        "context-switches",
        "cpu-migrations",
        "minor-faults",
        "major-faults",
        "alignment-faults",
        "emulation-faults",
        "dummy",
        "bpf-output",
        "cgroup-switches",
    ];
    let known = match kind {
        0 => HARDWARE.get(config as usize),
        1 => SOFTWARE.get(config as usize),
        _ => None,
    };
    known.map_or_else(|| format!("event {}:{:#x}", kind, config), |name| name.to_string())
}

/// The events of a recording.
#[derive(Clone, Debug, Default)]
pub(super) struct Events {
    all: Vec<Event>,
    by_id: std::collections::HashMap<u64, usize>,
    /// The word of a sample that has the event's id, if it is the same one for all events.
    id_word: Option<usize>,
}

impl Events {
    pub fn all(&self) -> &[Event] {
        &self.all
    }

    /// Adds an event. Recordings through a pipe name an event again when perf starts over.
    pub fn add(&mut self, event: Event) {
        if !event.ids.is_empty() && self.all.iter().any(|other| other.ids == event.ids) {
            return;
        }
        self.by_id.extend(event.ids.iter().map(|id| (*id, self.all.len())));
        let word = event.id_word();
        self.id_word = if self.all.is_empty() { word } else { self.id_word.filter(|first| word == Some(*first)) };
        self.all.push(event);
    }

    /// Names the event with this id.
    pub fn rename(&mut self, id: u64, name: String) {
        if let Some(event) = self.by_id.get(&id).and_then(|place| self.all.get_mut(*place)) {
            event.name = name;
        }
    }

    /// Names the event at an index, which has no ids, if it is the one that is described.
    pub fn rename_unnumbered(&mut self, place: usize, described: &Event, name: String) {
        if let Some(event) = self.all.get_mut(place).filter(|event| event.ids.is_empty()) {
            if event.parts == described.parts {
                event.name = name;
            }
        }
    }

    /// The index of the event with this id. A record whose id nobody knows is one of the first event.
    pub fn of_id(&self, id: u64) -> usize {
        self.by_id.get(&id).copied().unwrap_or(0)
    }

    /// The index of the event of a sample.
    pub fn of_sample(&self, mut body: Cursor<'_>) -> Result<usize, ReadError> {
        match self.id_word {
            Some(word) if self.all.len() > 1 => {
                body.take(8 * word as u64)?;
                Ok(self.of_id(body.number(8)?))
            }
            _ => Ok(0),
        }
    }

    /// The event whose trailer a record that isn't a sample has. If events differ, perf has put an
    /// id into the last word.
    pub fn of_other(&self, body: &Cursor<'_>) -> Option<&Event> {
        let first = self.all.first()?;
        if self.all.len() == 1 || !first.has(part::IDENTIFIER) {
            return Some(first);
        }
        let last = body.rest().len().checked_sub(8)?;
        let id = body.target().number(body.rest().get(last..)?);
        self.all.get(self.of_id(id))
    }
}
