//! What a program told Crashpad about itself (`MinidumpCrashpadInfo`).

use crate::budget::Budget;
use crate::directory::Directory;
use crate::file::{entries, fields, read_location, File, Location};
use crate::problem::{Problem, Problems, StreamKind};
use dwcheck_types::cursor::ReadError;

/// The size of an entry of a dictionary, and of one of the list of modules.
const PAIR: usize = 8;
const MODULE: usize = 12;

/// The size of an annotation with a type, and the type of those that are texts.
const OBJECT: usize = 12;
const TEXT: u64 = 1;

/// The most annotations that are read.
const MOST_ANNOTATIONS: usize = 1 << 12;

/// Something that a program told Crashpad about itself.
#[derive(Clone, Debug, PartialEq, Eq)]
pub struct Annotation {
    /// What it is about, such as `ver`.
    pub name: String,
    /// What it says.
    pub value: String,
}

/// What the stream has.
#[derive(Clone, Debug, Default)]
pub(crate) struct Crashpad {
    /// The annotations of the process, and then those of its modules that are texts.
    pub annotations: Vec<Annotation>,
    /// The bits of an address that aren't part of an authentication code.
    pub address_mask: Option<u64>,
}

/// Reads the stream, as far as it is there.
pub(crate) fn read_crashpad(
    file: File<'_>,
    directory: &Directory,
    budget: &mut Budget,
    problems: &mut Problems,
) -> Crashpad {
    let mut crashpad = Crashpad::default();
    if let Some(bytes) = directory.bytes(file, StreamKind::Crashpad) {
        let mut reader = Reader { file, budget, problems, crashpad: &mut crashpad };
        if reader.stream(bytes).is_err() {
            problems.add(Problem::Cut(StreamKind::Crashpad));
        }
    }
    crashpad
}

struct Reader<'r, 'data> {
    file: File<'data>,
    budget: &'r mut Budget,
    problems: &'r mut Problems,
    crashpad: &'r mut Crashpad,
}

impl Reader<'_, '_> {
    fn stream(&mut self, bytes: &[u8]) -> Result<(), ReadError> {
        let mut fields = fields(bytes);
        // The version, and the ids of the report and of the machine.
        fields.take(36)?;
        let (own, modules) = (read_location(&mut fields)?, read_location(&mut fields)?);
        self.dictionary(own);
        let (listed, _) = entries(self.file.held(modules), MODULE);
        for entry in listed.take(MOST_ANNOTATIONS) {
            self.module(entry)?;
        }
        // Older Crashpads end before the mask.
        let mask = fields.take(4).and_then(|_| fields.number(8)).ok();
        self.crashpad.address_mask = mask.filter(|mask| *mask != 0);
        Ok(())
    }

    /// Adds the annotations of a module: its dictionary, and those that have a type.
    fn module(&mut self, entry: &[u8]) -> Result<(), ReadError> {
        let mut entry = fields(entry);
        entry.take(4)?;
        let place = read_location(&mut entry)?;
        let mut module = fields(self.file.held(place));
        // The version, and a list of texts without names.
        if module.take(12).is_err() {
            self.problems.add_part(StreamKind::Crashpad, place.offset);
            return Ok(());
        }
        let places = read_location(&mut module).and_then(|own| Ok((own, read_location(&mut module)?)));
        if let Ok((own, typed)) = places {
            self.dictionary(own);
            self.objects(typed);
        }
        Ok(())
    }

    /// Adds the entries of a dictionary, each with the offsets of its name and of its value.
    fn dictionary(&mut self, place: Location) {
        let (listed, _) = entries(self.file.held(place), PAIR);
        for entry in listed.take(MOST_ANNOTATIONS) {
            let mut entry = fields(entry);
            if let (Ok(name), Ok(value)) = (entry.number(4), entry.number(4)) {
                let value = self.file.utf8(value, self.budget);
                self.add(name, value);
            }
        }
    }

    /// Adds the annotations with a type that are texts.
    fn objects(&mut self, place: Location) {
        let (listed, _) = entries(self.file.held(place), OBJECT);
        for entry in listed.take(MOST_ANNOTATIONS) {
            let mut entry = fields(entry);
            if let (Ok(name), Ok(TEXT), Ok(_), Ok(value)) =
                (entry.number(4), entry.number(2), entry.number(2), entry.number(4))
            {
                let value = self.file.utf8(value, self.budget);
                self.add(name, value);
            }
        }
    }

    /// Adds an annotation whose name is at an offset, unless it has no text.
    fn add(&mut self, name_at: u64, value: Option<String>) {
        match (self.file.utf8(name_at, self.budget), value) {
            (Some(name), Some(value)) if self.crashpad.annotations.len() < MOST_ANNOTATIONS => {
                self.crashpad.annotations.push(Annotation { name, value });
            }
            (Some(_), Some(_)) => self.problems.add(Problem::Most(StreamKind::Crashpad, MOST_ANNOTATIONS)),
            _ => self.problems.add_part(StreamKind::Crashpad, name_at),
        }
    }
}
