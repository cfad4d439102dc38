//! Folders that `perf record --threads` writes: a file `data` as of other recordings, and the records of each thread of
//! perf in a file of its own, `data.0` and so on.

use super::source::Source;
use super::{Damage, Recording};
use dwcheck_elf::mapped::Bytes;
use std::ffi::OsStr;
use std::fs::{self, File};
use std::io;
use std::path::Path;

/// How many bytes of all threads' files together are read in turn.
pub(super) const STEP: u64 = 8 << 20;

/// A recording's only file or pipe, or one of the files of a folder.
pub(super) struct Part<'r> {
    pub source: Source<'r>,
    /// The file's name in its folder.
    name: Option<String>,
    /// The latest time so far.
    pub latest: u64,
    /// The latest time before the last turn, or the first one in the first turn.
    pub before: u64,
    pub is_at_end: bool,
    /// The memory of the bytes before this offset was given back.
    pub given_back: usize,
}

impl<'r> Part<'r> {
    pub fn new(source: Source<'r>) -> Self {
        Part { source, name: None, latest: 0, before: 0, is_at_end: false, given_back: 0 }
    }

    /// A record with this time was read.
    pub fn saw(&mut self, time: u64) {
        if self.latest == 0 {
            self.before = time;
        }
        self.latest = self.latest.max(time);
    }

    /// What is wrong with the recording, if this is wrong with the part.
    pub fn damaged(&self, damage: Damage) -> Damage {
        match &self.name {
            Some(name) => Damage::InFile(name.clone(), Box::new(damage)),
            None => damage,
        }
    }
}

impl<'r> Recording<'r> {
    /// Opens a folder that `perf record --threads` wrote.
    ///
    /// # Errors
    ///
    /// If a file or the header can't be read.
    pub fn of_folder(path: &Path) -> Result<Recording<'r>, Damage> {
        let file = |name: &str| {
            map_recording_file(&path.join(name))
                .map_err(|error| Damage::InFile(name.to_string(), Box::new(error.into())))
        };
        let mut recording = Recording::of_bytes(file("data")?)?;
        let mut threads: Vec<u32> =
            fs::read_dir(path)?.filter_map(|entry| thread_of_file_name(&entry.ok()?.file_name())).collect();
        threads.sort_unstable();
        for thread in threads {
            let name = format!("data.{}", thread);
            let (bytes, index) = (file(&name)?, recording.files.len());
            let source = Source::of_file(bytes.clone(), index, recording.target, 0, bytes.len() as u64);
            recording.parts.push(Part { name: Some(name), ..Part::new(source) });
            recording.files.push(bytes);
        }
        Ok(recording)
    }
}

/// The bytes of a regular file.
fn map_recording_file(path: &Path) -> io::Result<Bytes> {
    let metadata = path.metadata()?;
    match metadata.is_file() {
        true => Bytes::of_file(&File::open(path)?, metadata.len()),
        false => Err(io::Error::new(io::ErrorKind::Other, "it isn't a regular file")),
    }
}

/// The number of a thread's file.
fn thread_of_file_name(name: &OsStr) -> Option<u32> {
    name.to_str()?.strip_prefix("data.")?.parse().ok()
}
