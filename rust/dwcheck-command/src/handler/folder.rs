//! The folder with reports of crashes: who may read them, and how many are kept.

use crate::end::{shown_path, Failure};
use crate::output::Output;
use nix::sys::stat::{umask, Mode};
use nix::unistd::geteuid;
use std::fs::{self, DirBuilder, Metadata};
use std::io::{self, Write};
use std::os::unix::fs::{DirBuilderExt, MetadataExt};
use std::path::{Path, PathBuf};
use std::time::{Duration, SystemTime};

/// A folder with reports.
#[derive(Clone, Copy, Debug)]
pub struct Folder<'f> {
    pub path: &'f Path,
    pub keep: Keep,
    /// The rights of the files of reports.
    pub mode: u32,
}

/// What a folder keeps. The oldest reports go first.
#[derive(Clone, Copy, Debug)]
pub struct Keep {
    pub reports: usize,
    /// How many bytes all reports together may have.
    pub bytes: u64,
    pub age: Duration,
}

/// A report in the folder.
struct Kept {
    path: PathBuf,
    written: SystemTime,
    size: u64,
}

impl Folder<'_> {
    /// Stores a report, and deletes old ones for which there is no room then.
    pub fn store(&self, name: &str, report: &[u8]) -> Result<PathBuf, Failure> {
        let failed = |error: io::Error| Failure::File(format!("{}: {}", shown_path(self.path), error));
        // The folder may be there already.
        let _ = DirBuilder::new().recursive(true).mode(0o700).create(self.path);
        let folder = fs::metadata(self.path).map_err(failed)?;
        if !is_own(&folder) {
            let why = "others can write to this folder, or it isn't a folder; reports go to one that isn't theirs";
            return Err(Failure::File(format!("{}: {}", shown_path(self.path), why)));
        }
        self.make_room(report.len() as u64).map_err(failed)?;
        let path = self.path.join(name);
        umask(Mode::from_bits_truncate(0o777 & !self.mode));
        let mut output = Output::create(&path)?;
        output.writer().write_all(report).map_err(failed)?;
        output.finish()?;
        Ok(path)
    }

    /// Deletes old reports, so that one with `size` bytes can be added.
    fn make_room(&self, size: u64) -> io::Result<()> {
        let mut kept = self.kept()?;
        kept.sort_by_key(|kept| std::cmp::Reverse(kept.written));
        let (now, mut bytes) = (SystemTime::now(), size);
        for (place, Kept { path, written, size }) in kept.iter().enumerate() {
            bytes = bytes.saturating_add(*size);
            let is_old = now.duration_since(*written).map_or(false, |age| age > self.keep.age);
            if is_old || place + 1 >= self.keep.reports || bytes > self.keep.bytes {
                // Another handler may have deleted it.
                let _ = fs::remove_file(path);
            }
        }
        Ok(())
    }

    /// The reports in the folder. Files with other names are never deleted.
    fn kept(&self) -> io::Result<Vec<Kept>> {
        let is_report = |name: &str| name.starts_with("crash.") && (name.ends_with(".txt") || name.ends_with(".json"));
        let entries = fs::read_dir(self.path)?.filter_map(Result::ok);
        let named = entries.filter(|entry| entry.file_name().to_str().map_or(false, is_report));
        let kept = named.filter_map(|entry| {
            let file = entry.metadata().ok().filter(Metadata::is_file)?;
            Some(Kept { path: entry.path(), written: file.modified().ok()?, size: file.len() })
        });
        Ok(kept.collect())
    }
}

/// Whether this user alone can write to a folder.
fn is_own(folder: &Metadata) -> bool {
    folder.is_dir() && folder.uid() == geteuid().as_raw() && folder.mode() & 0o022 == 0
}
