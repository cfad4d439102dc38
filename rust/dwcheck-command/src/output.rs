//! Files that are written whole or not at all, and never over a file that is read.

use crate::end::{shown_path, Failure};
use nix::unistd::{linkat, LinkatFlags};
use std::fs::{self, File, OpenOptions};
use std::io::{self, BufWriter, Write};
use std::os::unix::fs::{MetadataExt, OpenOptionsExt};
use std::os::unix::io::AsRawFd;
use std::path::{Path, PathBuf};

/// A file that is written. It gets its name when it is finished, so that an earlier file with this name stays
/// whole until then, and nothing is left if the program is interrupted. A file that isn't a regular one is written as
/// it is.
pub struct Output {
    path: PathBuf,
    /// The file's name between when it is whole and when it has its own name. `None` if it has that already.
    partial: Option<PathBuf>,
    /// Whether the file has no name yet.
    is_nameless: bool,
    writer: BufWriter<File>,
}

impl Output {
    /// Creates a file that will be named `path`.
    pub fn create(path: &Path) -> Result<Output, Failure> {
        // A link stays, and what it leads to is replaced.
        let path = &fs::canonicalize(path).unwrap_or_else(|_| path.to_path_buf());
        let failed = |error| cannot_write(path, &error);
        let with = |partial, is_nameless, file| Output {
            path: path.to_path_buf(),
            partial,
            is_nameless,
            writer: BufWriter::new(file),
        };
        if path.metadata().map_or(false, |file| !file.is_file()) {
            let file = OpenOptions::new().write(true).open(path).map_err(failed)?;
            return Ok(with(None, false, file));
        }
        let mut partial = path.as_os_str().to_os_string();
        partial.push(format!(".{}.part", std::process::id()));
        let partial = PathBuf::from(partial);
        let folder = path.parent().filter(|folder| !folder.as_os_str().is_empty()).unwrap_or_else(|| Path::new("."));
        if let Ok(file) = OpenOptions::new().write(true).custom_flags(libc::O_TMPFILE).open(folder) {
            return Ok(with(Some(partial), true, file));
        }
        // Some file systems have no files without names.
        let file = OpenOptions::new().write(true).create_new(true).open(&partial).map_err(failed)?;
        Ok(with(Some(partial), false, file))
    }

    /// Where to write.
    pub fn writer(&mut self) -> &mut impl Write {
        &mut self.writer
    }

    /// Gives the file its name.
    pub fn finish(mut self) -> Result<(), Failure> {
        let failed = |error: io::Error| cannot_write(&self.path, &error);
        self.writer.flush().map_err(failed)?;
        if let Some(partial) = self.partial.as_ref().filter(|_| self.is_nameless) {
            let own = format!("/proc/self/fd/{}", self.writer.get_ref().as_raw_fd());
            let linked = linkat(None, Path::new(&own), None, partial.as_path(), LinkatFlags::SymlinkFollow);
            linked.map_err(|error| failed(error.into()))?;
        }
        match self.partial.take() {
            Some(partial) => fs::rename(&partial, &self.path).map_err(|error| {
                let _ = fs::remove_file(&partial);
                cannot_write(&self.path, &error)
            }),
            None => Ok(()),
        }
    }
}

/// Refuses an output that would overwrite a file that is read, or one in a folder that is read. The name doesn't
/// matter: links are followed, and a file may have several names.
pub fn check_output_apart<'p>(output: &Path, inputs: impl IntoIterator<Item = &'p Path>) -> Result<(), Failure> {
    let written = match file_identity(output) {
        Some(written) => written,
        None => return Ok(()),
    };
    let mut read = inputs.into_iter().flat_map(files_of_path);
    match read.find(|input| file_identity(input) == Some(written)) {
        Some(input) => Err(Failure::Argument(format!(
            "bad argument: --output {} would overwrite {}, which is read; give another file",
            shown_path(output),
            shown_path(&input)
        ))),
        None => Ok(()),
    }
}

/// A file, or the files in a folder.
fn files_of_path(path: &Path) -> Vec<PathBuf> {
    match fs::read_dir(path) {
        Ok(entries) => entries.filter_map(|entry| Some(entry.ok()?.path())).collect(),
        Err(_) => vec![path.to_path_buf()],
    }
}

/// The device and the number of a regular file, which are the same for each of its names.
fn file_identity(path: &Path) -> Option<(u64, u64)> {
    let file = path.metadata().ok().filter(|file| file.is_file())?;
    Some((file.dev(), file.ino()))
}

impl Drop for Output {
    fn drop(&mut self) {
        if let Some(partial) = &self.partial {
            let _ = fs::remove_file(partial);
        }
    }
}

/// A file without a name, in the folder of temporary files, which is gone when it is closed.
pub fn temporary_file() -> Result<File, Failure> {
    let folder = std::env::temp_dir();
    let nameless = OpenOptions::new().read(true).write(true).custom_flags(libc::O_TMPFILE).open(&folder);
    nameless.or_else(|_| named_temporary_file(&folder)).map_err(|error| cannot_write(&folder, &error))
}

/// The same where the file system has no files without names: it has one until it is open.
fn named_temporary_file(folder: &Path) -> io::Result<File> {
    let path = folder.join(format!("dwcheck-elf.{}.part", std::process::id()));
    let file = OpenOptions::new().read(true).write(true).create_new(true).mode(0o600).open(&path)?;
    fs::remove_file(path)?;
    Ok(file)
}

fn cannot_write(path: &Path, error: &io::Error) -> Failure {
    Failure::File(format!("cannot write {}: {}", shown_path(path), error))
}
