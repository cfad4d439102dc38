//! Files without names, for what is decompressed.

use std::fs::{self, File, OpenOptions};
use std::io;
use std::os::unix::fs::OpenOptionsExt;
use std::path::{Path, PathBuf};
use std::sync::atomic::{AtomicUsize, Ordering};

/// How many files had a name for a moment.
static NAMED: AtomicUsize = AtomicUsize::new(0);

/// The folder for files without names: the one that `TMPDIR` names, or else `/var/tmp`.
pub(super) fn folder() -> PathBuf {
    let given = std::env::var_os("TMPDIR").filter(|given| !given.is_empty());
    given.map_or_else(|| PathBuf::from("/var/tmp"), PathBuf::from)
}

/// A new file that only this program has, and that is gone when it is closed.
pub(super) fn nameless_file(folder: &Path) -> io::Result<File> {
    let mut options = OpenOptions::new();
    options.read(true).write(true).mode(0o600);
    if let Ok(file) = options.clone().custom_flags(libc::O_TMPFILE).open(folder) {
        return Ok(file);
    }
    // Some file systems have no files without names.
    let number = NAMED.fetch_add(1, Ordering::Relaxed);
    let path = folder.join(format!("dwcheck-elf.{}.{}", std::process::id(), number));
    let file = options.create_new(true).open(&path)?;
    fs::remove_file(&path)?;
    Ok(file)
}
