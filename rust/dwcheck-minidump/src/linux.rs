//! What Linux has of a process in files of `/proc`, and its id.

use crate::budget::Budget;
use crate::directory::Directory;
use crate::file::{fields, File};
use crate::problem::StreamKind;

/// The flag that says that the process information has the id of the process (`MINIDUMP_MISC1_PROCESS_ID`).
const HAS_ID: u64 = 1;

/// The most bytes of a command line that are shown.
const LONGEST_COMMAND: usize = 4096;

/// The most bytes of Linux's status in which something is looked for.
const LONGEST_STATUS: usize = 1 << 14;

/// What `/proc/PID/status` has.
#[derive(Clone, Debug, Default)]
pub(crate) struct Status {
    /// The name of the first thread.
    pub name: Option<String>,
    /// The id of the process.
    pub process: Option<u32>,
}

/// The id of the process (`MINIDUMP_MISC_INFO`).
pub(crate) fn read_process_id(file: File<'_>, directory: &Directory) -> Option<u32> {
    let mut misc = fields(directory.bytes(file, StreamKind::Misc)?);
    let (_size, flags, id) = (misc.number(4).ok()?, misc.number(4).ok()?, misc.number(4).ok()?);
    Some(id as u32).filter(|_| flags & HAS_ID != 0)
}

/// Reads `/proc/PID/status`, if it is there.
pub(crate) fn read_status(file: File<'_>, directory: &Directory) -> Status {
    let bytes = directory.bytes(file, StreamKind::Status).unwrap_or(&[]);
    let text = String::from_utf8_lossy(bytes.get(..LONGEST_STATUS).unwrap_or(bytes));
    let value = |key: &str| text.lines().find_map(|line| Some(line.strip_prefix(key)?.trim().to_string()));
    Status { name: value("Name:"), process: value("Pid:").and_then(|id| id.parse().ok()) }
}

/// The command line, with spaces between the words.
pub(crate) fn read_command(file: File<'_>, directory: &Directory, budget: &mut Budget) -> Option<String> {
    let bytes = directory.bytes(file, StreamKind::Command)?;
    let bytes = bytes.get(..LONGEST_COMMAND).unwrap_or(bytes);
    let words = String::from_utf8_lossy(bytes).replace('\0', " ");
    Some(words.trim_end().to_string()).filter(|words| !words.is_empty() && budget.take(words.len()))
}
