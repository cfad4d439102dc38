//! How a run of the program ends: its exit status, and the line that says why it failed.

use dwcheck_elf::inspect::InspectError;
use dwcheck_elf::text::Escaped;
use std::fmt;
use std::io::{self, Write};
use std::path::Path;
use std::process::ExitCode;

/// The result of a run that reached its end.
#[derive(Clone, Copy, Debug, PartialEq, Eq, PartialOrd, Ord)]
pub enum Done {
    /// Everything was accepted, or an answer was given.
    Accepted,
    /// Something was refused.
    Refused,
    /// Something couldn't be read or checked. Standard error says what.
    Unread,
    /// Another program was run, which ended with this status. Only `trace` runs one.
    #[cfg_attr(not(all(target_os = "linux", target_arch = "x86_64")), allow(dead_code))]
    Status(u8),
}

/// Why a run ends early.
#[derive(Debug)]
pub enum Failure {
    /// An argument or a line of a state file is wrong.
    Argument(String),
    /// A file can't be read or checked.
    File(String),
    /// The output can't be written.
    Output(io::Error),
}

/// The status of a program whose output is a pipe that nobody reads any more: what shells show for one that SIGPIPE
/// has ended.
const PIPE_CLOSED: u8 = 128 + 13;

impl Done {
    /// The exit status.
    pub fn status(self) -> u8 {
        match self {
            Done::Accepted => 0,
            Done::Refused => 1,
            Done::Unread => 3,
            Done::Status(status) => status,
        }
    }
}

impl Failure {
    /// The exit status.
    pub fn status(&self) -> u8 {
        match self {
            Failure::Argument(_) => 2,
            Failure::File(_) => 3,
            Failure::Output(error) if is_broken_pipe(error) => PIPE_CLOSED,
            Failure::Output(_) => 3,
        }
    }

    /// Ends the program: says on standard error why, unless the reader of the output has ended, such as `head`.
    pub fn end(&self) -> ExitCode {
        if !matches!(self, Failure::Output(error) if is_broken_pipe(error)) {
            // If standard error is closed, nobody can read the message, so it doesn't matter that this fails.
            let _ = writeln!(io::stderr(), "dwcheck-elf: {}", self);
        }
        ExitCode::from(self.status())
    }

    /// The failure for a file that can't be opened or read.
    pub fn reading(path: &Path, error: &io::Error) -> Self {
        Failure::File(format!("cannot read {}: {}", shown_path(path), why_unread(path, error)))
    }

    /// The failure for a file whose sections can't be checked.
    pub fn judging(path: &Path, error: &InspectError) -> Self {
        Failure::File(format!("{}: {}", shown_path(path), error))
    }
}

/// Whether what was written goes to a pipe that nobody reads any more.
fn is_broken_pipe(error: &io::Error) -> bool {
    error.kind() == io::ErrorKind::BrokenPipe
}

/// Why a file can't be opened or read, and what to do if its name means standard input elsewhere.
fn why_unread(path: &Path, error: &io::Error) -> String {
    if path == Path::new("-") && error.kind() == io::ErrorKind::NotFound {
        return format!("{}; standard input is /dev/stdin", error);
    }
    error.to_string()
}

impl From<io::Error> for Failure {
    fn from(error: io::Error) -> Self {
        Failure::Output(error)
    }
}

impl fmt::Display for Failure {
    fn fmt(&self, f: &mut fmt::Formatter<'_>) -> fmt::Result {
        match self {
            Failure::Argument(text) | Failure::File(text) => f.write_str(text),
            Failure::Output(error) => write!(f, "cannot write: {}", error),
        }
    }
}

/// A path as it is shown: with escapes for control characters, which a hostile name may have.
pub fn shown_path(path: &Path) -> String {
    Escaped(&path.to_string_lossy()).to_string()
}
