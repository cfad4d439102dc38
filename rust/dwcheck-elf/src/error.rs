//! The error of all calls of this crate, for callers that need no other.

use crate::cfi::frames::FramesError;
use crate::check::lint::LintError;
use crate::check::verdict::InspectError;
use crate::debug::variables::VariablesError;
use crate::elf::functions::NameError;
use crate::elf::program::ProgramError;
use crate::process::core_file::{CoreError, FileError};
use crate::process::live::LiveError;
use crate::process::stack::StackError;
use std::{error, fmt, io};

macro_rules! errors {
    ($($(#[$doc:meta])* $variant:ident($kind:ty),)*) => {
        /// Why a call failed. Each call has an error of its own; `?` makes this one of it.
        ///
        /// Its text is that of the call's error, which is its source.
        #[derive(Debug)]
        #[non_exhaustive]
        pub enum Error {
            $($(#[$doc])* $variant($kind),)*
        }

        impl fmt::Display for Error {
            fn fmt(&self, f: &mut fmt::Formatter<'_>) -> fmt::Result {
                match self {
                    $(Error::$variant(error) => error.fmt(f),)*
                }
            }
        }

        impl error::Error for Error {
            fn source(&self) -> Option<&(dyn error::Error + 'static)> {
                match self {
                    $(Error::$variant(error) => Some(error),)*
                }
            }
        }

        $(impl From<$kind> for Error {
            fn from(error: $kind) -> Self {
                Error::$variant(error)
            }
        })*
    };
}

errors! {
    /// A file can't be read.
    Read(io::Error),
    /// An ELF file or one of its sections can't be read.
    Program(ProgramError),
    /// A frame section can't be passed to the library.
    Frames(FramesError),
    /// A section can't be checked.
    Inspect(InspectError),
    /// A program can't be linted.
    Lint(LintError),
    /// A name has no address.
    Name(NameError),
    /// The variables of a program can't be looked up.
    Variables(VariablesError),
    /// A core file can't be read.
    Core(CoreError),
    /// A mapped file can't be used.
    File(FileError),
    /// A process can't be copied.
    Live(LiveError),
    /// A thread has no stack.
    Stack(StackError),
    /// The library has returned an error.
    Library(dwcheck::Error),
}
