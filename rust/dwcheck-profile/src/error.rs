//! Why a file or a part of its unwind tables isn't used for a profile.

use std::{error, fmt, io};

/// Why a file or a part of its unwind tables isn't used.
#[derive(Debug)]
pub enum Error {
    /// The file can't be read.
    Read(io::Error),
    /// It isn't a regular file.
    NotRegular,
    /// An FDE can't be used by itself, for this reason.
    Fde(&'static str),
    /// The library refuses an FDE.
    Library(dwcheck::Error),
}

impl fmt::Display for Error {
    fn fmt(&self, f: &mut fmt::Formatter<'_>) -> fmt::Result {
        match self {
            Error::Read(error) => write!(f, "can't be read: {}", error),
            Error::NotRegular => f.write_str("isn't a regular file"),
            Error::Fde(reason) => f.write_str(reason),
            Error::Library(error) => error.fmt(f),
        }
    }
}

impl error::Error for Error {
    fn source(&self) -> Option<&(dyn error::Error + 'static)> {
        match self {
            Error::Read(error) => Some(error),
            Error::Library(error) => Some(error),
            Error::NotRegular | Error::Fde(_) => None,
        }
    }
}
