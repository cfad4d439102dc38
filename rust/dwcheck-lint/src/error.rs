//! Why an FDE can't be judged.

use std::{error, fmt};

/// Why an FDE can't be judged.
#[derive(Debug)]
pub enum Error {
    /// No FDE has the address.
    NoFde,
    /// Its code isn't in the file, or too long.
    Code,
    /// It has no row for this address.
    NoRow(u64),
    /// Its rows can't be read.
    Rows(Box<dyn error::Error + Send + Sync>),
}

impl fmt::Display for Error {
    fn fmt(&self, f: &mut fmt::Formatter<'_>) -> fmt::Result {
        match self {
            Error::NoFde => f.write_str("no FDE has the address"),
            Error::Code => f.write_str("the code isn't in the file, or too long"),
            Error::NoRow(address) => write!(f, "no row for {:#x}", address),
            Error::Rows(error) => error.fmt(f),
        }
    }
}

impl error::Error for Error {
    fn source(&self) -> Option<&(dyn error::Error + 'static)> {
        match self {
            Error::Rows(error) => Some(error.as_ref()),
            Error::NoFde | Error::Code | Error::NoRow(_) => None,
        }
    }
}
