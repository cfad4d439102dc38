//! Why a package can't be read.

use std::error::Error;
use std::fmt;
use std::io;

/// Why a package can't be read. Its text is one line.
#[derive(Debug)]
pub enum PackageError {
    /// It can't be read, or what it says can't be so.
    Read(io::Error),
    /// It has no part with this name.
    Missing(&'static str),
    /// A part is compressed in a way that isn't known.
    Compression(String),
    /// Its description lacks this field.
    Field(&'static str),
    /// It has more members than this.
    Members(u64),
}

impl From<io::Error> for PackageError {
    fn from(error: io::Error) -> Self {
        PackageError::Read(error)
    }
}

impl fmt::Display for PackageError {
    fn fmt(&self, f: &mut fmt::Formatter<'_>) -> fmt::Result {
        match self {
            PackageError::Read(error) => {
                write!(f, "the package can't be read: {}", error.to_string().lines().next().unwrap_or(""))
            }
            PackageError::Missing(part) => write!(f, "the package has no {}", part),
            PackageError::Compression(part) => {
                write!(f, "{} is compressed in a way that isn't known", part.escape_debug())
            }
            PackageError::Field(name) => {
                write!(f, "the package's description has no field {}", name)
            }
            PackageError::Members(most) => write!(f, "the package has more than {} members", most),
        }
    }
}

impl Error for PackageError {}

/// The error of something that can't be so.
pub(crate) fn invalid(why: &str) -> io::Error {
    io::Error::new(io::ErrorKind::InvalidData, why)
}
