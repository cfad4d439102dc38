//! Reads Debian packages (deb(5)): an archive of `ar` with a description and with an archive of `tar`, which are
//! compressed by gzip, xz or zstd.
//!
//! A package is read as a stream: nothing is written to disk, and no more than a part of it is in memory. It may say
//! anything, so nothing here trusts it: what it claims about sizes is only an upper bound, paths that lead out of it are
//! told from others, links aren't followed, and how much is unpacked is bounded.

#![forbid(unsafe_code)]
#![warn(missing_docs)]

mod archive;
mod compression;
mod control;
mod error;
mod members;
mod package;

pub use control::Control;
pub use error::PackageError;
pub use members::Member;
pub use package::Package;
