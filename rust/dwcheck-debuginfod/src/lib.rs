//! Fetches programs and files of debug information by their build ids from servers of debuginfod.
//!
//! It is done by `libdebuginfod`, which is loaded when it is needed, with its cache and its variables: nothing is asked
//! unless `DEBUGINFOD_URLS` names servers, and what other programs fetched is there. A server costs at most one time-out
//! in a run: it is asked once for a file, and after it was silent or can't be reached, it isn't asked again.
//!
//! What a server sends may be anything. Who uses a file has to look at its build id.

#![deny(unsafe_code)]
#![warn(missing_docs)]

mod client;
mod interrupt;
mod library;

pub use client::{Client, Step};
pub use library::{Artifact, DebuginfodError};
