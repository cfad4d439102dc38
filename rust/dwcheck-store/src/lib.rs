//! Keeps what `dwcheck-elf` found in files, in one database of SQLite: a store.
//!
//! A store answers for a [`Digest`] of a file's content and a [`Question`], which is a command with the options that
//! change what it finds, and the version of the program. So what stands there isn't done again, whatever the file is
//! called. Each [`Answer`] is written in one transaction: a process that is killed leaves the answers that it has
//! kept and nothing else, and several processes of one machine may write one store.
//!
//! A [`Shard`] is a part of all files, for a machine or a process of its own. [`Store::merge`] joins the stores of
//! shards, [`Store::export`] writes a store in an order that only its content decides, and [`Store::diff`] compares
//! two stores.
//!
//! docs/OUTPUT.md describes the tables. A store may be damaged, of a newer version, or no store at all: each
//! call then returns an error that says so in one line.

#![forbid(unsafe_code)]
#![warn(missing_docs)]

mod answer;
mod answers;
mod diff;
mod digest;
mod error;
mod export;
mod files;
mod located;
mod merge;
mod schema;
mod shard;
mod store;

pub use answer::{Answer, Content, Finding, Outcome, Question};
pub use diff::{Change, Changes, Counts};
pub use digest::Digest;
pub use error::StoreError;
pub use export::Format;
pub use files::{Listing, Package, Place, SeenFile, Stamp, Stamps};
pub use located::Located;
pub use schema::VERSION;
pub use shard::{Shard, ShardError};
pub use store::Store;
