//! What the crates of dwcheck have in common: targets, numbers, rows, calling conventions, names of DWARF's codes.
//!
//! The README lists the modules. The feature `gimli` adds [`codes`], names of registers, and byte orders as gimli
//! takes them.

#![forbid(unsafe_code)]
#![warn(missing_docs, rust_2018_idioms, unreachable_pub)]

pub mod abi;
#[cfg(feature = "gimli")]
pub mod codes;
pub mod cursor;
pub mod row;
pub mod target;
