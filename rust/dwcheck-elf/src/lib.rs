//! Reads ELF files and core files, so that `dwcheck` can check their unwind tables and unwind
//! stacks with them.
//!
//! Its source has a folder for each part, and the head of `mod.rs` there says what the part holds and what it
//! uses. The README lists the modules that are public.
//!
//! No function here trusts its input: a malformed file gives an error.

#![deny(unsafe_code)]
#![warn(missing_docs)]

mod cfi;
mod check;
mod debug;
mod elf;
mod error;
#[cfg(test)]
mod layers;
mod process;

pub use cfi::{eh_frame_hdr, frames, one_by_one, row, sframe, text, validate};
pub use check::{compare, fault, inspect, lint, program_report, symbols};
pub use debug::{expression, lines, loclists, variables};
pub use dwcheck_types::{abi, target};
pub use elf::{debug_files, fetch, functions, image, mapped, other_file, program, relocate, unpacked};
pub use error::Error;
pub use process::{core_file, dying, live, modules, stack, state_file, symbol_store};

/// The location lists of a program.
pub mod lists {
    pub use crate::check::lists::{compare_look_ups, inspect_lists};
    pub use crate::debug::lists::{
        Bytes, Contents, Difference, Doubtful, Limit, Lint, Lints, LookUps, Unsupported, UnsupportedAt,
    };
}

/// Shows names of functions as they are in the source code, and addresses as functions and offsets.
pub mod names {
    pub use crate::elf::demangle::demangled;
    pub use crate::elf::function_offset::FunctionOffset;
}

/// What the crates `dwcheck-profile` and `dwcheck-trace` use beside the public modules. It is no part of the interface.
#[doc(hidden)]
pub mod internal {
    pub use crate::cfi::section_table::{add_fde, OneFde, SectionTable};
    pub use crate::check::page;
    pub use crate::debug::variables::TailCall;
    pub use crate::elf::demangle::short_name;
    pub use crate::process::maps::Process;
    pub use crate::process::stack::frame_names::Names;
    pub use crate::process::without_row;
    pub use dwcheck_types::cursor::{Cursor, ReadError};
}
