//! Checks `.debug_frame` and `.debug_loclists` sections of DWARF 5, and unwinds stacks with
//! `.debug_frame` and `.eh_frame`.
//!
//! This is a safe wrapper over the C interface of `dwcheck`, a library that is proved to meet its
//! contracts, to terminate, and to be safe on every input. The proofs cover the library, except for
//! the C that [`Process::step_with`] runs over proved steps, and the texts of [`FaultKind::rule`].
//! They don't cover this crate, which uses `unsafe` to call the C interface.
//!
//! - [`check`] checks a frame section and location lists, and [`report`] also says what they contain.
//! - A [`FrameSection`] is checked by itself, `.eh_frame` too, or read record by record.
//! - A [`Process`] has modules, each a frame section with a load address and a range of addresses.
//!   It gives the [`Row`] of an address, the [`Caller`] of a frame, and the frames of a stack.
//! - An [`EhFrameInPlace`] gives rows and steps without preparation.
//! - [`locations`] and [`list_locations`] give the expressions of a location list that apply at an address.
//! - [`evaluate`] gives the result of an expression.
//!
//! Sections are passed as bytes. They have to come from a linked file and be uncompressed. For
//! example, `objcopy --dump-section` or an ELF reader gives them. No call panics. The project's
//! `docs/PROFILE.md` says what is refused, and which parts of DWARF aren't supported.
//!
//! ```
//! use dwcheck::{check, DebugFrame, DebugLoclists, FaultKind, Target};
//!
//! // A CIE, and an FDE whose CIE_pointer leads nowhere.
//! let frame = [
//!     0x14, 0, 0, 0, 0xff, 0xff, 0xff, 0xff, 4, 0, 8, 0, 1, 0x78, 0x10, 0x0c, 7, 8, 0x90, 1, 0, 0, 0, 0,
//!     0x14, 0, 0, 0, 4, 0, 0, 0, 0, 0x10, 0, 0, 0, 0, 0, 0, 0x20, 0, 0, 0, 0, 0, 0, 0,
//! ];
//! let none = DebugLoclists(&[]);
//! let error = check(DebugFrame(&frame), none, Target::LITTLE_64).unwrap_err();
//! assert_eq!(error.fault().unwrap().kind, FaultKind::NoSuchCie);
//! assert_eq!(error.to_string(), "frame: 9 NoSuchCie at 0x0000001c");
//!
//! check(DebugFrame(&frame[..24]), none, Target::LITTLE_64)?;
//! # Ok::<(), dwcheck::Error>(())
//! ```

#![warn(missing_docs, rust_2018_idioms, unreachable_pub)]
#![deny(unsafe_op_in_unsafe_fn)]

/// Makes the example of the README a documentation test.
#[cfg(doctest)]
#[doc = include_str!("../README.md")]
struct Readme;

mod abi;
mod cache;
mod caller;
mod cursor;
mod expression;
mod fault;
mod ffi;
mod frame_section;
#[cfg(feature = "dl")]
mod here;
mod in_place;
mod kept_rows;
#[cfg(test)]
mod layout;
mod lists;
mod module;
mod process;
mod row;
mod rows;
mod section_report;
mod state;
mod steps;
#[cfg(test)]
mod unknown_numbers;
mod walk;

pub use abi::Abi;
pub use cache::Cache;
pub use caller::{Answer, Caller};
pub use cursor::{Cursor, Frames};
pub use dwcheck_types::target::{AddressSize, Order, Target};
pub use expression::{
    evaluate, Context, Evaluation, ExpressionKind, Location, Outcome, Piece, PieceSize,
};
pub use fault::{Error, Fault, FaultKind, Section};
pub use frame_section::{Contents, FrameSection, LeftOutRecord, Record, RecordKind, Records};
#[cfg(feature = "dl")]
pub use here::{here, know_own_stack, OwnFrame, OwnStack, MOST_FRAMES};
pub use in_place::EhFrameInPlace;
pub use kept_rows::{Filled, KeptRows, KeptStop, RegisterFrame, RegisterPlace, StackPlace};
pub use lists::{list_locations, locations, Lookup};
pub use module::{EhFrame, LoadedModule, Module, ModuleId};
pub use process::Process;
pub use row::{CfaRule, Row, Rule, Span};
pub use rows::Rows;
pub use section_report::{report, CheckedExpression, Report};
pub use state::{Block, Registers, State};
pub use steps::{Step, Steps};
pub use walk::{Backtrace, Frame, Stop};

/// The bytes of a `.debug_frame` section. They may be empty.
#[derive(Clone, Copy, Debug, PartialEq, Eq)]
pub struct DebugFrame<'a>(pub &'a [u8]);

/// The bytes of a `.debug_loclists` section. They may be empty.
#[derive(Clone, Copy, Debug, PartialEq, Eq)]
pub struct DebugLoclists<'a>(pub &'a [u8]);

/// Checks a `.debug_frame` section and a `.debug_loclists` section, either of which may be empty.
///
/// `Ok` means that both sections and all expressions in them are well formed by the rules of
/// `docs/PROFILE.md`. The check allocates memory in proportion to the sections, and frees it.
///
/// # Errors
///
/// [`Error::Refused`] with the first fault, or [`Error::NoMemory`]. A section of 2^32 bytes or more
/// is refused with [`FaultKind::SectionTooLong`].
pub fn check(frame: DebugFrame<'_>, lists: DebugLoclists<'_>, target: Target) -> Result<(), Error> {
    let (DebugFrame(frame), DebugLoclists(lists)) = (frame, lists);
    // SAFETY: the pointers and lengths are those of slices that are only read, and the fault's place is
    // borrowed exclusively.
    Error::of_call(|fault| unsafe {
        ffi::dwcheck_check(
            frame.as_ptr(),
            frame.len(),
            lists.as_ptr(),
            lists.len(),
            ffi::order_number(target),
            target.address_size.bytes().into(),
            fault,
        )
    })
}

/// The version of the library's interface: the major number, then the minor number. A new minor
/// version only adds calls, fields or values.
///
/// This crate is for major version 2.
///
/// ```
/// assert_eq!(dwcheck::version().0, 2);
/// ```
pub fn version() -> (u16, u16) {
    // SAFETY: the call has no arguments.
    let version = unsafe { ffi::dwcheck_version() };
    ((version >> 16) as u16, version as u16)
}
