//! Compares the rows of unwind tables with the code that they describe.
//!
//! A [`Module`](module::Module) has the code, the FDEs and the rows of a program or a library;
//! [`lint`](lint::lint) follows the flow of control through each FDE's code, computes what is known of
//! the stack and the registers at each instruction, and compares it with the row there. What isn't
//! known isn't judged. docs/LINT.md says how it decides.
//!
//! - [`x86_64`], [`i386`] and [`aarch64`] are decoders. They make an [`Effect`](instruction::Effect) of each
//!   instruction; nothing else knows any instruction by its bytes.
//! - [`value`], [`state`], [`stores`] and [`step`] are what is known, and how instructions change it.
//! - [`code`], [`walk`], [`flow`], [`jumps`], [`callees`], [`assume`] and [`crossing`] follow the flow.
//! - [`landings`] reads where calls go on that throw.
//! - [`rules`] says which ways through the code aren't taken.
//! - [`judge`], [`expression`], [`verdicts`], [`follow`], [`judging`] and [`correct_row`] compare rows with what is known.
//! - [`kinds`], [`finding`], [`coverage`], [`finding_text`] and [`explain`] say what was found, [`standing`] which of
//!   several rows is right, and [`error`] why an FDE can't be judged.

#![warn(missing_docs)]
#![deny(unsafe_op_in_unsafe_fn)]

pub mod aarch64;
pub mod assume;
pub mod callees;
pub mod code;
pub mod correct_row;
pub mod coverage;
pub mod crossing;
pub mod error;
pub mod explain;
pub mod expression;
pub mod finding;
pub mod finding_text;
pub mod flow;
pub mod follow;
pub mod i386;
pub mod instruction;
pub mod judge;
pub mod judging;
pub mod jumps;
pub mod kinds;
pub mod landings;
mod last_verdict;
pub mod lint;
pub mod machine;
pub mod module;
pub mod register;
pub mod rules;
pub mod standing;
pub mod state;
pub mod step;
pub mod stores;
pub mod table;
pub mod value;
pub mod verdicts;
pub mod walk;
mod x86;
pub mod x86_64;
mod zydis;
