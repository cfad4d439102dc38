//! Reads the location lists of a program, `.debug_loc` of DWARF 4 and before and `.debug_loclists` of DWARF
//! 5.
//!
//! Compilers write things between the lists of a section that aren't entries, and entries and operations
//! that `dwcheck` doesn't take. So each list is found by the entries of `.debug_info` that refer to it, and
//! rewritten as a table of its own, with holes for the operations that `dwcheck` doesn't know
//! ([`Unsupported`]). `dwcheck` checks the tables of a unit as one section. Each list is also compared: gimli's
//! entries of the original have to be those of the table.

mod around;
mod contents;
mod coverage;
mod describe;
mod entry;
mod expression;
mod lints;
mod list_section;
mod look_ups;
mod operations;
mod problem;
mod references;
mod single;
mod unit;
mod unsupported;
mod validate;

pub use contents::{Contents, Doubtful};
pub use coverage::Bytes;
pub use lints::{Lint, Lints};
pub use look_ups::LookUps;
pub use problem::Limit;
pub use unsupported::{Unsupported, UnsupportedAt};
pub use validate::Difference;

pub(crate) use describe::describe_variables;
pub(crate) use expression::{rewrite_expression, Rewritten, Scope};
pub(crate) use lints::Surroundings;
pub(crate) use list_section::{every_problem, first_fault_of_tables, Section};
pub(crate) use problem::{Kind, Problem};
pub(crate) use references::{abbreviations_length, references_of_unit, Reference, References};
pub(crate) use single::expression_at;
pub(crate) use unit::{Source, UnitLists};
pub(crate) use validate::validate_unit_lists;
