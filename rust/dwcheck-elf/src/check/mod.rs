//! Whole programs checked: their frame sections and location lists, what is wrong with them in words, and what is given
//! to the crate `dwcheck-lint`.
//!
//! It uses `elf`, `cfi` and `debug`.

pub mod compare;
pub mod fault;
pub mod inspect;
pub mod lint;
pub mod lists;
pub mod page;
pub mod program_report;
pub mod sframe;
pub mod symbols;
pub mod verdict;
