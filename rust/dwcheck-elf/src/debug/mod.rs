//! Debug information: units, source lines, inlined functions, expressions, location lists, variables.
//!
//! It uses `elf` and `cfi`.

pub mod debug_info;
pub mod expression;
pub mod inlined;
pub mod lines;
pub mod lists;
pub mod loclists;
pub mod variables;
