//! Processes: core files, copies of processes that run, their modules, and the stacks of their threads.
//!
//! It uses `elf`, `cfi` and `debug`.

pub mod core_file;
pub mod dying;
pub mod live;
pub mod maps;
pub mod modules;
pub mod stack;
pub mod state_file;
pub mod symbol_store;
mod used_stacks;
pub mod without_row;
