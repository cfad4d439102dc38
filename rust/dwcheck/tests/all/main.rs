//! The tests of this crate that use its public items, but for those of memory.rs, as one program: to
//! compile and link one takes a small part of the time of one for each file. They run as threads of one
//! process, so none changes what a process has once.

mod common;

mod expressions;
mod fault_names;
mod hostile;
mod in_place;
mod kept_rows;
mod lists;
mod modules;
mod reading;
mod registers;
mod rows;
mod sections;
mod threads;
mod walks;
