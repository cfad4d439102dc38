//! All tests of this crate that use its public items, as one program: to compile and link one takes a
//! small part of the time of one for each file. They run as threads of one process, so none changes what
//! a process has once.

mod common;

mod aarch64;
mod aarch64_kinds;
mod assumptions;
mod compiled;
mod i386;
mod instructions;
mod planted;
mod quiet;
mod slots;
mod undecoded;
mod vectors;
