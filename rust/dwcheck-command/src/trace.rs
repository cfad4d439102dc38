//! The commands `trace`, which runs a program and compares rows with what is so meanwhile, and
//! `lint --confirm`, which does that where the lint finds something.

#[cfg(all(target_os = "linux", target_arch = "x86_64"))]
mod run;

use crate::arguments::{LintArguments, TraceArguments};
use crate::end::{Done, Failure};
use std::io::Write;

/// Runs a program, and writes what is found.
#[cfg(all(target_os = "linux", target_arch = "x86_64"))]
pub fn trace(arguments: &TraceArguments) -> Result<Done, Failure> {
    run::trace(arguments)
}

/// Runs a program, and says of each finding of the lint whether it is so.
#[cfg(all(target_os = "linux", target_arch = "x86_64"))]
pub fn confirm(arguments: &LintArguments, out: &mut impl Write) -> Result<Done, Failure> {
    run::confirm(arguments, out)
}

#[cfg(not(all(target_os = "linux", target_arch = "x86_64")))]
pub fn trace(_: &TraceArguments) -> Result<Done, Failure> {
    Err(Failure::File("programs are traced on Linux for x86-64 only".to_string()))
}

#[cfg(not(all(target_os = "linux", target_arch = "x86_64")))]
pub fn confirm(_: &LintArguments, _: &mut impl Write) -> Result<Done, Failure> {
    Err(Failure::File("programs are traced on Linux for x86-64 only".to_string()))
}
