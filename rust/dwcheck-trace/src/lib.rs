//! Compares the rows of unwind tables with values while a program runs.
//!
//! A program is run by ptrace, some of it step by step. At each instruction that is stepped, the CFA, the
//! return address and the callee-saved registers that `dwcheck` computes by the row are compared with
//! what they are: a shadow stack has the address of each return address, the return address, and the
//! registers at the function's entry. docs/TRACE.md says how it decides.
//!
//! - [`start`], [`ptrace`], [`registers`] and [`alarm`] are the system's side.
//! - [`files`] and [`space`] say which code is where, and [`breakpoints`] changes it.
//! - [`shadow`] is what is true of a thread's frames, [`follow`] keeps it step by step, and [`judge`]
//!   compares it with the rows, but for what [`rules`] leaves out.
//! - [`tracer`] handles what threads report, [`windows`] decides what is stepped, [`batch`]
//!   what is run at once, up to [`ends`], by what is [`predicted`], and [`release`] lets go.
//! - [`sample`] steps a process that runs already, for which [`guard`] makes a process.
//! - [`confirm`] says of each finding of the lint whether it is so.
//! - [`report`] makes findings and counts of what was seen.

#![cfg(all(target_os = "linux", target_arch = "x86_64"))]
#![deny(unsafe_code)]
#![warn(missing_docs)]

mod alarm;
mod batch;
mod batch_ends;
mod breakpoints;
mod confirm;
mod files;
mod follow;
mod guard;
mod judge;
mod predicted;
mod ptrace;
mod registers;
mod release;
mod rules;
mod sample;
mod shadow;
mod site;
mod space;
mod start;
mod thread;
mod trace_findings;
mod tracer;
mod windows;

pub use confirm::{Confirmation, Confirmed, Suspect};
pub use files::{ModuleFile, ModuleFileError};
pub use guard::run_guarded;
pub use rules::{Rule, RuleCounts};
pub use trace_findings::{Counts, Coverage, FdeCoverage, FileReport, Found};
pub use tracer::Tracer;

use nix::errno::Errno;
use std::fmt;
use std::io;
use std::time::Duration;

/// What is stepped, and how long.
#[derive(Clone, Debug)]
pub struct Options {
    /// The modules whose functions are stepped. Empty if all are.
    pub modules: Vec<glob::Pattern>,
    /// How many calls of each function are stepped.
    pub calls: u64,
    /// Whether all instructions of all functions are stepped.
    pub all: bool,
    /// After how long the program is let go.
    pub time: Option<Duration>,
    /// After how many instructions without one that is seen for the first time the rest of a function
    /// isn't stepped.
    pub idle: u64,
    /// Whether the processes that the program starts are traced too.
    pub follows_forks: bool,
    /// Whether only functions are stepped in which the lint finds something.
    pub confirms: bool,
}

/// How the program ended.
#[derive(Clone, Copy, Debug, PartialEq, Eq)]
pub enum End {
    /// It ended with this status.
    Exited(i32),
    /// This signal ended it.
    Killed(i32),
    /// It was let go.
    Released,
}

/// Why a program can't be traced.
#[derive(Debug)]
pub enum TraceError {
    /// It can't be started.
    NotStarted(io::Error),
    /// It may not be traced.
    NotTraced(Errno),
    /// There is no such process.
    NoProcess,
    /// Another process, with this id, traces it.
    TracedBy(u32),
    /// It isn't a program of x86-64, as this program is.
    Machine(String),
    /// It is one that gets another user's or group's rights, which it doesn't get if it is traced.
    Privileged(String),
}

impl fmt::Display for TraceError {
    fn fmt(&self, f: &mut fmt::Formatter<'_>) -> fmt::Result {
        match self {
            TraceError::NotStarted(error) => write!(f, "it can't be started: {}", error),
            TraceError::NotTraced(error) => write!(f, "it can't be traced: {}", error.desc()),
            TraceError::NoProcess => f.write_str("there is no such process, or it ended"),
            TraceError::TracedBy(pid) => write!(f, "the process {} traces it already", pid),
            TraceError::Machine(program) => write!(f, "{} isn't a 64-bit program for x86-64", program),
            TraceError::Privileged(program) => {
                write!(
                    f,
                    "{} is a setuid or setgid program, which has no more rights than its caller if it is traced",
                    program
                )
            }
        }
    }
}

impl std::error::Error for TraceError {
    fn source(&self) -> Option<&(dyn std::error::Error + 'static)> {
        match self {
            TraceError::NotStarted(error) => Some(error),
            TraceError::NotTraced(error) => Some(error),
            _ => None,
        }
    }
}
