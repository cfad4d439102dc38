//! The command `stack --handler`: reports the crash of a process whose core file the kernel passes on standard input
//! (`core_pattern`). Nothing is stored but the report.
//!
//! The work is done in a process of its own, whose time and memory are limited. The dying process is let go before
//! anything is written.

mod folder;
mod limited;
mod log;
mod report;
mod work;

use crate::arguments::{HandlerArguments, StackArguments};
use crate::crash::Crash;
use crate::end::{Done, Failure};
use folder::{Folder, Keep};
use limited::{run_limited, Limits};
use nix::fcntl::{flock, FlockArg};
use report::Report;
use std::fs::File;
use std::io::{self, Write};
use std::os::unix::io::AsRawFd;
use std::path::PathBuf;
use std::time::Duration;

/// The most bytes of a report. A thread with 10,000 frames has about one million.
const MOST_BYTES: usize = 16 << 20;

/// Reports the crash of a process: to the folder and the logs that are named, or on `out`.
pub fn handle(arguments: &StackArguments, id: u32, out: &mut impl Write) -> Result<Done, Failure> {
    let asked = &arguments.handler;
    let mode = asked.mode()?;
    let limits = Limits {
        time: Duration::from_secs(asked.time_limit),
        memory: asked.memory_limit.saturating_mul(1 << 20),
        output: MOST_BYTES,
    };
    // It is held until the end.
    let _lock = lock_process(id)?;
    let crash = Crash::of(id);
    let ran = run_limited(limits, |out| work::write_report(arguments, &crash, limits.memory, out));
    let ran = ran.map_err(|error| Failure::File(format!("process {}: {}", id, error)))?;
    let report = Report::of(ran.output, arguments.json, &crash, ran.end);
    let folder = asked.output.as_ref().map(|path| Folder { path, keep: asked.keep(), mode });
    let stored = folder.map(|folder| folder.store(&crash.file_name(arguments.json), report.bytes())).transpose();
    let path = stored.as_ref().ok().and_then(Option::as_ref);
    let logged = write_logs(asked, &crash, &report, path, stored.as_ref().err());
    if asked.output.is_none() && !asked.syslog && !asked.journal {
        out.write_all(report.bytes())?;
    }
    stored?;
    logged?;
    match report.failure() {
        Some(why) => Err(Failure::File(format!("process {}: {}", id, why))),
        None => Ok(Done::Accepted),
    }
}

/// Writes to the logs that are asked for. They are told too if the report couldn't be stored.
fn write_logs(
    asked: &HandlerArguments,
    crash: &Crash,
    report: &Report,
    path: Option<&PathBuf>,
    failed: Option<&Failure>,
) -> Result<(), Failure> {
    let message = report.message(crash, path, failed);
    if asked.syslog {
        log::to_syslog(&message).map_err(|error| cannot_log("syslog", &error))?;
    }
    if asked.journal {
        log::to_journal(&message, crash, report.signal(), path).map_err(|error| cannot_log("the journal", &error))?;
    }
    Ok(())
}

fn cannot_log(log: &str, error: &io::Error) -> Failure {
    Failure::File(format!("cannot write to {}: {}", log, error))
}

/// Keeps other handlers from the same process. Only who may read the memory of a process may lock this file, so that no
/// other user can keep its crash from being reported. `None` if the process is gone.
fn lock_process(id: u32) -> Result<Option<File>, Failure> {
    let memory = match File::open(format!("/proc/{}/mem", id)) {
        Ok(memory) => memory,
        Err(_) => return Ok(None),
    };
    match flock(memory.as_raw_fd(), FlockArg::LockExclusiveNonblock) {
        Ok(()) => Ok(Some(memory)),
        Err(_) => Err(Failure::File(format!("process {}: another handler works on it", id))),
    }
}

impl HandlerArguments {
    /// The rights of files of reports.
    fn mode(&self) -> Result<u32, Failure> {
        let mode = u32::from_str_radix(&self.mode, 8).ok().filter(|mode| *mode <= 0o777);
        let bad = || Failure::Argument(format!("bad argument: --mode is {}, which isn't as 640", self.mode));
        mode.ok_or_else(bad)
    }

    /// What a folder keeps.
    fn keep(&self) -> Keep {
        Keep {
            reports: self.keep,
            bytes: self.keep_megabytes.saturating_mul(1 << 20),
            age: Duration::from_secs(self.keep_days.saturating_mul(24 * 60 * 60)),
        }
    }
}
