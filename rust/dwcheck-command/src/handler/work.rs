//! Makes the report of a crash: the stacks of the threads of a process that the kernel holds.

use super::limited::Work;
use crate::arguments::StackArguments;
use crate::crash::Crash;
use crate::end::Failure;
use crate::stack::write_stacks;
use dwcheck_elf::core_file::{CoreError, Files};
use dwcheck_elf::dying::{Dying, Room};
use dwcheck_elf::live::DATA_LIMIT;
use dwcheck_elf::stack::Stacks;
use nix::unistd::close;
use serde_json::json;
use std::io::{self, Write};
use std::os::unix::io::AsRawFd;
use std::path::Path;

/// Which part of the memory the core file may take, and which the stacks.
const PART: u64 = 4;

/// Writes the report. `memory` is how much memory there is.
pub fn write_report(
    arguments: &StackArguments,
    crash: &Crash,
    memory: u64,
    out: &mut dyn Write,
) -> Result<Work, Failure> {
    let part = memory / PART;
    // The rest is for debug information.
    let has_data = arguments.vars && part >= DATA_LIMIT;
    let room = Room { core: usize::try_from(part).unwrap_or(usize::MAX), stacks: part, has_data };
    let dying = match read_input(crash.id, room) {
        Ok(dying) => dying,
        Err(error) => return Ok(write_failure(arguments, crash, &error, out)?),
    };
    let core = match dying.core() {
        Ok(core) => core,
        Err(error) => return Ok(write_failure(arguments, crash, &error, out)?),
    };
    let mut warnings = Vec::new();
    let files = match dying.not_used() {
        None => Files::of_live(&core, crash.id),
        Some(why) => {
            warnings.push(format!("process {}: {}: only what its core file has is known", crash.id, why));
            Files::read(&core, Path::new("/"))
        }
    };
    if arguments.vars && !has_data {
        let needed = (PART * DATA_LIMIT) >> 20;
        warnings.push(format!("values of variables on the heap need --memory-limit {}", needed));
    }
    let mut stacks = Stacks::of(&core, &files);
    write_stacks(arguments, &core, (&mut stacks, None), Some(crash), &mut warnings, out)?;
    if !arguments.json {
        warnings.iter().try_for_each(|warning| writeln!(out, "warning: {}", warning))?;
    }
    Ok(Work::Done)
}

/// Reads the core file on standard input, which is closed then: the caller has it too, and decides until when the process
/// is held.
fn read_input(id: u32, room: Room) -> Result<Dying, CoreError> {
    let mut input = io::stdin().lock();
    let dying = Dying::read(id, &mut input, room);
    let _ = close(io::stdin().as_raw_fd());
    dying
}

/// Writes a report without stacks.
fn write_failure(
    arguments: &StackArguments,
    crash: &Crash,
    error: &CoreError,
    out: &mut dyn Write,
) -> io::Result<Work> {
    let why = format!("its core file: {}", error);
    match arguments.json {
        true => {
            let report = json!({ "crash": crash.json(), "threads": [], "modules": [], "warnings": [why] });
            writeln!(out, "{}", report)?;
        }
        false => writeln!(out, "{}warning: {}", crash, why)?,
    }
    Ok(Work::Unread)
}
