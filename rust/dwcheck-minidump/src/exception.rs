//! Why the process ended (`MINIDUMP_EXCEPTION_STREAM`).

use crate::context::registers_of_context;
use crate::directory::Directory;
use crate::file::{fields, read_location, File, Location};
use crate::problem::{Problem, Problems};
use crate::system::Machine;
use crate::threads::Registers;
use dwcheck_types::cursor::ReadError;

/// The most numbers that an exception may have beside its address.
const PARAMETERS: u64 = 15;

/// The codes of minidumps that a program asked for and went on: Breakpad's, and Crashpad's.
const NO_CRASH: [u32; 2] = [u32::MAX, 0x0517_a7ed];

/// The highest number of a signal.
const LAST_SIGNAL: u32 = 64;

/// What LLDB 20 puts where the cause of a signal is, which it doesn't keep: `LLDB`.
const LLDB: u32 = 0x4c4c_4442;

/// Why the process ended.
#[derive(Clone, Debug, PartialEq, Eq)]
pub struct Exception {
    /// The id of the thread that crashed.
    pub thread: u32,
    /// The number of the signal. `None` if the program asked for the minidump, and went on.
    pub signal: Option<u32>,
    /// Its cause (`si_code`). `None` if the file doesn't say.
    pub cause: Option<i32>,
    /// The address of the fault (`si_addr`), if the cause is known and is one with an address.
    pub address: u64,
    /// The registers of the thread when it crashed. `None` if they can't be read.
    pub registers: Option<Registers>,
}

/// The exception that ended the process. LLDB writes one for each thread that has stopped for a reason; then the first
/// one with a signal counts.
pub(crate) fn read_exception(
    file: File<'_>,
    directory: &Directory,
    machine: Machine,
    problems: &mut Problems,
) -> Option<Exception> {
    let read = |place: &Location| parse_exception(file.held(*place)).ok();
    let all = || directory.exceptions.iter().filter_map(read);
    let (mut exception, context) = all().find(|(found, _)| found.signal.is_some()).or_else(|| all().next())?;
    exception.registers = file.whole(context).and_then(|context| registers_of_context(machine, context));
    if exception.registers.is_none() {
        problems.add(Problem::ExceptionContext);
    }
    let mut held = exception.registers.iter().flat_map(|registers| &registers.general);
    let is_instruction = held.any(|held| *held == (machine.abi().program_counter, exception.address));
    // LLDB has the address of the instruction in the place of that of the fault, and no cause.
    if exception.cause == Some(LLDB as i32) || exception.cause == Some(0) && is_instruction {
        (exception.cause, exception.address) = (None, 0);
    }
    Some(exception)
}

fn parse_exception(bytes: &[u8]) -> Result<(Exception, Location), ReadError> {
    let mut fields = fields(bytes);
    let thread = fields.number(4)? as u32;
    fields.take(4)?;
    let (code, flags) = (fields.number(4)? as u32, fields.number(4)? as u32);
    // The address of another exception.
    fields.take(8)?;
    let address = fields.number(8)?;
    // The count of the numbers, and these.
    fields.take(8 + 8 * PARAMETERS)?;
    let context = read_location(&mut fields)?;
    let signal = Some(code).filter(|code| !NO_CRASH.contains(code) && (1..=LAST_SIGNAL).contains(code));
    Ok((Exception { thread, signal, cause: Some(flags as i32), address, registers: None }, context))
}
