//! Reads minidumps of Linux programs: what Crashpad, Breakpad and LLDB keep of a process that crashed.
//!
//! A minidump is a header, a directory of streams, and the streams, which refer to other parts of the file by their
//! offsets (`RVA`). Microsoft documents its header and the streams that all systems have
//! (<https://learn.microsoft.com/en-us/windows/win32/api/minidumpapiset/>). Breakpad's header
//! `src/google_breakpad/common/minidump_format.h` has those of Linux and the registers of each machine, and Crashpad's
//! `minidump/minidump_extensions.h` has Crashpad's own stream.
//!
//! A file may say anything, so nothing here trusts it. An offset or a size that leads past the end of the file loses
//! what it leads to, and [`Minidump::problems`] says what and where. What is read takes memory in proportion to the
//! size of the file, even if its parts overlap: what was copied counts against a budget of that size.
//!
//! ```
//! use dwcheck_minidump::{Minidump, MinidumpError};
//!
//! let error = Minidump::read(b"MDMP, but not a whole header").unwrap_err();
//! assert_eq!(error, MinidumpError::Header);
//! assert_eq!(error.to_string(), "the header of a minidump has 32 bytes, and the file ends before that");
//! ```

#![forbid(unsafe_code)]
#![warn(missing_docs)]

mod budget;
mod context;
mod crashpad;
mod directory;
mod exception;
mod file;
mod linux;
mod memory;
mod modules;
mod problem;
mod system;
mod threads;

pub use crashpad::Annotation;
pub use exception::Exception;
pub use memory::Range;
pub use modules::{BuildId, Module};
pub use problem::{MinidumpError, Problem, StreamKind};
pub use system::Machine;
pub use threads::{Registers, Thread};

use budget::Budget;
use crashpad::Crashpad;
use directory::Directory;
use file::File;
use problem::Problems;

/// What a minidump has of a process.
#[derive(Clone, Debug, Default)]
pub struct Minidump<'data> {
    /// The machine for which its program is.
    pub machine: Machine,
    /// The threads: first the one that crashed, with the registers that the exception has, and then the others, in the
    /// order of the file.
    pub threads: Vec<Thread>,
    /// The program and the libraries that were loaded, in the order of the file: Crashpad and Breakpad begin with the
    /// program.
    pub modules: Vec<Module<'data>>,
    /// Memory, the stacks first. Ranges may have addresses in common.
    pub memory: Vec<Range<'data>>,
    /// Why the process ended. `None` if it went on, or if the file doesn't say.
    pub exception: Option<Exception>,
    /// The id of the process.
    pub process: Option<u32>,
    /// The name of its first thread, as Linux knows it.
    pub name: Option<String>,
    /// Its command line, with spaces between the words.
    pub command: Option<String>,
    /// The lines of `/proc/PID/maps`. `None` in Crashpad's dumps.
    pub maps: Option<&'data [u8]>,
    /// The auxiliary vector (`/proc/PID/auxv`). `None` in Crashpad's dumps.
    pub auxiliary: Option<&'data [u8]>,
    /// What the program told Crashpad about itself, such as its version.
    pub annotations: Vec<Annotation>,
    /// The bits of an address that aren't part of an authentication code (aarch64). `None` if the file doesn't say.
    pub address_mask: Option<u64>,
    problems: Vec<Problem>,
}

impl<'data> Minidump<'data> {
    /// The first bytes of a minidump that is read.
    pub const MAGIC: &'static [u8] = b"MDMP";

    /// Whether a file begins as a minidump, of either byte order.
    pub fn is_one(data: &[u8]) -> bool {
        let magic = data.get(..Minidump::MAGIC.len()).unwrap_or(&[]);
        magic == Minidump::MAGIC || magic.iter().rev().eq(Minidump::MAGIC)
    }

    /// Reads a minidump. Takes time and memory in proportion to the size of the file.
    ///
    /// # Errors
    ///
    /// If the file isn't a minidump of a Linux program for a machine that is known, or has no list of threads. What
    /// else can't be read is one of the [`problems`](Self::problems).
    pub fn read(data: &'data [u8]) -> Result<Self, MinidumpError> {
        let file = File::new(data);
        let mut problems = Problems::default();
        let mut budget = Budget::new(data.len());
        let directory = Directory::read(file, &mut problems)?;
        let machine = system::read_machine(file, &directory)?;
        let (mut threads, stacks) = threads::read_threads(file, &directory, machine, &mut budget, &mut problems)?;
        threads::read_thread_names(file, &directory, &mut threads, &mut budget, &mut problems);
        let modules = modules::read_modules(file, &directory, &mut budget, &mut problems);
        let exception = exception::read_exception(file, &directory, machine, &mut problems);
        if let Some(exception) = &exception {
            threads::move_crashed_thread_first(&mut threads, exception);
        }
        let mut memory = stacks;
        memory::read_ranges(file, &directory, &mut memory, &mut problems);
        let Crashpad { annotations, address_mask } =
            crashpad::read_crashpad(file, &directory, &mut budget, &mut problems);
        let status = linux::read_status(file, &directory);
        Ok(Minidump {
            machine,
            threads,
            modules,
            memory,
            exception,
            process: linux::read_process_id(file, &directory).or(status.process),
            name: status.name,
            command: linux::read_command(file, &directory, &mut budget),
            maps: directory.bytes(file, StreamKind::Maps),
            auxiliary: directory.bytes(file, StreamKind::Auxiliary),
            annotations,
            address_mask,
            problems: problems.all(),
        })
    }

    /// What can't be read, and why: at most one problem for each stream and kind.
    pub fn problems(&self) -> &[Problem] {
        &self.problems
    }
}
