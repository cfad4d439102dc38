//! The arguments of the command line.

mod crashes;
mod files;
mod runs;
mod store;

pub use crashes::{DebuginfodArguments, HandlerArguments, StackArguments, VarsArguments};
pub use files::{CompareArguments, LintArguments, ReportArguments, StoreArguments, SurveyArguments, SymbolsArguments};
pub use runs::{Format, ProfileArguments, TraceArguments};
pub use store::{
    ExportFormat, StoreCommand, StoreDiffArguments, StoreExportArguments, StoreMergeArguments, StoreReportArguments,
    StoresArguments,
};

use clap::{Args, Parser, Subcommand};
use std::ffi::OsString;
use std::path::PathBuf;

/// Check the unwind tables of ELF programs, unwind by them, and print the stacks of core files.
#[derive(Debug, Parser)]
#[command(name = "dwcheck-elf", version, after_help = STATUS)]
pub struct Arguments {
    /// What to do.
    #[command(subcommand)]
    pub command: Command,
}

const STATUS: &str =
    "Exit status: 0 accepted, or answered; 1 refused; 2 a bad argument; 3 a file that can't be read or checked";

/// What can be done.
#[derive(Debug, Subcommand)]
pub enum Command {
    /// Check the frame sections and location lists of programs
    #[command(after_help = "Example: dwcheck-elf check --all /bin/ls")]
    Check(CheckArguments),
    /// Show each FDE, and the rows of its unwind table
    #[command(after_help = "Example: dwcheck-elf rows /bin/ls")]
    Rows(RowsArguments),
    /// Show the row of an address
    #[command(after_help = "Example: dwcheck-elf row ./program main+4")]
    Row(RowArguments),
    /// Show the caller of the frame at an address
    #[command(after_help = "Example: dwcheck-elf unwind ./program main+4 state")]
    Unwind(UnwindArguments),
    /// Show the frames of a stack, from the frame at an address up
    #[command(after_help = "Example: dwcheck-elf backtrace --load 0x555555554000 ./program 0x555555555139 state 64")]
    Backtrace(BacktraceArguments),
    /// Show where a variable is at an address, by a location list
    #[command(after_help = "Example: dwcheck-elf locs ./program 0xc main main+4")]
    Locs(LocsArguments),
    /// Print the stack of each thread of a core file
    #[command(after_help = "Example: dwcheck-elf stack ./program core")]
    Stack(StackArguments),
    /// Show the variables that are in scope at an address, where they are, and their values
    #[command(after_help = "Example: dwcheck-elf vars --core core --frame 2")]
    Vars(VarsArguments),
    /// Check all ELF files in folders
    #[command(after_help = "Example: dwcheck-elf survey /usr/bin /usr/lib")]
    Survey(SurveyArguments),
    /// Compare the rows of unwind tables with the code that they describe (x86-64, aarch64)
    #[command(after_help = LINT_STATUS)]
    Lint(LintArguments),
    /// Compare the unwind tables of programs with each other
    #[command(after_help = COMPARE_STATUS)]
    Compare(CompareArguments),
    /// Write Breakpad's symbol files: names, lines and rows of programs, for crash reports (x86-64, i386, aarch64)
    #[command(after_help = SYMBOLS_STATUS)]
    Symbols(SymbolsArguments),
    /// Run a program, and compare rows with what is so meanwhile (x86-64)
    #[command(after_help = TRACE_STATUS)]
    Trace(TraceArguments),
    /// Write the stacks that perf recorded, as folded stacks or in another format
    #[command(after_help = PROFILE_EXAMPLE)]
    Profile(ProfileArguments),
    /// Write one page about the frame sections of programs, or about how those of two builds differ
    #[command(after_help = REPORT_EXAMPLES)]
    Report(ReportArguments),
    /// Compare, join, show and write stores, in which --store keeps what is found
    Store(StoresArguments),
    /// Print the completions of a shell, for its folder of completions
    Completions(CompletionsArguments),
}

/// The arguments of `completions`.
#[derive(Args, Debug)]
pub struct CompletionsArguments {
    /// The shell: bash, elvish, fish, powershell or zsh
    #[arg(value_enum)]
    pub shell: clap_complete::Shell,
}

const PROFILE_EXAMPLE: &str =
    "Example: perf record -e cpu-clock --call-graph dwarf ./program && dwcheck-elf profile > stacks.folded
Exit status: 0 written; 2 a bad argument; 3 a recording that can't be read to its end";

const REPORT_EXAMPLES: &str = "Examples: dwcheck-elf report /bin/bash -o report.html
          dwcheck-elf report --compare old/program new/program -o report.html";

const TRACE_STATUS: &str = "Example: dwcheck-elf trace --module 'libcrypto*' -- openssl speed rsa512
Exit status: that of the program, or 128 plus the number of the signal that ended it. With --status, and of
--pid: 0 nothing found; 1 findings; 2 a bad argument; 3 a program that can't be traced";

const LINT_STATUS: &str = "Example: dwcheck-elf lint --explain /usr/bin/openssl
Exit status: 0 nothing found; 1 findings; 2 a bad argument; 3 a file that can't be read";

const COMPARE_STATUS: &str = "Example: dwcheck-elf compare build/
Exit status: 0 nothing differs; 1 findings; 2 a bad argument; 3 a file that can't be read";

const SYMBOLS_STATUS: &str = "Example: dwcheck-elf symbols -o symbols build/program build/libuser.so
Exit status: 0 written; 1 refused by --strict; 2 a bad argument; 3 a file that can't be read or written";

/// What to print in addition to the result.
#[derive(Args, Clone, Copy, Debug)]
pub struct Notes {
    /// Say how often a frame section has what isn't a rule, or is read in another way than it is written: FDEs of
    /// signal frames, records of length 0, exact copies of an FDE, DW_CFA_def_cfa_register before a rule; in
    /// .debug_frame, DW_CFA_GNU_args_size and DW_CFA_AARCH64_negate_ra_state
    #[arg(long)]
    pub notes: bool,
}

#[derive(Args, Debug)]
pub struct CheckArguments {
    /// ELF files: programs, libraries, unlinked objects, kernel modules
    #[arg(required = true)]
    pub programs: Vec<PathBuf>,
    /// List every CIE, FDE and expression of location lists that is refused, not only the first one
    #[arg(long)]
    pub all: bool,
    /// List the entries of location lists that break no rule but are most likely mistakes, such as two that share
    /// addresses and have different expressions
    #[arg(long)]
    pub doubtful: bool,
    /// Leave location lists out
    #[arg(long)]
    pub no_lists: bool,
    /// Compare the rows of .eh_frame with gimli's, too
    #[arg(long)]
    pub compare: bool,
    #[command(flatten)]
    pub notes: Notes,
}

#[derive(Args, Debug)]
pub struct RowsArguments {
    /// An ELF file
    pub program: PathBuf,
    #[command(flatten)]
    pub notes: Notes,
}

#[derive(Args, Debug)]
pub struct RowArguments {
    /// An ELF file
    pub program: PathBuf,
    /// An address, such as 0x1130, or a function, such as main, main+4 or 'twice(int)+4'
    pub address: String,
    /// Where the program is loaded. An address that is a number is as loaded
    #[arg(long, value_name = "ADDRESS", default_value = "0x0")]
    pub load: String,
}

/// The modules of a process.
#[derive(Args, Debug)]
pub struct Modules {
    /// Where the program is loaded. An address that is a number is as loaded
    #[arg(long, value_name = "ADDRESS", default_value = "0x0")]
    pub load: String,
    /// A further module: where it is loaded, and its ELF file. Can be given several times
    #[arg(long, value_name = "LOAD=FILE")]
    pub module: Vec<OsString>,
}

#[derive(Args, Debug)]
pub struct UnwindArguments {
    /// An ELF file
    pub program: PathBuf,
    /// An address, such as 0x1130, or a function, such as main, main+4 or 'twice(int)+4'
    pub address: String,
    /// A state file: registers, memory, and which registers are callee-saved
    pub state: PathBuf,
    #[command(flatten)]
    pub modules: Modules,
}

#[derive(Args, Debug)]
pub struct BacktraceArguments {
    #[command(flatten)]
    pub frame: UnwindArguments,
    /// Print at most this many frames, up to 65535
    pub limit: String,
}

#[derive(Args, Debug)]
pub struct LocsArguments {
    /// An ELF file
    pub program: PathBuf,
    /// The offset of the list in .debug_loclists, such as 0xc
    pub list: String,
    /// The base address of the list's unit, such as 0x1130, or a function
    pub base: String,
    /// An address, such as 0x1130, or a function, such as main, main+4 or 'twice(int)+4'
    pub address: String,
    /// A state file: registers, memory, and the CFA, frame base and object address
    #[arg(long, value_name = "FILE")]
    pub state: Option<PathBuf>,
}
