//! The arguments of `stack` and `vars`.

use clap::Args;
use std::path::PathBuf;

/// Whether servers are asked.
#[derive(Args, Clone, Copy, Debug)]
pub struct DebuginfodArguments {
    /// Don't ask the servers that DEBUGINFOD_URLS names for programs and debug information that aren't here
    #[arg(long)]
    pub no_debuginfod: bool,
}

#[derive(Args, Debug)]
pub struct StackArguments {
    /// A core file or a minidump of x86-64, i386 or aarch64, which may be compressed by zstd, lz4, xz or gzip; before it,
    /// the program, if it isn't where the core file says
    #[arg(value_name = "[PROGRAM] CORE", num_args = 1..=2, required_unless_present_any = ["core", "pid", "handler"])]
    pub files: Vec<PathBuf>,
    /// The core file, as debuggers take it, such as by coredumpctl debug --debugger=dwcheck-elf -A stack
    #[arg(short, long, value_name = "CORE", conflicts_with = "pid")]
    pub core: Option<PathBuf>,
    /// Print the stacks of this process, which goes on as soon as they are copied
    #[arg(long, value_name = "PID", conflicts_with_all = ["files", "root", "path"])]
    pub pid: Option<u32>,
    /// Only the thread with this id. Can be given several times
    #[arg(long, value_name = "TID")]
    pub tid: Vec<u32>,
    /// The folder in which the paths of the core file are looked up, and files of debug information, such as a copy of
    /// another machine's files
    #[arg(long, value_name = "FOLDER", default_value = "/")]
    pub root: PathBuf,
    /// Look for the programs and libraries of the core file or minidump in this folder and those below it too, by name
    /// and build id. Can be given several times
    #[arg(long, value_name = "FOLDER")]
    pub path: Vec<PathBuf>,
    /// Walk and name frames by Breakpad's symbol files where the ELF file of a module isn't there: those in this store,
    /// as NAME/ID/NAME.sym, or this file. Can be given several times
    #[arg(long, value_name = "STORE", conflicts_with = "pid")]
    pub symbols: Vec<PathBuf>,
    /// With --symbols: keep an index beside each symbol file that is used, as NAME.sym.index, so that a large one
    /// answers at once
    #[arg(long, requires = "symbols")]
    pub keep_index: bool,
    #[command(flatten)]
    pub debuginfod: DebuginfodArguments,
    /// Print at most this many frames of each thread
    #[arg(long, value_name = "N", default_value_t = 10_000)]
    pub limit: usize,
    /// Leave out frames that are guesses: those that no row of an unwind table gives
    #[arg(long)]
    pub strict: bool,
    /// Where nothing else finds a caller, take the first word of the stack that may be a return address. Such frames
    /// are guesses, and may be those of calls that have ended
    #[arg(long, conflicts_with = "strict")]
    pub scan: bool,
    /// Leave out inlined functions
    #[arg(long)]
    pub no_inline: bool,
    /// Leave out files and lines of source code
    #[arg(long)]
    pub no_source: bool,
    /// Show names of functions as they are in the file, not demangled
    #[arg(long)]
    pub raw_names: bool,
    /// Print the registers of each frame, as far as they are known
    #[arg(long)]
    pub registers: bool,
    /// Print the parameters and variables of each frame with their values, as far as they are known; not with --group
    #[arg(long)]
    pub vars: bool,
    /// With --vars: follow structures, arrays and containers this deep
    #[arg(long, value_name = "N", default_value_t = 1, requires = "vars")]
    pub depth: usize,
    /// With --vars: show this many elements of an array or a container, and characters of a text, at most 10000
    #[arg(long, value_name = "N", default_value_t = 200, requires = "vars", value_parser = clap::value_parser!(u16).range(1..=10_000))]
    pub elements: u16,
    /// With --vars: follow this many pointers to objects, one after another
    #[arg(long, value_name = "N", default_value_t = 0, requires = "vars", value_parser = clap::value_parser!(u8).range(0..=64))]
    pub pointers: u8,
    /// Print the stack of several threads once if it is the same
    #[arg(long, conflicts_with = "vars")]
    pub group: bool,
    /// Print where in its file each frame is, and after the stacks all modules with their build ids
    #[arg(long)]
    pub modules: bool,
    /// Write one document of JSON, whose keys docs/OUTPUT.md lists
    #[arg(long)]
    pub json: bool,
    #[command(flatten)]
    pub handler: HandlerArguments,
}

/// How a crash is reported as it happens.
#[derive(Args, Debug)]
pub struct HandlerArguments {
    /// Report the crash of this process, which the kernel passes to a program that core_pattern names: registers come from
    /// its core file on standard input, memory from the process
    #[arg(long, value_name = "PID", conflicts_with_all = ["files", "core", "pid", "root", "path"])]
    pub handler: Option<u32>,
    /// With --handler: write the report to a new file in this folder, which is made if it isn't there
    #[arg(long, value_name = "FOLDER", requires = "handler")]
    pub output: Option<PathBuf>,
    /// With --handler: write the report to syslog, or with --json a line about it
    #[arg(long, requires = "handler")]
    pub syslog: bool,
    /// With --handler: write the report to systemd's journal, where coredumpctl finds it, or with --json a line about it
    #[arg(long, requires = "handler")]
    pub journal: bool,
    /// With --handler: hold the process no longer than this
    #[arg(long, value_name = "SECONDS", default_value_t = 10, value_parser = clap::value_parser!(u64).range(1..=3600))]
    pub time_limit: u64,
    /// With --handler: take no more memory than this, in megabytes
    #[arg(long, value_name = "MB", default_value_t = 256, value_parser = clap::value_parser!(u64).range(16..))]
    pub memory_limit: u64,
    /// With --output: keep this many reports in the folder, the newest ones
    #[arg(long, value_name = "N", default_value_t = 100)]
    pub keep: usize,
    /// With --output: keep reports that have at most so many megabytes together
    #[arg(long, value_name = "MB", default_value_t = 100)]
    pub keep_megabytes: u64,
    /// With --output: keep no report that is older
    #[arg(long, value_name = "DAYS", default_value_t = 30)]
    pub keep_days: u64,
    /// With --output: the rights of the files of reports
    #[arg(long, value_name = "MODE", default_value = "600")]
    pub mode: String,
}

#[derive(Args, Debug)]
pub struct VarsArguments {
    /// An ELF file
    #[arg(required_unless_present_any = ["core", "pid"], requires = "address")]
    pub program: Option<PathBuf>,
    /// An address, such as 0x1130, or a function, such as main, main+4 or 'twice(int)+4'
    pub address: Option<String>,
    /// A state file: registers and memory of the process at the address
    #[arg(long, value_name = "FILE", conflicts_with_all = ["core", "pid"])]
    pub state: Option<PathBuf>,
    /// Where the program is loaded. An address that is a number is as loaded
    #[arg(long, value_name = "ADDRESS", default_value = "0x0")]
    pub load: String,
    /// A core file or a minidump of x86-64, i386 or aarch64, instead of a program
    #[arg(long, value_name = "CORE", conflicts_with = "program")]
    pub core: Option<PathBuf>,
    /// A process of x86-64, i386 or aarch64 that runs, instead of a program
    #[arg(long, value_name = "PID", conflicts_with_all = ["program", "core"])]
    pub pid: Option<u32>,
    /// The thread of the core file or of the process, instead of the first one
    #[arg(long, value_name = "TID", conflicts_with = "program")]
    pub thread: Option<u32>,
    /// The frame of the thread, counted from 0
    #[arg(long, value_name = "N", default_value_t = 0)]
    pub frame: usize,
    /// The folder in which the paths of the core file are looked up
    #[arg(long, value_name = "FOLDER", default_value = "/")]
    pub root: PathBuf,
    /// Look for the programs and libraries of the core file or minidump in this folder and those below it too, by name
    /// and build id. Can be given several times
    #[arg(long, value_name = "FOLDER", conflicts_with_all = ["program", "pid"])]
    pub path: Vec<PathBuf>,
    #[command(flatten)]
    pub debuginfod: DebuginfodArguments,
    /// Follow structures, arrays and containers this deep, at most 64. What is deeper is {..}
    #[arg(long, value_name = "N", default_value_t = 1)]
    pub depth: usize,
    /// Show this many elements of an array or a container, and characters of a text, at most 10000
    #[arg(long, value_name = "N", default_value_t = 200, value_parser = clap::value_parser!(u16).range(1..=10_000))]
    pub elements: u16,
    /// Follow this many pointers to objects, one after another. An object that leads back to itself is {..} there
    #[arg(long, value_name = "N", default_value_t = 0, value_parser = clap::value_parser!(u8).range(0..=64))]
    pub pointers: u8,
    /// Write one document of JSON, whose keys docs/OUTPUT.md lists
    #[arg(long)]
    pub json: bool,
}
