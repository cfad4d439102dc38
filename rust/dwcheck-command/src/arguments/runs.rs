//! The arguments of `trace` and `profile`.

use super::DebuginfodArguments;
use clap::{Args, ValueEnum};
use std::ffi::OsString;
use std::path::PathBuf;

#[derive(Args, Debug)]
pub struct TraceArguments {
    /// The program, and its arguments
    #[arg(last = true, required_unless_present = "pid", value_name = "PROGRAM ARGUMENTS")]
    pub program: Vec<OsString>,
    /// Step some of the code of this process, which runs on
    #[arg(long, value_name = "PID", conflicts_with_all = ["program", "all", "follow_fork", "calls"])]
    pub pid: Option<u32>,
    /// Step only functions of files with this path or name, such as 'libc.so*'. Can be given several times
    #[arg(long, value_name = "GLOB")]
    pub module: Vec<String>,
    /// Step this many calls of each function
    #[arg(long, value_name = "N", default_value_t = 1)]
    pub calls: u64,
    /// Step every instruction
    #[arg(long)]
    pub all: bool,
    /// Trace the processes that the program starts, too
    #[arg(long)]
    pub follow_fork: bool,
    /// Let the program go after this time; with --pid, after 10 seconds unless this is given
    #[arg(long, value_name = "N")]
    pub seconds: Option<u64>,
    /// Let a function run to its end after this many instructions without one that is seen for the first time
    #[arg(long, value_name = "N", default_value_t = 3_000)]
    pub idle: u64,
    /// Show registers, too, that a function never gives back
    #[arg(long)]
    pub private: bool,
    /// Write a line for each function: how much of it was judged, and at how many instructions its rows are wrong
    #[arg(long)]
    pub functions: bool,
    /// Write a line of JSON for each finding, for each file and for the totals
    #[arg(long)]
    pub json: bool,
    /// Write to this file, not to standard error
    #[arg(long, short, value_name = "FILE")]
    pub output: Option<PathBuf>,
    /// End with the status 1 if something is found, and 0 if not, in place of the program's own status
    #[arg(long)]
    pub status: bool,
}

/// The format in which a profile is written.
#[derive(Clone, Copy, Debug, PartialEq, Eq, ValueEnum)]
pub enum Format {
    /// A line for each stack: the thread's name and the functions, the outermost first, and the sum of the samples'
    /// periods; flamegraph.pl, inferno and speedscope read it
    Folded,
    /// The lines of `perf script`, for scripts that read these
    Script,
    /// One page with a flame graph, for any browser and without a network: a click zooms, a search (Ctrl-F, Escape ends
    /// it) marks functions, threads and a time range can be selected, and `inverted` shows callers below what ran
    Html,
    /// speedscope's JSON, with a profile for each thread
    Speedscope,
    /// pprof's profile, compressed by gzip, with all events
    Pprof,
    /// The JSON of the Firefox Profiler (its processed format, version 46), with a thread for each; what counts
    /// nanoseconds is weighed in milliseconds
    Firefox,
    /// A table of the functions that weigh most by themselves
    Top,
}

#[derive(Args, Debug)]
pub struct ProfileArguments {
    /// What perf recorded; - for what `perf record -o -` writes to a pipe
    #[arg(default_value = "perf.data")]
    pub recording: PathBuf,
    /// Compare with this recording, the older one: top shows the shares of functions in both, those first that changed
    /// most; html draws greater shares red and smaller ones blue; folded has two weights for each stack
    #[arg(long, value_name = "OLD")]
    pub compare: Option<PathBuf>,
    /// What to write
    #[arg(long, value_enum, default_value_t = Format::Folded)]
    pub format: Format,
    /// Write to this file, not to standard output. It is replaced only when the new one is whole; of a run that is
    /// interrupted nothing is left
    #[arg(long, short, value_name = "FILE")]
    pub output: Option<PathBuf>,
    /// Only threads with this name. Can be given several times
    #[arg(long, value_name = "NAME")]
    pub comm: Vec<String>,
    /// Only this process. Can be given several times
    #[arg(long, value_name = "PID")]
    pub pid: Vec<u32>,
    /// Only this thread. Can be given several times
    #[arg(long, value_name = "TID")]
    pub tid: Vec<u32>,
    /// Only samples between these times in seconds, as --format script shows them; either may be left out
    #[arg(long, value_name = "BEGIN,END")]
    pub time: Option<String>,
    /// Only this event. Without it, script and pprof have all events, and the others the first one, which standard
    /// error says
    #[arg(long, value_name = "NAME")]
    pub event: Option<String>,
    /// Only stacks with this function, named as it is shown or without its parameters. With --format top: what it weighs,
    /// its callers, and what it calls
    #[arg(long, value_name = "FUNCTION", conflicts_with = "compare")]
    pub focus: Option<String>,
    /// Leave out inlined functions
    #[arg(long)]
    pub no_inline: bool,
    /// Show files and lines of source code
    #[arg(long)]
    pub lines: bool,
    /// With --format top: show at most this many rows
    #[arg(long, value_name = "N", default_value_t = 50)]
    pub rows: usize,
    /// The most frames of a program's stack; those of the kernel don't count
    #[arg(long, value_name = "N", default_value_t = dwcheck_profile::MOST_FRAMES)]
    pub max_stack: usize,
    /// Say why stacks have no more frames: how many for each reason, and with --format script of each
    #[arg(long)]
    pub stops: bool,
    /// The folder in which the paths of the recording are looked up
    #[arg(long, value_name = "FOLDER", default_value = "/")]
    pub root: PathBuf,
    #[command(flatten)]
    pub debuginfod: DebuginfodArguments,
    /// A list of the kernel's functions: /proc/kallsyms or System.map of the machine that was recorded
    #[arg(long, value_name = "FILE")]
    pub kallsyms: Option<PathBuf>,
    /// Walk stacks and read names on this many processors, instead of all. The profile is the same, byte by byte
    #[arg(long, value_name = "N")]
    pub jobs: Option<usize>,
    /// Write no summary, only what is wrong
    #[arg(long, short)]
    pub quiet: bool,
}
