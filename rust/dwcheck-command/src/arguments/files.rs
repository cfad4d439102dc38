//! The arguments of the commands that go through many files: `survey`, `lint`, `compare`, `symbols` and `report`.

use super::{DebuginfodArguments, Notes};
use clap::Args;
use dwcheck_store::Shard;
use std::ffi::OsString;
use std::path::PathBuf;

/// Where answers are kept, and which files are taken.
#[derive(Args, Debug)]
pub struct StoreArguments {
    /// Keep what is found in this store, a database of SQLite, and don't do again what stands there for the same content
    /// and the same version of this program. It is made if it isn't there. Several processes of one machine may use it
    #[arg(long, value_name = "FILE")]
    pub store: Option<PathBuf>,
    /// Take only the files of this part of N, from 1 to N. Each content is in exactly one part, whatever its files are
    /// called
    #[arg(long, value_name = "K/N")]
    pub shard: Option<Shard>,
}

#[derive(Args, Debug)]
pub struct SurveyArguments {
    /// ELF files, Debian packages, and folders of them
    #[arg(required = true)]
    pub paths: Vec<PathBuf>,
    /// Write a line of JSON for each file, and one for the totals
    #[arg(long)]
    pub json: bool,
    /// Write all faults as SARIF 2.1.0, which code hosts show at the source line
    #[arg(long, conflicts_with = "json")]
    pub sarif: bool,
    /// List every FDE that is refused, not only the first of each section
    #[arg(long)]
    pub all: bool,
    /// Check location lists too
    #[arg(long)]
    pub lists: bool,
    /// Compare the rows of .eh_frame with gimli's, too
    #[arg(long)]
    pub compare: bool,
    /// Check this many files at once, instead of one for each processor
    #[arg(long, value_name = "N")]
    pub jobs: Option<usize>,
    #[command(flatten)]
    pub kept: StoreArguments,
    #[command(flatten)]
    pub notes: Notes,
}

#[derive(Args, Debug)]
pub struct LintArguments {
    /// Programs, libraries, unlinked objects, Debian packages, and folders of them
    #[arg(required_unless_present = "confirm")]
    pub paths: Vec<PathBuf>,
    /// Show registers, too, that a function never gives back. Without it they aren't counted
    #[arg(long)]
    pub private: bool,
    /// Show the instructions around each finding, with their rows and what the code says; ! marks wrong rows
    #[arg(long)]
    pub explain: bool,
    /// Write a line of JSON for each finding, for each file and for the totals
    #[arg(long)]
    pub json: bool,
    /// Write all findings as a document of SARIF 2.1.0, which code hosts show at the source line
    #[arg(long, conflicts_with_all = ["json", "explain"])]
    pub sarif: bool,
    /// Leave out the findings in FILE, the output of an earlier run without --json and --sarif: those of the same file
    /// name, kind and function
    #[arg(long, value_name = "FILE")]
    pub known: Option<PathBuf>,
    /// Show findings of this kind only, such as 'late push'. Can be given several times
    #[arg(long, value_name = "KIND")]
    pub kind: Vec<String>,
    /// Read this many files at once, instead of one for each processor
    #[arg(long, value_name = "N")]
    pub jobs: Option<usize>,
    #[command(flatten)]
    pub kept: StoreArguments,
    /// Run PROGRAM, step the functions with findings, and say of each whether it is so. Without PATH, the files
    /// are those whose code the program runs
    #[arg(long, requires = "program", conflicts_with_all = ["explain", "json", "sarif", "known", "kind", "private", "jobs", "store", "shard"])]
    pub confirm: bool,
    #[command(flatten)]
    pub debuginfod: DebuginfodArguments,
    /// The program, and its arguments
    #[arg(last = true, requires = "confirm", value_name = "PROGRAM ARGUMENTS")]
    pub program: Vec<OsString>,
}

#[derive(Args, Debug)]
pub struct ReportArguments {
    /// ELF files: programs, libraries, unlinked objects, kernel modules
    #[arg(required = true)]
    pub programs: Vec<PathBuf>,
    /// Write to this file, not to standard output. It is replaced only when the new one is whole
    #[arg(long, short, value_name = "FILE")]
    pub output: Option<PathBuf>,
    /// Show how the tables of two programs differ, the old one first
    #[arg(long)]
    pub compare: bool,
    /// Show rows and instructions of this function only, named as in the file or as it is shown. Can be given several
    /// times
    #[arg(long, value_name = "NAME")]
    pub function: Vec<String>,
    /// Keep the page in this store, and don't make again what stands there for the same programs and the same version
    #[arg(long, value_name = "FILE")]
    pub store: Option<PathBuf>,
}

#[derive(Args, Debug)]
pub struct CompareArguments {
    /// Programs, libraries, unlinked objects, Debian packages, and folders of them
    #[arg(required = true)]
    pub paths: Vec<PathBuf>,
    /// Write a line of JSON for each finding, for each file and for the totals
    #[arg(long)]
    pub json: bool,
    /// Write all findings as a document of SARIF 2.1.0, which code hosts show at the source line
    #[arg(long, conflicts_with = "json")]
    pub sarif: bool,
    /// Leave out the findings in FILE, the output of an earlier run without --json and --sarif: those of the same file
    /// name, kind and function
    #[arg(long, value_name = "FILE")]
    pub known: Option<PathBuf>,
    /// Show findings of this kind only, such as 'different CFA'. Can be given several times
    #[arg(long, value_name = "KIND")]
    pub kind: Vec<String>,
    /// Leave separate files of debug information out
    #[arg(long)]
    pub no_separate: bool,
    /// Compare with Breakpad's symbol files too: those in this store, as NAME/ID/NAME.sym, or this file
    #[arg(long, value_name = "STORE")]
    pub symbols: Option<PathBuf>,
    /// Read this many files at once, instead of one for each processor
    #[arg(long, value_name = "N")]
    pub jobs: Option<usize>,
    #[command(flatten)]
    pub kept: StoreArguments,
}

#[derive(Args, Debug)]
pub struct SymbolsArguments {
    /// Programs and libraries
    #[arg(required = true)]
    pub programs: Vec<PathBuf>,
    /// Write each symbol file into this folder, as NAME/ID/NAME.sym. Without it, the one of the only program is written
    /// on standard output
    #[arg(short, long, value_name = "STORE")]
    pub output: Option<PathBuf>,
    /// Write no symbol file that leaves out something that its rows can't say
    #[arg(long)]
    pub strict: bool,
    /// Write names of functions as they are in the file, not demangled
    #[arg(long)]
    pub raw_names: bool,
}
