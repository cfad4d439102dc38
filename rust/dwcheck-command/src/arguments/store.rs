//! The arguments of the commands over stores: `store diff`, `store merge`, `store report` and `store export`.

use clap::{Args, Subcommand, ValueEnum};
use std::path::PathBuf;

/// The arguments of `store`.
#[derive(Args, Debug)]
pub struct StoresArguments {
    /// What to do with stores.
    #[command(subcommand)]
    pub command: StoreCommand,
}

/// What can be done with stores.
#[derive(Debug, Subcommand)]
pub enum StoreCommand {
    /// List the findings that are new, gone or have moved between two stores, with counts by package and by compiler
    #[command(after_help = DIFF_STATUS)]
    Diff(StoreDiffArguments),
    /// Add what is in stores to another one, such as those of all shards
    #[command(after_help = "Example: dwcheck-elf store merge all.store shard-*.store")]
    Merge(StoreMergeArguments),
    /// Write one page about the findings in a store
    #[command(after_help = "Example: dwcheck-elf store report all.store -o page.html")]
    Report(StoreReportArguments),
    /// Write what is in a store, in an order that depends only on that
    #[command(after_help = "Example: dwcheck-elf store export --format csv all.store > findings.csv")]
    Export(StoreExportArguments),
}

const DIFF_STATUS: &str = "Example: dwcheck-elf store diff yesterday.store today.store
Exit status: 0 nothing new; 1 new findings; 2 a bad argument; 3 a store that can't be read";

#[derive(Args, Debug)]
pub struct StoreDiffArguments {
    /// The older store
    pub old: PathBuf,
    /// The newer store
    pub new: PathBuf,
    /// Write a line of JSON for each finding that changed, and one for the counts
    #[arg(long)]
    pub json: bool,
}

#[derive(Args, Debug)]
pub struct StoreMergeArguments {
    /// The store that gets all. It is made if it isn't there
    pub into: PathBuf,
    /// The stores that are added, which don't change
    #[arg(required = true)]
    pub from: Vec<PathBuf>,
}

#[derive(Args, Debug)]
pub struct StoreReportArguments {
    /// The store
    pub store: PathBuf,
    /// Write to this file, not to standard output. It is replaced only when the new one is whole
    #[arg(long, short, value_name = "FILE")]
    pub output: Option<PathBuf>,
}

#[derive(Args, Debug)]
pub struct StoreExportArguments {
    /// The store
    pub store: PathBuf,
    /// The form
    #[arg(long, value_enum, default_value_t = ExportFormat::Json)]
    pub format: ExportFormat,
    /// Write to this file, not to standard output. It is replaced only when the new one is whole
    #[arg(long, short, value_name = "FILE")]
    pub output: Option<PathBuf>,
}

/// A form of an export.
#[derive(Clone, Copy, Debug, PartialEq, Eq, ValueEnum)]
pub enum ExportFormat {
    /// A line of JSON for each answer
    Json,
    /// A table with a line for each finding in each file
    Csv,
}
