//! Files that servers of debuginfod have, with a line on a terminal while they are fetched.

use crate::arguments::DebuginfodArguments;
use dwcheck_debuginfod::{Client, Step};
use dwcheck_elf::fetch::Fetcher;
use indicatif::{ProgressBar, ProgressStyle};
use std::io::{self, Write};
use std::sync::Mutex;

/// What fetches files, if the environment names servers. If the library isn't there, a line says so.
pub fn fetcher(arguments: DebuginfodArguments) -> Fetcher {
    if arguments.no_debuginfod {
        return Fetcher::default();
    }
    let bar = Mutex::new(None);
    let show = move |step: Step<'_>| {
        if let Ok(mut bar) = bar.lock() {
            show_step(&mut bar, step);
        }
    };
    match Client::from_environment(show) {
        Ok(client) => client.map_or_else(Fetcher::default, Fetcher::new),
        Err(error) => {
            let _ = writeln!(io::stderr(), "dwcheck-elf: DEBUGINFOD_URLS: {}", error);
            Fetcher::default()
        }
    }
}

/// Shows how far a file is fetched, if standard error is a terminal.
fn show_step(bar: &mut Option<ProgressBar>, step: Step<'_>) {
    match step {
        Step::Done => {
            if let Some(bar) = bar.take() {
                bar.finish_and_clear();
            }
        }
        Step::Fetching { server, done, all } => {
            let bar = bar.get_or_insert_with(|| {
                let style = ProgressStyle::with_template("{msg} {bytes} of {total_bytes} (Ctrl-C goes on without)");
                let bar = ProgressBar::new(0);
                style.map_or(bar.clone(), |style| bar.with_style(style))
            });
            bar.set_message(format!("fetching from {}:", server));
            bar.set_length(all.max(done));
            bar.set_position(done);
        }
    }
}

/// Says which servers weren't asked again.
pub fn note_problems(fetcher: &Fetcher) {
    for problem in fetcher.problems() {
        let _ = writeln!(io::stderr(), "dwcheck-elf: {}", problem);
    }
}
