//! Checks the unwind tables of ELF programs, shows their rows, unwinds by them, compares them with
//! the code and with programs that run, writes symbol files, and prints the stacks of core files and of recordings of
//! perf.

mod arguments;
mod check;
mod compare;
mod crash;
mod debuginfod;
mod end;
mod files;
mod findings;
mod handler;
mod inquiry;
mod kept;
mod known;
mod lint;
mod lists;
mod opened;
mod output;
mod packages;
mod pool;
mod profile;
mod report;
mod rows;
mod sarif;
mod sframe;
mod stack;
mod store;
mod survey;
mod symbols;
mod trace;
mod vars;
mod walks;

use arguments::{Arguments, Command};
use clap::{CommandFactory, Parser};
use end::{Done, Failure};
use std::io::{self, BufWriter, Write};
use std::process::ExitCode;

fn main() -> ExitCode {
    let arguments = match Arguments::try_parse() {
        Ok(arguments) => arguments,
        Err(error) => {
            // If standard error is closed, nobody can read the message, so it doesn't matter that
            // this fails.
            let printed = error.print().and_then(|()| io::stdout().flush());
            return match (error.use_stderr(), printed) {
                (true, _) => ExitCode::from(2),
                (false, Ok(())) => ExitCode::SUCCESS,
                (false, Err(error)) => Failure::from(error).end(),
            };
        }
    };
    let mut out = BufWriter::new(io::stdout().lock());
    let ended = run_command(arguments.command, &mut out).and_then(|done| {
        out.flush()?;
        Ok(done)
    });
    match ended {
        Ok(done) => ExitCode::from(done.status()),
        Err(failure) => failure.end(),
    }
}

fn run_command(command: Command, out: &mut impl Write) -> Result<Done, Failure> {
    match command {
        Command::Check(arguments) => check::check(&arguments, out),
        Command::Rows(arguments) => rows::rows(&arguments, out),
        Command::Row(arguments) => rows::row(&arguments, out),
        Command::Unwind(arguments) => walks::unwind(&arguments, out),
        Command::Backtrace(arguments) => walks::backtrace(&arguments, out),
        Command::Locs(arguments) => lists::locs(&arguments, out),
        Command::Stack(arguments) => match arguments.handler.handler {
            Some(id) => handler::handle(&arguments, id, out),
            None => stack::stack(&arguments, out),
        },
        Command::Vars(arguments) => vars::vars(&arguments, out),
        Command::Survey(arguments) => survey::survey(&arguments, out),
        Command::Lint(arguments) if arguments.confirm => trace::confirm(&arguments, out),
        Command::Lint(arguments) => lint::lint(&arguments, out),
        Command::Compare(arguments) => compare::compare(&arguments, out),
        Command::Symbols(arguments) => symbols::symbols(&arguments, out),
        Command::Trace(arguments) => trace::trace(&arguments),
        Command::Profile(arguments) => profile::profile(&arguments, out),
        Command::Report(arguments) => report::report(&arguments, out),
        Command::Store(arguments) => store::store(&arguments.command, out),
        Command::Completions(arguments) => {
            // It panics if it can't write.
            let mut text = Vec::new();
            clap_complete::generate(arguments.shell, &mut Arguments::command(), "dwcheck-elf", &mut text);
            out.write_all(&text)?;
            Ok(Done::Accepted)
        }
    }
}
