//! Looks up addresses in the location lists of programs, by the library and by gimli: in each list, the
//! ends of its entries, the addresses next to these, and the middles. Programs are named by lines of
//! standard input; a program whose debug information is in a file of its own is passed over. Prints a line
//! for each program with a difference, and then the counts.
//!
//! ```text
//! find /usr/lib/debug -name '*.debug' | cargo run --release --example list_lookups
//! ```
use dwcheck_elf::lists::{compare_look_ups, LookUps};
use dwcheck_elf::mapped::Bytes;
use dwcheck_elf::program::Program;
use std::error::Error;
use std::io::{stdin, BufRead};
use std::path::Path;
use std::process::ExitCode;

/// The look-ups of a program. `None` if it has no debug information.
fn look_ups_of(path: &str) -> Result<Option<LookUps>, Box<dyn Error>> {
    let bytes = Bytes::of_elf(Path::new(path))?;
    let program = Program::read(&bytes)?;
    Ok(if program.has_bytes(".debug_info") { Some(compare_look_ups(&program)?) } else { None })
}

fn main() -> ExitCode {
    let (mut files, mut failed, mut all) = (0, 0, LookUps::default());
    for path in stdin().lock().lines().map_while(Result::ok) {
        match look_ups_of(&path) {
            Ok(Some(found)) => {
                files += 1;
                all.lists += found.lists;
                all.addresses += found.addresses;
                all.expressions += found.expressions;
                all.unread += found.unread;
            }
            Ok(None) => {}
            Err(why) => {
                failed += 1;
                println!("{}: {}", path, why);
            }
        }
    }
    let LookUps { lists, addresses, expressions, unread } = all;
    print!("files {} failed {} lists {} unread {}", files, failed, lists, unread);
    println!(" addresses {} expressions {}", addresses, expressions);
    ExitCode::from(u8::from(failed > 0))
}
