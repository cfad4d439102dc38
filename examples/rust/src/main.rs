//! An example: a crash reporter. For each thread in a core file, it prints the innermost frames
//! with the names of their functions.
//!
//!     stack CORE
//!
//! The library does the work: `dwcheck_elf::core_file` reads the core file, and
//! `dwcheck_elf::stack` walks by `.debug_frame` and `.eh_frame` of the files that the core file
//! maps, and of the vDSO.

use dwcheck_elf::core_file::{CoreFile, Files};
use dwcheck_elf::mapped::Bytes;
use dwcheck_elf::stack::{Stacks, WalkOptions};
use dwcheck_elf::Error;
use std::path::Path;
use std::process::exit;

fn main() {
    let words: Vec<_> = std::env::args_os().skip(1).collect();
    let core = match words.as_slice() {
        [core] => Path::new(core),
        _ => {
            eprintln!("usage: stack CORE");
            exit(2);
        }
    };
    if let Err(error) = show(core) {
        eprintln!("stack: {}", error);
        exit(1);
    }
}

fn show(core: &Path) -> Result<(), Error> {
    let bytes = Bytes::of_elf(core)?;
    let core = CoreFile::read(&bytes)?;
    let files = Files::read(&core, Path::new("/"));
    let stacks = Stacks::of(&core, &files);
    for thread in core.threads() {
        print!("{}", stacks.walk(thread, WalkOptions::default())?);
    }
    for (path, why) in stacks.missing() {
        eprintln!("{}: {}", path.display(), why);
    }
    Ok(())
}
