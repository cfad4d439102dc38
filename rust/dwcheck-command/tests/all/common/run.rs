//! Runs the program `dwcheck-elf`, and the program `dwcheck` to compare with it.

use crate::common::{skipped, Folder};
use std::process::Command;

/// The result of a run of `dwcheck-elf`.
#[derive(Debug)]
pub struct Ran {
    pub status: i32,
    pub out: String,
    pub error: String,
}

impl Ran {
    /// The lines of standard output.
    pub fn lines(&self) -> Vec<&str> {
        self.out.lines().collect()
    }
}

/// Runs `dwcheck-elf` in a folder. The arguments in `words` are separated by single spaces.
pub fn dwcheck_elf(folder: &Folder, words: &str) -> Ran {
    dwcheck_elf_words(folder, &words.split(' ').collect::<Vec<_>>())
}

/// Runs `dwcheck-elf` in a folder with arguments that may contain spaces.
pub fn dwcheck_elf_words(folder: &Folder, words: &[&str]) -> Ran {
    let mut command = Command::new(env!("CARGO_BIN_EXE_dwcheck-elf"));
    let output = command.args(words).current_dir(folder.path()).output().unwrap();
    let ran = Ran {
        status: output.status.code().expect("the program isn't ended by a signal"),
        out: String::from_utf8_lossy(&output.stdout).into_owned(),
        error: String::from_utf8_lossy(&output.stderr).into_owned(),
    };
    assert!(!ran.error.contains("panicked"), "{}", ran.error);
    ran
}

/// What the program `dwcheck` writes for these arguments. `None` if the environment variable
/// DWCHECK isn't set to the path of that program.
pub fn by_dwcheck(folder: &Folder, words: &str) -> Option<String> {
    let program = match std::env::var("DWCHECK") {
        Ok(program) => program,
        Err(_) => {
            skipped("DWCHECK names no dwcheck");
            return None;
        }
    };
    let output = Command::new(program).args(words.split(' ')).current_dir(folder.path()).output().unwrap();
    Some(String::from_utf8_lossy(&output.stdout).into_owned())
}
