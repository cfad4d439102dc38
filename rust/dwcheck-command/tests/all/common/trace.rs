//! Runs of `dwcheck-elf trace`.

use super::Folder;
use std::collections::HashMap;
use std::process::Command;

/// The result of a run of a program that was traced.
#[derive(Debug)]
pub struct Traced {
    /// The status of `dwcheck-elf`.
    pub status: i32,
    /// What the program wrote.
    pub out: String,
    /// What the program wrote to standard error.
    pub error: String,
    /// What was found.
    pub log: String,
}

/// Whether programs can be traced here. DWCHECK_NO_PTRACE says that the machine forbids it.
pub fn may_trace_programs() -> bool {
    std::env::var_os("DWCHECK_NO_PTRACE").is_none()
}

/// Traces a command line in a folder. The options are separated by single spaces.
pub fn trace(folder: &Folder, options: &str, line: &str) -> Traced {
    let program = env!("CARGO_BIN_EXE_dwcheck-elf");
    // A program that hangs is ended, so that its test fails.
    let shell = format!("exec timeout --foreground 1800 {} trace {} --output log -- {}", program, options, line);
    let output = Command::new("bash").args(["-c", &shell]).current_dir(folder.path()).output().unwrap();
    let error = String::from_utf8_lossy(&output.stderr).into_owned();
    assert!(!error.contains("panicked"), "{}", error);
    Traced {
        status: output.status.code().expect("dwcheck-elf isn't ended by a signal"),
        out: String::from_utf8_lossy(&output.stdout).into_owned(),
        error,
        log: std::fs::read_to_string(folder.file("log")).unwrap_or_default(),
    }
}

impl Traced {
    /// The kind, the function with the offset, and how bad it is, of each finding.
    pub fn found(&self) -> Vec<[String; 3]> {
        let first = |line: &str| {
            let (before, rest) = line.split_once(" (0x")?;
            let (kind, place) = before.split_once(": ")?.1.split_once(" at ")?;
            let how = rest.split_once("): ")?.1.split_once(": ")?.0;
            Some([kind, place, how].map(str::to_string))
        };
        self.log.lines().filter_map(first).collect()
    }

    /// The counts in the last line.
    pub fn counts(&self) -> HashMap<String, f64> {
        let words: Vec<_> = self.log.lines().last().unwrap_or("").split(' ').collect();
        let pair = |pair: &[&str]| Some((pair[0].to_string(), pair.get(1)?.parse().ok()?));
        words.chunks(2).filter_map(pair).collect()
    }

    /// A count of the last line, 0 if it isn't there.
    pub fn count(&self, name: &str) -> f64 {
        self.counts().get(name).copied().unwrap_or(0.0)
    }
}
