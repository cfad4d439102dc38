//! What the tests share: programs that are assembled or compiled, and what is found in them.

pub mod assembly;
pub mod gimli_rows;
pub mod programs;

use dwcheck_lint::coverage::Coverage;
use dwcheck_lint::lint::{lint, Report};
use gimli_rows::module;
use std::path::PathBuf;
use std::process::Command;
use std::sync::atomic::{AtomicUsize, Ordering};

/// How many folders were made.
static FOLDERS: AtomicUsize = AtomicUsize::new(0);

/// A temporary folder for one test, which is removed when the test ends.
pub struct Folder(PathBuf);

impl Folder {
    pub fn new(name: &str) -> Self {
        // The tests are threads of one process, and two may give their folders the same name.
        let number = FOLDERS.fetch_add(1, Ordering::Relaxed);
        let folder = std::env::temp_dir().join(format!("dwcheck-lint-{}-{}-{}", name, std::process::id(), number));
        std::fs::create_dir_all(&folder).unwrap();
        Folder(folder)
    }

    pub fn write(&self, name: &str, text: &str) {
        std::fs::write(self.0.join(name), text).unwrap();
    }

    /// Runs a command line in the folder. It has to succeed.
    pub fn run(&self, line: &str) {
        let output = Command::new("bash").args(["-c", line]).current_dir(&self.0).output().unwrap();
        assert!(output.status.success(), "{}\n{}", line, String::from_utf8_lossy(&output.stderr));
    }

    pub fn bytes(&self, name: &str) -> Vec<u8> {
        std::fs::read(self.0.join(name)).unwrap()
    }

    pub fn text(&self, name: &str) -> String {
        String::from_utf8(self.bytes(name)).unwrap()
    }
}

impl Drop for Folder {
    fn drop(&mut self) {
        let _ = std::fs::remove_dir_all(&self.0);
    }
}

/// Whether a tool is installed.
pub fn has(tool: &str) -> bool {
    let found = Command::new(tool).arg("--version").output().is_ok();
    assert!(found || std::env::var_os("DWCHECK_NO_SKIPS").is_none(), "{} isn't installed", tool);
    found
}

/// The kinds of the findings, except private ones.
pub fn kinds(report: &Report<'_>) -> Vec<String> {
    let kinds = report.findings.iter().map(|finding| finding.kind.to_string());
    kinds.filter(|kind| kind != "private").collect()
}

/// What is found in a program.
pub struct Found {
    /// The kinds of the findings, except private ones.
    pub kinds: Vec<String>,
    /// What was judged.
    pub coverage: Coverage,
}

/// Runs a command line that makes the program `out`, and lints that.
pub fn found(folder: &Folder, line: &str) -> Found {
    folder.run(line);
    let data = folder.bytes("out");
    let module = module(&data);
    let report = lint(&module);
    Found { kinds: kinds(&report), coverage: report.coverage }
}
