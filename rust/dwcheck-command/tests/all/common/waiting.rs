//! Programs that run while they are looked at.

use crate::common::Folder;
use std::io::Read;
use std::process::{Child, Command, Stdio};
use std::time::{Duration, Instant};

/// Waits until something is so, at most ten minutes, which only end a test that would wait forever.
pub fn comes_true(is_true: impl Fn() -> bool) -> bool {
    let begin = Instant::now();
    while begin.elapsed() < Duration::from_secs(600) {
        if is_true() {
            return true;
        }
        std::thread::sleep(Duration::from_millis(20));
    }
    false
}

/// A process that ends with the test.
pub struct Waiting(pub Child);

impl Waiting {
    /// Starts the program `waits` of a folder, and waits for its line `ready`.
    pub fn start(folder: &Folder) -> Waiting {
        let mut process = Waiting(Command::new(folder.file("waits")).stdout(Stdio::piped()).spawn().unwrap());
        let mut said = [0; 6];
        process.0.stdout.as_mut().unwrap().read_exact(&mut said).unwrap();
        process
    }

    /// Its number.
    pub fn id(&self) -> u32 {
        self.0.id()
    }

    /// Waits until each thread sleeps in pause(). It gets there only after it has said that it is ready, and again after a
    /// tracer has let it go.
    pub fn comes_to_pause(&self) -> bool {
        /// The number of pause() on x86-64, in decimal.
        const PAUSE: &str = "34 ";
        comes_true(|| {
            self.is_of_each_thread("syscall", |text| text.starts_with(PAUSE))
                && self.is_of_each_thread("status", |text| text.contains("\nState:\tS"))
        })
    }

    /// Whether something is so of a file in /proc about each thread.
    pub fn is_of_each_thread(&self, file: &str, is_so: impl Fn(&str) -> bool) -> bool {
        let threads = std::fs::read_dir(format!("/proc/{}/task", self.id())).unwrap();
        let mut texts = threads.map(|thread| std::fs::read_to_string(thread.unwrap().path().join(file)).unwrap());
        texts.all(|text| is_so(&text))
    }
}

impl Drop for Waiting {
    fn drop(&mut self) {
        let _ = self.0.kill();
        let _ = self.0.wait();
    }
}
