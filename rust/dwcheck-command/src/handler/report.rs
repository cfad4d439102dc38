//! The report of a crash, which is whole even if the work wasn't.

use super::limited::End;
use crate::crash::Crash;
use crate::end::{shown_path, Failure};
use nix::sys::signal;
use serde_json::{json, Value};
use std::path::PathBuf;

/// The report of a crash.
#[derive(Debug)]
pub struct Report {
    bytes: Vec<u8>,
    is_json: bool,
    /// What went wrong, if something did.
    failure: Option<String>,
}

impl Report {
    /// A report of what was written until the work ended. If it isn't whole, it says why at its end. A document of JSON is
    /// closed after the last thread that is whole.
    pub fn of(output: Vec<u8>, is_json: bool, crash: &Crash, end: End) -> Report {
        let failure = why_not_whole(end).map(|why| format!("the report isn't whole: {}", why));
        let bytes = match &failure {
            None => output,
            Some(failure) if is_json => closed_json(&output, crash, failure),
            Some(failure) => closed_text(output, crash, failure),
        };
        let failure = failure.or_else(|| (end == End::Unread).then(|| "its core file can't be read".to_string()));
        Report { bytes, is_json, failure }
    }

    /// Its bytes.
    pub fn bytes(&self) -> &[u8] {
        &self.bytes
    }

    /// Why it isn't whole or has no stacks, if that is so.
    pub fn failure(&self) -> Option<&str> {
        self.failure.as_deref()
    }

    /// The number of the signal.
    pub fn signal(&self) -> Option<u32> {
        let first = self.bytes.split(|byte| *byte == b'\n');
        if !self.is_json {
            let mut signals = first.filter_map(|line| line.strip_prefix(b"signal "));
            let number = signals.next()?.split(|byte| !byte.is_ascii_digit()).next()?;
            return std::str::from_utf8(number).ok()?.parse().ok();
        }
        let head = [first.take(1).next()?, b"]}"].concat();
        let head: Value = serde_json::from_slice(&head).ok()?;
        u32::try_from(head["signal"]["number"].as_u64()?).ok()
    }

    /// What logs get: the report, if it is a text, or a line about it.
    pub fn message(&self, crash: &Crash, path: Option<&PathBuf>, failed: Option<&Failure>) -> String {
        let mut message = match self.is_json {
            false => String::from_utf8_lossy(&self.bytes).into_owned(),
            true => {
                let name = self.signal().and_then(|number| signal::Signal::try_from(number as i32).ok());
                let signal = name.map_or_else(String::new, |name| format!(", signal {}", name));
                format!("process {} {:?} crashed{}\n", crash.id, crash.name, signal)
            }
        };
        if let Some(path) = path {
            message.push_str(&format!("report: {}\n", shown_path(path)));
        }
        if let Some(failed) = failed {
            message.push_str(&format!("the report isn't stored: {}\n", failed));
        }
        message
    }
}

fn why_not_whole(end: End) -> Option<String> {
    Some(match end {
        End::Whole | End::Unread => return None,
        End::Failed => "it failed; standard error says why".to_string(),
        End::Signal(signal::Signal::SIGABRT) => "it takes more memory than its limit".to_string(),
        End::Signal(signal) => format!("{} ended it", signal),
        End::Time(limit) => format!("it takes more time than its limit, {} s", limit.as_secs()),
        End::Output(limit) => format!("it has more than {} bytes", limit),
    })
}

fn closed_text(mut output: Vec<u8>, crash: &Crash, failure: &str) -> Vec<u8> {
    if output.is_empty() {
        output.extend(crash.to_string().bytes());
    }
    if !output.ends_with(b"\n") {
        output.push(b'\n');
    }
    output.extend(format!("{}\n", failure).bytes());
    output
}

/// Each thread has a line, and the first line is what comes before the threads.
fn closed_json(output: &[u8], crash: &Crash, failure: &str) -> Vec<u8> {
    let end = format!("],\"modules\":[],\"warnings\":{}}}\n", json!([failure]));
    let lines = output.iter().rposition(|byte| *byte == b'\n').and_then(|last| output.get(..last));
    match lines {
        Some(lines) => [lines.strip_suffix(b",").unwrap_or(lines), b"\n", end.as_bytes()].concat(),
        None => format!("{{\"crash\":{},\"threads\":[\n{}", crash.json(), end).into_bytes(),
    }
}

#[cfg(test)]
mod tests {
    use super::*;
    use std::time::Duration;

    fn crash() -> Crash {
        Crash::of(std::process::id())
    }

    /// What was written up to any byte of a document gives a document.
    #[test]
    fn documents_that_are_not_whole_are_closed() {
        let whole = "{\"signal\":{\"number\":11},\"threads\":[\n{\"thread\":1},\n{\"thread\":2}],\"modules\":[],\"warnings\":[]}\n";
        for end in 0..whole.len() {
            let report = Report::of(whole[..end].into(), true, &crash(), End::Time(Duration::from_secs(10)));
            let value: Value = serde_json::from_slice(report.bytes()).unwrap();
            let count = whole[..end].matches(",\n").count();
            assert_eq!(value["threads"].as_array().unwrap().len(), count);
            assert_eq!(value["warnings"][0], "the report isn't whole: it takes more time than its limit, 10 s");
            assert_eq!(report.signal(), whole.find('\n').filter(|line| *line < end).map(|_| 11));
        }
    }

    #[test]
    fn a_text_that_is_not_whole_says_so() {
        let report = Report::of(b"signal 6 SIGABRT\nthread 1:\n#0".to_vec(), false, &crash(), End::Output(30));
        assert!(report.bytes().ends_with(b"\n#0\nthe report isn't whole: it has more than 30 bytes\n"));
        assert_eq!(report.signal(), Some(6));
    }
}
