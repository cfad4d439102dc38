//! Asks each ELF file among paths and in folders the same, several at once. What a store has already isn't asked again.

use crate::arguments::StoreArguments;
use crate::end::Failure;
use crate::files::{map_file, Files, FoundFile, Selection};
use crate::kept::SharedStore;
use crate::pool::thread_pool;
use dwcheck_elf::program::{Program, ProgramError};
use dwcheck_store::{Answer, Content, Digest, Outcome, Question};
use indicatif::{ProgressBar, ProgressStyle};
use rayon::prelude::*;
use rayon::ThreadPool;
use serde_json::{json, Value};
use std::collections::{HashMap, HashSet};
use std::io;
use std::path::{Path, PathBuf};
use std::sync::mpsc::{self, Receiver};
use std::thread;

/// The version of this program, which a store has beside each answer.
pub const VERSION: &str = env!("CARGO_PKG_VERSION");

/// What is asked of a file.
pub struct Subject<'a> {
    /// Its path, as it is shown.
    pub path: &'a Path,
    /// Its bytes.
    pub data: &'a [u8],
    /// The bytes of its separate file of debug information, if that is used for names.
    pub names: Option<&'a [u8]>,
    /// Whether it is in a package. Then only the package beside that one is used for names.
    pub is_member: bool,
}

impl<'a> Subject<'a> {
    /// Reads the headers of the file.
    pub fn program(&self) -> Result<Program<'a>, ProgramError> {
        let program = Program::read(self.data)?;
        Ok(match self.names.and_then(|names| Program::read(names).ok()) {
            Some(separate) => program.with_names_of(&separate),
            None => program,
        })
    }
}

/// The answer of a content.
pub struct Answered {
    /// The path that is shown for it.
    pub path: PathBuf,
    /// Its SHA-256, if it is in a package: then the same content may be in others.
    pub digest: Option<Digest>,
    /// The answer.
    pub answer: Answer,
}

/// A command that asks each file the same.
pub trait Inquiry: Sync {
    /// The name of the command.
    fn command(&self) -> &'static str;

    /// The options that change the answer, as a store knows them.
    fn options(&self) -> Vec<String>;

    /// Whether other files decide the answer of a file in a package, too.
    fn looks_beside(&self) -> bool {
        false
    }

    /// Which other files would decide now what a store has as the answer, as it knows them. `None` if that can't be said.
    fn inputs(&self, _: &Subject<'_>, _kept: &Answer) -> Option<Vec<String>> {
        Some(Vec::new())
    }

    /// Finds the answer.
    fn answer(&self, subject: &Subject<'_>) -> Answer;

    /// Finds the answer, and which other files have decided it. With `None` it isn't kept.
    fn answer_to_keep(&self, subject: &Subject<'_>) -> (Answer, Option<Vec<String>>) {
        (self.answer(subject), Some(Vec::new()))
    }
}

/// The files of a run, and the store, if there is one.
pub struct Inputs {
    /// The files.
    pub files: Files,
    pub(crate) store: Option<SharedStore>,
    pool: ThreadPool,
}

impl Inputs {
    /// Finds the ELF files among paths and in the folders among them.
    pub fn find(paths: &[PathBuf], jobs: Option<usize>, kept: &StoreArguments) -> Result<Inputs, Failure> {
        let pool = thread_pool(jobs)?;
        let store = kept.store.as_deref().map(SharedStore::open).transpose()?;
        let stamps = store.as_ref().map(SharedStore::stamps).transpose()?;
        let files = pool.install(|| Files::once_each(paths, &Selection { shard: kept.shard, stamps }));
        if let Some(store) = &store {
            store.note_listing(&files.listing)?;
        }
        Ok(Inputs { files, store, pool })
    }

    /// Asks all files, and calls `take` with the path and the answer of each, in the order of the files, while a bar
    /// shows how far it is. Returns how many contents of packages were left out, because they were there before.
    pub fn each_answer(
        &self,
        inquiry: &impl Inquiry,
        mut take: impl FnMut(&Path, &Answer) -> io::Result<()>,
    ) -> Result<u64, Failure> {
        let bar = progress_bar(self.files.found.len() as u64);
        let (sender, answers) = mpsc::channel();
        // Files are asked in their order, as far as several at once allow, and written in it.
        let ask_all = || {
            let each = self.files.found.iter().enumerate().par_bridge();
            each.try_for_each_with(sender, |sender, (number, file)| sender.send((number, self.ask(inquiry, file))))
        };
        let (mut seen, mut repeated) = (HashSet::new(), 0);
        let mut take_first = |one: Answered| match one.digest.map_or(true, |digest| seen.insert(digest)) {
            true => take(&one.path, &one.answer),
            false => {
                repeated += 1;
                Ok(())
            }
        };
        thread::scope(|scope| {
            // It ends early if the answers can't be written.
            scope.spawn(|| self.pool.install(ask_all).is_ok());
            take_in_order(answers, |answered| {
                bar.inc(1);
                let mut answered = answered?.into_iter();
                Ok(bar.suspend(|| answered.try_for_each(&mut take_first))?)
            })
        })?;
        bar.finish_and_clear();
        Ok(repeated)
    }

    /// The answers of a file, or of the files in a package.
    fn ask(&self, inquiry: &impl Inquiry, file: &FoundFile) -> Result<Vec<Answered>, Failure> {
        if file.is_package {
            return self.ask_package(inquiry, file);
        }
        let path = file.path.clone();
        let answer = match map_file(&path) {
            Ok(data) => {
                let subject = Subject { path: &path, data: &data, names: None, is_member: false };
                self.ask_content(inquiry, &subject, file.digest, None, || file.is_unchanged())?
            }
            Err(error) => unread(format!("cannot read: {}", error)),
        };
        Ok(vec![Answered { path, digest: None, answer }])
    }

    /// The answer of a content: the one that the store has, or else a new one, which the store then keeps. `names` is
    /// the digest of what names are taken from. A file that was changed meanwhile has another content.
    pub(crate) fn ask_content(
        &self,
        inquiry: &impl Inquiry,
        subject: &Subject<'_>,
        digest: Option<Digest>,
        names: Option<Digest>,
        is_unchanged: impl FnOnce() -> bool,
    ) -> Result<Answer, Failure> {
        let (store, digest) = match (&self.store, digest) {
            (Some(store), Some(digest)) => (store, digest),
            _ => return Ok(inquiry.answer(subject)),
        };
        // Other files are looked for only if an answer depends on them, because servers may be asked for them.
        if let Some((answer, kept)) = store.answer_of_any_inputs(digest, &question(inquiry, Vec::new(), names))? {
            let inputs = inquiry.inputs(subject, &answer);
            if inputs.map_or(false, |inputs| question(inquiry, inputs, names).inputs() == kept) {
                return Ok(answer);
            }
        }
        let (answer, inputs) = inquiry.answer_to_keep(subject);
        if let Some(inputs) = inputs.filter(|_| is_unchanged()) {
            store.keep(&content_of(subject.data, digest), &question(inquiry, inputs, names), &answer)?;
        }
        Ok(answer)
    }
}

/// What is asked, as a store knows it.
pub(crate) fn question(inquiry: &impl Inquiry, inputs: Vec<String>, names: Option<Digest>) -> Question {
    let names = names.map(|digest| format!("names={}", digest));
    Question::new(inquiry.command(), VERSION, inquiry.options(), inputs.into_iter().chain(names))
}

/// What a store says of a content.
pub fn content_of(data: &[u8], digest: Digest) -> Content {
    let program = Program::read(data).ok();
    let build_id = program.as_ref().and_then(Program::build_id);
    Content {
        digest,
        bytes: data.len() as u64,
        build_id: build_id.map(|id| id.iter().map(|byte| format!("{:02x}", byte)).collect()),
        compiler: program.as_ref().and_then(Program::compiler),
    }
}

/// The answer of a file that can't be read.
pub fn unread(error: String) -> Answer {
    Answer { outcome: Outcome::Unread, findings: Vec::new(), totals: Vec::new(), details: json!({ "error": error }) }
}

/// A text among the details of an answer or a finding. Empty if it isn't there.
pub fn detail<'a>(details: &'a Value, name: &str) -> &'a str {
    details[name].as_str().unwrap_or_default()
}

/// Texts among the details of an answer, such as what is said on standard error.
pub fn detail_list<'a>(details: &'a Value, name: &str) -> impl Iterator<Item = &'a str> {
    details[name].as_array().into_iter().flatten().filter_map(Value::as_str)
}

/// Calls `take` with the results in the order of their numbers, each as soon as those before it are there.
fn take_in_order<T>(
    results: Receiver<(usize, T)>,
    mut take: impl FnMut(T) -> Result<(), Failure>,
) -> Result<(), Failure> {
    let mut waiting = HashMap::new();
    let mut next = 0;
    for (number, result) in results {
        waiting.insert(number, result);
        while let Some(result) = waiting.remove(&next) {
            take(result)?;
            next += 1;
        }
    }
    Ok(())
}

/// A progress bar on standard error. It is shown only if standard error is a terminal.
fn progress_bar(count: u64) -> ProgressBar {
    let bar = ProgressBar::new(count);
    let style = ProgressStyle::with_template("{wide_bar} {pos}/{len} {eta}");
    style.map_or(bar.clone(), |style| bar.with_style(style))
}
