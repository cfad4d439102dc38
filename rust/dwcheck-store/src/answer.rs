//! Questions, and what a program answers to them for a content.

use crate::digest::Digest;
use serde_json::Value;

/// A content: the bytes of a file, whatever the file is called.
#[derive(Clone, Debug, PartialEq, Eq)]
pub struct Content {
    /// Its SHA-256.
    pub digest: Digest,
    /// How many bytes it has.
    pub bytes: u64,
    /// Its build id, in hexadecimal digits, if it is an ELF file that has one.
    pub build_id: Option<String>,
    /// The compiler that it names.
    pub compiler: Option<String>,
}

/// What is asked of a content.
#[derive(Clone, Debug, PartialEq, Eq)]
pub struct Question {
    command: String,
    options: String,
    version: String,
    inputs: String,
}

/// What a command found in a content. Nothing in it depends on the file's name.
#[derive(Clone, Debug, PartialEq, Eq)]
pub struct Answer {
    /// Whether the content could be read.
    pub outcome: Outcome,
    /// What was found, in the command's order.
    pub findings: Vec<Finding>,
    /// What was counted, by names. No name is there twice.
    pub totals: Vec<(String, u64)>,
    /// What the command needs besides, to write what it found. `Null` if that is nothing.
    pub details: Value,
}

/// Whether a content could be read.
#[derive(Clone, Copy, Debug, PartialEq, Eq)]
pub enum Outcome {
    /// It was read.
    Read,
    /// It is of a kind that the command passes over.
    Other,
    /// It can't be read, or only a part of it.
    Unread,
}

/// Something that was found.
#[derive(Clone, Debug, PartialEq, Eq)]
pub struct Finding {
    /// The kind's name, such as `late push`.
    pub kind: String,
    /// How bad it is.
    pub severity: String,
    /// The function, without an offset, if it has a name.
    pub function: Option<String>,
    /// Where it is: an address, or a section and an offset.
    pub address: String,
    /// Its text: the lines that the command writes, without the file's name at the beginning.
    pub text: String,
    /// What the command needs besides, to write the finding. `Null` if that is nothing.
    pub details: Value,
}

impl Question {
    /// A command of a version of the program, with the options that change what is found, and with what other files
    /// decide it. The order of the options and of these doesn't matter.
    pub fn new(
        command: &str,
        version: &str,
        options: impl IntoIterator<Item = String>,
        inputs: impl IntoIterator<Item = String>,
    ) -> Self {
        let (command, version) = (command.to_string(), version.to_string());
        Question { command, options: in_order(options), version, inputs: in_order(inputs) }
    }

    /// The same with these options and inputs, each as one text.
    pub(crate) fn with_texts(command: String, options: String, version: String, inputs: String) -> Self {
        Question { command, options, version, inputs }
    }

    /// The name of the command.
    pub fn command(&self) -> &str {
        &self.command
    }

    /// The options, in their order.
    pub fn options(&self) -> &str {
        &self.options
    }

    /// The version of the program.
    pub fn version(&self) -> &str {
        &self.version
    }

    /// The other files that decide what is found, in their order.
    pub fn inputs(&self) -> &str {
        &self.inputs
    }
}

/// Words in their order, as one text.
fn in_order(words: impl IntoIterator<Item = String>) -> String {
    let mut words: Vec<_> = words.into_iter().collect();
    words.sort();
    words.join(" ")
}

impl Outcome {
    /// Its name in the store.
    pub fn name(self) -> &'static str {
        match self {
            Outcome::Read => "read",
            Outcome::Other => "other",
            Outcome::Unread => "unread",
        }
    }

    /// The outcome with a name.
    pub(crate) fn of_name(name: &str) -> Option<Outcome> {
        [Outcome::Read, Outcome::Other, Outcome::Unread].into_iter().find(|outcome| outcome.name() == name)
    }
}
