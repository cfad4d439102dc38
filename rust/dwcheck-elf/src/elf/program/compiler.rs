//! The compilers that an ELF file names.

use super::Program;
use std::collections::HashSet;

/// How many bytes of `.comment` are read.
const COMMENT_LIMIT: usize = 1024;

impl Program<'_> {
    /// The compilers that the file names in `.comment`, each once. `None` if it names none.
    pub fn compiler(&self) -> Option<String> {
        let comment = self.section(".comment").ok().flatten()?;
        let text = String::from_utf8_lossy(comment.bytes.get(..COMMENT_LIMIT).unwrap_or(&comment.bytes)).into_owned();
        let mut names: Vec<&str> = text.split('\0').filter(|name| !name.is_empty()).collect();
        let mut seen = HashSet::new();
        names.retain(|name| seen.insert(*name));
        let all: String = names.join("; ").chars().filter(|c| !c.is_control()).collect();
        Some(all).filter(|all| !all.is_empty())
    }
}
