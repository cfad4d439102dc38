//! The message that glibc keeps when it ends a process, such as that of a failed assertion.

use super::per_file::PerFile;
use super::Stacks;
use crate::elf::program::Program;
use crate::process::core_file::Module;

/// glibc's variable with the address of the message, before which its size is.
const VARIABLE: &str = "__abort_msg";

/// The number of the signal by which glibc ends a process.
const SIGABRT: u32 = 6;

/// The most bytes of a message that are read.
const LONGEST: usize = 4096;

impl Stacks<'_> {
    /// The message with which glibc ended the process, without the line feed at its end.
    pub fn abort_message(&self) -> Option<String> {
        self.core.signal().filter(|signal| signal.number == SIGABRT)?;
        let tables = self.tables.borrow();
        let has_glibc = |module: &&Module<'_>| module.path.ends_with("libc.so.6") || self.core.begins_in(module);
        let mut variables = PerFile::new(|program: &Program<'_>| program.variable(VARIABLE));
        let mut modules = tables.modules().iter().filter(has_glibc);
        modules.find_map(|module| self.message_at(module, variables.of(module)?))
    }

    /// The message to which a variable of a module leads, whose address in the file is `linked`.
    fn message_at(&self, module: &Module<'_>, linked: u64) -> Option<String> {
        let target = self.core.target();
        let mut word = [0; 8];
        let word = word.get_mut(..usize::from(target.address_size.bytes()))?;
        let is_known = self.memory.read(target.wrap(linked.wrapping_add(module.bias)), word);
        let message = target.number(word);
        let mut size = [0; 4];
        if !is_known || message == 0 || !self.memory.read(message, &mut size) {
            return None;
        }
        let size = usize::try_from(target.number(&size)).map_or(LONGEST, |size| size.min(LONGEST));
        let bytes = self.memory.at_most(message.checked_add(4)?, size);
        let text = bytes.split(|byte| *byte == 0).next()?;
        let text = String::from_utf8_lossy(text).trim_end_matches('\n').to_string();
        Some(text).filter(|text| !text.is_empty())
    }
}
