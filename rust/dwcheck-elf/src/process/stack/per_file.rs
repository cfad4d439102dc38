//! Something that is read once of the file of each module. A file that is mapped several times is read once.

use super::tables::{file_key, FileKey};
use crate::elf::program::Program;
use crate::process::core_file::Module;
use std::collections::HashMap;

/// What `read` finds in files. `None` for a file that can't be read, or in which it finds nothing.
pub(super) struct PerFile<T, F> {
    read: F,
    found: HashMap<FileKey, Option<T>>,
}

impl<T: Clone, F: FnMut(&Program<'_>) -> Option<T>> PerFile<T, F> {
    /// Nothing was read yet.
    pub fn new(read: F) -> Self {
        PerFile { read, found: HashMap::new() }
    }

    /// What was found in the file of a module.
    pub fn of(&mut self, module: &Module<'_>) -> Option<T> {
        let read = &mut self.read;
        let found = self.found.entry(file_key(module));
        found.or_insert_with(|| read(&Program::read(module.image.bytes()).ok()?)).clone()
    }
}

#[cfg(test)]
mod tests {
    use super::PerFile;
    use crate::process::core_file::{Image, Module};

    /// The second module is the same file at another address.
    #[test]
    fn a_file_that_is_mapped_twice_is_read_once() {
        let program = std::fs::read("/proc/self/exe").unwrap();
        let module =
            |image, begin| Module { path: "a".into(), bias: begin, begin, end: begin + 1, code: Vec::new(), image };
        let (first, other) = (Image::File(3, &program), Image::File(4, &program));
        let mut read = 0;
        let mut entries = PerFile::new(|program| {
            read += 1;
            Some(program.entry())
        });
        let found: Vec<_> = [module(first, 0), module(first, 9), module(other, 20), module(Image::File(5, &[]), 30)]
            .iter()
            .map(|module| entries.of(module))
            .collect();
        assert!(found[0].is_some() && found[0] == found[1] && found[1] == found[2] && found[3].is_none());
        assert_eq!(read, 2);
    }
}
