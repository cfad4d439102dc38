//! The names of the kernel's functions: by a list that `/proc/kallsyms` or `System.map` is.

use super::recording::{BuildId, Features};
use super::SearchPaths;
use std::fs;
use std::path::Path;

/// The name by which perf knows the kernel.
const NAME: &[u8] = b"[kernel.kallsyms]";

/// The symbol at which the kernel's text begins.
const START: &[u8] = b"_text";

/// The functions of a kernel.
#[derive(Debug, Default)]
pub(super) struct Kernel {
    text: Vec<u8>,
    /// The address of each function, and where its line's name is in `text`, ascending.
    functions: Vec<(u64, u32)>,
    /// What is added to an address of the list to get that of the recording.
    moved: u64,
}

impl Kernel {
    /// The functions of the kernel that was recorded: of the list that perf stored with it, or of the kernel that
    /// runs, if it is the same.
    pub fn of_recording(features: &Features, search_paths: &SearchPaths, start: Option<u64>) -> Kernel {
        let id = features.build_id(NAME);
        let cached = id.and_then(|id| fs::read(search_paths.cached(id, "kallsyms")?).ok());
        let own = || fs::read("/proc/kallsyms").ok().filter(|_| is_running_kernel(id, features));
        Kernel::of_list(cached.or_else(own).unwrap_or_default(), start)
    }

    /// The functions that a file lists.
    ///
    /// # Errors
    ///
    /// If the file can't be read.
    pub fn of_file(path: &Path, start: Option<u64>) -> std::io::Result<Kernel> {
        Ok(Kernel::of_list(fs::read(path)?, start))
    }

    /// The functions of a list. `start` is where the kernel's text began in the recording.
    fn of_list(text: Vec<u8>, start: Option<u64>) -> Kernel {
        let mut functions = Vec::new();
        let mut listed_start = None;
        let mut at = 0;
        for end in memchr::memchr_iter(b'\n', &text).chain([text.len()]) {
            let line = text.get(at..end).unwrap_or(&[]);
            if let Some((address, kind, name)) = parse_symbol_line(line) {
                if line.get(name..) == Some(START) {
                    listed_start = Some(address);
                }
                if matches!(kind, b't' | b'T' | b'w' | b'W') && address != 0 {
                    functions.push((address, (at + name).try_into().unwrap_or(u32::MAX)));
                }
            }
            at = end + 1;
        }
        functions.sort_by_key(|function| function.0);
        let moved = start.zip(listed_start).map_or(0, |(start, listed)| start.wrapping_sub(listed));
        Kernel { text, functions, moved }
    }

    /// The function that has an address, its module if it is one of a module, and the distance from its begin.
    pub fn at(&self, address: u64) -> Option<(&str, Option<&str>, u64)> {
        let address = address.wrapping_sub(self.moved);
        let next = self.functions.partition_point(|function| function.0 <= address);
        let (begin, at) = *self.functions.get(next.checked_sub(1)?)?;
        let line = self.text.get(at as usize..)?.split(|byte| *byte == b'\n').next()?;
        let mut words = std::str::from_utf8(line).ok()?.split_ascii_whitespace();
        Some((words.next()?, words.next(), address - begin))
    }
}

/// A line of a list: the address, the kind, and where the name begins.
fn parse_symbol_line(line: &[u8]) -> Option<(u64, u8, usize)> {
    let (mut address, mut space) = (0u64, 0);
    loop {
        let digit = match *line.get(space)? {
            byte @ b'0'..=b'9' => byte - b'0',
            byte @ b'a'..=b'f' => byte - b'a' + 10,
            byte @ b'A'..=b'F' => byte - b'A' + 10,
            b' ' => break,
            _ => return None,
        };
        address = address.checked_mul(16)? | u64::from(digit);
        space += 1;
    }
    Some((address, *line.get(space + 1)?, space + 3)).filter(|_| line.get(space + 2) == Some(&b' '))
}

/// Whether the kernel that runs is the recorded one: by its build id, or else by its version.
fn is_running_kernel(id: Option<&BuildId>, features: &Features) -> bool {
    match id {
        Some(id) => fs::read("/sys/kernel/notes")
            .map_or(false, |notes| notes.windows(id.bytes().len().max(1)).any(|window| window == id.bytes())),
        None => {
            let release = fs::read_to_string("/proc/sys/kernel/osrelease").unwrap_or_default();
            features.release.as_deref().map_or(true, |recorded| recorded == release.trim_end())
        }
    }
}

#[cfg(test)]
mod tests {
    use super::*;

    #[test]
    fn the_function_before_an_address_counts_and_data_do_not() {
        let list = b"ffffffff81000000 T _text\nffffffff81000100 t one\nffffffff81000180 d data\n\
            ffffffffc0000000 t two\t[nf_tables]\nbad\n";
        let kernel = Kernel::of_list(list.to_vec(), None);
        assert_eq!(kernel.at(0xffff_ffff_8100_0190), Some(("one", None, 0x90)));
        assert_eq!(kernel.at(0xffff_ffff_c000_0004), Some(("two", Some("[nf_tables]"), 4)));
        assert_eq!(kernel.at(0x1000), None);
        let moved = Kernel::of_list(list.to_vec(), Some(0xffff_ffff_8200_0000));
        assert_eq!(moved.at(0xffff_ffff_8200_0101), Some(("one", None, 1)));
    }
}
