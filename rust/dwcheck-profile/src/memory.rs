//! The names of code that a compiler made at run time: by the file `jit-PID.dump` or `/tmp/perf-PID.map` that the
//! process wrote.

use super::jitdump;
use std::fs;
use std::path::Path;

/// The most bytes of such a file that are read.
const MOST: u64 = 256 << 20;

/// The functions of such a file.
#[derive(Debug, Default)]
pub(super) struct Memory {
    text: Vec<u8>,
    /// The first address, the number of bytes, and where in `text` the name is, ascending. If the code of a
    /// function was replaced, the later line comes last.
    functions: Vec<(u64, u64, usize)>,
}

impl Memory {
    /// The functions that a process has listed. Empty if it has no list. `dump` is the file that it has mapped to
    /// say that it lists them there.
    pub fn of_process(pid: u32, root: &Path, dump: Option<&Path>) -> Memory {
        let dumped = dump.map(|path| jitdump::read_jitdump(path, MOST as usize)).unwrap_or_default();
        if !dumped.is_empty() {
            return Memory::of_dump(dumped);
        }
        let path = root.join(format!("tmp/perf-{}.map", pid));
        let is_list = |path: &Path| path.metadata().map_or(false, |file| file.is_file() && file.len() <= MOST);
        let text = if is_list(&path) { fs::read(&path).unwrap_or_default() } else { Vec::new() };
        Memory::of_list(text)
    }

    fn of_dump(dumped: jitdump::Functions) -> Memory {
        let mut memory = Memory::default();
        for (begin, size, name) in dumped {
            memory.functions.push((begin, size, memory.text.len()));
            memory.text.extend(name.iter().map(|byte| if *byte == b'\n' { b' ' } else { *byte }));
            memory.text.push(b'\n');
        }
        memory.functions.sort_by_key(|function| function.0);
        memory
    }

    fn of_list(text: Vec<u8>) -> Memory {
        let mut functions = Vec::new();
        let mut at = 0;
        for line in text.split(|byte| *byte == b'\n') {
            if let Some((begin, size, name)) = parse_perf_map_line(line) {
                functions.push((begin, size, at + name));
            }
            at += line.len() + 1;
        }
        functions.sort_by_key(|function| function.0);
        Memory { text, functions }
    }

    /// The function that has an address, and the distance from its begin.
    pub fn at(&self, address: u64) -> Option<(String, u64)> {
        let next = self.functions.partition_point(|function| function.0 <= address);
        let (begin, size, at) = *self.functions.get(next.checked_sub(1)?)?;
        let name = self.text.get(at..)?.split(|byte| *byte == b'\n').next()?;
        (address - begin < size).then(|| (String::from_utf8_lossy(name).into_owned(), address - begin))
    }
}

/// A line of a list: the first address, the number of bytes, and where the name begins.
fn parse_perf_map_line(line: &[u8]) -> Option<(u64, u64, usize)> {
    let text = String::from_utf8_lossy(line);
    let mut words = text.splitn(3, ' ');
    let mut number = || {
        let word = words.next()?;
        Some((u64::from_str_radix(word.strip_prefix("0x").unwrap_or(word), 16).ok()?, word.len() + 1))
    };
    let ((begin, first), (size, second)) = (number()?, number()?);
    Some((begin, size, first + second)).filter(|(_, _, name)| *name < line.len())
}

#[cfg(test)]
mod tests {
    use super::Memory;

    #[test]
    fn a_name_may_have_spaces() {
        let memory =
            Memory::of_list(b"7f0000 10 LazyCompile:~fib /a b.js:3\n0x7f0010 8 two\nbad\n7f0018 zz x\n".to_vec());
        assert_eq!(memory.at(0x7f000f), Some(("LazyCompile:~fib /a b.js:3".to_string(), 15)));
        assert_eq!(memory.at(0x7f0010), Some(("two".to_string(), 0)));
        assert_eq!(memory.at(0x7f0018), None);
    }
}
