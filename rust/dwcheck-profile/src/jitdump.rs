//! Code that a compiler made at run time, its names and its unwind tables: by the file `jit-PID.dump` that the process
//! wrote.
//!
//! Linux has its format in tools/perf/Documentation/jitdump-specification.txt. A process maps the file, so that the
//! recording has its path.

use dwcheck_types::target::{AddressSize, Order, Target};
use std::collections::HashMap;
use std::fs::File;
use std::io::{self, BufReader, Read, Seek, SeekFrom};
use std::path::Path;

/// The first number of a file, by which its byte order is known.
const MAGIC: u32 = 0x4A69_5444;

/// The length of the header, as far as it is read: the magic number, the version, the header's length, the machine.
const HEADER: usize = 16;

/// The length of what each record begins with: its kind, its length, and a time.
const RECORD_HEAD: usize = 16;

/// What a record of each kind has after that, before names, code and tables.
const LOAD_BODY: usize = 40;
const MOVE_BODY: usize = 48;
const UNWINDING_BODY: usize = 24;

/// The kinds of records that are read.
const LOAD: u64 = 0;
const MOVE: u64 = 1;
const UNWINDING: u64 = 4;

/// The longest name that is read, in bytes.
const LONGEST: u64 = 1 << 16;

/// The longest unwind table that is read, in bytes.
const LONGEST_TABLE: u64 = 1 << 24;

/// Functions, each with its first address, the number of its bytes, and its name, in the order in which the
/// compiler made them.
pub(super) type Functions = Vec<(u64, u64, Vec<u8>)>;

/// Whether a process that maps a file with this path says so that it writes such a file.
pub(super) fn is_jitdump_path(path: &[u8]) -> bool {
    let name = path.rsplit(|byte| *byte == b'/').next().unwrap_or(path);
    let pid = name.strip_prefix(b"jit-").and_then(|rest| rest.strip_suffix(b".dump"));
    pid.map_or(false, |pid| !pid.is_empty() && pid.iter().all(u8::is_ascii_digit))
}

/// The functions that a file has, as far as it can be read, of at most `most` bytes of names.
pub(super) fn read_jitdump(path: &Path, most: usize) -> Functions {
    Dump::open(path).map_or_else(Functions::new, |dump| functions_of(dump, most))
}

fn functions_of<R: Read + Seek>(dump: Dump<R>, most: usize) -> Functions {
    let mut functions = Functions::new();
    let mut by_index: HashMap<u64, Vec<u8>> = HashMap::new();
    let mut size = 0;
    for record in dump {
        let (index, function) = match record {
            Record::Load { index, begin, size, name } => (index, (begin, size, name)),
            Record::Move { index, begin, size } => match by_index.get(&index) {
                Some(name) => (index, (begin, size, name.clone())),
                None => continue,
            },
            Record::Unwinding { .. } | Record::Other => continue,
        };
        size += function.2.len();
        if size > most {
            break;
        }
        by_index.insert(index, function.2.clone());
        functions.push(function);
    }
    functions
}

/// The records of a file, up to the first one that can't be read.
pub(super) struct Dump<R> {
    file: R,
    /// The byte order. Each number has at most eight bytes.
    target: Target,
    /// The machine's number (`e_machine`).
    pub machine: u16,
}

impl Dump<BufReader<File>> {
    /// The records of the file with a path. `None` if it isn't such a file.
    pub fn open(path: &Path) -> Option<Self> {
        let is_file = path.metadata().map_or(false, |file| file.is_file());
        let file = File::open(path).ok().filter(|_| is_file)?;
        Dump::read(BufReader::new(file))
    }
}

impl<R: Read + Seek> Dump<R> {
    /// Reads the header. `None` if it is that of another file.
    pub fn read(mut file: R) -> Option<Self> {
        let mut head = [0; HEADER];
        file.read_exact(&mut head).ok()?;
        let orders = [Order::Little, Order::Big].map(|order| Target { order, address_size: AddressSize::Eight });
        let target = orders.into_iter().find(|target| target.number(&head[..4]) == u64::from(MAGIC))?;
        file.seek(SeekFrom::Start(target.number(&head[8..12]))).ok()?;
        let machine = u16::try_from(target.number(&head[12..])).unwrap_or(0);
        Some(Dump { file, target, machine })
    }

    /// The byte order of the file.
    pub fn order(&self) -> Order {
        self.target.order
    }
}

impl<R: Read + Seek> Iterator for Dump<R> {
    type Item = Record;

    fn next(&mut self) -> Option<Record> {
        Record::read(&mut self.file, self.target).ok()
    }
}

/// A record.
#[derive(Debug, PartialEq, Eq)]
pub(super) enum Record {
    /// A function was made.
    Load { index: u64, begin: u64, size: u64, name: Vec<u8> },
    /// A function was moved.
    Move { index: u64, begin: u64, size: u64 },
    /// The unwind table of the function that is made next: an `.eh_frame` section, and a search table that has this
    /// many bytes.
    Unwinding { data: Vec<u8>, header: u64 },
    /// Another record.
    Other,
}

/// The error for what ends too early: the process is still writing it, or a length is wrong.
fn ended_too_early() -> io::Error {
    io::ErrorKind::UnexpectedEof.into()
}

impl Record {
    fn read<R: Read + Seek>(file: &mut R, target: Target) -> io::Result<Record> {
        let mut head = [0; RECORD_HEAD];
        file.read_exact(&mut head)?;
        let (kind, size) = (target.number(&head[..4]), target.number(&head[4..8]));
        let fixed = match kind {
            LOAD => LOAD_BODY,
            MOVE => MOVE_BODY,
            UNWINDING => UNWINDING_BODY,
            _ => 0,
        };
        let mut rest = size.checked_sub((RECORD_HEAD + fixed) as u64).ok_or_else(ended_too_early)?;
        let mut body = [0; MOVE_BODY];
        file.read_exact(&mut body[..fixed])?;
        let word = |place: usize| target.number(&body[8 * place..8 * place + 8]);
        let record = match kind {
            // The process and the thread, where the code is in memory, its address, length and index.
            LOAD => {
                let (name, length) = read_function_name(file, rest.saturating_sub(word(3)))?;
                rest -= length;
                Record::Load { index: word(4), begin: word(2), size: word(3), name }
            }
            // Before its new address is its old one.
            MOVE => Record::Move { index: word(5), begin: word(3), size: word(4) },
            // The bytes of both parts, those of the search table, and those that the process has mapped.
            UNWINDING if word(0) <= rest.min(LONGEST_TABLE) => {
                let mut data = vec![0; word(0) as usize];
                file.read_exact(&mut data)?;
                rest -= word(0);
                Record::Unwinding { data, header: word(1) }
            }
            _ => Record::Other,
        };
        file.seek(SeekFrom::Current(i64::try_from(rest).unwrap_or(i64::MAX)))?;
        Ok(record)
    }
}

/// Reads a name that has at most this many bytes with the zero at its end. Returns the number of bytes that were read
/// too.
fn read_function_name<R: Read>(file: &mut R, most: u64) -> io::Result<(Vec<u8>, u64)> {
    let mut name = Vec::new();
    let read = file.take(most.min(LONGEST)).read_to_end(&mut name)? as u64;
    match name.iter().position(|byte| *byte == 0) {
        Some(end) => name.truncate(end),
        None if read == LONGEST => {}
        None => return Err(ended_too_early()),
    }
    Ok((name, read))
}

#[cfg(test)]
mod tests {
    use super::{functions_of, is_jitdump_path, Dump, Functions, Record};
    use std::io::Cursor;

    fn dump(records: &[(u32, Vec<u8>)]) -> Vec<u8> {
        let mut bytes = Vec::new();
        [0x4A69_5444u32, 1, 40, 62, 0, 5].into_iter().for_each(|word| bytes.extend(word.to_le_bytes()));
        bytes.resize(40, 0);
        for (kind, body) in records {
            bytes.extend(kind.to_le_bytes());
            bytes.extend((16 + body.len() as u32).to_le_bytes());
            bytes.extend(7u64.to_le_bytes());
            bytes.extend(body);
        }
        bytes
    }

    fn read_functions(bytes: &[u8], most: usize) -> Functions {
        Dump::read(Cursor::new(bytes)).map_or_else(Functions::new, |dump| functions_of(dump, most))
    }

    fn words(task: u64, words: &[u64]) -> Vec<u8> {
        std::iter::once(&task).chain(words).flat_map(|word| word.to_le_bytes()).collect()
    }

    /// The records' layouts are those of the specification.
    #[test]
    fn functions_are_made_and_moved() {
        let load = [words(5, &[0x7000, 0x7000, 4, 9]), b"fib\0code".to_vec()].concat();
        let moved = words(5, &[0x8000, 0x7000, 0x8000, 4, 9]);
        let bytes = dump(&[(2, vec![1; 24]), (0, load), (1, moved), (3, Vec::new())]);
        let expected = vec![(0x7000, 4, b"fib".to_vec()), (0x8000, 4, b"fib".to_vec())];
        assert_eq!(read_functions(&bytes, 100), expected);
        for end in 0..bytes.len() {
            assert!(expected.starts_with(&read_functions(&bytes[..end], 100)));
        }
        assert_eq!(read_functions(&bytes, 2), []);
    }

    #[test]
    fn tables_come_before_functions() {
        let table = [words(6, &[4, 6]), b"tables--".to_vec()].concat();
        let bytes = dump(&[(4, table), (4, words(9, &[4, 0]))]);
        let dump = Dump::read(Cursor::new(&bytes)).unwrap();
        assert_eq!(dump.machine, 62);
        let records: Vec<Record> = dump.collect();
        // The second one says that it has more bytes than there are.
        assert_eq!(records, [Record::Unwinding { data: b"tables".to_vec(), header: 4 }, Record::Other]);
    }

    #[test]
    fn the_name_of_a_mapped_file_says_that_it_is_one() {
        assert!(is_jitdump_path(b"/tmp/jit-12.dump") && is_jitdump_path(b"jit-1.dump"));
        assert!(
            !is_jitdump_path(b"/tmp/jit-.dump")
                && !is_jitdump_path(b"/tmp/jit-12.dump/x")
                && !is_jitdump_path(b"/tmp/xjit-1.dump")
        );
    }
}
