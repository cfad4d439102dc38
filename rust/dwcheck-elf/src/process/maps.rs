//! What `/proc` says about a process: its memory maps, threads, machine and tracer.

use crate::elf::program::Program;
use dwcheck_types::abi::{abi, Abi};
use dwcheck_types::target::Target;
use nix::sys::uio::{process_vm_readv, RemoteIoVec};
use nix::unistd::Pid;
use std::collections::HashMap;
use std::fmt;
use std::fs;
use std::io::{self, IoSliceMut};
use std::path::PathBuf;

/// A part of the memory of a process (a line of `/proc/PID/maps`).
#[derive(Clone, Debug, PartialEq, Eq)]
pub struct Map {
    /// The first address.
    pub begin: u64,
    /// The address after the last one.
    pub end: u64,
    /// Whether it may be written to.
    pub is_writable: bool,
    /// Whether it may be executed.
    pub is_executable: bool,
    /// The offset in the file of the byte at `begin`.
    pub offset: u64,
    /// The number of the file on its file system, 0 if there is no file.
    pub inode: u64,
    /// The file's path, or a name such as `[stack]`; empty if it has neither.
    pub path: Vec<u8>,
}

/// A process, by its id.
#[derive(Debug)]
pub struct Process {
    /// The id.
    pub id: u32,
    /// A thread that has the process's memory.
    alive: u32,
    /// The parts of its memory, ascending by address.
    pub maps: Vec<Map>,
    /// The auxiliary vector.
    pub auxiliary: Vec<u8>,
    /// The name of its first thread.
    pub name: Option<String>,
}

/// Why a process can't be copied.
#[derive(Debug)]
pub enum LiveError {
    /// There is no such process, or it ended.
    NoProcess,
    /// A file of the process in `/proc` can't be read.
    Unreadable(io::Error),
    /// It can't be traced: another program traces it, which has this id, or this program may not.
    NotTraced(Option<u32>),
    /// Code for its machine isn't read.
    Machine,
}

impl Process {
    /// Reads what `/proc` has of a process.
    pub fn read(id: u32) -> Result<Process, LiveError> {
        let alive = thread_with_memory(id);
        let folder = PathBuf::from(format!("/proc/{}", alive));
        let maps = fs::read(folder.join("maps")).map_err(proc_failure)?;
        let auxiliary = fs::read(folder.join("auxv")).map_err(proc_failure)?;
        let maps: Vec<_> = parse_maps(&maps).collect();
        let mut process = Process { id, alive, maps, auxiliary, name: None };
        process.name = process.thread_name(id);
        Ok(process)
    }

    /// The byte order, the address size and the calling convention, by the program's file.
    pub fn machine(&self) -> Result<(Target, &'static Abi), LiveError> {
        let file = fs::File::open(format!("/proc/{}/exe", self.alive)).map_err(proc_failure)?;
        let size = file.metadata().map_err(LiveError::Unreadable)?.len();
        let bytes = crate::elf::mapped::Bytes::of_file(&file, size).map_err(LiveError::Unreadable)?;
        let program = Program::read(&bytes).map_err(|_| LiveError::Machine)?;
        let target = program.target();
        let abi = abi(program.machine(), target.address_size).ok_or(LiveError::Machine)?;
        Ok((target, abi))
    }

    /// The ids of the threads, ascending.
    pub fn threads(&self) -> Result<Vec<u32>, LiveError> {
        let folder = fs::read_dir(format!("/proc/{}/task", self.id)).map_err(proc_failure)?;
        let names = folder.filter_map(|entry| entry.ok()?.file_name().to_str()?.parse().ok());
        let mut tids: Vec<u32> = names.collect();
        tids.sort_unstable();
        Ok(tids)
    }

    /// The name of a thread, by its id.
    pub fn thread_name(&self, tid: u32) -> Option<String> {
        let name = fs::read(format!("/proc/{}/task/{}/comm", self.id, tid)).ok()?;
        Some(String::from_utf8_lossy(&name).trim_end_matches('\n').to_string())
    }

    /// The name of each thread, by the id that it has where the process is: in a container, ids may be others.
    pub fn names_inside(&self) -> HashMap<u32, String> {
        let threads = self.threads().unwrap_or_default();
        threads.into_iter().filter_map(|tid| Some((self.id_inside(tid), self.thread_name(tid)?))).collect()
    }

    /// The id that a thread has in its innermost namespace.
    fn id_inside(&self, tid: u32) -> u32 {
        let status = fs::read(format!("/proc/{}/task/{}/status", self.id, tid)).unwrap_or_default();
        let status = String::from_utf8_lossy(&status);
        let ids = status.lines().find_map(|line| line.strip_prefix("NSpid:"));
        ids.and_then(|ids| ids.split_ascii_whitespace().last()?.parse().ok()).unwrap_or(tid)
    }

    /// Whether a thread has ended, though it may still be listed.
    pub fn has_ended(&self, tid: u32) -> bool {
        let stat = fs::read_to_string(format!("/proc/{}/task/{}/stat", self.id, tid)).unwrap_or_default();
        // The state follows the name, which is in parentheses.
        stat.rsplit_once(") ").map_or(true, |(_, rest)| rest.starts_with('Z') || rest.starts_with('X'))
    }

    /// The id of the process that traces this one.
    pub fn tracer(&self) -> Option<u32> {
        let status = fs::read_to_string(format!("/proc/{}/status", self.id)).ok()?;
        let tracer = status.lines().find_map(|line| line.strip_prefix("TracerPid:"))?;
        tracer.trim().parse().ok().filter(|tracer| *tracer != 0)
    }

    /// The address and a copy of the vDSO.
    pub fn vdso(&self) -> Option<(u64, Vec<u8>)> {
        let map = self.maps.iter().find(|map| map.path == b"[vdso]")?;
        Some((map.begin, self.memory(map.begin, map.end.checked_sub(map.begin)?)?))
    }

    /// A copy of the memory from an address on: `size` bytes, or fewer if not all can be read. `None`
    /// if none can be read.
    pub fn memory(&self, address: u64, size: u64) -> Option<Vec<u8>> {
        let mut bytes = vec![0; usize::try_from(size).ok()?];
        let remote = RemoteIoVec { base: usize::try_from(address).ok()?, len: bytes.len() };
        let pid = Pid::from_raw(self.alive as i32);
        let count = process_vm_readv(pid, &mut [IoSliceMut::new(&mut bytes)], &[remote]).ok()?;
        bytes.truncate(count);
        Some(bytes).filter(|bytes| !bytes.is_empty())
    }
}

/// A thread of a process that has its memory: the first one, unless that has ended before others.
pub(crate) fn thread_with_memory(id: u32) -> u32 {
    let has_memory = |tid: &u32| fs::read(format!("/proc/{}/maps", tid)).map_or(false, |maps| !maps.is_empty());
    let listed = fs::read_dir(format!("/proc/{}/task", id)).into_iter().flatten();
    let others = listed.filter_map(|entry| entry.ok()?.file_name().to_str()?.parse().ok());
    std::iter::once(id).chain(others).find(has_memory).unwrap_or(id)
}

/// Whether the memory of a line of `maps`, by its index, can differ from its file: it can be written to, or it is
/// right before such memory of the same file. There the dynamic linker has stored addresses before it made the
/// memory read-only (`PT_GNU_RELRO`).
pub(crate) fn can_differ(maps: &[Map], index: usize) -> bool {
    match maps.get(index..) {
        Some([map, ..]) if map.is_writable => true,
        Some([map, next, ..]) => {
            let is_next = map.end == next.begin && map.inode == next.inode && map.path == next.path;
            is_next && map.inode != 0 && !map.is_executable && next.is_writable
        }
        _ => false,
    }
}

/// A file in `/proc` that isn't there belongs to a process that isn't there.
fn proc_failure(error: io::Error) -> LiveError {
    match error.kind() {
        io::ErrorKind::NotFound => LiveError::NoProcess,
        io::ErrorKind::PermissionDenied => LiveError::NotTraced(None),
        _ if error.raw_os_error() == Some(libc::ESRCH) => LiveError::NoProcess,
        _ => LiveError::Unreadable(error),
    }
}

/// The lines of `/proc/PID/maps`, without those that can't be read.
pub(crate) fn parse_maps(text: &[u8]) -> impl Iterator<Item = Map> + '_ {
    text.split(|byte| *byte == b'\n').filter_map(parse_map_line)
}

/// Reads a line such as `7f00-7f01 r-xp 00001000 08:01 123      /bin/a b`.
fn parse_map_line(line: &[u8]) -> Option<Map> {
    let mut words = line.splitn(6, |byte| *byte == b' ');
    let mut word = || std::str::from_utf8(words.next()?).ok();
    let number = |text: &str| u64::from_str_radix(text, 16).ok();
    let (begin, end) = word()?.split_once('-')?;
    let (begin, end) = (number(begin)?, number(end)?);
    let rights = word()?.as_bytes();
    let (is_writable, is_executable) = (rights.get(1) == Some(&b'w'), rights.get(2) == Some(&b'x'));
    let offset = number(word()?)?;
    let (_device, inode) = (word()?, word()?.parse().ok()?);
    let path = words.next().unwrap_or(&[]);
    let path = path.iter().position(|byte| *byte != b' ').map_or(&[][..], |first| &path[first..]);
    Some(Map { begin, end, is_writable, is_executable, offset, inode, path: path.to_vec() })
}

impl fmt::Display for LiveError {
    fn fmt(&self, f: &mut fmt::Formatter<'_>) -> fmt::Result {
        match self {
            LiveError::NoProcess => f.write_str("there is no such process, or it ended"),
            LiveError::Unreadable(error) => write!(f, "its memory can't be read: {}", error),
            LiveError::NotTraced(Some(tracer)) => write!(f, "the process {} traces it already", tracer),
            LiveError::NotTraced(None) => f.write_str("it may not be traced: that needs its user's rights, or root's"),
            LiveError::Machine => f.write_str("its machine isn't x86-64, i386 or aarch64"),
        }
    }
}

impl std::error::Error for LiveError {
    fn source(&self) -> Option<&(dyn std::error::Error + 'static)> {
        match self {
            LiveError::Unreadable(error) => Some(error),
            _ => None,
        }
    }
}

#[cfg(test)]
mod tests {
    use super::{parse_map_line, Map};

    #[test]
    fn lines_of_maps() {
        let line = b"7f0000001000-7f0000002000 r-xp 00003000 08:01 1234                       /usr/lib/a b (deleted)";
        let (begin, end) = (0x7f00_0000_1000, 0x7f00_0000_2000);
        let path = b"/usr/lib/a b (deleted)".to_vec();
        let code = Map { begin, end, is_writable: false, is_executable: true, offset: 0x3000, inode: 1234, path };
        assert_eq!(parse_map_line(line), Some(code.clone()));
        let line = b"7f0000001000-7f0000002000 rw-p 00000000 00:00 0 ";
        let data = Map { is_writable: true, is_executable: false, offset: 0, inode: 0, path: Vec::new(), ..code };
        assert_eq!(parse_map_line(line), Some(data));
        assert_eq!(parse_map_line(b""), None);
    }
}
