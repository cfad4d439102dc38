//! The memory of a process: which code is where in it, its stacks, and its breakpoints.

use super::breakpoints::Breakpoints;
use super::files::{Files, VDSO};
use super::ptrace::Tid;
use super::site::{Site, Sites};
use dwcheck_elf::internal::Process;
use dwcheck_elf::live::Map;
use dwcheck_lint::x86_64::X86_64;
use std::fs::{File, OpenOptions};
use std::io;
use std::ops::Range;
use std::os::unix::fs::FileExt;

/// How far the first thread's stack may grow downwards.
const MOST_STACK: u64 = 8 << 20;

/// The most bytes of an instruction.
const LONGEST: usize = 15;

/// The most bytes that are copied of the kernel's module.
const MOST_VDSO: u64 = 1 << 20;

/// The memory of a process, which several processes may share.
#[derive(Debug)]
pub(super) struct Space {
    /// A process or a thread with this memory.
    pub pid: Tid,
    memory: File,
    /// Executable memory, ascending.
    pub code: Vec<Code>,
    /// Memory that can be written to, which stacks are in.
    writable: Vec<Range<u64>>,
    pub breakpoints: Breakpoints,
}

/// A part of executable memory.
#[derive(Clone, Debug, PartialEq, Eq)]
pub(super) struct Code {
    pub range: Range<u64>,
    /// The index of its file. `None` if it is in no file that can be read.
    pub file: Option<usize>,
    /// What is added to an address in the file to get the one here.
    pub bias: u64,
}

impl Space {
    /// The memory of a process, of which nothing is known yet.
    pub fn of(pid: Tid) -> io::Result<Space> {
        let memory = OpenOptions::new().read(true).write(true).open(format!("/proc/{}/mem", pid))?;
        Ok(Space { pid, memory, code: Vec::new(), writable: Vec::new(), breakpoints: Breakpoints::default() })
    }

    /// The memory of a process that was made by `fork`, which begins as a copy of this one.
    pub fn forked(&self, pid: Tid) -> io::Result<Space> {
        let mut copy = Space::of(pid)?;
        copy.code = self.code.clone();
        copy.writable = self.writable.clone();
        copy.breakpoints = self.breakpoints.clone();
        Ok(copy)
    }

    /// Reads memory, with the breakpoints that are there. Returns whether all of it could be read.
    pub fn read(&self, address: u64, bytes: &mut [u8]) -> bool {
        self.memory.read_exact_at(bytes, address).is_ok()
    }

    /// Writes memory, also where the process itself couldn't.
    pub fn write(&self, address: u64, bytes: &[u8]) -> io::Result<()> {
        self.memory.write_all_at(bytes, address)
    }

    /// The eight bytes at an address, as a number.
    pub fn word(&self, address: u64) -> Option<u64> {
        let mut bytes = [0; 8];
        self.read(address, &mut bytes).then(|| u64::from_le_bytes(bytes))
    }

    /// Reads code, as it is without breakpoints. Returns how many bytes could be read.
    pub fn read_code(&self, address: u64, bytes: &mut [u8]) -> usize {
        let count = if self.read(address, bytes) {
            bytes.len()
        } else {
            // Perhaps the memory ends at the end of the page.
            let rest = (4096 - address % 4096).min(bytes.len() as u64) as usize;
            if self.read(address, &mut bytes[..rest]) {
                rest
            } else {
                0
            }
        };
        self.breakpoints.hide(address, &mut bytes[..count]);
        count
    }

    /// Reads again which memory is mapped. What was known of code that isn't there anymore is forgotten.
    pub fn refresh(&mut self, files: &mut Files<'_, '_>) {
        let maps = match Process::read(self.pid as u32) {
            Ok(process) if !process.maps.is_empty() => process.maps,
            // The thread ends.
            _ => return,
        };
        self.writable = maps.iter().filter(|map| map.is_writable).map(stack_range).collect();
        let code: Vec<Code> = maps.iter().filter(|map| map.is_executable).map(|map| self.place(map, files)).collect();
        let is_there = |address: &u64, old: &[Code]| find_code(old, *address) == find_code(&code, *address);
        let old = std::mem::take(&mut self.code);
        self.breakpoints.retain(|address| is_there(&address, &old));
        self.code = code;
    }

    /// Finds the file of executable memory.
    fn place(&self, map: &Map, files: &mut Files<'_, '_>) -> Code {
        let vdso = || {
            let size = Some(map.end - map.begin).filter(|size| map.path == VDSO && *size <= MOST_VDSO)?;
            let mut bytes = vec![0; size as usize];
            self.read(map.begin, &mut bytes).then_some(bytes)
        };
        let file = files.open(self.pid, map, vdso);
        let placed = file.and_then(|file| Some((file, files.at(file).bias(map)?)));
        let (file, bias) = placed.map_or((None, 0), |(file, bias)| (Some(file), bias));
        Code { range: map.begin..map.end, file, bias }
    }

    /// The part of executable memory that has an address.
    pub fn code_at(&self, address: u64) -> Option<&Code> {
        find_code(&self.code, address)
    }

    /// The addresses of the stack that a stack pointer is on.
    pub fn stack_at(&mut self, stack_pointer: u64, files: &mut Files<'_, '_>) -> Range<u64> {
        let find = |writable: &[Range<u64>]| writable.iter().find(|range| range.contains(&stack_pointer)).cloned();
        if let Some(found) = find(&self.writable) {
            return found;
        }
        self.refresh(files);
        let page = stack_pointer & !4095;
        find(&self.writable).unwrap_or(page..page.saturating_add(4096))
    }

    /// The index of the instruction at an address.
    pub fn site(&mut self, address: u64, sites: &mut Sites, files: &mut Files<'_, '_>) -> usize {
        if self.code_at(address).is_none() {
            self.refresh(files);
        }
        let placed = self.code_at(address).and_then(|code| Some((code.file?, address.wrapping_sub(code.bias))));
        let (file, linked) = match placed {
            Some(placed) => placed,
            // Code that is in no file may change, so it isn't remembered.
            None => return sites.add_passing(self.nameless(address)),
        };
        sites.find(file, linked).unwrap_or_else(|| sites.add(files.at(file).site(file, linked)))
    }

    fn nameless(&self, address: u64) -> Site {
        let mut bytes = [0; LONGEST];
        let count = self.read_code(address, &mut bytes);
        Site::nameless(address, (X86_64.decode)(&bytes[..count], address))
    }
}

/// The part of executable memory that has an address.
fn find_code(code: &[Code], address: u64) -> Option<&Code> {
    let next = code.partition_point(|code| code.range.start <= address);
    code.get(next.checked_sub(1)?).filter(|code| code.range.contains(&address))
}

/// The addresses of memory that a stack may be in.
fn stack_range(map: &Map) -> Range<u64> {
    let grows = map.path == b"[stack]";
    let begin = if grows { map.begin.min(map.end.saturating_sub(MOST_STACK)) } else { map.begin };
    begin..map.end
}
