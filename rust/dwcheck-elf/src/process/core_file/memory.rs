//! The memory of a process that died: blocks of the core file, and of mapped files that the core left out.

use super::modules::Listed;
use super::{CoreFile, Files};
use crate::elf::covered::Covered;
use crate::process::maps::Process;
use std::collections::BTreeMap;

/// Where the bytes of a block come from.
#[derive(Clone, Copy, Debug, PartialEq, Eq)]
pub enum Origin {
    /// The core file.
    Core,
    /// A mapped file, by its index in [`Files::all`]. The core left these bytes out, because the
    /// file has them.
    File(usize),
}

/// A block of memory.
#[derive(Clone, Copy, Debug, PartialEq, Eq)]
pub struct Block<'a> {
    /// The address of the first byte.
    pub address: u64,
    /// The bytes.
    pub bytes: &'a [u8],
    /// Where the bytes come from.
    pub origin: Origin,
}

/// Blocks of memory. No two have an address in common.
#[derive(Clone, Debug, Default)]
pub struct Memory<'a> {
    blocks: BTreeMap<u64, Block<'a>>,
    /// The addresses of all of them, so that blocks which overlap many others are added quickly.
    held: Covered,
    /// The process that has the memory of which no block is known, if it is still there.
    process: Option<&'a Process>,
}

impl<'a> Block<'a> {
    /// The address after the last byte. A block never passes the highest address.
    pub fn end(&self) -> u64 {
        self.address.saturating_add(self.bytes.len() as u64)
    }

    /// The part of the block from `begin` up to, not including, `end`. `None` if the block doesn't
    /// have all these addresses.
    fn part(&self, begin: u64, end: u64) -> Option<Block<'a>> {
        let from = usize::try_from(begin.checked_sub(self.address)?).ok()?;
        let to = usize::try_from(end.checked_sub(self.address)?).ok()?;
        Some(Block { address: begin, bytes: self.bytes.get(from..to)?, origin: self.origin })
    }
}

impl<'data> CoreFile<'data> {
    /// The memory of the process: the bytes that the core has, and the bytes of mapped files that
    /// the core left out.
    pub fn memory<'a>(&self, files: &'a Files) -> Memory<'a>
    where
        'data: 'a,
    {
        let mut memory = Memory { process: self.held, ..self.memory_in_core() };
        for mapping in self.mappings().iter().filter(|mapping| !mapping.has_changed) {
            let found = files.find(mapping.path).and_then(|(place, bytes)| {
                let begin = usize::try_from(mapping.offset).ok()?;
                let size = usize::try_from(mapping.end.checked_sub(mapping.begin)?).ok()?;
                let held = bytes.get(begin..)?;
                Some((place, held.get(..size).unwrap_or(held)))
            });
            if let Some((place, bytes)) = found {
                memory.add(Block { address: mapping.begin, bytes, origin: Origin::File(place) });
            }
        }
        self.listed_modules(files).iter().for_each(|module| memory.add_module(module));
        memory
    }
}

impl<'data> CoreFile<'data> {
    /// The bytes of memory that the core has itself.
    pub(super) fn memory_in_core(&self) -> Memory<'data> {
        let mut memory = Memory::default();
        for segment in &self.segments {
            memory.add(Block { address: segment.address, bytes: segment.bytes, origin: Origin::Core });
        }
        memory
    }
}

impl<'a> Memory<'a> {
    /// Adds those parts of a block whose addresses aren't in a block that was added before.
    fn add(&mut self, block: Block<'a>) {
        let (begin, end) = (block.address, block.end());
        let gaps: Vec<_> = self.held.gaps(begin, end).collect();
        for gap in gaps {
            if let Some(part) = block.part(gap.start, gap.end) {
                self.blocks.insert(gap.start, part);
            }
        }
        if begin < end {
            self.held.insert(begin, end);
        }
    }

    /// Adds what a module's file has of memory that can't be written to.
    fn add_module(&mut self, Listed { place, bytes, bias, segments, .. }: &Listed<'a>) {
        for segment in segments.iter().filter(|segment| !segment.is_writable) {
            let part =
                |size: u64| bytes.get(usize::try_from(segment.offset).ok()?..)?.get(..usize::try_from(size).ok()?);
            let address = segment.address.wrapping_add(*bias);
            if let Some(bytes) = part(segment.file_size).filter(|_| address.checked_add(segment.file_size).is_some()) {
                self.add(Block { address, bytes, origin: Origin::File(*place) });
            }
        }
    }

    /// All blocks, in ascending order of address.
    pub fn blocks(&self) -> impl Iterator<Item = &Block<'a>> {
        self.blocks.values()
    }

    /// The bytes from an address to the end of its block. `None` if no block has the address.
    pub fn from(&self, address: u64) -> Option<&'a [u8]> {
        let (_, block) = self.blocks.range(..=address).next_back()?;
        let past = usize::try_from(address.checked_sub(block.address)?).ok()?;
        block.bytes.get(past..).filter(|bytes| !bytes.is_empty())
    }

    /// The bytes from an address on, from one block or several, up to `count` of them, or up to the
    /// first one that isn't known.
    pub fn at_most(&self, address: u64, count: usize) -> Vec<u8> {
        let mut bytes = vec![0; count];
        let known = self.read_some(address, &mut bytes);
        bytes.truncate(known);
        bytes
    }

    /// Copies the bytes from an address on into `bytes`, from one block or several. Returns false
    /// if one of the bytes isn't known; a part of `bytes` may then have been overwritten.
    pub fn read(&self, address: u64, bytes: &mut [u8]) -> bool {
        self.read_some(address, bytes) == bytes.len()
    }

    fn read_of_process(&self, address: u64, bytes: &mut [u8]) -> usize {
        let process = self.process.filter(|_| !bytes.is_empty());
        let read = process.and_then(|process| process.memory(address, bytes.len() as u64)).unwrap_or_default();
        bytes.iter_mut().zip(&read).for_each(|(byte, one)| *byte = *one);
        read.len()
    }

    /// Copies the bytes from an address on into `bytes`, up to the first one that isn't known. Returns how many it has
    /// copied.
    pub fn read_some(&self, address: u64, bytes: &mut [u8]) -> usize {
        let mut done = 0;
        while let Some(rest) = bytes.get_mut(done..).filter(|rest| !rest.is_empty()) {
            let held = match address.checked_add(done as u64).and_then(|next| self.from(next)) {
                Some(held) => held,
                None => break,
            };
            let count = held.len().min(rest.len());
            rest.iter_mut().zip(held).for_each(|(byte, held)| *byte = *held);
            done += count;
        }
        done + self.read_of_process(address.saturating_add(done as u64), bytes.get_mut(done..).unwrap_or(&mut []))
    }
}
