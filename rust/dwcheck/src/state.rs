//! The state of a stopped thread: its registers, the memory that is known, and its ABI.

use crate::abi::Abi;
use crate::ffi;
use std::fmt;
use std::marker::PhantomData;
use std::slice;

/// Registers with their contents, by DWARF register number.
///
/// Contents are taken modulo 2^w, where w is the address size in bits. The memory use is some 8
/// bytes for each register number up to the highest one that was set.
///
/// ```
/// use dwcheck::Registers;
///
/// let mut registers = Registers::from([(7, 0x7f08)]);
/// registers.set(6, 0x7f00);
/// assert_eq!(registers.get(6), Some(0x7f00));
/// assert_eq!(registers.get(3), None);
/// assert_eq!(registers.iter().collect::<Vec<_>>(), [(6, 0x7f00), (7, 0x7f08)]);
/// ```
#[derive(Clone, Default)]
pub struct Registers {
    contents: Vec<u64>,
    known: Vec<u8>,
}

/// For a register, where `known` says whether it is known: the index of the byte, and the mask of
/// the bit in that byte.
fn known_bit(number: u16) -> (usize, u8) {
    (usize::from(number / 8), 1 << (number % 8))
}

impl Registers {
    /// An empty set of registers: none is known yet.
    pub const fn new() -> Registers {
        Registers {
            contents: Vec::new(),
            known: Vec::new(),
        }
    }

    /// Sets a register's content.
    pub fn set(&mut self, number: u16, content: u64) {
        let place = usize::from(number);
        let (byte, bit) = known_bit(number);
        if place >= self.contents.len() {
            self.contents.resize(place + 1, 0);
        }
        if byte >= self.known.len() {
            self.known.resize(byte + 1, 0);
        }
        self.contents[place] = content;
        self.known[byte] |= bit;
    }

    /// A register's content. `None` if the register isn't known.
    pub fn get(&self, number: u16) -> Option<u64> {
        let (byte, bit) = known_bit(number);
        if self.known.get(byte)? & bit == 0 {
            return None;
        }
        self.contents.get(usize::from(number)).copied()
    }

    /// Forgets a register, and returns the content that it had. `None` if the register wasn't
    /// known.
    pub fn remove(&mut self, number: u16) -> Option<u64> {
        let had = self.get(number)?;
        let (byte, bit) = known_bit(number);
        self.known[byte] &= !bit;
        Some(had)
    }

    /// Forgets all registers, but keeps the memory allocated.
    pub fn clear(&mut self) {
        self.contents.clear();
        self.known.clear();
    }

    /// The registers that are known, with their contents, in ascending order.
    pub fn iter(&self) -> impl Iterator<Item = (u16, u64)> + '_ {
        (0..=u16::MAX)
            .take(self.contents.len())
            .filter_map(move |number| Some((number, self.get(number)?)))
    }
}

impl fmt::Debug for Registers {
    fn fmt(&self, f: &mut fmt::Formatter<'_>) -> fmt::Result {
        f.debug_map().entries(self.iter()).finish()
    }
}

impl PartialEq for Registers {
    fn eq(&self, other: &Registers) -> bool {
        self.iter().eq(other.iter())
    }
}

impl Eq for Registers {}

impl Extend<(u16, u64)> for Registers {
    fn extend<T: IntoIterator<Item = (u16, u64)>>(&mut self, registers: T) {
        for (number, content) in registers {
            self.set(number, content);
        }
    }
}

impl FromIterator<(u16, u64)> for Registers {
    fn from_iter<T: IntoIterator<Item = (u16, u64)>>(registers: T) -> Registers {
        let mut all = Registers::new();
        all.extend(registers);
        all
    }
}

impl<const N: usize> From<[(u16, u64); N]> for Registers {
    fn from(registers: [(u16, u64); N]) -> Registers {
        registers.into_iter().collect()
    }
}

/// A block of known memory: an address, and the bytes from there on, such as a copy of the top of a
/// stack.
///
/// Bytes that would lie past the address 2^64 - 1 are never read.
///
/// ```
/// let block = dwcheck::Block::new(0x7f00, &[1, 2, 3]);
/// assert_eq!((block.base(), block.bytes()), (0x7f00, &[1, 2, 3][..]));
/// ```
#[repr(transparent)]
#[derive(Clone, Copy)]
pub struct Block<'a> {
    raw: ffi::Block,
    bytes: PhantomData<&'a [u8]>,
}

// SAFETY: a `Block` is a number and a `&[u8]`, both of which are `Send` and `Sync`.
unsafe impl Send for Block<'_> {}
// SAFETY: the same as for `Send`.
unsafe impl Sync for Block<'_> {}

impl<'a> Block<'a> {
    /// A pointer to the first one of these blocks, as the type that the library takes.
    pub(crate) fn raw_slice(blocks: &[Block<'_>]) -> *const ffi::Block {
        // `Block` is `repr(transparent)`, so it has the layout of its field, an `ffi::Block`
        blocks.as_ptr().cast()
    }

    /// A block with these bytes at the addresses from `base` on.
    pub const fn new(base: u64, bytes: &'a [u8]) -> Block<'a> {
        Block {
            raw: ffi::Block {
                base,
                bytes: bytes.as_ptr(),
                length: bytes.len(),
            },
            bytes: PhantomData,
        }
    }

    /// The address of the first byte.
    pub fn base(&self) -> u64 {
        self.raw.base
    }

    /// The bytes.
    pub fn bytes(&self) -> &'a [u8] {
        // SAFETY: the pointer and the length are those of a `&'a [u8]`, and nothing changes them.
        unsafe { slice::from_raw_parts(self.raw.bytes, self.raw.length) }
    }
}

impl fmt::Debug for Block<'_> {
    fn fmt(&self, f: &mut fmt::Formatter<'_>) -> fmt::Result {
        f.debug_struct("Block")
            .field("base", &self.raw.base)
            .field("length", &self.raw.length)
            .finish()
    }
}

/// The registers and memory of a stopped thread, and its ABI.
#[derive(Clone, Copy, Debug)]
pub struct State<'a> {
    /// The registers.
    pub registers: &'a Registers,
    /// The memory that is known. If two blocks contain an address, the byte of the first block
    /// counts.
    pub memory: &'a [Block<'a>],
    /// Which registers a call preserves, and which register is the stack pointer.
    pub abi: Abi<'a>,
}

impl State<'_> {
    /// This state as a C structure. The pointers in it are valid as long as the values that `self`
    /// borrows.
    pub(crate) fn raw(&self) -> ffi::State {
        ffi::State {
            contents: self.registers.contents.as_ptr(),
            contents_length: self.registers.contents.len(),
            known: self.registers.known.as_ptr(),
            known_length: self.registers.known.len(),
            blocks: Block::raw_slice(self.memory),
            blocks_length: self.memory.len(),
            kept: self.abi.kept.as_ptr(),
            kept_length: self.abi.kept.len(),
            stack_pointer: self.abi.stack_pointer.unwrap_or(0),
            has_stack_pointer: u16::from(self.abi.stack_pointer.is_some()),
            reserved: 0,
            signed_bits: self.abi.signed_bits,
        }
    }
}
