//! Where a variable is in a frame, and the bytes that are there.

use crate::debug::lists::Unsupported;
use dwcheck::{Block, Registers};
use dwcheck_types::target::{Order, Target};
use std::fmt;

/// Why a variable or a part of it has no value.
#[derive(Clone, Debug, PartialEq, Eq)]
pub enum Missing {
    /// It has no location at the address, or one that only the caller may have known.
    OptimizedOut,
    /// Its expression has an operation that isn't evaluated.
    NotEvaluated(Unsupported),
    /// A register, such as `r3`, or memory isn't known.
    Unreadable(String),
    /// Its expression divides by zero.
    DivisionByZero,
    /// `dwcheck` refuses its expression, by the name of the fault.
    Refused(&'static str),
    /// Something of its debug information can't be used.
    Unsupported(&'static str),
}

/// Where a variable is.
#[derive(Clone, Debug, PartialEq, Eq)]
pub enum ValueLocation {
    /// At an address of the process.
    Memory(u64),
    /// In a register, by its DWARF number.
    Register(u16),
    /// Nowhere, but this is its value.
    Value(u64),
    /// Nowhere, but these bytes are its value.
    Bytes(Vec<u8>),
    /// In pieces, each with its size in bytes. Some pieces may be missing.
    Pieces(Vec<(Result<ValueLocation, Missing>, usize)>),
    /// Nowhere, but it points into a variable that may have no address.
    ImplicitPointer(Pointee),
}

/// What an implicit pointer leads to.
#[derive(Clone, Debug, PartialEq, Eq)]
pub struct Pointee {
    /// The name of the variable. `None` if it has none, such as a text.
    pub name: Option<String>,
    /// How many bytes after the beginning of the variable the pointer leads to.
    pub past: i64,
    /// The offset in `.debug_info` of the variable's entry.
    pub entry: usize,
}

impl Missing {
    /// Why an expression with an operation that isn't evaluated has no value. A value that only the caller may have
    /// known is gone, as gdb takes it.
    pub(super) fn by_hole(unsupported: Unsupported) -> Missing {
        match unsupported {
            Unsupported::EntryValue | Unsupported::ParameterRef => Missing::OptimizedOut,
            unsupported => Missing::NotEvaluated(unsupported),
        }
    }
}

/// The registers and the memory of a frame.
#[derive(Clone, Copy)]
pub struct Machine<'m> {
    /// The byte order and the address size.
    pub target: Target,
    /// The registers.
    pub registers: &'m Registers,
    /// The memory that is known.
    pub memory: &'m [Block<'m>],
}

impl Machine<'_> {
    /// Bytes of memory.
    pub fn memory(&self, address: u64, length: usize) -> Result<Vec<u8>, Missing> {
        let mut bytes = Vec::new();
        while bytes.len() < length {
            let at = address.checked_add(bytes.len() as u64);
            let held = at.and_then(|at| self.from(at));
            let held = held.ok_or_else(|| Missing::Unreadable(format!("memory at {:#x}", at.unwrap_or(address))))?;
            bytes.extend(held.iter().take(length - bytes.len()));
        }
        Ok(bytes)
    }

    /// The bytes from an address to the end of its block.
    fn from(&self, address: u64) -> Option<&[u8]> {
        self.memory.iter().find_map(|block| {
            let past = usize::try_from(address.checked_sub(block.base())?).ok()?;
            block.bytes().get(past..).filter(|bytes| !bytes.is_empty())
        })
    }

    /// The low bytes of a value of `size` bytes, in the order of memory.
    fn low(&self, value: u64, size: usize) -> Vec<u8> {
        match self.target.order {
            Order::Little => value.to_le_bytes().into_iter().take(size).collect(),
            Order::Big => value.to_be_bytes().into_iter().skip(8usize.saturating_sub(size)).collect(),
        }
    }

    /// `length` bytes from an offset on of a variable of `size` bytes that is at a place.
    pub fn bytes(&self, place: &ValueLocation, size: usize, offset: usize, length: usize) -> Result<Vec<u8>, Missing> {
        let part = |bytes: &[u8]| {
            let part = offset.checked_add(length).and_then(|end| bytes.get(offset..end));
            part.map(<[u8]>::to_vec).ok_or(Missing::Unsupported("it is larger than its location"))
        };
        match place {
            ValueLocation::Memory(address) => {
                self.memory(self.target.wrap(address.wrapping_add(offset as u64)), length)
            }
            ValueLocation::Register(number) => {
                let value = self.registers.get(*number);
                part(&self.low(value.ok_or_else(|| Missing::Unreadable(format!("r{}", number)))?, size))
            }
            ValueLocation::Value(value) => part(&self.low(*value, size)),
            ValueLocation::Bytes(bytes) => part(bytes),
            ValueLocation::Pieces(pieces) => self.of_pieces(pieces, offset, length),
            ValueLocation::ImplicitPointer(..) => Err(Missing::NotEvaluated(Unsupported::ImplicitPointer)),
        }
    }

    fn of_pieces(
        &self,
        pieces: &[(Result<ValueLocation, Missing>, usize)],
        offset: usize,
        length: usize,
    ) -> Result<Vec<u8>, Missing> {
        let end = offset.saturating_add(length);
        let mut bytes = Vec::new();
        let mut begin = 0usize;
        for (place, size) in pieces {
            let piece = begin..begin.saturating_add(*size);
            let (from, to) = (piece.start.max(offset), piece.end.min(end));
            if from < to {
                let place = place.as_ref().map_err(Missing::clone)?;
                bytes.extend(self.bytes(place, *size, from - piece.start, to - from)?);
            }
            begin = piece.end;
        }
        if bytes.len() == length {
            Ok(bytes)
        } else {
            Err(Missing::OptimizedOut)
        }
    }
}

impl fmt::Display for Missing {
    fn fmt(&self, f: &mut fmt::Formatter<'_>) -> fmt::Result {
        match self {
            Missing::OptimizedOut => f.write_str("optimized out"),
            Missing::NotEvaluated(unsupported) => write!(f, "not evaluated: {}", unsupported),
            Missing::Unreadable(what) => write!(f, "unreadable: {}", what),
            Missing::DivisionByZero => f.write_str("division by zero"),
            Missing::Refused(fault) => write!(f, "refused: {}", fault),
            Missing::Unsupported(why) => write!(f, "unsupported: {}", why),
        }
    }
}

impl fmt::Display for ValueLocation {
    fn fmt(&self, f: &mut fmt::Formatter<'_>) -> fmt::Result {
        match self {
            ValueLocation::Memory(address) => write!(f, "at {:#x}", address),
            ValueLocation::Register(number) => write!(f, "r{}", number),
            ValueLocation::Value(_) => f.write_str("value"),
            ValueLocation::Bytes(_) => f.write_str("constant"),
            ValueLocation::Pieces(_) => f.write_str("pieces"),
            ValueLocation::ImplicitPointer(pointee) => write!(f, "points to {}", pointee),
        }
    }
}

impl fmt::Display for Pointee {
    fn fmt(&self, f: &mut fmt::Formatter<'_>) -> fmt::Result {
        f.write_str(self.name.as_deref().unwrap_or("a constant"))?;
        match self.past {
            0 => Ok(()),
            past => write!(f, "{:+}", past),
        }
    }
}
