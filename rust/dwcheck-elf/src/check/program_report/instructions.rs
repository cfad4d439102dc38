//! The code of a program, and the texts of its instructions.

use crate::elf::image::{Image, Part};
use dwcheck_lint::machine::Machine;
use std::fmt::Write;
use std::ops::Range;

/// What is written for bytes that no decoder reads: this many of them in a line.
const BYTES_IN_A_LINE: usize = 8;

/// What is in the texts of instructions without effect, and of breakpoints.
const IDLE: [&str; 3] = ["nop", "xchg %ax, %ax", "int3"];

/// The code and data of a program, with the decoder of its instructions if there is one.
pub(super) struct Memory<'data> {
    /// The code and data.
    pub image: Image<'data>,
    /// The decoder.
    pub machine: Option<&'static Machine>,
}

/// An instruction, or the bytes of one line if instructions aren't decoded.
struct Line {
    length: usize,
    text: String,
}

impl Memory<'_> {
    /// The code at these addresses, as far as the file has it.
    pub fn code(&self, addresses: Range<u64>) -> &[u8] {
        let after = self.image.parts.partition_point(|part| part.address <= addresses.start);
        let part = self.image.parts.get(..after).and_then(<[Part<'_>]>::last).filter(|part| part.is_executable);
        part.and_then(|part| bytes_at(part, addresses)).unwrap_or(&[])
    }

    /// The instructions of the code at these addresses, a line for each: its length in bytes as one hexadecimal
    /// digit, and its text. Ends with the line with which it has `most` bytes.
    pub fn listing(&self, addresses: Range<u64>, most: usize) -> String {
        let mut listing = String::new();
        for (bytes, text) in self.disassembled_lines(addresses) {
            // Writing to a string can't fail.
            let _ = writeln!(listing, "{:x}{}", bytes.len(), text);
            if listing.len() >= most {
                break;
            }
        }
        listing
    }

    /// The bytes of each instruction at these addresses, and its text.
    fn disassembled_lines(&self, addresses: Range<u64>) -> impl Iterator<Item = (&[u8], String)> {
        let mut address = addresses.start;
        let mut rest = self.code(addresses);
        std::iter::from_fn(move || {
            let Line { length, text } =
                Some(rest).filter(|rest| !rest.is_empty()).map(|rest| self.disassembled_line(rest, address))?;
            let (bytes, after) = rest.split_at(length);
            rest = after;
            address = address.wrapping_add(length as u64);
            Some((bytes, text))
        })
    }

    /// The instruction at the first of these bytes, which aren't empty.
    fn disassembled_line(&self, bytes: &[u8], address: u64) -> Line {
        match self.machine {
            Some(machine) => {
                let length = usize::from((machine.decode)(bytes, address).length).clamp(1, bytes.len());
                Line { length, text: (machine.text)(bytes, address) }
            }
            None => {
                let length = bytes.len().min(BYTES_IN_A_LINE);
                let digits = bytes[..length].iter().map(|byte| format!("{:02x}", byte));
                Line { length, text: digits.collect::<Vec<_>>().join(" ") }
            }
        }
    }

    /// Whether the file has the code and it does nothing, so that it is only there to align what follows: zeros,
    /// instructions without effect, and breakpoints.
    pub fn is_padding(&self, addresses: Range<u64>) -> bool {
        let is_idle = |(bytes, text): (&[u8], String)| {
            bytes.iter().all(|byte| *byte == 0) || IDLE.iter().any(|word| text.contains(word))
        };
        !self.code(addresses.clone()).is_empty() && self.disassembled_lines(addresses).all(is_idle)
    }
}

/// The bytes of a part at these addresses, as far as it has them.
fn bytes_at<'a>(part: &'a Part<'_>, addresses: Range<u64>) -> Option<&'a [u8]> {
    let begin = usize::try_from(addresses.start.checked_sub(part.address)?).ok()?;
    let length = usize::try_from(addresses.end.saturating_sub(addresses.start)).unwrap_or(usize::MAX);
    let rest = part.bytes.get(begin..)?;
    rest.get(..length.min(rest.len()))
}
