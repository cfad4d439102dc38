//! A cursor that reads the numbers of a section one after another: bytes, numbers of fixed size, initial lengths, and
//! LEB128 numbers, which are also written here.

use crate::target::Target;

/// Why a number can't be read.
#[derive(Clone, Copy, Debug, PartialEq, Eq)]
pub enum ReadError {
    /// The bytes end before the number does.
    Truncated,
    /// A LEB128 number doesn't fit in 64 bits.
    LebRange,
}

/// How far the last byte that a LEB128 number of 64 bits may have, the tenth one, is shifted.
const LAST_SHIFT: u32 = 63;

/// A section, and the offset in it of the next byte to read.
#[derive(Clone, Debug)]
pub struct Cursor<'a> {
    bytes: &'a [u8],
    at: usize,
    target: Target,
}

impl<'a> Cursor<'a> {
    /// A cursor at the beginning of a section.
    pub fn new(bytes: &'a [u8], target: Target) -> Self {
        Cursor { bytes, at: 0, target }
    }

    /// The offset in the section of the next byte to read.
    pub fn at(&self) -> usize {
        self.at
    }

    /// The byte order and the address size.
    pub fn target(&self) -> Target {
        self.target
    }

    /// Whether all bytes have been read.
    pub fn is_at_end(&self) -> bool {
        self.at >= self.bytes.len()
    }

    /// The bytes that haven't been read yet.
    pub fn rest(&self) -> &'a [u8] {
        self.bytes.get(self.at..).unwrap_or(&[])
    }

    /// The bytes from `start` to the cursor's offset.
    pub fn since(&self, start: usize) -> &'a [u8] {
        self.bytes.get(start..self.at).unwrap_or(&[])
    }

    /// A cursor over the next `length` bytes, which `self` moves past. The offsets of the new
    /// cursor still count from the beginning of the section.
    pub fn split(&mut self, length: u64) -> Result<Cursor<'a>, ReadError> {
        let start = self.at;
        let end = self.end_of(length)?;
        self.at = end;
        let bytes = self.bytes.get(..end).ok_or(ReadError::Truncated)?;
        Ok(Cursor { bytes, at: start, target: self.target })
    }

    fn end_of(&self, length: u64) -> Result<usize, ReadError> {
        let length = usize::try_from(length).map_err(|_| ReadError::Truncated)?;
        let end = self.at.checked_add(length).ok_or(ReadError::Truncated)?;
        if end > self.bytes.len() {
            return Err(ReadError::Truncated);
        }
        Ok(end)
    }

    /// The next `length` bytes.
    pub fn take(&mut self, length: u64) -> Result<&'a [u8], ReadError> {
        let end = self.end_of(length)?;
        let taken = self.bytes.get(self.at..end).ok_or(ReadError::Truncated)?;
        self.at = end;
        Ok(taken)
    }

    /// The next byte.
    pub fn byte(&mut self) -> Result<u8, ReadError> {
        let byte = *self.bytes.get(self.at).ok_or(ReadError::Truncated)?;
        self.at += 1;
        Ok(byte)
    }

    /// Reads the next `size` bytes as an unsigned number. `size` is at most 8.
    pub fn number(&mut self, size: u8) -> Result<u64, ReadError> {
        let bytes = self.take(u64::from(size))?;
        Ok(self.target.number(bytes))
    }

    /// Reads the next `size` bytes as a signed number, and extends its sign to 64 bits. `size` is
    /// at most 8.
    pub fn signed(&mut self, size: u8) -> Result<u64, ReadError> {
        let number = self.number(size)?;
        let unused = 64 - 8 * u32::from(size.clamp(1, 8));
        Ok((((number << unused) as i64) >> unused) as u64)
    }

    /// The next initial length, in the 32-bit or the 64-bit format (DWARF 5, section 7.4). `None` if it
    /// is cut off or reserved.
    pub fn initial_length(&mut self) -> Option<u64> {
        match self.number(4).ok()? {
            0xffff_ffff => self.number(8).ok(),
            0xffff_fff0..=0xffff_fffe => None,
            length => Some(length),
        }
    }

    /// The next unsigned LEB128 number. Padding is accepted, but no more than ten bytes, and no value of more than 64
    /// bits: otherwise it is [`LebRange`](ReadError::LebRange).
    pub fn uleb(&mut self) -> Result<u64, ReadError> {
        let (mut value, mut shift) = (0u64, 0u32);
        loop {
            let byte = self.byte()?;
            if shift == LAST_SHIFT && byte > 1 {
                return Err(ReadError::LebRange);
            }
            value |= u64::from(byte & 0x7f) << shift;
            if byte & 0x80 == 0 {
                return Ok(value);
            }
            shift += 7;
        }
    }

    /// The next signed LEB128 number, with its sign extended to 64 bits. It is refused where [`uleb`](Self::uleb)
    /// refuses one.
    pub fn sleb(&mut self) -> Result<u64, ReadError> {
        let (mut value, mut shift) = (0u64, 0u32);
        loop {
            let byte = self.byte()?;
            if shift == LAST_SHIFT && byte != 0 && byte != 0x7f {
                return Err(ReadError::LebRange);
            }
            value |= u64::from(byte & 0x7f) << shift;
            shift += 7;
            if byte & 0x80 == 0 {
                let is_negative = byte & 0x40 != 0 && shift < 64;
                return Ok(if is_negative { value | u64::MAX << shift } else { value });
            }
        }
    }

    /// Moves past a LEB128 number of any size.
    pub fn skip_leb(&mut self) -> Result<(), ReadError> {
        while self.byte()? & 0x80 != 0 {}
        Ok(())
    }
}

/// Appends a number as unsigned LEB128, without padding.
pub fn push_uleb(bytes: &mut Vec<u8>, mut number: u64) {
    while number > 0x7f {
        bytes.push(number as u8 | 0x80);
        number >>= 7;
    }
    bytes.push(number as u8);
}

/// Appends a number as signed LEB128, without padding.
pub fn push_sleb(bytes: &mut Vec<u8>, mut number: i64) {
    while !(-0x40..0x40).contains(&number) {
        bytes.push(number as u8 | 0x80);
        number >>= 7;
    }
    bytes.push(number as u8 & 0x7f);
}

#[cfg(test)]
mod tests {
    use super::*;

    /// What the readers make of these bytes, and how many bytes are left.
    fn both(bytes: &[u8]) -> [(Result<u64, ReadError>, usize); 2] {
        let cursors = [Cursor::new(bytes, Target::LITTLE_64), Cursor::new(bytes, Target::LITTLE_64)];
        let [mut one, mut other] = cursors;
        let (unsigned, signed) = (one.uleb(), other.sleb());
        [(unsigned, one.rest().len()), (signed, other.rest().len())]
    }

    /// Nine bytes, and then these.
    fn after_nine(byte: u8, last: &[u8]) -> Vec<u8> {
        [&[byte; 9][..], last].concat()
    }

    #[test]
    fn written_leb128_numbers_are_read_again() {
        for number in (0..64).flat_map(|bit| [1u64 << bit, (1 << bit) - 1, u64::MAX << bit]).chain([u64::MAX]) {
            let (mut unsigned, mut signed) = (Vec::new(), Vec::new());
            push_uleb(&mut unsigned, number);
            push_sleb(&mut signed, number as i64);
            assert_eq!(both(&unsigned)[0], (Ok(number), 0));
            assert_eq!(both(&signed)[1], (Ok(number), 0));
        }
    }

    #[test]
    fn padded_leb128_numbers_have_at_most_ten_bytes() {
        assert_eq!(both(&[0x85, 0x80, 0x00, 7]), [(Ok(5), 1), (Ok(5), 1)]);
        assert_eq!(both(&[0xfb, 0xff, 0x7f])[1], (Ok(-5i64 as u64), 0));
        assert_eq!(both(&after_nine(0x80, &[0])), [(Ok(0), 0), (Ok(0), 0)]);
        // An eleventh byte is too many, whether it is there or not.
        for last in [&[0x80][..], &[0x80, 0], &[0xff, 0x7f]] {
            let [unsigned, signed] = both(&after_nine(0x80, last));
            assert_eq!((unsigned.0, signed.0), (Err(ReadError::LebRange), Err(ReadError::LebRange)));
        }
    }

    #[test]
    fn leb128_numbers_of_more_than_64_bits_are_refused() {
        let [unsigned, signed] = both(&after_nine(0xff, &[1]));
        assert_eq!((unsigned.0, signed.0), (Ok(u64::MAX), Err(ReadError::LebRange)));
        let [unsigned, signed] = both(&after_nine(0x80, &[0x7f]));
        assert_eq!((unsigned.0, signed.0), (Err(ReadError::LebRange), Ok(1 << 63)));
        let [unsigned, signed] = both(&after_nine(0x80, &[2]));
        assert_eq!((unsigned.0, signed.0), (Err(ReadError::LebRange), Err(ReadError::LebRange)));
    }

    #[test]
    fn leb128_numbers_that_are_cut_off_are_truncated() {
        let cut = (Err(ReadError::Truncated), 0);
        assert_eq!(both(&[]), [cut, cut]);
        assert_eq!(both(&[0x80; 9]), [cut, cut]);
    }
}
