//! Makes small sections for any target, with most of what `.eh_frame` can have.

use crate::numbers::Numbers;
use crate::sections::Section;
use dwcheck::{AddressSize, EhFrame, Order, Target};
use std::num::NonZeroU64;

/// Augmentations that gimli knows, and two that it doesn't.
const AUGMENTATIONS: [&str; 8] = ["", "zR", "zR", "zPLR", "zRS", "z", "zRB", "eh"];
/// The encodings of addresses.
const ENCODINGS: [u8; 12] = [0x00, 0x10, 0x1b, 0x1b, 0x1b, 0x03, 0x0b, 0x1c, 0x19, 0x01, 0x3b, 0x2b];

const TARGETS: [Target; 4] = [Target::LITTLE_64, Target::LITTLE_32, Target::BIG_64, Target::BIG_32];

/// A section while it is made.
struct Maker<'n> {
    section: Section,
    numbers: &'n mut Numbers,
    augmentation: &'static str,
    version: u8,
    encoding: u8,
    /// The offset of the CIE.
    cie: usize,
}

/// A section with a CIE or two, each with up to three FDEs.
pub fn section(numbers: &mut Numbers) -> Section {
    let target = numbers.choice(&TARGETS);
    let mut eh_frame = EhFrame::at(numbers.choice(&[0, 0x1000, 0x2_0004, 0x4000_0001]));
    eh_frame.text_start = NonZeroU64::new(0x1_0000);
    eh_frame.data_start = NonZeroU64::new(0x3_0000);
    eh_frame.is_aarch64 = numbers.one_of(4);
    let section = Section { bytes: Vec::new(), target, eh_frame };
    let mut maker = Maker { section, numbers, augmentation: "", version: 1, encoding: 0, cie: 0 };
    let mut first = 0x1_0000;
    for _ in 0..maker.numbers.choice(&[1, 1, 2]) {
        maker.cie();
        for _ in 0..1 + maker.numbers.below(3) {
            let count = maker.numbers.choice(&[1, 4, 0x20, 0x100]);
            maker.fde(first, count);
            first += count;
        }
    }
    if maker.numbers.one_of(3) {
        maker.section.bytes.extend([0; 4]);
    }
    maker.section
}

impl Maker<'_> {
    fn push(&mut self, bytes: &[u8]) {
        self.section.bytes.extend_from_slice(bytes);
    }

    /// A number in this number of bytes.
    fn fixed(&mut self, number: u64, size: usize) {
        match self.section.target.order {
            Order::Little => self.push(&number.to_le_bytes()[..size]),
            Order::Big => self.push(&number.to_be_bytes()[8 - size..]),
        }
    }

    fn address_bytes(&self) -> usize {
        match self.section.target.address_size {
            AddressSize::Four => 4,
            AddressSize::Eight => 8,
        }
    }

    /// The length of a record, which is put in by [`end`](Self::end). Returns where the record's body begins.
    fn begin(&mut self) -> usize {
        if self.numbers.one_of(6) {
            self.push(&[0xff; 4]);
            self.push(&[0; 4]);
        }
        self.push(&[0; 4]);
        self.section.bytes.len()
    }

    fn end(&mut self, start: usize, body: usize) {
        let length = (self.section.bytes.len() - body) as u64;
        let size = if body - start == 12 { 8 } else { 4 };
        let rest = self.section.bytes.split_off(body);
        self.section.bytes.truncate(body - size);
        self.fixed(length, size);
        self.section.bytes.extend(rest);
    }

    fn cie(&mut self) {
        self.cie = self.section.bytes.len();
        self.augmentation = self.numbers.choice(&AUGMENTATIONS);
        self.version = self.numbers.choice(&[1, 1, 3, 3, 3, 4]);
        let body = self.begin();
        self.push(&[0, 0, 0, 0, self.version]);
        self.push(self.augmentation.as_bytes());
        self.push(&[0]);
        if self.augmentation == "eh" {
            self.fixed(0, self.address_bytes());
        }
        if self.version == 4 {
            self.push(&[self.address_bytes() as u8, 0]);
        }
        self.push(&[1, 0x78, 16]);
        self.encoding = 0;
        if self.augmentation.starts_with('z') {
            self.augmentation_data();
        }
        if self.numbers.one_of(8) {
            self.push(&[0x0d, 7]);
        } else {
            self.push(&[0x0c, 7, 8, 0x90, 1]);
        }
        self.end(self.cie, body);
    }

    fn augmentation_data(&mut self) {
        let size = self.section.bytes.len();
        self.push(&[0]);
        for letter in self.augmentation.bytes().skip(1) {
            match letter {
                b'R' => {
                    self.encoding = self.numbers.choice(&ENCODINGS);
                    self.push(&[self.encoding]);
                }
                b'L' => self.push(&[0x1b]),
                b'P' => self.push(&[0x9b, 0x10, 0x20, 0, 0]),
                _ => {}
            }
        }
        self.section.bytes[size] = (self.section.bytes.len() - size - 1) as u8;
    }

    /// A number in the encoding of addresses.
    fn encoded(&mut self, number: u64) {
        match self.encoding & 0x0f {
            0x01 => self.padded(number & self.section.top(), 0x00),
            0x09 => self.padded(number, if number >> 63 == 1 { 0x7f } else { 0 }),
            0x03 | 0x0b => self.fixed(number, 4),
            0x0c => self.fixed(number, 8),
            _ => self.fixed(number, self.address_bytes()),
        }
    }

    /// A LEB128 number in ten bytes, the last of which is `last`.
    fn padded(&mut self, number: u64, last: u8) {
        let groups = (0..9).map(|place| (number >> (7 * place)) as u8 & 0x7f | 0x80);
        let last = if last == 0 { (number >> 63) as u8 } else { last };
        self.section.bytes.extend(groups.chain([last]));
    }

    fn fde(&mut self, first: u64, count: u64) {
        let start = self.section.bytes.len();
        let body = self.begin();
        self.fixed((body - self.cie) as u64, 4);
        let place = self.section.eh_frame.address.wrapping_add(self.section.bytes.len() as u64);
        let base = match self.encoding & 0xf0 {
            0x10 => place,
            0x20 => 0x1_0000,
            0x30 => 0x3_0000,
            _ => 0,
        };
        self.encoded(first.wrapping_sub(base));
        self.encoded(count);
        match self.augmentation {
            "zPLR" => self.push(&[4, 0, 0, 1, 0]),
            with_z if with_z.starts_with('z') => self.push(&[0]),
            _ => {}
        }
        for _ in 0..self.numbers.below(9) {
            self.instruction();
        }
        self.end(start, body);
    }

    /// One or two instructions.
    fn instruction(&mut self) {
        let register = self.numbers.below(20) as u8;
        let number = self.numbers.below(0x80) as u8;
        let negation = if self.section.eh_frame.is_aarch64 { 0x2d } else { 0 };
        let known: [&[u8]; 16] = [
            &[0x41],
            &[0x40, 0x42],
            &[0x02, 1],
            &[0x0e, number],
            &[0x0c, register, number],
            &[0x0a, 0x0e, number, 0x0b],
            &[0x80 | register, number],
            &[0xc0 | register],
            &[0x07, register],
            &[0x08, register],
            &[0x09, register, number],
            &[0x14, register, number],
            &[0x10, register, 2, 0x23, number],
            &[0x16, register, 3, 0x31, 0x22, 0x06],
            &[0x2e, number],
            &[negation],
        ];
        let chosen = self.numbers.choice(&known);
        self.push(chosen);
    }
}
