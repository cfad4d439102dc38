//! Reads containers whose elements are next to each other: texts, rows of elements, rows of bits.

use super::fields::Field;
use crate::debug::debug_info::Die;
use crate::debug::variables::location::Locator;
use crate::debug::variables::types::type_size;
use crate::debug::variables::value::characters::Characters;
use crate::debug::variables::value::{Part, Shape, Value};
use crate::debug::variables::value_location::ValueLocation;

/// A text with the number of its characters.
pub(super) struct Text<'v, 'a> {
    pub address: Field<'v, 'a>,
    pub length: Field<'v, 'a>,
    pub characters: Characters,
    pub room: Room<'v, 'a>,
}

/// What is known of the room that a text has.
pub(super) enum Room<'v, 'a> {
    Unknown,
    /// This number of characters.
    AtMost(Field<'v, 'a>),
    /// A text in the buffer of the container has the room of that, any other one a number of characters.
    Local {
        buffer: Field<'v, 'a>,
        capacity: Field<'v, 'a>,
    },
}

/// A text that is in the container itself if it is short.
pub(super) struct ShortText<'v, 'a> {
    pub flag: Flag<'v, 'a>,
    /// The number of characters of a short one.
    pub length: Field<'v, 'a>,
    /// The characters of a short one.
    pub buffer: Field<'v, 'a>,
    /// A long one.
    pub elsewhere: Text<'v, 'a>,
}

/// What says that a text is long.
pub(super) enum Flag<'v, 'a> {
    /// A member that is 1.
    Member(Field<'v, 'a>),
    /// These bits of the byte of the length; the others are the length of a short one.
    Mask(u64),
}

/// Elements next to each other.
pub(super) struct Row<'v, 'a> {
    /// The address of the first one.
    pub first: Field<'v, 'a>,
    pub length: Length<'v, 'a>,
    /// How many elements there may be.
    pub room: Length<'v, 'a>,
    pub element: Die<'v, 'a>,
}

/// How a number of elements is kept.
pub(super) enum Length<'v, 'a> {
    /// As the address after the last one.
    End(Field<'v, 'a>),
    Count(Field<'v, 'a>),
}

/// Bits next to each other.
pub(super) struct Bits<'v, 'a> {
    /// The address of the word with the first bit.
    pub first: Field<'v, 'a>,
    /// The number of the first bit in that word. `None` if it is 0.
    pub first_bit: Option<Field<'v, 'a>>,
    /// The address of the word with the bit after the last one. `None` if the number of bits is kept.
    pub end: Option<Field<'v, 'a>>,
    /// The number of that bit in its word, or of all bits.
    pub count: Field<'v, 'a>,
}

impl<'v, 'a> Locator<'v, 'a> {
    pub(super) fn text_contents(&self, text: &Text<'v, 'a>, part: Part<'_>, shape: Shape) -> Option<Value> {
        let address = self.word(&text.address, part)?;
        let length = self.word(&text.length, part)?;
        if length > self.room(text, part, address)? {
            return None;
        }
        let shown = self.shown(length, shape, usize::MAX);
        let bytes = self.machine.memory(address, shown.checked_mul(text.characters.width)?).ok()?;
        Some(self.text_of(address, text.characters, &bytes, length > shown as u64))
    }

    /// How many characters a text has room for.
    fn room(&self, text: &Text<'v, 'a>, part: Part<'_>, address: u64) -> Option<u64> {
        match &text.room {
            Room::Unknown => Some(u64::MAX),
            Room::AtMost(room) => self.word(room, part),
            Room::Local { buffer, capacity } => match part.place {
                // The last one is 0.
                ValueLocation::Memory(own) if buffer.part(part).offset as u64 == address.wrapping_sub(*own) => {
                    (buffer.size()? / text.characters.width as u64).checked_sub(1)
                }
                _ => self.word(capacity, part),
            },
        }
    }

    fn text_of(&self, address: u64, characters: Characters, bytes: &[u8], is_cut: bool) -> Value {
        let units = bytes.chunks_exact(characters.width).map(|unit| self.machine.target.number(unit) as u32);
        let text = characters.escaped(&units.collect::<Vec<_>>()) + if is_cut { ".." } else { "" };
        Value::Text { address: format!("{:#x}", address), prefix: characters.prefix, text }
    }

    pub(super) fn short_text(&self, text: &ShortText<'v, 'a>, part: Part<'_>, shape: Shape) -> Option<Value> {
        let held = self.word(&text.length, part)?;
        let (is_long, length) = match &text.flag {
            Flag::Member(flag) => (self.word(flag, part)? != 0, held),
            Flag::Mask(mask) => (held & mask != 0, (held & !mask) >> (!mask).trailing_zeros().min(63)),
        };
        if is_long {
            return self.text_contents(&text.elsewhere, part, shape);
        }
        let characters = text.elsewhere.characters;
        let most = text.buffer.size()? / characters.width as u64;
        let own = match part.place {
            ValueLocation::Memory(own) if length < most => *own,
            _ => return None,
        };
        let (shown, part) = (self.shown(length, shape, usize::MAX), text.buffer.part(part));
        let bytes = self.machine.bytes(part.place, part.size, part.offset, shown * characters.width).ok()?;
        let address = self.machine.target.wrap(own.wrapping_add(part.offset as u64));
        Some(self.text_of(address, characters, &bytes, length > shown as u64))
    }

    pub(super) fn row(&self, row: &Row<'v, 'a>, part: Part<'_>, inner: Shape, left: &mut usize) -> Option<Value> {
        // Without elements, nothing has to be known of their type.
        let size = type_size(&row.element).filter(|size| *size > 0);
        let first = self.word(&row.first, part)?;
        let count = self.length(&row.length, part, first, size.unwrap_or(u64::MAX))?;
        let size = if count == 0 { 1 } else { size? };
        if count > self.length(&row.room, part, first, size)? {
            return None;
        }
        first.checked_add(count.checked_mul(size)?)?;
        let shown = self.shown(count, inner, *left);
        if shown > 0 {
            self.machine.memory(first, 1).ok()?;
            self.machine.memory(first + (shown as u64 * size - 1), 1).ok()?;
        }
        let mut elements = Vec::new();
        for index in 0..shown as u64 {
            *left = left.saturating_sub(1);
            let place = ValueLocation::Memory(first + index * size);
            let part = Part { place: &place, size: usize::try_from(size).ok()?, offset: 0 };
            elements.push(self.value_of_part(&row.element, part, inner, left));
        }
        Some(Value::Elements(elements, count - shown as u64))
    }

    /// A number of elements. `None` if the end isn't that of an element.
    fn length(&self, length: &Length<'v, 'a>, part: Part<'_>, first: u64, size: u64) -> Option<u64> {
        match length {
            Length::Count(count) => self.word(count, part),
            Length::End(end) => {
                let bytes = self.word(end, part)?.checked_sub(first)?;
                (bytes % size == 0).then_some(bytes / size)
            }
        }
    }

    pub(super) fn bits(&self, bits: &Bits<'v, 'a>, part: Part<'_>, inner: Shape, left: &mut usize) -> Option<Value> {
        let word = type_size(&bits.first.target()?).filter(|size| (1..=8).contains(size))?;
        let first = self.word(&bits.first, part)?;
        let skipped = bits.first_bit.as_ref().map_or(Some(0), |bit| self.word(bit, part))?;
        let words = match &bits.end {
            Some(end) => self.word(end, part)?.checked_sub(first)?,
            None => 0,
        };
        let count = words.checked_mul(8)?.checked_add(self.word(&bits.count, part)?)?.checked_sub(skipped)?;
        let shown = self.shown(count, inner, *left);
        let mut elements = Vec::new();
        for bit in skipped..skipped + shown as u64 {
            *left = left.saturating_sub(1);
            let at = first.checked_add(bit / (8 * word) * word)?;
            let held = self.machine.target.number(&self.machine.memory(at, word as usize).ok()?);
            elements.push(Ok(Value::Scalar((held >> (bit % (8 * word)) & 1 == 1).to_string())));
        }
        Some(Value::Elements(elements, count - shown as u64))
    }
}
