//! Reads texts: those at an address, arrays of characters, and the texts of Fortran, Rust and Go.

use super::characters::{utf8_text, Characters};
use super::numbers::unsigned_number;
use super::{Part, Shape, Value};
use crate::debug::debug_info::Die;
use crate::debug::variables::location::Locator;
use crate::debug::variables::types::{is_pointer_tag, number_attribute, type_of, type_size};
use crate::debug::variables::value_location::Missing;

/// The types of texts of Rust and Go, which are an address and a number of bytes.
const COUNTED: [&str; 3] = ["&str", "&mut str", "string"];

impl<'v, 'a> Locator<'v, 'a> {
    /// The text at an address, up to its 0 or to `length` characters. `None` if none of them can be read.
    pub(super) fn text_at(&self, address: u64, characters: Characters, length: usize) -> Option<String> {
        let mut units = Vec::new();
        while units.len() < length {
            let at = address.checked_add((units.len() * characters.width) as u64)?;
            let unit = self.machine.memory(at, characters.width).ok();
            match unit.map(|bytes| self.machine.target.number(&bytes) as u32) {
                Some(0) => return Some(characters.escaped(&units)),
                Some(unit) => units.push(unit),
                None if units.is_empty() => return None,
                None => break,
            }
        }
        Some(characters.escaped(&units) + "..")
    }

    /// A text of Fortran.
    pub(super) fn fortran_string(&self, kind: &Die<'v, 'a>, part: Part<'_>, shape: Shape) -> Result<Value, Missing> {
        let count = type_size(kind).and_then(|size| usize::try_from(size).ok());
        let count = count.ok_or(Missing::Unsupported("a length that isn't a constant"))?;
        self.character_array(part, Characters::BYTES, count, shape)
    }

    /// A text of this many characters that is part of the variable, up to its first 0.
    pub(super) fn character_array(
        &self,
        part: Part<'_>,
        characters: Characters,
        count: usize,
        shape: Shape,
    ) -> Result<Value, Missing> {
        let length = count.min(shape.length).saturating_mul(characters.width);
        let bytes = self.machine.bytes(part.place, part.size, part.offset, length)?;
        Ok(Value::Scalar(characters.quoted(&bytes, self.machine.target)))
    }

    /// A text of Rust or Go: an address and a number of bytes. `None` if the type isn't that of such texts, or
    /// the bytes aren't known.
    pub(super) fn counted_text(&self, kind: &Die<'v, 'a>, part: Part<'_>, shape: Shape) -> Option<Value> {
        if !COUNTED.contains(&kind.name()?.as_str()) {
            return None;
        }
        let members = kind.children().into_iter().filter(|child| child.tag() == Some(gimli::DW_TAG_member));
        let (first, second) = match members.collect::<Vec<_>>().as_slice() {
            [first, second] => (first.clone(), second.clone()),
            _ => return None,
        };
        type_of(&first)?.tag().filter(|tag| is_pointer_tag(*tag))?;
        let (address, count) =
            (self.member_word(&first, part)?, usize::try_from(self.member_word(&second, part)?).ok()?);
        let bytes = self.machine.memory(address, count.min(shape.length)).ok()?;
        let more = if count > shape.length { ".." } else { "" };
        Some(Value::Text { address: format!("{:#x}", address), prefix: "", text: utf8_text(&bytes) + more })
    }

    /// The value of a member that is a pointer or a number.
    fn member_word(&self, member: &Die<'v, 'a>, part: Part<'_>) -> Option<u64> {
        let size = usize::try_from(type_size(&type_of(member)?)?).ok().filter(|size| *size <= 8)?;
        let offset = usize::try_from(number_attribute(member, gimli::DW_AT_data_member_location)?).ok()?;
        let bytes = self.machine.bytes(part.place, part.size, part.offset.checked_add(offset)?, size).ok()?;
        Some(unsigned_number(&self.least_significant_first(bytes)) as u64)
    }
}
