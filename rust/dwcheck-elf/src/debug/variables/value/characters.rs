//! How languages store characters, and how texts of them are shown.

use super::numbers::base_encoding;
use crate::debug::debug_info::Die;
use crate::debug::variables::types::{other_names, type_size, unqualified_type};
use dwcheck_types::target::Target;

/// The types of characters of several bytes, by their names, with what C writes before texts of them.
const WIDE: [(&str, &str); 3] = [("wchar_t", "L"), ("char16_t", "u"), ("char32_t", "U")];

/// How the characters of a text are stored.
#[derive(Clone, Copy, Debug, PartialEq, Eq)]
pub(super) struct Characters {
    /// The number of bytes of a character, or of one of the parts that make up a character.
    pub width: usize,
    /// What the language writes before such texts.
    pub prefix: &'static str,
}

impl Characters {
    /// Characters of a byte, or of several bytes as UTF-8 has them.
    pub const BYTES: Characters = Characters { width: 1, prefix: "" };

    /// The characters that a type has. `None` if its values aren't characters. In C, the type for wide ones is
    /// another name of a number.
    pub fn of(kind: &Die<'_, '_>) -> Option<Characters> {
        let base = unqualified_type(kind).filter(|base| base.tag() == Some(gimli::DW_TAG_base_type))?;
        let (encoding, width) = (base_encoding(&base)?, type_size(&base).and_then(|size| usize::try_from(size).ok())?);
        let is_character =
            matches!(encoding, gimli::DW_ATE_signed_char | gimli::DW_ATE_unsigned_char | gimli::DW_ATE_UTF);
        let is_number = matches!(encoding, gimli::DW_ATE_signed | gimli::DW_ATE_unsigned);
        let mut names = other_names(kind).filter_map(|kind| kind.name());
        match width {
            1 if is_character => Some(Characters::BYTES),
            // gcc has the encoding of numbers for it.
            1 if is_number => names.any(|name| name == "char8_t").then_some(Characters::BYTES),
            2 | 4 if is_character || is_number => {
                let prefix = |name: String| WIDE.iter().find(|(wide, _)| *wide == name).map(|(_, prefix)| *prefix);
                names.find_map(prefix).map(|prefix| Characters { width, prefix })
            }
            _ => None,
        }
    }

    /// The text in bytes, up to its first 0, in quotes.
    pub fn quoted(self, bytes: &[u8], target: Target) -> String {
        let units = bytes.chunks_exact(self.width).map(|unit| target.number(unit) as u32);
        let units: Vec<u32> = units.take_while(|unit| *unit != 0).collect();
        format!("{}\"{}\"", self.prefix, self.escaped(&units))
    }

    /// A single character in quotes. `None` if there is no character with this number.
    pub fn one(self, unit: u32) -> Option<String> {
        let text = match self.width {
            1 => self.escaped(&[unit]),
            _ => shown_character(char::from_u32(unit)?),
        };
        Some(format!("{}'{}'", self.prefix, text))
    }

    /// A text with escapes for what isn't printable, and for what isn't a character.
    pub fn escaped(self, units: &[u32]) -> String {
        match self.width {
            1 => utf8_text(&units.iter().map(|unit| *unit as u8).collect::<Vec<_>>()),
            2 => {
                let parts = units.iter().map(|unit| *unit as u16);
                let character = |part: Result<char, std::char::DecodeUtf16Error>| {
                    part.map_or_else(|part| character_number(part.unpaired_surrogate().into()), shown_character)
                };
                char::decode_utf16(parts).map(character).collect()
            }
            _ => units
                .iter()
                .map(|unit| char::from_u32(*unit).map_or_else(|| character_number(*unit), shown_character))
                .collect(),
        }
    }
}

/// A text of bytes with escapes for what isn't printable, and for bytes that aren't UTF-8.
pub(super) fn utf8_text(bytes: &[u8]) -> String {
    let mut text = String::new();
    let mut rest = bytes;
    while !rest.is_empty() {
        let known = std::str::from_utf8(rest).map_or_else(|error| error.valid_up_to(), str::len);
        let (valid, after) = rest.split_at(known);
        text.extend(String::from_utf8_lossy(valid).chars().map(shown_character));
        let other = after.first().copied().map(std::ascii::escape_default);
        text.extend(other.into_iter().flatten().map(char::from));
        rest = after.get(1..).unwrap_or(&[]);
    }
    text
}

fn shown_character(character: char) -> String {
    match u8::try_from(character) {
        Ok(byte) if byte.is_ascii() => std::ascii::escape_default(byte).to_string(),
        _ => character.escape_debug().to_string(),
    }
}

/// What isn't a character, by its number.
fn character_number(unit: u32) -> String {
    format!("\\u{{{:x}}}", unit)
}
