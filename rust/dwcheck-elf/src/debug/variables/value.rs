//! Reads the values of variables by their types.

mod arrays;
mod bits;
mod characters;
mod class_members;
mod containers;
mod enumerations;
mod large;
mod numbers;
mod pointers;
mod reals;
mod texts;
mod variants;

use super::location::Locator;
use super::types::{is_reference_tag, number_attribute, type_name, type_of, type_size, unqualified_type};
use super::value_location::{Missing, ValueLocation};
use crate::debug::debug_info::Die;
use characters::Characters;
pub(super) use containers::Layouts;

/// A value of a variable.
#[derive(Clone, Debug, PartialEq, Eq)]
pub enum Value {
    /// A number, a character, a pointer or the name of a constant, as text.
    Scalar(String),
    /// A pointer to a text.
    Text {
        /// The pointer.
        address: String,
        /// What the language writes before such texts, such as `L`.
        prefix: &'static str,
        /// The text as far as it was read.
        text: String,
    },
    /// A pointer to a variable that may have no address: the variable's name, if it has one, and its value.
    Pointer(Option<String>, Box<Value>),
    /// A reference: the address of what it refers to, and the value of that.
    Reference(String, Box<Result<Value, Missing>>),
    /// The members of a structure or union with their names, and how many more there are.
    Members(Vec<(String, Result<Value, Missing>)>, u64),
    /// The elements of an array or a container, and how many more there are.
    Elements(Vec<Result<Value, Missing>>, u64),
    /// The keys of a container with their values, and how many more there are.
    Entries(Vec<(Result<Value, Missing>, Result<Value, Missing>)>, u64),
    /// A pointer that several own, with the numbers of its owners and of those that only watch it.
    Shared {
        /// The pointer.
        value: Box<Value>,
        /// The number of owners.
        uses: i64,
        /// The number of others.
        weak: i64,
    },
    /// A structure or array that is deeper than asked for.
    Deeper,
}

/// How much of values is read.
#[derive(Clone, Copy, Debug, PartialEq, Eq)]
pub struct Shape {
    /// How deep structures and arrays are followed.
    pub depth: usize,
    /// The most elements of an array or a container, and the most characters of a text.
    pub length: usize,
    /// How many references, owners, and pointers to variables without an address are followed, one after another.
    pub references: usize,
    /// How many other pointers are followed, one after another.
    pub pointers: usize,
}

impl Default for Shape {
    fn default() -> Self {
        Shape { depth: 1, length: 200, references: 4, pointers: 0 }
    }
}

/// A part of a variable: the place and the size of the variable, and where the part begins.
#[derive(Clone, Copy)]
struct Part<'p> {
    place: &'p ValueLocation,
    size: usize,
    offset: usize,
}

/// The greatest depth to which structures and arrays are followed. In a hostile file, a structure can have
/// itself as a member.
const MAX_DEPTH: usize = 64;

/// The most members of a structure and of structures inside of it that are read for a variable.
const MAX_MEMBERS: usize = 4096;

/// The most bytes of a number, and of a pointer.
const MAX_BYTES: usize = 16;

impl<'v, 'a> Locator<'v, 'a> {
    /// The value of a variable of a type at a place.
    pub fn value_of_variable(
        &self,
        kind: Option<&Die<'v, 'a>>,
        place: &ValueLocation,
        shape: Shape,
    ) -> Result<Value, Missing> {
        let kind = kind.ok_or(Missing::Unsupported("no type"))?;
        if let ValueLocation::ImplicitPointer(pointee) = place {
            let followed = self.followed_pointer(kind, pointee, shape);
            return Ok(followed.unwrap_or_else(|| Value::Scalar(place.to_string())));
        }
        let size = self.size_of_type(kind)?;
        let shape = Shape { depth: shape.depth.min(MAX_DEPTH), ..shape };
        let mut left = MAX_MEMBERS.max(shape.length);
        let value = |left: &mut usize| self.value_of_part(kind, Part { place, size, offset: 0 }, shape, left);
        match *place {
            ValueLocation::Memory(address) => {
                self.unless_shown(address, kind, || value(&mut left)).unwrap_or(Ok(Value::Deeper))
            }
            _ => value(&mut left),
        }
    }

    fn value_of_part(
        &self,
        of: &Die<'v, 'a>,
        part: Part<'_>,
        shape: Shape,
        left: &mut usize,
    ) -> Result<Value, Missing> {
        let kind = unqualified_type(of).ok_or(Missing::Unsupported("a type that isn't there"))?;
        let tag = kind.tag().ok_or(Missing::Unsupported("a type that isn't there"))?;
        match tag {
            gimli::DW_TAG_base_type | gimli::DW_TAG_unspecified_type => match Characters::of(of) {
                Some(characters) => self.character_value(&kind, part, characters),
                None => self.base_value(&kind, part),
            },
            gimli::DW_TAG_enumeration_type => self.enumeration_value(&kind, part),
            gimli::DW_TAG_array_type => self.array_value(&kind, part, shape, left),
            gimli::DW_TAG_string_type => self.fortran_string(&kind, part, shape),
            gimli::DW_TAG_structure_type | gimli::DW_TAG_class_type | gimli::DW_TAG_union_type => {
                let text = self.counted_text(&kind, part, shape);
                match text.or_else(|| self.contents(&kind, part, shape, left)) {
                    Some(contents) => Ok(contents),
                    None => self.member_values(&kind, part, shape, left),
                }
            }
            gimli::DW_TAG_pointer_type if is_box(&kind) => self.reference_value(&kind, part, shape, left),
            gimli::DW_TAG_pointer_type => match self.map_of_go(of, part, shape, left) {
                Some(contents) => Ok(contents),
                None => self.pointer_value(&kind, part, shape, left),
            },
            gimli::DW_TAG_ptr_to_member_type => self.pointer_to_member(&kind, part),
            tag if is_reference_tag(tag) => self.reference_value(&kind, part, shape, left),
            _ => Err(Missing::Unsupported("a type of this kind")),
        }
    }

    /// The bytes of a number or a pointer.
    fn number_bytes(&self, kind: &Die<'v, 'a>, part: Part<'_>) -> Result<Vec<u8>, Missing> {
        self.bytes_up_to(MAX_BYTES, kind, part)
    }

    fn bytes_up_to(&self, most: usize, kind: &Die<'v, 'a>, part: Part<'_>) -> Result<Vec<u8>, Missing> {
        let size = type_size(kind).and_then(|size| usize::try_from(size).ok()).filter(|size| *size <= most);
        let size = size.ok_or(Missing::Unsupported("a type of this size"))?;
        self.machine.bytes(part.place, part.size, part.offset, size)
    }

    fn member_values(
        &self,
        kind: &Die<'v, 'a>,
        part: Part<'_>,
        shape: Shape,
        left: &mut usize,
    ) -> Result<Value, Missing> {
        if shape.depth == 0 || *left == 0 {
            return Ok(Value::Deeper);
        }
        let inner = Shape { depth: shape.depth - 1, ..shape };
        let mut all = Vec::new();
        for child in kind.children() {
            match child.tag() {
                Some(gimli::DW_TAG_variant_part) => all.extend(self.chosen_variant(&child, part)?),
                _ => all.push(child),
            }
        }
        all.retain(is_member_entry);
        let (mut members, count) = (Vec::new(), all.len());
        for member in all {
            if *left == 0 {
                break;
            }
            *left -= 1;
            let name = member.name().unwrap_or_else(|| match member.tag() {
                Some(gimli::DW_TAG_inheritance) => type_name(type_of(&member)),
                _ => String::new(),
            });
            members.push((name, self.member_value(&member, part, inner, left)));
        }
        let more = (count - members.len()) as u64;
        Ok(Value::Members(members, more))
    }

    fn member_value(
        &self,
        member: &Die<'v, 'a>,
        part: Part<'_>,
        shape: Shape,
        left: &mut usize,
    ) -> Result<Value, Missing> {
        let kind = type_of(member).ok_or(Missing::Unsupported("no type"))?;
        let part = self.place_of_member(member, part)?;
        match number_attribute(member, gimli::DW_AT_bit_size) {
            Some(bits) => self.bit_field_value(member, &kind, part, bits),
            None => self.value_of_part(&kind, part, shape, left),
        }
    }

    /// Where a member of a structure begins.
    fn place_of_member<'p>(&self, member: &Die<'v, 'a>, part: Part<'p>) -> Result<Part<'p>, Missing> {
        let past = match member.attribute(gimli::DW_AT_data_member_location) {
            Some(value) => value.udata_value().ok_or(Missing::Unsupported("a member at an expression"))?,
            None => 0,
        };
        let offset = usize::try_from(past).ok().and_then(|past| part.offset.checked_add(past));
        Ok(Part { offset: offset.ok_or(Missing::Unsupported("a member at this offset"))?, ..part })
    }
}

/// Whether a type is a `Box` of Rust.
fn is_box(kind: &Die<'_, '_>) -> bool {
    kind.name().map_or(false, |name| name.starts_with("alloc::boxed::Box<"))
}

fn is_member_entry(die: &Die<'_, '_>) -> bool {
    let is_static = die.attribute(gimli::DW_AT_external).is_some();
    match die.tag() {
        Some(gimli::DW_TAG_member) => !is_static,
        tag => tag == Some(gimli::DW_TAG_inheritance),
    }
}
