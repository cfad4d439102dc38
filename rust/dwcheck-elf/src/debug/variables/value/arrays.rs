//! Reads arrays, also those whose length is known only while the program runs.

use super::characters::Characters;
use super::numbers::signed_number;
use super::{Part, Shape, Value, MAX_DEPTH};
use crate::debug::debug_info::Die;
use crate::debug::variables::location::Locator;
use crate::debug::variables::types::{
    array_subranges, constant_length, has_lowest_index, is_column_major, lowest_index, number_attribute, type_of,
    type_size, unqualified_type, MAX_SIZE, MAX_TYPES,
};
use crate::debug::variables::value_location::Missing;
use dwcheck_types::target::AddressSize;
use gimli::{AttributeValue, DwAt};

/// What all dimensions of an array have in common.
struct Array<'e, 'v, 'a> {
    element: &'e Die<'v, 'a>,
    /// The size of an element.
    size: usize,
    /// The characters of a text, if the elements are characters.
    characters: Option<Characters>,
    shape: Shape,
}

impl<'v, 'a> Locator<'v, 'a> {
    /// The size of a type.
    pub(super) fn size_of_type(&self, kind: &Die<'v, 'a>) -> Result<usize, Missing> {
        let size = self.size_of_type_within(kind, MAX_TYPES)?;
        usize::try_from(size).map_err(|_| Missing::Unsupported("a type of this size"))
    }

    /// The same for a type that has at most `left` arrays inside each other.
    fn size_of_type_within(&self, kind: &Die<'v, 'a>, left: usize) -> Result<u64, Missing> {
        let array = match array_without_size(kind) {
            Some(array) => array,
            None => return type_size(kind).ok_or_else(|| missing_size(kind)),
        };
        let left = left.checked_sub(1).ok_or(Missing::Unsupported("an array of too many dimensions"))?;
        let element = type_of(&array).ok_or(Missing::Unsupported("an array without a type"))?;
        let size = self.size_of_type_within(&element, left)?;
        let mut lengths = self.dimension_lengths(&array)?.into_iter();
        let size = lengths.try_fold(size, |size, length| size.checked_mul(length)).filter(|size| *size <= MAX_SIZE);
        size.ok_or(Missing::Unsupported("an array of this size"))
    }

    /// The number of elements in each dimension of an array.
    fn dimension_lengths(&self, array: &Die<'v, 'a>) -> Result<Vec<u64>, Missing> {
        if array.attribute(gimli::DW_AT_data_location).is_some() {
            return Err(Missing::Unsupported("an array whose elements are elsewhere"));
        }
        let ranges = array_subranges(array);
        if ranges.len() > MAX_DEPTH || ranges.is_empty() {
            return Err(Missing::Unsupported("an array of too many dimensions"));
        }
        ranges.iter().map(|range| self.dimension_length(range)).collect()
    }

    /// The number of elements in a dimension.
    fn dimension_length(&self, range: &Die<'v, 'a>) -> Result<u64, Missing> {
        if let Some(length) = constant_length(range) {
            return Ok(length);
        }
        let length = if range.attribute(gimli::DW_AT_count).is_some() {
            Some(self.dimension_bound(range, gimli::DW_AT_count)?)
        } else {
            let upper = self.dimension_bound(range, gimli::DW_AT_upper_bound)?;
            let lower = if has_lowest_index(range) {
                self.dimension_bound(range, gimli::DW_AT_lower_bound)?
            } else {
                lowest_index(range)
            };
            upper.checked_sub(lower).and_then(|last| last.checked_add(1))
        };
        let length = length.and_then(|length| u64::try_from(length).ok()).filter(|length| *length <= MAX_SIZE);
        length.ok_or(Missing::Unsupported("an array of this length"))
    }

    /// A number that an attribute of a dimension has: a constant, the value of a variable, or that of an expression.
    fn dimension_bound(&self, range: &Die<'v, 'a>, name: DwAt) -> Result<i64, Missing> {
        let unknown = Missing::Unsupported("a length that isn't known");
        self.take_look_up().ok_or_else(|| unknown.clone())?;
        let value = range.attribute(name).ok_or_else(|| unknown.clone())?;
        let expression = match &value {
            AttributeValue::Exprloc(expression) => Some(expression.0),
            AttributeValue::Block(block) => Some(*block),
            _ => None,
        };
        match expression {
            Some(expression) => Ok(self.number_with_sign(self.computed_at_call_site(range, expression.slice())?)),
            None => match range.at(value) {
                Some(variable) => self.number_in_variable(&variable),
                None => number_attribute(range, name).map(|bound| bound as i64).ok_or(unknown),
            },
        }
    }

    /// The number that a variable has.
    fn number_in_variable(&self, variable: &Die<'v, 'a>) -> Result<i64, Missing> {
        let no_number = Missing::Unsupported("a length that isn't a number");
        let kind = type_of(variable).ok_or_else(|| no_number.clone())?;
        let size = type_size(&kind).filter(|size| (1..=8).contains(size)).ok_or_else(|| no_number.clone())? as usize;
        let bytes = self.machine.bytes(&self.locate_variable(variable, false)?, size, 0, size)?;
        // The highest index of no elements is -1, also where compilers give the variable a type without a sign.
        i64::try_from(signed_number(&self.least_significant_first(bytes))).map_err(|_| no_number)
    }

    /// The number that the result of an expression is, which has the size of an address.
    fn number_with_sign(&self, value: u64) -> i64 {
        match self.machine.target.address_size {
            AddressSize::Four => i64::from(value as u32 as i32),
            AddressSize::Eight => value as i64,
        }
    }

    /// The value of an array.
    pub(super) fn array_value(
        &self,
        kind: &Die<'v, 'a>,
        part: Part<'_>,
        shape: Shape,
        left: &mut usize,
    ) -> Result<Value, Missing> {
        let element = type_of(kind).ok_or(Missing::Unsupported("an array without a type"))?;
        let size = self.size_of_type(&element)?;
        if size == 0 {
            return Err(Missing::Unsupported("elements without a size"));
        }
        let counts = self.dimension_lengths(kind)?.into_iter().map(usize::try_from).collect::<Result<Vec<_>, _>>();
        let mut counts = counts.map_err(|_| Missing::Unsupported("an array of this length"))?;
        if is_column_major(kind) {
            counts.reverse();
        }
        let characters = Characters::of(&element);
        if shape.depth == 0 && !(characters.is_some() && counts.len() == 1) {
            return Ok(Value::Deeper);
        }
        let mut room = shape.length.min(*left);
        let array = Array { element: &element, size, characters, shape };
        self.dimension_value(&array, &counts, part, &mut room, left)
    }

    /// A dimension of an array. `room` is how many more elements are shown.
    fn dimension_value(
        &self,
        array: &Array<'_, 'v, 'a>,
        counts: &[usize],
        part: Part<'_>,
        room: &mut usize,
        left: &mut usize,
    ) -> Result<Value, Missing> {
        let (count, inner) = match counts {
            [count, inner @ ..] => (*count, inner),
            [] => return Err(Missing::Unsupported("an array without dimensions")),
        };
        if let Some(characters) = array.characters.filter(|_| inner.is_empty()) {
            *room = room.saturating_sub(1);
            return self.character_array(part, characters, count, array.shape);
        }
        let size = inner.iter().fold(array.size, |size, count| size.saturating_mul(*count));
        let shape = Shape { depth: array.shape.depth.saturating_sub(1), ..array.shape };
        let mut elements = Vec::new();
        while elements.len() < count && *room > 0 {
            let offset = part.offset.saturating_add(elements.len().saturating_mul(size));
            let part = Part { offset, ..part };
            if inner.is_empty() {
                (*room, *left) = (*room - 1, left.saturating_sub(1));
                elements.push(self.value_of_part(array.element, part, shape, left));
            } else {
                // An array without elements takes room, too.
                let before = *room;
                elements.push(self.dimension_value(array, inner, part, room, left));
                *room = (*room).min(before - 1);
            }
        }
        let more = (count - elements.len()) as u64;
        Ok(Value::Elements(elements, more))
    }
}

/// An array whose size follows from that of its elements.
fn array_without_size<'v, 'a>(kind: &Die<'v, 'a>) -> Option<Die<'v, 'a>> {
    let is_array = |kind: &Die<'_, '_>| kind.tag() == Some(gimli::DW_TAG_array_type);
    unqualified_type(kind).filter(|kind| is_array(kind) && number_attribute(kind, gimli::DW_AT_byte_size).is_none())
}

/// Why a type that isn't such an array has no size.
fn missing_size(kind: &Die<'_, '_>) -> Missing {
    let is_declared = unqualified_type(kind).map_or(false, |kind| kind.attribute(gimli::DW_AT_declaration).is_some());
    let why = if is_declared { "a type that is only declared" } else { "a type whose size isn't a constant" };
    Missing::Unsupported(why)
}
