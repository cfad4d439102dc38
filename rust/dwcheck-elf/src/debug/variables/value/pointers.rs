//! Reads pointers and references.

use super::characters::Characters;
use super::numbers::unsigned_number;
use super::{Part, Shape, Value};
use crate::debug::debug_info::Die;
use crate::debug::variables::location::Locator;
use crate::debug::variables::scopes::die_id;
use crate::debug::variables::types::{is_function_type, type_of, unqualified_type};
use crate::debug::variables::value_location::{Missing, Pointee, ValueLocation};
use gimli::DebugInfoOffset;

impl<'v, 'a> Locator<'v, 'a> {
    /// A pointer, with the text if it leads to one, or with the object if pointers are followed.
    pub(super) fn pointer_value(
        &self,
        kind: &Die<'v, 'a>,
        part: Part<'_>,
        shape: Shape,
        left: &mut usize,
    ) -> Result<Value, Missing> {
        let at = self.address_value(kind, part)?;
        let address = format!("{:#x}", at);
        let target = type_of(kind);
        let characters = target.as_ref().and_then(Characters::of);
        let text = characters.and_then(|characters| Some((characters, self.text_at(at, characters, shape.length)?)));
        if let Some((Characters { prefix, .. }, text)) = text {
            return Ok(Value::Text { address, prefix, text });
        }
        let followed = shape.pointers.checked_sub(1).filter(|_| at != 0 && characters.is_none());
        Ok(match (target.filter(|target| self.size_of_type(target).is_ok()), followed) {
            (Some(target), Some(pointers)) => {
                let shape = Shape { pointers, depth: shape.depth.max(1), ..shape };
                self.object_at(at, &target, shape, left)
            }
            _ => Value::Scalar(address),
        })
    }

    /// A reference, with the value to which it refers.
    pub(super) fn reference_value(
        &self,
        kind: &Die<'v, 'a>,
        part: Part<'_>,
        shape: Shape,
        left: &mut usize,
    ) -> Result<Value, Missing> {
        let at = self.address_value(kind, part)?;
        Ok(match type_of(kind) {
            Some(target) => self.reference_to(at, &target, shape, left),
            None => Value::Scalar(format!("{:#x}", at)),
        })
    }

    /// An address with the value of this type that is there.
    pub(super) fn reference_to(&self, at: u64, target: &Die<'v, 'a>, shape: Shape, left: &mut usize) -> Value {
        let address = format!("{:#x}", at);
        if unqualified_type(target).map_or(false, |target| is_function_type(&target)) {
            return Value::Scalar(address);
        }
        match shape.references.checked_sub(1) {
            Some(references) => self.object_at(at, target, Shape { references, ..shape }, left),
            None => Value::Reference(address, Box::new(Ok(Value::Deeper))),
        }
    }

    /// An address with the object of this type that is there, unless that is being shown.
    fn object_at(&self, at: u64, target: &Die<'v, 'a>, shape: Shape, left: &mut usize) -> Value {
        let object = self.unless_shown(at, target, || {
            let size = self.size_of_type(target)?;
            self.value_of_part(target, Part { place: &ValueLocation::Memory(at), size, offset: 0 }, shape, left)
        });
        Value::Reference(format!("{:#x}", at), Box::new(object.unwrap_or(Ok(Value::Deeper))))
    }

    /// The value of an object at an address. `None` if the object is being shown, as in a circle of pointers.
    pub(super) fn unless_shown<T>(&self, at: u64, kind: &Die<'v, 'a>, value: impl FnOnce() -> T) -> Option<T> {
        let object = (at, die_id(&unqualified_type(kind)?));
        if self.shown.borrow().contains(&object) {
            return None;
        }
        self.shown.borrow_mut().push(object);
        let value = value();
        self.shown.borrow_mut().pop();
        Some(value)
    }

    fn address_value(&self, kind: &Die<'v, 'a>, part: Part<'_>) -> Result<u64, Missing> {
        Ok(unsigned_number(&self.least_significant_first(self.number_bytes(kind, part)?)) as u64)
    }

    /// A pointer with the variable to which it leads. `None` if the value of that isn't known, or if the pointer
    /// leads into it.
    pub(super) fn followed_pointer(&self, pointer: &Die<'v, 'a>, pointee: &Pointee, shape: Shape) -> Option<Value> {
        let references = shape.references.checked_sub(1).filter(|_| pointee.past == 0)?;
        let target = self.variables.units.die(DebugInfoOffset(pointee.entry))?;
        let place = self.locate_variable(&target, false).ok()?;
        let pointed = type_of(&unqualified_type(pointer)?);
        let characters = pointed.as_ref().and_then(Characters::of);
        let value = match (&place, &pointee.name, characters) {
            // The compiler has an entry without a name and a type for the text.
            (ValueLocation::Bytes(bytes), None, Some(characters)) => {
                Value::Scalar(characters.quoted(bytes, self.machine.target))
            }
            _ => self
                .value_of_variable(type_of(&target).or(pointed).as_ref(), &place, Shape { references, ..shape })
                .ok()?,
        };
        Some(Value::Pointer(pointee.name.clone(), Box::new(value)))
    }
}
