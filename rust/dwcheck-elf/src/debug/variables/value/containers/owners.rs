//! Reads pointers that own what they lead to, values that may be absent, and values of one of several types.

use super::fields::Field;
use crate::debug::debug_info::Die;
use crate::debug::variables::location::Locator;
use crate::debug::variables::types::{type_size, unqualified_type};
use crate::debug::variables::value::{Part, Shape, Value};

/// The most types of which a value may be.
pub(super) const MAX_CHOICES: usize = 64;

/// A pointer that owns what it leads to.
pub(super) struct Owner<'v, 'a> {
    pub target: Target<'v, 'a>,
    /// How many owners there are, if that is counted.
    pub counts: Option<Counts<'v, 'a>>,
}

/// What is owned.
pub(super) enum Target<'v, 'a> {
    /// What a pointer leads to.
    Pointer(Field<'v, 'a>),
    /// Elements, whose number isn't known.
    Elements(Field<'v, 'a>),
    /// A value beside the counts.
    Beside(Field<'v, 'a>),
}

/// The counts of owners, in a block elsewhere.
pub(super) struct Counts<'v, 'a> {
    /// The pointer to the block.
    pub control: Field<'v, 'a>,
    /// The numbers of owners and of others that know the block.
    pub uses: Field<'v, 'a>,
    pub weak: Field<'v, 'a>,
    /// What the block has for none of each.
    pub uses_from: i64,
    pub weak_from: i64,
}

/// A value that may be absent.
pub(super) struct Optional<'v, 'a> {
    pub is_there: Field<'v, 'a>,
    pub value: Field<'v, 'a>,
}

/// A value of one of several types.
pub(super) struct Choice<'v, 'a> {
    pub index: Field<'v, 'a>,
    /// The names of the types, and where a value of each would be.
    pub choices: Vec<(String, Field<'v, 'a>)>,
}

impl<'v, 'a> Target<'v, 'a> {
    /// The target of an owner that is made for a type.
    pub fn pointer(pointer: Field<'v, 'a>, of: Option<Die<'v, 'a>>) -> Self {
        let kind = of.and_then(|of| unqualified_type(&of));
        match kind.and_then(|kind| kind.tag()) {
            Some(gimli::DW_TAG_array_type) => Target::Elements(pointer),
            _ => Target::Pointer(pointer),
        }
    }
}

impl<'v, 'a> Locator<'v, 'a> {
    pub(super) fn owned(&self, owner: &Owner<'v, 'a>, part: Part<'_>, shape: Shape, left: &mut usize) -> Option<Value> {
        let counts = match &owner.counts {
            Some(counts) => self.counts(counts, part)?,
            None => None,
        };
        let (address, kind) = match &owner.target {
            Target::Pointer(pointer) => (self.word(pointer, part)?, pointer.target()),
            Target::Elements(pointer) => (self.word(pointer, part)?, None),
            Target::Beside(value) => {
                let block = self.word(&owner.counts.as_ref()?.control, part)?;
                (self.machine.target.wrap(value.after(block)), Some(value.kind.clone()))
            }
        };
        // What a pointer watched that has no owner any more is gone.
        let is_gone = matches!(counts, Some((0, _)));
        let kind = kind.filter(|kind| address != 0 && !is_gone && type_size(kind).is_some());
        let value = match kind {
            Some(kind) => self.reference_to(address, &kind, shape, left),
            None => Value::Scalar(format!("{:#x}", address)),
        };
        Some(match counts {
            Some((uses, weak)) => Value::Shared { value: Box::new(value), uses, weak },
            None => value,
        })
    }

    /// The numbers of owners and of others. An outer `None` if they can't be read, an inner one if nothing is owned.
    fn counts(&self, counts: &Counts<'v, 'a>, part: Part<'_>) -> Option<Option<(i64, i64)>> {
        let block = self.word(&counts.control, part)?;
        if block == 0 {
            return Some(None);
        }
        let count = |field: &Field<'v, 'a>| {
            let length = field.number_bytes()?;
            let bytes = self.machine.memory(field.after(block), length).ok()?;
            let unused = 64 - 8 * length as u32;
            Some((self.machine.target.number(&bytes) << unused) as i64 >> unused)
        };
        let uses = count(&counts.uses)?.checked_sub(counts.uses_from)?;
        let weak = count(&counts.weak)?.checked_sub(if uses > 0 { counts.weak_from } else { 0 })?;
        (uses >= 0 && weak >= 0).then_some(Some((uses, weak)))
    }

    pub(super) fn optional(
        &self,
        optional: &Optional<'v, 'a>,
        part: Part<'_>,
        inner: Shape,
        left: &mut usize,
    ) -> Option<Value> {
        let value = |left: &mut usize| {
            let value = &optional.value;
            self.value_of_part(&value.kind, value.part(part), inner, left)
        };
        match self.word(&optional.is_there, part)? {
            0 => Some(Value::Elements(Vec::new(), 0)),
            1 => Some(Value::Elements(vec![value(left)], 0)),
            _ => None,
        }
    }

    pub(super) fn choice(
        &self,
        choice: &Choice<'v, 'a>,
        part: Part<'_>,
        inner: Shape,
        left: &mut usize,
    ) -> Option<Value> {
        let index = self.word(&choice.index, part)?;
        let chosen = usize::try_from(index).ok().and_then(|index| choice.choices.get(index));
        match chosen {
            Some((name, field)) => {
                let value = self.value_of_part(&field.kind, field.part(part), inner, left);
                Some(Value::Members(vec![(name.clone(), value)], 0))
            }
            // All bits are set if an exception left no value.
            None => {
                let bits = 8 * choice.index.size().filter(|size| (1..=8).contains(size))? as u32;
                (index == u64::MAX >> (64 - bits)).then(|| Value::Members(Vec::new(), 0))
            }
        }
    }
}
