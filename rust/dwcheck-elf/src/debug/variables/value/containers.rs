//! Shows what containers of C++, Rust and Go hold, in place of the members by which they keep it.
//!
//! How a container keeps its contents is found by the names of members that the debug information states, in a type of
//! a known name. If something differs, in the type or in the values, there is no container here, and the structure is
//! shown as it is.

mod associations;
mod buckets;
mod cxx;
mod deques;
mod fields;
mod go;
mod libcxx;
mod libstdcxx;
mod owners;
mod rust;
mod sequences;
mod wide_trees;

use super::{Part, Shape, Value};
use crate::debug::debug_info::Die;
use crate::debug::variables::location::Locator;
use crate::debug::variables::scopes::{die_id, DieId};
use associations::Association;
use deques::{Blocks, Circle, Pages};
use fields::{base_of_name, Field};
use owners::{Choice, Optional, Owner};
use sequences::{Bits, Row, ShortText, Text};
use std::cell::RefCell;
use std::collections::HashMap;
use std::rc::Rc;

/// How a type keeps its contents.
enum Layout<'v, 'a> {
    /// Characters elsewhere.
    Text(Text<'v, 'a>),
    /// Characters in the container itself if there are few of them.
    ShortText(ShortText<'v, 'a>),
    /// Elements next to each other, elsewhere.
    Row(Row<'v, 'a>),
    /// Bits next to each other, elsewhere.
    Bits(Bits<'v, 'a>),
    /// One member is all that there is.
    Only(Field<'v, 'a>),
    /// A pointer that owns what it leads to.
    Owner(Owner<'v, 'a>),
    /// A value, or none.
    Optional(Optional<'v, 'a>),
    /// One of several values.
    Choice(Choice<'v, 'a>),
    /// Keys, with values or without.
    Association(Association<'v, 'a>),
    /// Elements in blocks elsewhere.
    Blocks(Blocks<'v, 'a>),
    /// Elements in blocks of a known number of elements elsewhere.
    Pages(Pages<'v, 'a>),
    /// Elements next to each other, elsewhere, of which the first one comes after the last place.
    Circle(Circle<'v, 'a>),
    /// Members, by their places.
    Fields(Vec<Field<'v, 'a>>),
}

/// The layouts of the types that were looked up, by the types' entries. `None` for a type that isn't a container.
#[derive(Default)]
pub(in crate::debug::variables) struct Layouts<'v, 'a>(RefCell<HashMap<DieId, Option<Rc<Layout<'v, 'a>>>>>);

impl<'v, 'a> Layouts<'v, 'a> {
    fn layout(&self, kind: &Die<'v, 'a>) -> Option<Rc<Layout<'v, 'a>>> {
        let id = die_id(kind);
        if let Some(known) = self.0.borrow().get(&id) {
            return known.clone();
        }
        let found = layout_of(kind).map(Rc::new);
        self.0.borrow_mut().insert(id, found.clone());
        found
    }
}

/// The layout of a type with the name of a container.
fn layout_of<'v, 'a>(kind: &Die<'v, 'a>) -> Option<Layout<'v, 'a>> {
    let name = kind.name()?;
    let whole = Field::whole(kind);
    let of_cxx = cxx::layout(base_of_name(&name), &whole);
    of_cxx.or_else(|| rust::layout(&name, &whole)).or_else(|| go::layout(&name, &whole))
}

impl<'v, 'a> Locator<'v, 'a> {
    /// What a container holds. `None` if the type isn't a container of a known layout, or the values aren't those of
    /// one.
    pub(super) fn contents(&self, kind: &Die<'v, 'a>, part: Part<'_>, shape: Shape, left: &mut usize) -> Option<Value> {
        let layout = self.layouts.layout(kind)?;
        match &*layout {
            Layout::Text(text) => return self.text_contents(text, part, shape),
            Layout::ShortText(text) => return self.short_text(text, part, shape),
            Layout::Owner(owner) => return self.owned(owner, part, shape, left),
            Layout::Only(field) => return self.value_of_part(&field.kind, field.part(part), shape, left).ok(),
            _ if shape.depth == 0 => return Some(Value::Deeper),
            _ => {}
        }
        let inner = Shape { depth: shape.depth - 1, ..shape };
        match &*layout {
            Layout::Row(row) => self.row(row, part, inner, left),
            Layout::Bits(bits) => self.bits(bits, part, inner, left),
            Layout::Optional(optional) => self.optional(optional, part, inner, left),
            Layout::Choice(choice) => self.choice(choice, part, inner, left),
            Layout::Association(association) => self.association(association, part, inner, left),
            Layout::Blocks(blocks) => self.blocks(blocks, part, inner, left),
            Layout::Pages(pages) => self.pages(pages, part, inner, left),
            Layout::Circle(circle) => self.circle(circle, part, inner, left),
            Layout::Fields(fields) => {
                let value = |field: &Field<'v, 'a>| self.value_of_part(&field.kind, field.part(part), inner, left);
                Some(Value::Elements(fields.iter().map(value).collect(), 0))
            }
            _ => None,
        }
    }

    /// The number in a member, which may be a pointer.
    fn word(&self, field: &Field<'v, 'a>, part: Part<'_>) -> Option<u64> {
        let part = field.part(part);
        let length = field.number_bytes()?;
        let bytes = self.machine.bytes(part.place, part.size, part.offset, length).ok()?;
        Some(field.of_bits(self.machine.target.number(&bytes)))
    }

    /// How many of some elements are shown.
    fn shown(&self, count: u64, shape: Shape, left: usize) -> usize {
        usize::try_from(count).unwrap_or(usize::MAX).min(shape.length).min(left)
    }
}
