//! Reads containers that find their elements by keys: trees and hash tables.

use super::buckets::Buckets;
use super::cxx::Entries;
use super::fields::Field;
use super::wide_trees::WideTree;
use crate::debug::variables::location::Locator;
use crate::debug::variables::value::{Part, Shape, Value};
use crate::debug::variables::value_location::ValueLocation;

/// The most nodes from the root of a tree to a leaf: a balanced tree of 2^64 nodes has no more.
const MAX_HEIGHT: usize = 128;

/// The most places of a hash table that are looked at.
const MAX_PLACES: u64 = 1 << 22;

/// How many places of a hash table are read at once.
const AT_ONCE: u64 = 4096;

/// Keys, with values or without.
pub(super) struct Association<'v, 'a> {
    /// How many elements there are.
    pub count: Field<'v, 'a>,
    pub walk: Walk<'v, 'a>,
    pub entry: Entry<'v, 'a>,
}

/// Where the elements are.
pub(super) enum Walk<'v, 'a> {
    /// In nodes of a tree, in the order of the keys.
    Tree { root: Field<'v, 'a>, left: Field<'v, 'a>, right: Field<'v, 'a> },
    /// In nodes each of which leads to the next one.
    Chain { first: Field<'v, 'a>, next: Field<'v, 'a> },
    /// In nodes each of which leads to the next one, and the last one to the container's own part.
    Ring { first: Field<'v, 'a>, next: Field<'v, 'a>, header: Field<'v, 'a> },
    /// Before bytes each of which says whether an element of a size is there. The mask is the number of the last one.
    Places { control: Field<'v, 'a>, mask: Field<'v, 'a>, size: u64 },
    /// In nodes of a tree that have several each, in the order of the keys.
    WideTree(WideTree<'v, 'a>),
    /// In buckets of a hash table that have several each.
    Buckets(Buckets<'v, 'a>),
}

/// What is in a node or a place.
pub(super) struct Entry<'v, 'a> {
    pub key: Field<'v, 'a>,
    pub value: Option<Field<'v, 'a>>,
}

impl<'v, 'a> Entry<'v, 'a> {
    /// What a node of C++ has.
    pub fn of(held: &Field<'v, 'a>, entries: Entries) -> Option<Self> {
        Some(match entries {
            Entries::Pairs => Entry { key: held.member("first")?, value: Some(held.member("second")?) },
            Entries::Keys => Entry { key: held.clone(), value: None },
        })
    }
}

/// Where an element is: what its key is in, and what its value is in, by their addresses. Mostly both are one node.
#[derive(Clone, Copy, Debug)]
pub(super) struct Place {
    pub key: u64,
    pub value: u64,
}

impl Place {
    fn of_node(address: u64) -> Self {
        Place { key: address, value: address }
    }
}

/// Where elements are, and whether there are no others.
pub(super) type Found = (Vec<Place>, bool);

impl<'v, 'a> Locator<'v, 'a> {
    pub(super) fn association(
        &self,
        association: &Association<'v, 'a>,
        part: Part<'_>,
        inner: Shape,
        left: &mut usize,
    ) -> Option<Value> {
        let count = self.word(&association.count, part)?;
        let shown = self.shown(count, inner, *left);
        let (places, are_all) = match &association.walk {
            Walk::Tree { root, left, right } => self.nodes_of_tree(self.word(root, part)?, [left, right], shown)?,
            Walk::Chain { first, next } => self.nodes_of_chain(self.word(first, part)?, next, (0, shown))?,
            Walk::Ring { first, next, header } => {
                let own = match part.place {
                    ValueLocation::Memory(own) => own.wrapping_add(header.part(part).offset as u64),
                    _ => return None,
                };
                self.nodes_of_chain(self.word(first, part)?, next, (self.machine.target.wrap(own), shown))?
            }
            Walk::Places { control, mask, size } => {
                let (control, mask) = (self.word(control, part)?, self.word(mask, part)?);
                self.elements_in_places(control, mask, *size, shown)?
            }
            Walk::WideTree(tree) => self.elements_of_wide_tree(tree, part, (count, shown))?,
            Walk::Buckets(buckets) => self.elements_in_buckets(buckets, part, shown)?,
        };
        if places.len() != shown || are_all != (shown as u64 == count) {
            return None;
        }
        Some(self.entries(&association.entry, &places, count - shown as u64, inner, left))
    }

    fn entries(&self, entry: &Entry<'v, 'a>, places: &[Place], more: u64, inner: Shape, left: &mut usize) -> Value {
        let mut value_of = |field: &Field<'v, 'a>, address: u64| {
            *left = left.saturating_sub(1);
            let place = ValueLocation::Memory(address);
            self.value_of_part(
                &field.kind,
                field.part(Part { place: &place, size: usize::MAX, offset: 0 }),
                inner,
                left,
            )
        };
        match &entry.value {
            Some(value) => {
                let pair = |place: &Place| (value_of(&entry.key, place.key), value_of(value, place.value));
                Value::Entries(places.iter().map(pair).collect(), more)
            }
            None => Value::Elements(places.iter().map(|place| value_of(&entry.key, place.key)).collect(), more),
        }
    }

    /// A number or a pointer that a node has.
    pub(super) fn word_of_node(&self, field: &Field<'v, 'a>, node: u64) -> Option<u64> {
        let place = ValueLocation::Memory(node);
        self.word(field, Part { place: &place, size: usize::MAX, offset: 0 })
    }

    /// The first nodes of a tree, by their order.
    fn nodes_of_tree(&self, root: u64, [left, right]: [&Field<'v, 'a>; 2], most: usize) -> Option<Found> {
        let (mut found, mut above) = (Vec::new(), Vec::new());
        let mut next = root;
        loop {
            if next != 0 {
                if above.len() == MAX_HEIGHT {
                    return None;
                }
                above.push(next);
                next = self.word_of_node(left, next)?;
                continue;
            }
            let node = match above.pop() {
                Some(node) if found.len() < most => node,
                above => return Some((found, above.is_none())),
            };
            found.push(Place::of_node(node));
            next = self.word_of_node(right, node)?;
        }
    }

    /// The first nodes of a chain, which ends at an address.
    fn nodes_of_chain(&self, first: u64, next: &Field<'v, 'a>, (end, most): (u64, usize)) -> Option<Found> {
        let mut found = Vec::new();
        let mut node = first;
        while node != end && found.len() < most {
            found.push(Place::of_node(node));
            node = self.word_of_node(next, node)?;
        }
        Some((found, node == end))
    }

    /// The elements in the first places of a hash table. A place has one if the highest bit of its byte isn't set.
    fn elements_in_places(&self, control: u64, mask: u64, size: u64, most: usize) -> Option<Found> {
        let places = mask.checked_add(1).filter(|places| places.is_power_of_two() && *places <= MAX_PLACES)?;
        let mut found = Vec::new();
        for begin in (0..places).step_by(AT_ONCE as usize) {
            let bytes = self.machine.memory(control.checked_add(begin)?, AT_ONCE.min(places - begin) as usize).ok()?;
            for (place, _) in (begin..).zip(&bytes).filter(|(_, byte)| **byte & 0x80 == 0) {
                if found.len() == most {
                    return Some((found, false));
                }
                found.push(Place::of_node(control.checked_sub((place + 1).checked_mul(size)?)?));
            }
        }
        Some((found, true))
    }
}
