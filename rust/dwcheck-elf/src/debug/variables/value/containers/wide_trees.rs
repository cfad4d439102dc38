//! Reads trees whose nodes have several keys each, such as those of Rust's `BTreeMap`.

use super::associations::{Found, Place};
use super::fields::Field;
use crate::debug::variables::location::Locator;
use crate::debug::variables::types::{array_dimensions, type_of, type_size, unqualified_type};
use crate::debug::variables::value::Part;

/// The most nodes from the root to a leaf. Below a node of Rust's trees are at least six others.
const MAX_HEIGHT: u64 = 32;

/// A tree whose nodes have several keys each, and their values beside them. Nodes with others below them begin as
/// leaves do.
pub(super) struct WideTree<'v, 'a> {
    /// The pointer to the root, and how many nodes are below that up to a leaf.
    pub root: Field<'v, 'a>,
    pub height: Field<'v, 'a>,
    /// How many keys a node has.
    pub count: Field<'v, 'a>,
    pub keys: Slots<'v, 'a>,
    pub values: Slots<'v, 'a>,
    /// The pointers to the nodes below: one before each key, and one after the last.
    pub below: Slots<'v, 'a>,
}

/// Places of the same size next to each other in a node.
pub(super) struct Slots<'v, 'a> {
    first: Field<'v, 'a>,
    size: u64,
    /// How many there are.
    pub count: u64,
}

impl<'v, 'a> Slots<'v, 'a> {
    /// The places of an array. `None` if the member isn't one, or its elements have another size.
    pub fn of(array: Field<'v, 'a>, size: u64) -> Option<Self> {
        let kind = unqualified_type(&array.kind).filter(|kind| kind.tag() == Some(gimli::DW_TAG_array_type))?;
        let count = match array_dimensions(&kind).as_slice() {
            [Some(count)] => *count,
            _ => return None,
        };
        (type_size(&type_of(&kind)?)? == size).then_some(Slots { first: array, size, count })
    }

    /// The address of a place in a node.
    pub fn address(&self, node: u64, index: u64) -> Option<u64> {
        self.first.after(node).checked_add(index.checked_mul(self.size)?)
    }
}

impl<'v, 'a> Locator<'v, 'a> {
    /// The first elements of a tree with a number of elements, at most as many as asked for.
    pub(super) fn elements_of_wide_tree(
        &self,
        tree: &WideTree<'v, 'a>,
        part: Part<'_>,
        (count, most): (u64, usize),
    ) -> Option<Found> {
        // Without elements there may be no root.
        if count == 0 {
            return Some((Vec::new(), true));
        }
        let root = self.word(&tree.root, part)?;
        let height = self.word(&tree.height, part).filter(|height| *height < MAX_HEIGHT)?;
        let mut found = Vec::new();
        let are_all = self.add_elements(tree, (root, height), most, &mut found)?;
        Some((found, are_all))
    }

    /// Adds the elements of a node and of those below it, unless there are enough. Returns whether all were added. Each
    /// node has a key, so no more nodes are read than elements are added, and those on the way to the last one.
    fn add_elements(
        &self,
        tree: &WideTree<'v, 'a>,
        (node, height): (u64, u64),
        most: usize,
        found: &mut Vec<Place>,
    ) -> Option<bool> {
        let count = self.word_of_node(&tree.count, node).filter(|count| (1..=tree.keys.count).contains(count))?;
        let below = height.checked_sub(1);
        for index in 0..=count {
            if let Some(height) = below {
                let child = self.pointer_at(tree.below.address(node, index)?)?;
                if !self.add_elements(tree, (child, height), most, found)? {
                    return Some(false);
                }
            }
            if index < count {
                if found.len() == most {
                    return Some(false);
                }
                found.push(Place { key: tree.keys.address(node, index)?, value: tree.values.address(node, index)? });
            }
        }
        Some(true)
    }

    /// The pointer at an address.
    pub(super) fn pointer_at(&self, address: u64) -> Option<u64> {
        let length = usize::from(self.machine.target.address_size.bytes());
        Some(self.machine.target.number(&self.machine.memory(address, length).ok()?))
    }
}
