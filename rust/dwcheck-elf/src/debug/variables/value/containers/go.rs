//! How Go keeps what its slices and maps hold.

use super::associations::{Association, Entry, Walk};
use super::buckets::{Buckets, Cells};
use super::fields::{target_of, target_of_array, Field};
use super::sequences::{Length, Row};
use super::wide_trees::Slots;
use super::Layout;
use crate::debug::debug_info::Die;
use crate::debug::variables::location::Locator;
use crate::debug::variables::scopes::die_id;
use crate::debug::variables::types::{other_names, unqualified_type};
use crate::debug::variables::value::{Part, Shape, Value};
use crate::debug::variables::value_location::ValueLocation;
use gimli::DwAt;

/// Go's own attributes of the type of a map: the type of its keys, and that of its values.
const KEY: DwAt = DwAt(0x2901);
const VALUE: DwAt = DwAt(0x2902);

/// The most elements of a bucket. Go has 8.
const MOST_IN_BUCKET: u64 = 64;

/// The layout of a container with this name.
pub(super) fn layout<'v, 'a>(name: &str, whole: &Field<'v, 'a>) -> Option<Layout<'v, 'a>> {
    match whole.kind.attribute(KEY) {
        Some(_) => map(&whole.kind),
        None if name.starts_with("[]") => slice(whole),
        None => None,
    }
}

/// A slice.
fn slice<'v, 'a>(whole: &Field<'v, 'a>) -> Option<Layout<'v, 'a>> {
    let first = whole.member("array").filter(Field::is_pointer)?;
    let (length, room) = (Length::Count(whole.member("len")?), Length::Count(whole.member("cap")?));
    let element = first.target()?;
    Some(Layout::Row(Row { first, length, room, element }))
}

/// What a map leads to.
fn map<'v, 'a>(kind: &Die<'v, 'a>) -> Option<Layout<'v, 'a>> {
    let head = Field::whole(&target_of(kind)?);
    let now = head.member("buckets").filter(Field::is_pointer)?;
    let bucket = Field::whole(&now.target()?);
    let (key, keys) = cells(bucket.member("keys")?, kind.referred_entry(KEY)?)?;
    let (value, values) = cells(bucket.member("values")?, kind.referred_entry(VALUE)?)?;
    let tops = Slots::of(bucket.member("tophash")?, 1).filter(|tops| tops.count <= MOST_IN_BUCKET)?;
    if keys.slots.count != tops.count || values.slots.count != tops.count {
        return None;
    }
    let buckets = Buckets {
        flags: head.member("flags")?,
        logarithm: head.member("B")?,
        now,
        before: head.member("oldbuckets").filter(Field::is_pointer)?,
        size: bucket.size()?,
        tops,
        keys,
        values,
        next: bucket.member("overflow")?,
    };
    let entry = Entry { key, value: Some(value) };
    Some(Layout::Association(Association { count: head.member("count")?, walk: Walk::Buckets(buckets), entry }))
}

/// The keys or the values of a bucket, whose type is known. Of large ones there are only pointers.
fn cells<'v, 'a>(array: Field<'v, 'a>, kind: Die<'v, 'a>) -> Option<(Field<'v, 'a>, Cells<'v, 'a>)> {
    let id = |kind: &Die<'v, 'a>| unqualified_type(kind).map(|kind| die_id(&kind));
    let held = target_of_array(&array)?;
    let are_elsewhere = match target_of(&held) {
        _ if id(&held) == id(&kind) => false,
        Some(target) if id(&target) == id(&kind) => true,
        _ => return None,
    };
    let size = Field::whole(&held).size()?;
    Some((Field::whole(&kind), Cells { slots: Slots::of(array, size)?, are_elsewhere }))
}

impl<'v, 'a> Locator<'v, 'a> {
    /// What a map of Go holds, which is a pointer to its head. `None` if the type isn't that of a map.
    pub(in crate::debug::variables::value) fn map_of_go(
        &self,
        of: &Die<'v, 'a>,
        part: Part<'_>,
        shape: Shape,
        left: &mut usize,
    ) -> Option<Value> {
        let kind = other_names(of).find(|kind| kind.attribute(KEY).is_some())?;
        match self.word(&Field::whole(&kind), part)? {
            // One that isn't made yet is empty.
            0 => Some(Value::Entries(Vec::new(), 0)),
            head => {
                let place = ValueLocation::Memory(head);
                self.contents(&kind, Part { place: &place, size: usize::MAX, offset: 0 }, shape, left)
            }
        }
    }
}
