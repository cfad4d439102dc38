//! How Rust's standard library keeps what its containers hold.

use super::associations::{Association, Entry, Walk};
use super::deques::{Circle, Extent};
use super::fields::{template_type, Field};
use super::owners::{Counts, Owner, Target};
use super::sequences::{Length, Room, Row, Text};
use super::wide_trees::{Slots, WideTree};
use super::{base_of_name, Layout};
use crate::debug::variables::types::unqualified_type;
use crate::debug::variables::value::characters::Characters;

/// How many structures are around a number or a pointer at most, such as `NonNull` and `UnsafeCell`.
const MAX_WRAPPERS: usize = 6;

/// The beginnings of the names of Rust's types for a row of elements with its length.
const SLICES: [&str; 3] = ["&[", "&mut [", "alloc::boxed::Box<["];

/// The layout of a container with this name.
pub(super) fn layout<'v, 'a>(name: &str, whole: &Field<'v, 'a>) -> Option<Layout<'v, 'a>> {
    match base_of_name(name) {
        "String" => string(whole),
        "Vec" => vector(whole).map(Layout::Row),
        "VecDeque" => vector_deque(whole),
        "Rc" | "Arc" | "Weak" => shared(whole),
        "HashMap" => hash_map(whole, Field::member(whole, "base").as_ref().unwrap_or(whole)),
        "HashSet" => hash_set(whole),
        "BTreeMap" => tree(whole).map(Layout::Association),
        "BTreeSet" => tree_set(whole),
        _ if name.starts_with("alloc::boxed::Box<str") => boxed_text(whole),
        _ if SLICES.iter().any(|begin| name.starts_with(begin)) => slice(whole).map(Layout::Row),
        _ => None,
    }
}

/// The pointer or number that is alone in structures around it.
fn unwrapped<'v, 'a>(field: &Field<'v, 'a>, names: &[&str]) -> Option<Field<'v, 'a>> {
    let inner = |field: &Field<'v, 'a>| names.iter().find_map(|name| field.member(name));
    let is_plain = |field: &Field<'v, 'a>| {
        let tag = unqualified_type(&field.kind).and_then(|kind| kind.tag());
        field.is_pointer() || tag == Some(gimli::DW_TAG_base_type)
    };
    std::iter::successors(Some(field.clone()), inner).take(MAX_WRAPPERS).find(is_plain)
}

/// `Vec`.
fn vector<'v, 'a>(whole: &Field<'v, 'a>) -> Option<Row<'v, 'a>> {
    let buffer = whole.member("buf")?;
    let buffer = buffer.member("inner").unwrap_or(buffer);
    let first = unwrapped(&buffer.member("ptr")?, &["pointer"]).filter(Field::is_pointer)?;
    let room = unwrapped(&buffer.member("cap")?, &["__0"])?;
    let (length, element) = (whole.member("len")?, template_type(&whole.kind, "T")?);
    Some(Row { first, length: Length::Count(length), room: Length::Count(room), element })
}

/// `VecDeque`. Up to Rust 1.66 it has the place of the first element and the one after the last; then the number of
/// elements.
fn vector_deque<'v, 'a>(whole: &Field<'v, 'a>) -> Option<Layout<'v, 'a>> {
    let buffer = whole.member("buf")?;
    let buffer = buffer.member("inner").unwrap_or(buffer);
    let first = unwrapped(&buffer.member("ptr")?, &["pointer"]).filter(Field::is_pointer)?;
    let (room, element) = (unwrapped(&buffer.member("cap")?, &["__0"])?, template_type(&whole.kind, "T")?);
    let (begin, extent) = match (whole.member("len"), whole.member("tail")) {
        (Some(length), None) => (whole.member("head")?, Extent::Count(length)),
        (None, Some(tail)) => (tail, Extent::End(whole.member("head")?)),
        _ => return None,
    };
    Some(Layout::Circle(Circle { first, begin, extent, room, element }))
}

/// `String`, which is a vector of bytes.
fn string<'v, 'a>(whole: &Field<'v, 'a>) -> Option<Layout<'v, 'a>> {
    let row = vector(&whole.member("vec")?)?;
    match (row.length, row.room) {
        (Length::Count(length), Length::Count(room)) => {
            let (address, characters) = (row.first, Characters::BYTES);
            Some(Layout::Text(Text { address, length, characters, room: Room::AtMost(room) }))
        }
        _ => None,
    }
}

/// `Box<str>`.
fn boxed_text<'v, 'a>(whole: &Field<'v, 'a>) -> Option<Layout<'v, 'a>> {
    let Row { first: address, length, .. } = slice(whole)?;
    match length {
        Length::Count(length) => {
            Some(Layout::Text(Text { address, length, characters: Characters::BYTES, room: Room::Unknown }))
        }
        Length::End(_) => None,
    }
}

/// A pointer to elements with their number.
fn slice<'v, 'a>(whole: &Field<'v, 'a>) -> Option<Row<'v, 'a>> {
    let first = whole.member("data_ptr").filter(Field::is_pointer)?;
    let (length, element) = (whole.member("length")?, first.target()?);
    Some(Row { first, room: Length::Count(length.clone()), length: Length::Count(length), element })
}

/// `Rc` and `Arc`, and the `Weak` of both: the counts are beside the value. Of one whose size only the process knows, the
/// pointer is a structure.
fn shared<'v, 'a>(whole: &Field<'v, 'a>) -> Option<Layout<'v, 'a>> {
    let control = whole.path(&["ptr", "pointer"]).filter(Field::is_pointer)?;
    let block = Field::whole(&control.target()?);
    let value = block.member("value").or_else(|| block.member("data"))?;
    let count = |name: &str| unwrapped(&block.member(name)?, &["value", "v"]);
    let (uses, weak) = (count("strong")?, count("weak")?);
    let counts = Counts { control, uses, weak, uses_from: 0, weak_from: 1 };
    Some(Layout::Owner(Owner { target: Target::Beside(value), counts: Some(counts) }))
}

/// `HashMap`, of the standard library or of hashbrown.
fn hash_map<'v, 'a>(whole: &Field<'v, 'a>, map: &Field<'v, 'a>) -> Option<Layout<'v, 'a>> {
    let table = map.member("table")?;
    let pair = Field::whole(&template_type(&table.kind, "T")?);
    let entry = Entry { key: pair.member("__0")?, value: Some(pair.member("__1")?) };
    template_type(&whole.kind, "K")?;
    hash_table(&table, pair.size()?, entry)
}

/// `HashSet`, a map whose values are empty.
fn hash_set<'v, 'a>(whole: &Field<'v, 'a>) -> Option<Layout<'v, 'a>> {
    let map = whole.member("base").unwrap_or_else(|| whole.clone()).member("map")?;
    let map = map.member("base").unwrap_or(map);
    let table = map.member("table")?;
    let pair = Field::whole(&template_type(&table.kind, "T")?);
    hash_table(&table, pair.size()?, Entry { key: pair.member("__0")?, value: None })
}

/// hashbrown's table: a byte for each place says whether an element is there, and the elements are before these bytes,
/// the first one last.
fn hash_table<'v, 'a>(table: &Field<'v, 'a>, size: u64, entry: Entry<'v, 'a>) -> Option<Layout<'v, 'a>> {
    let inner = table.member("table")?;
    let control = unwrapped(&inner.member("ctrl")?, &["pointer"]).filter(Field::is_pointer)?;
    let walk = Walk::Places { control, mask: inner.member("bucket_mask")?, size };
    Some(Layout::Association(Association { count: inner.member("items")?, walk, entry }))
}

/// `BTreeMap`. A node with others below it begins with what a leaf has, where a pointer to the node above it says its
/// type.
fn tree<'v, 'a>(whole: &Field<'v, 'a>) -> Option<Association<'v, 'a>> {
    let root = whole.member("root")?.some()?;
    let pointer = unwrapped(&root.member("node")?, &["pointer"]).filter(Field::is_pointer)?;
    let leaf = Field::whole(&pointer.target()?);
    let above = unwrapped(&leaf.member("parent")?.some()?, &["pointer"]).filter(Field::is_pointer)?;
    let node = Field::whole(&above.target()?);
    let (key, value) = (template_type(&leaf.kind, "K")?, template_type(&leaf.kind, "V")?);
    let (key, value) = (Field::whole(&key), Field::whole(&value));
    let keys = Slots::of(leaf.member("keys")?, key.size()?)?;
    let values = Slots::of(leaf.member("vals")?, value.size()?)?;
    let below = Slots::of(node.member("edges")?, pointer.size()?)?;
    let begins_as_leaf = node.member("data")?.after(0) == 0;
    if !begins_as_leaf || values.count != keys.count || below.count.checked_sub(1) != Some(keys.count) {
        return None;
    }
    let tree =
        WideTree { root: pointer, height: root.member("height")?, count: leaf.member("len")?, keys, values, below };
    let entry = Entry { key, value: Some(value) };
    Some(Association { count: whole.member("length")?, walk: Walk::WideTree(tree), entry })
}

/// `BTreeSet`, a map whose values are empty.
fn tree_set<'v, 'a>(whole: &Field<'v, 'a>) -> Option<Layout<'v, 'a>> {
    let map = tree(&whole.member("map")?)?;
    let entry = Entry { value: None, ..map.entry };
    Some(Layout::Association(Association { entry, ..map }))
}
