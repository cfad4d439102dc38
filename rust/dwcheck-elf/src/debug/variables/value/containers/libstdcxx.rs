//! How libstdc++ keeps what its containers hold.

use super::associations::{Association, Entry, Walk};
use super::cxx::Entries;
use super::deques::{Blocks, InBlock};
use super::fields::{base_of_name, base_with_name, named_type, target_of, template_type, Field};
use super::owners::{Choice, Counts, Optional, Owner, Target, MAX_CHOICES};
use super::sequences::{Bits, Length, Room, Row, Text};
use super::Layout;
use crate::debug::debug_info::Die;
use crate::debug::variables::types::{type_name, unqualified_type};
use crate::debug::variables::value::characters::Characters;

/// `std::basic_string` of the ABI that C++11 has.
pub(super) fn string<'v, 'a>(whole: &Field<'v, 'a>) -> Option<Layout<'v, 'a>> {
    let address = whole.path(&["_M_dataplus", "_M_p"])?;
    let characters = Characters::of(&address.target()?)?;
    let length = whole.member("_M_string_length")?;
    let room = Room::Local { buffer: whole.member("_M_local_buf")?, capacity: whole.member("_M_allocated_capacity")? };
    Some(Layout::Text(Text { address, length, characters, room }))
}

/// `std::basic_string_view`.
pub(super) fn string_view<'v, 'a>(whole: &Field<'v, 'a>) -> Option<Layout<'v, 'a>> {
    let (address, length) = (whole.member("_M_str")?, whole.member("_M_len")?);
    let characters = Characters::of(&address.target()?)?;
    Some(Layout::Text(Text { address, length, characters, room: Room::Unknown }))
}

/// `std::vector`, of which that of `bool` keeps bits.
pub(super) fn vector<'v, 'a>(whole: &Field<'v, 'a>) -> Option<Layout<'v, 'a>> {
    let storage = whole.member("_M_impl")?;
    let (first, end) = (storage.member("_M_start")?, storage.member("_M_finish")?);
    let room = storage.member("_M_end_of_storage")?;
    if first.is_pointer() {
        let element = first.target()?;
        return Some(Layout::Row(Row { first, length: Length::End(end), room: Length::End(room), element }));
    }
    let bits = Bits {
        first: first.member("_M_p")?,
        first_bit: Some(first.member("_M_offset")?),
        end: Some(end.member("_M_p")?),
        count: end.member("_M_offset")?,
    };
    Some(Layout::Bits(bits))
}

/// `std::optional`.
pub(super) fn optional<'v, 'a>(whole: &Field<'v, 'a>) -> Option<Layout<'v, 'a>> {
    let payload = whole.member("_M_payload")?;
    let value = payload.member("_M_payload")?.member("_M_value")?;
    Some(Layout::Optional(Optional { is_there: payload.member("_M_engaged")?, value }))
}

/// `std::variant`.
pub(super) fn variant<'v, 'a>(whole: &Field<'v, 'a>) -> Option<Layout<'v, 'a>> {
    let index = whole.member("_M_index")?;
    let mut choices = Vec::new();
    let mut rest = whole.member("_M_u");
    while let Some(first) = rest.as_ref().and_then(|rest| rest.member("_M_first")) {
        if choices.len() >= MAX_CHOICES {
            return None;
        }
        let kind = template_type(&first.kind, "_Type")?;
        choices.push((type_name(Some(kind)), stored(&first.member("_M_storage")?)?));
        rest = rest.and_then(|rest| rest.member("_M_rest"));
    }
    Some(Layout::Choice(Choice { index, choices }))
}

/// What is in a member that has room for a value: bytes for a value of another type, or the value itself.
fn stored<'v, 'a>(storage: &Field<'v, 'a>) -> Option<Field<'v, 'a>> {
    let kind = unqualified_type(&storage.kind)?;
    let name = kind.name().unwrap_or_default();
    match base_of_name(&name) {
        "__aligned_membuf" | "__aligned_buffer" => {
            let held = storage.of_type(template_type(&kind, "_Tp")?);
            Some(held).filter(|held| held.size().is_some() && held.size() <= storage.size())
        }
        _ => Some(storage.clone()),
    }
}

/// `std::unique_ptr`.
pub(super) fn unique_ptr<'v, 'a>(whole: &Field<'v, 'a>) -> Option<Layout<'v, 'a>> {
    let outer = whole.member("_M_t")?;
    let tuple = outer.member("_M_t").unwrap_or(outer);
    let pointer = tuple.member_of_base(0, "_M_head_impl").filter(Field::is_pointer)?;
    let target = Target::pointer(pointer, template_type(&whole.kind, "_Tp"));
    Some(Layout::Owner(Owner { target, counts: None }))
}

/// `std::shared_ptr` and `std::weak_ptr`.
pub(super) fn shared_ptr<'v, 'a>(whole: &Field<'v, 'a>) -> Option<Layout<'v, 'a>> {
    let pointer = whole.member("_M_ptr").filter(Field::is_pointer)?;
    let control = whole.path(&["_M_refcount", "_M_pi"])?;
    let block = Field::whole(&control.target()?);
    let (uses, weak) = (block.member("_M_use_count")?, block.member("_M_weak_count")?);
    let counts = Counts { control, uses, weak, uses_from: 0, weak_from: 1 };
    let target = Target::pointer(pointer, template_type(&whole.kind, "_Tp"));
    Some(Layout::Owner(Owner { target, counts: Some(counts) }))
}

/// `std::tuple`: each element is in a base that is made for its index. The bases of bases say how many there are.
pub(super) fn tuple<'v, 'a>(whole: &Field<'v, 'a>) -> Option<Layout<'v, 'a>> {
    let rest = |class: &Die<'v, 'a>| base_with_name(class, "_Tuple_impl");
    let count = std::iter::successors(rest(&whole.kind), rest).take(MAX_CHOICES).count() as u64;
    let elements = (0..count).map(|index| whole.member_of_base(index, "_M_head_impl"));
    let elements: Vec<_> = elements.collect::<Option<_>>()?;
    (!elements.is_empty()).then_some(Layout::Fields(elements))
}

/// `std::list`: a ring of nodes, which the list itself closes.
pub(super) fn list<'v, 'a>(whole: &Field<'v, 'a>) -> Option<Layout<'v, 'a>> {
    let header = whole.path(&["_M_impl", "_M_node"])?;
    let node = Field::whole(&named_type(&whole.kind, "_Node")?);
    let walk = Walk::Ring { first: header.member("_M_next")?, next: node.member("_M_next")?, header: header.clone() };
    let entry = Entry { key: stored(&node.member("_M_storage")?)?, value: None };
    Some(Layout::Association(Association { count: header.member("_M_size")?, walk, entry }))
}

/// `std::deque`.
pub(super) fn deque<'v, 'a>(whole: &Field<'v, 'a>) -> Option<Layout<'v, 'a>> {
    let storage = whole.member("_M_impl")?;
    let place = |name: &str| {
        let place = storage.member(name)?;
        let pointer = |name: &str| place.member(name).filter(Field::is_pointer);
        let (current, first) = (pointer("_M_cur")?, pointer("_M_first")?);
        Some(InBlock { current, first, last: pointer("_M_last")?, block: pointer("_M_node")? })
    };
    let (begin, end) = (place("_M_start")?, place("_M_finish")?);
    let element = begin.current.target()?;
    Some(Layout::Blocks(Blocks { begin, end, element }))
}

/// `std::map`, `std::set`, and those that may have equal keys.
pub(super) fn tree<'v, 'a>(whole: &Field<'v, 'a>, entries: Entries) -> Option<Layout<'v, 'a>> {
    let tree = whole.member("_M_t")?;
    let storage = tree.member("_M_impl")?;
    let root = storage.path(&["_M_header", "_M_parent"])?;
    let node = Field::whole(&target_of(&named_type(&tree.kind, "_Link_type")?)?);
    let held = stored(&node.member("_M_storage").or_else(|| node.member("_M_value_field"))?)?;
    let walk = Walk::Tree { root, left: node.member("_M_left")?, right: node.member("_M_right")? };
    let entry = Entry::of(&held, entries)?;
    Some(Layout::Association(Association { count: storage.member("_M_node_count")?, walk, entry }))
}

/// `std::unordered_map`, `std::unordered_set`, and those that may have equal keys.
pub(super) fn hash_table<'v, 'a>(whole: &Field<'v, 'a>, entries: Entries) -> Option<Layout<'v, 'a>> {
    let table = whole.member("_M_h")?;
    let first = table.path(&["_M_before_begin", "_M_nxt"])?;
    let node = Field::whole(&node_of_table(&table.kind)?);
    let held = stored(&node.member("_M_storage")?)?;
    let walk = Walk::Chain { first, next: node.member("_M_nxt")? };
    let entry = Entry::of(&held, entries)?;
    Some(Layout::Association(Association { count: table.member("_M_element_count")?, walk, entry }))
}

/// The type of the nodes of a hash table: libstdc++ of gcc 11 and later has a name for pointers to them, older ones
/// have one for the nodes.
fn node_of_table<'v, 'a>(table: &Die<'v, 'a>) -> Option<Die<'v, 'a>> {
    let pointer = named_type(table, "__node_ptr").and_then(|pointer| target_of(&pointer));
    pointer.or_else(|| named_type(table, "__node_type"))
}
