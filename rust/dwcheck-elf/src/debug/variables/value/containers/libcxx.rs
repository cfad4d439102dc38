//! How libc++ keeps what its containers hold.

use super::associations::{Association, Entry, Walk};
use super::cxx::Entries;
use super::deques::Pages;
use super::fields::{constant_of_class, count_of_bases, named_type, target_of, template_number, template_type, Field};
use super::owners::{Choice, Counts, Optional, Owner, Target, MAX_CHOICES};
use super::sequences::{Bits, Flag, Length, Room, Row, ShortText, Text};
use super::Layout;
use crate::debug::variables::types::{type_name, unqualified_type};
use crate::debug::variables::value::characters::Characters;

/// The first one of a pair of which empty classes take no room.
fn first_of_pair<'v, 'a>(pair: &Field<'v, 'a>) -> Option<Field<'v, 'a>> {
    pair.member_of_base(0, "__value_")
}

/// `std::basic_string`: a long one is elsewhere, a short one in the string itself.
pub(super) fn string<'v, 'a>(whole: &Field<'v, 'a>) -> Option<Layout<'v, 'a>> {
    let storage = whole.member("__r_").and_then(|pair| first_of_pair(&pair))?;
    let (long, short) = (storage.member("__l")?, storage.member("__s")?);
    let address = long.member("__data_")?;
    let characters = Characters::of(&address.target()?)?;
    let flag = match short.member("__is_long_") {
        Some(is_long) => Flag::Member(is_long),
        // Older versions have one byte for the flag and the length.
        None => Flag::Mask(constant_of_class(&unqualified_type(&whole.kind)?, "__short_mask")?),
    };
    let elsewhere = Text { address, length: long.member("__size_")?, characters, room: Room::Unknown };
    let (length, buffer) = (short.member("__size_")?, short.member("__data_")?);
    Some(Layout::ShortText(ShortText { flag, length, buffer, elsewhere }))
}

/// `std::basic_string_view`.
pub(super) fn string_view<'v, 'a>(whole: &Field<'v, 'a>) -> Option<Layout<'v, 'a>> {
    let member = |names: [&str; 2]| names.into_iter().find_map(|name| whole.member(name));
    let (address, length) = (member(["__data_", "__data"])?, member(["__size_", "__size"])?);
    let characters = Characters::of(&address.target()?)?;
    Some(Layout::Text(Text { address, length, characters, room: Room::Unknown }))
}

/// `std::vector`, of which that of `bool` keeps bits.
pub(super) fn vector<'v, 'a>(whole: &Field<'v, 'a>) -> Option<Layout<'v, 'a>> {
    let first = whole.member("__begin_").filter(Field::is_pointer)?;
    let end = match whole.member("__end_") {
        Some(end) => end,
        None => {
            let count = whole.member("__size_")?;
            return Some(Layout::Bits(Bits { first, first_bit: None, end: None, count }));
        }
    };
    let room = first_of_pair(&whole.member("__end_cap_")?)?;
    let element = first.target()?;
    Some(Layout::Row(Row { first, length: Length::End(end), room: Length::End(room), element }))
}

/// `std::optional`.
pub(super) fn optional<'v, 'a>(whole: &Field<'v, 'a>) -> Option<Layout<'v, 'a>> {
    Some(Layout::Optional(Optional { is_there: whole.member("__engaged_")?, value: whole.member("__val_")? }))
}

/// `std::variant`.
pub(super) fn variant<'v, 'a>(whole: &Field<'v, 'a>) -> Option<Layout<'v, 'a>> {
    let storage = whole.member("__impl").or_else(|| whole.member("__impl_"))?;
    let index = storage.member("__index")?;
    let mut choices = Vec::new();
    let mut rest = storage.member("__data");
    while let Some(head) = rest.as_ref().and_then(|rest| rest.member("__head")) {
        if choices.len() >= MAX_CHOICES {
            return None;
        }
        let value = head.member("__value")?;
        choices.push((type_name(Some(template_type(&head.kind, "_Tp")?)), value));
        rest = rest.and_then(|rest| rest.member("__tail"));
    }
    Some(Layout::Choice(Choice { index, choices }))
}

/// `std::unique_ptr`.
pub(super) fn unique_ptr<'v, 'a>(whole: &Field<'v, 'a>) -> Option<Layout<'v, 'a>> {
    let pointer = first_of_pair(&whole.member("__ptr_")?).filter(Field::is_pointer)?;
    let target = Target::pointer(pointer, template_type(&whole.kind, "_Tp"));
    Some(Layout::Owner(Owner { target, counts: None }))
}

/// `std::shared_ptr` and `std::weak_ptr`, whose counts are those of further owners.
pub(super) fn shared_ptr<'v, 'a>(whole: &Field<'v, 'a>) -> Option<Layout<'v, 'a>> {
    let pointer = whole.member("__ptr_").filter(Field::is_pointer)?;
    let control = whole.member("__cntrl_")?;
    let block = Field::whole(&control.target()?);
    let (uses, weak) = (block.member("__shared_owners_")?, block.member("__shared_weak_owners_")?);
    let counts = Counts { control, uses, weak, uses_from: -1, weak_from: 0 };
    let target = Target::pointer(pointer, template_type(&whole.kind, "_Tp"));
    Some(Layout::Owner(Owner { target, counts: Some(counts) }))
}

/// `std::tuple`: each element is in a base that is made for its index.
pub(super) fn tuple<'v, 'a>(whole: &Field<'v, 'a>) -> Option<Layout<'v, 'a>> {
    let all = whole.member("__base_")?;
    let count = Some(count_of_bases(&all.kind)).filter(|count| (1..=MAX_CHOICES).contains(count))?;
    let elements = (0..count as u64).map(|index| all.member_of_base(index, "__value_"));
    elements.collect::<Option<_>>().map(Layout::Fields)
}

/// `std::list`: a ring of nodes, which the list itself closes.
pub(super) fn list<'v, 'a>(whole: &Field<'v, 'a>) -> Option<Layout<'v, 'a>> {
    let header = whole.member("__end_")?;
    let count = first_of_pair(&whole.member("__size_alloc_")?)?;
    let node = Field::whole(&target_of(&named_type(&whole.kind, "__node_pointer")?)?);
    let walk = Walk::Ring { first: header.member("__next_")?, next: node.member("__next_")?, header };
    let entry = Entry { key: node.member("__value_")?, value: None };
    Some(Layout::Association(Association { count, walk, entry }))
}

/// `std::deque`. How many elements a block has is a number for which its iterators are made.
pub(super) fn deque<'v, 'a>(whole: &Field<'v, 'a>) -> Option<Layout<'v, 'a>> {
    let map = whole.member("__map_")?;
    let pointer = |name: &str| map.member(name).filter(Field::is_pointer);
    let (begin, end) = (pointer("__begin_")?, pointer("__end_")?);
    let element = target_of(&begin.target()?)?;
    let in_block = template_number(&named_type(&whole.kind, "iterator")?, "_BS").filter(|count| *count > 0)?;
    let count = first_of_pair(&whole.member("__size_")?)?;
    Some(Layout::Pages(Pages { begin, end, skipped: whole.member("__start_")?, count, in_block, element }))
}

/// `std::map`, `std::set`, and those that may have equal keys.
pub(super) fn tree<'v, 'a>(whole: &Field<'v, 'a>, entries: Entries) -> Option<Layout<'v, 'a>> {
    let tree = whole.member("__tree_")?;
    let count = first_of_pair(&tree.member("__pair3_")?)?;
    let root = first_of_pair(&tree.member("__pair1_")?)?.member("__left_")?;
    let node = Field::whole(&target_of(&named_type(&tree.kind, "__node_pointer")?)?);
    let walk = Walk::Tree { root, left: node.member("__left_")?, right: node.member("__right_")? };
    let entry = entry_of_node(&node, entries)?;
    Some(Layout::Association(Association { count, walk, entry }))
}

/// `std::unordered_map`, `std::unordered_set`, and those that may have equal keys.
pub(super) fn hash_table<'v, 'a>(whole: &Field<'v, 'a>, entries: Entries) -> Option<Layout<'v, 'a>> {
    let table = whole.member("__table_")?;
    let count = first_of_pair(&table.member("__p2_")?)?;
    let first = first_of_pair(&table.member("__p1_")?)?.member("__next_")?;
    let node = Field::whole(&target_of(&named_type(&table.kind, "__node_pointer")?)?);
    let walk = Walk::Chain { first, next: node.member("__next_")? };
    let entry = entry_of_node(&node, entries)?;
    Some(Layout::Association(Association { count, walk, entry }))
}

/// What a node has. The pair of a map is in a structure of its own.
fn entry_of_node<'v, 'a>(node: &Field<'v, 'a>, entries: Entries) -> Option<Entry<'v, 'a>> {
    let held = node.member("__value_")?;
    let pair = ["__cc", "__cc_"].into_iter().filter(|_| entries == Entries::Pairs).find_map(|name| held.member(name));
    Entry::of(&pair.unwrap_or(held), entries)
}
