//! Members of types, looked up by their names, and what templates are made for.

use crate::debug::debug_info::Die;
use crate::debug::variables::types::{is_pointer_tag, number_attribute, type_of, type_size, unqualified_type};
use crate::debug::variables::value::bits::first_bit_of_field;
use crate::debug::variables::value::{is_member_entry, Part};
use gimli::{DwAt, DwTag};

/// How many structures are searched for a member. In a hostile file, a structure can have itself as a base.
const MAX_SEARCHED: usize = 64;

/// The names of the numbers for which bases of pairs and tuples are made.
const INDEXES: [&str; 2] = ["_Idx", "_Ip"];

/// A member of a type, which may be deep inside of it.
#[derive(Clone)]
pub(super) struct Field<'v, 'a> {
    /// The type of the member.
    pub kind: Die<'v, 'a>,
    /// Where it begins.
    offset: usize,
    /// The first bit and the number of bits, if it is a member of bits.
    bits: Option<(u32, u32)>,
}

impl<'v, 'a> Field<'v, 'a> {
    /// All of a type.
    pub fn whole(kind: &Die<'v, 'a>) -> Self {
        Field { kind: kind.clone(), offset: 0, bits: None }
    }

    /// The same place, as a value of another type.
    pub fn of_type(&self, kind: Die<'v, 'a>) -> Self {
        Field { kind, ..self.clone() }
    }

    /// The member with a name: of the type itself, of a structure in it that has no name, or of a base.
    pub fn member(&self, name: &str) -> Option<Self> {
        self.search(&|_, member| member.name().as_deref() == Some(name), &mut MAX_SEARCHED.clone())
    }

    /// The member with a name of the base that is made for an index, as tuples and pairs have bases.
    pub fn member_of_base(&self, index: u64, name: &str) -> Option<Self> {
        let is_made_for = |class: &Die<'v, 'a>| INDEXES.iter().any(|name| template_number(class, name) == Some(index));
        let is_wanted =
            |class: &Die<'v, 'a>, member: &Die<'v, 'a>| member.name().as_deref() == Some(name) && is_made_for(class);
        self.search(&is_wanted, &mut MAX_SEARCHED.clone())
    }

    /// What is in an `Option` of Rust, if anything is.
    pub fn some(&self) -> Option<Self> {
        let kind = unqualified_type(&self.kind)?;
        let inner = |die: &Die<'v, 'a>, tag: DwTag| {
            let mut children = die.children();
            children.retain(|child| child.tag() == Some(tag));
            children
        };
        let parts = inner(&kind, gimli::DW_TAG_variant_part);
        let variants = parts.iter().flat_map(|part| inner(part, gimli::DW_TAG_variant));
        let mut members = variants.flat_map(|variant| inner(&variant, gimli::DW_TAG_member));
        let some = members.find(|member| member.name().as_deref() == Some("Some"))?;
        self.at(&some)?.member("__0")
    }

    /// A member of a member, and so on.
    pub fn path(&self, names: &[&str]) -> Option<Self> {
        names.iter().try_fold(self.clone(), |field, name| field.member(name))
    }

    fn search(&self, is_wanted: &dyn Fn(&Die<'v, 'a>, &Die<'v, 'a>) -> bool, left: &mut usize) -> Option<Self> {
        *left = left.checked_sub(1)?;
        let class = unqualified_type(&self.kind)?;
        let mut members = class.children();
        members.retain(is_member_entry);
        let is_base = |one: &Die<'v, 'a>| one.tag() == Some(gimli::DW_TAG_inheritance);
        if let Some(found) = members.iter().find(|one| !is_base(one) && is_wanted(&class, one)) {
            return self.at(found);
        }
        let mut inner = members.iter().filter(|one| is_base(one) || one.name().is_none());
        inner.find_map(|one| self.at(one)?.search(is_wanted, left))
    }

    /// A member of the type. `None` if its place isn't a constant.
    fn at(&self, member: &Die<'v, 'a>) -> Option<Self> {
        let kind = type_of(member)?;
        let begin = match member.attribute(gimli::DW_AT_data_member_location) {
            Some(begin) => usize::try_from(begin.udata_value()?).ok()?,
            None => 0,
        };
        let mut field = Field { kind, offset: self.offset.checked_add(begin)?, bits: None };
        if let Some(bits) = number_attribute(member, gimli::DW_AT_bit_size) {
            let first = first_bit_of_field(member, &field.kind, bits)?;
            field.offset = field.offset.checked_add(usize::try_from(first / 8).ok()?)?;
            field.bits = Some(((first % 8) as u32, u32::try_from(bits).ok()?));
        }
        Some(field)
    }

    /// The part of a variable that the member is.
    pub fn part<'p>(&self, of: Part<'p>) -> Part<'p> {
        Part { offset: of.offset.saturating_add(self.offset), ..of }
    }

    /// How many bytes after an address the member begins.
    pub fn after(&self, address: u64) -> u64 {
        address.wrapping_add(self.offset as u64)
    }

    /// The number of bytes that have the number in the member.
    pub fn number_bytes(&self) -> Option<usize> {
        match self.bits {
            Some((first, count)) => usize::try_from((first + count + 7) / 8).ok(),
            None => usize::try_from(type_size(&self.kind)?).ok(),
        }
        .filter(|bytes| (1..=8).contains(bytes))
    }

    /// The number in the member, by that in its bytes.
    pub fn of_bits(&self, number: u64) -> u64 {
        match self.bits {
            Some((first, count)) if count < 64 => number >> first & ((1 << count) - 1),
            _ => number,
        }
    }

    /// The size of the member's type.
    pub fn size(&self) -> Option<u64> {
        type_size(&self.kind)
    }

    /// Whether the member is a pointer.
    pub fn is_pointer(&self) -> bool {
        let kind = unqualified_type(&self.kind);
        kind.and_then(|kind| kind.tag()).map_or(false, is_pointer_tag)
    }

    /// What the pointer in the member leads to.
    pub fn target(&self) -> Option<Die<'v, 'a>> {
        target_of(&self.kind)
    }
}

/// What a type of pointers leads to. `None` if it isn't one, or for `void *`.
pub(super) fn target_of<'v, 'a>(kind: &Die<'v, 'a>) -> Option<Die<'v, 'a>> {
    let pointer = unqualified_type(kind)?;
    pointer.tag().filter(|tag| is_pointer_tag(*tag))?;
    type_of(&pointer)
}

/// The name of a type without what its template is made for.
pub(super) fn base_of_name(name: &str) -> &str {
    name.split('<').next().unwrap_or(name)
}

/// The type that a name stands for inside of a class, or inside of a base of it.
pub(super) fn named_type<'v, 'a>(class: &Die<'v, 'a>, name: &str) -> Option<Die<'v, 'a>> {
    type_of(&child(class, gimli::DW_TAG_typedef, name)?)
}

/// The type for which a template is made.
pub(super) fn template_type<'v, 'a>(class: &Die<'v, 'a>, name: &str) -> Option<Die<'v, 'a>> {
    type_of(&child(class, gimli::DW_TAG_template_type_parameter, name)?)
}

/// What the elements of the array in a member are.
pub(super) fn target_of_array<'v, 'a>(array: &Field<'v, 'a>) -> Option<Die<'v, 'a>> {
    let kind = unqualified_type(&array.kind).filter(|kind| kind.tag() == Some(gimli::DW_TAG_array_type))?;
    type_of(&kind)
}

/// The number for which a template is made.
pub(super) fn template_number(class: &Die<'_, '_>, name: &str) -> Option<u64> {
    number_attribute(&child(class, gimli::DW_TAG_template_value_parameter, name)?, gimli::DW_AT_const_value)
}

/// The base of a class that has a name, without what its template is made for.
pub(super) fn base_with_name<'v, 'a>(class: &Die<'v, 'a>, name: &str) -> Option<Die<'v, 'a>> {
    let bases = unqualified_type(class)?.children();
    let bases = bases.iter().filter(|one| one.tag() == Some(gimli::DW_TAG_inheritance)).filter_map(type_of);
    bases.filter_map(|base| unqualified_type(&base)).find(|base| {
        let found = base.name();
        found.map_or(false, |found| base_of_name(&found) == name)
    })
}

/// How many bases a class has.
pub(super) fn count_of_bases(class: &Die<'_, '_>) -> usize {
    let children = unqualified_type(class).map_or_else(Vec::new, |class| class.children());
    children.iter().filter(|one| one.tag() == Some(gimli::DW_TAG_inheritance)).count()
}

/// A constant that is a member of a class.
pub(super) fn constant_of_class(class: &Die<'_, '_>, name: &str) -> Option<u64> {
    let has_value = |die: &Die<'_, '_>, name: DwAt| die.attribute(name).is_some();
    let mut members = class.children().into_iter().filter(|one| has_value(one, gimli::DW_AT_const_value));
    members.find_map(|one| {
        one.name().filter(|found| found == name).and_then(|_| number_attribute(&one, gimli::DW_AT_const_value))
    })
}

fn child<'v, 'a>(class: &Die<'v, 'a>, tag: DwTag, name: &str) -> Option<Die<'v, 'a>> {
    let class = unqualified_type(class)?;
    class.children().into_iter().find(|one| one.tag() == Some(tag) && one.name().as_deref() == Some(name))
}
