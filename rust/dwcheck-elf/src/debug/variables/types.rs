//! The types of variables: their names, their sizes, dimensions and indexes of arrays, languages, and what a type is
//! without other names and qualifiers.

use crate::debug::debug_info::Die;
use gimli::{AttributeValue, DwTag};

/// How many types are passed on the way to the one that a name or a qualifier stands for.
pub(super) const MAX_TYPES: usize = 32;

/// The most bytes and the most elements of an array.
pub(super) const MAX_SIZE: u64 = 1 << 40;

/// The type of a variable or a member, or of what a type points to. `None` for `void`.
pub(super) fn type_of<'u, 'a>(die: &Die<'u, 'a>) -> Option<Die<'u, 'a>> {
    let (holder, value) = die.inherited(gimli::DW_AT_type)?;
    holder.at(value)
}

/// The type that a name such as `size_t` or a qualifier such as `const` stands for. If it is only declared here, and
/// is defined in another unit, it is the one of that unit.
pub(super) fn unqualified_type<'u, 'a>(of: &Die<'u, 'a>) -> Option<Die<'u, 'a>> {
    let found = other_names(of).find(|die| !die.tag().map_or(false, is_other_name))?;
    Some(found.units.definition_of_type(found))
}

/// A type, then those that it is another name of, or that it qualifies.
pub(super) fn other_names<'u, 'a>(of: &Die<'u, 'a>) -> impl Iterator<Item = Die<'u, 'a>> {
    let next = |die: &Die<'u, 'a>| die.tag().filter(|tag| is_other_name(*tag)).and_then(|_| type_of(die));
    std::iter::successors(Some(of.clone()), next).take(MAX_TYPES)
}

fn is_other_name(tag: DwTag) -> bool {
    matches!(
        tag,
        gimli::DW_TAG_typedef
            | gimli::DW_TAG_const_type
            | gimli::DW_TAG_volatile_type
            | gimli::DW_TAG_restrict_type
            | gimli::DW_TAG_atomic_type
            | gimli::DW_TAG_immutable_type
    )
}

/// A number that an attribute of a type has. Forms of a fixed size, such as `DW_FORM_data1`, are unsigned, as
/// gcc writes them. `None` if it is an expression or isn't there.
pub(super) fn number_attribute(die: &Die<'_, '_>, name: gimli::DwAt) -> Option<u64> {
    let value = die.attribute(name)?;
    value.udata_value().or_else(|| value.sdata_value().map(|number| number as u64))
}

/// The size of a type in bytes. `None` if it isn't a constant.
pub(super) fn type_size(of: &Die<'_, '_>) -> Option<u64> {
    type_size_within(of, MAX_TYPES)
}

/// The same for a type that consists of at most `left` types inside each other that have no size of their own.
fn type_size_within(of: &Die<'_, '_>, left: usize) -> Option<u64> {
    let die = unqualified_type(of)?;
    if let Some(size) = number_attribute(&die, gimli::DW_AT_byte_size) {
        return Some(size);
    }
    let inner = || type_size_within(&type_of(&die)?, left.checked_sub(1)?);
    let address_size = u64::from(die.unit.encoding().address_size);
    match die.tag()? {
        gimli::DW_TAG_array_type => {
            let count = array_dimensions(&die).into_iter().try_fold(1u64, |all, count| all.checked_mul(count?))?;
            inner()?.checked_mul(count).filter(|size| *size <= MAX_SIZE)
        }
        gimli::DW_TAG_enumeration_type => inner(),
        // The ABI of C++ has two words for a function.
        gimli::DW_TAG_ptr_to_member_type if is_function_type(&unqualified_type(&type_of(&die)?)?) => {
            address_size.checked_mul(2)
        }
        gimli::DW_TAG_ptr_to_member_type => Some(address_size),
        tag if is_pointer_tag(tag) => Some(address_size),
        _ => None,
    }
}

/// Whether a type is a pointer or a reference.
pub(super) fn is_pointer_tag(tag: DwTag) -> bool {
    tag == gimli::DW_TAG_pointer_type || is_reference_tag(tag)
}

/// Whether a type is a reference of C++.
pub(super) fn is_reference_tag(tag: DwTag) -> bool {
    matches!(tag, gimli::DW_TAG_reference_type | gimli::DW_TAG_rvalue_reference_type)
}

/// Whether a type is that of a function.
pub(super) fn is_function_type(kind: &Die<'_, '_>) -> bool {
    kind.tag() == Some(gimli::DW_TAG_subroutine_type)
}

/// The dimensions of an array.
pub(super) fn array_subranges<'u, 'a>(array: &Die<'u, 'a>) -> Vec<Die<'u, 'a>> {
    let mut children = array.children();
    children.retain(|child| child.tag() == Some(gimli::DW_TAG_subrange_type));
    children
}

/// The number of elements in each dimension of an array. `None` for one that isn't a constant.
pub(super) fn array_dimensions(array: &Die<'_, '_>) -> Vec<Option<u64>> {
    array_subranges(array).iter().map(constant_length).collect()
}

/// The number of elements in a dimension, if that is a constant.
pub(super) fn constant_length(range: &Die<'_, '_>) -> Option<u64> {
    if let Some(count) = number_attribute(range, gimli::DW_AT_count) {
        return Some(count);
    }
    let bound = |name| number_attribute(range, name).map(|bound| bound as i64);
    let upper = bound(gimli::DW_AT_upper_bound)?;
    let lower = if has_lowest_index(range) { bound(gimli::DW_AT_lower_bound)? } else { lowest_index(range) };
    u64::try_from(upper.checked_sub(lower)?.checked_add(1)?).ok()
}

/// Whether a dimension says which index its first element has.
pub(super) fn has_lowest_index(range: &Die<'_, '_>) -> bool {
    range.attribute(gimli::DW_AT_lower_bound).is_some()
}

/// The index of the first element where the language says it: 1 in Fortran and Ada, else 0.
pub(super) fn lowest_index(range: &Die<'_, '_>) -> i64 {
    let is_ada = matches!(language_of_unit(range), Some(gimli::DW_LANG_Ada83 | gimli::DW_LANG_Ada95));
    i64::from(is_ada || is_fortran(range))
}

/// Whether an entry is of a unit in Fortran.
pub(super) fn is_fortran(die: &Die<'_, '_>) -> bool {
    matches!(
        language_of_unit(die),
        Some(
            gimli::DW_LANG_Fortran77
                | gimli::DW_LANG_Fortran90
                | gimli::DW_LANG_Fortran95
                | gimli::DW_LANG_Fortran03
                | gimli::DW_LANG_Fortran08
        )
    )
}

/// The language of an entry's unit.
fn language_of_unit(die: &Die<'_, '_>) -> Option<gimli::DwLang> {
    let root = Die { offset: gimli::UnitOffset(die.unit.header.header_size()), ..die.clone() };
    match root.attribute(gimli::DW_AT_language)? {
        AttributeValue::Language(language) => Some(language),
        _ => None,
    }
}

/// Whether the elements of an array that differ in the first dimension are next to each other, as in Fortran.
pub(super) fn is_column_major(array: &Die<'_, '_>) -> bool {
    match array.attribute(gimli::DW_AT_ordering) {
        Some(AttributeValue::Ordering(ordering)) => ordering == gimli::DW_ORD_col_major,
        _ => is_fortran(array),
    }
}

/// The name of a type as C writes it, such as `const char *`.
pub(super) fn type_name(of: Option<Die<'_, '_>>) -> String {
    type_name_within(of, MAX_TYPES)
}

fn type_name_within(of: Option<Die<'_, '_>>, left: usize) -> String {
    let die = match of {
        Some(die) if left > 0 => die,
        Some(_) => return "..".to_string(),
        None => return "void".to_string(),
    };
    let inner = || type_name_within(type_of(&die), left - 1);
    let own = || die.name().unwrap_or_else(|| "{..}".to_string());
    match die.tag() {
        Some(gimli::DW_TAG_pointer_type) => die.name().unwrap_or_else(|| pointer_type_name(inner(), "*")),
        Some(gimli::DW_TAG_reference_type) => pointer_type_name(inner(), "&"),
        Some(gimli::DW_TAG_rvalue_reference_type) => pointer_type_name(inner(), "&&"),
        Some(gimli::DW_TAG_ptr_to_member_type) => {
            let class = die.referred_entry(gimli::DW_AT_containing_type).and_then(|class| class.name());
            format!("{} {}::*", inner(), class.unwrap_or_default())
        }
        Some(gimli::DW_TAG_const_type) => qualified_name(&die, "const", inner()),
        Some(gimli::DW_TAG_volatile_type) => qualified_name(&die, "volatile", inner()),
        Some(gimli::DW_TAG_restrict_type) => format!("{} restrict", inner()),
        Some(gimli::DW_TAG_atomic_type) => format!("_Atomic {}", inner()),
        Some(gimli::DW_TAG_array_type) => {
            let count = |count: Option<u64>| count.map_or_else(|| "[]".to_string(), |count| format!("[{}]", count));
            let counts: String = array_dimensions(&die).into_iter().map(count).collect();
            die.name().unwrap_or_else(|| format!("{} {}", inner(), counts))
        }
        Some(gimli::DW_TAG_string_type) => {
            let size = type_size(&die).map_or_else(|| "*".to_string(), |size| size.to_string());
            die.name().unwrap_or_else(|| format!("character({})", size))
        }
        Some(gimli::DW_TAG_subroutine_type) => format!("{} ()", inner()),
        Some(gimli::DW_TAG_structure_type) => aggregate_type_name(&die, "struct ", own()),
        Some(gimli::DW_TAG_union_type) => aggregate_type_name(&die, "union ", own()),
        Some(gimli::DW_TAG_enumeration_type) => aggregate_type_name(&die, "enum ", own()),
        _ => own(),
    }
}

/// C writes a qualifier after the sign of a pointer, and before any other type.
fn qualified_name(die: &Die<'_, '_>, qualifier: &str, inner: String) -> String {
    let is_signed = type_of(die).and_then(|of| Some(is_pointer_tag(of.tag()?) && of.name().is_none()));
    if is_signed == Some(true) {
        format!("{} {}", inner, qualifier)
    } else {
        format!("{} {}", qualifier, inner)
    }
}

fn pointer_type_name(inner: String, sign: &str) -> String {
    if inner.ends_with('*') {
        format!("{}{}", inner, sign)
    } else {
        format!("{} {}", inner, sign)
    }
}

/// C writes the kind of a structure before its name. Other languages don't.
fn aggregate_type_name(die: &Die<'_, '_>, kind: &str, name: String) -> String {
    let root = Die { offset: gimli::UnitOffset(die.unit.header.header_size()), ..die.clone() };
    let is_c = match root.attribute(gimli::DW_AT_language) {
        Some(AttributeValue::Language(language)) => matches!(
            language,
            gimli::DW_LANG_C | gimli::DW_LANG_C89 | gimli::DW_LANG_C99 | gimli::DW_LANG_C11 | gimli::DW_LANG_C17
        ),
        _ => false,
    };
    if is_c {
        format!("{}{}", kind, name)
    } else {
        name
    }
}
