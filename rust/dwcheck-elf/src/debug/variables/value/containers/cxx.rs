//! Which containers of C++ are known, by their names: those of libstdc++ and of libc++.

use super::fields::{template_type, Field};
use super::{libcxx, libstdcxx, Layout};
use crate::debug::variables::scopes::die_id;
use crate::debug::variables::types::{type_of, unqualified_type};

/// What keys have in a container.
#[derive(Clone, Copy, Debug, PartialEq, Eq)]
pub(super) enum Entries {
    /// Values, as in a map.
    Pairs,
    /// Nothing, as in a set.
    Keys,
}

/// The layout of a container with this name.
pub(super) fn layout<'v, 'a>(name: &str, whole: &Field<'v, 'a>) -> Option<Layout<'v, 'a>> {
    use Entries::{Keys, Pairs};
    let both = |gnu: Option<Layout<'v, 'a>>, llvm: &dyn Fn() -> Option<Layout<'v, 'a>>| gnu.or_else(llvm);
    match name {
        "basic_string" => both(libstdcxx::string(whole), &|| libcxx::string(whole)),
        "basic_string_view" => both(libstdcxx::string_view(whole), &|| libcxx::string_view(whole)),
        "vector" => both(libstdcxx::vector(whole), &|| libcxx::vector(whole)),
        "array" => array(whole),
        "optional" => both(libstdcxx::optional(whole), &|| libcxx::optional(whole)),
        "variant" => both(libstdcxx::variant(whole), &|| libcxx::variant(whole)),
        "unique_ptr" => both(libstdcxx::unique_ptr(whole), &|| libcxx::unique_ptr(whole)),
        "shared_ptr" => both(libstdcxx::shared_ptr(whole), &|| libcxx::shared_ptr(whole)),
        "weak_ptr" => both(libstdcxx::shared_ptr(whole), &|| libcxx::shared_ptr(whole)),
        "tuple" => both(libstdcxx::tuple(whole), &|| libcxx::tuple(whole)),
        "list" => both(libstdcxx::list(whole), &|| libcxx::list(whole)),
        "deque" => both(libstdcxx::deque(whole), &|| libcxx::deque(whole)),
        "map" | "multimap" => both(libstdcxx::tree(whole, Pairs), &|| libcxx::tree(whole, Pairs)),
        "set" | "multiset" => both(libstdcxx::tree(whole, Keys), &|| libcxx::tree(whole, Keys)),
        "unordered_map" | "unordered_multimap" => {
            both(libstdcxx::hash_table(whole, Pairs), &|| libcxx::hash_table(whole, Pairs))
        }
        "unordered_set" | "unordered_multiset" => {
            both(libstdcxx::hash_table(whole, Keys), &|| libcxx::hash_table(whole, Keys))
        }
        _ => None,
    }
}

/// `std::array`. One without elements has bytes of another type in their place.
fn array<'v, 'a>(whole: &Field<'v, 'a>) -> Option<Layout<'v, 'a>> {
    let elements = whole.member("_M_elems").or_else(|| whole.member("__elems_"))?;
    let row = unqualified_type(&elements.kind).filter(|row| row.tag() == Some(gimli::DW_TAG_array_type))?;
    let element = unqualified_type(&type_of(&row)?)?;
    let wanted = unqualified_type(&template_type(&whole.kind, "_Tp")?)?;
    (die_id(&element) == die_id(&wanted)).then_some(Layout::Only(elements))
}
