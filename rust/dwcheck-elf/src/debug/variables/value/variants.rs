//! Parts of structures of which only one is there, such as the variants of enums of Rust (DWARF 5, 5.7.10).

use super::numbers::{low_bytes, unsigned_number};
use super::Part;
use crate::debug::debug_info::Die;
use crate::debug::variables::location::Locator;
use crate::debug::variables::types::{number_attribute, type_of};
use crate::debug::variables::value_location::Missing;

impl<'v, 'a> Locator<'v, 'a> {
    /// What is there of the variants of a structure: the children of the one that the discriminant names, or
    /// else of the one that is for all other discriminants. Empty if there is neither.
    pub(super) fn chosen_variant(&self, variants: &Die<'v, 'a>, part: Part<'_>) -> Result<Vec<Die<'v, 'a>>, Missing> {
        let mut all = variants.children();
        all.retain(|one| one.tag() == Some(gimli::DW_TAG_variant));
        if all.iter().any(|one| one.attribute(gimli::DW_AT_discr_list).is_some()) {
            return Err(Missing::Unsupported("a variant for several discriminants"));
        }
        let named = match variants.referred_entry(gimli::DW_AT_discr) {
            Some(member) => {
                let (discriminant, width) = self.discriminant_value(&member, part)?;
                let held = |one: &&Die<'v, 'a>| number_attribute(one, gimli::DW_AT_discr_value);
                all.iter()
                    .find(|one| held(one).map_or(false, |held| low_bytes(u128::from(held), width) == discriminant))
            }
            None => None,
        };
        let is_for_others = |one: &&Die<'v, 'a>| one.attribute(gimli::DW_AT_discr_value).is_none();
        Ok(named.or_else(|| all.iter().find(is_for_others)).map_or_else(Vec::new, |one| one.children()))
    }

    /// The number that says which variant is there, and how many bytes it has.
    fn discriminant_value(&self, member: &Die<'v, 'a>, part: Part<'_>) -> Result<(u128, usize), Missing> {
        let kind = type_of(member).ok_or(Missing::Unsupported("no type"))?;
        let bytes = self.least_significant_first(self.number_bytes(&kind, self.place_of_member(member, part)?)?);
        Ok((unsigned_number(&bytes), bytes.len()))
    }
}
