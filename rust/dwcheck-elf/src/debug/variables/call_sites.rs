//! What callers know of parameters: the values at the entry of a function, by the call site of its caller
//! (DWARF 5, section 3.4).

use super::location::Locator;
use super::scopes::die_id;
use super::value_location::{Missing, ValueLocation};
use crate::debug::debug_info::{Die, Slice};
use dwcheck_types::codes::op;
use gimli::{AttributeValue, DwAt};
use std::rc::Rc;

impl<'v, 'a> Locator<'v, 'a> {
    /// The value that a register, or what an expression describes, had when the function was entered.
    pub(super) fn entry_value(&self, expression: &[u8]) -> Option<u64> {
        self.value_by_caller(|parameter| {
            let location = parameter.attribute(gimli::DW_AT_location);
            matches!(location, Some(AttributeValue::Exprloc(found)) if found.0.slice() == expression)
        })
    }

    /// The value of a parameter that only the caller knows.
    pub(super) fn parameter_at_call_site(&self, parameter: &Die<'v, 'a>) -> Option<u64> {
        let wanted = die_id(parameter);
        self.value_by_caller(|found| {
            let names = [gimli::DW_AT_call_parameter, gimli::DW_AT_abstract_origin];
            names.into_iter().filter_map(|name| found.referred_entry(name)).any(|one| die_id(&one) == wanted)
        })
    }

    /// The value of the parameter of the caller's call site for which `is_wanted` is true. `None` if the call
    /// site's target isn't this function, as after a tail call.
    fn value_by_caller(&self, is_wanted: impl Fn(&Die<'v, 'a>) -> bool) -> Option<u64> {
        let caller = self.frame.caller()?;
        let variables = self.variables;
        let function = variables.functions.function(&variables.units, caller.looked_up())?;
        let site = call_site_returning_to(&function, caller.address())?;
        let locator = self.of_caller(function, caller)?;
        if !self.is_called_by(&site, &locator) {
            return None;
        }
        let parameter = site.children().into_iter().find(is_wanted)?;
        let value = call_site_expression(&parameter, gimli::DW_AT_call_value, gimli::DW_AT_GNU_call_site_value)?;
        locator.computed_at_call_site(&parameter, value.slice()).ok()
    }

    /// The value of an expression that isn't a location.
    pub(super) fn computed_at_call_site(&self, die: &Die<'v, 'a>, expression: &[u8]) -> Result<u64, Missing> {
        match self.evaluate_expression(die, &[expression, &[op::STACK_VALUE]].concat())? {
            ValueLocation::Value(value) => Ok(value),
            _ => Err(Missing::Unsupported("a result of this kind")),
        }
    }

    /// Whether a call site calls this function.
    fn is_called_by(&self, site: &Die<'v, 'a>, caller: &Locator<'v, 'a>) -> bool {
        let origin =
            site.referred_entry(gimli::DW_AT_call_origin).or_else(|| site.referred_entry(gimli::DW_AT_abstract_origin));
        if let Some(origin) = origin {
            return is_same_function(&self.function, &origin);
        }
        let target = call_site_expression(site, gimli::DW_AT_call_target, gimli::DW_AT_GNU_call_site_target);
        let target = target.and_then(|target| caller.computed_at_call_site(site, target.slice()).ok());
        let entry = self.function.attribute(gimli::DW_AT_low_pc);
        let entry = entry.and_then(|entry| self.variables.units.dwarf.attr_address(&self.function.unit, entry).ok()?);
        let entry = entry.map(|entry| self.variables.target.wrap(entry.wrapping_add(self.frame.load)));
        target.is_some() && target == entry
    }
}

fn call_site_expression<'a>(die: &Die<'_, 'a>, name: DwAt, other: DwAt) -> Option<Slice<'a>> {
    match die.attribute(name).or_else(|| die.attribute(other))? {
        AttributeValue::Exprloc(expression) => Some(expression.0),
        AttributeValue::Block(block) => Some(block),
        _ => None,
    }
}

/// Whether two entries are of one function: they have a common origin, or they are of different units and
/// have the name of an external function in common.
fn is_same_function(one: &Die<'_, '_>, other: &Die<'_, '_>) -> bool {
    let places: Vec<_> = one.origins().map(|die| die_id(&die)).collect();
    if other.origins().any(|die| places.contains(&die_id(&die))) {
        return true;
    }
    let external = |die: &Die<'_, '_>| {
        die.inherited(gimli::DW_AT_external)?;
        let name = die.inherited(gimli::DW_AT_linkage_name).or_else(|| die.inherited(gimli::DW_AT_name));
        name.and_then(|(holder, value)| holder.string(value))
    };
    matches!((external(one), external(other)), (Some(one), Some(other)) if one == other)
}

/// The call site of a function that returns to an address.
pub(super) fn call_site_returning_to<'u, 'a>(function: &Die<'u, 'a>, return_address: u64) -> Option<Die<'u, 'a>> {
    let unit = Rc::clone(&function.unit);
    let mut entries = unit.entries_raw(Some(function.offset)).ok()?;
    loop {
        let offset = entries.next_offset();
        let abbreviation = match entries.read_abbreviation().ok()? {
            Some(abbreviation) => abbreviation,
            None if entries.next_depth() <= 0 => return None,
            None => continue,
        };
        entries.skip_attributes(abbreviation.attributes()).ok()?;
        if matches!(abbreviation.tag(), gimli::DW_TAG_call_site | gimli::DW_TAG_GNU_call_site) {
            let site = Die { offset, ..function.clone() };
            if return_address_of_site(&site) == Some(return_address) {
                return Some(site);
            }
        }
        if entries.is_empty() || entries.next_depth() <= 0 {
            return None;
        }
    }
}

/// Where a call site returns to.
pub(super) fn return_address_of_site(site: &Die<'_, '_>) -> Option<u64> {
    let value = site.attribute(gimli::DW_AT_call_return_pc).or_else(|| site.attribute(gimli::DW_AT_low_pc))?;
    site.units.dwarf.attr_address(&site.unit, value).ok()?
}
