//! Finds the functions that ended with a jump (tail calls) between a call and the function that it has led to, where
//! call sites prove which ones these are (DWARF 5, section 3.4): gdb's rule, for the case that there is exactly one
//! way.

use super::call_sites::{call_site_returning_to, return_address_of_site};
use super::functions::{begin_of, FunctionIndex};
use super::scopes::die_id;
use crate::debug::debug_info::{ranges_of, Die, Units, UnitsByAddress};
use gimli::DwAt;
use std::rc::Rc;

/// The most call sites that are followed. More of them are hardly one way.
const MOST_FOLLOWED: usize = 1000;

/// The most functions on a way. Each has a frame.
const LONGEST_WAY: usize = 100;

/// A jump to another function at the end of a function.
#[derive(Clone, Copy, Debug, PartialEq, Eq)]
pub struct TailCall {
    /// The address of the jump, or the one after it, in the file.
    pub address: u64,
    /// Whether the address is the one after the jump.
    pub is_after: bool,
}

/// The functions of a program with their call sites.
pub(crate) struct CallSites<'a> {
    units: Units<'a>,
    functions: FunctionIndex,
}

/// What call sites say isn't enough: a target isn't known, a function has no debug information, or there are several
/// ways.
struct Unproved;

/// A search for the ways from a call to a function.
struct Search<'v, 'a, N> {
    sites: &'v CallSites<'a>,
    /// The address of a function by its name, as linkers see it.
    named: N,
    /// The first address of the function that was reached.
    wanted: u64,
    /// The jumps on the way that is followed, the first one first.
    way: Vec<(Die<'v, 'a>, TailCall)>,
    /// The way that was found.
    found: Option<Vec<TailCall>>,
    /// How many call sites may still be followed.
    left: usize,
}

impl<'a> CallSites<'a> {
    /// Those of units.
    pub(crate) fn of(UnitsByAddress { units, ranges }: UnitsByAddress<'a>) -> Self {
        CallSites { units, functions: FunctionIndex::of_ranges(ranges) }
    }

    /// The jumps between the call that returns to an address and the function that has the address `reached`, the first
    /// one first, if call sites prove them. Addresses are those of the file. `named` gives the address of a function by
    /// its name, as linkers see it. Empty if nothing is proved, or nothing jumped.
    pub(crate) fn tail_calls(
        &self,
        return_address: u64,
        reached: u64,
        named: impl Fn(&str) -> Option<u64>,
    ) -> Vec<TailCall> {
        let function = |address| self.functions.function(&self.units, address);
        let site = function(return_address.wrapping_sub(1))
            .and_then(|function| call_site_returning_to(&function, return_address));
        let wanted = function(reached).and_then(|function| begin_of(&function));
        let (site, wanted) = match (site, wanted) {
            (Some(site), Some(wanted)) => (site, wanted),
            _ => return Vec::new(),
        };
        let (way, found) = (Vec::new(), None);
        let mut search = Search { sites: self, named, wanted, way, found, left: MOST_FOLLOWED };
        search.follow(&site).ok().and(search.found).unwrap_or_default()
    }
}

impl<'v, 'a, N> Search<'v, 'a, N>
where
    N: Fn(&str) -> Option<u64>,
{
    /// Follows a call or a jump to its target, and the jumps of that function to theirs.
    fn follow(&mut self, site: &Die<'v, 'a>) -> Result<(), Unproved> {
        self.left = self.left.checked_sub(1).ok_or(Unproved)?;
        let targets = self.targets(site)?;
        if targets.contains(&self.wanted) {
            let way = self.way.iter().map(|(_, jump)| *jump).collect();
            return self.found.replace(way).map_or(Ok(()), |_| Err(Unproved));
        }
        for target in targets {
            for (jump, place) in self.jumps_of(target)? {
                // A way that takes a jump twice isn't followed.
                if self.way.iter().any(|(other, _)| die_id(other) == die_id(&jump)) {
                    continue;
                }
                if self.way.len() >= LONGEST_WAY {
                    return Err(Unproved);
                }
                self.way.push((jump.clone(), place));
                self.follow(&jump)?;
                self.way.pop();
            }
        }
        Ok(())
    }

    /// The first addresses of the function that a call site names: one for each part of it.
    fn targets(&self, site: &Die<'v, 'a>) -> Result<Vec<u64>, Unproved> {
        let has = |name: DwAt| site.attribute(name).is_some();
        if has(gimli::DW_AT_call_target) || has(gimli::DW_AT_GNU_call_site_target) {
            return Err(Unproved);
        }
        let function = site.referred_entry(gimli::DW_AT_call_origin);
        let function = function.or_else(|| site.referred_entry(gimli::DW_AT_abstract_origin)).ok_or(Unproved)?;
        if function.attribute(gimli::DW_AT_declaration).is_some() {
            let name = function.inherited(gimli::DW_AT_linkage_name).or_else(|| function.inherited(gimli::DW_AT_name));
            let name = name.and_then(|(holder, value)| holder.string(value)).ok_or(Unproved)?;
            return (self.named)(&name).map(|address| vec![address]).ok_or(Unproved);
        }
        let parts: Vec<u64> =
            function.ranges().map_or_else(Vec::new, ranges_of).iter().map(|part| part.start).collect();
        Some(parts).filter(|parts| !parts.is_empty()).ok_or(Unproved)
    }

    /// The jumps at the ends of the function that begins at an address, if the debug information has all of them.
    fn jumps_of(&self, address: u64) -> Result<Vec<(Die<'v, 'a>, TailCall)>, Unproved> {
        let CallSites { functions, units } = self.sites;
        let function = functions.function(units, address).ok_or(Unproved)?;
        let has = |name: DwAt| function.inherited(name).is_some();
        let has_all_calls = has(gimli::DW_AT_call_all_calls) || has(gimli::DW_AT_GNU_all_call_sites);
        let has_all_jumps = has(gimli::DW_AT_call_all_tail_calls) || has(gimli::DW_AT_GNU_all_tail_call_sites);
        if begin_of(&function) != Some(address) || !has_all_calls && !has_all_jumps {
            return Err(Unproved);
        }
        jumps_in(&function).ok_or(Unproved)
    }
}

/// The call sites of a function that are jumps, and where they are. `None` if the debug information can't be read.
fn jumps_in<'u, 'a>(function: &Die<'u, 'a>) -> Option<Vec<(Die<'u, 'a>, TailCall)>> {
    let unit = Rc::clone(&function.unit);
    let mut entries = unit.entries_raw(Some(function.offset)).ok()?;
    let (mut jumps, mut other) = (Vec::new(), None);
    loop {
        let (offset, depth) = (entries.next_offset(), entries.next_depth());
        if let Some(abbreviation) = entries.read_abbreviation().ok()? {
            entries.skip_attributes(abbreviation.attributes()).ok()?;
            // Another function may be defined in this one.
            other = other.filter(|outer| depth > *outer);
            if depth > 0 && other.is_none() && abbreviation.tag() == gimli::DW_TAG_subprogram {
                other = Some(depth);
            }
            let is_site = matches!(abbreviation.tag(), gimli::DW_TAG_call_site | gimli::DW_TAG_GNU_call_site);
            let site = Die { offset, ..function.clone() };
            if other.is_none() && is_site && is_jump(&site) {
                let place = place_of_jump(&site)?;
                jumps.push((site, place));
            }
        }
        if entries.is_empty() || entries.next_depth() <= 0 {
            return Some(jumps);
        }
    }
}

fn is_jump(site: &Die<'_, '_>) -> bool {
    let has = |name: DwAt| site.attribute(name).is_some();
    has(gimli::DW_AT_call_tail_call) || has(gimli::DW_AT_GNU_tail_call)
}

/// Where a jump is. gcc has the address after it, as for calls, and clang that of the jump itself.
fn place_of_jump(site: &Die<'_, '_>) -> Option<TailCall> {
    let before = || {
        let value = site.attribute(gimli::DW_AT_call_pc)?;
        site.units.dwarf.attr_address(&site.unit, value).ok()?
    };
    let after = return_address_of_site(site).map(|address| TailCall { address, is_after: true });
    after.or_else(|| before().map(|address| TailCall { address, is_after: false }))
}
