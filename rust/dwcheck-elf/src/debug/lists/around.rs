//! The functions and blocks around the entries of a unit that refer to location lists.

use crate::debug::debug_info::Slice;
use gimli::{Attribute, AttributeValue, DwTag, Dwarf, Unit};
use std::ops::Range;
use std::rc::Rc;

/// How many of the functions and blocks around an entry are looked at, the innermost first.
const MAX_DEPTH: usize = 256;

/// Addresses, ascending. Empty if they aren't known.
pub(crate) type Ranges = Rc<[Range<u64>]>;

/// What is around a variable.
#[derive(Clone, Debug)]
pub(crate) struct Around {
    /// The addresses of the innermost block or inlined function, or of the function itself.
    pub block: Ranges,
    /// The addresses of the function.
    pub function: Ranges,
    /// Whether the function has a frame base, as far as that is known.
    pub has_frame_base: bool,
}

/// The attributes of a function or block that are needed.
#[derive(Clone, Copy, Debug, Default)]
pub(crate) struct Bounds<'a> {
    low: Option<AttributeValue<Slice<'a>>>,
    high: Option<AttributeValue<Slice<'a>>>,
    ranges: Option<AttributeValue<Slice<'a>>>,
    has_frame_base: bool,
}

/// A function or block while its children are read.
struct Open<'a> {
    depth: isize,
    is_function: bool,
    bounds: Bounds<'a>,
    /// Its place among those that variables are in, once there is one.
    place: Option<usize>,
}

/// The functions and blocks around the current entry, and those in which variables were found.
pub(crate) struct Nesting<'a> {
    open: Vec<Open<'a>>,
    found: Vec<Around>,
    /// How many more ranges are read. Units of compilers have fewer than bytes.
    left: usize,
}

/// Whether an entry is a function or a block.
pub(crate) fn is_scope(tag: DwTag) -> bool {
    is_function_tag(tag) || matches!(tag, gimli::DW_TAG_inlined_subroutine | gimli::DW_TAG_lexical_block)
}

fn is_function_tag(tag: DwTag) -> bool {
    tag == gimli::DW_TAG_subprogram
}

impl<'a> Bounds<'a> {
    /// Notes an attribute, if it is one of those that are needed.
    pub fn note(&mut self, attribute: &Attribute<Slice<'a>>) {
        match attribute.name() {
            gimli::DW_AT_low_pc => self.low = Some(attribute.value()),
            gimli::DW_AT_high_pc => self.high = Some(attribute.value()),
            gimli::DW_AT_ranges => self.ranges = Some(attribute.value()),
            // An instance may have the frame base of what it is an instance of.
            gimli::DW_AT_frame_base | gimli::DW_AT_abstract_origin | gimli::DW_AT_specification => {
                self.has_frame_base = true;
            }
            _ => {}
        }
    }

    /// The addresses, at most `left` ranges of them, which are counted. `None` if they aren't known.
    fn read(self, dwarf: &Dwarf<Slice<'a>>, unit: &Unit<Slice<'a>>, left: &mut usize) -> Option<Vec<Range<u64>>> {
        let mut found = Vec::new();
        if let Some(ranges) = self.ranges {
            let mut ranges = dwarf.attr_ranges(unit, ranges).ok()??;
            while let Some(range) = ranges.next().ok()?.filter(|_| *left > 0) {
                found.push(range.begin..range.end);
                *left -= 1;
            }
        } else {
            let low = dwarf.attr_address(unit, self.low?).ok()??;
            let high = match self.high?.udata_value() {
                Some(length) => low.checked_add(length)?,
                None => dwarf.attr_address(unit, self.high?).ok()??,
            };
            found.push(low..high);
        }
        found.retain(|range| range.start < range.end);
        found.sort_unstable_by_key(|range| range.start);
        Some(found).filter(|found| !found.is_empty())
    }
}

impl<'a> Nesting<'a> {
    /// Before the first entry of a unit.
    pub fn of(unit: &Unit<Slice<'a>>) -> Self {
        Nesting { open: Vec::new(), found: Vec::new(), left: unit.header.length_including_self() }
    }

    /// Leaves what ends before an entry at this depth.
    pub fn leave(&mut self, depth: isize) {
        while self.open.last().map_or(false, |last| last.depth >= depth) {
            self.open.pop();
        }
    }

    /// Enters a function or block.
    pub fn enter(&mut self, depth: isize, tag: DwTag, bounds: Bounds<'a>) {
        self.open.push(Open { depth, is_function: is_function_tag(tag), bounds, place: None });
    }

    /// The place of what is around the current entry, among [`Self::found`]. `None` if it is in no function.
    pub fn current(&mut self, dwarf: &Dwarf<Slice<'a>>, unit: &Unit<Slice<'a>>) -> Option<usize> {
        if let Some(place) = self.open.last()?.place {
            return Some(place);
        }
        let mut left = self.left;
        let mut read = |open: &Open<'a>| open.bounds.read(dwarf, unit, &mut left);
        let inner = || self.open.iter().rev().take(MAX_DEPTH);
        let function = inner().find(|open| open.is_function);
        let block: Ranges = inner().find_map(&mut read).unwrap_or_default().into();
        let ranges: Ranges = function.and_then(&mut read).unwrap_or_default().into();
        let has_frame_base = function.map_or(true, |function| function.bounds.has_frame_base);
        self.left = left;
        self.found.push(Around { block, function: ranges, has_frame_base });
        let place = self.found.len() - 1;
        self.open.last_mut()?.place = Some(place);
        Some(place)
    }

    /// What is around the variables that were found.
    pub fn found(self) -> Vec<Around> {
        self.found
    }
}
