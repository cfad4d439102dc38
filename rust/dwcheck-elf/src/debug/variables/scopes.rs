//! Finds the variables that are in scope at an address: those of the function, of the functions that are
//! inlined there, and of the blocks around the address.

use crate::debug::debug_info::{ranges_of, Die};
use gimli::{DwTag, UnitSectionOffset};
use std::collections::HashSet;

/// How deep blocks and inlined functions may be nested. A hostile file can nest them without end.
const MAX_DEPTH: usize = 256;

/// A function with its variables that are in scope.
pub(super) struct Scope<'u, 'a> {
    /// The function, or where it is inlined.
    pub function: Die<'u, 'a>,
    /// Whether it is inlined.
    pub is_inlined: bool,
    /// Its variables and parameters, those of inner blocks last.
    pub variables: Vec<Variable<'u, 'a>>,
}

/// A variable or a parameter.
#[derive(Clone)]
pub(super) struct Variable<'u, 'a> {
    /// Its entry of debug information.
    pub die: Die<'u, 'a>,
    /// Whether it is a parameter.
    pub is_parameter: bool,
    /// Whether only the abstract instance of the function has it: nothing says where it is.
    pub is_abstract: bool,
}

/// How many entries are looked at for an address.
const MAX_ENTRIES: usize = 1 << 20;

/// The scopes at an address of a function, the outermost first: the function, then those that are inlined
/// there.
pub(super) fn scopes_at<'u, 'a>(function: Die<'u, 'a>, address: u64) -> Vec<Scope<'u, 'a>> {
    let first = Scope { function: function.clone(), is_inlined: false, variables: Vec::new() };
    let mut search = Search { address, scopes: vec![first], left: MAX_ENTRIES };
    search.enter(&function, 0);
    search.scopes
}

struct Search<'u, 'a> {
    address: u64,
    scopes: Vec<Scope<'u, 'a>>,
    /// How many more entries are looked at.
    left: usize,
}

impl<'u, 'a> Search<'u, 'a> {
    /// The entries right below one. None of them if the search is too deep or too long.
    fn children(&mut self, die: &Die<'u, 'a>, depth: usize) -> Vec<Die<'u, 'a>> {
        if depth > MAX_DEPTH || self.left == 0 {
            return Vec::new();
        }
        let children = die.children();
        self.left = self.left.saturating_sub(children.len());
        children
    }

    /// Adds the variables of a function or block to the last scope, then those of its parts that have the
    /// address.
    fn enter(&mut self, within: &Die<'u, 'a>, depth: usize) {
        let mut inner = Vec::new();
        let children = self.children(within, depth);
        let mut concrete = HashSet::new();
        self.add_origins(&children, &mut concrete, depth);
        for child in children {
            match child.tag() {
                Some(tag) if is_variable_tag(tag) => self.add(child, tag, false),
                Some(gimli::DW_TAG_lexical_block | gimli::DW_TAG_inlined_subroutine) => inner.push(child),
                _ => {}
            }
        }
        if let Some(origin) = within.referred_entry(gimli::DW_AT_abstract_origin) {
            self.add_abstract(&origin, &concrete, depth + 1);
        }
        inner.iter().for_each(|child| self.enter_part(child, depth + 1));
    }

    /// Adds the entries of the abstract instance that these entries, or those of blocks among them, complete.
    /// A variable may be in a block that only the concrete instance has.
    fn add_origins(&mut self, children: &[Die<'u, 'a>], origins: &mut HashSet<DieId>, depth: usize) {
        for child in children {
            origins.extend(child.referred_entry(gimli::DW_AT_abstract_origin).as_ref().map(die_id));
            if child.tag() == Some(gimli::DW_TAG_lexical_block) {
                let inner = self.children(child, depth + 1);
                self.add_origins(&inner, origins, depth + 1);
            }
        }
    }

    /// Enters a block or an inlined function, if it has the address.
    fn enter_part(&mut self, part: &Die<'u, 'a>, depth: usize) {
        let is_inlined = part.tag() == Some(gimli::DW_TAG_inlined_subroutine);
        match part.ranges().map(ranges_of) {
            // A block without addresses is no block of its own.
            None if !is_inlined => self.enter(part, depth),
            Some(ranges) if ranges.iter().any(|range| range.contains(&self.address)) => {
                if is_inlined {
                    self.scopes.push(Scope { function: part.clone(), is_inlined, variables: Vec::new() });
                }
                self.enter(part, depth);
            }
            _ => {}
        }
    }

    /// Adds the variables of an abstract instance that the concrete one leaves out. Its blocks have no
    /// addresses, so that their variables are in scope.
    fn add_abstract(&mut self, origin: &Die<'u, 'a>, concrete: &HashSet<DieId>, depth: usize) {
        for child in self.children(origin, depth) {
            match child.tag() {
                _ if concrete.contains(&die_id(&child)) => {}
                Some(tag) if is_variable_tag(tag) => self.add(child, tag, true),
                Some(gimli::DW_TAG_lexical_block) => self.add_abstract(&child, concrete, depth + 1),
                _ => {}
            }
        }
    }

    fn add(&mut self, die: Die<'u, 'a>, tag: DwTag, is_abstract: bool) {
        let is_parameter = tag == gimli::DW_TAG_formal_parameter;
        if let Some(scope) = self.scopes.last_mut() {
            scope.variables.push(Variable { die, is_parameter, is_abstract });
        }
    }
}

fn is_variable_tag(tag: DwTag) -> bool {
    matches!(tag, gimli::DW_TAG_formal_parameter | gimli::DW_TAG_variable)
}

/// Where an entry is: its unit, and its offset there.
pub(super) type DieId = (UnitSectionOffset, usize);

/// Where an entry is.
pub(super) fn die_id(die: &Die<'_, '_>) -> DieId {
    (die.unit.header.offset(), die.offset.0)
}
