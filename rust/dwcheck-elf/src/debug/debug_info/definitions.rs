//! Finds the types that a unit only declares, and another unit of the file defines.

use super::{Die, Slice, Units};
use gimli::{Abbreviation, DwTag, EntriesRaw, Unit, UnitOffset};
use std::cell::RefCell;
use std::collections::hash_map::RandomState;
use std::collections::HashMap;
use std::hash::{BuildHasher, Hash, Hasher};

/// The most types that are noted. In a hostile file a few bytes are a type.
const MAX_TYPES: usize = 1 << 20;

/// Where an entry is: the index of its unit, and its offset there.
type Place = (usize, UnitOffset<usize>);

/// The types of a file that have a name. Read when the first of them is looked up.
#[derive(Default)]
pub(super) struct Definitions {
    names: RandomState,
    /// Where each type is defined, by its name and the names of what is around it.
    defined: RefCell<Option<HashMap<QualifiedName, Place>>>,
    /// Where the types are defined that were looked up, by the places of their declarations.
    found: RefCell<HashMap<Place, Option<Place>>>,
}

/// A hash of a name and of the names of the namespaces and types around it.
#[derive(Clone, Copy, Debug, PartialEq, Eq, Hash)]
struct QualifiedName(u64);

/// A type that has a name.
struct Named {
    offset: UnitOffset<usize>,
    name: QualifiedName,
    is_declaration: bool,
}

impl<'a> Units<'a> {
    /// The definition of a type, if the entry is only a declaration of it, and the definition is found. Else the
    /// entry itself.
    pub fn definition_of_type<'u>(&'u self, die: Die<'u, 'a>) -> Die<'u, 'a> {
        if die.attribute(gimli::DW_AT_declaration).is_none() {
            return die;
        }
        let by_signature = die.referred_entry(gimli::DW_AT_signature);
        by_signature.or_else(|| self.definition_by_name(&die)).unwrap_or(die)
    }

    /// The definition of a type that an entry declares, by the name of the type.
    fn definition_by_name<'u>(&'u self, die: &Die<'u, 'a>) -> Option<Die<'u, 'a>> {
        let index = self.index_of(die.unit.header.offset())?;
        let place = (index, die.offset);
        let known = self.definitions.found.borrow().get(&place).copied();
        let found = known.unwrap_or_else(|| self.search_definition(&die.unit, die.offset));
        self.definitions.found.borrow_mut().insert(place, found);
        let (index, offset) = found?;
        Some(Die { units: self, unit: self.unit(index).ok()?, offset })
    }

    fn search_definition(&self, unit: &Unit<Slice<'a>>, declaration: UnitOffset<usize>) -> Option<Place> {
        let mut name = None;
        self.each_type(unit, |one| {
            if one.offset == declaration {
                name = Some(one.name);
            }
        })
        .ok()?;
        let mut defined = self.definitions.defined.borrow_mut();
        defined.get_or_insert_with(|| self.all_defined_types()).get(&name?).copied()
    }

    /// The types that the units define. Of several with one name, the first one counts.
    fn all_defined_types(&self) -> HashMap<QualifiedName, Place> {
        let mut defined = HashMap::new();
        for (index, header) in self.headers.iter().enumerate() {
            // A unit that can't be read defines nothing.
            let _ = self.dwarf.unit(*header).and_then(|unit| {
                self.each_type(&unit, |one| {
                    if !one.is_declaration && defined.len() < MAX_TYPES {
                        defined.entry(one.name).or_insert((index, one.offset));
                    }
                })
            });
        }
        defined
    }

    /// Calls `take` with each type of a unit that has a name, and is neither in a function nor in a namespace
    /// without a name.
    fn each_type(&self, unit: &Unit<Slice<'a>>, mut take: impl FnMut(Named)) -> Result<(), gimli::Error> {
        let mut entries = unit.entries_raw(None)?;
        let mut around: Vec<(isize, Option<QualifiedName>)> = Vec::new();
        while !entries.is_empty() {
            let (offset, depth) = (entries.next_offset(), entries.next_depth());
            let abbreviation = match entries.read_abbreviation()? {
                Some(abbreviation) => abbreviation,
                None => continue,
            };
            while around.last().map_or(false, |(outer, _)| *outer >= depth) {
                around.pop();
            }
            let outer = around.last().map_or(Some(QualifiedName(0)), |(_, name)| *name);
            let (name, is_declaration) = self.read_name(unit, &mut entries, abbreviation, outer)?;
            if abbreviation.has_children() && depth > 0 {
                around.push((depth, name));
            }
            if let Some(name) = name.filter(|_| is_type_tag(abbreviation.tag())) {
                take(Named { offset, name, is_declaration });
            }
        }
        Ok(())
    }

    /// Reads the attributes of an entry: the name of a type or namespace, and whether it is only declared.
    fn read_name(
        &self,
        unit: &Unit<Slice<'a>>,
        entries: &mut EntriesRaw<'_, '_, Slice<'a>>,
        abbreviation: &Abbreviation,
        outer: Option<QualifiedName>,
    ) -> Result<(Option<QualifiedName>, bool), gimli::Error> {
        let (mut name, mut is_declaration) = (None, false);
        let tag = abbreviation.tag();
        let outer = match outer.filter(|_| is_type_tag(tag) || tag == gimli::DW_TAG_namespace) {
            Some(outer) => outer,
            None => {
                entries.skip_attributes(abbreviation.attributes())?;
                return Ok((None, false));
            }
        };
        for specification in abbreviation.attributes() {
            let attribute = entries.read_attribute(*specification)?;
            match attribute.name() {
                gimli::DW_AT_name => name = self.dwarf.attr_string(unit, attribute.value()).ok(),
                gimli::DW_AT_declaration => is_declaration = true,
                _ => {}
            }
        }
        Ok((name.map(|name| self.definitions.qualified(outer, name.slice())), is_declaration))
    }
}

impl Definitions {
    fn qualified(&self, outer: QualifiedName, name: &[u8]) -> QualifiedName {
        let mut hasher = self.names.build_hasher();
        (outer, name).hash(&mut hasher);
        QualifiedName(hasher.finish())
    }
}

fn is_type_tag(tag: DwTag) -> bool {
    matches!(
        tag,
        gimli::DW_TAG_structure_type
            | gimli::DW_TAG_class_type
            | gimli::DW_TAG_union_type
            | gimli::DW_TAG_enumeration_type
    )
}
