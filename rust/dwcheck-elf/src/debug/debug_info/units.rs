//! The units of debug information, and their entries: attributes, children, ranges, and references between entries.

use super::definitions::Definitions;
use super::split::Skeleton;
use super::Slice;
use gimli::{AttributeValue, DebugInfoOffset, DebuggingInformationEntry, DwAt, Dwarf, Unit};
use gimli::{DebugTypeSignature, DwTag, RangeIter, UnitHeader, UnitOffset, UnitSectionOffset, UnitType};
use std::cell::RefCell;
use std::collections::HashMap;
use std::rc::Rc;

/// How many references from entry to entry are followed. A hostile file can have loops of them.
const MAX_REFERENCES: usize = 16;

/// The units of a program's debug information.
pub(crate) struct Units<'a> {
    /// The sections.
    pub dwarf: Dwarf<Slice<'a>>,
    /// The headers in ascending order of their offsets: those of `.debug_info`, then those of
    /// `.debug_types`.
    pub headers: Vec<UnitHeader<Slice<'a>>>,
    /// How many of the headers are in `.debug_info`.
    in_info: usize,
    /// The units that were read, by their index.
    read: RefCell<HashMap<usize, Rc<Unit<Slice<'a>>>>>,
    /// The units of types, by their signatures.
    types: RefCell<Option<HashMap<DebugTypeSignature, usize>>>,
    /// The units that several files share (`.gnu_debugaltlink`).
    shared: Option<Box<Units<'a>>>,
    /// The unit of the program of which this file has the rest.
    skeleton: Option<Rc<Unit<Slice<'a>>>>,
    /// The types that the units define, by their names.
    pub(super) definitions: Definitions,
}

/// An entry of debug information.
#[derive(Clone)]
pub(crate) struct Die<'u, 'a> {
    /// The units among which its unit is.
    pub units: &'u Units<'a>,
    /// Its unit.
    pub unit: Rc<Unit<Slice<'a>>>,
    /// Its offset in the unit.
    pub offset: UnitOffset<usize>,
}

impl<'a> Units<'a> {
    /// Reads the headers of all units.
    pub fn read(dwarf: Dwarf<Slice<'a>>, shared: Option<Dwarf<Slice<'a>>>) -> Result<Self, gimli::Error> {
        let mut headers = Vec::new();
        let mut iterator = dwarf.units();
        while let Some(header) = iterator.next()? {
            headers.push(header);
        }
        let in_info = headers.len();
        let mut iterator = dwarf.type_units();
        while let Some(header) = iterator.next()? {
            headers.push(header);
        }
        let shared = shared.map(|shared| Units::read(shared, None).map(Box::new)).transpose()?;
        let (read, types, definitions) = (RefCell::default(), RefCell::default(), Definitions::default());
        Ok(Units { dwarf, headers, in_info, read, types, shared, skeleton: None, definitions })
    }

    /// The units of `.debug_info` with these headers, which are ascending by their offsets.
    pub fn of_headers(dwarf: Dwarf<Slice<'a>>, headers: Vec<UnitHeader<Slice<'a>>>) -> Self {
        let (read, types, definitions) = (RefCell::default(), RefCell::default(), Definitions::default());
        let in_info = headers.len();
        Units { dwarf, headers, in_info, read, types, shared: None, skeleton: None, definitions }
    }

    /// Reads the headers of the units of a file that has the rest of a unit (`-gsplit-dwarf`).
    pub fn read_split(dwarf: Dwarf<Slice<'a>>, skeleton: Rc<Unit<Slice<'a>>>) -> Result<Self, gimli::Error> {
        Ok(Units { skeleton: Some(skeleton), ..Units::read(dwarf, None)? })
    }

    /// Whether the units are those of a file that has the rest of a unit.
    pub fn are_split(&self) -> bool {
        self.skeleton.is_some()
    }

    /// The unit with an index among [`Self::headers`], which stays in memory.
    pub fn unit(&self, index: usize) -> Result<Rc<Unit<Slice<'a>>>, gimli::Error> {
        if let Some(unit) = self.read.borrow().get(&index) {
            return Ok(Rc::clone(unit));
        }
        let header = self.headers.get(index).ok_or(gimli::Error::MissingUnitDie)?;
        let mut unit = self.dwarf.unit(*header)?;
        if let Some(skeleton) = &self.skeleton {
            unit.copy_relocated_attributes(skeleton);
            unit.line_program = unit.line_program.or_else(|| skeleton.line_program.clone());
        }
        let unit = Rc::new(unit);
        self.read.borrow_mut().insert(index, Rc::clone(&unit));
        Ok(unit)
    }

    /// The first entry of the unit with an index.
    pub fn root(&self, index: usize) -> Option<Die<'_, 'a>> {
        let unit = self.unit(index).ok()?;
        let offset = UnitOffset(unit.header.header_size());
        Some(Die { units: self, unit, offset })
    }

    /// The entry at an offset of `.debug_info`.
    pub fn die(&self, offset: DebugInfoOffset<usize>) -> Option<Die<'_, 'a>> {
        let headers = &self.headers[..self.in_info];
        let starts_before = |header: &UnitHeader<Slice<'a>>| matches!(header.offset(), UnitSectionOffset::DebugInfoOffset(start) if start <= offset);
        let index = headers.partition_point(starts_before).checked_sub(1)?;
        let unit = self.unit(index).ok()?;
        let offset = offset.to_unit_offset(&unit.header)?;
        Some(Die { units: self, unit, offset })
    }

    /// The index of the unit that begins at an offset.
    pub(in crate::debug) fn index_of(&self, offset: UnitSectionOffset<usize>) -> Option<usize> {
        let headers = match offset {
            UnitSectionOffset::DebugInfoOffset(_) => 0..self.in_info,
            UnitSectionOffset::DebugTypesOffset(_) => self.in_info..self.headers.len(),
        };
        let first = headers.start;
        let found = self.headers[headers].binary_search_by_key(&offset, |header| header.offset());
        found.ok().map(|index| first + index)
    }

    /// The type with a signature.
    fn type_of_signature(&self, signature: DebugTypeSignature) -> Option<Die<'_, 'a>> {
        let index = *self.types.borrow_mut().get_or_insert_with(|| self.signatures()).get(&signature)?;
        let unit = self.unit(index).ok()?;
        match unit.header.type_() {
            UnitType::Type { type_offset, .. } | UnitType::SplitType { type_offset, .. } => {
                Some(Die { units: self, unit, offset: type_offset })
            }
            _ => None,
        }
    }

    fn signatures(&self) -> HashMap<DebugTypeSignature, usize> {
        let signature = |header: &UnitHeader<Slice<'a>>| match header.type_() {
            UnitType::Type { type_signature, .. } | UnitType::SplitType { type_signature, .. } => Some(type_signature),
            _ => None,
        };
        let all = self.headers.iter().enumerate();
        all.filter_map(|(index, header)| Some((signature(header)?, index))).collect()
    }
}

impl<'u, 'a> Die<'u, 'a> {
    /// The entry itself, with its attributes.
    pub fn entry(&self) -> Option<DebuggingInformationEntry<'_, '_, Slice<'a>>> {
        self.unit.entry(self.offset).ok()
    }

    /// The value of an attribute of this entry.
    pub fn attribute(&self, name: DwAt) -> Option<AttributeValue<Slice<'a>>> {
        self.entry()?.attr_value(name).ok()?
    }

    /// The kind of entry.
    pub fn tag(&self) -> Option<DwTag> {
        Some(self.entry()?.tag())
    }

    /// The entries right below this one.
    pub fn children(&self) -> Vec<Die<'u, 'a>> {
        let mut found = Vec::new();
        if let Ok(mut tree) = self.unit.entries_tree(Some(self.offset)) {
            if let Ok(root) = tree.root() {
                let mut children = root.children();
                while let Ok(Some(child)) = children.next() {
                    found.push(Die { offset: child.entry().offset(), ..self.clone() });
                }
            }
        }
        found
    }

    /// The addresses of a function or block. `None` if it has no attributes for them.
    pub fn ranges(&self) -> Option<RangeIter<Slice<'a>>> {
        let entry = self.entry()?;
        let has = |name| matches!(entry.attr_value(name), Ok(Some(_)));
        if !has(gimli::DW_AT_low_pc) && !has(gimli::DW_AT_ranges) {
            return None;
        }
        Some(self.units.dwarf.die_ranges(&self.unit, &entry).unwrap_or_default())
    }

    /// The entry that an attribute of this one refers to.
    pub fn referred_entry(&self, name: DwAt) -> Option<Die<'u, 'a>> {
        self.at(self.attribute(name)?)
    }

    /// The entry that a value of an attribute refers to.
    pub fn at(&self, value: AttributeValue<Slice<'a>>) -> Option<Die<'u, 'a>> {
        match value {
            AttributeValue::UnitRef(offset) => Some(Die { offset, ..self.clone() }),
            AttributeValue::DebugInfoRef(offset) => self.units.die(offset),
            AttributeValue::DebugInfoRefSup(offset) => self.units.shared.as_ref()?.die(offset),
            AttributeValue::DebugTypesRef(signature) => self.units.type_of_signature(signature),
            _ => None,
        }
    }

    /// This entry, then the ones that it completes or is an instance of.
    pub fn origins(&self) -> impl Iterator<Item = Die<'u, 'a>> {
        let next = |die: &Die<'u, 'a>| {
            let origin = die.referred_entry(gimli::DW_AT_abstract_origin);
            origin.or_else(|| die.referred_entry(gimli::DW_AT_specification))
        };
        std::iter::successors(Some(self.clone()), next).take(MAX_REFERENCES)
    }

    /// The value of an attribute of this entry or of one of its origins, with the entry that has it.
    pub fn inherited(&self, name: DwAt) -> Option<(Die<'u, 'a>, AttributeValue<Slice<'a>>)> {
        self.origins().find_map(|die| {
            let value = die.attribute(name)?;
            Some((die, value))
        })
    }

    /// Its name, or that of an origin.
    pub fn name(&self) -> Option<String> {
        let (die, value) = self.inherited(gimli::DW_AT_name)?;
        die.string(value)
    }

    /// What the program has of its unit, if the debug information of the unit is in a file of its own (`-gsplit-dwarf`).
    pub fn skeleton(&self) -> Skeleton<'u, 'a> {
        Skeleton { dwarf: &self.units.dwarf, unit: Rc::clone(&self.unit) }
    }

    /// The text of an attribute of this entry.
    pub fn string(&self, value: AttributeValue<Slice<'a>>) -> Option<String> {
        let bytes = match (value, &self.units.shared) {
            (AttributeValue::DebugStrRefSup(offset), Some(shared)) => shared.dwarf.string(offset).ok()?,
            (value, _) => self.units.dwarf.attr_string(&self.unit, value).ok()?,
        };
        Some(bytes.to_string_lossy().into_owned())
    }

    /// The name of its source file and the line, if it or an origin has them, such as `a.c:4`.
    pub fn source(&self) -> Option<String> {
        let (die, value) = self.inherited(gimli::DW_AT_decl_file)?;
        let index = match value {
            AttributeValue::FileIndex(index) => index,
            value => value.udata_value()?,
        };
        let header = die.unit.line_program.as_ref()?.header();
        let file = die.string(header.file(index)?.path_name())?;
        let name = file.rsplit('/').next().unwrap_or(&file);
        match self.inherited(gimli::DW_AT_decl_line).and_then(|(_, line)| line.udata_value()) {
            Some(line) => Some(format!("{}:{}", name, line)),
            None => Some(name.to_string()),
        }
    }
}
