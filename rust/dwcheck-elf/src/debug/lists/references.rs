//! Finds the location lists that a unit of `.debug_info` refers to.

use super::around::{is_scope, Around, Bounds, Nesting};
use crate::debug::debug_info::Slice;
use gimli::{
    Abbreviation, Attribute, AttributeValue, DwAt, DwForm, DwarfFileType, EntriesRaw, Reader, Unit, UnitOffset,
};
use std::fmt;

/// `DW_AT_GNU_locviews`: where the view numbers of a list are.
const LOCVIEWS: DwAt = DwAt(0x2137);

/// A unit may have this many attributes for each of its bytes. Attributes without bytes, such as flags, are
/// few in what compilers write.
const ATTRIBUTES_PER_BYTE: usize = 4;

/// A place in `.debug_info` that refers to a location list.
#[derive(Clone, Copy, Debug, PartialEq, Eq)]
pub(crate) struct Reference {
    /// The offset of the list in its section. `None` if the index of the reference leads to none.
    pub list: Option<u64>,
    /// The entry of `.debug_info`, by its offset in the unit.
    pub entry: UnitOffset<usize>,
    /// Where the view numbers of the list are.
    pub views: Option<u64>,
    /// What is around the entry, by its place in [`References::around`].
    pub around: Option<usize>,
}

/// What a unit has that refers to location lists.
pub(crate) struct References {
    /// The references in the order of their lists, one for each list.
    pub all: Vec<Reference>,
    /// The functions and blocks around their entries.
    pub around: Vec<Around>,
}

/// Why the references of a unit can't be read.
#[derive(Clone, Copy, Debug, PartialEq, Eq)]
pub(crate) enum Unreadable {
    /// gimli says why.
    Gimli(gimli::Error),
    /// It has more attributes than [`ATTRIBUTES_PER_BYTE`] allows.
    TooManyAttributes,
}

/// The references of a unit.
pub(crate) fn references_of_unit<'a>(
    dwarf: &gimli::Dwarf<Slice<'a>>,
    unit: &Unit<Slice<'a>>,
) -> Result<References, Unreadable> {
    let mut reader = ReferenceReader { dwarf, unit, nesting: Nesting::of(unit), found: Vec::new() };
    let mut entries = unit.entries_raw(None).map_err(Unreadable::Gimli)?;
    let mut left = unit.header.length_including_self().saturating_mul(ATTRIBUTES_PER_BYTE);
    while !entries.is_empty() {
        let (entry, depth) = (entries.next_offset(), entries.next_depth());
        let abbreviation = match entries.read_abbreviation().map_err(Unreadable::Gimli)? {
            Some(abbreviation) => abbreviation,
            None => continue,
        };
        let specifications = abbreviation.attributes();
        left = left.checked_sub(specifications.len()).ok_or(Unreadable::TooManyAttributes)?;
        reader.nesting.leave(depth);
        if may_refer_to_list(abbreviation) || is_scope(abbreviation.tag()) {
            reader.entry(&mut entries, abbreviation, entry, depth).map_err(Unreadable::Gimli)?;
        } else {
            entries.skip_attributes(specifications).map_err(Unreadable::Gimli)?;
        }
    }
    let (mut found, around) = (reader.found, reader.nesting.found());
    // A reference with views before others of the same list.
    found.sort_by_key(|reference: &Reference| (reference.list, reference.views.is_none()));
    found.dedup_by(|next, first| next.list.is_some() && next.list == first.list);
    Ok(References { all: found, around })
}

/// Whether an entry can refer to a location list, by the forms of its attributes.
fn may_refer_to_list(abbreviation: &Abbreviation) -> bool {
    let is_reference = |form: DwForm| {
        matches!(
            form,
            gimli::DW_FORM_sec_offset
                | gimli::DW_FORM_loclistx
                | gimli::DW_FORM_data4
                | gimli::DW_FORM_data8
                | gimli::DW_FORM_indirect
        )
    };
    abbreviation.attributes().iter().any(|attribute| is_reference(attribute.form()))
}

/// What an attribute refers to in the section of lists.
enum Referred {
    /// A list, by its offset. `None` if the index of the attribute leads to none.
    List(Option<u64>),
    /// The view numbers of a list, by their offset.
    Views(u64),
}

/// Reads the entries of a unit one after another.
struct ReferenceReader<'r, 'a> {
    dwarf: &'r gimli::Dwarf<Slice<'a>>,
    unit: &'r Unit<Slice<'a>>,
    nesting: Nesting<'a>,
    found: Vec<Reference>,
}

impl<'a> ReferenceReader<'_, 'a> {
    fn entry(
        &mut self,
        entries: &mut EntriesRaw<'_, '_, Slice<'a>>,
        abbreviation: &Abbreviation,
        entry: UnitOffset<usize>,
        depth: isize,
    ) -> Result<(), gimli::Error> {
        let first = self.found.len();
        let (mut views, mut bounds) = (None, Bounds::default());
        for specification in abbreviation.attributes() {
            let attribute = entries.read_attribute(*specification)?;
            match self.referred(&attribute) {
                Some(Referred::List(list)) => self.found.push(Reference { list, entry, views: None, around: None }),
                Some(Referred::Views(at)) => views = Some(at),
                None => {}
            }
            bounds.note(&attribute);
        }
        if is_scope(abbreviation.tag()) {
            self.nesting.enter(depth, abbreviation.tag(), bounds);
        }
        // gcc writes views only for DW_AT_location, the only list of such an entry.
        if let [reference] = &mut self.found[first..] {
            reference.views = views;
        }
        if self.found.len() > first {
            let around = self.nesting.current(self.dwarf, self.unit);
            self.found[first..].iter_mut().for_each(|reference| reference.around = around);
        }
        Ok(())
    }

    /// What an attribute refers to. `None` if that isn't in the section of lists.
    fn referred(&self, attribute: &Attribute<Slice<'a>>) -> Option<Referred> {
        match attribute.value() {
            AttributeValue::LocationListsRef(list) => Some(Referred::List(Some(list.0 as u64))),
            AttributeValue::DebugLocListsIndex(index) => {
                let list = self.dwarf.locations_offset(self.unit, index).ok();
                Some(Referred::List(list.map(|list| list.0 as u64)))
            }
            AttributeValue::SecOffset(offset) if attribute.name() == LOCVIEWS => {
                Some(Referred::Views((offset as u64).saturating_add(views_base(self.dwarf, self.unit))))
            }
            _ => None,
        }
    }
}

/// From where offsets of view numbers count. In files of single units, gcc counts them from the array of offsets.
fn views_base(dwarf: &gimli::Dwarf<Slice<'_>>, unit: &Unit<Slice<'_>>) -> u64 {
    match dwarf.file_type {
        DwarfFileType::Dwo => unit.loclists_base.0 as u64,
        DwarfFileType::Main => 0,
    }
}

/// The number of bytes of a table of abbreviations, up to the 0 that ends it.
pub(crate) fn abbreviations_length(section: &Slice<'_>, offset: usize) -> usize {
    let mut rest = *section;
    if rest.skip(offset).is_err() {
        return 0;
    }
    let all = rest.len();
    let mut next = || -> Result<bool, gimli::Error> {
        if rest.read_uleb128()? == 0 {
            return Ok(false);
        }
        rest.read_uleb128()?;
        rest.read_u8()?;
        loop {
            let (name, form) = (rest.read_uleb128()?, rest.read_uleb128()?);
            if form == u64::from(gimli::DW_FORM_implicit_const.0) {
                rest.read_sleb128()?;
            }
            if (name, form) == (0, 0) {
                return Ok(true);
            }
        }
    };
    while let Ok(true) = next() {}
    all - rest.len()
}

impl fmt::Display for Unreadable {
    fn fmt(&self, f: &mut fmt::Formatter<'_>) -> fmt::Result {
        match self {
            Unreadable::Gimli(error) => error.fmt(f),
            Unreadable::TooManyAttributes => f.write_str("more attributes than its bytes can have"),
        }
    }
}
