//! The debug information of a program, as `addr2line` takes it: a unit at a time, or all units where one refers to
//! others. All units of a large library would take much more memory than those that a stack needs.

use crate::debug::debug_info::{Slice, Units, UnitsByAddress};
use crate::debug::inlined::{Covers, Info};
use crate::elf::compressed::SectionBytes;
use crate::elf::debug_files::DebugFiles;
use crate::elf::mapped::Bytes;
use crate::elf::program::Program;
use gimli::{DebugInfoOffset, Dwarf, EndianSlice, Reader, SectionId, Unit, UnitHeader, UnitSectionOffset};
use once_cell::unsync::OnceCell;
use rustc_hash::FxHashMap;
use std::cell::RefCell;
use std::ops::Range;
use std::sync::Arc;

/// How deep the entries of a unit may be. `addr2line` reads functions that are inlined in each other by calls in each
/// other.
const DEEPEST: isize = 1024;

/// How many bytes before a unit are given back when it is read.
const LEFT: usize = 1 << 20;

/// The sections that are read.
const NEEDED: [SectionId; 10] = [
    SectionId::DebugAbbrev,
    SectionId::DebugAddr,
    SectionId::DebugAranges,
    SectionId::DebugInfo,
    SectionId::DebugLine,
    SectionId::DebugLineStr,
    SectionId::DebugRanges,
    SectionId::DebugRngLists,
    SectionId::DebugStr,
    SectionId::DebugStrOffsets,
];

/// One unit, or all units.
pub(super) struct Context<'a> {
    pub units: addr2line::Context<Slice<'a>>,
    /// Whether the entries of a unit are too deep for functions to be read.
    pub is_deep: bool,
}

/// What was read of the debug information.
pub(super) struct Contexts<'a> {
    sections: Vec<(SectionId, Slice<'a>)>,
    /// What several files share.
    shared: Option<Arc<Dwarf<Slice<'a>>>>,
    info: Info<'a>,
    /// The file into which `.debug_info` was decompressed.
    file: Option<Bytes>,
    covers: Covers,
    /// The units that were read, by their offsets. `None` for one that isn't enough by itself.
    units: RefCell<FxHashMap<usize, Option<Context<'a>>>>,
    /// All units.
    whole: OnceCell<Option<Context<'a>>>,
}

/// What entries of a unit have.
#[derive(Clone, Copy, Default)]
struct Entries {
    is_deep: bool,
    /// Whether one refers to another unit.
    has_far_references: bool,
}

impl<'a> Contexts<'a> {
    /// Opens the debug information of a program, with that of the file that its `.gnu_debugaltlink` names. `files` keeps
    /// what is decompressed.
    pub fn open(program: &Program<'a>, shared: Option<&Program<'a>>, files: &'a DebugFiles) -> Option<Self> {
        let mut file = None;
        let mut section = |program: &Program<'a>, id: SectionId| {
            let bytes = program.debug_section_in_file(id.name()).ok().flatten().unwrap_or_default();
            if let (SectionId::DebugInfo, SectionBytes::InFile(bytes)) = (id, &bytes) {
                file = Some(bytes.clone());
            }
            (id, EndianSlice::new(files.keep(bytes), program.target().gimli_order()))
        };
        let shared = shared.map(|shared| NEEDED.map(|id| section(shared, id)));
        let sections = NEEDED.map(|id| section(program, id)).to_vec();
        let shared = shared.and_then(|sections| Some(Arc::new(load(&sections)?)));
        let dwarf = Dwarf { sup: shared.clone(), ..load(&sections)? };
        let info = Info::of_each(dwarf, |header| give_back_before(file.as_ref(), header));
        let covers = info.covers(&Covers::listed(program));
        let (units, whole) = (RefCell::default(), OnceCell::new());
        Some(Contexts { sections, shared, info, file, covers, units, whole })
    }

    /// All units, without what files share.
    pub fn all_units(&self) -> Option<UnitsByAddress<'a>> {
        let units = Units::of_headers(load(&self.sections)?, self.info.headers.clone());
        let indexed =
            |(range, unit): &(Range<u64>, usize)| Some((range.clone(), units.index_of(DebugInfoOffset(*unit).into())?));
        let ranges = self.covers.ranges().iter().filter_map(indexed).collect();
        Some(UnitsByAddress { units, ranges })
    }

    /// Gives back the memory of what was read of the file that has `.debug_info`.
    pub fn give_back(&self) {
        self.file.iter().for_each(|file| file.give_back(0..file.len()));
    }

    /// What is found first in the units that cover an address.
    pub fn find<T>(&self, address: u64, find: impl Fn(&Context<'a>) -> Option<T>) -> Option<T> {
        let offsets: Vec<usize> = self.covers.at(address).collect();
        for offset in &offsets {
            let is_known = self.units.borrow().contains_key(offset);
            if !is_known {
                let unit = self.read_unit(*offset);
                self.units.borrow_mut().insert(*offset, unit);
            }
        }
        let units = self.units.borrow();
        let enough: Option<Vec<_>> = offsets.iter().map(|offset| units.get(offset)?.as_ref()).collect();
        match enough.filter(|enough| !enough.is_empty()) {
            Some(enough) => enough.into_iter().find_map(find),
            None => self.whole().and_then(find),
        }
    }

    /// The unit at an offset. `None` if it isn't enough by itself.
    fn read_unit(&self, offset: usize) -> Option<Context<'a>> {
        let header = self.info.header_at(offset)?;
        let entries = entries_of(&self.info.dwarf.unit(*header).ok()?).ok()?;
        if entries.has_far_references {
            return None;
        }
        let bytes = |(id, bytes): &(SectionId, Slice<'a>)| {
            let range = match id {
                SectionId::DebugInfo => offset..offset.checked_add(header.length_including_self())?,
                // Its offsets are those of all units. The unit says its addresses itself.
                SectionId::DebugAranges => 0..0,
                _ => 0..bytes.len(),
            };
            Some((*id, EndianSlice::new(bytes.slice().get(range)?, bytes.endian())))
        };
        let sections = self.sections.iter().map(bytes).collect::<Option<Vec<_>>>()?;
        self.context(&sections, entries.is_deep)
    }

    fn whole(&self) -> Option<&Context<'a>> {
        self.whole.get_or_init(|| self.context(&self.sections, self.is_a_unit_deep())).as_ref()
    }

    fn context(&self, sections: &[(SectionId, Slice<'a>)], is_deep: bool) -> Option<Context<'a>> {
        let dwarf = Dwarf { sup: self.shared.clone(), ..load(sections)? };
        Some(Context { units: addr2line::Context::from_dwarf(dwarf).ok()?, is_deep })
    }

    /// Whether the entries of a unit are too deep.
    fn is_a_unit_deep(&self) -> bool {
        self.info.headers.iter().any(|header| {
            give_back_before(self.file.as_ref(), header);
            let entries = self.info.dwarf.unit(*header).and_then(|unit| entries_of(&unit));
            entries.unwrap_or_default().is_deep
        })
    }
}

/// Gives back the memory of what was read before a unit of the file that has `.debug_info`. It is hardly needed again.
fn give_back_before(file: Option<&Bytes>, header: &UnitHeader<Slice<'_>>) {
    if let (Some(file), UnitSectionOffset::DebugInfoOffset(begin)) = (file, header.offset()) {
        file.give_back(begin.0.saturating_sub(LEFT)..begin.0);
    }
}

/// The sections as gimli takes them. Those that aren't listed are empty.
fn load<'a>(sections: &[(SectionId, Slice<'a>)]) -> Option<Dwarf<Slice<'a>>> {
    let order = sections.first()?.1.endian();
    let section = |id| {
        let found = sections.iter().find(|(other, _)| *other == id).map(|(_, bytes)| *bytes);
        Ok::<_, gimli::Error>(found.unwrap_or_else(|| EndianSlice::new(&[], order)))
    };
    Dwarf::load(section).ok()
}

/// What the entries of a unit have.
fn entries_of(unit: &Unit<Slice<'_>>) -> gimli::Result<Entries> {
    let mut found = Entries::default();
    let mut entries = unit.entries_raw(None)?;
    while !entries.is_empty() && !found.is_deep {
        found.is_deep = entries.next_depth() > DEEPEST;
        if let Some(abbreviation) = entries.read_abbreviation()? {
            let is_far = |attribute: &gimli::AttributeSpecification| attribute.form() == gimli::DW_FORM_ref_addr;
            found.has_far_references |= abbreviation.attributes().iter().any(is_far);
            entries.skip_attributes(abbreviation.attributes())?;
        }
    }
    Ok(found)
}
