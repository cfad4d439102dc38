//! The code and data of a program as they are in memory, and the imports by which code leads to other files.

use crate::elf::layout::{is_loaded_section, Layout};
use crate::elf::relocate::{Object, Outside, APART};
use dwcheck_lint::i386::IN_OFFSET_TABLE;
use object::elf::{PF_X, SHF_EXECINSTR};
use object::read::{Object as _, ObjectSection, ObjectSegment, ObjectSymbol, RelocationTarget, SectionIndex};
use object::{Architecture, SectionFlags, SegmentFlags};
use std::borrow::Cow;

/// The most bytes of all sections of an unlinked object to which relocations are applied. In a hostile file, sections
/// share bytes.
const MOST_RELOCATED: usize = 1 << 30;

/// A part of a program that is loaded: a segment of a linked file, or a section of an unlinked object.
#[derive(Clone, Debug)]
pub struct Part<'data> {
    /// The address of the first byte.
    pub address: u64,
    /// The bytes that the file has, with relocations applied.
    pub bytes: Cow<'data, [u8]>,
    /// Whether it may be executed.
    pub is_executable: bool,
    /// The name of the section. `None` for a segment.
    pub section: Option<String>,
}

/// The code and data of a program, and the functions of other modules that it uses.
#[derive(Clone, Debug, Default)]
pub struct Image<'data> {
    /// What is loaded, ascending by address.
    pub parts: Vec<Part<'data>>,
    /// The names of functions and data of other modules, by the addresses of the pointers to them that
    /// the linker sets. In an unlinked object also by the addresses that stand for them.
    pub imports: Vec<(u64, &'data str)>,
}

impl<'data> Image<'data> {
    /// The segments of a linked file.
    pub(crate) fn of_linked(file: &object::File<'data>) -> Self {
        let part = |segment: object::Segment<'data, '_>| {
            let is_executable = matches!(segment.flags(), SegmentFlags::Elf { p_flags } if p_flags & PF_X != 0);
            Some(Part {
                address: segment.address(),
                bytes: Cow::Borrowed(segment.data().ok()?),
                is_executable,
                section: None,
            })
        };
        Image { parts: ascending_parts(file.segments().filter_map(part)), imports: dynamic_imports(file) }
    }

    /// The sections of an unlinked object, each at the address that the layout gives it.
    pub(crate) fn of_object(object: Object<'_, 'data>) -> Self {
        let Object { file, layout, .. } = object;
        let outside = Outside { base: end_of_sections(file, layout) };
        let loaded = file.sections().filter(|section| is_loaded_section(section.flags()));
        let mut left = MOST_RELOCATED;
        let parts = loaded.filter_map(|section| {
            let mut bytes = Cow::Borrowed(section.data().ok().filter(|bytes| !bytes.is_empty())?);
            if section.relocations().next().is_some() {
                left = left.checked_sub(bytes.len())?;
                object.relocate_all(&section, bytes.to_mut(), outside);
            }
            let (address, is_executable) = (layout.address(section.index()), is_code_section(section.flags()));
            let name = String::from_utf8_lossy(section.name_bytes().unwrap_or(b"?")).into_owned();
            Some(Part { address, bytes, is_executable, section: Some(name) })
        });
        Image { parts: ascending_parts(parts), imports: undefined_symbols(file, outside) }
    }
}

fn ascending_parts<'data>(parts: impl Iterator<Item = Part<'data>>) -> Vec<Part<'data>> {
    let mut parts: Vec<_> = parts.collect();
    parts.sort_by_key(|part| part.address);
    parts
}

fn is_code_section(flags: SectionFlags) -> bool {
    matches!(flags, SectionFlags::Elf { sh_flags } if sh_flags & u64::from(SHF_EXECINSTR) != 0)
}

/// The first address after all sections of an object that is a multiple of [`APART`].
fn end_of_sections(file: &object::File<'_>, layout: &Layout) -> u64 {
    let end = |index: SectionIndex, size: u64| layout.address(index).saturating_add(size);
    let loaded = file.sections().filter(|section| is_loaded_section(section.flags()));
    let last = loaded.map(|section| end(section.index(), section.size())).max().unwrap_or(0);
    (last / APART).saturating_add(1).saturating_mul(APART)
}

/// The symbols that an object doesn't define, each by its address and by that of its pointer.
fn undefined_symbols<'data>(file: &object::File<'data>, outside: Outside) -> Vec<(u64, &'data str)> {
    let undefined = file.symbols().filter(|symbol| symbol.is_undefined());
    let named = undefined.filter_map(|symbol| Some((symbol.index(), symbol.name().ok()?)));
    named.flat_map(|(index, name)| [(outside.symbol(index), name), (outside.pointer(index), name)]).collect()
}

/// The pointers that the dynamic linker sets. Position-independent code of i386 names them by their distance from the
/// global offset table, so they are listed by that, too.
pub(crate) fn dynamic_imports<'data>(file: &object::File<'data>) -> Vec<(u64, &'data str)> {
    let mut imports = pointers_by_address(file);
    let table = [".got.plt", ".got"].iter().find_map(|name| file.section_by_name(name));
    if let Some(table) = table.filter(|_| file.architecture() == Architecture::I386) {
        let distance = |address: u64| address.wrapping_sub(table.address()) & u64::from(u32::MAX);
        let relative: Vec<_> =
            imports.iter().map(|(address, name)| (IN_OFFSET_TABLE | distance(*address), *name)).collect();
        imports.extend(relative);
    }
    imports
}

fn pointers_by_address<'data>(file: &object::File<'data>) -> Vec<(u64, &'data str)> {
    use object::read::ObjectSymbolTable;
    let symbols = file.dynamic_symbol_table();
    let relocations = file.dynamic_relocations().into_iter().flatten();
    let named = relocations.filter_map(|(address, relocation)| match relocation.target() {
        RelocationTarget::Symbol(index) => {
            let symbol = symbols.as_ref()?.symbol_by_index(index).ok()?;
            Some((address, symbol.name().ok()?))
        }
        _ => None,
    });
    named.collect()
}
