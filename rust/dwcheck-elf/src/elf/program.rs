//! An ELF file: its machine, its sections, also compressed ones, its frame sections, location lists, functions,
//! segments, build id and debug links.

mod by_segment;
mod compiler;

pub use crate::elf::compressed::DECOMPRESSED_LIMIT;

use crate::elf::compressed::{NotDecompressed, SectionBytes, Stored};
use crate::elf::constants::{self, Constants};
use crate::elf::format::{Format, Name};
use crate::elf::functions::Functions;
use crate::elf::image::Image;
use crate::elf::layout::{is_loaded_section, Layout};
use crate::elf::other_file::OtherFile;
use crate::elf::relocate::{self, RelocationError};
use dwcheck_types::target::{AddressSize, Order, Target};
use object::elf;
use object::read::{Object, ObjectSection, ObjectSegment, ObjectSymbol};
use object::{SectionFlags, SegmentFlags};
use std::borrow::Cow;
use std::fmt;
use std::io::Read;
use std::ops::{Range, RangeInclusive};
use xz2::read::XzDecoder;
use xz2::stream::Stream;

/// The section with a compressed ELF file of symbols.
const PACKED: &str = ".gnu_debugdata";

/// What [`PACKED`] may have at most when it is decompressed, in bytes, and what the decoder may take.
const PACKED_LIMIT: u64 = 128 << 20;

/// What an ELF file is, by its `e_type`.
#[derive(Clone, Copy, Debug, PartialEq, Eq)]
pub enum Kind {
    /// A program that is always loaded at the addresses in its headers (`ET_EXEC`).
    Executable,
    /// A shared library, or a program that can be loaded anywhere (`ET_DYN`).
    Shared,
    /// An unlinked object (`ET_REL`).
    Relocatable,
    /// A core file (`ET_CORE`).
    Core,
    /// Another `e_type`.
    Other(u16),
}

/// An ELF file.
pub struct Program<'data> {
    data: &'data [u8],
    file: object::File<'data>,
    layout: Layout,
    target: Target,
    machine: u16,
    kind: Kind,
    /// The functions that its separate file of debug information names, if that is used for names.
    separate: Functions<'data>,
}

/// The bytes of a section, decompressed and with its relocations applied.
#[derive(Clone, Debug, PartialEq, Eq)]
pub struct Section<'data> {
    /// The bytes.
    pub bytes: Cow<'data, [u8]>,
    /// The address of the first byte, 0 for a section that isn't loaded.
    pub address: u64,
    /// In an unlinked object, the offsets in the section of the fields whose relocation names a
    /// symbol that the object doesn't define, ascending.
    pub unresolved: Vec<u64>,
}

/// A part of a file that is loaded into memory (`PT_LOAD`).
#[derive(Clone, Copy, Debug, PartialEq, Eq)]
pub struct Segment {
    /// The address of its first byte.
    pub address: u64,
    /// How many bytes it has in memory.
    pub size: u64,
    /// The offset in the file of its first byte.
    pub offset: u64,
    /// How many of its bytes are in the file.
    pub file_size: u64,
    /// Whether it may be executed.
    pub is_executable: bool,
    /// Whether it may be written to.
    pub is_writable: bool,
}

/// Why a file or a section can't be read.
#[derive(Clone, Debug, PartialEq, Eq)]
pub enum ProgramError {
    /// The file doesn't begin as an ELF file; of this kind it is, if that is known.
    NotElf(Option<OtherFile>),
    /// The headers of the ELF file are wrong.
    Elf(String),
    /// The sections of an unlinked object don't fit below the highest address.
    Layout,
    /// Two sections with bytes have the same name.
    Repeated(&'static str),
    /// A section's bytes aren't in the file, or can't be decompressed.
    Section(&'static str, String),
    /// A compressed section claims more decompressed bytes than [`DECOMPRESSED_LIMIT`], or more
    /// than its compressed bytes can make.
    TooLarge(&'static str, u64),
    /// The relocation of the field at this offset of this section can't be applied.
    Relocation(&'static str, u64, RelocationError),
}

impl<'data> Program<'data> {
    /// Reads the headers of a file.
    pub fn read(data: &'data [u8]) -> Result<Self, ProgramError> {
        if !data.starts_with(&elf::ELFMAG) {
            return Err(ProgramError::NotElf(OtherFile::of(data)));
        }
        let file = object::File::parse(data).map_err(|error| ProgramError::Elf(error.to_string()))?;
        let order = if file.is_little_endian() { Order::Little } else { Order::Big };
        let address_size = if file.is_64() { AddressSize::Eight } else { AddressSize::Four };
        let target = Target { order, address_size };
        let half = |at: usize| data.get(at..at + 2).map_or(0, |bytes| target.number(bytes) as u16);
        let (elf_type, machine) = (half(16), half(18));
        let layout = Layout::of(&file, elf_type, target).map_err(|_| ProgramError::Layout)?;
        let kind = match elf_type {
            elf::ET_EXEC => Kind::Executable,
            elf::ET_DYN => Kind::Shared,
            elf::ET_REL => Kind::Relocatable,
            elf::ET_CORE => Kind::Core,
            other => Kind::Other(other),
        };
        Ok(Program { data, file, layout, target, machine, kind, separate: Functions::default() })
    }

    /// The same program, with the functions that its separate file of debug information names, too.
    #[must_use]
    pub fn with_names_of(self, separate: &Program<'data>) -> Self {
        Program { separate: separate.own_functions(), ..self }
    }

    /// The byte order and the address size.
    pub fn target(&self) -> Target {
        self.target
    }

    /// The machine's number (`e_machine`).
    pub fn machine(&self) -> u16 {
        self.machine
    }

    /// What the file is, by its `e_type`.
    pub fn kind(&self) -> Kind {
        self.kind
    }

    /// Whether the file names a dynamic linker, or is always loaded at the same addresses, as programs do. So
    /// does the C library.
    pub fn is_program(&self) -> bool {
        self.kind == Kind::Executable || self.has_bytes(".interp")
    }

    /// The address of the program's first instruction (`e_entry`), 0 if the file has none.
    pub fn entry(&self) -> u64 {
        self.file.entry()
    }

    /// The section `.debug_frame`, if the file has it and it has bytes.
    pub fn debug_frame(&self) -> Result<Option<Section<'data>>, ProgramError> {
        self.section(".debug_frame")
    }

    /// The section `.debug_loclists`, if the file has it and it has bytes.
    pub fn debug_loclists(&self) -> Result<Option<Section<'data>>, ProgramError> {
        self.section(".debug_loclists")
    }

    /// The section `.eh_frame`, if the file has it and it has bytes. If the file has no section
    /// headers, the segment `PT_GNU_EH_FRAME` leads to it.
    pub fn eh_frame(&self) -> Result<Option<Section<'data>>, ProgramError> {
        match self.file.sections().next() {
            Some(_) => self.section(".eh_frame"),
            None => Ok(self.eh_frame_by_segment()),
        }
    }

    /// The section `.sframe`, if the file has it and it has bytes.
    pub fn sframe(&self) -> Result<Option<Section<'data>>, ProgramError> {
        self.section(".sframe")
    }

    /// What has to be known of a frame section of this program, besides its bytes, to read it.
    pub fn format(&self, name: Name, section: &Section<'_>) -> Format {
        let address = |name| {
            let section = self.file.section_by_name(name)?;
            Some(self.layout.address(section.index()))
        };
        Format {
            name,
            target: self.target,
            machine: self.machine,
            address: section.address,
            text: address(".text"),
            data: address(".got.plt").or_else(|| address(".got")),
        }
    }

    /// The functions of both symbol tables, and of the one in `.gnu_debugdata` if it can be read. This
    /// takes time, so keep the result.
    pub fn functions(&self) -> Functions<'data> {
        self.all_functions().0
    }

    /// The [`functions`](Self::functions), and why `.gnu_debugdata` can't be read.
    pub(crate) fn all_functions(&self) -> (Functions<'data>, Option<ProgramError>) {
        let mut own = self.own_functions();
        if !self.separate.all().is_empty() {
            own = own.with(self.separate.clone());
        }
        match self.packed_functions() {
            Ok(Some(packed)) => (own.with(packed), None),
            Ok(None) => (own, None),
            Err(error) => (own, Some(error)),
        }
    }

    fn own_functions(&self) -> Functions<'data> {
        Functions::read(&self.file, &self.layout, self.machine, self.target)
    }

    /// The functions of the ELF file that `.gnu_debugdata` holds, compressed by xz. Distributions leave
    /// there the local functions of programs without a `.symtab`.
    fn packed_functions(&self) -> Result<Option<Functions<'static>>, ProgramError> {
        let bytes = match self.section(PACKED)? {
            Some(section) => decompress_packed(&section.bytes)?,
            None => return Ok(None),
        };
        Ok(Some(Program::read(&bytes)?.own_functions().into_owned()))
    }

    /// The address of a variable with this name, by the symbols of the file.
    pub(crate) fn variable(&self, name: &str) -> Option<u64> {
        let is_wanted = |symbol: &object::Symbol<'data, '_>| !symbol.is_undefined() && symbol.name() == Ok(name);
        let mut symbols = self.file.dynamic_symbols().chain(self.file.symbols());
        symbols.find(is_wanted).map(|symbol| symbol.address())
    }

    /// The file's build id, which its file of debug information has too.
    pub fn build_id(&self) -> Option<&'data [u8]> {
        self.file.build_id().ok().flatten()
    }

    /// The name and the checksum (CRC-32) of the file of debug information that `.gnu_debuglink`
    /// names.
    pub(crate) fn debug_link(&self) -> Option<(&'data [u8], u32)> {
        self.file.gnu_debuglink().ok().flatten()
    }

    /// The name and the build id of the file that `.gnu_debugaltlink` names.
    pub(crate) fn debug_alt_link(&self) -> Option<(&'data [u8], &'data [u8])> {
        self.file.gnu_debugaltlink().ok().flatten()
    }

    /// The bytes of a section of debug information, decompressed.
    pub(crate) fn debug_section(&self, name: &'static str) -> Result<Option<Cow<'data, [u8]>>, ProgramError> {
        Ok(self.section(name)?.map(|section| section.bytes))
    }

    /// The same, but what follows the first `end` bytes may be missing: it isn't decompressed.
    pub(crate) fn debug_section_before(
        &self,
        name: &'static str,
        end: usize,
    ) -> Result<Option<Cow<'data, [u8]>>, ProgramError> {
        match self.stored(name)?.and_then(|stored| stored.bytes_before(end)) {
            Some(bytes) => Ok(Some(Cow::Owned(bytes))),
            None => self.debug_section(name),
        }
    }

    /// The same, but a large section that is compressed is decompressed into a file, if there is room for one.
    pub(crate) fn debug_section_in_file(
        &self,
        name: &'static str,
    ) -> Result<Option<SectionBytes<'data>>, ProgramError> {
        match self.stored(name)?.and_then(|stored| stored.in_file()) {
            Some(bytes) => Ok(Some(SectionBytes::InFile(bytes))),
            None => Ok(self.debug_section(name)?.map(SectionBytes::Held)),
        }
    }

    /// The section with this name as it is in the file, if it needs no relocations.
    fn stored(&self, name: &'static str) -> Result<Option<Stored<'data>>, ProgramError> {
        let found = self.only(name)?.filter(|_| self.kind != Kind::Relocatable);
        let stored = found.map(|found| Stored::of(&found, self.target)).transpose();
        stored.map_err(|why| ProgramError::decompressing(name, why))
    }

    /// Whether the file has a section with this name that has bytes in the file, compressed or not.
    pub fn has_bytes(&self, name: &'static str) -> bool {
        self.sections_named(name).next().is_some()
    }

    /// Whether the file has a section with this name.
    pub fn has_section(&self, name: &str) -> bool {
        self.file.section_by_name(name).is_some()
    }

    /// The code and data as they are in memory. In an unlinked object, each section has the address that
    /// its functions have, and its relocations are applied as far as they are known.
    pub fn image(&self) -> Image<'data> {
        let (file, layout, machine, target) = (&self.file, &self.layout, self.machine, self.target);
        match self.kind {
            Kind::Relocatable => Image::of_object(relocate::Object { file, layout, machine, target }),
            _ => Image::of_linked(file),
        }
    }

    /// The memory that stays as it is in a process where the file is loaded at `load`, as far as the file says
    /// what is there: read-only segments, and `.data.rel.ro`. Empty for an unlinked object.
    pub fn constants(&self, load: u64) -> Constants<'data> {
        let (file, machine, target, is_program) = (&self.file, self.machine, self.target, self.is_program());
        match self.kind {
            Kind::Executable | Kind::Shared => {
                constants::Loaded { file, machine, target, load, is_program }.constants()
            }
            _ => Vec::new(),
        }
    }

    /// The parts of the file that are loaded into memory.
    pub fn segments(&self) -> Vec<Segment> {
        let segment = |segment: object::Segment<'data, '_>| {
            let (offset, file_size) = segment.file_range();
            let flags = match segment.flags() {
                SegmentFlags::Elf { p_flags } => p_flags,
                _ => 0,
            };
            let (is_executable, is_writable) = (flags & elf::PF_X != 0, flags & elf::PF_W != 0);
            let (address, size) = (segment.address(), segment.size());
            Segment { address, size, offset, file_size, is_executable, is_writable }
        };
        self.file.segments().map(segment).collect()
    }

    /// The address at which the beginning of the file is, if it is loaded where it is linked for.
    pub fn image_address(&self) -> u64 {
        let segments = self.segments();
        let first = segments.iter().min_by_key(|segment| segment.address);
        first.map_or(0, |first| self.target.wrap(first.address.wrapping_sub(first.offset)))
    }

    /// The sections with code that are loaded, each with its name and its addresses. The executable segments, if
    /// the file has no such sections.
    pub fn code_sections(&self) -> Vec<(String, Range<u64>)> {
        let range = |address: u64, size: u64| address..address.saturating_add(size);
        let is_code = |section: &object::Section<'_, '_>| {
            let flags = section.flags();
            is_loaded_section(flags)
                && matches!(flags, SectionFlags::Elf { sh_flags } if sh_flags & u64::from(elf::SHF_EXECINSTR) != 0)
        };
        let named = |section: object::Section<'_, '_>| {
            let name = String::from_utf8_lossy(section.name_bytes().unwrap_or(b"?")).into_owned();
            (name, range(self.layout.address(section.index()), section.size()))
        };
        let sections: Vec<_> = self.file.sections().filter(is_code).map(named).collect();
        if !sections.is_empty() {
            return sections;
        }
        let segments = self.segments().into_iter().filter(|segment| segment.is_executable);
        segments.map(|segment| ("segment".to_string(), range(segment.address, segment.size))).collect()
    }

    /// The addresses of the file's code in a process where the file is loaded at `load`: from the
    /// first to the last one of its executable segments. `None` if it has no such segments. Empty if
    /// the addresses would pass the highest one.
    pub fn code(&self, load: u64) -> Option<RangeInclusive<u64>> {
        let segments = self.segments();
        let code = segments.iter().filter(|segment| segment.is_executable && segment.size > 0);
        let first = code.clone().map(|segment| segment.address).min()?;
        let last = code.map(|segment| segment.address.saturating_add(segment.size - 1)).max()?;
        let loaded = |address: u64| self.target.wrap(address.wrapping_add(load));
        Some(loaded(first)..=loaded(last))
    }

    /// The sections with this name, compressed or not. Sections without bytes don't count. In a separate
    /// file of debug information, the sections that it leaves out are listed without bytes. An object can
    /// have an empty section and another section with the same name.
    fn sections_named<'s>(&'s self, name: &'static str) -> impl Iterator<Item = object::Section<'data, 's>> {
        let compressed = name.strip_prefix('.').unwrap_or(name);
        let is_named = move |found: &str| found == name || found.strip_prefix(".z") == Some(compressed);
        let has_bytes = |section: &object::Section<'data, 's>| section.file_range().map_or(false, |(_, size)| size > 0);
        let sections = self.file.sections().filter(has_bytes);
        sections.filter(move |section| section.name().map_or(false, is_named))
    }

    /// The section with this name, if there is one.
    fn only<'s>(&'s self, name: &'static str) -> Result<Option<object::Section<'data, 's>>, ProgramError> {
        let mut named = self.sections_named(name);
        match (named.next(), named.next()) {
            (found, None) => Ok(found),
            (_, Some(_)) => Err(ProgramError::Repeated(name)),
        }
    }

    fn section(&self, name: &'static str) -> Result<Option<Section<'data>>, ProgramError> {
        let found = match self.only(name)? {
            Some(found) => found,
            None => return Ok(None),
        };
        let bytes = Stored::of(&found, self.target).and_then(|stored| stored.bytes());
        let bytes = bytes.map_err(|why| ProgramError::decompressing(name, why))?;
        let mut section = Section { bytes, address: 0, unresolved: Vec::new() };
        if is_loaded_section(found.flags()) {
            section.address = self.layout.address(found.index());
        }
        if self.kind == Kind::Relocatable && found.relocations().next().is_some() {
            let (file, layout, machine, target) = (&self.file, &self.layout, self.machine, self.target);
            let object = relocate::Object { file, layout, machine, target };
            let applied = object.relocate(&found, section.bytes.to_mut());
            section.unresolved = applied.map_err(|(offset, error)| ProgramError::Relocation(name, offset, error))?;
        }
        Ok(Some(section))
    }
}

impl ProgramError {
    /// Why the section with this name can't be decompressed.
    fn decompressing(name: &'static str, why: NotDecompressed) -> Self {
        match why {
            NotDecompressed::Damaged(error) => ProgramError::Section(name, error),
            NotDecompressed::TooLarge(size) => ProgramError::TooLarge(name, size),
        }
    }
}

/// Decompresses the bytes of [`PACKED`].
fn decompress_packed(bytes: &[u8]) -> Result<Vec<u8>, ProgramError> {
    let fail = |error: String| ProgramError::Section(PACKED, error);
    let decoder = Stream::new_stream_decoder(PACKED_LIMIT, 0).map_err(|error| fail(error.to_string()))?;
    let mut unpacked = Vec::new();
    let read = XzDecoder::new_stream(bytes, decoder).take(PACKED_LIMIT + 1).read_to_end(&mut unpacked);
    match read {
        Ok(size) if size as u64 > PACKED_LIMIT => Err(ProgramError::TooLarge(PACKED, size as u64)),
        Ok(_) => Ok(unpacked),
        Err(error) => Err(fail(error.to_string())),
    }
}

impl fmt::Display for ProgramError {
    fn fmt(&self, f: &mut fmt::Formatter<'_>) -> fmt::Result {
        match self {
            ProgramError::NotElf(Some(other)) => other.fmt(f),
            ProgramError::NotElf(None) => f.write_str("not an ELF file"),
            ProgramError::Elf(error) => write!(f, "not an ELF file that can be read: {}", error),
            ProgramError::Layout => f.write_str("the sections of the object don't fit its addresses"),
            ProgramError::Repeated(name) => write!(f, "the file has several sections {}", name),
            ProgramError::Section(name, error) => write!(f, "{}: {}", name, error),
            ProgramError::TooLarge(name, size) => write!(f, "{} can't have {} bytes", name, size),
            ProgramError::Relocation(name, offset, error) => write!(f, "{} at {:#x}: {}", name, offset, error),
        }
    }
}

impl std::error::Error for ProgramError {
    fn source(&self) -> Option<&(dyn std::error::Error + 'static)> {
        match self {
            ProgramError::Relocation(_, _, error) => Some(error),
            _ => None,
        }
    }
}
