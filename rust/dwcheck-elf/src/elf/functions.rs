//! Looks up the functions of an ELF file, by address or by name, or similar names.

use crate::elf::demangle::{is_shown_as, similar_name, STUB};
use crate::elf::layout::Layout;
use crate::elf::plt::plt_stubs;
use dwcheck_types::target::Target;
use object::elf;
use object::read::{Object, ObjectSection, ObjectSymbol, SymbolSection};
use object::{SectionFlags, SymbolFlags};
use rustc_hash::FxHashMap;
use std::borrow::Cow;
use std::fmt;

/// The most names that [`NameError::Unknown`] has.
pub const SIMILAR: usize = 3;

/// The rank of a local function.
const FUNCTION: u8 = 3;

/// A symbol of a function, a label in code, or a stub of the procedure linkage table.
#[derive(Clone, Debug, PartialEq, Eq)]
pub struct Function<'data> {
    /// The name, as it is in the file. The name of a stub is that of the function that it jumps to,
    /// and `@plt`.
    pub name: Cow<'data, str>,
    /// The first address.
    pub begin: u64,
    /// The number of bytes, 0 if it isn't known.
    pub size: u64,
    /// The end address of its section if that section has code, else the end address of the
    /// function.
    limit: u64,
    /// Says which symbols are used if several have the same name: those with the highest rank.
    /// Functions rank above labels. Among functions, and among labels, global symbols rank above
    /// weak ones, and weak ones above local ones.
    rank: u8,
}

/// Why a name has no address.
#[derive(Clone, Debug, PartialEq, Eq)]
pub enum NameError {
    /// No function has the name. The list has the names of functions that may be meant, as they
    /// are shown, at most [`SIMILAR`] of them.
    Unknown(String, Vec<String>),
    /// Several functions have the name. These are their addresses.
    Ambiguous(String, Vec<u64>),
    /// The text after the plus sign isn't a number.
    Offset(String),
    /// The sum of the function's address and the offset doesn't fit in 64 bits.
    Sum(String),
}

/// All functions of a file, by address.
#[derive(Clone, Debug, Default)]
pub struct Functions<'data> {
    functions: Vec<Function<'data>>,
    /// For each function in `functions`, the highest end address of that function and of those
    /// before it in the list.
    ends: Vec<u64>,
}

impl<'data> Function<'data> {
    /// The address after the function's last byte. A function of unknown size ends where it begins.
    pub(crate) fn end(&self) -> u64 {
        self.begin.saturating_add(self.size)
    }
}

impl<'data> Functions<'data> {
    /// Reads the functions in `.symtab` and `.dynsym`, and the stubs of the procedure linkage table.
    /// Leaves out symbols whose names aren't UTF-8.
    pub(crate) fn read(file: &object::File<'data>, layout: &Layout, machine: u16, target: Target) -> Self {
        let code = code_sections(file, layout);
        let symbols = file.symbols().chain(file.dynamic_symbols());
        let named = symbols.filter_map(|symbol| function_of_symbol(&symbol, layout, &code, machine, target));
        let stubs = plt_stubs(file, machine).into_iter().map(|stub| Function {
            name: Cow::Owned(format!("{}{}", stub.function, STUB)),
            begin: stub.range.start,
            size: stub.range.end - stub.range.start,
            limit: stub.range.end,
            rank: FUNCTION,
        });
        Functions::of(named.chain(stubs).collect())
    }

    /// These functions, with their own copies of the names.
    pub(crate) fn into_owned(self) -> Functions<'static> {
        let own = |function: Function<'data>| Function { name: Cow::Owned(function.name.into_owned()), ..function };
        Functions { functions: self.functions.into_iter().map(own).collect(), ends: self.ends }
    }

    /// These functions, and those of another file that has the same code, such as a file of debug
    /// information.
    #[must_use]
    pub fn with(mut self, other: Functions<'data>) -> Self {
        self.functions.extend(other.functions);
        Functions::of(self.functions)
    }

    fn of(mut functions: Vec<Function<'data>>) -> Self {
        let key = |function: &Function<'data>| (function.begin, function.rank, function.size);
        functions.sort_by(|one, other| key(one).cmp(&key(other)).then_with(|| one.name.cmp(&other.name)));
        functions.dedup();
        let ends = functions.iter().scan(0, |highest: &mut u64, function| {
            *highest = function.end().max(*highest);
            Some(*highest)
        });
        let ends = ends.collect();
        Functions { functions, ends }
    }

    /// All functions, in ascending order of address.
    pub fn all(&self) -> &[Function<'data>] {
        &self.functions
    }

    /// The function that contains an address, and the distance from the function's first address.
    /// If several functions contain the address, it is the one that begins last.
    ///
    /// If no function contains the address, the nearest symbol at or before it is used, but only if
    /// that symbol has size 0 and is in the same section. Otherwise the result is `None`.
    pub fn at(&self, address: u64) -> Option<(&Function<'data>, u64)> {
        let count = self.functions.partition_point(|function| function.begin <= address);
        let before = self.functions.get(..count)?.iter().zip(&self.ends).rev();
        let exact = before.clone().next().map(|(function, _)| function);
        let found = before
            .take_while(|(_, end)| **end > address)
            .map(|(function, _)| function)
            .find(|function| function.end() > address);
        let found = found.or_else(|| exact.filter(|function| function.size == 0 && address < function.limit))?;
        Some((found, address - found.begin))
    }

    /// The functions whose first address is this one: one function with all its names.
    pub(crate) fn beginning_at(&self, address: u64) -> impl Iterator<Item = &Function<'data>> {
        let first = self.functions.partition_point(|function| function.begin < address);
        let rest = self.functions.get(first..).unwrap_or(&[]);
        rest.iter().take_while(move |function| function.begin == address)
    }

    /// The address of the function with exactly this name: the name in the file, or else the
    /// demangled name, as [`FunctionOffset`](crate::elf::function_offset::FunctionOffset) shows it. If several symbols have the name,
    /// functions are preferred to labels; after that, global symbols to weak ones, and weak ones to
    /// local ones. It is an error if the preferred symbols have different addresses.
    pub fn address_of(&self, name: &str) -> Result<u64, NameError> {
        match self.address_of_symbol(name) {
            Err(NameError::Unknown(..)) => self.only(name, |symbol| is_shown_as(symbol, name)),
            found => found,
        }
    }

    /// The address of the function with this name in the file. Demangled names aren't compared.
    fn address_of_symbol(&self, name: &str) -> Result<u64, NameError> {
        self.only(name, |symbol| symbol == name)
    }

    /// The address of the functions whose names in the file satisfy `has_name`. Functions whose
    /// rank is below the highest one among these are ignored. The rest have to have the same
    /// address. `name` is for the error.
    fn only(&self, name: &str, has_name: impl Fn(&str) -> bool) -> Result<u64, NameError> {
        let named: Vec<_> = self.functions.iter().filter(|function| has_name(&function.name)).collect();
        let best = named.iter().map(|function| function.rank).max();
        let best = best.ok_or_else(|| NameError::Unknown(name.to_string(), Vec::new()))?;
        let preferred = named.iter().filter(|function| function.rank == best);
        let mut addresses: Vec<_> = preferred.map(|function| function.begin).collect();
        addresses.dedup();
        match addresses.as_slice() {
            [address] => Ok(*address),
            _ => Err(NameError::Ambiguous(name.to_string(), addresses)),
        }
    }

    /// The address that a text stands for: a function's name, or a name, a plus sign and a number,
    /// such as `main+4`, `main+0x4` or `twice(int)+4`. The number follows the last plus sign. If no
    /// number follows that sign, the sign is part of the name, as in `operator+(A, A)`.
    pub fn parse(&self, text: &str) -> Result<u64, NameError> {
        // A name in the file may itself end with a plus sign and a number, so the whole text is
        // looked up first.
        match self.address_of_symbol(text) {
            Err(NameError::Unknown(..)) => {}
            found => return found,
        }
        let (name, offset) = split_offset(text);
        match self.address_of(name) {
            Ok(begin) => begin.checked_add(offset).ok_or_else(|| NameError::Sum(text.to_string())),
            Err(NameError::Unknown(..)) if self.names_before_plus(name) => Err(NameError::Offset(text.to_string())),
            Err(NameError::Unknown(name, _)) => {
                let similar = self.similar(&name);
                Err(NameError::Unknown(name, similar))
            }
            Err(error) => Err(error),
        }
    }

    /// The names of up to [`SIMILAR`] functions that `name` may stand for, by address, each once.
    fn similar(&self, name: &str) -> Vec<String> {
        let mut found = Vec::new();
        for shown in self.functions.iter().filter_map(|function| similar_name(&function.name, name)) {
            if !found.contains(&shown) {
                found.push(shown);
            }
            if found.len() == SIMILAR {
                break;
            }
        }
        found
    }

    /// Whether the part of the text before its last plus sign is the name of a function.
    fn names_before_plus(&self, text: &str) -> bool {
        let before = text.rsplit_once('+').map(|(name, _)| name.trim_end());
        before.map_or(false, |name| !matches!(self.address_of(name), Err(NameError::Unknown(..))))
    }
}

/// Splits a text such as `main+4` into the name and the offset. If no number follows the last plus
/// sign, the name is the whole text, and the offset is 0.
fn split_offset(text: &str) -> (&str, u64) {
    let split =
        text.rsplit_once('+').and_then(|(name, offset)| Some((name.trim_end(), parse_number(offset.trim_start())?)));
    split.unwrap_or((text, 0))
}

fn parse_number(text: &str) -> Option<u64> {
    let (digits, radix) = match text.strip_prefix("0x") {
        Some(digits) => (digits, 16),
        None => (text, 10),
    };
    let plain = !digits.is_empty() && digits.bytes().all(|byte| byte.is_ascii_hexdigit());
    u64::from_str_radix(digits, radix).ok().filter(|_| plain)
}

/// Maps the index of each section that has code to the section's end address.
fn code_sections(file: &object::File<'_>, layout: &Layout) -> FxHashMap<usize, u64> {
    let is_code = |flags| match flags {
        SectionFlags::Elf { sh_flags } => sh_flags & u64::from(elf::SHF_EXECINSTR) != 0,
        _ => false,
    };
    let code = file.sections().filter(|section| is_code(section.flags()));
    code.map(|section| (section.index().0, layout.address(section.index()).saturating_add(section.size()))).collect()
}

/// Makes a [`Function`] of a symbol. `None` if the symbol is neither a function nor a label in
/// code, isn't in a section, or has no name in UTF-8.
fn function_of_symbol<'data>(
    symbol: &object::Symbol<'data, '_>,
    layout: &Layout,
    code: &FxHashMap<usize, u64>,
    machine: u16,
    target: Target,
) -> Option<Function<'data>> {
    let info = match symbol.flags() {
        SymbolFlags::Elf { st_info, .. } => st_info,
        _ => return None,
    };
    let (is_function, is_label) = match info & 0xf {
        elf::STT_FUNC | elf::STT_GNU_IFUNC => (true, false),
        elf::STT_NOTYPE => (false, true),
        _ => return None,
    };
    let section = match symbol.section() {
        SymbolSection::Section(index) => index,
        _ => return None,
    };
    let code_end = code.get(&section.0).copied();
    let name = symbol.name().ok().filter(|name| !name.is_empty())?;
    // On arm, aarch64 and riscv, labels that begin with a dollar sign only mark where code or data
    // begins.
    if is_label && (code_end.is_none() || name.starts_with('$')) {
        return None;
    }
    let mut begin = target.wrap(layout.symbol_base(section).wrapping_add(symbol.address()));
    if machine == elf::EM_ARM && is_function {
        begin &= !1; // The lowest bit says that the code is Thumb.
    }
    let binding = match info >> 4 {
        elf::STB_GLOBAL => 2,
        elf::STB_WEAK => 1,
        _ => 0,
    };
    let limit = code_end.unwrap_or_else(|| begin.saturating_add(symbol.size()));
    let rank = binding + if is_function { FUNCTION } else { 0 };
    Some(Function { name: Cow::Borrowed(name), begin, size: symbol.size(), limit, rank })
}

/// Writes names that may be meant, such as `; there are f(int) and f(long)`.
fn write_similar_names(f: &mut fmt::Formatter<'_>, similar: &[String]) -> fmt::Result {
    match similar {
        [] => Ok(()),
        [only] => write!(f, "; there is {}", only),
        [others @ .., last] => write!(f, "; there are {} and {}", others.join(", "), last),
    }
}

impl fmt::Display for NameError {
    fn fmt(&self, f: &mut fmt::Formatter<'_>) -> fmt::Result {
        match self {
            NameError::Unknown(name, similar) => {
                write!(f, "no function has the name {}", name)?;
                if !name.is_empty() && name.bytes().all(|byte| byte.is_ascii_hexdigit()) {
                    f.write_str(" (an address begins with 0x)")?;
                }
                write_similar_names(f, similar)
            }
            NameError::Ambiguous(name, addresses) => {
                write!(f, "{} functions have the name {}:", addresses.len(), name)?;
                addresses.iter().try_for_each(|address| write!(f, " {:#x}", address))
            }
            NameError::Offset(text) => write!(f, "no number follows the plus sign in {}", text),
            NameError::Sum(text) => write!(f, "the address {} is past the highest one", text),
        }
    }
}

impl std::error::Error for NameError {}
