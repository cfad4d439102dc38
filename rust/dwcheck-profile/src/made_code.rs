//! The unwind tables of code that a compiler made at run time, as the file `jit-PID.dump` has them: before the record
//! of a function, one with its `.eh_frame` section.
//!
//! V8 writes these, and perf reads them: the section is taken to be in memory after the code, at the next multiple of 8
//! bytes from the code's begin. The specification of the file has the search table first, as LLVM writes it; it then
//! has the address of the section, which may have rows of all functions up to the next such record.

use super::jitdump::{Dump, Record};
use dwcheck_elf::frames::{Format, FrameSection, Name};
use dwcheck_elf::internal::SectionTable;
use dwcheck_elf::program::Section;
use dwcheck_types::target::{AddressSize, Target};
use object::elf::EM_386;
use std::borrow::Cow;
use std::collections::HashMap;
use std::io::{Read, Seek};
use std::ops::Range;
use std::rc::Rc;

/// The version of a search table, which is its first byte.
const VERSION: u8 = 1;

/// The length of what a search table begins with: its version and three encodings.
const HEADER_BEGIN: usize = 4;

/// What the bits of an encoding say: to what a number is relative, which is 0 for nothing, and its form.
const RELATIVE: u8 = 0xf0;
const FORM: u8 = 0x0f;

/// The forms of numbers of eight bytes: an address of this machine, without a sign, with one.
const EIGHT_BYTES: [u8; 3] = [0x00, 0x04, 0x0c];

/// What compilers made at run time.
#[derive(Debug)]
pub(super) struct MadeCode {
    pub target: Target,
    /// The machine's number (`e_machine`).
    pub machine: u16,
    pub tables: Vec<SectionTable<'static>>,
    /// The addresses of functions, ascending, with the indices of their tables. No two share an address.
    pub ranges: Vec<(Range<u64>, usize)>,
}

/// An `.eh_frame` section.
#[derive(Clone, Debug, PartialEq, Eq)]
struct EhFrame {
    /// Where it is in memory. `None` if it comes after the code.
    address: Option<u64>,
    bytes: Vec<u8>,
}

/// A function.
#[derive(Clone, Debug, PartialEq, Eq)]
struct Function {
    addresses: Range<u64>,
    section: Option<Rc<EhFrame>>,
}

impl MadeCode {
    /// What a file has, with at most `most` bytes of sections.
    pub fn of<R: Read + Seek>(dump: Dump<R>, most: usize) -> MadeCode {
        let machine = dump.machine;
        let address_size = if machine == EM_386 { AddressSize::Four } else { AddressSize::Eight };
        let target = Target { order: dump.order(), address_size };
        let mut made = MadeCode { target, machine, tables: Vec::new(), ranges: Vec::new() };
        // The indices of tables that are about several functions.
        let mut shared: HashMap<*const EhFrame, usize> = HashMap::new();
        for Function { addresses, section } in alone(functions_of(dump, target, most)) {
            let section = match section {
                Some(section) => section,
                None => continue,
            };
            let known = shared.get(&Rc::as_ptr(&section)).copied();
            if let Some(index) = known.or_else(|| made.add_table(&section, &addresses)) {
                shared.extend(section.address.map(|_| (Rc::as_ptr(&section), index)));
                made.ranges.push((addresses, index));
            }
        }
        made
    }

    /// Adds the table of a function, if it is about that. Returns its index.
    fn add_table(&mut self, section: &EhFrame, addresses: &Range<u64>) -> Option<usize> {
        let address = section.address.unwrap_or_else(|| after_code(addresses));
        let format =
            Format { name: Name::EhFrame, target: self.target, machine: self.machine, address, text: None, data: None };
        let bytes = Cow::Owned(section.bytes.clone());
        let source = Section { bytes, address, unresolved: Vec::new() };
        let table = SectionTable::of(FrameSection { format, source });
        // If the section isn't where it is taken to be, its rows are those of other addresses.
        (section.address.is_some() || is_about(&table, addresses)).then(|| {
            self.tables.push(table);
            self.tables.len() - 1
        })
    }
}

/// Whether the FDEs of a table are in a function, and one of them begins with it.
fn is_about(table: &SectionTable<'_>, addresses: &Range<u64>) -> bool {
    let fdes = || (0..table.count()).map(|fde| table.addresses(fde)).filter(|fde| !fde.is_empty());
    let end = after_code(addresses);
    fdes().all(|fde| addresses.start <= fde.start && fde.end <= end) && fdes().any(|fde| fde.start == addresses.start)
}

/// Where the section of a function is, unless something else is said.
fn after_code(addresses: &Range<u64>) -> u64 {
    let size = addresses.end - addresses.start;
    addresses.start.saturating_add(size.checked_add(7).map_or(size, |size| size & !7))
}

/// All functions in the order in which they were made, with their sections.
fn functions_of<R: Read + Seek>(dump: Dump<R>, target: Target, most: usize) -> Vec<Function> {
    let (mut functions, mut by_index) = (Vec::new(), HashMap::new());
    let (mut next, mut size): (Option<Rc<EhFrame>>, usize) = (None, 0);
    let addresses = |begin: u64, size: u64| begin..begin.saturating_add(size);
    for record in dump {
        match record {
            Record::Unwinding { data, header } => {
                size = size.saturating_add(data.len());
                if size > most {
                    break;
                }
                next = EhFrame::of(data, header, target).map(Rc::new);
            }
            Record::Load { index, begin, size, .. } => {
                let section = next.clone();
                next = next.filter(|section| section.address.is_some());
                by_index.insert(index, section.clone());
                functions.push(Function { addresses: addresses(begin, size), section });
            }
            Record::Move { index, begin, size } => {
                // A section elsewhere is about the old addresses.
                let section = by_index.get(&index).cloned().flatten().filter(|section| section.address.is_none());
                functions.push(Function { addresses: addresses(begin, size), section });
            }
            Record::Other => {}
        }
    }
    functions
}

/// Those functions that share no address with another one, by their addresses: where code was replaced, it isn't known
/// which one a sample has met.
fn alone(mut functions: Vec<Function>) -> Vec<Function> {
    functions.sort_by_key(|function| function.addresses.start);
    functions.dedup();
    let mut is_alone = vec![true; functions.len()];
    let (mut reach, mut last_alone) = (0, None);
    for (index, Function { addresses, .. }) in functions.iter().enumerate() {
        if index > 0 && addresses.start < reach {
            is_alone[index] = false;
            // The only one before it of which nothing was known that shares an address.
            if let Some(last) = last_alone.filter(|last: &usize| functions[*last].addresses.end > addresses.start) {
                is_alone[last] = false;
            }
        } else {
            last_alone = Some(index);
        }
        reach = reach.max(addresses.end);
    }
    functions.into_iter().zip(is_alone).filter(|(_, is_alone)| *is_alone).map(|(function, _)| function).collect()
}

impl EhFrame {
    /// The section in the data of a record, of which this many bytes are a search table. `None` if it is empty.
    fn of(mut data: Vec<u8>, header: u64, target: Target) -> Option<Self> {
        let header = usize::try_from(header).ok().filter(|header| *header <= data.len())?;
        let length = data.len() - header;
        let address = section_of_header(&data[..header], target);
        match address {
            Some(_) => drop(data.drain(..header)),
            None => data.truncate(length),
        }
        (length > 0).then_some(EhFrame { address, bytes: data })
    }
}

/// The address of the section that a search table has. `None` if it is no search table, or the address isn't absolute.
fn section_of_header(header: &[u8], target: Target) -> Option<u64> {
    match header {
        [VERSION, encoding, ..] if encoding & RELATIVE == 0 && EIGHT_BYTES.contains(&(encoding & FORM)) => {
            header.get(HEADER_BEGIN..HEADER_BEGIN + 8).map(|bytes| target.number(bytes))
        }
        _ => None,
    }
}
