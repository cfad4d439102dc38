//! What is timed with gimli: reading rows, lists and operations, and evaluating expressions. Unlike
//! dwcheck, gimli doesn't check a section before it reads it.

use crate::random::Random;
use gimli::{
    BaseAddresses, CommonInformationEntry, CieOrFde, DebugFrame, DebugLoc, DebugLocLists,
    EndianSlice, Encoding, Evaluation, EvaluationResult, EvaluationStorage, Expression, Format,
    FrameDescriptionEntry, LittleEndian, Location, LocationLists, LocationListsOffset,
    RawLocListEntry, Reader, UnwindContext, UnwindSection, Value,
};
use std::collections::HashMap;
use std::hint::black_box;

type Bytes<'a> = EndianSlice<'a, LittleEndian>;
type Cie<'a> = CommonInformationEntry<Bytes<'a>>;
type Fde<'a> = FrameDescriptionEntry<Bytes<'a>>;

/// Calls `each` with each FDE in order. Each CIE is parsed once.
fn each_fde<'a>(frame: &DebugFrame<Bytes<'a>>, mut each: impl FnMut(Fde<'a>)) {
    let bases = BaseAddresses::default();
    let mut cies: HashMap<usize, Cie<'a>> = HashMap::new();
    let mut entries = frame.entries(&bases);
    while let Some(entry) = entries.next().expect("an entry") {
        if let CieOrFde::Fde(partial) = entry {
            let fde = partial.parse(|section, bases, offset| {
                if let Some(cie) = cies.get(&offset.0) {
                    return Ok(cie.clone());
                }
                let cie = section.cie_from_offset(bases, offset)?;
                cies.insert(offset.0, cie.clone());
                Ok(cie)
            });
            each(fde.expect("an FDE"));
        }
    }
}

/// The sum of the end addresses of all rows.
fn rows(frame: &DebugFrame<Bytes<'_>>) -> u64 {
    let bases = BaseAddresses::default();
    let mut context = Box::new(UnwindContext::new());
    let mut sum = 0u64;
    each_fde(frame, |fde| {
        let mut table = fde.rows(frame, &bases, &mut context).expect("rows");
        while let Some(row) = table.next_row().expect("a row") {
            sum = sum.wrapping_add(row.end_address());
        }
    });
    sum
}

/// The sum of the end addresses of all rows of a section. For a process that does nothing else.
pub fn all_rows(bytes: &[u8]) -> u64 {
    let mut frame = DebugFrame::new(bytes, LittleEndian);
    frame.set_address_size(8);
    rows(&frame)
}

/// An index of the FDEs whose range isn't empty, in order of address: for each its first address,
/// the end of its range, and its offset. gimli has no such index, so its users make one.
fn index(frame: &DebugFrame<Bytes<'_>>) -> Vec<(u64, u64, usize)> {
    let mut index = Vec::new();
    each_fde(frame, |fde| {
        if fde.len() > 0 {
            index.push((fde.initial_address(), fde.initial_address() + fde.len(), fde.offset()));
        }
    });
    index.sort_unstable();
    index
}

/// Finds the FDE of an address with the index, and the row of the address. Returns the row's end.
fn look_up<'a>(
    frame: &DebugFrame<Bytes<'a>>,
    index: &[(u64, u64, usize)],
    context: &mut UnwindContext<Bytes<'a>>,
    address: u64,
) -> u64 {
    let bases = BaseAddresses::default();
    let place = index.partition_point(|range| range.0 <= address) - 1;
    let fde = frame
        .fde_from_offset(&bases, index[place].2.into(), DebugFrame::cie_from_offset)
        .expect("an FDE");
    let row = fde.unwind_info_for_address(frame, &bases, context, address);
    row.expect("a row").end_address()
}

/// A frame section for gimli, and the index of its FDEs.
pub struct Section<'a> {
    frame: DebugFrame<Bytes<'a>>,
    index: Vec<(u64, u64, usize)>,
}

impl<'a> Section<'a> {
    pub fn new(bytes: &'a [u8]) -> Self {
        let mut frame = DebugFrame::new(bytes, LittleEndian);
        frame.set_address_size(8);
        let index = index(&frame);
        Section { frame, index }
    }

    /// The sum of the end addresses of all rows.
    pub fn rows(&self) -> u64 {
        rows(&self.frame)
    }

    /// The sum of the end addresses of the rows at these addresses.
    pub fn look_up(&self, addresses: &[u64]) -> u64 {
        let mut context = Box::new(UnwindContext::new());
        let found = addresses.iter().map(|&address| look_up(&self.frame, &self.index, &mut context, address));
        found.fold(0, u64::wrapping_add)
    }

    /// 10,000 random addresses that FDEs cover.
    pub fn addresses(&self) -> Vec<u64> {
        let mut random = Random::new(1);
        let mut one = || {
            let (start, end, _) = *random.of(&self.index);
            start + random.next() % (end - start)
        };
        (0..10_000).map(|_| one()).collect()
    }
}

/// Reads each operation of an expression, and returns the number of operations.
fn operations(expression: Expression<Bytes<'_>>, encoding: Encoding) -> u64 {
    let mut operations = expression.operations(encoding);
    let mut count = 0;
    while let Some(operation) = operations.next().expect("an operation") {
        black_box(&operation);
        count += 1;
    }
    count
}

/// Reads a list, and each operation of its expressions. Returns the offset after the list, and the
/// number of operations.
fn list(lists: &LocationLists<Bytes<'_>>, section: Bytes<'_>, at: usize, encoding: Encoding) -> (usize, u64) {
    let mut entries = lists.raw_locations(LocationListsOffset(at), encoding).expect("a list");
    let (mut at, mut count) = (at, 0);
    while let Some(entry) = entries.next().expect("an entry") {
        black_box(&entry);
        let expression = match entry {
            RawLocListEntry::BaseAddress { .. } => {
                at += 9;
                continue;
            }
            RawLocListEntry::OffsetPair { data, .. }
            | RawLocListEntry::DefaultLocation { data }
            | RawLocListEntry::StartEnd { data, .. }
            | RawLocListEntry::StartLength { data, .. } => data,
            _ => panic!("an entry of another kind"),
        };
        at = expression.0.offset_from(section) + expression.0.len();
        count += operations(expression, encoding);
    }
    (at + 1, count)
}

/// Reads all lists of all tables, and returns the number of operations in their expressions.
pub fn all_lists(bytes: &[u8]) -> u64 {
    let section = EndianSlice::new(bytes, LittleEndian);
    let lists = LocationLists::new(DebugLoc::new(&[], LittleEndian), DebugLocLists::new(bytes, LittleEndian));
    let mut rest = section;
    let mut count = 0;
    while !rest.is_empty() {
        let (length, format) = rest.read_initial_length().expect("a length");
        let mut table = rest.split(length).expect("a table");
        table.skip(4).expect("a header");
        let offsets = table.read_u32().expect("a count");
        table.skip(offsets as usize * format.word_size() as usize).expect("offsets");
        let encoding = Encoding { address_size: 8, format, version: 5 };
        let mut at = table.offset_from(section);
        let end = at + table.len();
        while at < end {
            let (next, operations) = list(&lists, section, at, encoding);
            at = next;
            count += operations;
        }
    }
    count
}

/// Storage of a fixed size for gimli, so that it allocates nothing.
struct Fixed;

impl<R: Reader> EvaluationStorage<R> for Fixed {
    type Stack = [Value; 64];
    type ExpressionStack = [(R, R); 4];
    type Result = [gimli::Piece<R>; 32];
}

/// The result of an expression on a machine whose registers all contain 7.
pub fn evaluate(bytes: &[u8]) -> u64 {
    let encoding = Encoding { address_size: 8, format: Format::Dwarf32, version: 5 };
    let bytes = EndianSlice::new(black_box(bytes), LittleEndian);
    let mut evaluation = Evaluation::<_, Fixed>::new_in(bytes, encoding);
    let mut result = evaluation.evaluate().expect("a step");
    loop {
        result = match result {
            EvaluationResult::Complete => break,
            EvaluationResult::RequiresRegister { .. } => {
                evaluation.resume_with_register(Value::Generic(7)).expect("a step")
            }
            _ => panic!("asks for something else"),
        }
    }
    match evaluation.as_result()[0].location {
        Location::Address { address } => address,
        _ => 0,
    }
}
