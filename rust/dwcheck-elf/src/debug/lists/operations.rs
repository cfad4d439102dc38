//! Compares the operations of an expression with those of the rewritten one, as gimli reads both.

use super::unsupported::UNREADABLE;
use crate::debug::debug_info::Slice;
use dwcheck_types::codes::op;
use gimli::{Dwarf, Encoding, EndianSlice, Expression, Operation, Reader, RunTimeEndian, Unit, UnitOffset};
use std::fmt;

/// How many `DW_OP_GNU_uninit` of an expression are replaced.
const MAX_UNINIT: usize = 64;

/// The operations of an expression, each with its offset, and the offset of its end.
struct Operations<'a> {
    all: Vec<Place<'a>>,
    end: usize,
}

/// What has to be in the place of an operation.
enum Expected<'a> {
    /// This operation.
    Same(Operation<Slice<'a>>),
    /// A branch by this distance. The first field says whether it depends on a value.
    Branch(bool, i16),
    /// A hole that takes this many entries.
    Unsupported(usize),
    /// A hole that is a value by itself.
    Value,
}

/// How a rewritten expression differs from the original.
#[derive(Clone, Debug, PartialEq, Eq)]
pub(crate) enum Unlike {
    /// gimli can't read it.
    Rewritten(gimli::Error),
    /// gimli can't read an address to which the original refers.
    Address(gimli::Error),
    /// An operation has become another one.
    Became(String, String),
    /// Nothing stands for an operation that `dwcheck` doesn't know.
    NoHole(String),
    /// A branch is lost.
    LostBranch,
    /// A branch leads elsewhere.
    OtherTarget,
    /// A branch leads to an operation, and that of the original doesn't.
    Target,
    /// It has more operations.
    Added,
}

impl fmt::Display for Unlike {
    fn fmt(&self, f: &mut fmt::Formatter<'_>) -> fmt::Result {
        match self {
            Unlike::Rewritten(error) => write!(f, "the rewritten expression: {}", error),
            Unlike::Address(error) => error.fmt(f),
            Unlike::Became(original, rewritten) => write!(f, "{} became {}", original, rewritten),
            Unlike::NoHole(operation) => write!(f, "no hole for {}", operation),
            Unlike::LostBranch => f.write_str("a branch is lost"),
            Unlike::OtherTarget => f.write_str("a branch has another target"),
            Unlike::Target => f.write_str("a branch has a target"),
            Unlike::Added => f.write_str("operations are added"),
        }
    }
}

impl std::error::Error for Unlike {
    fn source(&self) -> Option<&(dyn std::error::Error + 'static)> {
        match self {
            Unlike::Rewritten(error) | Unlike::Address(error) => Some(error),
            _ => None,
        }
    }
}

/// Compares two expressions. False if gimli can't read the original.
pub(crate) fn same_operations<'a>(
    dwarf: &Dwarf<Slice<'a>>,
    unit: &Unit<Slice<'a>>,
    original: Expression<Slice<'a>>,
    rewritten: Expression<Slice<'_>>,
) -> Result<bool, Unlike> {
    let (encoding, order) = (unit.encoding(), original.0.endian());
    let mut bytes = original.0.slice().to_vec();
    let left_out = without_uninit(&mut bytes, order, encoding);
    let originals = operations_by_gimli(Expression(EndianSlice::new(&bytes, order)), encoding);
    if rewritten.0.slice() == UNREADABLE {
        let is_whole = originals
            .as_ref()
            .map_or(true, |originals| originals.all.iter().any(|(_, one)| is_wholly_unsupported(one)));
        if is_whole {
            return Ok(originals.is_ok());
        }
    }
    let originals = match originals {
        Ok(originals) => originals,
        Err(_) => return Ok(false),
    };
    let encoding = Encoding { version: 5, format: gimli::Format::Dwarf32, ..encoding };
    let rewritten = operations_by_gimli(rewritten, encoding).map_err(Unlike::Rewritten)?;
    compare_operations((dwarf, unit), &originals, &left_out, &rewritten).map(|()| true)
}

/// Whether a hole replaces the whole expression that has this operation.
fn is_wholly_unsupported(operation: &Operation<Slice<'_>>) -> bool {
    use Operation::{Bra, Call, Skip, WasmGlobal, WasmLocal, WasmStack};
    matches!(
        operation,
        Call { .. } | Bra { .. } | Skip { .. } | WasmGlobal { .. } | WasmLocal { .. } | WasmStack { .. }
    )
}

fn operations_by_gimli(expression: Expression<Slice<'_>>, encoding: Encoding) -> Result<Operations<'_>, gimli::Error> {
    let mut left = expression.operations(encoding);
    let mut all = Vec::new();
    loop {
        let at = left.offset_from(&expression);
        match left.next()? {
            Some(operation) => all.push((at, operation)),
            None => return Ok(Operations { all, end: at }),
        }
    }
}

/// Replaces each `DW_OP_GNU_uninit`, which gcc writes and gimli doesn't know, by `DW_OP_nop`. Returns the
/// offsets where it did. Gives up after [`MAX_UNINIT`] of them.
fn without_uninit(bytes: &mut [u8], order: RunTimeEndian, encoding: Encoding) -> Vec<usize> {
    let mut replaced = Vec::new();
    while replaced.len() < MAX_UNINIT {
        let expression = Expression(EndianSlice::new(bytes, order));
        let mut left = expression.operations(encoding);
        let unread = loop {
            let at = left.offset_from(&expression);
            match left.next() {
                Ok(Some(_)) => {}
                Ok(None) => return replaced,
                Err(_) => break at,
            }
        };
        match bytes.get_mut(unread) {
            Some(byte) if *byte == op::GNU_UNINIT => *byte = op::NOP,
            _ => return replaced,
        }
        replaced.push(unread);
    }
    replaced
}

/// Compares the operations of both. Those of the original whose offsets are in `left_out` aren't in the other.
fn compare_operations<'a, 'o>(
    (dwarf, unit): (&Dwarf<Slice<'a>>, &Unit<Slice<'a>>),
    originals: &Operations<'o>,
    left_out: &[usize],
    rewritten: &Operations<'_>,
) -> Result<(), Unlike> {
    let mut left = rewritten.all.as_slice();
    let mut places = Vec::with_capacity(originals.all.len() + 1);
    let mut branches = Vec::new();
    for (offset, operation) in &originals.all {
        places.push((*offset, left.first().map_or(rewritten.end, |first| first.0)));
        if left_out.binary_search(offset).is_ok() {
            continue;
        }
        let count = match expected_operation(dwarf, unit, operation)? {
            Expected::Same(same) => match (left.first(), without_type(&same)) {
                (Some((_, first)), _) if *first == same => 1,
                (_, Some(takes)) if length_of_unsupported(left, takes).is_some() => takes + 2,
                (first, _) => return Err(Unlike::Became(format!("{:x?}", same), format!("{:x?}", first))),
            },
            Expected::Branch(is_conditional, distance) => {
                let (at, new_distance) = branch_at_front(left, is_conditional).ok_or(Unlike::LostBranch)?;
                branches.push(Branches { end: offset + 3, distance, new_end: at + 3, new_distance });
                1
            }
            Expected::Unsupported(takes) => {
                length_of_unsupported(left, takes).ok_or_else(|| Unlike::NoHole(format!("{:x?}", operation)))?
            }
            Expected::Value => {
                length_of_unsupported_value(left).ok_or_else(|| Unlike::NoHole(format!("{:x?}", operation)))?
            }
        };
        left = &left[count..];
    }
    places.push((originals.end, rewritten.end));
    if !left.is_empty() {
        return Err(Unlike::Added);
    }
    branches.iter().try_for_each(|branch| branch.check(&places))
}

/// A branch of the original, and that of the rewritten expression: where each ends, and its distance.
struct Branches {
    end: usize,
    distance: i16,
    new_end: usize,
    new_distance: i16,
}

impl Branches {
    /// Checks that both lead to the same operation, or both to none. `places` has the offset of each operation
    /// in the original and in the rewritten expression.
    fn check(&self, places: &[(usize, usize)]) -> Result<(), Unlike> {
        let target = |end: usize, distance: i16| usize::try_from(end as i64 + i64::from(distance)).ok();
        let place = target(self.end, self.distance);
        let place = place.and_then(|target| places.binary_search_by_key(&target, |place| place.0).ok());
        let new_target = target(self.new_end, self.new_distance);
        match place {
            Some(place) if Some(places[place].1) != new_target => Err(Unlike::OtherTarget),
            None if places.iter().any(|place| Some(place.1) == new_target) => Err(Unlike::Target),
            _ => Ok(()),
        }
    }
}

fn expected_operation<'a, 'o>(
    dwarf: &Dwarf<Slice<'a>>,
    unit: &Unit<Slice<'a>>,
    operation: &Operation<Slice<'o>>,
) -> Result<Expected<'o>, Unlike> {
    let address = |index| dwarf.address(unit, index).map_err(Unlike::Address);
    let generic = UnitOffset(0);
    Ok(match operation {
        Operation::EntryValue { .. } | Operation::TypedLiteral { .. } | Operation::ParameterRef { .. } => {
            Expected::Unsupported(0)
        }
        Operation::RegisterOffset { base_type, .. } if *base_type != generic => Expected::Unsupported(0),
        Operation::Deref { space: true, .. } => Expected::Unsupported(2),
        Operation::Deref { base_type, .. } if *base_type != generic => Expected::Unsupported(1),
        Operation::Convert { .. } | Operation::Reinterpret { .. } | Operation::TLS => Expected::Unsupported(1),
        Operation::ImplicitPointer { .. } => Expected::Value,
        Operation::AddressIndex { index } => Expected::Same(Operation::Address { address: address(*index)? }),
        Operation::ConstantIndex { index } => Expected::Same(Operation::UnsignedConstant { value: address(*index)? }),
        Operation::Bra { target } => Expected::Branch(true, *target),
        Operation::Skip { target } => Expected::Branch(false, *target),
        same => Expected::Same(*same),
    })
}

/// How many entries an operation takes that gimli doesn't tell from one with a type, whose operand for the
/// type is 0. `None` for any other operation.
fn without_type(operation: &Operation<Slice<'_>>) -> Option<usize> {
    match operation {
        Operation::RegisterOffset { offset: 0, .. } => Some(0),
        Operation::Deref { space: false, .. } => Some(1),
        _ => None,
    }
}

type Place<'a> = (usize, Operation<Slice<'a>>);

/// The first operation, if it is a branch of this kind: its offset and its distance.
fn branch_at_front(operations: &[Place<'_>], is_conditional: bool) -> Option<(usize, i16)> {
    match operations.first()? {
        (at, Operation::Bra { target }) if is_conditional => Some((*at, *target)),
        (at, Operation::Skip { target }) if !is_conditional => Some((*at, *target)),
        _ => None,
    }
}

/// How many operations a hole has that takes this many entries. `None` if they aren't those of one.
fn length_of_unsupported(operations: &[Place<'_>], takes: usize) -> Option<usize> {
    let (drops, rest) = (operations.get(..takes)?, &operations[takes..]);
    let has_drops = drops.iter().all(|(_, operation)| matches!(operation, Operation::Drop));
    let is_unreadable = match rest {
        [(_, Operation::SignedConstant { value: -1 }), (_, Operation::Deref { base_type, space: false, .. }), ..] => {
            *base_type == UnitOffset(0)
        }
        _ => false,
    };
    Some(takes + 2).filter(|_| has_drops && is_unreadable)
}

/// The same for a hole that is a value by itself.
fn length_of_unsupported_value(operations: &[Place<'_>]) -> Option<usize> {
    let count = length_of_unsupported(operations, 0)?;
    matches!(operations.get(count)?.1, Operation::StackValue).then(|| count + 1)
}
