//! Rewrites an expression so that `dwcheck` can check and evaluate it.

use super::unsupported::{Unsupported, UnsupportedAt, DEREF, UNREADABLE};
use crate::debug::expression::skip_operation_operands;
use dwcheck_types::codes::op;
use dwcheck_types::cursor::{Cursor, ReadError};
use dwcheck_types::target::Target;
use std::borrow::Cow;

/// What the meaning of an expression depends on, besides its bytes.
pub(crate) struct Scope<'a> {
    /// The byte order and the address size.
    pub target: Target,
    /// The version of the unit.
    pub version: u16,
    /// The size of offsets in the unit, in bytes.
    pub offset_size: u8,
    /// The address with an index in `.debug_addr`. `None` if there is none.
    pub address: &'a dyn Fn(u64) -> Option<u64>,
    /// What is added to addresses of the file to get those in the process.
    pub load: u64,
    /// The value of an operation that becomes a hole without it, by its operands; for `form_tls_address` what
    /// is added to the entry that it takes. `None` if it isn't known.
    pub known: &'a dyn Fn(Unsupported, &[u8]) -> Option<u64>,
}

/// An expression as `dwcheck` takes it.
#[derive(Clone, Debug, PartialEq, Eq)]
pub(crate) struct Rewritten<'a> {
    /// The bytes. Those of the original, if nothing had to be changed.
    pub bytes: Cow<'a, [u8]>,
    /// The holes, in order.
    pub all_unsupported: Vec<UnsupportedAt>,
    /// The offset of each operation in the rewritten and in the original expression, ascending, then
    /// the lengths of both. Empty if nothing was changed.
    places: Vec<(usize, usize)>,
    /// The offset in the original of the first operation whose index isn't in `.debug_addr`.
    pub without_address: Option<usize>,
}

/// What becomes of an operation.
#[derive(Clone, Copy, Debug)]
enum Act {
    Copy,
    /// A branch, by the distance from its end to its target.
    Branch(i64),
    Address(u64),
    Constant(u64),
    /// What is added to the topmost entry.
    Plus(u64),
    Drop,
    NoAddress,
    /// A hole that takes this many entries from the stack and pushes one.
    Unsupported(Unsupported, usize),
    /// A hole that is a value by itself.
    Value(Unsupported),
    /// A hole in the place of the whole expression.
    Whole(Unsupported),
}

struct Operation {
    begin: usize,
    end: usize,
    act: Act,
}

impl Rewritten<'_> {
    /// The offset in the original expression of what is at an offset of the rewritten one.
    pub fn original(&self, offset: usize) -> usize {
        match self.places.binary_search_by_key(&offset, |place| place.0) {
            Ok(index) => self.places[index].1,
            Err(0) => offset,
            Err(index) => self.places[index - 1].1,
        }
    }

    /// The hole whose operation without a result is at an offset of the rewritten expression.
    pub fn unsupported_at(&self, offset: usize) -> Option<&UnsupportedAt> {
        self.all_unsupported.iter().find(|spot| spot.rewritten == offset)
    }
}

/// Rewrites an expression.
pub(crate) fn rewrite_expression<'a>(expression: &'a [u8], scope: &Scope<'_>) -> Rewritten<'a> {
    let operations = read_operations(expression, scope);
    if let Some(Operation { begin, act: Act::Whole(unsupported), .. }) = operations.last() {
        return unsupported_expression(*unsupported, *begin);
    }
    if operations.iter().all(|operation| matches!(operation.act, Act::Copy | Act::Branch(_))) {
        let bytes = Cow::Borrowed(expression);
        return Rewritten { bytes, all_unsupported: Vec::new(), places: Vec::new(), without_address: None };
    }
    write_operations(expression, &operations, scope)
}

/// An expression that is one hole.
fn unsupported_expression(unsupported: Unsupported, original: usize) -> Rewritten<'static> {
    let spot = UnsupportedAt { unsupported, original, rewritten: DEREF };
    let bytes = Cow::Borrowed(&UNREADABLE[..]);
    Rewritten { bytes, all_unsupported: vec![spot], places: vec![(0, original)], without_address: None }
}

/// The operations, up to the first for which a hole replaces the whole expression. From one that can't
/// be read, the bytes are copied, and `dwcheck` refuses them.
fn read_operations(expression: &[u8], scope: &Scope<'_>) -> Vec<Operation> {
    let mut cursor = Cursor::new(expression, scope.target);
    let mut operations = Vec::new();
    while !cursor.is_at_end() {
        let begin = cursor.at();
        let act = read_act(&mut cursor, scope);
        let end = if act.is_ok() { cursor.at() } else { expression.len() };
        let is_last = matches!(act, Err(_) | Ok(Act::Whole(_)));
        operations.push(Operation { begin, end, act: act.unwrap_or(Act::Copy) });
        if is_last {
            break;
        }
    }
    operations
}

fn read_act(cursor: &mut Cursor<'_>, scope: &Scope<'_>) -> Result<Act, ReadError> {
    let code = cursor.byte()?;
    let operands = cursor.at();
    let loaded = |address: u64| Act::Address(scope.target.wrap(address.wrapping_add(scope.load)));
    Ok(match code {
        op::ADDR if scope.load != 0 => loaded(cursor.number(scope.target.address_size.bytes())?),
        op::BRA | op::SKIP => Act::Branch(cursor.signed(2)? as i64),
        op::CALL2..=op::CALL_REF => Act::Whole(Unsupported::Call),
        op::ADDRX | op::GNU_ADDR_INDEX => (scope.address)(cursor.uleb()?).map_or(Act::NoAddress, loaded),
        op::CONSTX | op::GNU_CONST_INDEX => (scope.address)(cursor.uleb()?).map_or(Act::NoAddress, Act::Constant),
        op::IMPLICIT_POINTER | op::GNU_IMPLICIT_POINTER => {
            let address = scope.target.address_size.bytes();
            cursor.take(u64::from(if scope.version == 2 { address } else { scope.offset_size }))?;
            cursor.skip_leb()?;
            Act::Value(Unsupported::ImplicitPointer)
        }
        // DW_OP_GNU_uninit says that the variable may not be initialized. It changes nothing else.
        op::GNU_UNINIT => Act::Drop,
        _ => match read_unsupported(cursor, code, scope)? {
            Some((unsupported, takes)) => match (scope.known)(unsupported, cursor.since(operands)) {
                Some(value) if unsupported == Unsupported::FormTlsAddress => Act::Plus(value),
                Some(value) => Act::Constant(value),
                None => Act::Unsupported(unsupported, takes),
            },
            None if code >= 0xe0 => Act::Whole(Unsupported::Vendor(code)),
            None => skip_operation_operands(cursor, code).map(|_| Act::Copy)?,
        },
    })
}

/// Reads an operation that becomes a hole. Returns how many entries it takes from the stack. `None`
/// for any other operation, of which nothing is read.
fn read_unsupported(
    cursor: &mut Cursor<'_>,
    code: u8,
    scope: &Scope<'_>,
) -> Result<Option<(Unsupported, usize)>, ReadError> {
    Ok(Some(match code {
        op::XDEREF => (Unsupported::Xderef, 2),
        op::XDEREF_SIZE => cursor.byte().map(|_| (Unsupported::Xderef, 2))?,
        op::FORM_TLS_ADDRESS | op::GNU_PUSH_TLS_ADDRESS => (Unsupported::FormTlsAddress, 1),
        op::ENTRY_VALUE | op::GNU_ENTRY_VALUE => {
            let length = cursor.uleb()?;
            cursor.take(length).map(|_| (Unsupported::EntryValue, 0))?
        }
        op::CONST_TYPE | op::GNU_CONST_TYPE => {
            cursor.skip_leb()?;
            let length = cursor.byte()?;
            cursor.take(u64::from(length)).map(|_| (Unsupported::ConstType, 0))?
        }
        op::REGVAL_TYPE | op::GNU_REGVAL_TYPE => {
            cursor.skip_leb()?;
            cursor.skip_leb().map(|()| (Unsupported::RegvalType, 0))?
        }
        op::DEREF_TYPE | op::XDEREF_TYPE | op::GNU_DEREF_TYPE => {
            cursor.byte()?;
            cursor.skip_leb()?;
            if code == op::XDEREF_TYPE {
                (Unsupported::Xderef, 2)
            } else {
                (Unsupported::DerefType, 1)
            }
        }
        op::CONVERT | op::GNU_CONVERT => cursor.skip_leb().map(|()| (Unsupported::Convert, 1))?,
        op::REINTERPRET | op::GNU_REINTERPRET => cursor.skip_leb().map(|()| (Unsupported::Reinterpret, 1))?,
        op::GNU_PARAMETER_REF => cursor.take(4).map(|_| (Unsupported::ParameterRef, 0))?,
        op::GNU_VARIABLE_VALUE => cursor.take(u64::from(scope.offset_size)).map(|_| (Unsupported::VariableValue, 0))?,
        _ => return Ok(None),
    }))
}

/// How many bytes an operation has once it is rewritten.
fn rewritten_length(operation: &Operation, target: Target) -> usize {
    match operation.act {
        Act::Copy | Act::Branch(_) => operation.end - operation.begin,
        Act::Address(_) | Act::Constant(_) | Act::NoAddress => 1 + usize::from(target.address_size.bytes()),
        Act::Plus(_) => 2 + usize::from(target.address_size.bytes()),
        Act::Drop => 0,
        Act::Unsupported(_, takes) => takes + UNREADABLE.len(),
        Act::Value(_) => UNREADABLE.len() + 1,
        Act::Whole(_) => UNREADABLE.len(),
    }
}

/// The offset of each operation once it is rewritten, and in the original; then both lengths.
fn rewritten_offsets(expression: &[u8], operations: &[Operation], target: Target) -> Vec<(usize, usize)> {
    let mut places = Vec::with_capacity(operations.len() + 1);
    let mut at = 0;
    for operation in operations {
        places.push((at, operation.begin));
        at += rewritten_length(operation, target);
    }
    places.push((at, expression.len()));
    places
}

/// An expression that is being rewritten.
struct Rewriting<'e> {
    expression: &'e [u8],
    target: Target,
    places: Vec<(usize, usize)>,
    bytes: Vec<u8>,
    all_unsupported: Vec<UnsupportedAt>,
}

impl Rewriting<'_> {
    /// Writes an operation. `None` if it is a branch whose distance doesn't fit any more.
    fn push_operation(&mut self, operation: &Operation) -> Option<()> {
        match operation.act {
            Act::Copy | Act::Whole(_) => {
                self.bytes.extend_from_slice(&self.expression[operation.begin..operation.end]);
            }
            Act::Branch(distance) => {
                let distance = moved_branch_distance(&self.places, operation.end, distance, self.bytes.len() + 3)?;
                self.bytes.push(self.expression[operation.begin]);
                self.target.push(&mut self.bytes, distance as u64, 2);
            }
            Act::Address(number) => self.push_word_operation(op::ADDR, number),
            Act::Constant(number) => self.push_word_operation(constant_opcode(self.target), number),
            Act::Plus(number) => {
                self.push_word_operation(constant_opcode(self.target), number);
                self.bytes.push(op::PLUS);
            }
            Act::NoAddress => self.push_word_operation(op::ADDR, 0),
            Act::Drop => {}
            Act::Unsupported(unsupported, takes) => {
                self.bytes.extend(std::iter::repeat(op::DROP).take(takes));
                self.push_unreadable(unsupported, operation.begin);
            }
            Act::Value(unsupported) => {
                self.push_unreadable(unsupported, operation.begin);
                self.bytes.push(op::STACK_VALUE);
            }
        }
        Some(())
    }

    /// Writes an operation with a number of an address's size.
    fn push_word_operation(&mut self, code: u8, number: u64) {
        self.bytes.push(code);
        self.target.push(&mut self.bytes, number, self.target.address_size.bytes());
    }

    /// Writes a read that fails, in place of the operation at the offset `original`.
    fn push_unreadable(&mut self, unsupported: Unsupported, original: usize) {
        self.all_unsupported.push(UnsupportedAt { unsupported, original, rewritten: self.bytes.len() + DEREF });
        self.bytes.extend_from_slice(&UNREADABLE);
    }
}

fn write_operations<'a>(expression: &'a [u8], operations: &[Operation], scope: &Scope<'_>) -> Rewritten<'a> {
    let target = scope.target;
    let places = rewritten_offsets(expression, operations, target);
    let mut rewriting = Rewriting { expression, target, places, bytes: Vec::new(), all_unsupported: Vec::new() };
    for operation in operations {
        if rewriting.push_operation(operation).is_none() {
            return unsupported_expression(Unsupported::LongBranch, operation.begin);
        }
    }
    let Rewriting { places, bytes, all_unsupported, .. } = rewriting;
    let without_address = operations.iter().find(|operation| matches!(operation.act, Act::NoAddress));
    let without_address = without_address.map(|operation| operation.begin);
    Rewritten { bytes: Cow::Owned(bytes), all_unsupported, places, without_address }
}

fn constant_opcode(target: Target) -> u8 {
    if target.address_size.bytes() == 8 {
        op::CONST8U
    } else {
        op::CONST4U
    }
}

/// The distance of a branch that ends at `end` in the original, and at `new_end` once it is rewritten. A
/// target where no operation begins becomes one where none begins either. `None` if the distance
/// doesn't fit.
fn moved_branch_distance(places: &[(usize, usize)], end: usize, distance: i64, new_end: usize) -> Option<i64> {
    let target = end as i64 + distance;
    let found =
        usize::try_from(target).ok().and_then(|target| places.binary_search_by_key(&target, |place| place.1).ok());
    let moved = match found {
        Some(index) => places[index].0 as i64 - new_end as i64,
        // Backward, or past the end.
        None if distance < 0 => -1,
        None => i64::from(i16::MAX),
    };
    Some(moved).filter(|moved| i16::try_from(*moved).is_ok())
}
