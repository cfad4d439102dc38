//! Names and counts the operations of expressions, and measures the depth of their stacks.
//!
//! `dwcheck` checks expressions. This module only helps to show an expression that `dwcheck` has
//! accepted, or where `dwcheck` refuses one.

use dwcheck_types::codes::op;
use dwcheck_types::cursor::{Cursor, ReadError};
use dwcheck_types::target::Target;

/// The number of operations of an accepted expression, and the greatest height of its stack.
///
/// ```
/// use dwcheck_elf::expression::Measure;
/// use dwcheck_elf::target::{AddressSize, Order, Target};
///
/// // breg7 8, lit1, plus: as a CFA's rule.
/// let target = Target { order: Order::Little, address_size: AddressSize::Eight };
/// assert_eq!(Measure::of(&[0x77, 8, 0x31, 0x22], 0, target), Measure { operations: 3, depth: 2 });
/// ```
#[derive(Clone, Copy, Debug, Default, PartialEq, Eq)]
pub struct Measure {
    /// The number of operations.
    pub operations: usize,
    /// The greatest height of the stack before or after any operation.
    pub depth: u64,
}

/// How an operation changes the height of the stack.
#[derive(Clone, Copy, Debug, PartialEq, Eq)]
enum Change {
    By(i64),
    /// A piece leaves the stack empty.
    Empty,
}

impl Measure {
    /// Measures an expression that `dwcheck` has accepted. `height` is the number of entries that
    /// its stack begins with.
    ///
    /// In an accepted expression branches go forward, and paths that meet have the same height, so
    /// one pass is enough.
    pub fn of(expression: &[u8], height: u64, target: Target) -> Self {
        let mut measure = Measure { operations: 0, depth: height };
        let mut cursor = Cursor::new(expression, target);
        let mut now = height;
        let mut branches: Vec<(usize, u64)> = Vec::new();
        while !cursor.is_at_end() {
            let at = cursor.at();
            if let Some((_, height)) = branches.iter().find(|(place, _)| *place == at) {
                now = *height;
            }
            branches.retain(|(place, _)| *place > at);
            let code = cursor.byte().unwrap_or(0);
            let operand = match skip_operation_operands(&mut cursor, code) {
                Ok(operand) => operand,
                Err(_) => break,
            };
            now = match stack_change(code) {
                Change::By(change) if change < 0 => now.saturating_sub(change.unsigned_abs()),
                Change::By(change) => now.saturating_add(change.unsigned_abs()),
                Change::Empty => 0,
            };
            if code == op::BRA || code == op::SKIP {
                branches.push((cursor.at().saturating_add(operand as usize), now));
            }
            measure.operations += 1;
            measure.depth = measure.depth.max(now);
        }
        measure
    }
}

/// An operation of an expression: its opcode, and where it is.
#[derive(Clone, Copy, Debug, PartialEq, Eq)]
pub struct Operation {
    /// The offset of its first byte in the expression.
    pub offset: usize,
    /// Its opcode.
    pub code: u8,
}

/// The operations of an expression, in order. If an operation can't be read, it is the last one of
/// the result.
pub fn operations(expression: &[u8], target: Target) -> Vec<Operation> {
    let mut cursor = Cursor::new(expression, target);
    let mut all = Vec::new();
    while !cursor.is_at_end() {
        let offset = cursor.at();
        let code = cursor.byte().unwrap_or(0);
        all.push(Operation { offset, code });
        if skip_operation_operands(&mut cursor, code).is_err() {
            break;
        }
    }
    all
}

/// Moves past the operands of an operation. For a branch, returns the distance in bytes from the
/// end of the branch to its target. For any other operation, returns 0.
pub(crate) fn skip_operation_operands(cursor: &mut Cursor<'_>, code: u8) -> Result<u64, ReadError> {
    let size = cursor.target().address_size.bytes();
    match code {
        op::ADDR => cursor.take(u64::from(size)).map(|_| 0),
        op::CONST1U | op::CONST1S | op::PICK | op::DEREF_SIZE => cursor.take(1).map(|_| 0),
        op::CONST2U | op::CONST2S => cursor.take(2).map(|_| 0),
        op::CONST4U | op::CONST4S => cursor.take(4).map(|_| 0),
        op::CONST8U | op::CONST8S => cursor.take(8).map(|_| 0),
        op::BRA | op::SKIP => cursor.signed(2),
        op::CONSTU | op::CONSTS | op::PLUS_UCONST | op::BREG0..=op::BREG31 | op::REGX | op::FBREG | op::PIECE => {
            cursor.skip_leb().map(|()| 0)
        }
        op::BREGX | op::BIT_PIECE => cursor.skip_leb().and_then(|()| cursor.skip_leb()).map(|()| 0),
        op::IMPLICIT_VALUE => {
            let length = cursor.uleb()?;
            cursor.take(length).map(|_| 0)
        }
        op::DEREF
        | op::DUP..=op::OVER
        | op::SWAP..=op::ROT
        | op::ABS..=op::PLUS
        | op::SHL..=op::XOR
        | op::EQ..=op::NE
        | op::LIT0..=op::REG31 => Ok(0),
        op::NOP | op::PUSH_OBJECT_ADDRESS | op::CALL_FRAME_CFA | op::STACK_VALUE => Ok(0),
        _ => Err(ReadError::Truncated),
    }
}

/// How an operation changes the height of the stack.
fn stack_change(code: u8) -> Change {
    match code {
        op::PIECE | op::BIT_PIECE => Change::Empty,
        op::ADDR
        | op::CONST1U..=op::DUP
        | op::OVER
        | op::PICK
        | op::LIT0..=op::LIT31
        | op::BREG0..=op::BREG31
        | op::FBREG
        | op::BREGX
        | op::PUSH_OBJECT_ADDRESS
        | op::CALL_FRAME_CFA => Change::By(1),
        op::DROP | op::AND..=op::MUL | op::OR | op::PLUS | op::SHL..=op::NE | op::STACK_VALUE => Change::By(-1),
        _ => Change::By(0),
    }
}

/// The name of the operation with this opcode, such as `DW_OP_plus`: the one in DWARF 5, section 7.7.1, or
/// a vendor's. If the opcode has no name, a text such as `operation 0xe1`.
pub fn name_of(code: u8) -> String {
    gimli::DwOp(code).static_string().map_or_else(|| format!("operation {:#04x}", code), str::to_string)
}
