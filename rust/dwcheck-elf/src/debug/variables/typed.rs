//! Evaluates expressions with operations on values of types, such as `DW_OP_convert`, which `dwcheck` doesn't know.
//! gimli runs them, and asks here for registers, memory and types.

use super::location::Locator;
use super::value_location::{Missing, ValueLocation};
use crate::debug::debug_info::{Die, Slice};
use crate::debug::lists::Unsupported;
use gimli::{
    AttributeValue, EndianSlice, Evaluation, EvaluationResult, Expression, Location, Piece, UnitOffset, Value,
    ValueType,
};

/// The most operations that are run.
const MAX_OPERATIONS: u32 = 1 << 12;

/// The type that stands for addresses and numbers of their size.
const GENERIC: UnitOffset<usize> = UnitOffset(0);

/// What stands for a fault that `dwcheck` would have refused.
const UNTYPED: Missing = Missing::Unsupported("an operation on values of these types");

impl<'v, 'a> Locator<'v, 'a> {
    /// Where a variable is by such an expression, of which this is the first operation that `dwcheck` doesn't know.
    pub(super) fn locate_by_types(
        &self,
        die: &Die<'v, 'a>,
        expression: &[u8],
        first: Unsupported,
    ) -> Result<ValueLocation, Missing> {
        let expression = Expression(EndianSlice::new(expression, self.variables.target.gimli_order()));
        match self.run_typed(Typed { die, first, words_are_generic: false }, expression) {
            // clang has constants without a type beside values of 64 bits.
            Err(why) if why == UNTYPED && !depends_on_sign(expression, die) => {
                self.run_typed(Typed { die, first, words_are_generic: true }, expression)
            }
            found => found,
        }
    }

    fn run_typed(&self, typed: Typed<'_, 'v, 'a>, expression: Expression<Slice<'_>>) -> Result<ValueLocation, Missing> {
        let mut evaluation = expression.evaluation(typed.die.unit.encoding());
        evaluation.set_max_iterations(MAX_OPERATIONS);
        let mut state = evaluation.evaluate().map_err(|_| UNTYPED)?;
        while state != EvaluationResult::Complete {
            state = self.resume(typed, &mut evaluation, state)?;
        }
        let pieces = evaluation.result();
        match pieces.as_slice() {
            [Piece { size_in_bits: None, location, .. }] => self.place_of(location),
            pieces => {
                pieces.iter().map(|piece| self.sized_piece(piece)).collect::<Result<_, _>>().map(ValueLocation::Pieces)
            }
        }
    }

    /// Gives an evaluation what it asks for.
    fn resume<'e>(
        &self,
        typed: Typed<'_, 'v, 'a>,
        evaluation: &mut Evaluation<Slice<'e>>,
        asked: EvaluationResult<Slice<'e>>,
    ) -> Result<EvaluationResult<Slice<'e>>, Missing> {
        use EvaluationResult as Asked;
        match asked {
            Asked::RequiresMemory { address, size, space: None, base_type } => {
                let bytes = self.machine.memory(address, size.into())?;
                evaluation.resume_with_memory(self.value_of_bytes(typed.value_type(base_type)?, &bytes)?)
            }
            Asked::RequiresRegister { register, base_type } => {
                let value = self.machine.registers.get(register.0);
                let value = value.ok_or_else(|| Missing::Unreadable(format!("r{}", register.0)))?;
                evaluation.resume_with_register(value_of_register(typed.value_type(base_type)?, value)?)
            }
            Asked::RequiresFrameBase => {
                evaluation.resume_with_frame_base(self.frame_base().ok_or_else(|| unreadable("frame base"))?)
            }
            Asked::RequiresCallFrameCfa => {
                evaluation.resume_with_call_frame_cfa(self.frame.cfa().ok_or_else(|| unreadable("CFA"))?)
            }
            Asked::RequiresEntryValue(inner) => {
                let value = self.take_look_up().and_then(|()| self.entry_value(inner.0.slice()));
                evaluation.resume_with_entry_value(Value::Generic(value.ok_or(Missing::OptimizedOut)?))
            }
            Asked::RequiresRelocatedAddress(address) => evaluation.resume_with_relocated_address(self.loaded(address)),
            Asked::RequiresIndexedAddress { index, relocate } => {
                let address = self.variables.units.dwarf.address(&typed.die.unit, index);
                let address = address.map_err(|_| Missing::Refused("NoSuchAddress"))?;
                evaluation.resume_with_indexed_address(if relocate { self.loaded(address) } else { address })
            }
            Asked::RequiresBaseType(kind) => evaluation.resume_with_base_type(typed.value_type(kind)?),
            _ => return Err(Missing::NotEvaluated(typed.first)),
        }
        .map_err(|error| if error == gimli::Error::DivisionByZero { Missing::DivisionByZero } else { UNTYPED })
    }

    fn loaded(&self, address: u64) -> u64 {
        self.variables.target.wrap(address.wrapping_add(self.frame.load))
    }

    /// The value that bytes of memory are.
    fn value_of_bytes(&self, kind: ValueType, bytes: &[u8]) -> Result<Value, Missing> {
        let target = self.variables.target;
        match kind {
            ValueType::Generic => Ok(Value::Generic(target.number(bytes))),
            kind => Value::parse(kind, EndianSlice::new(bytes, target.gimli_order())).map_err(|_| UNTYPED),
        }
    }

    /// A piece with its size in bytes.
    fn sized_piece(&self, piece: &Piece<Slice<'_>>) -> Result<(Result<ValueLocation, Missing>, usize), Missing> {
        let whole = |bits: &u64| bits % 8 == 0 && piece.bit_offset.unwrap_or(0) == 0;
        let bits = piece.size_in_bits.filter(whole).ok_or(Missing::Unsupported("pieces of bits"))?;
        let size = usize::try_from(bits / 8).map_err(|_| Missing::Unsupported("pieces of bits"))?;
        Ok((self.place_of(&piece.location), size))
    }

    /// A place that gimli gives.
    fn place_of(&self, location: &Location<Slice<'_>>) -> Result<ValueLocation, Missing> {
        Ok(match *location {
            Location::Empty => return Err(Missing::OptimizedOut),
            Location::Register { register } => ValueLocation::Register(register.0),
            Location::Address { address } => ValueLocation::Memory(address),
            Location::Value { value } => ValueLocation::Value(bits_of(value)),
            Location::Bytes { value } => ValueLocation::Bytes(value.slice().to_vec()),
            Location::ImplicitPointer { .. } => return Err(Missing::NotEvaluated(Unsupported::ImplicitPointer)),
        })
    }
}

fn unreadable(what: &str) -> Missing {
    Missing::Unreadable(what.to_string())
}

/// The value that the low bytes of a register are.
fn value_of_register(kind: ValueType, value: u64) -> Result<Value, Missing> {
    match kind {
        ValueType::Generic => Ok(Value::Generic(value)),
        kind => {
            let bytes = value.to_le_bytes();
            Value::parse(kind, EndianSlice::new(&bytes, gimli::RunTimeEndian::Little)).map_err(|_| UNTYPED)
        }
    }
}

/// An expression of an entry's unit.
#[derive(Clone, Copy)]
struct Typed<'d, 'v, 'a> {
    die: &'d Die<'v, 'a>,
    /// The first operation that `dwcheck` doesn't know.
    first: Unsupported,
    /// Whether numbers of an address's size are taken to be without a type.
    words_are_generic: bool,
}

impl Typed<'_, '_, '_> {
    /// The type at an offset of the unit. Characters and truth values are numbers without a fraction.
    fn value_type(&self, kind: UnitOffset<usize>) -> Result<ValueType, Missing> {
        if kind == GENERIC {
            return Ok(ValueType::Generic);
        }
        let base = Die { offset: kind, ..self.die.clone() };
        let size = base.attribute(gimli::DW_AT_byte_size).and_then(|size| size.udata_value()).ok_or(UNTYPED)?;
        let encoding = match base.attribute(gimli::DW_AT_encoding) {
            Some(AttributeValue::Encoding(encoding)) if base.tag() == Some(gimli::DW_TAG_base_type) => encoding,
            _ => return Err(UNTYPED),
        };
        let encoding = match encoding {
            gimli::DW_ATE_signed_char => gimli::DW_ATE_signed,
            gimli::DW_ATE_unsigned_char | gimli::DW_ATE_boolean | gimli::DW_ATE_UTF => gimli::DW_ATE_unsigned,
            encoding => encoding,
        };
        let is_word = size == u64::from(self.die.unit.encoding().address_size) && encoding != gimli::DW_ATE_float;
        match is_word && self.words_are_generic {
            true => Ok(ValueType::Generic),
            false => ValueType::from_encoding(encoding, size).ok_or(UNTYPED),
        }
    }
}

/// Whether an expression has operations whose results aren't the same for numbers with and without a sign.
fn depends_on_sign(expression: Expression<Slice<'_>>, die: &Die<'_, '_>) -> bool {
    use gimli::Operation::{Div, Ge, Gt, Le, Lt, Mod, Shr, Shra};
    let mut operations = expression.operations(die.unit.encoding());
    loop {
        match operations.next() {
            Ok(Some(Div | Ge | Gt | Le | Lt | Mod | Shr | Shra)) | Err(_) => return true,
            Ok(Some(_)) => {}
            Ok(None) => return false,
        }
    }
}

/// The bits of a value, of which those of a variable's size count.
fn bits_of(value: Value) -> u64 {
    match value {
        Value::Generic(number) | Value::U64(number) => number,
        Value::I8(number) => number as u64,
        Value::U8(number) => number.into(),
        Value::I16(number) => number as u64,
        Value::U16(number) => number.into(),
        Value::I32(number) => number as u64,
        Value::U32(number) => number.into(),
        Value::I64(number) => number as u64,
        Value::F32(number) => number.to_bits().into(),
        Value::F64(number) => number.to_bits(),
    }
}
