//! Evaluating DWARF expressions: what a caller passes, and the results.

use crate::fault::Error;
use crate::ffi;
use crate::state::State;
use dwcheck_types::target::Target;

/// What an expression is used for. That decides what is on the stack at first, and which operations
/// are allowed.
#[derive(Clone, Copy, Debug, PartialEq, Eq, Hash)]
pub enum ExpressionKind {
    /// The rule of a CFA. The stack is empty at first.
    FrameCfa,
    /// The rule of a register. The stack holds the CFA at first.
    FrameRegister,
    /// The location of an object. The stack is empty at first.
    Location,
}

impl ExpressionKind {
    pub(crate) fn from_number(number: u32) -> Option<Self> {
        match number {
            ffi::EXPRESSION_CFA => Some(ExpressionKind::FrameCfa),
            ffi::EXPRESSION_REGISTER => Some(ExpressionKind::FrameRegister),
            ffi::EXPRESSION_LOCATION => Some(ExpressionKind::Location),
            _ => None,
        }
    }

    fn number(self) -> u32 {
        match self {
            ExpressionKind::FrameCfa => ffi::EXPRESSION_CFA,
            ExpressionKind::FrameRegister => ffi::EXPRESSION_REGISTER,
            ExpressionKind::Location => ffi::EXPRESSION_LOCATION,
        }
    }
}

/// Values that depend on where the program stopped, each `None` if it isn't known.
#[derive(Clone, Copy, Debug, Default, PartialEq, Eq, Hash)]
pub struct Context {
    /// The canonical frame address (CFA), for [`ExpressionKind::FrameRegister`] and
    /// `DW_OP_call_frame_cfa`.
    pub cfa: Option<u64>,
    /// The frame base, for `DW_OP_fbreg`.
    pub frame_base: Option<u64>,
    /// The object's address, for `DW_OP_push_object_address`.
    pub object: Option<u64>,
}

impl Context {
    fn raw(&self) -> ffi::Context {
        ffi::Context {
            cfa: self.cfa.unwrap_or(0),
            frame_base: self.frame_base.unwrap_or(0),
            object: self.object.unwrap_or(0),
            has_cfa: u32::from(self.cfa.is_some()),
            has_frame_base: u32::from(self.frame_base.is_some()),
            has_object: u32::from(self.object.is_some()),
            reserved: 0,
        }
    }
}

/// Where an object, or a piece of it, is.
#[derive(Clone, Debug, PartialEq, Eq, Hash)]
#[non_exhaustive]
pub enum Location {
    /// Nowhere: the object or piece was optimized away.
    Nowhere,
    /// In memory, starting at this address.
    Address(u64),
    /// In this register.
    Register(u16),
    /// Nowhere, but this is the object's value.
    Value(u64),
    /// Nowhere, but these bytes are the object's value.
    Bytes(Vec<u8>),
    /// The number of a location kind that this crate doesn't know, because the library is newer.
    Other(u32),
}

/// The size of a piece.
#[derive(Clone, Copy, Debug, PartialEq, Eq, Hash)]
pub enum PieceSize {
    /// This many bytes.
    Bytes(u32),
    /// `size` bits, starting at bit `offset`.
    Bits {
        /// The number of bits.
        size: u32,
        /// The first bit, as the offset operand of `DW_OP_bit_piece` gives it.
        offset: u32,
    },
}

/// A piece of an object.
#[derive(Clone, Debug, PartialEq, Eq, Hash)]
pub struct Piece {
    /// Where the piece is.
    pub location: Location,
    /// How large the piece is.
    pub size: PieceSize,
}

/// The result of an expression, or, if there is none, the operation that failed.
#[derive(Clone, Debug, PartialEq, Eq, Hash)]
#[non_exhaustive]
pub enum Outcome {
    /// The value of an expression in the rule of a CFA or register. It is below 2^w, where w is the
    /// address size in bits.
    Value(u64),
    /// The location of an object that isn't in pieces.
    Location(Location),
    /// The pieces of an object in their order in the object, 32 at most.
    Pieces(Vec<Piece>),
    /// An operation needs a register, memory or a context value that wasn't passed, or reads memory
    /// past the highest address, 2^w - 1. This is also the outcome, with `at` 0 and after 0 steps,
    /// of every expression in the rule of a register if [`Context::cfa`] is `None`.
    Unreadable {
        /// The offset in the expression of the operation's first byte.
        at: u32,
    },
    /// An operation divides by zero.
    DivisionByZero {
        /// The offset in the expression of the operation's first byte.
        at: u32,
    },
}

/// The outcome of an expression, and the number of steps that its run took.
#[derive(Clone, Debug, PartialEq, Eq, Hash)]
#[non_exhaustive]
pub struct Evaluation {
    /// The result, or why there is none.
    pub outcome: Outcome,
    /// The number of operations that the run reached, including one that failed.
    pub steps: u32,
}

/// Checks all paths of an expression, and evaluates it with registers and memory.
///
/// The ABI of `state` isn't used. `DW_OP_addr` pushes an address as linked, while the addresses in
/// registers and memory are as loaded. The library allocates memory only if the expression has more
/// than 16 operations and branches or is refused, and frees the memory. The expression is run once.
/// Then it is run once more for each [`Location::Bytes`] in the outcome, to get the bytes.
///
/// # Errors
///
/// [`Error::Refused`] with the first fault of the expression, [`Error::NoMemory`] or
/// [`Error::TooLong`].
///
/// ```
/// use dwcheck::{evaluate, Abi, Context, ExpressionKind, Location, Outcome, Registers, State, Target};
///
/// let registers = Registers::from([(7, 0x7f00)]);
/// let state = State { registers: &registers, memory: &[], abi: Abi::NONE };
/// let breg7_8 = [0x77, 8];
/// let (kind, target) = (ExpressionKind::Location, Target::LITTLE_64);
/// let found = evaluate(&breg7_8, kind, target, &Context::default(), &state)?;
/// assert_eq!(found.outcome, Outcome::Location(Location::Address(0x7f08)));
/// assert_eq!(found.steps, 1);
///
/// let dup = [0x12];
/// let error = evaluate(&dup, kind, target, &Context::default(), &state).unwrap_err();
/// assert_eq!(error.to_string(), "expression: 35 Underflow at 0x00000000");
/// # Ok::<(), dwcheck::Error>(())
/// ```
pub fn evaluate(
    expression: &[u8],
    kind: ExpressionKind,
    target: Target,
    context: &Context,
    state: &State<'_>,
) -> Result<Evaluation, Error> {
    let run = Run {
        expression,
        kind,
        target,
        context: context.raw(),
        state,
    };
    let mut pieces = [ffi::Piece::default(); ffi::MAX_PIECES];
    let value = run.run(0, &mut pieces, &mut [])?;
    Ok(Evaluation {
        outcome: run.outcome(&value, &pieces)?,
        steps: value.steps,
    })
}

/// The arguments of a call of [`evaluate`]. The library may run the expression with them several
/// times, and each run has the same result.
struct Run<'a> {
    expression: &'a [u8],
    kind: ExpressionKind,
    target: Target,
    context: ffi::Context,
    state: &'a State<'a>,
}

impl Run<'_> {
    /// Runs the expression. The pieces of the result go into `pieces`. If the result's location, or
    /// that of piece `n` (counted from 0), is bytes, these bytes go into `bytes`.
    fn run(
        &self,
        n: u32,
        pieces: &mut [ffi::Piece],
        bytes: &mut [u8],
    ) -> Result<ffi::Value, Error> {
        let mut value = ffi::Value::default();
        let mut fault = ffi::Fault::default();
        // SAFETY: what `self` borrows is only read, `pieces` and `bytes` are borrowed exclusively,
        // and the other pointers are to locals.
        let status = unsafe {
            ffi::dwcheck_evaluate(
                self.expression.as_ptr(),
                self.expression.len(),
                ffi::order_number(self.target),
                self.target.address_size.bytes().into(),
                self.kind.number(),
                &self.context,
                &self.state.raw(),
                n,
                &mut value,
                pieces.as_mut_ptr(),
                pieces.len(),
                bytes.as_mut_ptr(),
                bytes.len(),
                &mut fault,
            )
        };
        Error::check(status, fault)?;
        Ok(value)
    }

    fn outcome(&self, value: &ffi::Value, pieces: &[ffi::Piece]) -> Result<Outcome, Error> {
        Ok(match value.kind {
            ffi::OUTCOME_VALUE => Outcome::Value(value.value),
            ffi::OUTCOME_UNREADABLE => Outcome::Unreadable { at: value.offset },
            ffi::OUTCOME_DIVISION_BY_ZERO => Outcome::DivisionByZero { at: value.offset },
            ffi::LOCATION_PIECES => Outcome::Pieces(self.pieces(pieces, value.count)?),
            kind => Outcome::Location(self.location(kind, value.value, 0)?),
        })
    }

    fn pieces(&self, pieces: &[ffi::Piece], count: u32) -> Result<Vec<Piece>, Error> {
        (0..count)
            .zip(pieces)
            .map(|(n, piece)| self.piece(n, piece))
            .collect()
    }

    fn piece(&self, n: u32, raw: &ffi::Piece) -> Result<Piece, Error> {
        let size = match raw.is_bits {
            0 => PieceSize::Bytes(raw.size),
            _ => PieceSize::Bits {
                size: raw.size,
                offset: raw.bit_offset,
            },
        };
        let location = self.location(raw.kind, raw.value, n)?;
        Ok(Piece { location, size })
    }

    /// Decodes a location that the library wrote as `kind` and `number`. `n` is the index of the
    /// piece that has this location, or 0 if there are no pieces.
    fn location(&self, kind: u32, number: u64, n: u32) -> Result<Location, Error> {
        Ok(match kind {
            ffi::LOCATION_NOWHERE => Location::Nowhere,
            ffi::LOCATION_ADDRESS => Location::Address(number),
            ffi::LOCATION_REGISTER => match u16::try_from(number) {
                Ok(register) => Location::Register(register),
                Err(_) => Location::Other(kind),
            },
            ffi::LOCATION_VALUE => Location::Value(number),
            ffi::LOCATION_BYTES => Location::Bytes(self.bytes(number, n)?),
            other => Location::Other(other),
        })
    }

    /// Runs the expression again to get the `length` bytes of a location. `n` is the index of the
    /// piece that has this location, or 0 if there are no pieces. The bytes are some of the
    /// expression's own, so there can't be more of them than the expression has.
    fn bytes(&self, length: u64, n: u32) -> Result<Vec<u8>, Error> {
        let whole = self.expression.len();
        let length = usize::try_from(length).map_or(whole, |length| length.min(whole));
        let mut bytes = Vec::new();
        bytes
            .try_reserve_exact(length)
            .map_err(|_| Error::NoMemory)?;
        bytes.resize(length, 0);
        self.run(n, &mut [], &mut bytes)?;
        Ok(bytes)
    }
}
