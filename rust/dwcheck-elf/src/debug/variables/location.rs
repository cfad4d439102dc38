//! Finds where a variable is, by its expression or its location list.

use super::scopes::DieId;
use super::value::Layouts;
use super::value_location::{Machine, Missing, Pointee, ValueLocation};
use super::{Frame, Variables};
use crate::debug::debug_info::{Die, Slice};
use crate::debug::expression::operations;
use crate::debug::lists::{expression_at, rewrite_expression, Rewritten, Scope, Source, Unsupported};
use crate::elf::format::Name;
use dwcheck::{evaluate, Abi, Context, ExpressionKind, Location, Outcome, PieceSize, State};
use dwcheck_types::codes::op;
use dwcheck_types::cursor::Cursor;
use dwcheck_types::target::Target;
use gimli::{AttributeValue, DebugAddrIndex, DebugInfoOffset, LocationListsOffset};
use std::cell::{Cell, RefCell};
use std::rc::Rc;

/// How deep evaluations may be nested: entry values of entry values, implicit pointers of such.
const MAX_DEPTH: usize = 8;

/// How many such operations, and lengths of arrays, are looked up for a frame. In a hostile file, each may need several others.
const MAX_KNOWN: usize = 1 << 14;

/// Looks up where the variables of a frame are.
pub(super) struct Locator<'v, 'a> {
    /// The debug information.
    pub variables: &'v Variables<'a>,
    /// The function of the frame, not inlined.
    pub function: Die<'v, 'a>,
    /// The frame, with its callers.
    pub frame: Frame<'v>,
    /// The registers and the memory of the frame.
    pub machine: Machine<'v>,
    /// The frame base, if it is known.
    frame_base: Cell<Option<u64>>,
    /// Where the thread's variables of the file are, if that is known. `None` if it wasn't looked for.
    thread_block: Cell<Option<Option<u64>>>,
    /// How the containers keep what they hold.
    pub layouts: Layouts<'v, 'a>,
    /// The objects that are being shown: their addresses and types.
    pub shown: RefCell<Vec<(u64, DieId)>>,
    depth: usize,
    /// How many more of these operations are looked up.
    left: Rc<Cell<usize>>,
}

impl<'v, 'a> Locator<'v, 'a> {
    /// A locator for a frame of a function, of which nothing was looked up yet.
    pub fn new(variables: &'v Variables<'a>, function: Die<'v, 'a>, frame: Frame<'v>, machine: Machine<'v>) -> Self {
        Locator::with(variables, function, frame, machine, Rc::new(Cell::new(MAX_KNOWN)))
    }

    fn with(
        variables: &'v Variables<'a>,
        function: Die<'v, 'a>,
        frame: Frame<'v>,
        machine: Machine<'v>,
        left: Rc<Cell<usize>>,
    ) -> Self {
        let (frame_base, thread_block) = (Cell::new(None), Cell::new(None));
        let (layouts, shown) = (Layouts::default(), RefCell::default());
        let locator =
            Locator { variables, function, frame, machine, frame_base, thread_block, layouts, shown, depth: 0, left };
        locator.frame_base.set(locator.read_frame_base());
        locator
    }

    /// The same for the caller of the frame, in which a call site is evaluated.
    pub fn of_caller(&self, function: Die<'v, 'a>, caller: Frame<'v>) -> Option<Self> {
        let left = Rc::clone(&self.left);
        let locator = Locator::with(self.variables, function, caller, caller.machine()?, left);
        Some(Locator { depth: self.depth + 1, ..locator })
    }

    /// Where a variable is. `is_abstract` says that nothing but its declaration is known of it.
    pub fn locate_variable(&self, die: &Die<'v, 'a>, is_abstract: bool) -> Result<ValueLocation, Missing> {
        if let Some((holder, value)) = die.inherited(gimli::DW_AT_location) {
            return self.locate_by_attribute(&holder, value);
        }
        if let Some((_, value)) = die.inherited(gimli::DW_AT_const_value) {
            return constant_value(value, self.machine.target).ok_or(Missing::Unsupported("a constant of this form"));
        }
        let is_elsewhere = !is_abstract && die.inherited(gimli::DW_AT_declaration).is_some();
        Err(if is_elsewhere { Missing::Unsupported("declared elsewhere") } else { Missing::OptimizedOut })
    }

    fn locate_by_attribute(
        &self,
        die: &Die<'v, 'a>,
        value: AttributeValue<Slice<'a>>,
    ) -> Result<ValueLocation, Missing> {
        match value {
            AttributeValue::Exprloc(expression) => self.evaluate_expression(die, expression.0.slice()),
            AttributeValue::Block(block) => self.evaluate_expression(die, block.slice()),
            AttributeValue::LocationListsRef(list) => self.locate_by_list(die, list),
            AttributeValue::DebugLocListsIndex(index) => {
                let list = self.variables.units.dwarf.locations_offset(&die.unit, index);
                self.locate_by_list(die, list.map_err(|_| Missing::Refused("NoSuchList"))?)
            }
            _ => Err(Missing::Unsupported("a location of this form")),
        }
    }

    fn locate_by_list(&self, die: &Die<'v, 'a>, list: LocationListsOffset<usize>) -> Result<ValueLocation, Missing> {
        let is_old = die.unit.encoding().version < 5;
        if is_old && die.units.are_split() {
            return Err(Missing::Unsupported("a list of GNU's split DWARF 4"));
        }
        let (section, bytes) = match is_old {
            true => (Name::DebugLoc, self.variables.loc),
            false => (Name::DebugLoclists, self.variables.loclists),
        };
        let found = self.with_scope(die, 0, &|_, _| None, |scope| {
            let source = Source { bytes, section, scope, base: die.unit.low_pc };
            expression_at(&source, list.0 as u64, self.frame.looked_up())
        });
        match found {
            Ok(Some(expression)) => self.evaluate_expression(die, bytes.get(expression).unwrap_or(&[])),
            Ok(None) => Err(Missing::OptimizedOut),
            Err(fault) => Err(Missing::Refused(fault)),
        }
    }

    /// Calls `take` with what expressions of an entry's unit depend on.
    fn with_scope<T>(
        &self,
        die: &Die<'v, 'a>,
        load: u64,
        known: &dyn Fn(Unsupported, &[u8]) -> Option<u64>,
        take: impl FnOnce(Scope<'_>) -> T,
    ) -> T {
        let dwarf = &self.variables.units.dwarf;
        let address = |index: u64| dwarf.address(&die.unit, DebugAddrIndex(usize::try_from(index).ok()?)).ok();
        let (target, encoding) = (self.variables.target, die.unit.encoding());
        let (version, offset_size) = (encoding.version, encoding.format.word_size());
        take(Scope { target, version, offset_size, address: &address, load, known })
    }

    /// The value of an operation that `dwcheck` doesn't know, if the caller's call site or the thread's data have
    /// it.
    fn known_by_caller(&self, die: &Die<'v, 'a>, unsupported: Unsupported, operands: &[u8]) -> Option<u64> {
        if self.depth >= MAX_DEPTH {
            return None;
        }
        self.take_look_up()?;
        let mut cursor = Cursor::new(operands, self.variables.target);
        match unsupported {
            Unsupported::EntryValue => {
                let length = cursor.uleb().ok()?;
                self.entry_value(cursor.take(length).ok()?)
            }
            Unsupported::ParameterRef => {
                let offset = usize::try_from(cursor.number(4).ok()?).ok()?;
                self.parameter_at_call_site(&Die { offset: gimli::UnitOffset(offset), ..die.clone() })
            }
            Unsupported::FormTlsAddress => self.thread_block(),
            _ => None,
        }
    }

    /// Counts an operation or a length that is looked up. `None` if there are too many for the frame.
    pub fn take_look_up(&self) -> Option<()> {
        self.left.set(self.left.get().checked_sub(1)?);
        Some(())
    }

    fn thread_block(&self) -> Option<u64> {
        let block = self.thread_block.get().unwrap_or_else(|| self.frame.thread_block());
        self.thread_block.set(Some(block));
        block
    }

    /// Evaluates an expression of an entry's unit.
    pub fn evaluate_expression(&self, die: &Die<'v, 'a>, expression: &[u8]) -> Result<ValueLocation, Missing> {
        let known = |unsupported: Unsupported, operands: &[u8]| self.known_by_caller(die, unsupported, operands);
        self.with_scope(die, self.frame.load, &known, |scope| {
            let rewritten = rewrite_expression(expression, &scope);
            if rewritten.without_address.is_some() {
                return Err(Missing::Refused("NoSuchAddress"));
            }
            match self.run_expression(&rewritten.bytes)? {
                Outcome::Unreadable { .. } if has_pieces(&rewritten.bytes, scope.target) => {
                    self.locate_pieces(die, expression, &rewritten)
                }
                outcome => self.location_of_result(die, expression, &rewritten, outcome),
            }
        })
    }

    /// The state of the frame, and what is known of it besides.
    fn run_expression(&self, expression: &[u8]) -> Result<Outcome, Missing> {
        let Machine { registers, memory, target } = self.machine;
        let state = State { registers, memory, abi: Abi::NONE };
        let context = Context { cfa: self.frame.cfa(), frame_base: self.frame_base.get(), object: None };
        let evaluation = evaluate(expression, ExpressionKind::Location, target, &context, &state);
        evaluation.map(|evaluation| evaluation.outcome).map_err(|error| match error {
            dwcheck::Error::Refused(fault) => Missing::Refused(fault.name()),
            _ => Missing::Unsupported("not enough memory"),
        })
    }

    fn location_of_result(
        &self,
        die: &Die<'v, 'a>,
        expression: &[u8],
        rewritten: &Rewritten<'_>,
        outcome: Outcome,
    ) -> Result<ValueLocation, Missing> {
        match outcome {
            Outcome::Location(location) => value_location_of(location),
            Outcome::Value(value) => Ok(ValueLocation::Value(value)),
            Outcome::Pieces(pieces) => {
                let piece = |piece: dwcheck::Piece| Some((value_location_of(piece.location), piece_bytes(piece.size)?));
                let pieces: Option<Vec<_>> = pieces.into_iter().map(piece).collect();
                pieces.map(ValueLocation::Pieces).ok_or(Missing::Unsupported("pieces of bits"))
            }
            Outcome::DivisionByZero { .. } => Err(Missing::DivisionByZero),
            Outcome::Unreadable { at } => match rewritten.unsupported_at(at as usize) {
                Some(spot) if spot.unsupported == Unsupported::ImplicitPointer => {
                    let pointer = self.implicit_pointer(die, expression.get(spot.original..).unwrap_or(&[]));
                    pointer.ok_or(Missing::NotEvaluated(Unsupported::ImplicitPointer))
                }
                Some(spot) if spot.unsupported.is_of_types() => self.locate_by_types(die, expression, spot.unsupported),
                Some(spot) => Err(Missing::by_hole(spot.unsupported)),
                None => Err(what_is_unreadable(&rewritten.bytes, at as usize, self.variables.target)),
            },
            _ => Err(Missing::Unsupported("a result of this kind")),
        }
    }

    /// The pieces of an expression without branches, each evaluated by itself, so that those that are known
    /// have a place.
    fn locate_pieces(
        &self,
        die: &Die<'v, 'a>,
        expression: &[u8],
        rewritten: &Rewritten<'_>,
    ) -> Result<ValueLocation, Missing> {
        let (bytes, target) = (&rewritten.bytes, self.variables.target);
        let mut pieces = Vec::new();
        let mut begin = 0;
        let all = operations(bytes, target);
        let ends = all.iter().skip(1).map(|operation| operation.offset).chain([bytes.len()]);
        for (operation, end) in all.iter().zip(ends).filter(|(operation, _)| operation.code == op::PIECE) {
            let size = Cursor::new(&bytes[operation.offset + 1..end], target).uleb().unwrap_or(0);
            let part = bytes.get(begin..end).unwrap_or(&[]);
            let place = match self.run_expression(part)? {
                Outcome::Pieces(found) => found
                    .into_iter()
                    .next()
                    .map_or(Err(Missing::OptimizedOut), |piece| value_location_of(piece.location)),
                Outcome::Unreadable { at } => match rewritten.unsupported_at(begin + at as usize) {
                    Some(spot) if spot.unsupported.is_of_types() => {
                        let part = expression.get(rewritten.original(begin)..rewritten.original(end)).unwrap_or(&[]);
                        self.locate_by_types(die, part, spot.unsupported).and_then(first_piece)
                    }
                    Some(spot) => Err(Missing::by_hole(spot.unsupported)),
                    None => Err(what_is_unreadable(part, at as usize, target)),
                },
                Outcome::DivisionByZero { .. } => Err(Missing::DivisionByZero),
                _ => Err(Missing::Unsupported("a result of this kind")),
            };
            pieces.push((place, usize::try_from(size).unwrap_or(usize::MAX)));
            begin = end;
        }
        Ok(ValueLocation::Pieces(pieces))
    }

    /// The variable to which an implicit pointer leads, by the bytes of the operation.
    fn implicit_pointer(&self, die: &Die<'v, 'a>, operation: &[u8]) -> Option<ValueLocation> {
        let encoding = die.unit.encoding();
        let mut cursor = Cursor::new(operation, self.variables.target);
        cursor.byte().ok()?;
        let size = if encoding.version == 2 { encoding.address_size } else { encoding.format.word_size() };
        let offset = DebugInfoOffset(usize::try_from(cursor.number(size).ok()?).ok()?);
        let past = cursor.sleb().ok()? as i64;
        let name = self.variables.units.die(offset)?.name();
        Some(ValueLocation::ImplicitPointer(Pointee { name, past, entry: offset.0 }))
    }

    /// The frame base of the function, if it is known.
    pub fn frame_base(&self) -> Option<u64> {
        self.frame_base.get()
    }

    /// The frame base of the function, by its expression or list.
    fn read_frame_base(&self) -> Option<u64> {
        let (die, value) = self.function.inherited(gimli::DW_AT_frame_base)?;
        match self.locate_by_attribute(&die, value).ok()? {
            ValueLocation::Register(number) => self.machine.registers.get(number),
            ValueLocation::Memory(address) | ValueLocation::Value(address) => Some(address),
            _ => None,
        }
    }
}

/// Whether an expression is pieces that can be evaluated one by one.
fn has_pieces(bytes: &[u8], target: Target) -> bool {
    let all = operations(bytes, target);
    let is = |code: u8| all.iter().any(|operation| operation.code == code);
    is(op::PIECE) && !is(op::BRA) && !is(op::SKIP)
}

/// Where the first piece is.
fn first_piece(pieces: ValueLocation) -> Result<ValueLocation, Missing> {
    match pieces {
        ValueLocation::Pieces(pieces) => {
            pieces.into_iter().next().map_or(Err(Missing::OptimizedOut), |(place, _)| place)
        }
        place => Ok(place),
    }
}

fn value_location_of(location: Location) -> Result<ValueLocation, Missing> {
    match location {
        Location::Nowhere => Err(Missing::OptimizedOut),
        Location::Address(address) => Ok(ValueLocation::Memory(address)),
        Location::Register(number) => Ok(ValueLocation::Register(number)),
        Location::Value(value) => Ok(ValueLocation::Value(value)),
        Location::Bytes(bytes) => Ok(ValueLocation::Bytes(bytes)),
        _ => Err(Missing::Unsupported("a location of this kind")),
    }
}

/// The number of bytes of a piece. `None` if it isn't whole bytes.
fn piece_bytes(size: PieceSize) -> Option<usize> {
    match size {
        PieceSize::Bytes(size) => usize::try_from(size).ok(),
        PieceSize::Bits { size, offset } if size % 8 == 0 && offset == 0 => usize::try_from(size / 8).ok(),
        PieceSize::Bits { .. } => None,
    }
}

/// What an operation without a result needs.
fn what_is_unreadable(bytes: &[u8], at: usize, target: Target) -> Missing {
    let mut cursor = Cursor::new(bytes.get(at..).unwrap_or(&[]), target);
    let what = match cursor.byte() {
        Ok(code @ op::BREG0..=op::BREG31) => format!("r{}", code - op::BREG0),
        Ok(op::BREGX) => cursor.uleb().map_or_else(|_| "a register".to_string(), |number| format!("r{}", number)),
        Ok(op::FBREG) => "frame base".to_string(),
        Ok(op::CALL_FRAME_CFA) => "CFA".to_string(),
        Ok(op::PUSH_OBJECT_ADDRESS) => "object address".to_string(),
        _ => "memory".to_string(),
    };
    Missing::Unreadable(what)
}

/// The bytes of a `DW_AT_const_value`.
fn constant_value(value: AttributeValue<Slice<'_>>, target: Target) -> Option<ValueLocation> {
    match value {
        AttributeValue::Block(block) => Some(ValueLocation::Bytes(block.slice().to_vec())),
        // gcc writes numbers that aren't negative in these forms, and others as DW_FORM_sdata.
        AttributeValue::Data1(number) => Some(ValueLocation::Value(number.into())),
        AttributeValue::Data2(number) => Some(ValueLocation::Value(number.into())),
        AttributeValue::Data4(number) => Some(ValueLocation::Value(number.into())),
        AttributeValue::Data8(number) => Some(ValueLocation::Value(number)),
        AttributeValue::Sdata(number) => Some(ValueLocation::Value(number as u64)),
        AttributeValue::Udata(number) => Some(ValueLocation::Value(number)),
        AttributeValue::Addr(address) => Some(ValueLocation::Value(target.wrap(address))),
        AttributeValue::String(text) => Some(ValueLocation::Bytes([text.slice(), &[0]].concat())),
        _ => None,
    }
}
