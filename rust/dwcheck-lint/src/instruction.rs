//! What an instruction does to what the lint follows, whatever the processor: its effect, what it writes, whether it
//! ends a block.
//!
//! The decoder of a processor makes these. Nothing else knows any instruction by its bytes.

use crate::register::{Register, Registers};
use std::fmt;
use std::num::NonZeroU8;

/// An instruction.
#[derive(Clone, Copy, Debug, PartialEq, Eq)]
pub struct Instruction {
    /// How many bytes it has.
    pub length: u8,
    /// What it does.
    pub effect: Effect,
}

/// A place in memory: a register plus an offset.
#[derive(Clone, Copy, Debug, PartialEq, Eq)]
pub struct MemoryOperand {
    /// The register.
    pub base: Register,
    /// The offset in bytes.
    pub offset: i32,
}

/// Where a call or a jump goes to.
#[derive(Clone, Copy, Debug, PartialEq, Eq)]
pub enum Target {
    /// An address in the code.
    Code(u64),
    /// What the pointer at this address holds.
    Pointer(u64),
    /// What a register holds.
    Register(Register),
    /// An entry of a table of addresses: at `offset` plus the base, if there is one, plus an index times
    /// the size of an address.
    Table {
        /// The register that has the table's address.
        base: Option<Register>,
        /// What is added to it.
        offset: i64,
    },
    /// Something else.
    Elsewhere,
}

/// When a conditional jump is taken.
#[derive(Clone, Copy, Debug, PartialEq, Eq)]
pub enum Condition {
    /// If the operands of the comparison before it are equal.
    Equal,
    /// If they differ.
    NotEqual,
    /// On another condition.
    Other,
}

/// The entries of a table of jumps. One that is as long as an address may be one. Else it is, shifted to the left,
/// the distance from an address in the code or from the table.
#[derive(Clone, Copy, Debug, PartialEq, Eq)]
pub struct Entry {
    /// How many bytes it has: 1, 2, 4 or 8.
    pub bytes: u8,
    /// Whether it is a signed number.
    pub is_signed: bool,
    /// How many bits it is shifted by.
    pub shift: u8,
}

/// How a register is changed before it is added.
#[derive(Clone, Copy, Debug, PartialEq, Eq)]
pub struct Scale {
    /// How many bits it is shifted to the left by.
    pub shift: u8,
    /// Whether its lowest bytes are taken as a signed number.
    pub is_extended: bool,
}

/// The key with which an address of an instruction is signed (aarch64).
#[derive(Clone, Copy, Debug, PartialEq, Eq)]
pub enum Key {
    /// Key A.
    A,
    /// Key B.
    B,
}

impl Key {
    /// The other key.
    #[must_use]
    pub fn other(self) -> Key {
        match self {
            Key::A => Key::B,
            Key::B => Key::A,
        }
    }
}

impl fmt::Display for Key {
    fn fmt(&self, f: &mut fmt::Formatter<'_>) -> fmt::Result {
        f.pad(match self {
            Key::A => "A",
            Key::B => "B",
        })
    }
}

/// What is done with a number in a register.
#[derive(Clone, Copy, Debug, PartialEq, Eq)]
pub enum Operation {
    /// Its sign is changed.
    Negate,
    /// Its bits are inverted.
    Invert,
    /// It is shifted to the left by a number of bits.
    ShiftLeft(u8),
    /// It is shifted to the right by a number of bits, and zeros come in.
    ShiftRight(u8),
    /// A number is added.
    Add(i32),
}

/// Up to four registers, of which some aren't followed, such as a register that is always zero. They take a byte
/// each, so that all effects of instructions are small.
#[derive(Clone, Copy, Debug, PartialEq, Eq)]
pub struct FourRegisters([Register; 4]);

/// A transfer of registers to or from memory, next to each other.
#[derive(Clone, Copy, Debug, PartialEq, Eq)]
pub struct Transfer {
    /// Whether they are loaded; otherwise they are stored.
    pub is_load: bool,
    /// The registers.
    pub registers: FourRegisters,
    /// How many registers there are.
    pub count: u8,
    /// How many bytes each has in memory.
    pub bytes: u8,
    /// Whether the first 8 of these bytes are all that is followed of the register. Otherwise only a
    /// part of it is transferred.
    pub is_whole: bool,
    /// Where the first one is.
    pub place: MemoryOperand,
    /// What is added to the register of the place afterwards.
    pub added: i32,
}

/// What an instruction does. `to` is what it writes, and `from` what it reads.
#[derive(Clone, Copy, Debug, PartialEq, Eq)]
#[allow(missing_docs)] // The fields' names say what they are.
pub enum Effect {
    /// Nothing that is followed.
    Nothing,
    /// Nothing, and it may be there only to fill space.
    Padding,
    /// Writes values that aren't followed to registers and perhaps to memory.
    Write {
        /// The registers.
        registers: Registers,
        /// The place in memory, if it is a register plus an offset, and the number of bytes.
        stored: Option<(MemoryOperand, NonZeroU8)>,
    },
    /// Perhaps writes values that aren't followed to registers.
    MayWrite {
        /// The registers.
        registers: Registers,
    },
    /// Calls the system, by the number in the machine's register for it.
    System {
        /// The registers that the call overwrites.
        registers: Registers,
    },
    /// Copies a register.
    Move { to: Register, from: Register },
    /// Copies a register to a vector register, of which a part may be left as it is.
    ToVector { from: Register },
    /// Copies a part of a vector register.
    FromVector { to: Register },
    /// Copies a register, or doesn't.
    MayMove { to: Register, from: Register },
    /// Exchanges two registers.
    Exchange { one: Register, other: Register },
    /// Sets a register to a number, or to an address in the program.
    Set { to: Register, number: i64 },
    /// Sets a register to another one plus a number.
    Add { to: Register, from: Register, number: i64 },
    /// Changes the number in a register. If it is half, the lower 32 bits are changed, and the others become zeros.
    Calculate { register: Register, operation: Operation, is_half: bool },
    /// Sets some bits of a register, those of `mask`, to those of a number.
    Insert { to: Register, mask: i64, number: i64 },
    /// Sets a register to the sum of two.
    AddRegister { to: Register, from: Register, by: Register, scale: Scale },
    /// Sets a register to another one minus a register or minus something that isn't followed.
    SubtractRegister { to: Register, from: Register, by: Option<Register> },
    /// Sets a register to an address that is made of another one in a way that isn't followed.
    Derive { to: Register, from: Register },
    /// Sets a register to the bits of another one that are in a mask, which rounds it down if it is an
    /// address. The mask is `None` if it isn't known.
    Align { to: Register, from: Register, mask: Option<i64> },
    /// Signs the address in a register by the value of another one, which the stack pointer has to be for a
    /// return address. `by` is `None` if it is something else.
    Sign { to: Register, by: Option<Register>, key: Key },
    /// Takes the signature off an address, and checks that it is the one of this key and of the value of another
    /// register.
    Authenticate { to: Register, by: Option<Register>, key: Key },
    /// Takes the signature off an address, if it has one.
    Strip { to: Register },
    /// Loads a whole register.
    Load { to: Register, from: MemoryOperand },
    /// Loads an entry of a table: at `offset` plus the base, if there is one, plus an index times the
    /// size.
    LoadEntry { to: Register, base: Option<Register>, offset: i64, entry: Entry },
    /// Loads or stores several registers, or one and changes the register of the place.
    Transfer(Transfer),
    /// Stores a number of some bytes.
    StoreNumber { to: MemoryOperand, bytes: u8 },
    /// Stores a whole register. The place is `None` if it isn't a register plus an offset.
    Store { from: Register, to: Option<MemoryOperand> },
    /// Pushes a register.
    Push { from: Register },
    /// Pushes what is in memory.
    PushMemory { from: MemoryOperand },
    /// Pushes a number, or an address in the program.
    PushNumber { number: i64 },
    /// Pushes something that isn't followed.
    PushOther,
    /// Pushes the flags.
    PushFlags,
    /// Pops a register.
    Pop { to: Register },
    /// Pops what isn't followed, or into memory.
    PopOther { to: Option<MemoryOperand> },
    /// Pops the flags.
    PopFlags,
    /// Begins a frame: the frame pointer is pushed and set to the stack pointer, which is then lowered by a number
    /// of bytes.
    Enter { bytes: u32 },
    /// Ends a frame: the stack pointer is set to the frame pointer, which is then popped.
    Leave,
    /// Compares two registers.
    Compare { one: Register, other: Register },
    /// Compares something with a number.
    CompareNumber { number: i64 },
    /// Calls.
    Call { target: Target },
    /// Jumps.
    Jump { target: Target },
    /// Jumps if a condition holds.
    JumpIf { target: u64, condition: Condition },
    /// Returns, and then removes a number of bytes from the stack, which are arguments.
    Return { popped: u16 },
    /// Ends the program, or traps.
    Stop,
    /// The bytes aren't an instruction that is known. If the length is 1, it isn't known how many bytes it has.
    Invalid,
}

impl Entry {
    /// An address of 8 bytes.
    pub const ADDRESS: Entry = Entry::address(8);
    /// A signed distance of 4 bytes.
    pub const DISTANCE: Entry = Entry { bytes: 4, is_signed: true, shift: 0 };
}

impl Entry {
    /// An address of this many bytes.
    pub const fn address(bytes: u8) -> Entry {
        Entry { bytes, is_signed: false, shift: 0 }
    }
}

impl Scale {
    /// A register as it is.
    pub const ONE: Scale = Scale { shift: 0, is_extended: false };
}

impl Operation {
    /// What it makes of a number, or of its lower 32 bits.
    pub fn applied(self, number: i64, is_half: bool) -> i64 {
        let number = if is_half { number & 0xffff_ffff } else { number };
        let result = match self {
            Operation::Negate => number.wrapping_neg(),
            Operation::Invert => !number,
            Operation::ShiftLeft(bits) => number.wrapping_shl(bits.into()),
            Operation::ShiftRight(bits) => (number as u64).wrapping_shr(bits.into()) as i64,
            Operation::Add(added) => number.wrapping_add(added.into()),
        };
        if is_half {
            result & 0xffff_ffff
        } else {
            result
        }
    }
}

impl From<[Option<Register>; 4]> for FourRegisters {
    fn from(registers: [Option<Register>; 4]) -> Self {
        FourRegisters(registers.map(|register| register.unwrap_or(FourRegisters::NOT_FOLLOWED)))
    }
}

impl FourRegisters {
    const NOT_FOLLOWED: Register = Register(u8::MAX);

    /// The registers. `None` is one that isn't followed.
    pub fn iter(&self) -> impl Iterator<Item = Option<Register>> + '_ {
        self.0.iter().map(|register| Some(*register).filter(|register| *register != FourRegisters::NOT_FOLLOWED))
    }
}

impl Transfer {
    /// The registers, each with its place.
    pub fn each(&self) -> impl Iterator<Item = (Option<Register>, MemoryOperand)> + '_ {
        let MemoryOperand { base, offset } = self.place;
        let bytes = i32::from(self.bytes);
        let places =
            (0..i32::from(self.count)).map(move |index| MemoryOperand { base, offset: offset + index * bytes });
        self.registers.iter().zip(places)
    }

    fn written(&self) -> Registers {
        let mut registers = Registers::NONE;
        if self.is_load {
            self.each().filter_map(|(register, _)| register).for_each(|register| registers.insert(register));
        }
        if self.added != 0 {
            registers.insert(self.place.base);
        }
        registers
    }
}

impl Effect {
    /// Writes values that aren't followed to registers, and to a number of bytes at a place.
    pub fn write(registers: Registers, place: MemoryOperand, bytes: u8) -> Effect {
        Effect::Write { registers, stored: NonZeroU8::new(bytes).map(|bytes| (place, bytes)) }
    }

    /// Whether the instruction after it isn't reached by going on from it.
    pub fn is_end(&self) -> bool {
        matches!(self, Effect::Jump { .. } | Effect::Return { .. } | Effect::Stop | Effect::Invalid)
    }

    /// Whether the next instruction may be in another block.
    pub fn may_end_block(&self) -> bool {
        self.is_end() || matches!(self, Effect::JumpIf { .. } | Effect::Call { .. } | Effect::System { .. })
    }

    /// The registers that it compares.
    pub fn compared(&self) -> Option<(Register, Register)> {
        match *self {
            Effect::Compare { one, other } => Some((one, other)),
            _ => None,
        }
    }

    /// Whether it pushes, and perhaps more.
    pub fn is_push(&self) -> bool {
        use Effect::{Enter, Push, PushFlags, PushMemory, PushNumber, PushOther};
        matches!(self, Push { .. } | PushMemory { .. } | PushNumber { .. } | PushOther | PushFlags | Enter { .. })
    }

    /// Whether it changes no value that is followed.
    pub fn changes_nothing(&self) -> bool {
        matches!(self, Effect::Nothing | Effect::Padding | Effect::Compare { .. } | Effect::CompareNumber { .. })
    }

    /// The address in the code that it may jump to.
    pub fn jump_target(&self) -> Option<u64> {
        match *self {
            Effect::Jump { target: Target::Code(target) } | Effect::JumpIf { target, .. } => Some(target),
            _ => None,
        }
    }

    /// The registers that it writes, other than by a call and the stack pointer by a push or a pop.
    pub fn written(&self) -> Registers {
        match *self {
            Effect::Write { registers, .. } | Effect::System { registers } | Effect::MayWrite { registers } => {
                registers
            }
            Effect::Transfer(transfer) => transfer.written(),
            Effect::Calculate { register, .. } => Registers::of(&[register.0]),
            Effect::Exchange { one, other } => Registers::of(&[one.0, other.0]),
            Effect::Move { to, .. }
            | Effect::FromVector { to }
            | Effect::MayMove { to, .. }
            | Effect::Set { to, .. }
            | Effect::Add { to, .. }
            | Effect::AddRegister { to, .. }
            | Effect::SubtractRegister { to, .. }
            | Effect::Derive { to, .. }
            | Effect::Align { to, .. }
            | Effect::Insert { to, .. }
            | Effect::Sign { to, .. }
            | Effect::Authenticate { to, .. }
            | Effect::Strip { to }
            | Effect::Load { to, .. }
            | Effect::LoadEntry { to, .. }
            | Effect::Pop { to } => Registers::of(&[to.0]),
            _ => Registers::NONE,
        }
    }
}
