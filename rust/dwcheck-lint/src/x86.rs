//! What instructions of x86 do, of 64 and of 32 bits, from what Zydis gives: `mov`, `lea`, `add`, `push`, jumps and the
//! others.

pub(crate) mod remembered;

use crate::instruction::{Condition, Effect, Entry, Instruction, MemoryOperand, Operation, Scale, Target};
use crate::register::{Register, Registers};
use crate::zydis::{decode_by_zydis, Decoded, Mnemonic, Mode, Operand, OperandKind, NO_REGISTER, RIP};

/// A processor that runs instructions of x86.
pub(crate) struct Processor {
    /// Which one Zydis is asked for.
    pub mode: Mode,
    /// How many bytes an address has.
    pub address_bytes: u8,
    /// The general registers, by the numbers that instructions have for them.
    pub registers: &'static [Register],
    /// The stack pointer.
    pub stack_pointer: Register,
    /// What a system call overwrites.
    pub system: Registers,
}

/// Whether an instruction does nothing but write registers, wherever its operands are.
fn is_only_written(effect: &Effect) -> bool {
    matches!(
        effect,
        Effect::Nothing
            | Effect::Write { .. }
            | Effect::StoreNumber { .. }
            | Effect::CompareNumber { .. }
            | Effect::Store { to: None, .. }
    )
}

/// Direct jumps and calls without prefixes, which are a fifth of all instructions: an opcode, and the distance
/// of the target from the next instruction. `None` for any other instruction.
pub(crate) fn direct_jump(bytes: &[u8], address: u64, mask: u64) -> Option<Instruction> {
    let (length, distance) = match *bytes {
        [0xeb | 0x70..=0x7f, distance, ..] => (2, i64::from(distance as i8)),
        [0xe8 | 0xe9, a, b, c, d, ..] => (5, i64::from(i32::from_le_bytes([a, b, c, d]))),
        [0x0f, 0x80..=0x8f, a, b, c, d, ..] => (6, i64::from(i32::from_le_bytes([a, b, c, d]))),
        _ => return None,
    };
    let target = address.wrapping_add(u64::from(length)).wrapping_add(distance as u64) & mask;
    let effect = match bytes[usize::from(length == 6)] {
        0xe8 => Effect::Call { target: Target::Code(target) },
        0xe9 | 0xeb => Effect::Jump { target: Target::Code(target) },
        0x74 | 0x84 => Effect::JumpIf { target, condition: Condition::Equal },
        0x75 | 0x85 => Effect::JumpIf { target, condition: Condition::NotEqual },
        _ => Effect::JumpIf { target, condition: Condition::Other },
    };
    Some(Instruction { length, effect })
}

impl Operand {
    /// Takes an immediate number of 32 bits as a signed one.
    fn sign_number(&mut self) {
        if self.kind() == OperandKind::Immediate {
            self.value = i64::from(self.value as i32);
        }
    }

    fn immediate(&self) -> Option<i64> {
        Some(self.value).filter(|_| self.kind() == OperandKind::Immediate)
    }

    /// An address that is known: relative to RIP, or without registers.
    fn known_address(&self) -> Option<i64> {
        let is_known = self.index == NO_REGISTER && matches!(self.base, RIP | NO_REGISTER);
        Some(self.value).filter(|_| self.is_memory() && is_known)
    }
}

/// The bits by which an operand is shifted, of which the processor takes the lowest ones.
fn shift_count(operand: &Operand, by: &Operand) -> Option<u8> {
    let mask = if operand.bits == 64 { 63 } else { 31 };
    by.immediate().map(|bits| (bits & mask) as u8)
}

impl Processor {
    /// The instruction at the first byte. `None` if there is none.
    pub fn decode(&self, bytes: &[u8], address: u64) -> Option<(Instruction, Decoded)> {
        let mut found = decode_by_zydis(self.mode, bytes, address)?;
        if self.mode == Mode::I386 {
            found.operands.iter_mut().for_each(Operand::sign_number);
        }
        Some((self.instruction(&found), found))
    }

    /// The instruction at the first byte, and whether its address is part of what it does.
    pub fn by_zydis(&self, bytes: &[u8], address: u64) -> (Instruction, bool) {
        match self.decode(bytes, address) {
            Some((instruction, found)) => {
                let is_relative = |operand: &Operand| operand.kind() == OperandKind::Target || operand.base == RIP;
                let has_address = !is_only_written(&instruction.effect) && found.operands.iter().any(is_relative);
                (instruction, has_address)
            }
            None => (Instruction { length: 1, effect: Effect::Invalid }, true),
        }
    }

    /// What an instruction does that was decoded.
    pub fn instruction(&self, found: &Decoded) -> Instruction {
        let effect = self.followed_effect(found).unwrap_or_else(|| self.unfollowed_write(found));
        Instruction { length: found.length, effect }
    }

    /// The register with this number in instructions.
    fn register(&self, number: u8) -> Option<Register> {
        self.registers.get(usize::from(number)).copied()
    }

    fn whole_register(&self, operand: &Operand) -> Option<Register> {
        self.register(operand.register).filter(|_| operand.is_whole())
    }

    /// Memory at a register plus an offset.
    fn place(&self, operand: &Operand) -> Option<MemoryOperand> {
        let is_simple = operand.is_memory() && operand.index == NO_REGISTER && !operand.is_thread_local();
        let base = self.register(operand.base).filter(|_| is_simple)?;
        Some(MemoryOperand { base, offset: i32::try_from(operand.value).ok()? })
    }

    /// The base and the offset of an entry of a table, whose index is multiplied by `scale`.
    fn entry(&self, operand: &Operand, scale: u8) -> Option<(Option<Register>, i64)> {
        let has_index = operand.is_memory() && operand.index < RIP && operand.scale == scale;
        let base = self.register(operand.base);
        Some((base, operand.value)).filter(|_| has_index && (base.is_some() || operand.base == NO_REGISTER))
    }

    fn target(&self, operand: &Operand) -> Target {
        match operand.kind() {
            OperandKind::Target => Target::Code(operand.value as u64 & self.address_mask()),
            OperandKind::Register => self.register(operand.register).map_or(Target::Elsewhere, Target::Register),
            OperandKind::Memory if self.is_pointer(operand) => {
                Target::Pointer(operand.value as u64 & self.address_mask())
            }
            OperandKind::Memory => match self.entry(operand, self.address_bytes) {
                Some((base, offset)) => Target::Table { base, offset },
                None => Target::Elsewhere,
            },
            _ => Target::Elsewhere,
        }
    }

    /// Whether the address of memory is known: it is relative to RIP or, in code of 32 bits, has no registers.
    fn is_pointer(&self, operand: &Operand) -> bool {
        let is_absolute = self.mode == Mode::I386 && operand.base == NO_REGISTER && operand.index == NO_REGISTER;
        operand.base == RIP || is_absolute && !operand.is_thread_local()
    }

    fn address_mask(&self) -> u64 {
        match self.mode {
            Mode::X86_64 => u64::MAX,
            Mode::I386 => u32::MAX.into(),
        }
    }

    /// What an instruction writes, for one that isn't followed.
    fn unfollowed_write(&self, found: &Decoded) -> Effect {
        let mut registers = Registers::NONE;
        let mut written = found.written;
        while written != 0 {
            self.register(written.trailing_zeros() as u8).into_iter().for_each(|register| registers.insert(register));
            written &= written - 1;
        }
        match self.register(found.stored_base).filter(|_| found.stored_bytes > 0) {
            Some(base) => {
                let (to, bytes) = (MemoryOperand { base, offset: found.stored_offset }, found.stored_bytes);
                let is_number = found.mnemonic() == Mnemonic::Mov && found.operands[1].immediate().is_some();
                if is_number {
                    Effect::StoreNumber { to, bytes }
                } else {
                    Effect::write(registers, to, bytes)
                }
            }
            None if registers.is_empty() => Effect::Nothing,
            None => Effect::Write { registers, stored: None },
        }
    }

    /// What an instruction does that is followed. `None` for any other.
    fn followed_effect(&self, found: &Decoded) -> Option<Effect> {
        let [first, second] = &found.operands;
        if self.is_padding(found) {
            return Some(Effect::Padding);
        }
        match found.mnemonic() {
            Mnemonic::Lea => self.lea_effect(first, second),
            Mnemonic::Mov => self.mov_effect(first, second),
            Mnemonic::Movsxd => {
                let (base, offset) = self.entry(second, 4).filter(|(base, _)| base.is_some())?;
                Some(Effect::LoadEntry { to: self.whole_register(first)?, base, offset, entry: Entry::DISTANCE })
            }
            Mnemonic::Add => self.add_effect(first, second),
            Mnemonic::Subtract => self.subtract_effect(first, second),
            Mnemonic::Increment => self.add_number_effect(first, 1),
            Mnemonic::Decrement => self.add_number_effect(first, -1),
            Mnemonic::And => {
                let register = self.whole_register(first)?;
                let mask = second.immediate();
                Some(Effect::Align { to: register, from: register, mask })
                    .filter(|_| mask.is_some() || register == self.stack_pointer)
            }
            Mnemonic::Xor => self.xor_with_itself(first, second),
            // Rule "hardened stack pointer": the bits that are set are zeros unless the processor speculates.
            Mnemonic::Or => (self.whole_register(first) == Some(self.stack_pointer)).then_some(Effect::Nothing),
            Mnemonic::Negate => self.calculation(first, Operation::Negate),
            Mnemonic::Invert => self.calculation(first, Operation::Invert),
            Mnemonic::ShiftLeft => self.calculation(first, Operation::ShiftLeft(shift_count(first, second)?)),
            Mnemonic::ShiftRight => self.calculation(first, Operation::ShiftRight(shift_count(first, second)?)),
            Mnemonic::MoveVector => self.move_vector_effect(first, second),
            Mnemonic::Exchange => {
                Some(Effect::Exchange { one: self.whole_register(first)?, other: self.whole_register(second)? })
            }
            Mnemonic::MoveIf => {
                Some(Effect::MayMove { to: self.whole_register(first)?, from: self.whole_register(second)? })
            }
            Mnemonic::Compare => self.compare_effect(first, second),
            _ => self.stack_or_jump(found),
        }
    }

    /// Whether an instruction of 32 bits copies a register to itself, as assemblers fill space: `lea 0(%esi), %esi`.
    fn is_padding(&self, found: &Decoded) -> bool {
        let [first, second] = &found.operands;
        let is_same = match found.mnemonic() {
            Mnemonic::Lea => second.index == NO_REGISTER && second.value == 0 && second.base == first.register,
            Mnemonic::Mov => second.is_whole() && second.register == first.register,
            _ => false,
        };
        self.mode == Mode::I386 && first.is_whole() && is_same
    }

    /// The instructions that push, pop, call, jump or stop. `None` for any other.
    fn stack_or_jump(&self, found: &Decoded) -> Option<Effect> {
        let operand = &found.operands[0];
        match found.mnemonic() {
            Mnemonic::Push | Mnemonic::Pop if found.width == 16 => None,
            Mnemonic::Push => Some(self.push_effect(operand)),
            Mnemonic::Pop => {
                let to_memory = Effect::PopOther { to: self.place(operand) };
                Some(self.whole_register(operand).map_or(to_memory, |to| Effect::Pop { to }))
            }
            Mnemonic::PushFlags => Some(Effect::PushFlags),
            Mnemonic::PopFlags => Some(Effect::PopFlags),
            Mnemonic::Enter if found.width == 16 => None,
            Mnemonic::Enter => self.enter_effect(&found.operands),
            Mnemonic::Leave => Some(Effect::Leave),
            Mnemonic::Return => {
                let popped = operand.immediate().map_or(0, |bytes| bytes as u16);
                Some(Effect::Return { popped })
            }
            Mnemonic::Padding => Some(Effect::Padding),
            Mnemonic::Stop => Some(Effect::Stop),
            Mnemonic::System => Some(Effect::System { registers: self.system }),
            Mnemonic::Call => Some(Effect::Call { target: self.target(operand) }),
            Mnemonic::Jump => Some(Effect::Jump { target: self.target(operand) }),
            Mnemonic::JumpIfZero => self.conditional_jump(operand, Condition::Equal),
            Mnemonic::JumpIfNotZero => self.conditional_jump(operand, Condition::NotEqual),
            Mnemonic::JumpIf => self.conditional_jump(operand, Condition::Other),
            _ => None,
        }
    }

    /// `xor` of a register with itself.
    fn xor_with_itself(&self, first: &Operand, second: &Operand) -> Option<Effect> {
        let is_zeroed = second.kind() == OperandKind::Register && first.register == second.register;
        let is_wide = first.bits >= 32 && second.bits == first.bits;
        Some(Effect::Set { to: self.register(first.register)?, number: 0 }).filter(|_| is_zeroed && is_wide)
    }

    /// An operation on a number in a register or in its lower half.
    fn calculation(&self, operand: &Operand, operation: Operation) -> Option<Effect> {
        let is_register = operand.kind() == OperandKind::Register && operand.bits >= 32;
        let register = self.register(operand.register).filter(|_| is_register)?;
        Some(Effect::Calculate { register, operation, is_half: operand.bits == 32 })
    }

    fn push_effect(&self, operand: &Operand) -> Effect {
        match (self.whole_register(operand), self.place(operand)) {
            (Some(from), _) => Effect::Push { from },
            (_, Some(from)) => Effect::PushMemory { from },
            _ => Effect::PushOther,
        }
    }

    /// `enter`: the bytes of the frame, and the number of pointers to outer frames, which are pushed before.
    fn enter_effect(&self, operands: &[Operand; 2]) -> Option<Effect> {
        let (frame, depth) = (operands[0].immediate()?, operands[1].immediate()?);
        let bytes = (frame & 0xffff) + i64::from(self.address_bytes) * (depth & 31);
        Some(Effect::Enter { bytes: u32::try_from(bytes).ok()? })
    }

    fn conditional_jump(&self, operand: &Operand, condition: Condition) -> Option<Effect> {
        match self.target(operand) {
            Target::Code(target) => Some(Effect::JumpIf { target, condition }),
            _ => None,
        }
    }

    fn lea_effect(&self, first: &Operand, second: &Operand) -> Option<Effect> {
        let to = self.whole_register(first)?;
        if let Some(number) = second.known_address() {
            return Some(Effect::Set { to, number });
        }
        if let Some(MemoryOperand { base: from, offset: number }) = self.place(second) {
            return Some(Effect::Add { to, from, number: number.into() });
        }
        let from = self.register(second.base)?;
        match self.register(second.index) {
            Some(by) if second.value == 0 && (to == self.stack_pointer || from == self.stack_pointer) => {
                let scale = Scale { shift: second.scale.trailing_zeros() as u8, ..Scale::ONE };
                Some(Effect::AddRegister { to, from, by, scale })
            }
            _ => Some(Effect::Derive { to, from }),
        }
    }

    fn mov_effect(&self, first: &Operand, second: &Operand) -> Option<Effect> {
        if first.kind() == OperandKind::Register && first.bits >= 32 {
            if let (Some(to), Some(number)) = (self.register(first.register), second.immediate()) {
                // 32 bits are extended with zeros.
                let number = if first.bits == 32 { number & 0xffff_ffff } else { number };
                return Some(Effect::Set { to, number });
            }
        }
        match (self.whole_register(first), self.whole_register(second)) {
            (Some(to), Some(from)) => Some(Effect::Move { to, from }),
            (Some(to), None) => self.load_effect(to, second),
            (None, Some(from)) if first.is_memory() => Some(Effect::Store { from, to: self.place(first) }),
            _ => None,
        }
    }

    /// A copy between a general register and a vector register, which has no number here.
    fn move_vector_effect(&self, first: &Operand, second: &Operand) -> Option<Effect> {
        let is_vector = |operand: &Operand| operand.kind() == OperandKind::Register && operand.register == NO_REGISTER;
        match (self.whole_register(first), self.whole_register(second)) {
            (None, Some(from)) if is_vector(first) => Some(Effect::ToVector { from }),
            (Some(to), None) if is_vector(second) => Some(Effect::FromVector { to }),
            _ => None,
        }
    }

    fn load_effect(&self, to: Register, operand: &Operand) -> Option<Effect> {
        if let Some(from) = self.place(operand) {
            return Some(Effect::Load { to, from });
        }
        let (base, offset) = self.entry(operand, self.address_bytes)?;
        Some(Effect::LoadEntry { to, base, offset, entry: Entry::address(self.address_bytes) })
    }

    fn add_number_effect(&self, operand: &Operand, number: i64) -> Option<Effect> {
        match self.whole_register(operand) {
            Some(register) => Some(Effect::Add { to: register, from: register, number }),
            None => self.calculation(operand, Operation::Add(number as i32)),
        }
    }

    fn add_effect(&self, first: &Operand, second: &Operand) -> Option<Effect> {
        match second.immediate() {
            Some(number) => self.add_number_effect(first, number),
            None => {
                let (to, by) = (self.whole_register(first)?, self.whole_register(second)?);
                Some(Effect::AddRegister { to, from: to, by, scale: Scale::ONE })
            }
        }
    }

    fn subtract_effect(&self, first: &Operand, second: &Operand) -> Option<Effect> {
        if let Some(number) = second.immediate() {
            return self.add_number_effect(first, number.wrapping_neg());
        }
        let (to, by) = (self.whole_register(first)?, self.whole_register(second));
        Some(Effect::SubtractRegister { to, from: to, by }).filter(|_| by.is_some() || to == self.stack_pointer)
    }

    fn compare_effect(&self, first: &Operand, second: &Operand) -> Option<Effect> {
        match (self.whole_register(first), self.whole_register(second), second.immediate()) {
            (Some(one), Some(other), _) => Some(Effect::Compare { one, other }),
            (_, _, Some(number)) if first.kind() == OperandKind::Register => Some(Effect::CompareNumber { number }),
            _ => None,
        }
    }
}
