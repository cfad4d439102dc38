//! Declares the C of `zydis.c`.

use std::os::raw::{c_char, c_int};
use std::sync::Once;

/// The number of RIP in an [`Operand`].
pub(crate) const RIP: u8 = 16;

/// The number in an [`Operand`] that says that there is no register.
pub(crate) const NO_REGISTER: u8 = 255;

/// How long an instruction can be.
const LONGEST: usize = 15;

/// The processors whose code is read, by the numbers of `zydis.c`.
#[derive(Clone, Copy, Debug, PartialEq, Eq)]
#[repr(i32)]
pub(crate) enum Mode {
    X86_64,
    I386,
}

/// The instructions that `zydis.c` tells apart, in its order.
#[derive(Clone, Copy, Debug, PartialEq, Eq)]
#[repr(u8)]
pub(crate) enum Mnemonic {
    Other,
    Push,
    Pop,
    PushFlags,
    PopFlags,
    Leave,
    Return,
    Padding,
    Stop,
    Call,
    Jump,
    JumpIfZero,
    JumpIfNotZero,
    JumpIf,
    Lea,
    Mov,
    Movsxd,
    Add,
    Subtract,
    Increment,
    Decrement,
    And,
    Xor,
    Exchange,
    System,
    Compare,
    MoveIf,
    Enter,
    Negate,
    Invert,
    ShiftLeft,
    ShiftRight,
    MoveVector,
    Or,
}

const MNEMONICS: [Mnemonic; 34] = [
    Mnemonic::Other,
    Mnemonic::Push,
    Mnemonic::Pop,
    Mnemonic::PushFlags,
    Mnemonic::PopFlags,
    Mnemonic::Leave,
    Mnemonic::Return,
    Mnemonic::Padding,
    Mnemonic::Stop,
    Mnemonic::Call,
    Mnemonic::Jump,
    Mnemonic::JumpIfZero,
    Mnemonic::JumpIfNotZero,
    Mnemonic::JumpIf,
    Mnemonic::Lea,
    Mnemonic::Mov,
    Mnemonic::Movsxd,
    Mnemonic::Add,
    Mnemonic::Subtract,
    Mnemonic::Increment,
    Mnemonic::Decrement,
    Mnemonic::And,
    Mnemonic::Xor,
    Mnemonic::Exchange,
    Mnemonic::System,
    Mnemonic::Compare,
    Mnemonic::MoveIf,
    Mnemonic::Enter,
    Mnemonic::Negate,
    Mnemonic::Invert,
    Mnemonic::ShiftLeft,
    Mnemonic::ShiftRight,
    Mnemonic::MoveVector,
    Mnemonic::Or,
];

/// What an operand is, by the numbers of `zydis.c`.
#[derive(Clone, Copy, Debug, PartialEq, Eq)]
pub(crate) enum OperandKind {
    None,
    Register,
    Memory,
    Immediate,
    Target,
}

/// The structure `operand` of `zydis.c`, which describes the fields.
#[derive(Clone, Copy, Debug, Default)]
#[repr(C)]
pub(crate) struct Operand {
    kind: u8,
    pub bits: u8,
    pub register: u8,
    is_whole: u8,
    pub base: u8,
    pub index: u8,
    pub scale: u8,
    is_thread_local: u8,
    pub value: i64,
}

/// The structure `instruction` of `zydis.c`, which describes the fields.
#[derive(Clone, Copy, Debug, Default)]
#[repr(C)]
pub(crate) struct Decoded {
    pub length: u8,
    mnemonic: u8,
    pub operand_count: u8,
    pub width: u8,
    pub written: u16,
    pub stored_bytes: u8,
    pub stored_base: u8,
    pub stored_offset: i32,
    pub operands: [Operand; 2],
}

extern "C" {
    fn dwcheck_lint_zydis_start() -> c_int;
    fn dwcheck_lint_zydis_decode(
        mode: c_int,
        bytes: *const u8,
        length: usize,
        address: u64,
        out: *mut Decoded,
    ) -> c_int;
    fn dwcheck_lint_zydis_text(
        mode: c_int,
        bytes: *const u8,
        length: usize,
        address: u64,
        text: *mut c_char,
        size: usize,
    ) -> c_int;
}

impl Operand {
    pub fn kind(&self) -> OperandKind {
        match self.kind {
            1 => OperandKind::Register,
            2 => OperandKind::Memory,
            3 => OperandKind::Immediate,
            4 => OperandKind::Target,
            _ => OperandKind::None,
        }
    }

    /// Whether it is a whole general register.
    pub fn is_whole(&self) -> bool {
        self.kind() == OperandKind::Register && self.is_whole != 0
    }

    pub fn is_memory(&self) -> bool {
        self.kind() == OperandKind::Memory
    }

    pub fn is_thread_local(&self) -> bool {
        self.is_thread_local != 0
    }

    const fn of(kind: OperandKind) -> Operand {
        let [register, base, index] = [NO_REGISTER; 3];
        Operand {
            kind: kind as u8,
            bits: 0,
            register,
            is_whole: 0,
            base,
            index,
            scale: 0,
            is_thread_local: 0,
            value: 0,
        }
    }

    /// A general register, or its first bits.
    pub fn general(register: u8, bits: u8) -> Operand {
        Operand { register, bits, is_whole: u8::from(bits == 64), ..Operand::of(OperandKind::Register) }
    }

    /// Memory at a base plus an index times a scale plus an offset.
    pub fn memory(base: u8, index: u8, scale: u8, value: i64) -> Operand {
        Operand { base, index, scale, value, ..Operand::of(OperandKind::Memory) }
    }

    /// An immediate number.
    pub fn number(value: i64) -> Operand {
        Operand { value, ..Operand::of(OperandKind::Immediate) }
    }
}

impl Decoded {
    /// An instruction without operands. The width of its stack is that of an address.
    pub fn of(mnemonic: Mnemonic, length: u8) -> Decoded {
        let operands = [Operand::of(OperandKind::None); 2];
        Decoded { length, mnemonic: mnemonic as u8, width: 64, operands, ..Decoded::default() }
    }

    /// Notes that an operand of this many bytes is written.
    pub fn write(&mut self, operand: &Operand, bytes: u8) {
        if operand.kind() == OperandKind::Register {
            self.written |= 1 << operand.register;
        } else if operand.base < RIP && operand.index == NO_REGISTER {
            self.stored_base = operand.base;
            self.stored_bytes = bytes;
            // Displacements have 32 bits.
            self.stored_offset = operand.value as i32;
        }
    }

    pub fn mnemonic(&self) -> Mnemonic {
        MNEMONICS.get(usize::from(self.mnemonic)).copied().unwrap_or(Mnemonic::Other)
    }
}

/// Makes Zydis's decoder and formatter, once.
fn start_zydis() {
    static START: Once = Once::new();
    START.call_once(|| {
        // SAFETY: the call has no arguments, and no other call is made before it has ended.
        let is_made = unsafe { dwcheck_lint_zydis_start() };
        assert!(is_made != 0, "Zydis has no decoder for x86-64 and i386");
    });
}

/// Decodes the instruction at the first byte. `None` if there is none.
pub(crate) fn decode_by_zydis(mode: Mode, bytes: &[u8], address: u64) -> Option<Decoded> {
    start_zydis();
    let mut out = Decoded::default();
    let length = bytes.len().min(LONGEST);
    // SAFETY: the bytes are only read, `out` is a local, and the decoder has been made.
    let is_decoded = unsafe { dwcheck_lint_zydis_decode(mode as c_int, bytes.as_ptr(), length, address, &mut out) };
    Some(out).filter(|_| is_decoded != 0)
}

/// The text of the instruction at the first byte. `None` if there is none.
pub(crate) fn text_by_zydis(mode: Mode, bytes: &[u8], address: u64) -> Option<String> {
    start_zydis();
    let mut text = [0u8; 256];
    let length = bytes.len().min(LONGEST);
    // SAFETY: the bytes are only read, `text` is a local, and the formatter has been made.
    let is_decoded = unsafe {
        dwcheck_lint_zydis_text(mode as c_int, bytes.as_ptr(), length, address, text.as_mut_ptr().cast(), text.len())
    };
    let end = text.iter().position(|byte| *byte == 0)?;
    Some(String::from_utf8_lossy(&text[..end]).into_owned()).filter(|_| is_decoded != 0)
}
