//! ABIs: which registers a call preserves, and which register is the stack pointer.

use dwcheck_types::abi::callee_saved;

/// What an ABI says about registers for which an unwind table has no rule.
///
/// `kept` are the callee-saved registers. If the table has no rule for one of them, its value in
/// the caller is the value that it has now. If the table has no rule for the stack pointer, its
/// value in the caller is the CFA. Nothing is known about any other register without a rule.
/// Register numbers are the machine's DWARF numbers.
///
/// `kept` has at most 127 registers, none of them twice, and not the stack pointer. Otherwise the
/// call that takes the ABI refuses it with [`AbiTooLarge`](crate::FaultKind::AbiTooLarge) or
/// [`AbiTwice`](crate::FaultKind::AbiTwice).
///
/// The constants cover the general-purpose registers. On machines where a call leaves the return
/// address in a register, that register is in `kept` as well, because leaf functions have no rule
/// for it.
///
/// ```
/// use dwcheck::Abi;
///
/// assert_eq!(Abi::X86_64, Abi::new(&[3, 6, 12, 13, 14, 15], Some(7)));
/// ```
#[derive(Clone, Copy, Debug, Default, PartialEq, Eq, Hash)]
pub struct Abi<'a> {
    /// The callee-saved registers.
    pub kept: &'a [u16],
    /// The stack pointer, which must not be in `kept`. `None` if the ABI says nothing about it.
    pub stack_pointer: Option<u16>,
    /// The bits of a signed return address that have its signature (aarch64). Walks take them off
    /// where the rows say that the return address is signed ([`Process::is_signed`]), and nowhere
    /// else. 0 if no address is signed.
    ///
    /// [`Process::is_signed`]: crate::Process::is_signed
    pub signed_bits: u64,
}

impl<'a> Abi<'a> {
    /// An ABI with these registers. They aren't checked here, but by the call that the ABI is
    /// passed to.
    pub const fn new(kept: &'a [u16], stack_pointer: Option<u16>) -> Abi<'a> {
        Abi {
            kept,
            stack_pointer,
            signed_bits: 0,
        }
    }

    /// The same ABI for a process that signs return addresses. `bits` are those that have the
    /// signature: on Linux, the mask for code in `NT_ARM_PAC_MASK`, a note of a core file and a set of
    /// registers of a process.
    pub const fn signed(self, bits: u64) -> Abi<'a> {
        Abi {
            signed_bits: bits,
            ..self
        }
    }
}

impl Abi<'static> {
    /// An ABI that says nothing about any register.
    pub const NONE: Abi<'static> = Abi::new(&[], None);

    /// x86-64: rbx, rbp and r12 to r15. The stack pointer is rsp.
    pub const X86_64: Abi<'static> = Abi::new(&callee_saved::X86_64, Some(7));

    /// i386: ebx, ebp, esi and edi. The stack pointer is esp. (These are the DWARF numbers that ELF
    /// systems use.)
    pub const I386: Abi<'static> = Abi::new(&callee_saved::I386, Some(4));

    /// aarch64: x19 to x29, and x30 for the return address. The stack pointer is sp.
    pub const AARCH64: Abi<'static> = Abi::new(&callee_saved::AARCH64, Some(31));

    /// arm: r4 to r11, and r14 for the return address. The stack pointer is r13.
    pub const ARM: Abi<'static> = Abi::new(&callee_saved::ARM, Some(13));

    /// powerpc and powerpc64: r14 to r31, and the link register, 65, for the return address. The
    /// stack pointer is r1.
    pub const POWERPC: Abi<'static> = Abi::new(&callee_saved::POWERPC, Some(1));

    /// s390x: r6 to r13, r15, and r14 for the return address. The stack pointer is r15, but it is
    /// in `kept` and `stack_pointer` is `None`, because the CFA isn't the value of r15 in the
    /// caller: it is that value plus 160.
    pub const S390X: Abi<'static> = Abi::new(&callee_saved::S390X, None);

    /// riscv: s0 to s11 (8, 9 and 18 to 27), and ra (1) for the return address. The stack pointer
    /// is sp (2).
    pub const RISCV: Abi<'static> = Abi::new(&callee_saved::RISCV, Some(2));

    /// mips: s0 to s7 (16 to 23), s8 (30), and ra (31) for the return address. The stack pointer is
    /// sp (29).
    pub const MIPS: Abi<'static> = Abi::new(&callee_saved::MIPS, Some(29));
}
