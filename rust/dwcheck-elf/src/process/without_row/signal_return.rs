//! The code by which signal handlers return to the kernel, where no row says so, such as Go's.

use crate::elf::program::Program;
use object::elf;

/// Code by which a signal handler returns to the kernel.
#[derive(Debug)]
pub struct SignalReturn {
    /// The machine's number.
    machine: u16,
    /// Its instructions.
    code: &'static [u8],
    /// How far above the stack pointer the kernel has stored the registers that the signal interrupted, where a
    /// handler returns to the code.
    pub(super) offset: u64,
    /// The DWARF numbers of these registers, each of which takes a word. `None` for what isn't one.
    pub(super) registers: &'static [Option<u16>],
}

/// The codes that are known. The registers are in the kernel's structure `sigcontext`.
const ALL: [SignalReturn; 5] = [
    // mov $15, %rax; syscall. The structure begins with r8.
    SignalReturn {
        machine: elf::EM_X86_64,
        code: &[0x48, 0xc7, 0xc0, 15, 0, 0, 0, 0x0f, 0x05],
        offset: 40,
        registers: &X86_64,
    },
    // mov $15, %eax; syscall.
    SignalReturn { machine: elf::EM_X86_64, code: &[0xb8, 15, 0, 0, 0, 0x0f, 0x05], offset: 40, registers: &X86_64 },
    // pop %eax; mov $119, %eax; int $0x80. The signal's number and four segments come before edi.
    SignalReturn { machine: elf::EM_386, code: &[0x58, 0xb8, 119, 0, 0, 0, 0xcd, 0x80], offset: 20, registers: &I386 },
    // mov $173, %eax; int $0x80, for SA_SIGINFO. Its arguments, `siginfo_t` and the head of `ucontext_t` come before.
    SignalReturn { machine: elf::EM_386, code: &[0xb8, 173, 0, 0, 0, 0xcd, 0x80], offset: 176, registers: &I386 },
    // mov x8, #139; svc #0. The structure begins with the address of a fault, and x0 to x30, sp and pc follow.
    SignalReturn {
        machine: elf::EM_AARCH64,
        code: &[0x68, 0x11, 0x80, 0xd2, 0x01, 0, 0, 0xd4],
        offset: 312,
        registers: &AARCH64,
    },
];

/// r8 to r15, rdi, rsi, rbp, rbx, rdx, rax, rcx, rsp, rip.
const X86_64: [Option<u16>; 17] = all_some([8, 9, 10, 11, 12, 13, 14, 15, 5, 4, 6, 3, 1, 0, 2, 7, 16]);

/// edi, esi, ebp, esp, ebx, edx, ecx, eax, the numbers of the trap and of its error, eip.
const I386: [Option<u16>; 11] =
    [Some(7), Some(6), Some(5), Some(4), Some(3), Some(2), Some(1), Some(0), None, None, Some(8)];

/// x0 to x30, sp, pc.
const AARCH64: [Option<u16>; 33] = {
    let mut numbers = [0; 33];
    let mut number = 0;
    while number < 33 {
        numbers[number] = number as u16;
        number += 1;
    }
    all_some(numbers)
};

const fn all_some<const N: usize>(numbers: [u16; N]) -> [Option<u16>; N] {
    let mut all = [None; N];
    let mut index = 0;
    while index < N {
        all[index] = Some(numbers[index]);
        index += 1;
    }
    all
}

/// The address of Go's function `runtime.sigpanic`. Go's signal handler makes it look as if the interrupted code had
/// called it.
pub fn address_of_sigpanic(program: &Program<'_>) -> Option<u64> {
    let functions = program.has_section(".gopclntab").then(|| program.functions());
    functions.and_then(|functions| functions.address_of("runtime.sigpanic").ok())
}

impl SignalReturn {
    /// How many bytes of code have to be looked at.
    pub const LONGEST: usize = 9;

    /// The code with which these bytes of a machine (`e_machine`) begin, if handlers return by it.
    pub fn of(machine: u16, code: &[u8]) -> Option<&'static SignalReturn> {
        ALL.iter().find(|known| known.machine == machine && code.starts_with(known.code))
    }

    /// How many words at the stack pointer [`of_stack`](Self::of_stack) looks at.
    pub const WORDS: usize = 20;

    /// The code to which a handler of i386 returns when the stack pointer is `stack`, and these words are there. With
    /// `SA_SIGINFO`, the kernel has put pointers there that lead to what follows; without, the registers follow, among
    /// which are the segments of programs.
    pub fn of_stack(stack: u32, words: &[u32; SignalReturn::WORDS]) -> Option<&'static SignalReturn> {
        const CODE: [u32; 2] = [0x23, 0x73];
        const STACK: [u32; 2] = [0x2b, 0x7b];
        let has_pointers = words[1] == stack.wrapping_add(12) && words[2] == stack.wrapping_add(140);
        let has_segments = CODE.contains(&(words[16] & 0xffff)) && STACK.contains(&(words[19] & 0xffff));
        let offset = match (has_pointers, (1..=64).contains(&words[0]) && has_segments) {
            (true, _) => 176,
            (false, true) => 20,
            _ => return None,
        };
        ALL.iter().find(|known| known.machine == elf::EM_386 && known.offset == offset)
    }
}

#[cfg(test)]
mod tests {
    use super::*;

    /// The words at the stack pointer after the `ret` of a handler of i386, in the order of the kernel's `struct sigframe`
    /// and `struct rt_sigframe`.
    #[test]
    fn signal_frames_of_i386() {
        let mut words = [0; SignalReturn::WORDS];
        assert!(SignalReturn::of_stack(0xff80_0000, &words).is_none());
        words[..3].copy_from_slice(&[10, 0xff80_000c, 0xff80_008c]);
        assert_eq!(SignalReturn::of_stack(0xff80_0000, &words).map(|found| found.offset), Some(176));
        assert!(SignalReturn::of_stack(0xff80_0010, &words).is_none());
        (words[16], words[19]) = (0x23, 0x2b);
        assert_eq!(SignalReturn::of_stack(0xff80_0010, &words).map(|found| found.offset), Some(20));
        words[0] = 65;
        assert!(SignalReturn::of_stack(0xff80_0010, &words).is_none());
    }

    #[test]
    fn all_of_a_code_is_looked_at() {
        assert_eq!(ALL.iter().map(|known| known.code.len()).max(), Some(SignalReturn::LONGEST));
        for known in &ALL {
            let (machine, code) = (known.machine, [known.code, &[0x90]].concat());
            assert_eq!(SignalReturn::of(machine, &code).map(|found| found.offset), Some(known.offset));
            assert!(SignalReturn::of(machine, &known.code[1..]).is_none());
            assert!(SignalReturn::of(machine, &known.code[..known.code.len() - 1]).is_none());
        }
    }
}
