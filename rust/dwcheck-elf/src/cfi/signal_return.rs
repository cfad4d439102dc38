//! A section of our own for the code to which signal handlers return on aarch64: the kernel's vDSO has that code, and no
//! section. With it, a walk passes the frame of a signal by a row.

use crate::cfi::frames::FrameSection;
use crate::elf::format::Name;
use crate::elf::program::{Program, Section};
use object::elf::EM_AARCH64;
use std::borrow::Cow;

/// mov x8, #139, which is the number of rt_sigreturn; svc #0.
const CODE: [u8; 8] = [0x68, 0x11, 0x80, 0xd2, 0x01, 0, 0, 0xd4];

/// The size of an instruction.
const INSTRUCTION: u64 = 4;

/// The number of the register for the address of the interrupted instruction, which has no other use in rows.
const RETURN_ADDRESS: u8 = 32;

/// Where x0 is saved, in words above the stack pointer: after a `siginfo_t` of 128 bytes, the head of a `ucontext_t` of
/// 176, and the address of a fault. x1 to x30, sp and pc follow.
const FIRST_WORD: u8 = 128 / 8 + 176 / 8 + 1;

/// The section of a program that has this code, and no frame section.
pub fn section<'data>(program: &Program<'_>) -> Option<FrameSection<'data>> {
    if program.machine() != EM_AARCH64 {
        return None;
    }
    let image = program.image();
    let code = image.parts.iter().filter(|part| part.is_executable);
    let address = code.filter_map(|part| part.address.checked_add(place_in(&part.bytes)? as u64)).next()?;
    // A walk looks a caller up at the address before it.
    let bytes = section_for(address.checked_sub(INSTRUCTION)?, INSTRUCTION + CODE.len() as u64);
    let source = Section { bytes: Cow::Owned(bytes), address: 0, unresolved: Vec::new() };
    Some(FrameSection { format: program.format(Name::EhFrame, &source), source })
}

/// The offset of the code in the bytes of a segment.
fn place_in(bytes: &[u8]) -> Option<usize> {
    let aligned = bytes.chunks_exact(INSTRUCTION as usize).map(|word| word == &CODE[..INSTRUCTION as usize]);
    let places = aligned.enumerate().filter(|(_, is_first)| *is_first);
    places.map(|(index, _)| index * INSTRUCTION as usize).find(|place| bytes[*place..].starts_with(&CODE))
}

/// A CIE of signal frames, with addresses of 8 bytes, and an FDE of these addresses: the CFA is sp, above which all
/// registers are saved.
fn section_for(address: u64, size: u64) -> Vec<u8> {
    const OFFSET: u8 = 0x80;
    let mut cie = vec![0, 0, 0, 0, 1];
    cie.extend_from_slice(b"zRS\0");
    // The code and data alignment factors, the size of the augmentation, and that addresses are absolute.
    cie.extend_from_slice(&[1, 8, RETURN_ADDRESS, 1, 0]);
    // DW_CFA_def_cfa: sp + 0.
    cie.extend_from_slice(&[0x0c, 31, 0]);
    cie.extend((0..=RETURN_ADDRESS).flat_map(|number| [OFFSET | number, FIRST_WORD + number]));
    let mut bytes = record(cie);
    let mut fde = (bytes.len() as u32 + 4).to_le_bytes().to_vec();
    fde.extend_from_slice(&address.to_le_bytes());
    fde.extend_from_slice(&size.to_le_bytes());
    fde.push(0);
    bytes.extend(record(fde));
    bytes
}

/// A record with its length, filled up with DW_CFA_nop.
fn record(mut body: Vec<u8>) -> Vec<u8> {
    body.resize((body.len() + 3) / 4 * 4, 0);
    let mut bytes = (body.len() as u32).to_le_bytes().to_vec();
    bytes.append(&mut body);
    bytes
}

#[cfg(test)]
mod tests {
    use super::*;
    use dwcheck::{EhFrame, Module, Process, Rule};
    use dwcheck_types::target::Target;

    /// The offsets are those of Linux: `struct rt_sigframe` begins with `siginfo_t`, and `uc_mcontext.regs` of the
    /// `ucontext_t` after it is at offset 184.
    #[test]
    fn registers_are_where_the_kernel_saves_them() {
        let (bytes, section) = (section_for(0x1000, 12), EhFrame::at(0).aarch64());
        let mut process = Process::new(Target::LITTLE_64);
        process.add(&bytes, Module::at(0).eh_frame(section)).unwrap();
        let row = process.row(0x1008).unwrap();
        for (number, offset) in [(0, 312), (30, 312 + 30 * 8), (31, 312 + 31 * 8), (32, 312 + 32 * 8)] {
            assert_eq!(row.rule(number), Some(Rule::Offset(offset)), "register {}", number);
        }
        assert_eq!(row.return_register, 32);
        assert!(process.is_signal_frame(0x1004));
    }

    #[test]
    fn the_code_is_found_where_an_instruction_begins() {
        let mut bytes = vec![0; 16];
        bytes[6..14].copy_from_slice(&CODE);
        assert_eq!(place_in(&bytes), None);
        bytes[8..16].copy_from_slice(&CODE);
        assert_eq!(place_in(&bytes), Some(8));
        assert_eq!(place_in(&bytes[..15]), None);
    }
}
