//! Calls of x86 before an address.

/// Whether bytes of x86 code end with a near call: e8 and four bytes, or ff, a ModRM byte whose
/// middle bits are 2, and what this byte says that follows.
pub fn ends_with_call(code: &[u8; 7]) -> bool {
    let is_indirect = |length: usize| {
        let (code, modrm) = (code[7 - length], code[8 - length]);
        code == 0xff && modrm >> 3 & 7 == 2 && indirect_call_length(modrm) == length
    };
    code[2] == 0xe8 || [2, 3, 4, 6, 7].into_iter().any(is_indirect)
}

/// Whether an instruction of aarch64 is a call: `bl`, `blr`, or `blr` to an address that it authenticates.
pub(super) fn is_call_of_aarch64(instruction: u32) -> bool {
    instruction & 0xfc00_0000 == 0x9400_0000
        || instruction & 0xffff_fc1f == 0xd63f_0000
        || instruction & 0xfeff_f800 == 0xd63f_0800
}

/// Where a near call leads that ends at an address, if it is one to a fixed address.
pub(super) fn direct_target(code: &[u8; 7], end: u64) -> Option<u64> {
    match *code {
        [_, _, 0xe8, a, b, c, d] => Some(end.wrapping_add(i64::from(i32::from_le_bytes([a, b, c, d])) as u64)),
        _ => None,
    }
}

/// The length of an instruction ff whose ModRM byte is this one.
fn indirect_call_length(modrm: u8) -> usize {
    let sib = usize::from(modrm & 7 == 4 && modrm >> 6 != 3);
    let displacement = match (modrm >> 6, modrm & 7) {
        (0, 5) | (2, _) => 4,
        (1, _) => 1,
        _ => 0,
    };
    2 + sib + displacement
}

#[cfg(test)]
mod tests {
    use super::{ends_with_call, is_call_of_aarch64};

    /// Calls as GNU as encodes them.
    #[test]
    fn calls() {
        for (call, is_call) in [
            (&[0x90, 0x90, 0xe8, 1, 2, 3, 4][..], true),
            (&[0x90, 0x90, 0x90, 0x90, 0x90, 0xff, 0xd0], true), // call *%rax
            (&[0x90, 0x90, 0x90, 0x90, 0xff, 0x14, 0x24], true), // call *(%rsp)
            (&[0x90, 0x90, 0x90, 0x90, 0xff, 0x50, 0x08], true), // call *8(%rax)
            (&[0x90, 0x90, 0x90, 0xff, 0x54, 0x24, 0x08], true), // call *8(%rsp)
            (&[0x90, 0xff, 0x15, 1, 2, 3, 4], true),             // call *0x4030201(%rip)
            (&[0xff, 0x94, 0x24, 0, 1, 0, 0], true),             // call *256(%rsp)
            (&[0x90, 0x90, 0x90, 0x90, 0x90, 0xff, 0xe0], false), // jmp *%rax
            (&[0x90, 0x90, 0x90, 0x90, 0x90, 0x90, 0xc3], false),
            (&[0x90, 0x90, 0x90, 0x90, 0x90, 0xff, 0x50], false),
        ] {
            assert_eq!(ends_with_call(call.try_into().unwrap()), is_call, "{:x?}", call);
        }
    }

    /// Instructions as GNU as encodes them: bl, blr x8, blraa x8, x9, blraaz x8; b, br x8, ret, cbz.
    #[test]
    fn calls_of_aarch64() {
        for call in [0x97ff_fff0, 0xd63f_0100, 0xd73f_0909, 0xd63f_091f] {
            assert!(is_call_of_aarch64(call), "{:x}", call);
        }
        for other in [0x1400_0001, 0xd61f_0100, 0xd65f_03c0, 0xb400_0040] {
            assert!(!is_call_of_aarch64(other), "{:x}", other);
        }
    }
}
