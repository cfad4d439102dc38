//! Call frame instructions: their codes, operands and names.

mod each;

pub(crate) use each::{instructions, Instruction};

use dwcheck_types::cursor::{Cursor, ReadError};
use dwcheck_types::target::Target;
use gimli::constants as dw;
use object::elf::EM_AARCH64;
use std::borrow::Cow;

/// The operands of an instruction, as far as is needed to find where they end.
#[derive(Clone, Copy, Debug, PartialEq, Eq)]
pub(crate) enum Operands {
    None,
    Bytes(u64),
    Leb,
    TwoLebs,
    Block,
    LebAndBlock,
    Address,
}

pub(crate) const NOP: u8 = dw::DW_CFA_nop.0;
pub(crate) const ADVANCE_LOC1: u8 = dw::DW_CFA_advance_loc1.0;
pub(crate) const ADVANCE_LOC2: u8 = dw::DW_CFA_advance_loc2.0;
pub(crate) const ADVANCE_LOC4: u8 = dw::DW_CFA_advance_loc4.0;
pub(crate) const SET_LOC: u8 = dw::DW_CFA_set_loc.0;
pub(crate) const REMEMBER_STATE: u8 = dw::DW_CFA_remember_state.0;
pub(crate) const RESTORE_STATE: u8 = dw::DW_CFA_restore_state.0;
pub(crate) const DEF_CFA_REGISTER: u8 = dw::DW_CFA_def_cfa_register.0;
pub(crate) const DEF_CFA_EXPRESSION: u8 = dw::DW_CFA_def_cfa_expression.0;
/// `DW_CFA_AARCH64_negate_ra_state`. Other machines use the code for another instruction.
pub(crate) const NEGATE_RA_STATE: u8 = dw::DW_CFA_GNU_window_save.0;
/// `DW_CFA_AARCH64_negate_ra_state_with_pc`, which gimli doesn't name.
pub(crate) const NEGATE_RA_STATE_WITH_PC: u8 = 0x2c;
pub(crate) const GNU_ARGS_SIZE: u8 = dw::DW_CFA_GNU_args_size.0;

/// The operands of the instruction with this code. `None` if the code isn't known.
pub(crate) fn operands_of_instruction(code: u8) -> Option<Operands> {
    Some(match dw::DwCfa(primary_opcode(code)) {
        dw::DW_CFA_advance_loc | dw::DW_CFA_restore => Operands::None,
        dw::DW_CFA_offset => Operands::Leb,
        dw::DW_CFA_nop | dw::DW_CFA_remember_state | dw::DW_CFA_restore_state => Operands::None,
        dw::DW_CFA_set_loc => Operands::Address,
        dw::DW_CFA_advance_loc1 => Operands::Bytes(1),
        dw::DW_CFA_advance_loc2 => Operands::Bytes(2),
        dw::DW_CFA_advance_loc4 => Operands::Bytes(4),
        dw::DW_CFA_MIPS_advance_loc8 => Operands::Bytes(8),
        dw::DW_CFA_restore_extended | dw::DW_CFA_undefined | dw::DW_CFA_same_value => Operands::Leb,
        dw::DW_CFA_def_cfa_register | dw::DW_CFA_def_cfa_offset | dw::DW_CFA_def_cfa_offset_sf => Operands::Leb,
        dw::DW_CFA_def_cfa | dw::DW_CFA_def_cfa_sf | dw::DW_CFA_register => Operands::TwoLebs,
        dw::DW_CFA_offset_extended | dw::DW_CFA_offset_extended_sf => Operands::TwoLebs,
        dw::DW_CFA_val_offset | dw::DW_CFA_val_offset_sf => Operands::TwoLebs,
        dw::DW_CFA_def_cfa_expression => Operands::Block,
        dw::DW_CFA_expression | dw::DW_CFA_val_expression => Operands::LebAndBlock,
        dw::DwCfa(NEGATE_RA_STATE | NEGATE_RA_STATE_WITH_PC) => Operands::None,
        dw::DW_CFA_GNU_args_size => Operands::Leb,
        dw::DW_CFA_GNU_negative_offset_extended => Operands::TwoLebs,
        _ => return None,
    })
}

/// The code without the operand that instructions with one of the two highest bits have in the others.
fn primary_opcode(code: u8) -> u8 {
    if code & 0xc0 == 0 {
        code
    } else {
        code & 0xc0
    }
}

/// Moves past the operands of an instruction. Returns the length of the block that they end with,
/// or `None` if they have no block. An address has the target's address size, as in `.debug_frame`.
pub(crate) fn skip_operands(
    cursor: &mut Cursor<'_>,
    operands: Operands,
    target: Target,
) -> Result<Option<usize>, ReadError> {
    match operands {
        Operands::None => {}
        Operands::Address => cursor.take(u64::from(target.address_size.bytes())).map(|_| ())?,
        Operands::Bytes(count) => cursor.take(count).map(|_| ())?,
        Operands::Leb => cursor.skip_leb()?,
        Operands::TwoLebs => cursor.skip_leb().and_then(|()| cursor.skip_leb())?,
        Operands::Block => return skip_block(cursor).map(Some),
        Operands::LebAndBlock => return cursor.skip_leb().and_then(|()| skip_block(cursor)).map(Some),
    }
    Ok(None)
}

fn skip_block(cursor: &mut Cursor<'_>) -> Result<usize, ReadError> {
    let length = cursor.uleb()?;
    cursor.take(length).map(<[u8]>::len)
}

/// The name of the instruction with this code, without `DW_CFA_`. It is the name in DWARF 5,
/// section 7.24, or a vendor's. Vendors use some codes for different instructions; `machine`
/// (`e_machine`) then decides which one is meant. `None` if the code has no name.
pub(crate) fn instruction_name(code: u8, machine: u16) -> Option<&'static str> {
    let code = primary_opcode(code);
    match dw::DwCfa(code) {
        dw::DW_CFA_lo_user | dw::DW_CFA_hi_user => None,
        _ if code == NEGATE_RA_STATE && machine == EM_AARCH64 => Some("AARCH64_negate_ra_state"),
        named => named.static_string()?.strip_prefix("DW_CFA_"),
    }
}

/// A section in which the bytes at these offsets, which are those of whole instructions, are `DW_CFA_nop`.
pub(crate) fn with_nops<'a>(section: &'a [u8], places: &[usize]) -> Cow<'a, [u8]> {
    let mut bytes = Cow::Borrowed(section);
    for place in places {
        if let Some(byte) = bytes.to_mut().get_mut(*place) {
            *byte = NOP;
        }
    }
    bytes
}
