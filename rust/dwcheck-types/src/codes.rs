//! The codes of operations and of entries of location lists as bytes, by the names of DWARF 5 and of vendors.

/// Makes bytes of gimli's constants, which also work as patterns.
macro_rules! bytes {
    ($($name:ident = $constant:ident),* $(,)?) => {
        $(
            #[doc = concat!("`", stringify!($constant), "`")]
            pub const $name: u8 = gimli::constants::$constant.0;
        )*
    };
}

/// Operations of expressions, `DW_OP_`.
pub mod op {
    bytes! {
        ADDR = DW_OP_addr,
        DEREF = DW_OP_deref,
        CONST1U = DW_OP_const1u,
        CONST1S = DW_OP_const1s,
        CONST2U = DW_OP_const2u,
        CONST2S = DW_OP_const2s,
        CONST4U = DW_OP_const4u,
        CONST4S = DW_OP_const4s,
        CONST8U = DW_OP_const8u,
        CONST8S = DW_OP_const8s,
        CONSTU = DW_OP_constu,
        CONSTS = DW_OP_consts,
        DUP = DW_OP_dup,
        DROP = DW_OP_drop,
        OVER = DW_OP_over,
        PICK = DW_OP_pick,
        SWAP = DW_OP_swap,
        ROT = DW_OP_rot,
        XDEREF = DW_OP_xderef,
        ABS = DW_OP_abs,
        AND = DW_OP_and,
        MINUS = DW_OP_minus,
        MUL = DW_OP_mul,
        OR = DW_OP_or,
        PLUS = DW_OP_plus,
        PLUS_UCONST = DW_OP_plus_uconst,
        SHL = DW_OP_shl,
        XOR = DW_OP_xor,
        BRA = DW_OP_bra,
        EQ = DW_OP_eq,
        GE = DW_OP_ge,
        GT = DW_OP_gt,
        LE = DW_OP_le,
        LT = DW_OP_lt,
        NE = DW_OP_ne,
        SKIP = DW_OP_skip,
        LIT0 = DW_OP_lit0,
        LIT31 = DW_OP_lit31,
        REG31 = DW_OP_reg31,
        BREG0 = DW_OP_breg0,
        BREG31 = DW_OP_breg31,
        REGX = DW_OP_regx,
        FBREG = DW_OP_fbreg,
        BREGX = DW_OP_bregx,
        PIECE = DW_OP_piece,
        DEREF_SIZE = DW_OP_deref_size,
        XDEREF_SIZE = DW_OP_xderef_size,
        NOP = DW_OP_nop,
        PUSH_OBJECT_ADDRESS = DW_OP_push_object_address,
        CALL2 = DW_OP_call2,
        CALL_REF = DW_OP_call_ref,
        FORM_TLS_ADDRESS = DW_OP_form_tls_address,
        CALL_FRAME_CFA = DW_OP_call_frame_cfa,
        BIT_PIECE = DW_OP_bit_piece,
        IMPLICIT_VALUE = DW_OP_implicit_value,
        STACK_VALUE = DW_OP_stack_value,
        IMPLICIT_POINTER = DW_OP_implicit_pointer,
        ADDRX = DW_OP_addrx,
        CONSTX = DW_OP_constx,
        ENTRY_VALUE = DW_OP_entry_value,
        CONST_TYPE = DW_OP_const_type,
        REGVAL_TYPE = DW_OP_regval_type,
        DEREF_TYPE = DW_OP_deref_type,
        XDEREF_TYPE = DW_OP_xderef_type,
        CONVERT = DW_OP_convert,
        REINTERPRET = DW_OP_reinterpret,
        GNU_PUSH_TLS_ADDRESS = DW_OP_GNU_push_tls_address,
        GNU_IMPLICIT_POINTER = DW_OP_GNU_implicit_pointer,
        GNU_ENTRY_VALUE = DW_OP_GNU_entry_value,
        GNU_CONST_TYPE = DW_OP_GNU_const_type,
        GNU_REGVAL_TYPE = DW_OP_GNU_regval_type,
        GNU_DEREF_TYPE = DW_OP_GNU_deref_type,
        GNU_CONVERT = DW_OP_GNU_convert,
        GNU_REINTERPRET = DW_OP_GNU_reinterpret,
        GNU_PARAMETER_REF = DW_OP_GNU_parameter_ref,
        GNU_ADDR_INDEX = DW_OP_GNU_addr_index,
        GNU_CONST_INDEX = DW_OP_GNU_const_index,
    }

    /// `DW_OP_GNU_uninit`, which gimli 0.27 doesn't name.
    pub const GNU_UNINIT: u8 = 0xf0;
    /// `DW_OP_GNU_variable_value`, which gimli 0.27 doesn't name.
    pub const GNU_VARIABLE_VALUE: u8 = 0xfd;
}

/// Entries of location lists, `DW_LLE_`.
pub mod lle {
    bytes! {
        END_OF_LIST = DW_LLE_end_of_list,
        BASE_ADDRESSX = DW_LLE_base_addressx,
        STARTX_ENDX = DW_LLE_startx_endx,
        STARTX_LENGTH = DW_LLE_startx_length,
        OFFSET_PAIR = DW_LLE_offset_pair,
        DEFAULT_LOCATION = DW_LLE_default_location,
        BASE_ADDRESS = DW_LLE_base_address,
        START_END = DW_LLE_start_end,
        START_LENGTH = DW_LLE_start_length,
        GNU_VIEW_PAIR = DW_LLE_GNU_view_pair,
    }
}
