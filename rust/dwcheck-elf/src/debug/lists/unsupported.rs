//! What `dwcheck` doesn't know of an expression, and what is put in its place.
//!
//! An operation outside of the profile becomes a *hole*: operations that take and push as many entries
//! as the original, and that are unreadable in every state. So all paths are still checked, and a run
//! through the hole never has a wrong result.

use dwcheck_types::codes::op;
use std::fmt;

/// What an operation is that `dwcheck` doesn't know.
#[derive(Clone, Copy, Debug, PartialEq, Eq, PartialOrd, Ord, Hash)]
pub enum Unsupported {
    /// `DW_OP_entry_value`: a value when the function was entered.
    EntryValue,
    /// `DW_OP_implicit_pointer`: a pointer to an object that has no address.
    ImplicitPointer,
    /// `DW_OP_const_type`: a constant of a given type.
    ConstType,
    /// `DW_OP_regval_type`: a register, as a value of a given type.
    RegvalType,
    /// `DW_OP_deref_type`: memory, as a value of a given type.
    DerefType,
    /// `DW_OP_convert`: a conversion to another type.
    Convert,
    /// `DW_OP_reinterpret`: the same bits as another type.
    Reinterpret,
    /// `DW_OP_xderef`, `DW_OP_xderef_size` or `DW_OP_xderef_type`: memory of another address space.
    Xderef,
    /// `DW_OP_form_tls_address`: the address of a variable of the thread.
    FormTlsAddress,
    /// `DW_OP_GNU_parameter_ref`: a parameter that the caller knows.
    ParameterRef,
    /// `DW_OP_GNU_variable_value`: the value of another variable.
    VariableValue,
    /// `DW_OP_call2`, `DW_OP_call4` or `DW_OP_call_ref`: the expression of another entry.
    Call,
    /// An operation of a vendor, by its code.
    Vendor(u8),
    /// A branch that leads too far away once the expression is rewritten.
    LongBranch,
}

/// A hole of an expression that was rewritten.
#[derive(Clone, Copy, Debug, PartialEq, Eq)]
pub struct UnsupportedAt {
    /// What is there in the original.
    pub unsupported: Unsupported,
    /// The offset of the operation in the original expression.
    pub original: usize,
    /// The offset in the rewritten expression of the operation that is unreadable.
    pub rewritten: usize,
}

/// Operations that are unreadable in every state, and push an entry: `DW_OP_const1s` -1 and
/// `DW_OP_deref`. The last byte that they read is past the highest address.
pub(crate) const UNREADABLE: [u8; 3] = [op::CONST1S, 0xff, op::DEREF];

/// The offset in [`UNREADABLE`] of the operation that has no result.
pub(crate) const DEREF: usize = 2;

impl Unsupported {
    /// Whether it is an operation on values of types.
    pub fn is_of_types(self) -> bool {
        use Unsupported::{ConstType, Convert, DerefType, RegvalType, Reinterpret};
        matches!(self, ConstType | Convert | DerefType | RegvalType | Reinterpret)
    }

    /// Whether it isn't known what the operation does to the stack, so that a hole replaces the
    /// whole expression, which is then not checked.
    pub fn is_whole(self) -> bool {
        matches!(self, Unsupported::Call | Unsupported::Vendor(_) | Unsupported::LongBranch)
    }
}

impl fmt::Display for Unsupported {
    fn fmt(&self, f: &mut fmt::Formatter<'_>) -> fmt::Result {
        f.write_str(match self {
            Unsupported::EntryValue => "entry_value",
            Unsupported::ImplicitPointer => "implicit_pointer",
            Unsupported::ConstType => "const_type",
            Unsupported::RegvalType => "regval_type",
            Unsupported::DerefType => "deref_type",
            Unsupported::Convert => "convert",
            Unsupported::Reinterpret => "reinterpret",
            Unsupported::Xderef => "xderef",
            Unsupported::FormTlsAddress => "form_tls_address",
            Unsupported::ParameterRef => "GNU_parameter_ref",
            Unsupported::VariableValue => "GNU_variable_value",
            Unsupported::Call => "call",
            Unsupported::Vendor(code) => return write!(f, "operation-{:#04x}", code),
            Unsupported::LongBranch => "long-branch",
        })
    }
}
