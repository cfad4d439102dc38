//! The kinds of defects, by their names, and how a finding's kind is found.

use crate::finding::Group;
use crate::flow::is_entry_row;
use crate::instruction::{Effect, Target, Transfer};
use crate::judge::{Facts, WrongCfa, WrongRule};
use crate::judging::Way;
use crate::module::Module;
use crate::table::{Cfa, Row, Rule};
use std::fmt;

macro_rules! kinds {
    ($($(#[doc = $doc:literal])* $kind:ident = $name:literal,)*) => {
        /// What is wrong, as far as it can be told.
        #[derive(Clone, Copy, Debug, PartialEq, Eq, PartialOrd, Ord, Hash)]
        pub enum Kind {
            $($(#[doc = $doc])* $kind,)*
        }

        /// All kinds, with their names.
        pub const KINDS: &[(Kind, &str)] = &[$((Kind::$kind, $name),)*];

        /// What each kind means, in the order of [`KINDS`].
        const MEANINGS: &[&str] = &[$(concat!($($doc),*),)*];
    };
}

kinds! {
    /// The stack pointer was raised, and the row follows later or not at all.
    MovedEpilogue = "moved epilogue",
    /// The stack pointer was lowered, and the row follows later.
    MovedPrologue = "moved prologue",
    /// The stack pointer was lowered, and no row follows.
    SubtractionWithoutRow = "subtraction without row",
    /// A push, and the row follows a few instructions later.
    LatePush = "late push",
    /// A push, and no row follows.
    PushWithoutRow = "push without row",
    /// A pop, and the row follows later or not at all.
    PopWithoutRow = "pop without row",
    /// A jump at the end of a block has the row of other code.
    WrongRowAtJump = "wrong row at jmp",
    /// After the frame pointer of a realigned stack is popped, rows still find registers by it.
    DrapEpilogue = "DRAP epilogue",
    /// The CFA is relative to a stack pointer that was moved by a register, or by a number that isn't known.
    MovedStackPointer = "moved stack pointer",
    /// The register of the CFA holds something else.
    CfaRegisterOverwritten = "CFA register overwritten",
    /// The register of the CFA has the caller's value again.
    CfaRegisterRestored = "CFA register restored",
    /// The row doesn't fit what a jump brings.
    WrongRowAtJoin = "wrong row at a join",
    /// The row doesn't fit where the block begins.
    WrongRowAtBlock = "wrong row at a block",
    /// The row of another part of the function doesn't fit what a jump to it brings.
    WrongRowInPart = "wrong row in another part",
    /// The CFA is wrong in another way.
    WrongCfa = "wrong CFA",
    /// The return address isn't where the row says.
    ReturnAddress = "return address",
    /// The row says that the return address is still in its register, where a call or another instruction has
    /// overwritten it.
    ReturnAddressOverwritten = "return address overwritten",
    /// The return address was never stored where the row says.
    ReturnAddressNeverSaved = "return address never saved",
    /// The return address was signed, and the row follows a few instructions later.
    LateSignature = "late signature",
    /// The return address was signed, and no row follows.
    SignatureWithoutRow = "signature without row",
    /// The return address was authenticated, and the row follows later or not at all.
    AuthenticationWithoutRow = "authentication without row",
    /// The row says in another way that the return address is signed where it isn't, or that it isn't where it is.
    ReturnAddressSigning = "return address signing",
    /// The return address was signed with the other key than the one that the table names.
    WrongKey = "wrong key",
    /// The row says that a register has its value, and it was overwritten.
    RegisterOverwritten = "register overwritten",
    /// The register was never saved where the row says.
    NeverSaved = "register never saved",
    /// Something else is where the row says that the register was saved, or nothing is there yet.
    SlotOverwritten = "slot overwritten",
    /// The function doesn't give the register back at all.
    Private = "private",
}

impl Kind {
    /// The kind of a group of wrong rows, where `lost` are the registers that the function never gives
    /// back.
    pub fn of(module: &Module<'_>, group: &Group<'_>, lost: Facts) -> Kind {
        let wrong = group.mark.verdict.wrong;
        if wrong.has(Facts::CFA) {
            Kind::of_cfa(module, group)
        } else if wrong.has(Facts::RETURN_ADDRESS) {
            Kind::of_return_address(module, group)
        } else if wrong.without(lost).is_empty() && !group.mark.verdict.rules.contains(&Some(WrongRule::Overwritten)) {
            Kind::Private
        } else {
            Kind::of_registers(module, group)
        }
    }

    /// What it means, in a sentence or two.
    pub fn meaning(self) -> &'static str {
        let place = KINDS.iter().position(|(kind, _)| *kind == self);
        place.and_then(|place| MEANINGS.get(place)).map_or("", |meaning| meaning.trim())
    }

    /// The kind by what is wrong with the rule of the return address. Where a call stores it in memory, that says no
    /// more.
    fn of_return_address(module: &Module<'_>, group: &Group<'_>) -> Kind {
        let is_in_register = module.machine.return_slot.is_none();
        match group.mark.verdict.return_address {
            Some(WrongRule::Signing) => Kind::of_signing(module, group),
            Some(WrongRule::Key(_)) => Kind::WrongKey,
            Some(WrongRule::Changed) if is_in_register => Kind::ReturnAddressOverwritten,
            Some(WrongRule::NeverSaved) if is_in_register => Kind::ReturnAddressNeverSaved,
            _ => Kind::ReturnAddress,
        }
    }

    /// The kind by the instruction that has signed or authenticated the return address.
    fn of_signing(module: &Module<'_>, group: &Group<'_>) -> Kind {
        let is_signed_then = module.is_signed(group.end);
        match group.mark.before.map(|(_, effect)| effect) {
            Some(Effect::Sign { .. }) if is_signed_then => Kind::LateSignature,
            Some(Effect::Sign { .. }) => Kind::SignatureWithoutRow,
            Some(Effect::Authenticate { .. } | Effect::Strip { .. }) => Kind::AuthenticationWithoutRow,
            _ => Kind::ReturnAddressSigning,
        }
    }

    /// Whether it only says where the row is wrong, and not by which instruction.
    pub fn is_general(self) -> bool {
        use Kind::{WrongCfa, WrongRowAtBlock, WrongRowAtJoin, WrongRowInPart};
        matches!(self, WrongCfa | WrongRowAtBlock | WrongRowAtJoin | WrongRowInPart)
    }

    fn of_cfa(module: &Module<'_>, group: &Group<'_>) -> Kind {
        let mark = &group.mark;
        let is_jump = |effect| matches!(effect, Effect::Jump { target: Target::Code(_) });
        match (mark.way, mark.before) {
            (Way::Here, _) if group.addresses == 1 && is_jump(mark.effect) => return Kind::WrongRowAtJump,
            (Way::Leaving, _) => return Kind::WrongRowInPart,
            (Way::Edge(_), _) => return Kind::WrongRowAtJoin,
            _ => {}
        }
        match mark.verdict.cfa {
            Some(WrongCfa::Clobbered) => Kind::CfaRegisterOverwritten,
            Some(WrongCfa::Restored) => Kind::CfaRegisterRestored,
            Some(WrongCfa::Dynamic) if is_by_stack_pointer(module, &mark.row) => Kind::MovedStackPointer,
            Some(WrongCfa::Dynamic) => Kind::CfaRegisterOverwritten,
            _ => Kind::of_instruction(module, group),
        }
    }

    /// The kind by the instruction after which the CFA is wrong, and by whether its row follows.
    fn of_instruction(module: &Module<'_>, group: &Group<'_>) -> Kind {
        use Kind::{PopWithoutRow, PushWithoutRow, SubtractionWithoutRow};
        match Kind::of_motion(module, group) {
            PopWithoutRow | PushWithoutRow | SubtractionWithoutRow if has_row_of_its_own(module, group) => {
                Kind::WrongCfa
            }
            kind => kind,
        }
    }

    /// The kind by the instruction after which the CFA is wrong, if no row follows it at once.
    fn of_motion(module: &Module<'_>, group: &Group<'_>) -> Kind {
        let pointer = module.machine.stack_pointer;
        let moved = |transfer: &Transfer| if transfer.place.base == pointer { transfer.added } else { 0 };
        match group.mark.before.map(|(_, effect)| effect) {
            Some(Effect::Transfer(transfer)) if moved(&transfer) > 0 => Kind::PopWithoutRow,
            Some(Effect::Transfer(transfer)) if moved(&transfer) < 0 && is_late_row(module, group) => Kind::LatePush,
            Some(Effect::Transfer(transfer)) if moved(&transfer) < 0 => Kind::PushWithoutRow,
            Some(effect) if effect.is_push() && is_late_row(module, group) => Kind::LatePush,
            Some(effect) if effect.is_push() => Kind::PushWithoutRow,
            Some(Effect::Pop { .. } | Effect::PopOther { .. } | Effect::PopFlags | Effect::Leave) => {
                Kind::PopWithoutRow
            }
            Some(Effect::Add { to, number, .. }) if to == pointer => match (number > 0, is_late_row(module, group)) {
                (true, _) => Kind::MovedEpilogue,
                (false, true) => Kind::MovedPrologue,
                (false, false) => Kind::SubtractionWithoutRow,
            },
            Some(Effect::AddRegister { to, .. } | Effect::SubtractRegister { to, .. } | Effect::Align { to, .. })
                if to == pointer && is_by_stack_pointer(module, &group.mark.row) =>
            {
                Kind::MovedStackPointer
            }
            None if is_in_part(module, group.mark.address) => Kind::WrongRowInPart,
            None => Kind::WrongRowAtBlock,
            Some(_) => Kind::WrongCfa,
        }
    }

    fn of_registers(module: &Module<'_>, group: &Group<'_>) -> Kind {
        let (machine, mark) = (module.machine, &group.mark);
        let usual = [machine.stack_pointer, machine.frame_pointer];
        let is_realigned = matches!(mark.row.cfa, Cfa::RegisterOffset { register, .. } if !usual.contains(&register));
        let wrong = machine
            .callee_saved
            .iter()
            .enumerate()
            .filter(|(index, _)| mark.verdict.wrong.has(Facts::callee_saved(*index)));
        let mut rules_of_wrong = wrong.map(|(_, register)| mark.row.rule(*register));
        let is_by_frame = rules_of_wrong.all(|rule| matches!(rule, Some(Rule::Expression(_))));
        let rules = mark.verdict.rules;
        if is_realigned && is_by_frame {
            Kind::DrapEpilogue
        } else if rules.contains(&Some(WrongRule::Changed)) {
            Kind::RegisterOverwritten
        } else if rules.contains(&Some(WrongRule::NeverSaved)) {
            Kind::NeverSaved
        } else {
            Kind::SlotOverwritten
        }
    }
}

/// Whether a row computes the CFA from the stack pointer.
fn is_by_stack_pointer(module: &Module<'_>, row: &Row<'_>) -> bool {
    matches!(row.cfa, Cfa::RegisterOffset { register, .. } if register == module.machine.stack_pointer)
}

/// Whether the FDE of an address is a part that was split off a function: it doesn't begin as a function
/// that is called.
fn is_in_part(module: &Module<'_>, address: u64) -> bool {
    let begin = module.fde_at(address).map(|fde| module.fdes[fde].begin);
    begin.and_then(|begin| module.rows.row(begin)).map_or(false, |row| !is_entry_row(module, &row))
}

/// Whether the row of a group gives the CFA otherwise than that of the instruction before it, so that it follows, if
/// wrongly.
fn has_row_of_its_own(module: &Module<'_>, group: &Group<'_>) -> bool {
    let before = group.mark.before.and_then(|(address, _)| module.rows.row(address));
    before.map_or(false, |row| row.cfa != group.mark.row.cfa)
}

/// Whether the row after a group is the one that would have been right in it.
fn is_late_row(module: &Module<'_>, group: &Group<'_>) -> bool {
    match (group.mark.row.cfa, group.mark.verdict.cfa, module.rows.row(group.end).map(|row| row.cfa)) {
        (
            Cfa::RegisterOffset { register, offset },
            Some(WrongCfa::OffBy(by)),
            Some(Cfa::RegisterOffset { register: after, offset: then }),
        ) => register == after && offset.checked_sub(by) == Some(then),
        _ => false,
    }
}

impl fmt::Display for Kind {
    fn fmt(&self, f: &mut fmt::Formatter<'_>) -> fmt::Result {
        let named = KINDS.iter().find(|(kind, _)| kind == self);
        f.pad(named.map_or("", |(_, name)| name))
    }
}
