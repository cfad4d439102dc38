//! The rules that prevent false alarms, each by its name in docs/LINT.md.
//!
//! Each of them says of a way through the code that it isn't taken. Rules about calls are in
//! `callees`, and about tables of jumps in `jumps`.

use crate::code::Code;
use crate::flow::{is_entry_row, Flow};
use crate::instruction::{Effect, Target};
use crate::judge::{why_unjudged, Facts};
use crate::module::Module;
use crate::state::State;
use crate::table::{Cfa, Row};
use crate::value::Value;

/// How many instructions the default of a switch is looked for in.
const SWITCH: usize = 7;

/// In how many instructions after a call rows are looked at that say what the call has removed from the stack.
const FEW_AFTER_CALL: usize = 4;

/// Code that jumps lead to is aligned at multiples of this, if it is aligned.
const ALIGNMENT: u64 = 16;

/// How many bytes that a call has removed are taken back by the subtraction after it, at most: four arguments.
const MOST_TAKEN_BACK: i64 = 16;

/// Rule "padding": where a run of padding ends that begins at an offset, if there is one. Nothing runs
/// over padding that nothing jumps to; so the cold part of a function, which GCC may begin with a
/// `nop`, isn't entered there.
pub fn is_only_padding(code: &Code<'_>, offset: u32) -> Option<u32> {
    let mut at = offset;
    while matches!(code.effect(at), Effect::Padding) {
        at = code.next(at);
        if code.is_leader(at) {
            break;
        }
    }
    Some(at).filter(|at| *at != offset)
}

/// Rule "padding": whether an FDE begins with padding that isn't run, with what is known at its first address: GCC
/// begins a cold part with a `nop` that nothing jumps to, and in assembly the FDE may begin before the function's
/// alignment, after which the row changes.
pub fn begins_with_padding(flow: &Flow<'_, '_>, start: &State) -> bool {
    let changes = |after: u32| match (flow.row(flow.code.address(0)), flow.row(flow.code.address(after))) {
        (Some(first), Some(row)) => row.begin == flow.code.address(after) && !first.has_rules_of(row),
        _ => false,
    };
    is_only_padding(&flow.code, 0).map_or(false, |after| start.is_assumed || changes(after))
}

/// Rule "data in code": whether there is no code at an offset, whose instruction does this, or none that can be
/// decoded. Functions written by hand have data between their instructions.
pub fn is_data_in_code(code: &Code<'_>, offset: u32, effect: &Effect, state: &State) -> bool {
    matches!(effect, Effect::Invalid) || state.is_assumed && code.has_zeros(offset)
}

/// Rule "padding": whether a block of only padding leads to a row that doesn't fit, so that the call
/// before it doesn't return.
pub fn runs_over_padding(flow: &Flow<'_, '_>, to: u32, state: &State) -> bool {
    let address = flow.code.address(to);
    flow.row(address).map_or(false, |row| !flow.disagreement(row, state, address).wrong.is_empty())
}

/// Rule "exits": whether a system call ends the program or the handler of a signal.
pub fn is_exit_call(flow: &Flow<'_, '_>, state: &State) -> bool {
    let (register, numbers) = flow.module.machine.exits;
    matches!(state.get(register), Value::Number(number) if numbers.contains(&number))
}

/// Rule "row changes after the call": whether the row after a call says something else than the row of the call, and
/// doesn't fit the state after the call. Then the call doesn't return, and other code follows it. Where that is
/// aligned, its row begins after the padding.
pub fn row_changes_after_call(flow: &Flow<'_, '_>, call: u32, state: &State) -> bool {
    let next = flow.code.next(call);
    let (before, after) = (flow.code.address(call), flow.code.address(aligned_code(flow, next).unwrap_or(next)));
    match (flow.row(before), flow.row(after)) {
        (Some(row), Some(next)) if row.begin != next.begin && !row.has_rules_of(next) => {
            !flow.disagreement(next, state, after).wrong.is_empty()
        }
        _ => false,
    }
}

/// Where code begins that is aligned after a call, if it is: padding leads up to it, and a row begins with it.
/// Compilers align only what jumps lead to, while a `nop` elsewhere runs as soon as the call returns.
fn aligned_code(flow: &Flow<'_, '_>, after_call: u32) -> Option<u32> {
    let code = is_only_padding(&flow.code, after_call)?;
    let address = flow.code.address(code);
    let begins_row = flow.row(address).map_or(false, |row| row.begin == address);
    Some(code).filter(|_| address % ALIGNMENT == 0 && begins_row)
}

/// Rule "arguments that the callee pops": how many bytes a call removes from the stack, by the rows after it: the first
/// one with another offset from the stack pointer, or the one after a subtraction that takes the bytes back. `None` if
/// the CFA isn't found by the stack pointer.
pub fn arguments_popped_by_rows(flow: &Flow<'_, '_>, call: u32) -> Option<i64> {
    let machine = flow.module.machine;
    let row = |at| flow.row(flow.code.address(at));
    let offset = |at| match row(at)?.cfa {
        Cfa::RegisterOffset { register, offset } if register == machine.stack_pointer => Some(offset),
        _ => None,
    };
    let has_same_rules = |at| row(at).map(|row| &row.rules) == row(call).map(|row| &row.rules);
    let is_likely = |popped: i64| popped > 0 && popped % i64::from(machine.address_bytes) == 0;
    let before = offset(call)?;
    let mut at = flow.code.next(call);
    for _ in 0..FEW_AFTER_CALL {
        let popped = before.wrapping_sub(offset(at)?);
        if popped != 0 {
            return Some(if is_likely(popped) && has_same_rules(at) { popped } else { 0 });
        }
        match *flow.code.effect(at) {
            // The call doesn't return.
            Effect::Padding if aligned_code(flow, at).is_some() => return Some(0),
            Effect::Add { to, from, number } if to == machine.stack_pointer && from == to => {
                let is_taken_back = offset(flow.code.next(at)) == Some(before) && number >= -MOST_TAKEN_BACK;
                return Some(if is_likely(-number) && is_taken_back { -number } else { 0 });
            }
            effect if effect.is_push() || effect.may_end_block() => return Some(0),
            Effect::Pop { .. } | Effect::PopOther { .. } | Effect::PopFlags => return Some(0),
            effect if effect.written().contains(machine.stack_pointer) => return Some(0),
            _ => at = flow.code.next(at),
        }
        if flow.code.is_leader(at) {
            return Some(0);
        }
    }
    Some(0)
}

/// Rule "rows that follow": whether the row after an instruction that moves the stack pointer by a number that isn't
/// known has another offset from it. Then whoever wrote the row knew the number.
pub fn row_follows_stack_pointer(flow: &Flow<'_, '_>, at: u32) -> bool {
    let offset = |at| match flow.row(flow.code.address(at))?.cfa {
        Cfa::RegisterOffset { register, offset } => {
            Some(offset).filter(|_| register == flow.module.machine.stack_pointer)
        }
        Cfa::Expression(_) => None,
    };
    match (offset(at), offset(flow.code.next(at))) {
        (Some(before), Some(after)) => before != after,
        _ => false,
    }
}

/// Rule "calls that can't throw": whether a call in a range with a landing pad has arguments on the
/// stack that the landing pad's row doesn't know of. Compilers merge ranges over calls that can't
/// throw.
pub fn call_never_throws(flow: &Flow<'_, '_>, call: u64, pad: u64, state: &State) -> bool {
    let elsewhere = if flow.fde.contains(pad) { None } else { flow.module.rows.row(pad) };
    let (row, landing) = match (flow.row(call), flow.row(pad).or(elsewhere.as_ref())) {
        (Some(row), Some(landing)) => (row, landing),
        _ => return false,
    };
    let is_wrong = |row, address| flow.disagreement(row, state, address).wrong.has(Facts::CFA);
    flow.fde.arguments_at(call) == 0 && is_wrong(landing, pad) && !flow.verdict(row, state, call).wrong.has(Facts::CFA)
}

/// Rule "bounded tables": whether an entry of a table without a known bound is perhaps past its end:
/// the row where it leads doesn't fit, while the row of the jump does.
pub fn is_past_table(flow: &Flow<'_, '_>, jump: u32, to: u32, state: &State) -> bool {
    let (from, address) = (flow.code.address(jump), flow.code.address(to));
    let is_wrong = |row, address| !flow.verdict(row, state, address).wrong.is_empty();
    let is_target_wrong = flow
        .row(address)
        .map_or(false, |row| why_unjudged(flow.module.machine, row).is_none() && is_wrong(row, address));
    is_target_wrong && !flow.row(from).map_or(false, |row| is_wrong(row, from))
}

/// Rule "default of a switch": whether a conditional jump out of the function is the default of a
/// switch, which compilers let lead anywhere if it can't happen.
pub fn is_default_of_switch(code: &Code<'_>, after: u32) -> bool {
    let mut at = after;
    for _ in 0..SWITCH {
        match code.effect(at) {
            Effect::Jump { target: Target::Code(_) } => return false,
            Effect::Jump { .. } => return true,
            Effect::JumpIf { .. } | Effect::Return { .. } | Effect::Stop | Effect::Invalid => return false,
            _ => at = code.next(at),
        }
    }
    false
}

/// Rule "rows for calls": whether the rows of an FDE are meant for calls only, where exceptions are thrown:
/// the frame that they describe never ends, by no later row that says what the first one of a function does.
/// LLVM up to 14 writes such for aarch64.
pub fn has_rows_for_calls(module: &Module<'_>, rows: &[Row<'_>]) -> bool {
    // A function that signs its return address begins with two rows without a frame.
    let mut is_entry = rows.iter().map(|row| is_entry_row(module, row)).skip_while(|is_entry| *is_entry);
    let has_frame = is_entry.next().is_some();
    module.machine.has_rows_for_calls && has_frame && !is_entry.any(|is_entry| is_entry)
}

/// Rule "unreachable end": whether a jump to the first address of an FDE leaves the function only
/// because the function's end can't be reached: the FDE begins just where one ends, and its row, which
/// says these things wrongly of the state, doesn't fit.
pub fn is_unreachable_end(flow: &Flow<'_, '_>, target: u64, row: &Row<'_>, wrong: Facts) -> bool {
    if !flow.module.ends_fde(target) || !flow.module.begins_fde(target) {
        return false;
    }
    // A function that is called is entered with any registers, so only its CFA counts.
    match is_entry_row(flow.module, row) {
        true => wrong.has(Facts::CFA),
        false => !wrong.is_empty(),
    }
}
