//! Tests that a call returns `Error::NoMemory`, or succeeds nonetheless, whichever of its
//! allocations fails. This file uses `unsafe`, because it replaces `malloc` and `realloc` of the C
//! library, and is a program of its own, because the other tests keep theirs.
#![cfg(all(target_os = "linux", target_env = "gnu"))]
#![deny(unsafe_op_in_unsafe_fn)]
// Clippy 1.63 takes the `const` block of a `thread_local!` for a constant.
#![allow(clippy::declare_interior_mutable_const)]

#[path = "all/common/mod.rs"]
mod common;

use common::*;
use dwcheck::{
    check, evaluate, locations, Abi, Context, DebugFrame, DebugLoclists, Error, ExpressionKind,
    Lookup, Process, Registers, State, Target,
};
use std::cell::Cell;
use std::os::raw::c_void;
use std::ptr::null_mut;

thread_local! {
    /// How many more allocations of this thread succeed before one fails. If negative, none fails.
    static LEFT: Cell<isize> = const { Cell::new(-1) };
}

extern "C" {
    fn __libc_malloc(size: usize) -> *mut c_void;
    fn __libc_realloc(block: *mut c_void, size: usize) -> *mut c_void;
    fn malloc_usable_size(block: *mut c_void) -> usize;
}

fn refuses() -> bool {
    LEFT.with(|left| {
        let now = left.get();
        left.set(if now < 0 { now } else { now - 1 });
        now == 0
    })
}

#[no_mangle]
extern "C" fn malloc(size: usize) -> *mut c_void {
    if refuses() {
        return null_mut();
    }
    // SAFETY: `__libc_malloc` accepts any size.
    unsafe { __libc_malloc(size) }
}

/// To make a block smaller takes no memory, and isn't refused.
///
/// # Safety
///
/// The same as for C's `realloc`.
#[no_mangle]
unsafe extern "C" fn realloc(block: *mut c_void, size: usize) -> *mut c_void {
    // SAFETY: the caller promises that the block is one of the C library's, or null.
    let is_smaller = !block.is_null() && size <= unsafe { malloc_usable_size(block) };
    if !is_smaller && refuses() {
        return null_mut();
    }
    // SAFETY: the caller promises the same.
    unsafe { __libc_realloc(block, size) }
}

/// Whether this file's `malloc` is in use. It isn't under valgrind, which has its own.
fn is_in_place() -> bool {
    LEFT.with(|left| left.set(0));
    let refused = Vec::<u8>::new().try_reserve_exact(1).is_err();
    LEFT.with(|left| left.set(-1));
    refused
}

/// Repeats a call. In the first round only the call's first allocation fails, in the second round
/// only the second, and so on, until there is a round in which none fails. Returns the number of
/// allocations in that last round. A call may succeed although one of its allocations failed.
fn refuse_each<T>(mut call: impl FnMut() -> Result<T, Error>) -> isize {
    for granted in 0.. {
        LEFT.with(|left| left.set(granted));
        let result = call();
        let left = LEFT.with(|left| left.replace(-1));
        if left >= 0 {
            assert!(result.is_ok());
            return granted;
        }
        assert!(matches!(result, Ok(_) | Err(Error::NoMemory)));
    }
    unreachable!()
}

#[test]
fn sections() {
    if !is_in_place() {
        return eprintln!("another allocator is in place: nothing is refused");
    }
    let (frame, lists) = (x(), l());
    let asked = refuse_each(|| check(DebugFrame(&frame), DebugLoclists(&lists), Target::LITTLE_64));
    assert!(asked > 0);
    let lookup = Lookup {
        list: 0xc,
        base: 0,
        address: 0x2008,
    };
    let asked = refuse_each(|| locations(&lists, Target::LITTLE_64, &lookup));
    assert!(asked > 0);
}

#[test]
fn processes() {
    if !is_in_place() {
        return eprintln!("another allocator is in place: nothing is refused");
    }
    let section = row_1();
    let mut process = Process::new(Target::LITTLE_64);
    assert!(refuse_each(|| add(&mut process, &section, 0)) > 0);
    assert!(refuse_each(|| add(&mut process, &section, 0x10000)) > 0);
    // the rounds in which memory ran out added no module, and used up no id
    let id = process.module_at(0x11000).unwrap().id;
    assert_eq!(id.number(), 2);
    assert!(process.remove(id) && process.module_at(0x11000).is_none());
    assert!(process.row(0x1000).is_some());
    assert!(refuse_each(|| process.share()) > 0);
}

#[test]
fn expressions_and_walks() {
    if !is_in_place() {
        return eprintln!("another allocator is in place: nothing is refused");
    }
    let state = State {
        registers: &Registers::new(),
        memory: &[],
        abi: Abi::NONE,
    };
    let run = |text: &str| {
        let (expression, context) = (hex(text), Context::default());
        let kind = ExpressionKind::Location;
        refuse_each(|| evaluate(&expression, kind, Target::LITTLE_64, &context, &state))
    };
    assert!(run(&("30 28 0000".repeat(100) + "31")) > 0);
    assert_eq!(run("32 33 22"), 0);
    let process = process_at(&row_1(), 0);
    assert_eq!(refuse_each(|| process.backtrace(0x1000, &state, 9)), 1);
    assert_eq!(
        refuse_each(|| process.backtrace_into(0x1000, &state, &mut []).map(drop)),
        0
    );
}
