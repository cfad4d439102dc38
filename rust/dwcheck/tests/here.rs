//! The stack of the calling thread is glibc's, also in another thread, and known stacks change nothing. This needs the
//! feature `dl`.
#![cfg(feature = "dl")]

use dwcheck::{here, know_own_stack, Stop};
use std::os::raw::{c_int, c_void};

extern "C" {
    fn backtrace(addresses: *mut *mut c_void, size: c_int) -> c_int;
}

/// The addresses that glibc finds, of which the first one is in this function's caller.
#[inline(always)]
fn glibc_finds() -> Vec<usize> {
    let mut addresses = [0usize; 128];
    // SAFETY: the array has 128 elements, each as large as a pointer.
    let count = unsafe { backtrace(addresses.as_mut_ptr().cast(), 128) };
    addresses[..count as usize].to_vec()
}

#[inline(never)]
fn compare() {
    let stack = here();
    let theirs = glibc_finds();
    assert_eq!(stack.stop(), Stop::ReturnUndefined);
    assert_eq!(stack.len(), theirs.len());
    assert!(stack.clone().all(|frame| !frame.is_guess));
    let ours: Vec<usize> = stack.map(|frame| frame.address).collect();
    assert_eq!(ours[1..], theirs[1..]);
}

#[inline(never)]
fn deep(depth: usize) -> usize {
    if depth == 0 {
        compare();
        return 0;
    }
    deep(depth - 1) + depth
}

#[test]
fn stacks_are_those_of_glibc() {
    assert_eq!(deep(20), 210);
    assert!(know_own_stack());
    assert_eq!(deep(20), 210);
}
