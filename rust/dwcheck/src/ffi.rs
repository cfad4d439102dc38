//! The calls of the C interface, and the numbers that stand for a target in it.
//!
//! Its header has rules for the caller of every call. This is why this crate follows them:
//!
//! - "Each pointer points to a whole, aligned value of its type. No other thread writes that value
//!   during the call. A value that a pointer without const points to overlaps no other argument.
//!   Values that pointers to const point to may overlap each other. A pointer that comes with a
//!   length points to that many elements. If the length is 0, it may be NULL .. Pointers without
//!   a length .. are never NULL." In this crate all pointers come from references and
//!   slices. Two `const` pointers may be to the same slice, because the library takes them as
//!   shared references, `&[u8]` or `&CState`.
//! - "A call that takes a process by a pointer to const only reads it .. Any number of calls may read
//!   a process at once, in any threads. A call that takes a pointer without const changes the
//!   process, and no other call may use that process meanwhile .. threads synchronize for that: by a
//!   lock, by an atomic of memory_order_seq_cst, or by a thread's start or join." In this crate a
//!   pointer to const comes from a `&Process`, and a pointer without const from a `&mut Process`.
//!   Every way in which safe Rust lets one thread use a value after another one synchronizes them.
//! - "To move a process, copy the structure and set the old one to DWCHECK_CLOSED .. A process has to
//!   be closed if a module was added to it, or if dwcheck_process_share made it from an open process,
//!   even if its modules have been removed." Rust never uses a value after a move, and `Drop` closes
//!   each process.
//! - "malloc, realloc and free belong to one allocator, and the calling thread may call them. So
//!   neither a signal handler nor the child of a fork in a program with several threads makes a call
//!   that allocates or frees .. Those calls may be left by siglongjmp .." In Rust, a user needs
//!   `unsafe` code for signal handlers, for `fork` and for `siglongjmp`.
//! - "The stack is large enough." The library touches each page of its stack in turn. So if the
//!   stack is too small, the program ends at the guard page, which each of Rust's threads has.
//! - "Fields called `reserved` are set to 0." This crate sets them to 0.
//!
//! No call has a precondition beyond these. "A later version may add values to enumerations, so
//! treat a value that you don't know as 'something else'." This crate has variants called `Other`
//! for such values.

pub(crate) use dwcheck_sys::*;

use dwcheck_types::target::{Order, Target};

/// The number that the C interface has for the byte order of a target.
pub(crate) fn order_number(target: Target) -> u32 {
    match target.order {
        Order::Little => LITTLE,
        Order::Big => BIG,
    }
}
