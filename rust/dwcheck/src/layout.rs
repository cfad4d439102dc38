//! Tests that types whose pointers are cast to pointers to C's types have the same layout as those.

use crate::{ffi, Block, Frame, Span};
use std::mem::{align_of, size_of};

#[test]
fn casts_are_between_equal_layouts() {
    fn same<A, B>() {
        assert_eq!(
            (size_of::<A>(), align_of::<A>()),
            (size_of::<B>(), align_of::<B>())
        );
    }
    same::<Span, ffi::Location>();
    same::<Frame, ffi::Frame>();
    same::<Block<'_>, ffi::Block>();
    let mut slots = [Span {
        offset: 1,
        length: 2,
    }];
    // SAFETY: the slot exists, and any two numbers are a valid value.
    let raw = unsafe { *Span::raw_slots(&mut slots) };
    assert_eq!((raw.offset, raw.length), (1, 2));
}
