//! Looking up the expressions of a location list that apply at an address.

use crate::fault::Error;
use crate::ffi;
use crate::row::Span;
use dwcheck_types::target::Target;

/// The number of expressions for which the first look-up of [`locations`] has room.
const FIRST_LOCATIONS: usize = 16;

/// A location list, and the address to look up in it.
#[derive(Clone, Copy, Debug, PartialEq, Eq, Hash)]
pub struct Lookup {
    /// The offset of the list's first byte in the section.
    pub list: u32,
    /// The base address of the unit to which the list belongs.
    pub base: u64,
    /// The address to look up, as linked.
    pub address: u64,
}

/// Checks a `.debug_loclists` section, and gives the expressions of a list that apply at an
/// address.
///
/// The result is `None` if no list begins at `lookup.list`, and an empty `Vec` if no expression of
/// the list applies. The expressions are in the list's order. [`evaluate`](crate::evaluate) gives
/// their results. Each call checks the whole section, which takes time and memory in proportion to
/// the section's length. If 16 or more expressions apply, the section is checked again with room
/// for eight times as many expressions, and so on.
///
/// # Errors
///
/// [`Error::Refused`] with the first fault of the section, [`Error::NoMemory`] or
/// [`Error::TooLong`].
///
/// ```
/// use dwcheck::{locations, Lookup, Target};
///
/// // One table with one list, at 0xc: register 0 from base to base + 0xf, else the value 0.
/// let lists = [
///     0x12, 0, 0, 0, 5, 0, 8, 0, 0, 0, 0, 0, 4, 0, 0x10, 1, 0x50, 5, 2, 0x30, 0x9f, 0,
/// ];
/// let lookup = Lookup { list: 0xc, base: 0x1000, address: 0x1005 };
/// let found = locations(&lists, Target::LITTLE_64, &lookup)?.unwrap();
/// assert_eq!(found.len(), 1);
/// assert_eq!(found[0].of(&lists), Some(&[0x50][..]));
/// # Ok::<(), dwcheck::Error>(())
/// ```
pub fn locations(
    lists: &[u8],
    target: Target,
    lookup: &Lookup,
) -> Result<Option<Vec<Span>>, Error> {
    all_locations(ffi::dwcheck_locations, lists, target, lookup)
}

/// The same, but reads only the list at `lookup.list`, in time and memory in proportion to that list.
///
/// In a section that [`check`](crate::check) accepts, lists have the same locations by both functions.
/// But this one doesn't know where lists begin, so it may find one in bytes that belong to another. The
/// result is `None` if the section has no byte at `lookup.list`.
///
/// # Errors
///
/// [`Error::Refused`] if the bytes at `lookup.list` are no list, [`Error::NoMemory`] or
/// [`Error::TooLong`].
///
/// ```
/// use dwcheck::{list_locations, Lookup, Target};
///
/// // A list by itself: register 0 from base to base + 0xf, else the value 0.
/// let list = [4, 0, 0x10, 1, 0x50, 5, 2, 0x30, 0x9f, 0];
/// let lookup = Lookup { list: 0, base: 0x1000, address: 0x1010 };
/// let found = list_locations(&list, Target::LITTLE_64, &lookup)?.unwrap();
/// assert_eq!(found[0].of(&list), Some(&[0x30, 0x9f][..]));
/// # Ok::<(), dwcheck::Error>(())
/// ```
pub fn list_locations(
    lists: &[u8],
    target: Target,
    lookup: &Lookup,
) -> Result<Option<Vec<Span>>, Error> {
    all_locations(ffi::dwcheck_list_locations, lists, target, lookup)
}

/// A call of the C interface that looks up a location list.
type Call = unsafe extern "C" fn(
    *const u8,
    usize,
    u32,
    u32,
    *const ffi::Lookup,
    *mut ffi::Location,
    usize,
    *mut usize,
    *mut ffi::Fault,
) -> u32;

/// Looks up a list with more and more room, until all its expressions that apply fit.
fn all_locations(
    call: Call,
    lists: &[u8],
    target: Target,
    lookup: &Lookup,
) -> Result<Option<Vec<Span>>, Error> {
    let mut found = Vec::new();
    let mut slots = FIRST_LOCATIONS;
    loop {
        let more = slots - found.len();
        found.try_reserve_exact(more).map_err(|_| Error::NoMemory)?;
        found.resize(slots, Span::default());
        match look_up_into(call, lists, target, lookup, &mut found)? {
            None => return Ok(None),
            Some(count) if count < slots => {
                found.truncate(count);
                return Ok(Some(found));
            }
            Some(_) => slots = slots.saturating_mul(8),
        }
    }
}

/// Writes to `slots` the expressions that apply at the address, as many as fit, and returns the
/// number written. `None` if the call says that there is no list.
fn look_up_into(
    call: Call,
    lists: &[u8],
    target: Target,
    lookup: &Lookup,
    slots: &mut [Span],
) -> Result<Option<usize>, Error> {
    let lookup = ffi::Lookup {
        base: lookup.base,
        address: lookup.address,
        list: lookup.list,
        reserved: 0,
    };
    let length = slots.len();
    let mut count = 0;
    let mut fault = ffi::Fault::default();
    // SAFETY: both calls have the same rules. The section is only read, `slots` is borrowed exclusively,
    // and the other pointers are to locals.
    let status = unsafe {
        call(
            lists.as_ptr(),
            lists.len(),
            ffi::order_number(target),
            target.address_size.bytes().into(),
            &lookup,
            Span::raw_slots(slots),
            length,
            &mut count,
            &mut fault,
        )
    };
    if status == ffi::NONE {
        return Ok(None);
    }
    Error::check(status, fault)?;
    Ok(Some(count.min(length)))
}
