//! The breakpoints that end a batch: traps in the code, or breakpoints of the processor.
//!
//! The kernel has less to do for a trap. But a trap stops each thread that comes there, so it is for a thread that
//! has its memory alone. The breakpoints of the processor are those of one thread.

use super::breakpoints::TRAP;
use super::ptrace::{self, Tid};
use super::space::Space;

/// At how many places a batch may end: the processor has as many breakpoints.
pub(super) const MOST_ENDS: usize = 4;

/// The debug register that says which breakpoints stop a thread.
const CONTROL: usize = 7;

/// Traps that are nearer to each other than this, in bytes, are set at once: all code between is read and written.
const WIDEST: u64 = 4096;

/// Traps that are in the code, for one batch.
#[derive(Clone, Debug, Default)]
pub(super) struct Traps(Vec<Part>);

/// Traps that are near each other.
#[derive(Clone, Debug)]
struct Part {
    /// The address of the first one.
    begin: u64,
    /// The code from there up to the last one, as it was before.
    code: Vec<u8>,
}

/// The breakpoints of the processor that a thread has.
#[derive(Debug, Default)]
pub(super) struct Hardware {
    addresses: [Option<u64>; MOST_ENDS],
    control: u64,
}

impl Traps {
    /// Sets traps at these addresses. `None` if they can't be set.
    pub fn set_traps(space: &Space, ends: impl Iterator<Item = u64>) -> Option<Traps> {
        let mut ends: Vec<u64> = ends.collect();
        ends.sort_unstable();
        let mut traps = Traps::default();
        while let Some(first) = ends.first() {
            let near = ends.partition_point(|end| end - first < WIDEST);
            match Part::set_debug_registers(space, &ends[..near]) {
                Some(part) => traps.0.push(part),
                None => {
                    traps.lift_traps(space);
                    return None;
                }
            }
            ends.drain(..near);
        }
        Some(traps)
    }

    /// Takes them out.
    pub fn lift_traps(&self, space: &Space) {
        // If the code isn't there anymore, there is nothing to take out.
        self.0.iter().for_each(|part| drop(space.write(part.begin, &part.code)));
    }
}

impl Part {
    /// Sets traps at these addresses, which ascend.
    fn set_debug_registers(space: &Space, ends: &[u64]) -> Option<Part> {
        let (begin, last) = (*ends.first()?, *ends.last()?);
        let mut code = vec![0; (last - begin + 1) as usize];
        if !space.read(begin, &mut code) {
            return None;
        }
        let mut trapped = code.clone();
        ends.iter().for_each(|end| trapped[(end - begin) as usize] = TRAP);
        space.write(begin, &trapped).ok()?;
        Some(Part { begin, code })
    }
}

impl Hardware {
    /// Sets breakpoints at these addresses, at most [`MOST_ENDS`], for a stopped thread. Others may stay.
    /// Returns false if it can't have them.
    pub fn set_hardware_breakpoints(&mut self, tid: Tid, ends: impl Iterator<Item = u64> + Clone) -> bool {
        for end in ends.clone() {
            if self.addresses.contains(&Some(end)) {
                continue;
            }
            let is_free =
                |address: &Option<u64>| address.map_or(true, |address| ends.clone().all(|end| end != address));
            let free = match self.addresses.iter().position(is_free) {
                Some(free) => free,
                None => return false,
            };
            self.addresses[free] = Some(end);
            if ptrace::set_debug_register(tid, free, end).is_err() {
                self.addresses[free] = None;
                return false;
            }
        }
        let used = (0..).zip(&self.addresses).filter(|(_, address)| address.is_some());
        let wanted = used.fold(0, |bits, (index, _)| bits | 1 << (2 * index));
        self.has_hardware_breakpoint(tid, wanted)
    }

    /// Takes all breakpoints out.
    pub fn clear_hardware_breakpoints(&mut self, tid: Tid) {
        self.has_hardware_breakpoint(tid, 0);
    }

    /// Sets which breakpoints stop the thread.
    fn has_hardware_breakpoint(&mut self, tid: Tid, control: u64) -> bool {
        if self.control != control && ptrace::set_debug_register(tid, CONTROL, control).is_ok() {
            self.control = control;
        }
        self.control == control
    }
}
