//! Breakpoints: bytes of code in place of which a trap is.

use super::files::Files;
use super::site::Sites;
use super::space::Space;
use rustc_hash::FxHashMap;
use std::ops::Range;

/// The instruction that traps, `int3`.
pub(super) const TRAP: u8 = 0xcc;

/// A breakpoint, and why it is there.
#[derive(Clone, Copy, Debug, Default, PartialEq, Eq)]
pub(super) struct Breakpoint {
    /// The byte that the code has there.
    pub original: u8,
    /// Whether a function begins there that is stepped.
    pub is_entry: bool,
    /// Whether modules may have been loaded when a thread gets there.
    pub is_load: bool,
    /// How many frames wait there for a callee to return.
    pub returns: u32,
    /// How often a thread came there in another way than by a call.
    pub misses: u8,
}

/// The breakpoints of a process. Those that aren't wanted anymore stay known.
#[derive(Clone, Debug, Default)]
pub(super) struct Breakpoints {
    all: FxHashMap<u64, Breakpoint>,
    /// The parts of executable memory whose functions have got breakpoints.
    planted: Vec<(Range<u64>, usize)>,
    /// For how many reasons they are all out of the code for a time.
    out: u32,
}

impl Breakpoint {
    /// Whether there is a reason for it.
    pub fn is_wanted(&self) -> bool {
        self.is_entry || self.is_load || self.returns > 0
    }

    /// The byte that is in the code there.
    fn byte(&self) -> u8 {
        if self.is_wanted() {
            TRAP
        } else {
            self.original
        }
    }
}

impl Breakpoints {
    /// The breakpoint at an address.
    pub fn at(&self, address: u64) -> Option<Breakpoint> {
        self.all.get(&address).copied().filter(Breakpoint::is_wanted)
    }

    /// Whether there is or was a breakpoint at an address.
    pub fn is_known(&self, address: u64) -> bool {
        self.all.contains_key(&address)
    }

    /// Forgets those that aren't at such an address. Their code isn't there anymore.
    pub fn retain(&mut self, is_there: impl Fn(u64) -> bool) {
        self.all.retain(|address, _| is_there(*address));
        self.planted.retain(|(range, _)| is_there(range.start));
    }

    /// Puts the code's own bytes in place of those of breakpoints.
    pub fn hide(&self, address: u64, bytes: &mut [u8]) {
        for (address, byte) in (address..).zip(bytes) {
            if let Some(breakpoint) = self.all.get(&address).filter(|_| *byte == TRAP) {
                *byte = breakpoint.original;
            }
        }
    }
}

impl Space {
    /// Sets breakpoints in the code that has been loaded since the last time: where functions begin that
    /// were called fewer than `calls` times, and where modules are loaded.
    pub fn plant_breakpoints(&mut self, files: &Files<'_, '_>, sites: &Sites, calls: u64) {
        for code in self.code.clone() {
            let file = match code.file {
                Some(file) if !self.breakpoints.planted.contains(&(code.range.clone(), file)) => file,
                _ => continue,
            };
            self.breakpoints.planted.push((code.range.clone(), file));
            let placed = |address: &u64| (*address, address.wrapping_add(code.bias));
            let is_here = |(_, address): &(u64, u64)| code.range.contains(address);
            let is_new = |linked: u64| sites.find(file, linked).map_or(true, |site| sites.at(site).visits < calls);
            let module = files.at(file);
            let entries = module.entries.iter().map(placed).filter(is_here);
            let entries: Vec<u64> = entries.filter(|(linked, _)| is_new(*linked)).map(|(_, address)| address).collect();
            let loads: Vec<u64> = module.loads.iter().map(placed).filter(is_here).map(|(_, address)| address).collect();
            self.set_breakpoints(&entries, |breakpoint| breakpoint.is_entry = true);
            self.set_breakpoints(&loads, |breakpoint| breakpoint.is_load = true);
        }
    }

    /// Sets breakpoints at these addresses of one part of executable memory, which ascend. All are
    /// written at once.
    fn set_breakpoints(&mut self, addresses: &[u64], mark: impl Fn(&mut Breakpoint)) {
        let (first, last) = match (addresses.first(), addresses.last()) {
            (Some(first), Some(last)) => (*first, *last),
            _ => return,
        };
        let mut code = vec![0; (last - first + 1) as usize];
        if !self.read(first, &mut code) {
            return;
        }
        for address in addresses {
            let byte = &mut code[(address - first) as usize];
            let breakpoint = self.breakpoints.all.entry(*address);
            mark(breakpoint.or_insert(Breakpoint { original: *byte, ..Breakpoint::default() }));
            *byte = TRAP;
        }
        if self.breakpoints.out == 0 {
            let _ = self.write(first, &code);
        }
    }

    /// Waits at an address for a callee to return.
    pub fn await_return(&mut self, address: u64) {
        match self.breakpoints.all.get_mut(&address).filter(|breakpoint| breakpoint.is_wanted()) {
            Some(breakpoint) => breakpoint.returns += 1,
            None => self.set_breakpoints(&[address], |breakpoint| breakpoint.returns = 1),
        }
    }

    /// Doesn't wait there anymore.
    pub fn forget_return(&mut self, address: u64) {
        self.change_breakpoint(address, |breakpoint| breakpoint.returns = breakpoint.returns.saturating_sub(1));
    }

    /// Takes out the breakpoint where a function begins.
    pub fn forget_entry(&mut self, address: u64) {
        self.change_breakpoint(address, |breakpoint| breakpoint.is_entry = false);
    }

    /// Notes that a thread came to a function in another way than by a call.
    pub fn note_missed_call(&mut self, address: u64) {
        self.change_breakpoint(address, |breakpoint| breakpoint.misses = breakpoint.misses.saturating_add(1));
    }

    fn change_breakpoint(&mut self, address: u64, change: impl Fn(&mut Breakpoint)) {
        let breakpoint = match self.breakpoints.all.get_mut(&address) {
            Some(breakpoint) => breakpoint,
            None => return,
        };
        change(breakpoint);
        if !breakpoint.is_wanted() {
            let original = breakpoint.original;
            self.put_breakpoint_byte(address, original);
        }
    }

    /// Takes out the breakpoint at an address for a time, so that the instruction there can be executed.
    /// Returns whether there was one.
    pub fn lift_breakpoint(&mut self, address: u64) -> bool {
        match self.breakpoints.at(address) {
            Some(breakpoint) => {
                self.put_breakpoint_byte(address, breakpoint.original);
                true
            }
            None => false,
        }
    }

    /// Sets the breakpoint at an address again, if it is still wanted.
    pub fn lower_breakpoint(&mut self, address: u64) {
        if self.breakpoints.at(address).is_some() {
            self.put_breakpoint_byte(address, TRAP);
        }
    }

    /// Writes a byte of code, unless all breakpoints are out of it. Code that isn't there anymore needs
    /// no breakpoints.
    fn put_breakpoint_byte(&self, address: u64, byte: u8) {
        if self.breakpoints.out == 0 {
            let _ = self.write(address, &[byte]);
        }
    }

    /// Takes all breakpoints out of the code.
    pub fn take_out_breakpoints(&mut self) {
        if self.breakpoints.out == 0 {
            self.put_all_breakpoints(|breakpoint| breakpoint.original);
        }
        self.breakpoints.out += 1;
    }

    /// Puts all breakpoints back, if there is no other reason for which they are out.
    pub fn put_back_breakpoints(&mut self) {
        if self.breakpoints.out == 1 {
            self.put_all_breakpoints(Breakpoint::byte);
        }
        self.breakpoints.out = self.breakpoints.out.saturating_sub(1);
    }

    /// Takes all breakpoints out of a copy of a process, which is let go. The copy may have some that have
    /// been forgotten meanwhile.
    pub fn clear_breakpoints(&mut self) {
        self.put_all_breakpoints(|breakpoint| breakpoint.original);
    }

    /// Begins with a copy of a process, whose threads wait for no return.
    pub fn adopt_breakpoints(&mut self) {
        self.breakpoints.out = 0;
        self.breakpoints.all.values_mut().for_each(|breakpoint| breakpoint.returns = 0);
        self.put_all_breakpoints(Breakpoint::byte);
    }

    /// Writes the byte of each breakpoint, also of those that aren't wanted anymore, all of a part of executable memory at once.
    fn put_all_breakpoints(&self, byte: impl Fn(&Breakpoint) -> u8) {
        let mut all: Vec<(u64, &Breakpoint)> = self.breakpoints.all.iter().map(|(at, found)| (*at, found)).collect();
        all.sort_by_key(|(address, _)| *address);
        for code in &self.code {
            let begin = all.partition_point(|(address, _)| *address < code.range.start);
            let end = all.partition_point(|(address, _)| *address < code.range.end);
            let part = &all[begin..end];
            let (first, last) = match (part.first(), part.last()) {
                (Some((first, _)), Some((last, _))) => (*first, *last),
                _ => continue,
            };
            let mut bytes = vec![0; (last - first + 1) as usize];
            if self.read(first, &mut bytes) {
                part.iter().for_each(|(address, found)| bytes[(address - first) as usize] = byte(found));
                let _ = self.write(first, &bytes);
            }
        }
    }
}
