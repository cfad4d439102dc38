//! Processes over time: what each has mapped, forks and exits, and how its threads are named.

use super::objects::ObjectId;
use super::recording::{Comm, Fork};
use std::collections::{BTreeMap, HashMap};
use std::sync::Arc;

/// The most copies of mappings of all processes together that are there at once. Only a damaged recording has more.
const MOST_COPIES: usize = 1 << 21;

/// A process with more mappings than this is costly to copy.
const COSTLY: usize = 128;

/// A part of a file, or of other memory, at an address of a process.
#[derive(Clone, Copy, Debug, PartialEq, Eq)]
pub(super) struct Mapping {
    pub begin: u64,
    /// The last address.
    pub last: u64,
    /// The offset in the file of the byte at `begin`.
    pub offset: u64,
    pub object: ObjectId,
    pub is_executable: bool,
}

impl Mapping {
    /// Whether it has an address.
    pub fn has(&self, address: u64) -> bool {
        self.begin <= address && address <= self.last
    }

    /// The offset in the file of the byte at an address.
    pub fn file_offset(&self, address: u64) -> u64 {
        address.wrapping_sub(self.begin).wrapping_add(self.offset)
    }
}

/// The mappings of a process, by their first addresses. No two share an address.
#[derive(Clone, Debug, Default)]
pub(super) struct Space(BTreeMap<u64, Mapping>);

impl Space {
    /// Adds a mapping, which replaces what was mapped there.
    pub fn map(&mut self, new: Mapping) {
        let before = self.0.range(..new.begin).next_back().map(|(_, old)| *old);
        let old = self.0.range(new.begin..=new.last).map(|(_, old)| *old);
        let old: Vec<Mapping> = before.filter(|old| old.last >= new.begin).into_iter().chain(old).collect();
        for old in old {
            self.0.remove(&old.begin);
            if old.begin < new.begin {
                self.0.insert(old.begin, Mapping { last: new.begin - 1, ..old });
            }
            if old.last > new.last {
                let begin = new.last + 1;
                self.0.insert(begin, Mapping { begin, offset: old.file_offset(begin), ..old });
            }
        }
        self.0.insert(new.begin, new);
    }

    /// The mapping that has an address.
    pub fn find(&self, address: u64) -> Option<&Mapping> {
        self.0.range(..=address).next_back().map(|(_, mapping)| mapping).filter(|mapping| mapping.has(address))
    }
}

/// A name of a thread, by its index.
pub(super) type NameId = u32;

/// The processes at the time of the record that is read.
#[derive(Debug, Default)]
pub(super) struct Processes {
    spaces: HashMap<u32, Arc<Space>>,
    /// How many threads of a process run, beside its first one.
    threads: HashMap<u32, u32>,
    /// The name of each thread.
    named: HashMap<u32, NameId>,
    /// All names.
    names: Vec<String>,
    ids: HashMap<String, NameId>,
    copied: usize,
}

impl Processes {
    /// What a process has mapped.
    pub fn space(&mut self, pid: u32) -> &Arc<Space> {
        self.spaces.entry(pid).or_default()
    }

    /// Whether another mapping of a process makes a copy of many, since somebody else has them too.
    pub fn is_costly_to_copy(&self, pid: u32) -> bool {
        self.spaces.get(&pid).map_or(false, |space| space.0.len() > COSTLY && Arc::strong_count(space) > 1)
    }

    /// Adds a mapping of a process.
    pub fn map(&mut self, pid: u32, mapping: Mapping) {
        if self.spaces.get(&pid).map_or(false, |space| Arc::strong_count(space) > 1) {
            self.count_copy(pid);
        }
        Arc::make_mut(self.spaces.entry(pid).or_default()).map(mapping);
    }

    /// Counts the mappings that a process will have for itself. If there are too many copies, it gets none.
    fn count_copy(&mut self, pid: u32) {
        self.copied += self.spaces.get(&pid).map_or(0, |space| space.0.len());
        if self.copied > MOST_COPIES {
            // Most copies are of processes that have ended, or that run another program now.
            self.copied = self.spaces.values().map(|space| space.0.len() / Arc::strong_count(space)).sum();
            if self.copied > MOST_COPIES / 2 {
                self.spaces.insert(pid, Arc::default());
            }
        }
    }

    /// A thread has another name. If its process runs a new program, what it had mapped is gone.
    pub fn name(&mut self, comm: &Comm<'_>) {
        let name = self.name_id(&String::from_utf8_lossy(comm.name));
        self.named.insert(comm.tid, name);
        if comm.is_exec {
            self.spaces.remove(&comm.pid);
            self.threads.remove(&comm.pid);
        }
    }

    /// A thread began: one of its process, or the first one of a process that has what its parent has.
    pub fn fork(&mut self, fork: &Fork) {
        if let Some(name) = self.named.get(&fork.parent_tid).copied() {
            self.named.insert(fork.tid, name);
        }
        if fork.pid == fork.parent_pid {
            *self.threads.entry(fork.pid).or_default() += 1;
        } else if let Some(space) = self.spaces.get(&fork.parent_pid).cloned().filter(|_| !fork.ran_before) {
            self.spaces.insert(fork.pid, space);
        }
    }

    /// A thread ended. With the last one, the process is gone.
    pub fn exit(&mut self, exit: &Fork) {
        match self.threads.get_mut(&exit.pid) {
            Some(threads) if *threads > 0 => *threads -= 1,
            _ => {
                self.threads.remove(&exit.pid);
                self.spaces.remove(&exit.pid);
            }
        }
    }

    /// The name of a thread.
    pub fn name_of(&mut self, pid: u32, tid: u32) -> NameId {
        match self.named.get(&tid).or_else(|| self.named.get(&pid)) {
            Some(name) => *name,
            None => {
                let name = self.name_id(&format!(":{}", tid));
                self.named.insert(tid, name);
                name
            }
        }
    }

    fn name_id(&mut self, name: &str) -> NameId {
        if let Some(id) = self.ids.get(name) {
            return *id;
        }
        let id = self.names.len() as NameId;
        self.names.push(name.to_string());
        self.ids.insert(name.to_string(), id);
        id
    }

    /// All names of threads, by their indices.
    pub fn into_names(self) -> Vec<String> {
        self.names
    }

    /// The name with this index.
    pub fn name_text(&self, id: NameId) -> &str {
        self.names.get(id as usize).map_or("", String::as_str)
    }
}

#[cfg(test)]
mod tests {
    use super::*;

    fn mapping(begin: u64, last: u64, object: ObjectId) -> Mapping {
        Mapping { begin, last, offset: 0x1000, object, is_executable: true }
    }

    fn shown(space: &Space) -> Vec<(u64, u64, u64, ObjectId)> {
        space.0.values().map(|mapping| (mapping.begin, mapping.last, mapping.offset, mapping.object)).collect()
    }

    #[test]
    fn a_mapping_replaces_what_was_there() {
        let mut space = Space::default();
        space.map(mapping(0x10, 0x4f, 1));
        space.map(mapping(0x20, 0x2f, 2));
        let cut = [(0x10, 0x1f, 0x1000, 1), (0x20, 0x2f, 0x1000, 2), (0x30, 0x4f, 0x1020, 1)];
        assert_eq!(shown(&space), cut);
        space.map(mapping(0x18, u64::MAX, 3));
        assert_eq!(shown(&space), [(0x10, 0x17, 0x1000, 1), (0x18, u64::MAX, 0x1000, 3)]);
        assert_eq!(space.find(0x17).map(|found| found.object), Some(1));
        assert_eq!(space.find(0xf), None);
    }

    #[test]
    fn a_child_has_what_its_parent_has_until_it_runs_a_program() {
        let mut processes = Processes::default();
        processes.map(1, mapping(0x10, 0x4f, 1));
        processes.fork(&Fork { pid: 2, parent_pid: 1, tid: 2, parent_tid: 1, ran_before: false });
        processes.map(2, mapping(0x50, 0x5f, 2));
        assert!(processes.space(2).find(0x10).is_some() && processes.space(1).find(0x50).is_none());
        processes.name(&Comm { pid: 2, tid: 2, is_exec: true, name: b"ls" });
        assert!(processes.space(2).find(0x10).is_none() && processes.space(1).find(0x10).is_some());
    }
}
