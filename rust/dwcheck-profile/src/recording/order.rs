//! Puts records into the order of their times, in a queue that gives them in rounds.
//!
//! Each processor has a buffer of its own, and perf empties one after another. After each round it writes
//! a record that says so. What comes after the end of a round isn't older than what was the newest at
//! the end of the round before.

use super::source::Body;
use super::RecordHead;

/// The most bytes that wait. If there are more, the older half is given free.
pub(super) const MOST_HELD: usize = 32 << 20;

/// Records are given when this many of them are free, or when the bytes of all are more than [`ENOUGH_BYTES`].
const ENOUGH: usize = 1024;

/// See [`ENOUGH`].
const ENOUGH_BYTES: usize = 8 << 20;

/// The most records that are given at once.
const MOST_GIVEN: usize = 4096;

/// A record that waits.
#[derive(Clone, Copy, Debug)]
pub(super) struct Held {
    /// When it was recorded. Records without a time have 0, and come first.
    pub time: u64,
    pub head: RecordHead,
    pub body: Body,
}

impl Held {
    /// How many bytes it takes.
    fn size(&self) -> usize {
        self.body.size() + std::mem::size_of::<Held>()
    }
}

/// The records that were read and not given yet.
#[derive(Debug, Default)]
pub(super) struct Queue {
    /// The bodies that aren't in files.
    copied: Vec<u8>,
    /// Where those of them go that are kept.
    spare: Vec<u8>,
    /// The records, in the order in which they were read; those that are free come first, in the
    /// order of their times.
    held: Vec<Held>,
    /// The bytes of the bodies of all that are held.
    size: usize,
    /// How many of `held` are free.
    free: usize,
    /// How many of `held` were given.
    given: usize,
    /// The latest time so far.
    latest: u64,
    /// The latest time at the end of the last round.
    limit: u64,
}

impl Queue {
    /// Where the next record's body is copied to: the end of the bytes.
    pub fn room(&mut self) -> &mut Vec<u8> {
        &mut self.copied
    }

    /// The bodies that aren't in files.
    pub fn copied(&self) -> &[u8] {
        &self.copied
    }

    /// Forgets a body that was just read.
    pub fn drop_last(&mut self, body: Body) {
        if body.file.is_none() {
            self.copied.truncate(body.start);
        }
    }

    /// Adds a record whose body was just read.
    pub fn push(&mut self, record: Held) {
        self.latest = self.latest.max(record.time);
        self.size += record.size();
        self.held.push(record);
    }

    /// Whether all that are free were given.
    pub fn is_given(&self) -> bool {
        self.given >= self.free
    }

    /// Whether enough are free.
    pub fn has_enough(&self) -> bool {
        self.free >= ENOUGH || self.free > 0 && self.size > ENOUGH_BYTES
    }

    /// Gives the next records that are free, with the bodies that aren't in files.
    pub fn give(&mut self) -> (&[Held], &[u8]) {
        let end = self.free.min(self.given.saturating_add(MOST_GIVEN));
        let given = self.held.get(self.given..end).unwrap_or(&[]);
        self.given = end;
        (given, &self.copied)
    }

    /// Whether no more records should be read before some are given.
    pub fn is_full(&self) -> bool {
        self.size > MOST_HELD
    }

    /// At the end of a round: gives those free that aren't newer than the newest of the round before.
    pub fn release_round(&mut self) {
        self.release(self.limit);
        self.limit = self.latest;
    }

    /// Gives the older half free.
    pub fn release_half(&mut self) {
        let mut times: Vec<u64> = self.held.iter().map(|record| record.time).collect();
        let middle = times.len() / 2;
        times.select_nth_unstable(middle);
        self.release(times[middle]);
    }

    /// At the end of the recording: gives all free.
    pub fn release_all(&mut self) {
        self.release(u64::MAX);
    }

    /// Gives those free that aren't newer than this.
    pub fn release(&mut self, limit: u64) {
        // The sort is stable: of records with the same time, the first one that was read comes first.
        self.held.sort_by_key(|record| record.time);
        self.free = self.held.partition_point(|record| record.time <= limit);
    }

    /// Drops the records that were given. Of the bodies that aren't in files, only those of the others are kept.
    pub fn forget_given(&mut self) {
        if self.given == 0 {
            return;
        }
        self.size -= self.held.drain(..self.given).map(|record| record.size()).sum::<usize>();
        self.spare.clear();
        for body in self.held.iter_mut().map(|record| &mut record.body).filter(|body| body.file.is_none()) {
            let start = self.spare.len();
            self.spare.extend_from_slice(body.of(&[], &self.copied));
            (body.start, body.end) = (start, self.spare.len());
        }
        std::mem::swap(&mut self.copied, &mut self.spare);
        (self.free, self.given) = (0, 0);
    }

    /// The first byte of a file that a record needs. `None` if none needs one.
    pub fn first_needed(&self, file: usize) -> Option<usize> {
        self.held.iter().map(|record| record.body).filter(|body| body.file == Some(file)).map(|body| body.start).min()
    }
}

#[cfg(test)]
mod tests {
    use super::*;

    fn held(queue: &mut Queue, time: u64) {
        let start = queue.room().len();
        queue.room().push(time as u8);
        queue.push(Held { time, head: RecordHead::default(), body: Body { file: None, start, end: start + 1 } });
    }

    fn given(queue: &mut Queue) -> Vec<(u64, Vec<u8>)> {
        let (records, bytes) = queue.give();
        let given = records.iter().map(|record| (record.time, record.body.of(&[], bytes).to_vec())).collect();
        queue.forget_given();
        given
    }

    /// As the kernel's documentation of PERF_RECORD_FINISHED_ROUND says in its example.
    #[test]
    fn a_round_gives_what_the_round_before_had_reached() {
        let mut queue = Queue::default();
        [50, 30, 40].into_iter().for_each(|time| held(&mut queue, time));
        queue.release_round();
        assert_eq!(given(&mut queue), []);
        [60, 45].into_iter().for_each(|time| held(&mut queue, time));
        queue.release_round();
        assert_eq!(given(&mut queue), [30, 40, 45, 50].map(|time| (time, vec![time as u8])));
        queue.release_all();
        assert_eq!(given(&mut queue), [(60, vec![60])]);
        assert_eq!(given(&mut queue), []);
    }
}
