//! Reads the records of a recording, and walks the stack of each sample.

use super::batch::{walk_samples, Job};
use super::objects::Objects;
use super::recording::{About, Batch, Mapped, Record, Recording, Sample as Recorded};
use super::space::{Mapping, NameId, Processes};
use super::tree::Tree;
use super::walk::Shared;
use super::{Counts, Options, Profile, Sample};
use dwcheck_types::target::Order;
use std::collections::HashMap;

/// The process of records of the kernel's own mappings.
const KERNEL: u32 = u32::MAX;

/// Reads records.
pub(super) struct Collector<'o> {
    options: &'o Options,
    processes: Processes,
    shared: Shared,
    tree: Tree,
    samples: Vec<Sample>,
    counts: Counts,
    kernel_start: Option<u64>,
    /// The last counts of events that are counted in groups, by their ids.
    last_counts: HashMap<u64, u64>,
}

impl<'o> Collector<'o> {
    pub fn new(options: &'o Options, order: Order) -> Self {
        Collector {
            options,
            processes: Processes::default(),
            shared: Shared::new(Objects::new(options.search_paths.clone()), options.limit, order),
            tree: Tree::default(),
            samples: Vec::new(),
            counts: Counts::default(),
            kernel_start: None,
            last_counts: HashMap::new(),
        }
    }

    /// Reads all records.
    pub fn read(&mut self, recording: &mut Recording<'_>, mut progress: impl FnMut(u64) -> bool) {
        while let Some(batch) = recording.next_batch() {
            self.batch(&batch);
            if !progress(recording.position()) {
                return;
            }
        }
    }

    /// Reads records, and walks the stacks of their samples.
    fn batch(&mut self, batch: &Batch<'_>) {
        let mut jobs = Vec::new();
        for record in batch.records() {
            match record {
                Record::Sample(sample) => jobs.extend(self.job(sample, batch.about())),
                Record::Mapped(mapped) => {
                    if self.processes.is_costly_to_copy(mapped.pid) {
                        self.walk(&mut jobs, batch.about());
                    }
                    self.map(&mapped, batch.about());
                }
                other => self.other(&other),
            }
        }
        self.walk(&mut jobs, batch.about());
    }

    /// Reads a record that is neither a sample nor of a mapping.
    fn other(&mut self, record: &Record<'_>) {
        match record {
            Record::Comm(comm) => self.processes.name(comm),
            Record::Fork(fork) => self.processes.fork(fork),
            Record::Exit(exit) => self.processes.exit(exit),
            Record::Lost(count) | Record::LostSamples(count) => {
                self.counts.lost = self.counts.lost.saturating_add(*count);
            }
            Record::Throttled => self.counts.throttled += 1,
            Record::Trace { is_cut } => self.counts.cut_traces += u64::from(*is_cut),
            Record::Short(_) => self.counts.short += 1,
            Record::Sample(_) | Record::Mapped(_) | Record::Other(_) => {}
        }
    }

    fn map(&mut self, mapped: &Mapped<'_>, about: &About) {
        if mapped.pid == KERNEL {
            if mapped.name.starts_with(b"[kernel.kallsyms]") {
                self.kernel_start = Some(mapped.offset).filter(|offset| *offset > 0);
            }
            return;
        }
        let last = match mapped.size.checked_sub(1) {
            Some(past) => mapped.begin.saturating_add(past),
            None => return,
        };
        let object = self.shared.objects.mapped(mapped, &about.features);
        let Mapped { begin, offset, is_executable, .. } = *mapped;
        self.processes.map(mapped.pid, Mapping { begin, last, offset, object, is_executable });
    }

    /// What to do for a sample. `None` if it isn't wanted.
    fn job<'b>(&mut self, sample: Recorded<'b>, about: &About) -> Option<Job<'b>> {
        let comm = self.processes.name_of(sample.pid, sample.tid);
        let weights = self.weights(&sample, about);
        if weights.is_empty() || !self.is_wanted(&sample, comm) {
            return None;
        }
        let space = self.processes.space(sample.pid).clone();
        Some(Job { sample, comm, weights, space })
    }

    /// Walks the stacks of samples, and drops these.
    fn walk(&mut self, jobs: &mut Vec<Job<'_>>, about: &About) {
        let (samples, counts) = (&mut self.samples, &mut self.counts);
        walk_samples(&mut self.shared, &mut self.tree, &about.features, jobs, |job, stack| {
            *counts.ends.entry(stack.end).or_default() += 1;
            counts.frames += stack.frames;
            counts.by_frame_pointer += stack.by_frame_pointer;
            let Recorded { pid, tid, cpu, .. } = job.sample;
            let sample = |&(event, weight): &(usize, u64)| Sample {
                time: job.sample.time.unwrap_or(0),
                weight,
                pid,
                tid,
                comm: job.comm,
                cpu,
                stack: stack.node,
                event: event.try_into().unwrap_or(u16::MAX),
                end: stack.end,
            };
            samples.extend(job.weights.iter().map(sample));
        });
        jobs.clear();
    }

    fn is_wanted(&self, sample: &Recorded<'_>, comm: NameId) -> bool {
        let Options { comms, pids, tids, times, .. } = self.options;
        let has = |all: &[u32], one: u32| all.is_empty() || all.contains(&one);
        let comm = self.processes.name_text(comm);
        has(pids, sample.pid)
            && has(tids, sample.tid)
            && times.contains(&sample.time.unwrap_or(0))
            && (comms.is_empty() || comms.iter().any(|one| one == comm))
    }

    /// The events that a sample counts, each with its weight. Where the counts of a group are read together, a
    /// sample is one of each event that was counted since the last one.
    fn weights(&mut self, sample: &Recorded<'_>, about: &About) -> Vec<(usize, u64)> {
        let wanted = |event: usize| match &self.options.event {
            Some(name) => about.events().get(event).map_or(false, |event| event.name == *name),
            None => true,
        };
        if sample.counts.is_empty() {
            let period = about.events().get(sample.event).map_or(1, |event| event.period());
            let weight = Some((sample.event, sample.period.unwrap_or(period)));
            return weight.filter(|(event, _)| wanted(*event)).into_iter().collect();
        }
        let last = &mut self.last_counts;
        let counted = sample.counts.iter().map(|(id, count)| {
            let before = last.insert(*id, *count).unwrap_or(0);
            (about.event_of(*id), count.saturating_sub(before))
        });
        counted.filter(|(event, weight)| *weight > 0 && wanted(*event)).collect()
    }

    /// The profile of what was read.
    pub fn finish(self, recording: &Recording<'_>) -> Profile {
        let objects = self.shared.objects;
        let mut problems = Vec::new();
        for object in objects.all() {
            let found = object.opened().map_or(&[][..], |loaded| &loaded.problems);
            problems.extend(found.iter().map(|problem| (object.name.clone(), problem.clone())));
        }
        for (object, loaded) in objects.all().iter().filter_map(|object| Some((object, object.opened()?))) {
            problems.extend(loaded.tables.problems().map(|problem| (object.name.clone(), problem)));
        }
        Profile {
            events: recording.about().events().to_vec(),
            samples: self.samples,
            tree: self.tree,
            frames: self.shared.known.into_all(),
            objects: objects.all().to_vec(),
            comms: self.processes.into_names(),
            counts: self.counts,
            problems,
            features: recording.about().features.clone(),
            damage: recording.damage().cloned(),
            search_paths: objects.search_paths().clone(),
            kernel_start: self.kernel_start,
            dumps: objects.into_dumps(),
        }
    }
}
