//! Reads what `perf record` wrote, walks the stacks of its samples by unwind tables, and writes the profile in
//! the formats that other programs read.
//!
//! ```no_run
//! use dwcheck_profile::{folded, Names, Options, Profile, Recording};
//!
//! let mut recording = Recording::of_file(&std::fs::File::open("perf.data")?)?;
//! let profile = Profile::read(&mut recording, &Options::default(), |_| true);
//! let names = Names::read(&profile, &Default::default());
//! folded::write_folded(&profile, &names, 0, &mut std::io::stdout().lock())?;
//! # Ok::<(), Box<dyn std::error::Error>>(())
//! ```

#![deny(unsafe_code)]
#![warn(missing_docs)]

mod batch;
pub mod calls;
mod collect;
pub mod compared;
mod error;
pub mod firefox;
pub mod focus;
pub mod folded;
mod frame_names;
mod frames;
pub mod html;
mod jitdump;
mod kernel;
mod made_code;
mod memory;
mod objects;
mod popped;
pub mod pprof;
mod recording;
pub mod script;
mod space;
pub mod speedscope;
mod tables;
mod tail_calls;
mod task;
pub mod top;
mod tree;
mod view;
mod walk;

pub use frame_names::{Function, NameOptions, Names};
pub use frames::{CodeAddress, End, Frame};
pub use objects::{Kind, Object, SearchPaths};
pub use recording::{BuildId, Damage, Event, Features, Recording};
pub use tree::{Node, NodeId, Tree};

use collect::Collector;
use std::collections::{BTreeMap, HashMap};
use std::ops::RangeInclusive;
use std::path::PathBuf;
use std::sync::Arc;

/// The most frames of a task, unless it is said otherwise.
pub const MOST_FRAMES: usize = 1024;

/// Which samples are read, and how far their stacks are walked.
#[derive(Clone, Debug)]
pub struct Options {
    /// Only threads with one of these names. All if it is empty.
    pub comms: Vec<String>,
    /// Only these processes. All if it is empty.
    pub pids: Vec<u32>,
    /// Only these threads. All if it is empty.
    pub tids: Vec<u32>,
    /// Only samples with these times, in nanoseconds.
    pub times: RangeInclusive<u64>,
    /// Only the event with this name.
    pub event: Option<String>,
    /// The most frames of a task.
    pub limit: usize,
    /// Where files are looked for.
    pub search_paths: SearchPaths,
}

impl Default for Options {
    fn default() -> Self {
        Options {
            comms: Vec::new(),
            pids: Vec::new(),
            tids: Vec::new(),
            times: 0..=u64::MAX,
            event: None,
            limit: MOST_FRAMES,
            search_paths: SearchPaths::default(),
        }
    }
}

/// A sample whose stack was walked.
#[derive(Clone, Copy, Debug, PartialEq, Eq)]
pub struct Sample {
    /// When it was recorded, in nanoseconds. 0 if the recording has no times.
    pub time: u64,
    /// How much was counted since the sample before: what it weighs.
    pub weight: u64,
    /// The process.
    pub pid: u32,
    /// The thread.
    pub tid: u32,
    /// The thread's name, by its index in [`Profile::comms`].
    pub comm: u32,
    /// The processor. `None` if it isn't recorded.
    pub cpu: Option<u32>,
    /// Its innermost frame in [`Profile::tree`].
    pub stack: NodeId,
    /// The event, by its index in [`Profile::events`].
    pub event: u16,
    /// Why the stack has no more frames.
    pub end: End,
}

/// What was counted while a recording was read.
#[derive(Clone, Debug, Default, PartialEq, Eq)]
pub struct Counts {
    /// The frames of all stacks.
    pub frames: u64,
    /// The frames that were found by frame pointers.
    pub by_frame_pointer: u64,
    /// Records that were lost, because perf didn't read them in time.
    pub lost: u64,
    /// How often the kernel took no samples for a while.
    pub throttled: u64,
    /// How often data of a hardware trace were lost.
    pub cut_traces: u64,
    /// Records that are shorter than what they should have.
    pub short: u64,
    /// How many stacks ended for each reason.
    pub ends: BTreeMap<End, u64>,
}

impl Counts {
    /// How many stacks go on past the copy of the stack.
    pub fn truncated(&self) -> u64 {
        self.ends.get(&End::EndOfCopy).copied().unwrap_or(0)
    }
}

/// The samples of a recording with their stacks.
#[derive(Debug)]
pub struct Profile {
    /// The events that were recorded.
    pub events: Vec<Event>,
    /// The samples, in the order of their times.
    pub samples: Vec<Sample>,
    /// All stacks as a tree.
    pub tree: Tree,
    /// The frames of the tree, by their indices.
    pub frames: Vec<Frame>,
    /// The objects of frames, by their indices.
    pub objects: Vec<Arc<Object>>,
    /// The names of threads, by their indices.
    pub comms: Vec<String>,
    /// What was counted.
    pub counts: Counts,
    /// What isn't used of a file, or why it isn't used at all.
    pub problems: Vec<(String, String)>,
    /// What the recording says of itself.
    pub features: Features,
    /// Why the recording ended early. `None` if it didn't.
    pub damage: Option<Damage>,
    search_paths: SearchPaths,
    /// Where the kernel's text began.
    kernel_start: Option<u64>,
    /// The files in which processes list code that they have made.
    dumps: HashMap<u32, PathBuf>,
}

impl Profile {
    /// Reads all records of a recording, and walks the stacks of its samples. `progress` is told now and then how
    /// many bytes were read; if it returns false, reading ends there.
    pub fn read(recording: &mut Recording<'_>, options: &Options, progress: impl FnMut(u64) -> bool) -> Profile {
        let mut collector = Collector::new(options, recording.order());
        collector.read(recording, progress);
        collector.finish(recording)
    }

    /// The indices of the events that have samples.
    pub fn sampled_events(&self) -> Vec<usize> {
        let mut sampled: Vec<usize> = Vec::new();
        for event in self.samples.iter().map(|sample| usize::from(sample.event)) {
            if sampled.last() != Some(&event) && !sampled.contains(&event) {
                sampled.push(event);
            }
        }
        sampled.sort_unstable();
        sampled
    }

    /// The samples of an event.
    pub fn samples_of(&self, event: usize) -> impl Iterator<Item = &Sample> {
        self.samples.iter().filter(move |sample| usize::from(sample.event) == event)
    }

    /// The object of a frame.
    pub fn object(&self, frame: &Frame) -> Option<&Arc<Object>> {
        self.objects.get(frame.place.object as usize)
    }

    /// Whether an event counts nanoseconds.
    pub fn is_in_nanoseconds(&self, event: usize) -> bool {
        self.event_name(event).starts_with("cpu-clock") || self.event_name(event).starts_with("task-clock")
    }

    /// The name of an event.
    pub fn event_name(&self, event: usize) -> &str {
        self.events.get(event).map_or("", |event| event.name.as_str())
    }
}
