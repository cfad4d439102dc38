//! Walks the stacks of samples that were read together, on all processors.
//!
//! Which samples a processor walks doesn't depend on how many there are, and what was found is put together in the
//! order of the samples. So profiles are the same for any number of processors.

use super::frames::{End, Frame, FrameId, Frames};
use super::recording::{Features, Sample};
use super::space::{NameId, Space};
use super::tree::{NodeId, Tree};
use super::walk::{Missing, Shared, Walker};
use rayon::prelude::*;
use std::borrow::Cow;
use std::sync::Arc;

/// How many samples are walked one after another.
const CHUNK: usize = 128;

/// A sample whose stack is to be walked.
pub(super) struct Job<'b> {
    pub sample: Sample<'b>,
    pub comm: NameId,
    /// The events that it counts, each with its weight.
    pub weights: Vec<(usize, u64)>,
    /// What its process has mapped.
    pub space: Arc<Space>,
}

/// A stack that was walked.
#[derive(Clone, Copy, Debug)]
pub(super) struct Stack {
    /// Its innermost frame in the tree.
    pub node: NodeId,
    pub end: End,
    pub frames: u64,
    pub by_frame_pointer: u64,
}

/// What came of a sample's walk.
enum Outcome {
    /// A stack in the chunk's tree.
    Stack(Stack),
    /// A stack that needed something new, which isn't in the chunk's tree, and its frames, the innermost first.
    New(Stack, Vec<Frame>),
    /// Something has to be added first.
    Missing(Missing),
}

/// The stacks of a chunk of samples, by frames and a tree of their own.
struct Walked {
    frames: Frames,
    tree: Tree,
    outcomes: Vec<Outcome>,
}

impl Walked {
    fn of(shared: &Shared, features: &Features, jobs: &[Job<'_>]) -> Walked {
        let mut walker = Walker::new(shared, features);
        let mut tree = Tree::default();
        let walk = |job: &Job<'_>| {
            let end = match walker.walk(&job.sample, &job.space) {
                Ok(end) => end,
                Err(missing) => return Outcome::Missing(missing),
            };
            let (frames, by_frame_pointer) = (walker.count() as u64, walker.by_frame_pointer);
            let stack = Stack { node: Tree::ROOT, end, frames, by_frame_pointer };
            let ids = walker.stack.iter().copied();
            if walker.new.is_empty() {
                return Outcome::Stack(Stack { node: tree.add(ids), ..stack });
            }
            let known = ids.map(|id| walker.frames.all()[id as usize]);
            Outcome::New(stack, known.chain(walker.new.iter().copied()).collect())
        };
        let outcomes = jobs.iter().map(walk).collect();
        Walked { frames: walker.frames, tree, outcomes }
    }

    /// Adds the frames and the tree to those of all stacks. Returns for each node the one that it is there.
    fn add_to(&self, shared: &mut Shared, tree: &mut Tree) -> Vec<NodeId> {
        let frames: Vec<FrameId> = self.frames.all().iter().map(|frame| shared.known.add(*frame)).collect();
        tree.add_tree(&self.tree, &frames)
    }
}

/// Walks the stacks of samples, and gives each to `done`, in the order of the samples.
pub(super) fn walk_samples(
    shared: &mut Shared,
    tree: &mut Tree,
    features: &Features,
    jobs: &[Job<'_>],
    mut done: impl FnMut(&Job<'_>, Stack),
) {
    shared.round = shared.round.saturating_add(1);
    let walked: Vec<Walked> = match jobs.len() > CHUNK {
        true => jobs.par_chunks(CHUNK).map(|jobs| Walked::of(shared, features, jobs)).collect(),
        false => vec![Walked::of(shared, features, jobs)],
    };
    for (jobs, walked) in jobs.chunks(CHUNK).zip(walked) {
        let nodes = walked.add_to(shared, tree);
        for (job, outcome) in jobs.iter().zip(walked.outcomes) {
            let stack = add_stack(shared, tree, features, job, outcome, &nodes);
            done(job, stack);
        }
    }
}

/// Adds a stack to the tree. One that lacks something is walked again; it may lack something else then.
fn add_stack(
    shared: &mut Shared,
    tree: &mut Tree,
    features: &Features,
    job: &Job<'_>,
    mut outcome: Outcome,
    nodes: &[NodeId],
) -> Stack {
    let mut nodes = Cow::Borrowed(nodes);
    loop {
        match outcome {
            Outcome::Stack(stack) => return Stack { node: nodes[stack.node as usize], ..stack },
            Outcome::New(stack, frames) => {
                // Frames are numbered from the innermost one on, nodes of the tree from the outermost one on.
                let ids: Vec<FrameId> = frames.into_iter().map(|frame| shared.known.add(frame)).collect();
                return Stack { node: tree.add(ids.iter().copied()), ..stack };
            }
            Outcome::Missing(missing) => shared.add(missing),
        }
        let mut walked = Walked::of(shared, features, std::slice::from_ref(job));
        outcome = walked.outcomes.remove(0);
        if let Outcome::Stack(_) = outcome {
            nodes = Cow::Owned(walked.add_to(shared, tree));
        }
    }
}
