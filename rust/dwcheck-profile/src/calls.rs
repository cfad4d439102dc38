//! The stacks of a profile by function: a node is a function with its callers.

use super::frame_names::{Names, TextId};
use super::objects::Kind;
use super::tree::{NodeId, Tree};
use super::Profile;
use rustc_hash::FxHashMap;
use std::borrow::Cow;
use std::collections::HashSet;

/// What a function is.
#[derive(Clone, Copy, Debug, PartialEq, Eq, Hash)]
pub enum Code {
    /// One of a file.
    File,
    /// One that was inlined.
    Inlined,
    /// One of the kernel.
    Kernel,
    /// One that a compiler made at run time, or that isn't known.
    Memory,
}

/// A function, whatever address of it a frame has.
#[derive(Clone, Copy, Debug, PartialEq, Eq, Hash)]
pub struct Called {
    /// Its name, or what stands for it, by its index in [`Names`].
    pub name: TextId,
    /// Its object, by its index in [`Names`].
    pub object: TextId,
    /// The line of its code, if lines are shown.
    pub line: Option<TextId>,
    /// What it is.
    pub code: Code,
}

impl Called {
    /// The function's name, and after it the line if there is one, as `leaf (spin.c:5)`.
    pub fn shown<'n>(&self, names: &'n Names) -> Cow<'n, str> {
        match self.line {
            Some(line) => Cow::Owned(format!("{} ({})", names.text(self.name), names.text(line))),
            None => Cow::Borrowed(names.text(self.name)),
        }
    }
}

/// A function with its callers.
#[derive(Clone, Copy, Debug, PartialEq, Eq, Hash)]
pub struct Call {
    /// The caller's node, which has a lower index. That of the outermost functions is 0.
    pub caller: u32,
    /// The function, by its index in [`Calls::functions`]. Of node 0 it has no meaning.
    pub function: u32,
}

/// The stacks of a profile by function.
#[derive(Debug, Default)]
pub struct Calls {
    /// All functions.
    pub functions: Vec<Called>,
    /// All nodes. A caller comes before what it calls. Node 0 calls the outermost functions.
    pub nodes: Vec<Call>,
    /// For each node of the profile's tree, its node here.
    of_stack: Vec<u32>,
}

/// What a function weighs.
#[derive(Clone, Copy, Debug, Default, PartialEq, Eq)]
pub struct Weight {
    /// That of the samples in which it is the innermost function.
    pub own: u64,
    /// That of the samples in which it is.
    pub total: u64,
}

impl Calls {
    /// The functions of the stacks of a profile. This takes time in proportion to the nodes of its tree.
    pub fn of(profile: &Profile, names: &Names) -> Calls {
        let mut calls = Calls { nodes: vec![Call { caller: 0, function: u32::MAX }], ..Calls::default() };
        let mut functions: FxHashMap<Called, u32> = FxHashMap::default();
        let mut nodes: FxHashMap<Call, u32> = FxHashMap::default();
        for node in profile.tree.nodes() {
            let mut caller = calls.of_stack.get(node.caller as usize).copied().unwrap_or(0);
            for called in functions_of_frame(profile, names, node.frame) {
                let next = calls.functions.len() as u32;
                let function = *functions.entry(called).or_insert(next);
                if function == next {
                    calls.functions.push(called);
                }
                let next = calls.nodes.len() as u32;
                let call = Call { caller, function };
                caller = *nodes.entry(call).or_insert(next);
                if caller == next {
                    calls.nodes.push(call);
                }
            }
            calls.of_stack.push(caller);
        }
        calls
    }

    /// The node of a stack.
    pub fn of_stack(&self, stack: NodeId) -> u32 {
        self.of_stack.get(stack as usize).copied().unwrap_or(0)
    }

    /// The functions of a node, the innermost first.
    pub fn functions_of(&self, node: u32) -> impl Iterator<Item = u32> + '_ {
        let mut at = node;
        std::iter::from_fn(move || {
            let call = self.nodes.get(at as usize).filter(|_| at != Tree::ROOT)?;
            at = call.caller;
            Some(call.function)
        })
    }

    /// What each function weighs in the samples of an event, by its index. A function that is several times in a
    /// stack counts once.
    pub fn weights(&self, profile: &Profile, event: usize) -> Vec<Weight> {
        let mut by_node: FxHashMap<u32, u64> = FxHashMap::default();
        for sample in profile.samples_of(event) {
            let weight = by_node.entry(self.of_stack(sample.stack)).or_default();
            *weight = weight.saturating_add(sample.weight);
        }
        let mut weights = vec![Weight::default(); self.functions.len()];
        let mut seen = HashSet::new();
        for (node, weight) in by_node {
            seen.clear();
            for function in self.functions_of(node) {
                let is_innermost = seen.is_empty();
                let of = &mut weights[function as usize];
                of.own = of.own.saturating_add(if is_innermost { weight } else { 0 });
                if seen.insert(function) {
                    of.total = of.total.saturating_add(weight);
                }
            }
        }
        weights
    }
}

/// The functions of a frame, the outermost first.
fn functions_of_frame<'n>(profile: &Profile, names: &'n Names, frame: u32) -> impl Iterator<Item = Called> + 'n {
    let kind = profile.frames.get(frame as usize).and_then(|frame| profile.object(frame)).map(|object| object.kind);
    names.of(frame).iter().rev().map(move |function| Called {
        name: function.name,
        object: function.object,
        line: function.line,
        code: match kind {
            Some(Kind::Kernel) => Code::Kernel,
            Some(Kind::File) if function.is_inlined => Code::Inlined,
            Some(Kind::File) => Code::File,
            _ => Code::Memory,
        },
    })
}
