//! Two profiles by function: a node is a function with its callers, and has what it weighs in both.

use super::calls::{Call, Calls, Code, Weight};
use super::frame_names::Names;
use super::tree::Tree;
use super::Profile;
use rustc_hash::FxHashMap;
use std::collections::HashSet;

/// What is compared of a profile.
#[derive(Clone, Copy, Debug)]
pub struct Side<'p> {
    /// The samples.
    pub profile: &'p Profile,
    /// The names of the functions.
    pub names: &'p Names,
    /// The event, by its index.
    pub event: usize,
}

/// A function of either profile. Functions with the same name are one, since a build may have another file.
#[derive(Clone, Debug, PartialEq, Eq)]
pub struct Function {
    /// Its name, and after it the line if there is one.
    pub name: String,
    /// The name of its file without folders, in the new profile if it is there.
    pub object: String,
    /// What it is there.
    pub code: Code,
}

/// The old profile and the new one.
pub const SIDES: usize = 2;

/// Two profiles by function.
#[derive(Debug)]
pub struct Compared {
    /// All functions.
    pub functions: Vec<Function>,
    /// All nodes. A caller comes before what it calls. Node 0 calls the outermost functions.
    pub nodes: Vec<Call>,
    /// What each node weighs by itself in the old profile and in the new one.
    pub own: Vec<[u64; SIDES]>,
    function_ids: FxHashMap<String, u32>,
    node_ids: FxHashMap<Call, u32>,
}

impl Compared {
    /// Puts the nodes of an old profile and of a new one together.
    pub fn of(old: Side<'_>, new: Side<'_>) -> Compared {
        let mut compared = Compared {
            functions: Vec::new(),
            nodes: vec![Call { caller: Tree::ROOT, function: u32::MAX }],
            own: vec![[0; SIDES]],
            function_ids: FxHashMap::default(),
            node_ids: FxHashMap::default(),
        };
        [old, new].into_iter().enumerate().for_each(|(index, side)| compared.add(index, side));
        compared
    }

    /// What all samples weigh together.
    pub fn all(&self) -> [u64; SIDES] {
        let add = |sum: [u64; SIDES], own: &[u64; SIDES]| [0, 1].map(|side| sum[side].saturating_add(own[side]));
        self.own.iter().fold([0; SIDES], add)
    }

    fn add(&mut self, index: usize, side: Side<'_>) {
        let calls = Calls::of(side.profile, side.names);
        let functions: Vec<u32> = calls
            .functions
            .iter()
            .map(|called| {
                let object = side.names.text(called.object).rsplit('/').next().unwrap_or("").to_string();
                self.function(Function { name: called.shown(side.names).into_owned(), object, code: called.code })
            })
            .collect();
        let mut nodes = vec![Tree::ROOT];
        for call in calls.nodes.iter().skip(1) {
            let (caller, function) = (nodes[call.caller as usize], functions[call.function as usize]);
            nodes.push(self.node(Call { caller, function }));
        }
        for sample in side.profile.samples_of(side.event) {
            let own = &mut self.own[nodes[calls.of_stack(sample.stack) as usize] as usize][index];
            *own = own.saturating_add(sample.weight);
        }
    }

    /// The index of a function, which replaces the one of the other profile.
    fn function(&mut self, function: Function) -> u32 {
        let next = self.functions.len() as u32;
        let id = *self.function_ids.entry(function.name.clone()).or_insert(next);
        match self.functions.get_mut(id as usize) {
            Some(known) => *known = function,
            None => self.functions.push(function),
        }
        id
    }

    /// The index of a node, which is added if it isn't there.
    fn node(&mut self, call: Call) -> u32 {
        let next = self.nodes.len() as u32;
        let id = *self.node_ids.entry(call).or_insert(next);
        if id == next {
            self.nodes.push(call);
            self.own.push([0; SIDES]);
        }
        id
    }

    /// What each function weighs in the old profile and in the new one, by its index. A function that is several
    /// times in a stack counts once.
    pub fn weights(&self) -> Vec<[Weight; SIDES]> {
        let mut weights = vec![[Weight::default(); SIDES]; self.functions.len()];
        let mut seen = HashSet::new();
        for (node, own) in self.own.iter().enumerate().filter(|(_, own)| own.iter().any(|weight| *weight > 0)) {
            seen.clear();
            let mut at = self.nodes[node];
            while at.function != u32::MAX {
                let (is_innermost, is_new) = (seen.is_empty(), seen.insert(at.function));
                for (of, weight) in weights[at.function as usize].iter_mut().zip(own) {
                    of.own = of.own.saturating_add(if is_innermost { *weight } else { 0 });
                    of.total = of.total.saturating_add(if is_new { *weight } else { 0 });
                }
                at = self.nodes[at.caller as usize];
            }
        }
        weights
    }
}
