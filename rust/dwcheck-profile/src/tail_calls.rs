//! Adds the frames of functions that ended with a jump to another one (tail calls), where call sites of the debug
//! information prove which ones did, as `stack` does.

use super::frames::{CodeAddress, Frame, FrameId};
use super::objects::{Kind, Loaded, Object, ObjectId};
use super::tree::{Node, NodeId, Tree};
use super::Profile;
use dwcheck_elf::debug_files::DebugFiles;
use dwcheck_elf::internal::{Names, TailCall};
use dwcheck_elf::stack::NameOptions;
use object::elf::{EM_386, EM_AARCH64, EM_X86_64};
use rayon::prelude::*;
use rustc_hash::{FxHashMap, FxHashSet};
use std::path::Path;

/// Names as they are in the file, to be compared.
const NAMES: NameOptions = NameOptions { inlined: true, source: false, raw: true };

/// The code of x86 with which a call to a fixed address begins, and the number of its bytes.
const CALL: u8 = 0xe8;
const CALL_LENGTH: u64 = 5;

/// What code of x86-64 in a procedure linkage table begins with: `jmp` by a pointer, or `endbr64`.
const STUBS: [&[u8]; 2] = [&[0xff, 0x25], &[0xf3, 0x0f, 0x1e, 0xfa]];

/// The number of bytes of each instruction of aarch64.
const WORD: u64 = 4;

/// A frame and its caller, by their indices, which are of the same file.
#[derive(Clone, Copy, Debug, PartialEq, Eq, Hash, PartialOrd, Ord)]
struct Pair {
    caller: FrameId,
    frame: FrameId,
}

/// A call that has led to another function than the one that it names. All addresses are as linked.
struct Jumped {
    pair: Pair,
    called: u64,
    /// The address to which the call returns.
    returned: u64,
    /// The address of the frame that was reached.
    reached: u64,
}

impl Profile {
    /// Adds the frames of functions that ended with a jump to another one, where call sites prove which ones did.
    pub fn add_tail_calls(&mut self) {
        let mut between: FxHashMap<Pair, Vec<FrameId>> = FxHashMap::default();
        let mut ids: FxHashMap<CodeAddress, FrameId> = FxHashMap::default();
        for (pair, frames) in self.proved_jumps() {
            let mut id = |frame: Frame| {
                *ids.entry(frame.place).or_insert_with(|| {
                    self.frames.push(frame);
                    self.frames.len() as FrameId - 1
                })
            };
            between.insert(pair, frames.into_iter().map(&mut id).collect());
        }
        if between.is_empty() {
            return;
        }
        let (mut tree, mut of_node): (Tree, Vec<NodeId>) = (Tree::default(), vec![Tree::ROOT]);
        for node in self.tree.nodes().iter().skip(1) {
            let pair = Pair { caller: self.tree.nodes()[node.caller as usize].frame, frame: node.frame };
            let added = between.get(&pair).map_or(&[][..], Vec::as_slice);
            let caller = of_node[node.caller as usize];
            let caller = added.iter().fold(caller, |caller, frame| tree.node(Node { caller, frame: *frame }));
            of_node.push(tree.node(Node { caller, frame: node.frame }));
        }
        self.samples.iter_mut().for_each(|sample| sample.stack = of_node[sample.stack as usize]);
        self.tree = tree;
    }

    /// The frames between a frame and its caller that call sites prove, the outermost first.
    fn proved_jumps(&self) -> Vec<(Pair, Vec<Frame>)> {
        let mut by_object: FxHashMap<ObjectId, FxHashSet<Pair>> = FxHashMap::default();
        let nodes = self.tree.nodes();
        for node in nodes.iter().skip(1).filter(|node| node.caller != Tree::ROOT) {
            let pair = Pair { caller: nodes[node.caller as usize].frame, frame: node.frame };
            let object = |frame: FrameId| self.frames[frame as usize].place.object;
            if object(pair.caller) == object(pair.frame) {
                by_object.entry(object(pair.frame)).or_default().insert(pair);
            }
        }
        let mut objects: Vec<_> = by_object.into_iter().collect();
        objects.sort_unstable_by_key(|(object, _)| *object);
        let proved = |(id, pairs): (ObjectId, FxHashSet<Pair>)| {
            let mut pairs: Vec<Pair> = pairs.into_iter().collect();
            pairs.sort_unstable();
            let object = self.objects.get(id as usize).filter(|object| object.kind == Kind::File);
            object.and_then(|object| self.proved_in_file(id, object, pairs)).unwrap_or_default()
        };
        objects.into_par_iter().flat_map_iter(proved).collect()
    }

    fn proved_in_file(&self, id: ObjectId, object: &Object, pairs: Vec<Pair>) -> Option<Vec<(Pair, Vec<Frame>)>> {
        let loaded = object.opened()?;
        let bytes = loaded.bytes.as_ref()?;
        let mut jumped: Vec<Jumped> = pairs.into_iter().filter_map(|pair| self.jumped(loaded, pair)).collect();
        if jumped.is_empty() {
            return None;
        }
        let debug_files = DebugFiles::new(&self.search_paths.root).fetching(&self.search_paths.fetcher);
        let names = Names::read(Path::new(&object.name), bytes, &debug_files, NAMES);
        let frame = |jump: &TailCall| {
            let address = jump.address.wrapping_sub(u64::from(jump.is_after));
            let shown = loaded.offset_of(address).unwrap_or(address);
            Frame { is_tail_call: true, ..Frame::without_row(id, address, shown) }
        };
        jumped.retain(|one| names.left(one.called, one.reached, NAMES).is_some());
        let calls: Vec<_> = jumped.iter().map(|one| (one.returned, one.reached)).collect();
        let jumps = names.tail_calls(&calls).into_iter();
        let proved = jumped.iter().zip(jumps).filter(|(_, jumps)| !jumps.is_empty());
        let proved = proved.map(|(one, jumps)| (one.pair, jumps.iter().map(frame).collect()));
        Some(proved.collect())
    }

    /// What a call has led to, if it names another function.
    fn jumped(&self, loaded: &Loaded, pair: Pair) -> Option<Jumped> {
        let (caller, frame) = (self.frames[pair.caller as usize], self.frames[pair.frame as usize]);
        let table = frame.table.filter(|_| !frame.is_signal_frame && !caller.is_return && caller.table.is_some())?;
        let returned = caller.place.address.wrapping_add(1);
        let called = called_before(loaded, returned)?;
        let is_reached = loaded.tables.begins_at(table, called) || is_stub(loaded, called);
        (!is_reached).then_some(Jumped { pair, called, returned, reached: frame.place.address })
    }
}

/// Where the call before an address leads, if it is one to a fixed address.
fn called_before(loaded: &Loaded, address: u64) -> Option<u64> {
    let (target, abi) = loaded.machine?;
    match abi.machine {
        EM_X86_64 | EM_386 => {
            let code = loaded.code_at(address.checked_sub(CALL_LENGTH)?)?.get(..CALL_LENGTH as usize)?;
            let distance = i32::from_le_bytes(code[1..].try_into().ok()?);
            (code[0] == CALL).then(|| target.wrap(address.wrapping_add(i64::from(distance) as u64)))
        }
        EM_AARCH64 => {
            let begin = address.checked_sub(WORD)?;
            let word = u32::from_le_bytes(loaded.code_at(begin)?.get(..WORD as usize)?.try_into().ok()?);
            // `bl` has the distance in words, with a sign.
            let distance = i64::from((word << 6) as i32 >> 6) * WORD as i64;
            (word >> 26 == 0b100101).then(|| begin.wrapping_add(distance as u64))
        }
        _ => None,
    }
}

/// Whether the code at an address is that of a procedure linkage table, which leads to a function by a pointer. Some
/// others begin in the same way, and are looked up by name.
fn is_stub(loaded: &Loaded, address: u64) -> bool {
    let code = loaded.code_at(address).unwrap_or(&[]);
    let [jump, marked] = STUBS;
    code.starts_with(jump)
        || code
            .strip_prefix(marked)
            .map_or(false, |code| code.starts_with(jump) || code.get(1..).map_or(false, |code| code.starts_with(jump)))
}
