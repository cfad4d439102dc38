//! Follows the flow of control through an FDE's code until nothing new is found: which blocks are reached, and in
//! which states.

use crate::assume::{assumed_state, state_at_entry, unsaved_slots};
use crate::callees::{leads_elsewhere, Callees};
use crate::code::{Code, Lists, USUAL_BYTES};
use crate::error::Error;
use crate::follow::{Follow, Tally};
use crate::instruction::{Effect, Key};
use crate::judge::{why_unjudged, Judge, Said, Verdict};
use crate::module::Module;
use crate::register::Registers;
use crate::rules::{begins_with_padding, has_rows_for_calls, is_only_padding};
use crate::state::State;
use crate::stores::Stores;
use crate::table::{row_at, Cfa, Fde, Row};
use std::cmp::Reverse;
use std::collections::{BTreeMap, BinaryHeap};

/// How often the flow of an FDE is followed at most, each time with more stores known.
const MOST_ROUNDS: usize = 12;

/// How many entries of tables are read at most, and how many more for each byte of the code. A block that
/// jumps by a table is passed a few times, and reads the table each time.
const MOST_ENTRIES: u64 = 200_000;
const ENTRIES_A_BYTE: u64 = 64;

/// For how many blocks there is room after an FDE. Few have more.
const USUAL_BLOCKS: usize = 1000;

/// How many bytes of code an FDE has at most.
const MOST_BYTES: usize = 2 << 20;

/// No block was reached at an offset.
const NONE: u32 = u32::MAX;

/// Memory that is used for one FDE after another.
#[derive(Default)]
pub struct Room {
    /// Blocks, of which each FDE uses the first ones.
    reached: Vec<Reached>,
    /// The state of a walk.
    pub(crate) state: Option<Box<State>>,
    code: Lists,
    blocks: Vec<u32>,
}

/// A block that was reached.
struct Reached {
    /// Where it begins.
    offset: u32,
    /// What is known at its beginning.
    state: State,
    /// Whether only calls that perhaps don't return lead to it.
    is_soft: bool,
    /// The region in which it was reached: 0 from the entry, or the number of the assumption.
    region: u32,
    /// Whether it has to be followed, because its state is new.
    is_waiting: bool,
    /// What was judged of it when it was followed last.
    tally: Tally,
}

/// The flow through an FDE's code.
pub struct Flow<'m, 'c> {
    /// The module.
    pub module: &'m Module<'m>,
    /// What is known of other functions.
    pub callees: &'c mut Callees,
    /// The FDE.
    pub fde: &'m Fde,
    /// Its rows.
    pub rows: Vec<Row<'m>>,
    /// Its code.
    pub code: Code<'m>,
    /// What its rows speak of.
    pub said: Said,
    /// The slots in which its rows say that registers are saved, and nothing is at its entry.
    unsaved: Vec<i64>,
    /// Whether its rows are meant for calls only.
    pub is_for_calls: bool,
    /// What it stores.
    pub stores: Stores,
    /// The addresses of the tables of jumps that it uses, ascending.
    pub tables: Vec<u64>,
    /// How many entries of tables may still be read.
    pub entries_left: u64,
    /// Whether it matters which registers its callees write.
    pub needs_callees: bool,
    pub(crate) room: &'c mut Room,
    /// How many blocks were reached.
    reached_count: usize,
    /// For each offset, the index of the block that was reached there.
    blocks: Vec<u32>,
    /// The blocks that have to be followed, the first one first.
    work: BinaryHeap<Reverse<u32>>,
    region: u32,
    has_new_leader: bool,
    /// Whether the blocks are the same as when they were followed last.
    is_settled: bool,
}

impl Drop for Flow<'_, '_> {
    fn drop(&mut self) {
        self.room.reached.truncate(USUAL_BLOCKS);
        self.room.reached.shrink_to(USUAL_BLOCKS);
        self.room.code = self.code.take_lists();
        self.room.blocks = std::mem::take(&mut self.blocks);
        self.room.blocks.clear();
        self.room.blocks.shrink_to(USUAL_BYTES);
    }
}

/// Whether a row is the one with which a function begins that is called.
pub fn is_entry_row(module: &Module<'_>, row: &Row<'_>) -> bool {
    row.cfa == Cfa::RegisterOffset { register: module.machine.stack_pointer, offset: module.machine.entry_offset }
}

impl<'m, 'c> Flow<'m, 'c> {
    /// Decodes an FDE's code. The reason if it isn't in the file, or its rows can't be read.
    pub fn new(
        module: &'m Module<'m>,
        callees: &'c mut Callees,
        room: &'c mut Room,
        fde: &'m Fde,
    ) -> Result<Self, Error> {
        let bytes = usize::try_from(fde.end - fde.begin).ok().and_then(|size| module.bytes_at(fde.begin).get(..size));
        let bytes = bytes.filter(|bytes| bytes.len() <= MOST_BYTES).ok_or(Error::Code)?;
        let rows = module.rows.rows(fde)?;
        let code = Code::decode(module.machine, fde, bytes, &rows, std::mem::take(&mut room.code));
        let mut blocks = std::mem::take(&mut room.blocks);
        blocks.resize(bytes.len(), NONE);
        let mut flow = Flow {
            module,
            callees,
            fde,
            said: Said::of(module.machine, &rows),
            unsaved: unsaved_slots(module.machine, &rows),
            is_for_calls: has_rows_for_calls(module, &rows),
            rows,
            stores: Stores::new(module.machine),
            tables: Vec::new(),
            entries_left: 0,
            needs_callees: false,
            room,
            reached_count: 0,
            blocks,
            work: BinaryHeap::new(),
            region: 0,
            has_new_leader: false,
            is_settled: false,
            code,
        };
        flow.stores.frame = flow.stores.frame.with(flow.said.frame);
        flow.needs_callees = flow.frame_is_in_changeable_register();
        Ok(flow)
    }

    /// Whether the CFA or the stack pointer is ever computed from a register that callees may change.
    fn frame_is_in_changeable_register(&self) -> bool {
        let (changeable, pointer) = (self.module.machine.changeable, self.module.machine.stack_pointer);
        let in_rows =
            |row: &Row<'_>| matches!(row.cfa, Cfa::RegisterOffset { register, .. } if changeable.contains(register));
        let sets_pointer = |effect: &Effect| match *effect {
            Effect::Move { to, from } | Effect::Add { to, from, .. } => to == pointer && changeable.contains(from),
            Effect::SubtractRegister { to, from, by } => {
                to == pointer && (changeable.contains(from) || by.map_or(false, |by| changeable.contains(by)))
            }
            _ => false,
        };
        self.rows.iter().any(in_rows) || self.code.instructions().iter().any(|found| sets_pointer(&found.effect))
    }

    /// Follows the flow from the entry, from the states that jumps of other FDEs bring, and at last
    /// from rows, for code that nothing reaches.
    pub fn run(&mut self, brought: &BTreeMap<u64, State>) {
        let mut follow = Follow::default();
        for _ in 0..MOST_ROUNDS {
            let leader_count = self.code.leader_count();
            self.stores.restart();
            self.entries_left = MOST_ENTRIES + ENTRIES_A_BYTE * u64::from(self.code.length());
            self.reached_count = 0;
            self.blocks.iter_mut().for_each(|block| *block = NONE);
            self.region = 0;
            self.has_new_leader = false;
            let start = self.start(brought);
            if !begins_with_padding(self, &start) {
                self.follow(&mut follow, 0, &start);
            }
            for (address, state) in brought.range(self.fde.begin..self.fde.end) {
                let offset = (*address - self.fde.begin) as u32;
                if self.state_at(offset).is_none() {
                    self.follow(&mut follow, offset, state);
                }
            }
            self.follow_rows(&mut follow);
            if !self.stores.is_outdated() && !self.has_new_leader {
                self.is_settled = self.code.leader_count() == leader_count;
                return;
            }
        }
    }

    /// The state at the FDE's first address.
    fn start(&self, brought: &BTreeMap<u64, State>) -> State {
        let machine = self.module.machine;
        let is_called = |row| is_entry_row(self.module, row) || self.fde.is_called;
        match (self.rows.first(), brought.get(&self.fde.begin)) {
            (Some(row), _) if is_called(row) => state_at_entry(machine, row, &self.unsaved),
            (_, Some(state)) => state.clone(),
            (Some(row), None) => assumed_state(machine, row, self.fde, 0),
            (None, None) => State::unknown(true),
        }
    }

    fn follow(&mut self, follow: &mut Follow, offset: u32, state: &State) {
        self.reach(offset, state, false);
        while let Some(Reverse(leader)) = self.work.pop() {
            let index = self.blocks[leader as usize] as usize;
            self.room.reached[index].is_waiting = false;
            follow.tally = Tally::default();
            self.walk_block(leader, follow);
            self.room.reached[index].tally = follow.tally;
        }
    }

    /// Takes up each block that isn't reached from its row. What is followed from there never merges
    /// into code that was reached before.
    fn follow_rows(&mut self, follow: &mut Follow) {
        let mut offset = 0;
        while offset < self.code.length() && self.reached_count < self.code.leader_count() {
            let is_open = self.code.is_leader(offset) && self.state_at(offset).is_none();
            if is_open && !matches!(self.code.effect(offset), Effect::Invalid) {
                if let Some(after) = is_only_padding(&self.code, offset) {
                    self.lead_after_padding(after);
                    offset = after;
                    continue;
                }
                self.assume(follow, offset);
            }
            offset = self.code.next_certain(offset);
            if offset < self.code.length() && self.code.get(offset).is_none() {
                self.code.lead(offset);
            }
        }
    }

    fn lead_after_padding(&mut self, offset: u32) {
        if offset < self.code.length() {
            self.code.lead(offset);
        }
    }

    fn assume(&mut self, follow: &mut Follow, offset: u32) {
        if let Some(row) = row_at(&self.rows, self.code.address(offset)) {
            self.region += 1;
            let state = assumed_state(self.module.machine, &self.rows[row], self.fde, offset);
            self.follow(follow, offset, &state);
        }
    }

    /// Merges a state into the block at an offset.
    pub(crate) fn reach(&mut self, offset: u32, state: &State, is_soft: bool) {
        self.has_new_leader |= self.code.lead(offset);
        let index = self.blocks[offset as usize];
        if index == NONE {
            self.blocks[offset as usize] = self.reached_count as u32;
            self.add_reached(offset, state, is_soft);
            self.work.push(Reverse(offset));
            return;
        }
        let (pointer, frame) = (self.module.machine.stack_pointer, self.module.machine.frame_pointer);
        let block = &mut self.room.reached[index as usize];
        if block.region != self.region {
            return;
        }
        let differs = |register| block.state.get(register).contradicts(state.get(register));
        match (differs(pointer) || differs(frame), is_soft, block.is_soft) {
            // Rule "soft edges": the call before it perhaps doesn't return.
            (true, true, false) => return,
            (true, false, true) => {
                block.state.clone_from(state);
                block.is_soft = false;
                return self.follow_again(index, offset);
            }
            _ => {}
        }
        block.is_soft &= is_soft;
        if block.state.merge(state, offset) {
            self.follow_again(index, offset);
        }
    }

    fn add_reached(&mut self, offset: u32, state: &State, is_soft: bool) {
        let region = self.region;
        match self.room.reached.get_mut(self.reached_count) {
            Some(block) => {
                block.state.clone_from(state);
                (block.offset, block.is_soft, block.region, block.is_waiting) = (offset, is_soft, region, true);
            }
            None => {
                let (state, tally) = (state.clone(), Tally::default());
                self.room.reached.push(Reached { offset, state, is_soft, region, is_waiting: true, tally });
            }
        }
        self.reached_count += 1;
    }

    fn follow_again(&mut self, index: u32, offset: u32) {
        if !std::mem::replace(&mut self.room.reached[index as usize].is_waiting, true) {
            self.work.push(Reverse(offset));
        }
    }

    /// The blocks that were reached, in the order in which they were.
    fn reached(&self) -> &[Reached] {
        &self.room.reached[..self.reached_count]
    }

    fn reached_at(&self, offset: u32) -> Option<&Reached> {
        self.reached().get(*self.blocks.get(offset as usize)? as usize)
    }

    /// What is known at the beginning of a block, if it was reached.
    pub fn state_at(&self, offset: u32) -> Option<&State> {
        self.reached_at(offset).map(|block| &block.state)
    }

    /// Whether two blocks were reached in the same region.
    pub fn is_same_region(&self, one: u32, other: u32) -> bool {
        let region = |offset: u32| self.reached_at(offset).map(|block| block.region);
        region(one) == region(other)
    }

    /// How many regions were taken up from their rows.
    pub fn assumptions(&self) -> u32 {
        self.region
    }

    /// The blocks that were reached, ascending.
    pub fn reached_leaders(&self) -> Vec<u32> {
        let mut leaders: Vec<u32> = self.reached().iter().map(|block| block.offset).collect();
        leaders.sort_unstable();
        leaders
    }

    /// The blocks that have to be judged, ascending.
    pub fn open_leaders(&self) -> Vec<u32> {
        let is_open = |block: &&Reached| !self.is_settled || block.tally.is_open;
        let mut leaders: Vec<u32> = self.reached().iter().filter(is_open).map(|block| block.offset).collect();
        leaders.sort_unstable();
        leaders
    }

    /// What was judged of the other blocks while the flow was followed.
    pub fn tallies(&self) -> impl Iterator<Item = &Tally> {
        let all = self.reached().iter().map(|block| &block.tally);
        all.filter(|tally| self.is_settled && !tally.is_open)
    }

    /// The row of an address of the FDE.
    pub fn row(&self, address: u64) -> Option<&Row<'m>> {
        row_at(&self.rows, address).map(|index| &self.rows[index])
    }

    /// Compares a row with a state.
    pub fn verdict(&self, row: &Row<'_>, state: &State, address: u64) -> Verdict {
        self.verdict_as(row, state, address, self.is_signed(address))
    }

    /// The same, for a row that says itself whether the return address is signed.
    pub fn verdict_as(&self, row: &Row<'_>, state: &State, address: u64, is_signed: bool) -> Verdict {
        let (machine, convention, key) = (self.module.machine, self.module.convention, self.key(address));
        Judge { machine, convention, state, stores: &self.stores, said: self.said, is_signed, key }
            .verdict(row, address)
    }

    /// Whether the return address is signed at an address of this FDE or of another, as they say.
    pub fn is_signed(&self, address: u64) -> bool {
        match self.fde.contains(address) {
            true => self.fde.is_signed(address),
            false => self.module.is_signed(address),
        }
    }

    /// With which key it is signed there, as the FDE of the address says.
    fn key(&self, address: u64) -> Option<Key> {
        match self.fde.contains(address) {
            true => self.fde.key,
            false => self.module.key(address),
        }
    }

    /// What a row that is judged says wrongly of a state. Empty if the row isn't judged.
    pub fn disagreement(&self, row: &Row<'_>, state: &State, address: u64) -> Verdict {
        match why_unjudged(self.module.machine, row) {
            Some(_) => Verdict::default(),
            None => self.verdict(row, state, address),
        }
    }

    /// Whether a call of the code at an address is one of a function of another module, as far as it matters.
    pub fn is_elsewhere(&self, address: u64) -> bool {
        self.module.stands_for_import(address) || self.needs_callees && leads_elsewhere(self.module, address)
    }

    /// The registers that a call of the code at an address may change.
    pub fn changed_by(&mut self, address: u64) -> Registers {
        match self.needs_callees {
            true => self.callees.written(self.module, address),
            false => self.module.machine.changeable,
        }
    }
}
