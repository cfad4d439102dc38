//! Gives the lint the rows of an SFrame section.

use super::key_of;
use crate::cfi::row::{Cfa, Rule};
use crate::cfi::sframe::{Function, Sframe, SframeRow};
use dwcheck_lint::error::Error;
use dwcheck_lint::machine::Machine;
use dwcheck_lint::table::{self, Fde, Row, Rows};
use std::ops::Range;

/// The rows of all functions of a section, ascending.
pub(super) struct SframeRows {
    machine: &'static Machine,
    functions: Vec<FunctionRows>,
}

/// The rows of a function, or of its first block.
struct FunctionRows {
    function: Function,
    rows: Vec<SframeRow>,
}

impl SframeRows {
    pub fn of(sframe: &Sframe<'_>, machine: &'static Machine) -> Self {
        let rows = |function: &Function| {
            let rows = sframe.rows(function).collect();
            FunctionRows { function: function.clone(), rows }
        };
        SframeRows { machine, functions: sframe.by_address().map(rows).collect() }
    }

    /// The functions, as FDEs. What only frame sections say, such as landing pads, is taken from the FDE of a function
    /// with the same first address.
    pub fn fdes(&self, others: &[Fde]) -> Vec<Fde> {
        let fde = |one: &FunctionRows| {
            let Range { start: begin, end } = one.function.addresses();
            let same = others.binary_search_by_key(&begin, |fde| fde.begin).ok().and_then(|place| others.get(place));
            let signed = one.rows.iter().filter(|row| row.is_signed).map(|row| row.row.begin..row.row.end).collect();
            let (is_signal, key) = (one.function.is_signal_frame, Some(key_of(one.function.is_key_b)));
            Fde { begin, end, is_signal, signed, key, ..same.cloned().unwrap_or_default() }
        };
        self.functions.iter().map(fde).collect()
    }

    fn at(&self, address: u64) -> Option<&FunctionRows> {
        let after = self.functions.partition_point(|one| one.function.begin <= address);
        let before = self.functions.get(after.checked_sub(1)?)?;
        Some(before).filter(|one| one.function.addresses().contains(&address))
    }

    /// A row as the lint takes it, `distance` bytes further on. SFrame says nothing of other registers than the frame
    /// pointer, so the lint isn't asked about these.
    fn row_of<'r>(&self, found: &'r SframeRow, distance: u64) -> Row<'r> {
        let register = self.machine.register;
        let cfa = match &found.row.cfa {
            Cfa::RegisterOffset { register: number, offset } => {
                table::Cfa::RegisterOffset { register: register(*number), offset: *offset }
            }
            Cfa::Expression(bytes) => table::Cfa::Expression(bytes),
        };
        let rule = |rule: &'r Rule<'static>| match rule {
            Rule::SameValue => table::Rule::SameValue,
            Rule::Offset(offset) => table::Rule::Offset(*offset),
            Rule::ValOffset(offset) => table::Rule::ValOffset(*offset),
            Rule::Register(other) => table::Rule::Register(register(*other)),
            Rule::Expression(bytes) => table::Rule::Expression(bytes),
            Rule::ValExpression(bytes) => table::Rule::ValExpression(bytes),
            Rule::Undefined | Rule::Architectural => table::Rule::Undefined,
        };
        let mut rules: Vec<_> = found.row.rules.iter().map(|(number, one)| (register(*number), rule(one))).collect();
        let pointer = self.machine.frame_pointer;
        let silent = self.machine.callee_saved.iter().filter(|register| **register != pointer);
        rules.extend(silent.map(|register| (*register, table::Rule::Undefined)));
        rules.sort_by_key(|(register, _)| register.0);
        Row { begin: found.row.begin + distance, end: found.row.end + distance, cfa, rules }
    }
}

impl FunctionRows {
    /// The row of an address, and how far it is from that of the first block.
    fn row(&self, address: u64) -> Option<(&SframeRow, u64)> {
        let (block, _) = self.function.block_at(address);
        let distance = block - self.function.begin;
        let after = self.rows.partition_point(|row| row.row.begin + distance <= address);
        Some((self.rows.get(after.checked_sub(1)?)?, distance))
    }
}

impl Rows for SframeRows {
    /// The lint asks only for the rows of code that is in the file, and not too long.
    fn rows(&self, fde: &Fde) -> Result<Vec<Row<'_>>, Error> {
        let one = self.at(fde.begin).ok_or(Error::NoRow(fde.begin))?;
        let (mut rows, mut next) = (Vec::new(), fde.begin);
        while next < fde.end {
            let (found, distance) = one.row(next).ok_or(Error::NoRow(next))?;
            let mut row = self.row_of(found, distance);
            row.end = row.end.min(fde.end);
            if row.end <= next {
                return Err(Error::NoRow(next));
            }
            next = row.end;
            rows.push(row);
        }
        Ok(rows)
    }

    fn row(&self, address: u64) -> Option<Row<'_>> {
        let (found, distance) = self.at(address)?.row(address)?;
        Some(self.row_of(found, distance))
    }
}
