//! Shows a function's instructions, with its rows and what the code says side by side.

use crate::correct_row::{CorrectRow, Location};
use crate::error::Error;
use crate::finding_text::{RowText, ShownAddress, Sum};
use crate::flow::Flow;
use crate::judge::{Facts, Verdict};
use crate::lint::Lint;
use crate::state::State;
use crate::walk::{Edge, Exit, Here, Visitor};

/// A line of the explanation.
#[derive(Clone, Debug, PartialEq, Eq)]
pub struct Line {
    /// The address of the instruction.
    pub address: u64,
    /// The address as it is shown.
    pub place: String,
    /// The instruction.
    pub instruction: String,
    /// The row there.
    pub row: String,
    /// What the code says.
    pub code: String,
    /// Whether the row is wrong there.
    pub is_wrong: bool,
}

struct Listing(Vec<Line>);

/// Explains the FDE that contains an address.
pub fn explain(lint: &mut Lint<'_>, address: u64) -> Result<Vec<Line>, Error> {
    let mut flow = lint.flow(address)?;
    let mut listing = Listing(Vec::new());
    for leader in flow.reached_leaders() {
        flow.walk_block(leader, &mut listing);
    }
    listing.0.sort_by_key(|line| line.address);
    Ok(listing.0)
}

impl<'m> Visitor<'m> for Listing {
    fn instruction(&mut self, flow: &Flow<'m, '_>, here: Here<'_>) {
        let Here { at, state, .. } = here;
        let (machine, address) = (flow.module.machine, flow.code.address(at));
        let instruction = (machine.text)(flow.module.bytes_at(address), address);
        let (row, code, verdict) = match flow.row(address) {
            Some(row) => {
                let code = code_text(flow, &CorrectRow::of(machine, row, state));
                (RowText(machine, row).to_string(), code, flow.disagreement(row, state, address))
            }
            None => ("no row".to_string(), String::new(), Verdict::default()),
        };
        let code = if state.is_assumed { format!("{} (assumed)", code) } else { code };
        let place = ShownAddress(flow.module, address).to_string();
        self.0.push(Line { address, place, instruction, row, code, is_wrong: verdict.wrong != Facts::NONE });
    }

    fn edge(&mut self, _: &mut Flow<'m, '_>, _: Edge, _: &State) {}

    fn exit(&mut self, _: &mut Flow<'m, '_>, _: u32, _: Exit, _: &State) {}
}

/// What the code says, in the form of a row.
pub(crate) fn code_text(flow: &Flow<'_, '_>, correct_row: &CorrectRow) -> String {
    let machine = flow.module.machine;
    let cfa = correct_row
        .cfa
        .map_or("cfa=?".to_string(), |(register, offset)| format!("cfa={}", Sum(machine, register, offset)));
    let callee_saved = machine.callee_saved.iter().zip(&correct_row.callee_saved);
    let places = callee_saved.filter_map(|(register, location)| match location {
        Some(Location::Register(other)) if other == register => None,
        Some(Location::Register(other)) => Some(format!(" {}={}", machine.name(*register), machine.name(*other))),
        Some(Location::Slot(offset)) => Some(format!(" {}=[c{:+}]", machine.name(*register), offset)),
        None => Some(format!(" {}=?", machine.name(*register))),
    });
    cfa + &places.collect::<String>()
}
