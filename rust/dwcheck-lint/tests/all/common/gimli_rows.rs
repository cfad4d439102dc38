//! The rows of programs, as gimli reads them.

use dwcheck_lint::error::Error;
use dwcheck_lint::instruction::Key;
use dwcheck_lint::landings::landings;
use dwcheck_lint::machine::Machine;
use dwcheck_lint::module::{Convention, Module, Segment};
use dwcheck_lint::table::{Cfa, Fde, Row, Rows, Rule};
use gimli::{
    BaseAddresses, CallFrameInstruction, CfaRule, CieOrFde, EhFrame, EndianSlice, LittleEndian, Pointer, RegisterRule,
    UnwindContext, UnwindSection,
};
use object::read::{Object, ObjectSection, ObjectSegment, ObjectSymbol, ObjectSymbolTable, RelocationTarget};
use std::cell::RefCell;
use std::collections::HashMap;
use std::ops::Range;

type Bytes<'a> = EndianSlice<'a, LittleEndian>;
type Header<'a> = gimli::FrameDescriptionEntry<Bytes<'a>>;

/// The rows of `.eh_frame`, as gimli reads them.
struct GimliRows<'a> {
    machine: &'static Machine,
    section: EhFrame<Bytes<'a>>,
    bases: BaseAddresses,
    headers: Vec<Header<'a>>,
    context: RefCell<UnwindContext<Bytes<'a>>>,
}

impl<'a> GimliRows<'a> {
    fn header(&self, address: u64) -> Option<&Header<'a>> {
        let index = self.headers.partition_point(|header| header.initial_address() <= address).checked_sub(1)?;
        self.headers.get(index).filter(|header| header.contains(address))
    }

    fn all(&self, header: &Header<'a>) -> Result<Vec<Row<'a>>, Error> {
        let mut context = self.context.borrow_mut();
        let failed = |error: gimli::Error| Error::Rows(error.into());
        let mut table = header.rows(&self.section, &self.bases, &mut context).map_err(failed)?;
        let mut rows = Vec::new();
        while let Some(row) = table.next_row().map_err(failed)? {
            let numbered = |register: gimli::Register| (self.machine.register)(register.0);
            let rule =
                |(register, rule): &(gimli::Register, RegisterRule<Bytes<'a>>)| (numbered(*register), self.rule(rule));
            let mut rules: Vec<_> = row.registers().map(rule).collect();
            // gimli leaves out rules that say that a register is undefined, such as the return address of
            // the outermost frame.
            let address = self.machine.return_address;
            let has_rule = rules.iter().any(|(register, _)| *register == address);
            if !has_rule && (self.machine.return_slot.is_some() || ends_the_stack(header, &self.section, &self.bases)) {
                rules.push((address, Rule::Undefined));
            }
            rules.sort_by_key(|(register, _)| *register);
            let cfa = match row.cfa() {
                CfaRule::RegisterAndOffset { register, offset } => {
                    Cfa::RegisterOffset { register: numbered(*register), offset: *offset }
                }
                CfaRule::Expression(expression) => Cfa::Expression(expression.0.slice()),
            };
            rows.push(Row { begin: row.start_address(), end: row.end_address(), cfa, rules });
        }
        rows.retain(|row| row.begin < row.end);
        Ok(rows)
    }

    fn rule(&self, rule: &RegisterRule<Bytes<'a>>) -> Rule<'a> {
        match rule {
            RegisterRule::Undefined => Rule::Undefined,
            RegisterRule::SameValue => Rule::SameValue,
            RegisterRule::Offset(offset) => Rule::Offset(*offset),
            RegisterRule::ValOffset(offset) => Rule::ValOffset(*offset),
            RegisterRule::Register(register) => Rule::Register((self.machine.register)(register.0)),
            RegisterRule::Expression(expression) => Rule::Expression(expression.0.slice()),
            RegisterRule::ValExpression(expression) => Rule::ValExpression(expression.0.slice()),
            RegisterRule::Architectural => Rule::Architectural,
        }
    }
}

/// Whether an FDE says that there is no return address.
fn ends_the_stack<'a>(header: &Header<'a>, section: &EhFrame<Bytes<'a>>, bases: &BaseAddresses) -> bool {
    let mut instructions = header.instructions(section, bases);
    while let Ok(Some(instruction)) = instructions.next() {
        let return_address = header.cie().return_address_register();
        if matches!(instruction, CallFrameInstruction::Undefined { register } if register == return_address) {
            return true;
        }
    }
    false
}

impl<'a> Rows for GimliRows<'a> {
    fn rows(&self, fde: &Fde) -> Result<Vec<Row<'_>>, Error> {
        self.all(self.header(fde.begin).ok_or(Error::NoFde)?)
    }

    fn row(&self, address: u64) -> Option<Row<'_>> {
        let rows = self.all(self.header(address)?).ok()?;
        rows.into_iter().find(|row| (row.begin..row.end).contains(&address))
    }
}

/// From which address on how many bytes of arguments are on the stack.
fn argument_bytes<'a>(header: &Header<'a>, section: &EhFrame<Bytes<'a>>, bases: &BaseAddresses) -> Vec<(u64, u64)> {
    let mut found = Vec::new();
    let (mut instructions, mut address) = (header.instructions(section, bases), header.initial_address());
    while let Ok(Some(instruction)) = instructions.next() {
        match instruction {
            CallFrameInstruction::AdvanceLoc { delta } => {
                address += u64::from(delta) * header.cie().code_alignment_factor();
            }
            CallFrameInstruction::ArgsSize { size: NEGATE | KEY_B } => {}
            CallFrameInstruction::ArgsSize { size } => found.push((address, size)),
            _ => {}
        }
    }
    found
}

/// What assembly for tests has in place of `DW_CFA_AARCH64_negate_ra_state`, which gimli can't read: a number of
/// bytes of arguments that no code has.
pub const NEGATE: u64 = 125;

/// The same in place of the letter B of an augmentation, in the FDE.
const KEY_B: u64 = 124;

/// A program with `.cfi_negate_ra_state`, which gcc writes by the name that sparc has for it, and `.cfi_b_key_frame`, as
/// gimli can read it.
pub fn readable(text: &str) -> String {
    let escape = |number| format!(".cfi_escape 0x2e, {}", number);
    let readable = text.replace(".cfi_negate_ra_state", &escape(NEGATE)).replace(".cfi_window_save", &escape(NEGATE));
    readable.replace(".cfi_b_key_frame", &escape(KEY_B))
}

/// With which key an FDE says that return addresses are signed.
fn key<'a>(header: &Header<'a>, section: &EhFrame<Bytes<'a>>, bases: &BaseAddresses) -> Key {
    let mut instructions = header.instructions(section, bases);
    while let Ok(Some(instruction)) = instructions.next() {
        if matches!(instruction, CallFrameInstruction::ArgsSize { size: KEY_B }) {
            return Key::B;
        }
    }
    Key::A
}

/// At which addresses the return address is signed.
fn signed<'a>(header: &Header<'a>, section: &EhFrame<Bytes<'a>>, bases: &BaseAddresses) -> Vec<Range<u64>> {
    let (mut found, mut remembered) = (Vec::new(), Vec::new());
    let (mut instructions, mut address) = (header.instructions(section, bases), header.initial_address());
    let mut since = None;
    while let Ok(Some(instruction)) = instructions.next() {
        let now = match instruction {
            CallFrameInstruction::AdvanceLoc { delta } => {
                address += u64::from(delta) * header.cie().code_alignment_factor();
                continue;
            }
            CallFrameInstruction::RememberState => {
                remembered.push(since.is_some());
                continue;
            }
            CallFrameInstruction::RestoreState => remembered.pop().unwrap(),
            CallFrameInstruction::ArgsSize { size: NEGATE } => since.is_none(),
            _ => continue,
        };
        found.extend(since.filter(|_| !now).map(|since| since..address));
        since = since.or(Some(address)).filter(|_| now);
    }
    found.extend(since.map(|since| since..header.initial_address() + header.len()));
    found.retain(|range: &Range<u64>| range.start < range.end);
    found
}

/// The FDEs of `.eh_frame`, ascending, each address once.
fn headers<'a>(section: &EhFrame<Bytes<'a>>, bases: &BaseAddresses) -> Vec<Header<'a>> {
    let mut entries = section.entries(bases);
    let mut headers = Vec::new();
    while let Ok(Some(entry)) = entries.next() {
        if let CieOrFde::Fde(partial) = entry {
            headers.extend(partial.parse(EhFrame::cie_from_offset));
        }
    }
    headers.retain(|header| header.initial_address() != 0 && header.len() != 0);
    headers.sort_by_key(|header| header.initial_address());
    headers.dedup_by_key(|header| header.initial_address());
    headers
}

/// The names of functions of other modules, by the addresses of the pointers to them.
fn imports<'a>(file: &object::File<'a>) -> HashMap<u64, &'a str> {
    let symbols = file.dynamic_symbol_table();
    let relocations = file.dynamic_relocations().into_iter().flatten();
    let named = relocations.filter_map(|(address, relocation)| match relocation.target() {
        RelocationTarget::Symbol(index) => Some((address, symbols.as_ref()?.symbol_by_index(index).ok()?.name().ok()?)),
        _ => None,
    });
    named.collect()
}

/// The module in an ELF file. Only `.eh_frame` is read.
pub fn module(data: &[u8]) -> Module<'_> {
    let file = object::File::parse(data).unwrap();
    let machine = Machine::numbered(u16::from_le_bytes([data[18], data[19]])).unwrap();
    let mut segments: Vec<_> = file
        .segments()
        .map(|segment| Segment { address: segment.address(), bytes: segment.data().unwrap(), is_executable: true })
        .collect();
    segments.sort_by_key(|segment| segment.address);
    let section = file.section_by_name(".eh_frame").unwrap();
    let bases = BaseAddresses::default().set_eh_frame(section.address());
    let mut frames = EhFrame::new(section.data().unwrap(), LittleEndian);
    frames.set_address_size(machine.address_bytes);
    let headers = headers(&frames, &bases);
    let area = |address: u64| {
        let segment = segments.iter().rev().find(|segment| segment.address <= address).unwrap();
        segment.bytes.get((address - segment.address) as usize..).unwrap_or(&[])
    };
    let fde = |header: &Header<'_>| {
        let begin = header.initial_address();
        let landings = match header.lsda() {
            Some(Pointer::Direct(address)) => landings(area(address), begin, machine.address_bytes),
            _ => Vec::new(),
        };
        let argument_bytes = argument_bytes(header, &frames, &bases);
        let (end, is_signal) = (begin + header.len(), header.is_signal_trampoline());
        let (signed, key) = (signed(header, &frames, &bases), Some(key(header, &frames, &bases)));
        Fde { begin, end, is_signal, is_called: false, landings, argument_bytes, signed, key }
    };
    let fdes = headers.iter().map(fde).collect();
    let rows = GimliRows { machine, section: frames, bases, headers, context: RefCell::default() };
    Module {
        machine,
        segments,
        sections: Vec::new(),
        fdes,
        imports: imports(&file),
        convention: Convention::KeepsRegisters,
        rows: Box::new(rows),
        table: None,
    }
}
