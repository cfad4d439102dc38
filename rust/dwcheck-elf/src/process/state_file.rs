//! Reads state files, which have the registers and the memory of a stopped thread, one item on each
//! line.
//!
//! The program `dwcheck` reads the same files. Their lines are `reg N 0xV`, `mem 0xA HEX`, `cfa
//! 0xV`, `frame 0xV`, `object 0xV`, `keep N` and `sp N`. docs/OUTPUT.md says what each line means.

use dwcheck::{Abi, Block, Context, Registers, State};
use dwcheck_types::target::Target;

/// The most callee-saved registers that a state file may name.
const MOST_KEPT: usize = 127;

/// The contents of a state file.
///
/// ```
/// use dwcheck_elf::state_file::StateFile;
/// use dwcheck_elf::target::{AddressSize, Order, Target};
///
/// let target = Target { order: Order::Little, address_size: AddressSize::Eight };
/// let file = StateFile::parse(b"keep 6\nsp 7\nreg 7 0x7f00\nmem 0x7f00 0100\n", target).unwrap();
/// assert_eq!(file.registers.get(7), Some(0x7f00));
/// assert_eq!((file.kept, file.stack_pointer), (vec![6], Some(7)));
/// assert_eq!(StateFile::parse(b"reg 7 0x0\n\nreg x\n", target).unwrap_err(), 3);
/// ```
#[derive(Clone, Debug, Default)]
pub struct StateFile {
    /// The values of the registers, by DWARF register number.
    pub registers: Registers,
    /// Parts of memory, each with its first address and its bytes. If an address is in two parts,
    /// the byte of the earlier part counts.
    pub memory: Vec<(u64, Vec<u8>)>,
    /// The CFA, the frame base and the object's address, each if the file has it.
    pub context: Context,
    /// The callee-saved registers, by DWARF register number.
    pub kept: Vec<u16>,
    /// The DWARF register number of the stack pointer, if the file has it.
    pub stack_pointer: Option<u16>,
}

impl StateFile {
    /// Reads a state file.
    ///
    /// # Errors
    ///
    /// The number of the first bad line, counted from 1.
    pub fn parse(text: &[u8], target: Target) -> Result<Self, u64> {
        let mut file = StateFile::default();
        let text = text.strip_suffix(b"\n").unwrap_or(text);
        for (line, number) in text.split(|byte| *byte == b'\n').zip(1u64..) {
            file.line(line, target).ok_or(number)?;
        }
        Ok(file)
    }

    /// The memory, as `dwcheck` takes it.
    pub fn blocks(&self) -> Vec<Block<'_>> {
        self.memory.iter().map(|(address, bytes)| Block::new(*address, bytes)).collect()
    }

    /// The registers, the memory and the ABI, as `dwcheck` takes them. `blocks` has to come from
    /// [`blocks`](Self::blocks).
    pub fn state<'a>(&'a self, blocks: &'a [Block<'a>]) -> State<'a> {
        let abi = Abi::new(&self.kept, self.stack_pointer);
        State { registers: &self.registers, memory: blocks, abi }
    }

    /// Adds what a line says. `None` if the line is bad.
    fn line(&mut self, line: &[u8], target: Target) -> Option<()> {
        if line.is_empty() {
            return Some(());
        }
        let words: Vec<_> = std::str::from_utf8(line).ok()?.split(' ').collect();
        match *words.as_slice() {
            ["reg", register, value] => {
                let (register, value) = (parse_short_number(register)?, parse_address(value, target)?);
                if self.registers.get(register).is_none() {
                    self.registers.set(register, value);
                }
            }
            ["mem", start, bytes] => self.add_memory(parse_address(start, target)?, bytes, target)?,
            ["cfa", value] => set_once(&mut self.context.cfa, parse_address(value, target)?),
            ["frame", value] => set_once(&mut self.context.frame_base, parse_address(value, target)?),
            ["object", value] => set_once(&mut self.context.object, parse_address(value, target)?),
            ["keep", register] => self.keep(parse_short_number(register)?)?,
            ["sp", register] => self.stack(parse_short_number(register)?)?,
            _ => return None,
        }
        Some(())
    }

    fn add_memory(&mut self, start: u64, hex: &str, target: Target) -> Option<()> {
        let digits: Option<Vec<u8>> = hex.chars().map(|digit| Some(digit.to_digit(16)? as u8)).collect();
        let digits = digits.filter(|digits| !digits.is_empty() && digits.len() % 2 == 0)?;
        let bytes: Vec<u8> = digits.chunks_exact(2).map(|pair| pair[0] << 4 | pair[1]).collect();
        let last = start.checked_add(bytes.len() as u64 - 1)?;
        if last > target.address_size.highest() {
            return None;
        }
        self.memory.push((start, bytes));
        Some(())
    }

    fn keep(&mut self, register: u16) -> Option<()> {
        if self.kept.contains(&register) {
            return Some(());
        }
        if self.kept.len() == MOST_KEPT || self.stack_pointer == Some(register) {
            return None;
        }
        self.kept.push(register);
        Some(())
    }

    fn stack(&mut self, register: u16) -> Option<()> {
        if self.stack_pointer.is_some() {
            return Some(());
        }
        if self.kept.contains(&register) {
            return None;
        }
        self.stack_pointer = Some(register);
        Some(())
    }
}

/// Sets a value, unless an earlier line has set it.
fn set_once(held: &mut Option<u64>, value: u64) {
    *held = held.or(Some(value));
}

/// Reads a number of 1 to 5 decimal digits, at most 65535. `None` if the text isn't such a number.
pub fn parse_short_number(text: &str) -> Option<u16> {
    let plain = (1..=5).contains(&text.len()) && text.bytes().all(|byte| byte.is_ascii_digit());
    text.parse().ok().filter(|_| plain)
}

/// Reads an address: `0x` and 1 to 16 hexadecimal digits, at most the target's highest address.
/// `None` if the text isn't such an address.
pub fn parse_address(text: &str, target: Target) -> Option<u64> {
    let digits = text.strip_prefix("0x").filter(|digits| (1..=16).contains(&digits.len()))?;
    let plain = digits.bytes().all(|byte| byte.is_ascii_hexdigit());
    let number = u64::from_str_radix(digits, 16).ok().filter(|_| plain)?;
    Some(number).filter(|number| *number <= target.address_size.highest())
}
