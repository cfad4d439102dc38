//! Writes stacks as text.

use super::{FoundBy, Frame, Position, SourceLine, Stack, Stop};
use crate::cfi::text::{Address, Escaped};
use dwcheck_types::target::Target;
use std::fmt;

/// Why a stack has no more frames, in words.
pub(super) struct Why(pub Target, pub Stop);

impl fmt::Display for Why {
    fn fmt(&self, f: &mut fmt::Formatter<'_>) -> fmt::Result {
        match self.1 {
            Stop::Limit => f.write_str("limit"),
            Stop::NotCovered => f.write_str("not covered"),
            Stop::ReturnUndefined => f.write_str("return undefined"),
            Stop::ReturnUnreadable => f.write_str("return unreadable"),
            Stop::ReturnDivisionByZero => f.write_str("return division by zero"),
            Stop::NotExecutable(address) => write!(f, "return address {} isn't code", Address(self.0, address)),
            Stop::NotKnown(address) => {
                write!(f, "return address {} is in no module, and may be code", Address(self.0, address))
            }
            Stop::CfaNotGrowing => f.write_str("CFA doesn't grow"),
            Stop::Loop => f.write_str("loop"),
        }
    }
}

impl fmt::Display for SourceLine {
    fn fmt(&self, f: &mut fmt::Formatter<'_>) -> fmt::Result {
        write!(f, "{}", Escaped(&self.file))?;
        self.line.map_or(Ok(()), |line| write!(f, ":{}", line))
    }
}

impl fmt::Display for Stack<'_, '_> {
    fn fmt(&self, f: &mut fmt::Formatter<'_>) -> fmt::Result {
        write!(f, "thread {}:\n{}", self.thread, self.lines())
    }
}

/// The lines of a stack's frames, and the line that says why there are no more.
#[derive(Debug)]
pub struct Lines<'t, 's, 'a>(&'t Stack<'s, 'a>);

impl fmt::Display for Lines<'_, '_, '_> {
    fn fmt(&self, f: &mut fmt::Formatter<'_>) -> fmt::Result {
        self.0.write_frames(f)
    }
}

impl<'s, 'a> Stack<'s, 'a> {
    /// The text without the line of the thread.
    pub fn lines(&self) -> Lines<'_, 's, 'a> {
        Lines(self)
    }

    /// Writes a line for each frame, for each inlined function and for each place where frames are missing, and the
    /// line that says why there are no more frames.
    fn write_frames(&self, f: &mut fmt::Formatter<'_>) -> fmt::Result {
        for (index, frame) in self.frames.iter().enumerate() {
            let left_out = self.left_out.filter(|left_out| left_out.after == index);
            left_out.map_or(Ok(()), |left_out| writeln!(f, "{} frames left out", left_out.count))?;
            self.write_frame(f, index, frame)?;
            self.tail_call(index).map_or(Ok(()), |from| writeln!(f, "tail call from {}", from))?;
        }
        writeln!(f, "stop: {}", Why(self.stacks.core.target(), self.stop))
    }

    fn write_frame(&self, f: &mut fmt::Formatter<'_>, index: usize, frame: &Frame) -> fmt::Result {
        let Position { module, address_in_module, function, offset, source, inlined, .. } = self.stacks.position(frame);
        let address = Address(self.stacks.core.target(), frame.address);
        let shown = address_in_module.filter(|_| self.stacks.shows_modules);
        let shown = shown.map_or_else(String::new, |address| format!("+{:#x}", address));
        let module = module.map(|path| format!("{}{}", Escaped(&path.to_string_lossy()), shown));
        let (mut functions, number) = (self.functions(index), self.number(index));
        for one in inlined {
            let name = if one.name.is_empty() { "?" } else { &one.name };
            write!(f, "#{} {} {} inlined", number, address, name)?;
            write_file_and_line(f, &module, &one.source)?;
            writeln!(f)?;
            functions.pop().map_or(Ok(()), |function| write!(f, "{}", function.lines()))?;
        }
        write!(f, "#{} {}", number, address)?;
        if let Some(function) = function {
            write!(f, " {}", function)?;
        }
        match offset {
            Some(offset) if offset > 0 => write!(f, "+{:#x}", offset)?,
            _ => {}
        }
        write_file_and_line(f, &module, &source)?;
        if frame.found_by.is_guess() {
            write!(f, " guess: {}", frame.found_by)?;
        }
        if frame.found_by == FoundBy::TailCall {
            write!(f, " {}", frame.found_by)?;
        }
        writeln!(f)?;
        self.write_registers(f, frame)?;
        functions.iter().rev().try_for_each(|function| write!(f, "{}", function.lines()))
    }

    /// Writes the registers of a frame, four on each line.
    fn write_registers(&self, f: &mut fmt::Formatter<'_>, frame: &Frame) -> fmt::Result {
        let (target, abi) = (self.stacks.core.target(), self.stacks.core.abi());
        let shown = if self.stacks.shows_registers { frame.registers.as_slice() } else { &[] };
        for some in shown.chunks(4) {
            f.write_str("   ")?;
            for (number, value) in some {
                write!(f, " {}={}", abi.register_name(*number), Address(target, *value))?;
            }
            writeln!(f)?;
        }
        Ok(())
    }
}

/// Writes the file and the line of a frame.
fn write_file_and_line(
    f: &mut fmt::Formatter<'_>,
    module: &Option<String>,
    source: &Option<SourceLine>,
) -> fmt::Result {
    if let Some(module) = module {
        write!(f, " ({})", module)?;
    }
    source.as_ref().map_or(Ok(()), |source| write!(f, " at {}", source))
}
