//! Writes the stacks of all threads, as text or as JSON.

use crate::arguments::StackArguments;
use crate::crash::Crash;
use crate::end::Failure;
use dwcheck_elf::core_file::{Annotation, CoreFile, Signal, Thread};
use dwcheck_elf::stack::{Instruction, Listed, Stack, Stacks, Stop, WalkOptions};
use dwcheck_elf::text::{Address, Escaped};
use serde_json::{json, Value};
use std::collections::HashMap;
use std::io::{self, Write};
use std::time::Duration;

/// The stacks of a process, and what of them is to be written.
pub struct Report<'r, 'a> {
    pub arguments: &'r StackArguments,
    pub core: &'r CoreFile<'r>,
    pub stacks: &'r Stacks<'a>,
    /// For a process that runs: the longest time for which a thread was stopped.
    pub longest_stop: Option<Duration>,
    /// For a process that the kernel holds: what is known of it.
    pub crash: Option<&'r Crash>,
    /// The thread whose stack overflowed.
    pub overflowed: Option<u32>,
}

/// How many of the outermost frames of a stack that overflowed are shown.
const OUTERMOST: usize = 10;

/// The stack of one thread, or of several threads that have the same one.
struct Group<'r, 'a> {
    threads: Vec<&'r Thread>,
    stack: Stack<'r, 'a>,
}

impl<'r, 'a> Report<'r, 'a> {
    /// Writes everything. Appends what isn't used to `warnings`, which a document of JSON has too.
    pub fn write(&self, out: &mut dyn Write, warnings: &mut Vec<String>) -> Result<(), Failure> {
        self.write_head(out)?;
        if self.arguments.group {
            for (number, group) in self.groups()?.iter().enumerate() {
                self.write_group(out, number, group)?;
            }
        } else {
            for (number, thread) in self.threads()?.into_iter().enumerate() {
                let stack = self.walk(thread)?;
                self.write_group(out, number, &Group { threads: vec![thread], stack })?;
            }
        }
        let missing = self.stacks.missing();
        warnings
            .splice(..0, missing.iter().map(|(path, why)| format!("{}: {}", Escaped(&path.to_string_lossy()), why)));
        let modules = self.stacks.modules();
        if self.arguments.json {
            let modules: Vec<_> = modules.iter().map(Listed::json).collect();
            write!(out, "],\"modules\":{},", Value::from(modules))?;
            writeln!(out, "\"warnings\":{}}}", Value::from(warnings.clone()))?;
        } else if self.arguments.modules {
            modules.iter().try_for_each(|module| writeln!(out, "{}", module))?;
        }
        Ok(())
    }

    /// The threads that are to be shown.
    fn threads(&self) -> Result<Vec<&'r Thread>, Failure> {
        let all = self.core.threads();
        let tids = &self.arguments.tid;
        match tids.iter().find(|tid| !all.iter().any(|thread| thread.id == **tid)) {
            Some(tid) => Err(Failure::Argument(format!("there is no thread {}", tid))),
            None => Ok(all.iter().filter(|thread| tids.is_empty() || tids.contains(&thread.id)).collect()),
        }
    }

    fn walk(&self, thread: &Thread) -> Result<Stack<'r, 'a>, Failure> {
        let options = WalkOptions {
            limit: self.arguments.limit,
            is_strict: self.arguments.strict,
            scans: self.arguments.scan,
            keeps_registers: self.arguments.registers || self.arguments.vars,
            finds_tail_calls: true,
            outermost: if self.overflowed == Some(thread.id) { OUTERMOST } else { 0 },
        };
        self.stacks.walk(thread, options).map_err(|error| Failure::File(format!("thread {}: {}", thread.id, error)))
    }

    /// The threads with the same stacks together, in the order of the first one of each group.
    fn groups(&self) -> Result<Vec<Group<'r, 'a>>, Failure> {
        let mut groups: Vec<Group<'_, '_>> = Vec::new();
        let mut places: HashMap<(Vec<u64>, Stop), usize> = HashMap::new();
        for thread in self.threads()? {
            let stack = self.walk(thread)?;
            let key = (stack.frames.iter().map(|frame| frame.address).collect(), stack.stop);
            match places.get(&key) {
                Some(place) => groups[*place].threads.push(thread),
                None => {
                    places.insert(key, groups.len());
                    groups.push(Group { threads: vec![thread], stack });
                }
            }
        }
        Ok(groups)
    }

    fn write_head(&self, out: &mut dyn Write) -> io::Result<()> {
        if self.arguments.json {
            return self.write_json_head(out);
        }
        self.crash.map_or(Ok(()), |crash| write!(out, "{}", crash))?;
        let signal = match self.core.signal() {
            Some(signal) => signal,
            None => return Ok(()),
        };
        write!(out, "signal {}", signal.number)?;
        signal.name().map_or(Ok(()), |name| write!(out, " {}", name))?;
        match (signal.code_name(), signal.code) {
            (Some(name), _) => write!(out, ", code {}", name)?,
            (None, Some(code)) => write!(out, ", code {}", code)?,
            _ => {}
        }
        if let Some(address) = signal.fault_address() {
            write!(out, ", address {}", Address(self.core.target(), address))?;
        }
        writeln!(out)?;
        if self.overflowed.is_some() {
            writeln!(out, "stack overflow")?;
        }
        let own = self.core.process().map(|process| process.id);
        if let Some(sender) = signal.sent_by().filter(|sender| Some(sender.pid) != own) {
            writeln!(out, "sent by process {} of user {}", sender.pid, sender.uid)?;
        }
        if let Some(message) = self.stacks.abort_message() {
            writeln!(out, "abort message: {}", Escaped(&message))?;
        }
        for Annotation { name, value } in self.core.annotations() {
            writeln!(out, "annotation {}: {}", Escaped(name), Escaped(value))?;
        }
        self.stacks.instruction().map_or(Ok(()), |instruction| self.write_instruction(out, &instruction))
    }

    fn write_json_head(&self, out: &mut dyn Write) -> io::Result<()> {
        let process = self.core.process();
        let signal = self.core.signal().map(|signal| self.json_signal(signal));
        write!(out, "{{\"crash\":{},", Value::from(self.crash.map(Crash::json)))?;
        write!(out, "\"pid\":{},", Value::from(process.map(|process| process.id)))?;
        write!(out, "\"name\":{},", Value::from(process.map(|process| process.name.clone())))?;
        let command = process.and_then(|process| process.command.clone());
        write!(out, "\"command\":{},", Value::from(command))?;
        let longest = self.longest_stop.map(|longest| longest.as_micros() as u64);
        write!(out, "\"longest_stop_us\":{},", Value::from(longest))?;
        write!(out, "\"signal\":{},", Value::from(signal))?;
        write!(out, "\"stack_overflow\":{},", self.overflowed.is_some())?;
        write!(out, "\"abort_message\":{},", Value::from(self.stacks.abort_message()))?;
        write!(out, "\"annotations\":{},", self.json_annotations())?;
        let instruction = self.stacks.instruction().map(json_instruction);
        write!(out, "\"instruction\":{},\"threads\":[", Value::from(instruction))
    }

    /// What the program told Crashpad about itself. `null` for core files and processes.
    fn json_annotations(&self) -> Value {
        let annotations = self.core.annotations().iter().map(|one| json!({ "name": one.name, "value": one.value }));
        Some(annotations.collect::<Vec<_>>()).filter(|_| self.core.is_minidump()).into()
    }

    fn write_instruction(&self, out: &mut dyn Write, instruction: &Instruction) -> io::Result<()> {
        write!(out, "instruction {}:", Address(self.core.target(), instruction.address))?;
        if instruction.bytes.is_empty() {
            return writeln!(out, " unreadable");
        }
        instruction.bytes.iter().try_for_each(|byte| write!(out, " {:02x}", byte))?;
        instruction.text.as_ref().map_or(Ok(()), |text| write!(out, ", {}", text))?;
        writeln!(out)
    }

    fn json_signal(&self, signal: Signal) -> Value {
        json!({
            "number": signal.number,
            "name": signal.name(),
            "code": signal.code,
            "code_name": signal.code_name(),
            "address": signal.fault_address().map(|address| format!("{:#x}", address)),
            "sender": signal.sent_by().map(|sender| json!({ "pid": sender.pid, "uid": sender.uid })),
        })
    }

    /// The name of a thread, if it is known.
    fn name(&self, thread: &'r Thread) -> Option<&'r str> {
        let process = self.core.process().filter(|process| process.id == thread.id);
        thread.name.as_deref().or_else(|| process.map(|process| process.name.as_str()))
    }

    fn write_group(&self, out: &mut dyn Write, number: usize, group: &Group<'r, 'a>) -> io::Result<()> {
        if self.arguments.json {
            let comma = if number > 0 { "," } else { "" };
            writeln!(out, "{}", comma)?;
            return self.write_json_group(out, group);
        }
        write!(out, "{}", if group.threads.len() > 1 { "threads" } else { "thread" })?;
        for (number, thread) in group.threads.iter().enumerate() {
            write!(out, "{} {}", if number > 0 { "," } else { "" }, thread.id)?;
            self.name(thread).map_or(Ok(()), |name| write!(out, " {:?}", name))?;
        }
        write!(out, ":\n{}", group.stack.lines())
    }

    fn write_json_group(&self, out: &mut dyn Write, group: &Group<'r, 'a>) -> io::Result<()> {
        let threads = group.threads.iter();
        let threads: Value = threads
            .map(|thread| json!({ "id": thread.id, "name": self.name(thread), "signal": thread.signal }))
            .collect();
        write!(out, "{{\"frames\":[")?;
        for index in 0..group.stack.frames.len() {
            let frame = group.stack.json_frame(index).unwrap_or_default();
            write!(out, "{}{}", if index > 0 { "," } else { "" }, frame)?;
        }
        let (stop, thread) = (group.stack.json_stop(), group.stack.thread);
        write!(out, "],\"frames_left_out\":{},", group.stack.frames_left_out())?;
        write!(out, "\"stop\":{},\"thread\":{},\"threads\":{}}}", stop, thread, threads)
    }
}

/// An instruction as JSON. Its bytes are hex digits, and `null` if they aren't known.
fn json_instruction(instruction: Instruction) -> Value {
    let Instruction { address, bytes, text } = instruction;
    let digits: String = bytes.iter().map(|byte| format!("{:02x}", byte)).collect();
    json!({
        "address": format!("{:#x}", address),
        "bytes": Some(digits).filter(|digits| !digits.is_empty()),
        "text": text,
    })
}
