//! Writes stacks as JSON.

use super::text::Why;
use super::{Frame, Inlined, Position, SourceLine, Stack};
use crate::debug::variables::Function;
use serde_json::{json, Map, Value};

impl Stack<'_, '_> {
    /// The stack as an object. Addresses are strings such as `"0x401136"`, because numbers of JSON
    /// are exact only up to 2^53. docs/OUTPUT.md lists the keys.
    pub fn json(&self) -> Value {
        let frames: Vec<_> = (0..self.frames.len()).filter_map(|index| self.json_frame(index)).collect();
        let stop = self.json_stop();
        json!({ "thread": self.thread, "frames": frames, "frames_left_out": self.frames_left_out(), "stop": stop })
    }

    /// A frame as an object, by its index. All of them together may be large.
    pub fn json_frame(&self, index: usize) -> Option<Value> {
        Some(self.frame(index, self.frames.get(index)?))
    }

    /// How many frames are left out.
    pub fn frames_left_out(&self) -> usize {
        self.left_out.map_or(0, |left_out| left_out.count)
    }

    /// Why there are no more frames.
    pub fn json_stop(&self) -> Value {
        Why(self.stacks.core.target(), self.stop).to_string().into()
    }

    fn frame(&self, index: usize, frame: &Frame) -> Value {
        let Position { module, build_id, address_in_module, function, offset, source, inlined } =
            self.stacks.position(frame);
        let mut object = json!({
            "number": self.number(index),
            "address": hex_number(frame.address),
            "after_call": frame.is_after_call,
            "found_by": frame.found_by.to_string(),
            "guess": frame.found_by.is_guess(),
            "signal_frame": frame.is_signal_frame,
            "cfa": frame.cfa.map(hex_number),
            "module": module.map(|path| path.to_string_lossy().into_owned()),
            "build_id": build_id,
            "module_offset": address_in_module.map(hex_number),
            "function": function,
            "offset": offset,
            "inlined": inlined.iter().map(json_inlined_function).collect::<Vec<_>>(),
            "tail_call_from": self.tail_call(index),
        });
        add_json_source(&mut object, &source);
        if self.stacks.shape.is_some() {
            object["functions"] = self.functions(index).iter().rev().map(Function::json).collect();
        }
        if self.stacks.shows_registers && !frame.registers.is_empty() {
            let abi = self.stacks.core.abi();
            let named =
                frame.registers.iter().map(|(number, value)| (abi.register_name(*number), hex_number(*value).into()));
            object["registers"] = Value::Object(named.collect::<Map<_, _>>());
        }
        object
    }
}

fn json_inlined_function(one: &Inlined) -> Value {
    let mut object = json!({ "function": one.name });
    add_json_source(&mut object, &one.source);
    object
}

fn add_json_source(object: &mut Value, source: &Option<SourceLine>) {
    object["file"] = source.as_ref().map(|source| source.file.clone()).into();
    object["line"] = source.as_ref().and_then(|source| source.line).into();
}

/// A number in hexadecimal, such as `0x401136`.
pub(crate) fn hex_number(number: u64) -> String {
    format!("{:#x}", number)
}
