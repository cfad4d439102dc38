//! Writes samples as `perf script` does, so that what reads its text goes on working.

use super::frame_names::{Function, Names};
use super::{Frame, Profile, Sample};
use dwcheck_elf::text::Escaped;
use rayon::prelude::*;
use std::fmt::Write as _;
use std::io::{self, Write};

/// What is written of samples.
#[derive(Clone, Copy, Debug, Default)]
pub struct ScriptOptions {
    /// Whether to write why each stack ended, in a line `# stop: WHY`.
    pub stops: bool,
}

/// Names of events are filled up to at most this many characters.
const WIDEST: usize = 256;

/// How many samples a processor formats at once.
const CHUNK: usize = 128;

/// How many samples are in memory as text.
const GROUP: usize = 32 * CHUNK;

/// Writes the samples, in the order of their times.
///
/// # Errors
///
/// Those of `out`.
pub fn write_script(profile: &Profile, names: &Names, options: ScriptOptions, out: &mut impl Write) -> io::Result<()> {
    let script = Script::new(profile, names, options);
    for group in profile.samples.chunks(GROUP) {
        let texts: Vec<String> = group.par_chunks(CHUNK).map(|samples| script.text(samples)).collect();
        texts.iter().try_for_each(|text| out.write_all(text.as_bytes()))?;
    }
    Ok(())
}

/// What the text of a sample is made of.
struct Script<'p> {
    profile: &'p Profile,
    options: ScriptOptions,
    /// The lines of each frame.
    lines: Vec<String>,
    /// The names of events, each as wide as the longest one.
    events: Vec<String>,
    comms: Vec<String>,
}

impl<'p> Script<'p> {
    fn new(profile: &'p Profile, names: &Names, options: ScriptOptions) -> Self {
        let lines = profile.frames.par_iter().enumerate().map(|(place, frame)| {
            let mut text = String::new();
            names.of(place as u32).iter().for_each(|function| push_function(names, frame, function, &mut text));
            text
        });
        let width = profile.events.iter().map(|event| event.name.len()).max().unwrap_or(0).min(WIDEST);
        let event = |name: &str| format!("{:>width$}", Escaped(name).to_string(), width = width);
        Script {
            profile,
            options,
            lines: lines.collect(),
            events: profile.events.iter().map(|one| event(&one.name)).collect(),
            comms: profile.comms.iter().map(|comm| Escaped(comm).to_string()).collect(),
        }
    }

    /// The lines of samples.
    fn text(&self, samples: &[Sample]) -> String {
        let mut text = String::new();
        for sample in samples {
            self.push_head(sample, &mut text);
            let lines = self.profile.tree.frames(sample.stack).filter_map(|frame| self.lines.get(frame as usize));
            lines.for_each(|lines| text.push_str(lines));
            if self.options.stops {
                let _ = writeln!(text, "# stop: {}", sample.end);
            }
            text.push('\n');
        }
        text
    }

    /// Appends the line before the frames of a sample.
    fn push_head(&self, sample: &Sample, text: &mut String) {
        let comm = self.comms.get(sample.comm as usize).map_or("", String::as_str);
        let event = self.events.get(usize::from(sample.event)).map_or("", String::as_str);
        let _ = write!(text, "{} {:5} ", comm, sample.tid);
        if let Some(cpu) = sample.cpu {
            let _ = write!(text, "[{:03}] ", cpu);
        }
        let time = format!("{}.{:06}", sample.time / 1_000_000_000, sample.time / 1000 % 1_000_000);
        let _ = writeln!(text, "{:>12}: {:10} {}: ", time, sample.weight, event);
    }
}

/// Appends the line of a function. Writing to a text never fails.
fn push_function(names: &Names, frame: &Frame, function: &Function, text: &mut String) {
    let (name, object) = (names.text(function.name), names.text(function.object));
    let offset = function.offset.saturating_add(u64::from(frame.is_return));
    let _ = write!(text, "\t{:16x} ", frame.shown);
    let _ = match function.is_known {
        true => write!(text, "{}+{:#x}", name, offset),
        false => text.write_str("[unknown]"),
    };
    let _ = match function.is_inlined {
        true => text.write_str(" (inlined)"),
        false if frame.is_tail_call => write!(text, " (tail call) ({})", object),
        false => write!(text, " ({})", object),
    };
    if let Some(source) = function.line {
        let _ = write!(text, "\n  {}", names.text(source));
    }
    text.push('\n');
}
