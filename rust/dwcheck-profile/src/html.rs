//! Writes one page with a flame graph, which any browser shows without a network: a click zooms, a search marks
//! functions, and an event, threads and a time range can be selected. Of two profiles, it shows what has changed.

use super::calls::{Call, Calls, Code};
use super::compared::Compared;
use super::frame_names::Names;
use super::{Profile, Sample};
use dwcheck_elf::internal::page::{self, write_separated};
use std::collections::HashMap;
use std::io::{self, Write};

/// The page, with a mark where the data go.
const PAGE: &str = include_str!("html/page.html");

/// Writes the samples of the events with these indexes, of which the first one is shown at first.
///
/// # Errors
///
/// Those of `out`.
pub fn write_html(
    profile: &Profile,
    names: &Names,
    events: &[usize],
    title: &str,
    out: &mut impl Write,
) -> io::Result<()> {
    let calls = Calls::of(profile, names);
    page::write_page(PAGE, out, |out| Data { profile, names, calls: &calls, out }.write(events, title))
}

/// What the page shows.
struct Data<'d, W> {
    profile: &'d Profile,
    names: &'d Names,
    calls: &'d Calls,
    out: &'d mut W,
}

impl<W: Write> Data<'_, W> {
    fn write(&mut self, events: &[usize], title: &str) -> io::Result<()> {
        let samples: Vec<&Sample> =
            self.profile.samples.iter().filter(|sample| events.contains(&usize::from(sample.event))).collect();
        let first = samples.first().map_or(0, |sample| sample.time);
        let last = samples.last().map_or(0, |sample| sample.time);
        write_text("{\"title\":", title, self.out)?;
        let (lost, truncated) = (self.profile.counts.lost, self.profile.counts.truncated());
        write!(self.out, ",\"lost\":{},\"truncated\":{}", lost, truncated)?;
        write!(self.out, ",\"duration\":{},\"functions\":[", last.saturating_sub(first) / 1000)?;
        let names = self.names;
        write_separated(self.out, self.calls.functions.iter(), |called, out| {
            write_function(&called.shown(names), names.text(called.object), called.code, out)
        })?;
        write_nodes(&self.calls.nodes, self.out)?;
        let threads = Threads::of(self.profile, &samples);
        self.out.write_all(b",\"threads\":")?;
        serde_json::to_writer(&mut *self.out, &threads.names).map_err(io::Error::from)?;
        self.out.write_all(b",\"pids\":")?;
        serde_json::to_writer(&mut *self.out, &threads.pids).map_err(io::Error::from)?;
        self.out.write_all(b",\"both\":null,\"events\":[")?;
        for (index, event) in events.iter().enumerate() {
            self.out.write_all(if index > 0 { b"," } else { b"" })?;
            self.event(*event, &threads, first)?;
        }
        self.out.write_all(b"]}")
    }

    /// An event: its name, its unit, and for each sample its node, its thread, the time since the one before, and its
    /// weight.
    fn event(&mut self, event: usize, threads: &Threads, first: u64) -> io::Result<()> {
        let samples: Vec<&Sample> = self.profile.samples_of(event).collect();
        // Microseconds since the first sample of all.
        let since: Vec<u64> = samples.iter().map(|sample| sample.time.saturating_sub(first) / 1000).collect();
        let unit = if self.profile.is_in_nanoseconds(event) { "ns" } else { "" };
        write_text("{\"name\":", self.profile.event_name(event), self.out)?;
        write_text(",\"unit\":", unit, self.out)?;
        let calls = self.calls;
        self.out.write_all(b",\"samples\":{\"node\":[")?;
        write_separated(self.out, samples.iter(), |sample, out| write!(out, "{}", calls.of_stack(sample.stack)))?;
        self.out.write_all(b"],\"thread\":[")?;
        write_separated(self.out, samples.iter(), |sample, out| write!(out, "{}", threads.place(sample)))?;
        self.out.write_all(b"],\"time\":[")?;
        let before = std::iter::once(0).chain(since.iter().copied());
        write_separated(self.out, since.iter().zip(before), |(now, before), out| {
            write!(out, "{}", now.saturating_sub(before))
        })?;
        self.out.write_all(b"],\"weight\":[")?;
        write_separated(self.out, samples.iter(), |sample, out| write!(out, "{}", sample.weight))?;
        self.out.write_all(b"]}}")
    }
}

/// The threads of samples, in the order in which they are first sampled.
#[derive(Default)]
struct Threads {
    places: HashMap<u32, usize>,
    /// Their last names, with their numbers.
    names: Vec<String>,
    pids: Vec<u32>,
}

impl Threads {
    fn of(profile: &Profile, samples: &[&Sample]) -> Threads {
        let mut threads = Threads::default();
        for sample in samples {
            let comm = profile.comms.get(sample.comm as usize).map_or("", String::as_str);
            let name = format!("{} {}/{}", comm, sample.pid, sample.tid);
            let next = threads.names.len();
            let place = *threads.places.entry(sample.tid).or_insert(next);
            if place == next {
                threads.names.push(name);
                threads.pids.push(sample.pid);
            } else {
                threads.names[place] = name;
            }
        }
        threads
    }

    fn place(&self, sample: &Sample) -> usize {
        self.places.get(&sample.tid).copied().unwrap_or(0)
    }
}

/// Writes two profiles, of which the page shows how the shares of functions changed.
///
/// # Errors
///
/// Those of `out`.
pub fn write_html_compared(
    compared: &Compared,
    event: (&str, bool),
    title: &str,
    out: &mut impl Write,
) -> io::Result<()> {
    page::write_page(PAGE, out, |out| {
        write_text("{\"title\":", title, out)?;
        out.write_all(b",\"lost\":0,\"truncated\":0,\"duration\":0,\"threads\":[],\"pids\":[]")?;
        write_text(",\"events\":[{\"name\":", event.0, out)?;
        write_text(",\"unit\":", if event.1 { "ns" } else { "" }, out)?;
        out.write_all(b"}],\"functions\":[")?;
        write_separated(out, compared.functions.iter(), |function, out| {
            write_function(&function.name, &function.object, function.code, out)
        })?;
        write_nodes(&compared.nodes, out)?;
        for (side, name) in [",\"both\":{\"old\":[", "],\"new\":["].into_iter().enumerate() {
            out.write_all(name.as_bytes())?;
            write_separated(out, compared.own.iter(), |own, out| write!(out, "{}", own[side]))?;
        }
        out.write_all(b"]}}")
    })
}

fn write_text(before: &str, text: &str, out: &mut impl Write) -> io::Result<()> {
    out.write_all(before.as_bytes())?;
    serde_json::to_writer(out, text).map_err(io::Error::from)
}

/// Writes a function: its name, its object, and what it is.
fn write_function(name: &str, object: &str, code: Code, out: &mut impl Write) -> io::Result<()> {
    let code = match code {
        Code::File => 0,
        Code::Inlined => 1,
        Code::Kernel => 2,
        Code::Memory => 3,
    };
    serde_json::to_writer(out, &(name, object, code)).map_err(io::Error::from)
}

/// Writes the end of the functions, and each node: its caller and its function.
fn write_nodes(nodes: &[Call], out: &mut impl Write) -> io::Result<()> {
    out.write_all(b"],\"callers\":[")?;
    write_separated(out, nodes.iter(), |call, out| write!(out, "{}", call.caller))?;
    out.write_all(b"],\"calls\":[")?;
    // That of the first node has no meaning.
    write_separated(out, nodes.iter(), |call, out| write!(out, "{}", call.function as i32))?;
    out.write_all(b"]")
}
