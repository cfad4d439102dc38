//! Writes the JSON of speedscope (<https://www.speedscope.app/file-format-schema.json>), with a profile for each
//! thread.

use super::calls::Calls;
use super::frame_names::Names;
use super::{Profile, Sample};
use dwcheck_elf::internal::page::write_separated;
use serde_json::json;
use std::collections::BTreeMap;
use std::io::{self, Write};

/// Writes the samples of an event.
///
/// # Errors
///
/// Those of `out`.
pub fn write_speedscope(profile: &Profile, names: &Names, event: usize, out: &mut impl Write) -> io::Result<()> {
    let calls = Calls::of(profile, names);
    let frames = calls
        .functions
        .iter()
        .map(|called| json!({"name": names.text(called.name), "file": names.text(called.object)}));
    write!(out, "{{\"$schema\":\"https://www.speedscope.app/file-format-schema.json\",\"shared\":{{\"frames\":[")?;
    write_separated(out, frames, |frame, out| serde_json::to_writer(out, &frame).map_err(io::Error::from))?;
    write!(out, "]}},\"exporter\":\"dwcheck-elf\",\"name\":{},\"profiles\":[", json!(profile.event_name(event)))?;
    let mut threads: BTreeMap<(u32, u32), Vec<&Sample>> = BTreeMap::new();
    profile.samples_of(event).for_each(|sample| threads.entry((sample.pid, sample.tid)).or_default().push(sample));
    write_separated(out, threads.into_iter(), |(_, samples), out| {
        write_speedscope_thread(profile, &calls, event, &samples, out)
    })?;
    out.write_all(b"]}\n")
}

/// Writes the samples of a thread.
fn write_speedscope_thread(
    profile: &Profile,
    calls: &Calls,
    event: usize,
    samples: &[&Sample],
    out: &mut impl Write,
) -> io::Result<()> {
    let (first, last) = match (samples.first(), samples.last()) {
        (Some(first), Some(last)) => (first, last),
        _ => return Ok(()),
    };
    let comm = profile.comms.get(last.comm as usize).map_or("", String::as_str);
    let name = format!("{} {}/{}", comm, first.pid, first.tid);
    let unit = if profile.is_in_nanoseconds(event) { "nanoseconds" } else { "none" };
    let sum = samples.iter().fold(0u64, |sum, sample| sum.saturating_add(sample.weight));
    write!(
        out,
        "{{\"type\":\"sampled\",\"name\":{},\"unit\":\"{}\",\"startValue\":0,\"endValue\":{},\"samples\":[",
        json!(name),
        unit,
        sum
    )?;
    write_separated(out, samples.iter(), |sample, out| {
        let mut functions: Vec<u32> = calls.functions_of(calls.of_stack(sample.stack)).collect();
        functions.reverse();
        serde_json::to_writer(out, &functions).map_err(io::Error::from)
    })?;
    out.write_all(b"],\"weights\":[")?;
    write_separated(out, samples.iter(), |sample, out| write!(out, "{}", sample.weight))?;
    out.write_all(b"]}")
}
