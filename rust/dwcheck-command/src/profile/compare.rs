//! Compares two recordings, for `profile --compare`.

use crate::arguments::{Format, ProfileArguments};
use crate::end::{shown_path, Failure};
use dwcheck_elf::text::Escaped;
use dwcheck_profile::compared::{Compared, Side};
use dwcheck_profile::{folded, html, top, Names, Profile};
use std::io::Write;

/// Refuses a format in which two recordings can't be compared.
pub fn check_format(arguments: &ProfileArguments) -> Result<(), Failure> {
    match arguments.format {
        Format::Folded | Format::Html | Format::Top => Ok(()),
        _ if arguments.compare.is_none() => Ok(()),
        _ => Err(Failure::Argument("bad argument: --compare is for --format top, html or folded".to_string())),
    }
}

/// Writes what differs between two recordings.
pub fn write_compared(
    arguments: &ProfileArguments,
    old: &(Profile, Names),
    new: &(Profile, Names),
    mut out: &mut dyn Write,
) -> Result<(), Failure> {
    let [old, new] = [old, new].map(|(profile, names)| {
        let event = profile.sampled_events().first().copied().unwrap_or(0);
        Side { profile, names, event }
    });
    let [before, now] = [old, new].map(|side| side.profile.event_name(side.event));
    if before != now && !old.profile.samples.is_empty() && !new.profile.samples.is_empty() {
        let (before, now) = (Escaped(before), Escaped(now));
        return Err(Failure::Argument(format!(
            "bad argument: --compare: the first events are {} and {}; --event names one that both have",
            before, now
        )));
    }
    let out = &mut out;
    match arguments.format {
        Format::Folded => folded::write_folded_compared(old, new, out)?,
        Format::Top => top::write_top_compared(&Compared::of(old, new), now, arguments.rows, out)?,
        _ => {
            let before = arguments.compare.as_deref().map_or_else(String::new, shown_path);
            let title = format!("{} compared with {}", shown_path(&arguments.recording), before);
            let unit = new.profile.is_in_nanoseconds(new.event);
            html::write_html_compared(&Compared::of(old, new), (now, unit), &title, out)?
        }
    }
    Ok(())
}
