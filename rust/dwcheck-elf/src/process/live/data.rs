//! Copies the memory of a process that differs from its files, where its variables are.

use crate::process::maps::{can_differ, Map, Process};

/// At most this many bytes are copied in all.
pub const DATA_LIMIT: u64 = 64 << 20;

/// At most this many bytes are copied of each part of the memory (a line of `/proc/PID/maps`).
const PART_LIMIT: u64 = 16 << 20;

/// What a part of the memory is for. The first ones are copied first.
#[derive(Clone, Copy, Debug, PartialEq, Eq, PartialOrd, Ord)]
enum Use {
    /// The data of a program or library.
    File,
    /// The heap.
    Heap,
    /// Anything else, such as the data of threads.
    Other,
}

/// The memory that can differ from its files, each part with its address, up to [`DATA_LIMIT`].
pub(crate) fn copy_changeable_memory(process: &Process) -> Vec<(u64, Vec<u8>)> {
    let mut parts = changeable_parts(&process.maps);
    parts.sort_by_key(|(used, map)| (*used, map.begin));
    let mut left = DATA_LIMIT;
    let copied = parts.into_iter().filter_map(|(_, map)| {
        let bytes = process.memory(map.begin, (map.end - map.begin).min(PART_LIMIT).min(left))?;
        left -= bytes.len() as u64;
        Some((map.begin, bytes))
    });
    copied.collect()
}

/// The parts of the memory that can differ from their files.
fn changeable_parts(maps: &[Map]) -> Vec<(Use, &Map)> {
    let mut parts: Vec<(Use, &Map)> = Vec::new();
    let differing = maps.iter().enumerate().filter(|(index, _)| can_differ(maps, *index)).map(|(_, map)| map);
    for map in differing.filter(|map| map.begin < map.end) {
        // The data of a file that is zero at the start follows the rest of its data.
        let follows_file = parts.last().map_or(false, |(used, last)| *used == Use::File && last.end == map.begin);
        let used = match map.path.as_slice() {
            [b'/', ..] => Use::File,
            [] if follows_file => Use::File,
            b"[heap]" => Use::Heap,
            _ => Use::Other,
        };
        parts.push((used, map));
    }
    parts
}
