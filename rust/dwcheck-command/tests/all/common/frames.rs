//! Reads what readelf shows of frame sections.

use crate::common::{hex, Folder};

/// A CIE or FDE as `readelf --debug-dump=frames` shows it.
#[derive(Debug)]
pub struct Shown {
    pub offset: u64,
    /// For an FDE: the offset of its CIE, its first address, and the address after its last one.
    pub fde: Option<(u64, u64, u64)>,
    /// For a CIE, its augmentation string. For an FDE, empty.
    pub augmentation: String,
    pub lines: Vec<String>,
}

/// The CIEs and FDEs of one section as readelf shows them, without records of length 0.
pub fn records(folder: &Folder, file: &str, section: &str) -> Vec<Shown> {
    let mut shown: Vec<Shown> = Vec::new();
    for line in part(&folder.run(&format!("readelf --debug-dump=frames {}", file)), section) {
        let words: Vec<_> = line.split_whitespace().collect();
        match words.as_slice() {
            [offset, _, _, "CIE", ..] => shown.push(record(offset, None)),
            [offset, _, _, "FDE", cie, pc] => {
                let (begin, end) = pc.trim_start_matches("pc=").split_once("..").unwrap();
                let cie = hex(cie.trim_start_matches("cie="));
                shown.push(record(offset, Some((cie, hex(begin), hex(end)))));
            }
            ["Augmentation:", string] => shown.last_mut().unwrap().augmentation = string.replace('"', ""),
            [_, "ZERO", "terminator"] | [] => {}
            _ => shown.iter_mut().last().unwrap().lines.push(line.trim().to_string()),
        }
    }
    shown
}

fn record(offset: &str, fde: Option<(u64, u64, u64)>) -> Shown {
    Shown { offset: hex(offset), fde, augmentation: String::new(), lines: Vec::new() }
}

/// The lines of readelf's output that belong to a section.
fn part<'a>(shown: &'a str, section: &str) -> impl Iterator<Item = &'a str> {
    let title = format!("Contents of the {} section", section);
    let lines = shown.lines().skip_while(move |line| !line.starts_with(&title)).skip(1);
    lines.take_while(|line| !line.starts_with("Contents of"))
}
