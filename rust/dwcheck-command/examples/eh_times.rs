//! Times the library and gimli on the `.eh_frame` section of each program, in one process and in turn: the check
//! of the section beside all rows by gimli, compiling it, and look-ups in the compiled table beside gimli's by
//! `.eh_frame_hdr`. Each time is the least of seven, in milliseconds, or nanoseconds for a look-up. Memory is by how much the
//! most that this process has had grows with the first check, so it says something of the first program alone.
//!
//! ```text
//! cargo run --release --example eh_times /usr/lib/x86_64-linux-gnu/libLLVM-14.so.1
//! ```
use dwcheck::{EhFrame, FrameSection, Module, Process, Target};
use gimli::{BaseAddresses, CieOrFde, EndianSlice, LittleEndian, ParsedEhFrameHdr, UnwindContext, UnwindSection};
use object::{Object, ObjectSection};
use std::time::{Duration, Instant};

const RUNS: usize = 7;
const LOOKUPS: usize = 200_000;

type Bytes<'a> = EndianSlice<'a, LittleEndian>;
type Failure = Box<dyn std::error::Error>;

/// The sections of a little-endian program with addresses of eight bytes.
struct Sections<'a> {
    eh_frame: &'a [u8],
    address: u64,
    hdr: &'a [u8],
    hdr_address: u64,
}

impl<'a> Sections<'a> {
    fn read(file: &object::File<'a>) -> Result<Self, Failure> {
        let section = |name| file.section_by_name(name).ok_or(format!("no {}", name));
        let (eh_frame, hdr) = (section(".eh_frame")?, section(".eh_frame_hdr")?);
        Ok(Sections {
            eh_frame: eh_frame.data()?,
            address: eh_frame.address(),
            hdr: hdr.data()?,
            hdr_address: hdr.address(),
        })
    }

    fn ours(&self) -> FrameSection<'a> {
        FrameSection::eh_frame(self.eh_frame, EhFrame::at(self.address), Target::LITTLE_64)
    }

    fn process(&self) -> Result<Process, Failure> {
        let mut process = Process::new(Target::LITTLE_64);
        process.add(self.eh_frame, Module::at(0).range(0..=u64::MAX).eh_frame(EhFrame::at(self.address)))?;
        Ok(process)
    }

    fn theirs(&self) -> gimli::EhFrame<Bytes<'a>> {
        gimli::EhFrame::new(self.eh_frame, LittleEndian)
    }

    fn bases(&self) -> BaseAddresses {
        BaseAddresses::default().set_eh_frame(self.address).set_eh_frame_hdr(self.hdr_address)
    }

    /// Runs all rows with gimli. Returns their number, and the first address of each that covers something.
    fn rows(&self) -> Result<(usize, Vec<u64>), Failure> {
        let (section, bases, mut context) = (self.theirs(), self.bases(), UnwindContext::new());
        let (mut count, mut starts) = (0, Vec::new());
        let mut entries = section.entries(&bases);
        while let Some(entry) = entries.next()? {
            let fde = match entry {
                CieOrFde::Fde(partial) => partial.parse(gimli::EhFrame::cie_from_offset)?,
                CieOrFde::Cie(_) => continue,
            };
            let mut table = fde.rows(&section, &bases, &mut context)?;
            while let Some(row) = table.next_row()? {
                count += 1;
                if row.start_address() < row.end_address() {
                    starts.push(row.start_address());
                }
            }
        }
        Ok((count, starts))
    }

    /// Looks up addresses by gimli, and returns a sum of what is found.
    fn found_by_gimli(&self, hdr: &ParsedEhFrameHdr<Bytes<'_>>, addresses: &[u64]) -> Result<u64, Failure> {
        let (section, bases, mut context) = (self.theirs(), self.bases(), UnwindContext::new());
        let table = hdr.table().ok_or("no table")?;
        let mut sum = 0u64;
        for &address in addresses {
            let row = table.unwind_info_for_address(
                &section,
                &bases,
                &mut context,
                address,
                gimli::EhFrame::cie_from_offset,
            )?;
            sum = sum.wrapping_add(row.end_address());
        }
        Ok(sum)
    }
}

/// The least time of several runs, and what the last one gives.
fn least<T>(mut run: impl FnMut() -> Result<T, Failure>) -> Result<(Duration, T), Failure> {
    let mut one = || {
        let begun = Instant::now();
        let value = run()?;
        Ok((begun.elapsed(), value))
    };
    let mut all = (0..RUNS).map(|_| one()).collect::<Result<Vec<_>, Failure>>()?;
    all.sort_by_key(|(time, _)| *time);
    Ok(all.swap_remove(0))
}

/// The most memory that this process has had, in bytes (VmHWM of proc(5)).
fn peak_memory() -> Result<u64, Failure> {
    let status = std::fs::read_to_string("/proc/self/status")?;
    let peak = status.lines().find_map(|line| line.strip_prefix("VmHWM:")).ok_or("no VmHWM")?;
    Ok(peak.trim().trim_end_matches(" kB").parse::<u64>()? * 1024)
}

/// As many addresses of rows as are looked up, in an order without a pattern.
fn shuffled(starts: &[u64]) -> Vec<u64> {
    let mut state = 0x9e37_79b9_7f4a_7c15u64;
    let mut next = || {
        state ^= state << 13;
        state ^= state >> 7;
        state ^= state << 17;
        starts[(state % starts.len() as u64) as usize]
    };
    (0..LOOKUPS).map(|_| next()).collect()
}

fn compare(path: &str) -> Result<(), Failure> {
    let data = std::fs::read(path)?;
    let file = object::File::parse(&*data)?;
    let sections = Sections::read(&file)?;
    let before = peak_memory()?;
    sections.ours().check()?;
    let memory = peak_memory()?.saturating_sub(before);
    let (check, contents) = least(|| Ok(sections.ours().check()?))?;
    let (gimli, (count, starts)) = least(|| sections.rows())?;
    let (add, process) = least(|| sections.process())?;
    println!(
        "{}: {} bytes, {} FDEs, {} rows (gimli {})",
        path,
        sections.eh_frame.len(),
        contents.fdes,
        contents.rows,
        count
    );
    let milliseconds = |time: Duration| time.as_secs_f64() * 1e3;
    println!(
        "  check {:.2}, all rows by gimli {:.2}: {:.2}; add to a process {:.2}; memory of a check {:.2} for a byte",
        milliseconds(check),
        milliseconds(gimli),
        check.as_secs_f64() / gimli.as_secs_f64(),
        milliseconds(add),
        memory as f64 / sections.eh_frame.len() as f64
    );
    compare_look_ups(&sections, &process, &shuffled(&starts))
}

fn compare_look_ups(sections: &Sections<'_>, process: &Process, addresses: &[u64]) -> Result<(), Failure> {
    let hdr = gimli::EhFrameHdr::new(sections.hdr, LittleEndian).parse(&sections.bases(), 8)?;
    let (theirs, sum) = least(|| sections.found_by_gimli(&hdr, addresses))?;
    let (ours, own_sum) = least(|| {
        let mut rows = process.rows();
        let ends = addresses.iter().map(|address| rows.row(*address).map_or(0, |row| row.addresses.end));
        Ok(ends.fold(0, u64::wrapping_add))
    })?;
    let one = |time: Duration| time.as_secs_f64() * 1e9 / LOOKUPS as f64;
    println!(
        "  a look-up {:.0}, by gimli {:.0}: {:.3}; the same rows: {}",
        one(ours),
        one(theirs),
        one(ours) / one(theirs),
        sum == own_sum
    );
    Ok(())
}

fn main() {
    for path in std::env::args().skip(1) {
        if let Err(why) = compare(&path) {
            println!("{}: {}", path, why);
        }
    }
}
