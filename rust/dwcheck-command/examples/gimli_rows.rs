//! Reads all rows of the frame sections of ELF files with gimli, on all processors, and counts
//! them. The time that this takes is compared with the time of `dwcheck-elf survey`.
//!
//!     gimli_rows [JOBS]       reads the names of the files from standard input, one on each line

use gimli::{BaseAddresses, CieOrFde, EndianSlice, RunTimeEndian, UnwindContext, UnwindSection};
use object::{Object, ObjectSection};
use rayon::prelude::*;
use std::io::BufRead;

type Bytes<'a> = EndianSlice<'a, RunTimeEndian>;

fn main() {
    let jobs = std::env::args().nth(1).and_then(|word| word.parse().ok()).unwrap_or(0);
    let pool = rayon::ThreadPoolBuilder::new().num_threads(jobs).build().unwrap();
    let names: Vec<String> = std::io::stdin().lock().lines().map_while(Result::ok).collect();
    let rows: usize = pool.install(|| names.par_iter().with_max_len(1).map(|name| rows_of_file(name)).sum());
    println!("files {} rows {}", names.len(), rows);
}

/// Counts the rows of both frame sections of a file. Rows that gimli can't read aren't counted.
fn rows_of_file(name: &str) -> usize {
    let data = match std::fs::read(name) {
        Ok(data) => data,
        Err(_) => return 0,
    };
    let file = match object::File::parse(&*data) {
        Ok(file) => file,
        Err(_) => return 0,
    };
    let order = if file.is_little_endian() { RunTimeEndian::Little } else { RunTimeEndian::Big };
    let size = if file.is_64() { 8 } else { 4 };
    let mut rows = 0;
    for section in file.sections() {
        let bytes = match (section.name(), section.uncompressed_data()) {
            (Ok(".debug_frame" | ".eh_frame"), Ok(bytes)) => bytes,
            _ => continue,
        };
        if section.name() == Ok(".eh_frame") {
            let mut frames = gimli::EhFrame::new(&bytes, order);
            frames.set_address_size(size);
            rows += rows_of(&frames, &BaseAddresses::default().set_eh_frame(section.address()));
        } else {
            let mut frames = gimli::DebugFrame::new(&bytes, order);
            frames.set_address_size(size);
            rows += rows_of(&frames, &BaseAddresses::default());
        }
    }
    rows
}

fn rows_of<'a, S: UnwindSection<Bytes<'a>>>(section: &S, bases: &BaseAddresses) -> usize {
    let mut context = UnwindContext::new();
    let mut entries = section.entries(bases);
    let mut rows = 0;
    while let Ok(Some(entry)) = entries.next() {
        if let CieOrFde::Fde(partial) = entry {
            let fde = match partial.parse(S::cie_from_offset) {
                Ok(fde) => fde,
                Err(_) => continue,
            };
            let mut table = match fde.rows(section, bases, &mut context) {
                Ok(table) => table,
                Err(_) => continue,
            };
            while let Ok(Some(_)) = table.next_row() {
                rows += 1;
            }
        }
    }
    rows
}
