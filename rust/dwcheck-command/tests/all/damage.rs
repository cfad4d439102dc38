//! Reads files with bytes that were changed at random. That has to give answers or errors, and must
//! never end the process.

use crate::common::{has, Folder, C, CXX};
use crate::minidumps::{unpacked, KEPT};
use dwcheck_elf::core_file::{CoreFile, Files, Search};
use dwcheck_elf::frames::{FrameSection, Frames, Name};
use dwcheck_elf::inspect::{inspect, Check, Inspected, Verdict};
use dwcheck_elf::mapped::Bytes;
use dwcheck_elf::one_by_one::{accepted_part, every_fault};
use dwcheck_elf::program::{Program, Section};
use dwcheck_elf::stack::{Stacks, WalkOptions};
use dwcheck_elf::validate::{validate_rows, What};
use dwcheck_profile::script::{self, ScriptOptions};
use dwcheck_profile::{firefox, folded, html, pprof, speedscope, top, Names, Profile, Recording, SearchPaths};
use std::path::{Path, PathBuf};

/// Pseudorandom numbers, the same in each run (xorshift).
struct Numbers(u64);

impl Numbers {
    fn next(&mut self, below: usize) -> usize {
        self.0 ^= self.0 << 13;
        self.0 ^= self.0 >> 7;
        self.0 ^= self.0 << 17;
        (self.0 % below as u64) as usize
    }

    /// Changes 1 to 4 bytes between two offsets, and sometimes cuts all bytes off from an offset
    /// between them.
    fn damage(&mut self, bytes: &mut Vec<u8>, begin: usize, end: usize) {
        const BYTES: [u8; 8] = [0, 1, 0x7f, 0x80, 0xff, 0xfe, 0x10, 0x9b];
        for _ in 0..1 + self.next(4) {
            let at = begin + self.next(end - begin);
            bytes[at] = match self.next(3) {
                0 => bytes[at] ^ 1 << self.next(8),
                1 => BYTES[self.next(8)],
                _ => self.next(256) as u8,
            };
        }
        if self.next(16) == 0 {
            bytes.truncate(begin + self.next(end - begin));
        }
    }
}

/// Reads a section, without what the library refuses, and compares gimli's rows with the library's. Returns false if
/// a part of the section is refused. The only allowed difference is a CIE or FDE that gimli can't read.
fn frames(program: &Program<'_>, source: Section<'_>) -> bool {
    let section = FrameSection { format: program.format(Name::EhFrame, &source), source };
    let frames = Frames::of(section).unwrap();
    let fault = frames.process(0).err().map(|error| error.fault().unwrap());
    let rest = match fault {
        Some(fault) => {
            assert!(fault.offset as usize <= frames.bytes().len() && frames.record_of(&fault).is_some(), "{}", fault);
            accepted_part(&frames, &every_fault(&frames, fault))
        }
        None => frames,
    };
    match validate_rows(&rest, &rest.process(0).unwrap()) {
        Ok(agreement) => {
            assert_eq!(agreement, rest.check().unwrap());
            assert_eq!(agreement.fdes, rest.used().filter(|one| one.addresses().is_some()).count());
        }
        Err(difference) => assert!(matches!(difference.what, What::Unreadable(_)), "{}", difference),
    }
    fault.is_none()
}

/// Reads everything that a program has.
fn program(bytes: &[u8]) {
    let program = match Program::read(bytes) {
        Ok(program) => program,
        Err(error) => return assert!(!error.to_string().is_empty()),
    };
    program.segments();
    let functions = program.functions();
    for function in functions.all() {
        functions.at(function.begin.wrapping_add(1));
        let _ = functions.address_of(&function.name);
    }
    let _ = (functions.parse("main+4"), program.debug_frame(), program.debug_loclists());
    if let Ok(Some(section)) = program.eh_frame() {
        frames(&program, section);
    }
    inspect(&program, Check { all: true, ..Check::default() }).iter().for_each(told);
}

/// Checks that each fault is inside the original section.
fn told(section: &Inspected<'_>) {
    if let (Verdict::Refused(defects), Some(frames)) = (&section.verdict, &section.frames) {
        let end = frames.source().bytes.len() as u64;
        assert!(!defects.is_empty());
        assert!(defects.iter().all(|defect| defect.offset <= end && !defect.to_string().is_empty()), "{:?}", defects);
        let rest = section.rest().map(|rest| rest.map(|rest| rest.left_out().count));
        assert!(matches!(rest, Ok(Some(left_out)) if left_out > 0) || rest.is_err(), "{:?}", rest);
    }
}

/// Reads everything that a core file or a minidump has, whose files are at their paths or in these folders. Returns false
/// if it can't be read.
fn core(bytes: &[u8], folders: &[PathBuf]) -> bool {
    let core = match CoreFile::read(bytes) {
        Ok(core) => core,
        Err(error) => {
            assert!(!error.to_string().is_empty());
            return false;
        }
    };
    let files = Files::read_with(&core, &Search { folders: folders.to_vec(), ..Search::new("/".as_ref()) });
    let memory = core.memory(&files);
    let blocks: Vec<_> = memory.blocks().collect();
    assert!(blocks.windows(2).all(|pair| pair[0].end() <= pair[1].address));
    for thread in core.threads() {
        let pointer = thread.register(core.abi().stack_pointer).unwrap();
        memory.read(pointer, &mut [0; 300]);
    }
    assert!(core.modules(&files).iter().all(|module| module.begin <= module.end));
    let stacks = Stacks::of(&core, &files);
    for thread in core.threads() {
        let stack = stacks
            .walk(thread, WalkOptions { limit: 50, scans: !folders.is_empty(), ..WalkOptions::default() })
            .unwrap();
        assert!(stack.frames.len() <= 50 && stack.to_string().ends_with('\n') && stack.json().is_object());
    }
    true
}

/// Reads a recording, and writes its profile in all formats. Returns false if its header can't be read.
fn recording(bytes: &[u8], root: &Path) -> bool {
    let opened = Recording::of_bytes(Bytes::from(bytes.to_vec()));
    let mut recording = match opened {
        Ok(recording) => recording,
        Err(damage) => {
            assert!(!damage.to_string().is_empty());
            return false;
        }
    };
    let search_paths = SearchPaths { root: root.to_path_buf(), cache: None, ..SearchPaths::default() };
    let options = dwcheck_profile::Options { search_paths, ..dwcheck_profile::Options::default() };
    let profile = Profile::read(&mut recording, &options, |_| true);
    let names = Names::read(&profile, &Default::default());
    let event = profile.sampled_events().first().copied().unwrap_or(0);
    let mut out = Vec::new();
    folded::write_folded(&profile, &names, event, &mut out).unwrap();
    script::write_script(&profile, &names, ScriptOptions { stops: true }, &mut out).unwrap();
    html::write_html(&profile, &names, &[event], "title", &mut out).unwrap();
    speedscope::write_speedscope(&profile, &names, event, &mut out).unwrap();
    pprof::write_pprof(&profile, &names, &mut out).unwrap();
    firefox::write_firefox(&profile, &names, event, "title", &mut out).unwrap();
    top::write_top(&profile, &names, event, 10, &mut out).unwrap();
    assert!(out.len() < 10_000_000, "{}", out.len());
    true
}

#[test]
fn recordings() {
    let root = Path::new(env!("CARGO_MANIFEST_DIR")).join("tests/recordings");
    let mut numbers = Numbers(0x4567_89ab_cdef_1234);
    let mut read = 0;
    for name in ["dwarf", "zstd", "pipe", "two", "group", "chain"] {
        let whole = std::fs::read(root.join(format!("{}.perf", name))).unwrap();
        for number in 0..60 {
            let mut bytes = whole.clone();
            let (begin, end) = if number % 3 == 0 { (0, 400) } else { (0, bytes.len()) };
            numbers.damage(&mut bytes, begin, end);
            read += usize::from(recording(&bytes, &root));
        }
    }
    assert!(read > 200, "{}", read);
}

/// Changes only bytes of the `.eh_frame` section.
#[test]
fn sections() {
    let folder = Folder::new("damage-sections");
    folder.write("a.cc", CXX);
    folder.run("g++ -O2 -mno-accumulate-outgoing-args a.cc -o linked");
    let bytes = folder.bytes("linked");
    let program = Program::read(&bytes).unwrap();
    let whole = program.eh_frame().unwrap().unwrap();
    let mut numbers = Numbers(0x1234_5678_9abc_def1);
    let mut accepted = 0;
    for _ in 0..4000 {
        let mut section = whole.clone();
        let bytes = section.bytes.to_mut();
        let end = bytes.len();
        numbers.damage(bytes, 0, end);
        accepted += usize::from(frames(&program, section));
    }
    assert!((400..4000).contains(&accepted), "{}", accepted);
}

#[test]
fn programs_and_objects() {
    let folder = Folder::new("damage-programs");
    folder.write("a.c", C);
    folder.run("gcc -O2 -g -gz=zlib -gdwarf-5 a.c -o linked; gcc -O2 -g -gz=zlib -c a.c -o object.o");
    folder.run("gcc -O2 -g -fno-asynchronous-unwind-tables -Wl,--compress-debug-sections=zlib-gnu a.c -o gnu");
    let mut numbers = Numbers(0x2345_6789_abcd_ef12);
    for file in ["linked", "object.o", "gnu"] {
        let whole = folder.bytes(file);
        let length = whole.len();
        let sections = crate::common::hex(
            folder.run(&format!("printf %x $(readelf -h {} | awk '/Start of section/ {{print $5}}')", file)).trim(),
        );
        for number in 0..600 {
            let mut bytes = whole.clone();
            let (begin, end) = match number % 3 {
                0 => (0, 1024),
                1 => (sections as usize, length),
                _ => (0, length),
            };
            numbers.damage(&mut bytes, begin, end);
            program(&bytes);
        }
    }
}

/// The bytes of streams are changed as often as others.
#[test]
fn minidumps() {
    let folder = unpacked("damage-minidumps");
    let folders = [folder.path().to_path_buf()];
    let mut numbers = Numbers(0x6789_abcd_ef12_3456);
    let mut read = 0;
    for (machine, writer, how) in KEPT {
        let whole = folder.bytes(&format!("{}-{}-{}", machine, writer, how));
        for number in 0..40 {
            let mut bytes = whole.clone();
            let end = if number % 3 == 0 { 300 } else { bytes.len() };
            numbers.damage(&mut bytes, 0, end);
            read += usize::from(core(&bytes, &folders));
        }
    }
    assert!(read > 200, "{}", read);
}

#[test]
fn cores() {
    let folder = Folder::new("damage-cores");
    if !has("gdb") {
        return;
    }
    folder.write("a.s", ".globl _start\n_start: .cfi_startproc\nud2\n.cfi_endproc\n");
    folder.run("as a.s -o a.o; ld a.o -o crash");
    folder.make_core("./crash");
    let whole = folder.bytes("core");
    let notes = folder.run("readelf -lW core | awk '/NOTE/ {print $2, $5}'");
    let words: Vec<_> = notes.split_whitespace().map(crate::common::hex).collect();
    let mut numbers = Numbers(0x3456_789a_bcde_f123);
    let mut read = 0;
    for number in 0..3000 {
        let mut bytes = whole.clone();
        let (begin, end) = match number % 2 {
            0 => (0, words[0] as usize),
            _ => (words[0] as usize, (words[0] + words[1]) as usize),
        };
        numbers.damage(&mut bytes, begin, end);
        read += usize::from(core(&bytes, &[]));
    }
    assert!(read > 1000, "{}", read);
}
