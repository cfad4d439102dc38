//! Writes minidumps of core files, as Crashpad and LLDB would have written them of the same processes. The kept minidumps
//! in tests/minidumps, which those programs have written, show that this is so.

use dwcheck_elf::core_file::{CoreFile, Files, Module, Thread};
use dwcheck_elf::program::Program;
use object::{Object, ObjectSection};
use std::path::Path;

/// The numbers of the streams that are written.
pub const THREADS: u32 = 3;
pub const MODULES: u32 = 4;
pub const MEMORY: u32 = 5;
pub const EXCEPTION: u32 = 6;
pub const SYSTEM: u32 = 7;
pub const MISC: u32 = 15;
pub const MAPS: u32 = 0x4767_0009;

/// The room for the header and the directory.
const BEGIN: usize = 32 + 12 * 16;

/// As whom a minidump is written.
#[derive(Clone, Copy, Debug, PartialEq, Eq)]
pub enum Writer {
    /// Without Linux's maps, with the names that libraries give themselves, and with other registers in the list of
    /// threads for the one that crashed.
    Crashpad,
    /// With Linux's maps, the threads in reverse, and modules that end with their first segment.
    Lldb,
}

/// A minidump that is being written.
pub struct Minidump {
    bytes: Vec<u8>,
    streams: Vec<(u32, usize, usize)>,
}

impl Minidump {
    pub fn new() -> Self {
        Minidump { bytes: vec![0; BEGIN], streams: Vec::new() }
    }

    /// Adds bytes, and returns their offset.
    pub fn add(&mut self, bytes: &[u8]) -> u32 {
        self.bytes.resize((self.bytes.len() + 7) / 8 * 8, 0);
        self.bytes.extend(bytes);
        (self.bytes.len() - bytes.len()) as u32
    }

    /// Adds a stream.
    pub fn stream(&mut self, kind: u32, bytes: &[u8]) {
        let offset = self.add(bytes);
        self.streams.push((kind, bytes.len(), offset as usize));
    }

    /// Adds a text in UTF-16, and returns its offset.
    pub fn text(&mut self, text: &str) -> u32 {
        let units: Vec<u8> = text.encode_utf16().flat_map(u16::to_le_bytes).collect();
        let size = (units.len() as u32).to_le_bytes();
        self.add(&[&size[..], &units, &[0, 0]].concat())
    }

    /// The whole file.
    pub fn file(mut self) -> Vec<u8> {
        let numbers = [0x504d_444d, 0xa793, self.streams.len() as u32, 32, 0, 0, 0, 0];
        let streams = self.streams.iter().flat_map(|(kind, size, offset)| [*kind, *size as u32, *offset as u32]);
        for (place, number) in numbers.into_iter().chain(streams).enumerate() {
            self.bytes[4 * place..][..4].copy_from_slice(&number.to_le_bytes());
        }
        self.bytes
    }
}

/// Numbers of 4 bytes each.
pub fn words(numbers: &[u32]) -> Vec<u8> {
    numbers.iter().flat_map(|number| number.to_le_bytes()).collect()
}

/// A minidump of a core file. `program` is the program's file, if the core file names no files.
pub fn minidump(core: &CoreFile<'_>, program: Option<(&Path, &[u8])>, writer: Writer) -> Vec<u8> {
    let files = Files::read(core, Path::new("/"));
    let (memory, machine) = (core.memory(&files), core.abi().machine);
    let mut dump = Minidump::new();
    dump.stream(SYSTEM, &system(machine, 0x8201));
    let mut modules = core.modules(&files);
    modules.extend(program.and_then(|(path, bytes)| core.program_module(path, bytes)));
    let modules: Vec<_> = modules.iter().map(|module| module_entry(&mut dump, module, writer)).collect();
    dump.stream(MODULES, &list(&modules));
    let (mut threads, mut ranges) = (Vec::new(), Vec::new());
    let mut first = (0, 0);
    for (place, thread) in core.threads().iter().enumerate() {
        let context = context(machine, thread);
        let (size, mut at) = (context.len() as u32, dump.add(&context));
        if place == 0 {
            first = (size, at);
            let handler = Thread {
                registers: thread.registers.iter().map(|(number, _)| (*number, 1)).collect(),
                ..thread.clone()
            };
            at = if writer == Writer::Crashpad { dump.add(&self::context(machine, &handler)) } else { at };
        }
        let stack = thread.register(core.abi().stack_pointer).unwrap();
        let held = memory.from(stack).unwrap_or(&[]);
        let range = [&stack.to_le_bytes()[..], &words(&[held.len() as u32, dump.add(held)])].concat();
        threads.push([&words(&[thread.id, 0, 0, 0, 0, 0]), &range[..], &words(&[size, at])].concat());
        ranges.push(range);
    }
    if writer == Writer::Lldb {
        threads.reverse();
        dump.stream(MAPS, maps(core).as_bytes());
    }
    dump.stream(THREADS, &list(&threads));
    dump.stream(MEMORY, &list(&ranges));
    dump.stream(EXCEPTION, &exception(core, writer, first));
    dump.stream(MISC, &words(&[24, 1, core.process().map_or(0, |process| process.id), 0, 0, 0]));
    dump.file()
}

/// The system information of a machine (`e_machine`).
pub fn system(machine: u16, platform: u32) -> Vec<u8> {
    let number = match machine {
        3 => 0,
        183 => 12,
        _ => 9,
    };
    [&words(&[number]), &[0; 16][..], &words(&[platform]), &[0; 32][..]].concat()
}

/// A list with its count.
pub fn list(entries: &[Vec<u8>]) -> Vec<u8> {
    [words(&[entries.len() as u32]), entries.concat()].concat()
}

fn module_entry(dump: &mut Minidump, module: &Module<'_>, writer: Writer) -> Vec<u8> {
    let path = module.path.to_string_lossy();
    let own = module.path.file_name().unwrap().to_string_lossy();
    let is_library = own.contains(".so");
    let name = dump.text(if writer == Writer::Crashpad && is_library { &own } else { &path });
    let program = Program::read(module.image.bytes()).unwrap();
    let bytes = module.image.bytes();
    let id = program.build_id().map_or_else(|| build_id_of_code(bytes).to_vec(), <[u8]>::to_vec);
    let record = [b"LEpB", &id[..]].concat();
    let size = if writer == Writer::Lldb { 0x5e0 } else { (module.end - module.begin) as u32 };
    let record = [record.len() as u32, dump.add(&record)];
    let numbers = [&words(&[size, 0, 0, name]), &[0; 52][..], &words(&record), &[0; 24][..]].concat();
    [&module.begin.to_le_bytes()[..], &numbers].concat()
}

/// Breakpad's id of a file without a build id: of the first 4,096 bytes of `.text`, each 16 bytes from its beginning on, by
/// exclusive or (`HashElfTextSection` of `file_id.cc`).
fn build_id_of_code(bytes: &[u8]) -> [u8; 16] {
    let (begin, size) = object::File::parse(bytes).unwrap().section_by_name(".text").unwrap().file_range().unwrap();
    let mut id = [0; 16];
    for place in (0..size.min(4096) as usize).step_by(16).flat_map(|part| part..part + 16) {
        id[place % 16] ^= bytes[begin as usize + place];
    }
    id
}

fn exception(core: &CoreFile<'_>, writer: Writer, context: (u32, u32)) -> Vec<u8> {
    let (thread, signal) = (&core.threads()[0], core.signal());
    let number = signal.map_or(0, |signal| signal.number);
    let counter = thread.register(core.abi().program_counter).unwrap();
    let (cause, address) = match writer {
        Writer::Lldb => (0, counter),
        Writer::Crashpad => {
            (signal.and_then(|signal| signal.code).unwrap_or(1) as u32, signal.map_or(0, |signal| signal.address))
        }
    };
    let head = [&words(&[thread.id, 0, number, cause, 0, 0]), &address.to_le_bytes()[..]].concat();
    [&head, &[0; 128][..], &words(&[context.0, context.1])].concat()
}

fn maps(core: &CoreFile<'_>) -> String {
    let lines = core.mappings().iter().map(|mapping| {
        let executable = if core.is_executable(mapping.begin) { 'x' } else { '-' };
        let path = String::from_utf8_lossy(mapping.path);
        format!("{:x}-{:x} r-{}p {:08x} 00:00 1 {}\n", mapping.begin, mapping.end, executable, mapping.offset, path)
    });
    lines.collect()
}

/// The registers of a thread as Breakpad's `minidump_cpu_*.h` say.
fn context(machine: u16, thread: &Thread) -> Vec<u8> {
    /// The offset of the first of some registers, the size of each, and their DWARF numbers.
    type Part = (usize, usize, &'static [u16]);
    const ALL: [u16; 33] = {
        let mut all = [0; 33];
        let mut number = 0;
        while number < 33 {
            all[number] = number as u16;
            number += 1;
        }
        all
    };
    let (size, flags_at, flags, parts): (usize, usize, u32, &[Part]) = match machine {
        62 => (1232, 48, 0x10_001f, &[(120, 8, &[0, 2, 1, 3, 7, 6, 4, 5, 8, 9, 10, 11, 12, 13, 14, 15, 16])]),
        3 => (716, 0, 0x1_003f, &[(156, 4, &[7, 6, 3, 2, 1, 0, 5, 8]), (196, 4, &[4])]),
        _ => (912, 0, 0x40_0007, &[(8, 8, &ALL)]),
    };
    let mut context = vec![0; size];
    context[flags_at..][..4].copy_from_slice(&flags.to_le_bytes());
    for (at, size, numbers) in parts {
        for (place, number) in numbers.iter().enumerate() {
            let value = thread.register(*number).unwrap().to_le_bytes();
            context[at + size * place..][..*size].copy_from_slice(&value[..*size]);
        }
    }
    context
}
