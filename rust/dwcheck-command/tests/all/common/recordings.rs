//! Makes recordings as perf writes them, for what no machine at hand records.

/// The bytes of a recording, in one of both byte orders.
pub struct Recording {
    is_big: bool,
    records: Vec<u8>,
}

/// The parts of a sample (`PERF_SAMPLE_`): the address, the thread, the time, the period, the registers and the stack.
const PARTS: u64 = 1 | 2 | 4 | 1 << 8 | 1 << 12 | 1 << 13;

/// perf's registers of aarch64 are 0 to 32.
pub const ARM64: u64 = (1 << 33) - 1;

/// Those of x86-64 are 0 to 8 and 16 to 23, beside flags and segments.
pub const X86: u64 = 0xff01ff;

impl Recording {
    pub fn new(is_big: bool) -> Self {
        Recording { is_big, records: Vec::new() }
    }

    fn number(&self, value: u64, size: usize) -> Vec<u8> {
        let bytes = value.to_le_bytes();
        let bytes = bytes[..size].iter().copied();
        if self.is_big {
            bytes.rev().collect()
        } else {
            bytes.collect()
        }
    }

    fn words(&self, words: &[u64]) -> Vec<u8> {
        words.iter().flat_map(|word| self.number(*word, 8)).collect()
    }

    fn halves(&self, halves: &[u32]) -> Vec<u8> {
        halves.iter().flat_map(|half| self.number(u64::from(*half), 4)).collect()
    }

    /// A record of any kind.
    pub fn record(&mut self, kind: u32, misc: u16, body: &[u8]) {
        self.sized(kind, misc, body.len() + 8, body);
    }

    /// A record that says that it has another size than it has.
    pub fn sized(&mut self, kind: u32, misc: u16, size: usize, body: &[u8]) {
        let mut head = self.halves(&[kind]);
        head.extend(self.number(u64::from(misc), 2));
        head.extend(self.number(size as u64, 2));
        self.records.extend(head);
        self.records.extend_from_slice(body);
    }

    fn padded(name: &[u8]) -> Vec<u8> {
        let mut padded = name.to_vec();
        padded.resize(name.len() / 8 * 8 + 8, 0);
        padded
    }

    /// The thread and the time that end a record.
    fn end(&self, pid: u32, time: u64) -> Vec<u8> {
        [self.halves(&[pid, pid]), self.words(&[time])].concat()
    }

    /// A process maps a file whose code may be executed (MMAP2).
    pub fn map(&mut self, pid: u32, time: u64, (begin, size, offset): (u64, u64, u64), name: &[u8]) {
        let (read, exec) = (1, 4);
        let body = [
            self.halves(&[pid, pid]),
            self.words(&[begin, size, offset]),
            self.halves(&[0, 0]),
            self.words(&[0, 0]),
            self.halves(&[read | exec, 2]),
            Self::padded(name),
            self.end(pid, time),
        ];
        self.record(10, 2, &body.concat());
    }

    /// A thread is named (COMM), or its process runs a new program.
    pub fn comm(&mut self, pid: u32, time: u64, is_exec: bool, name: &[u8]) {
        let body = [self.halves(&[pid, pid]), Self::padded(name), self.end(pid, time)];
        self.record(3, if is_exec { 1 << 13 } else { 0 }, &body.concat());
    }

    /// A process forks another one.
    pub fn fork(&mut self, parent: u32, child: u32, time: u64) {
        let body = [self.halves(&[child, parent, child, parent]), self.words(&[time]), self.end(child, time)];
        self.record(7, 0, &body.concat());
    }

    /// A sample of the program, with its registers and its stack.
    pub fn sample(&mut self, pid: u32, time: u64, address: u64, registers: &[u64], stack: &[u8]) {
        const ABI_64: u64 = 2;
        let mut copied = stack.to_vec();
        copied.resize((stack.len() + 7) / 8 * 8, 0);
        let body = [
            self.words(&[address]),
            self.halves(&[pid, pid]),
            self.words(&[time, 1000, ABI_64]),
            self.words(registers),
            self.words(&[copied.len() as u64]),
            copied,
            self.words(&[stack.len() as u64]),
        ];
        self.record(9, 2, &body.concat());
    }

    /// The description of the event: cpu-clock with a period.
    fn attribute(&self, registers: u64) -> Vec<u8> {
        let flag = |flag: u64| if self.is_big { 1u64 << (63 - flag) } else { 1 << flag };
        let mut bytes = self.halves(&[1, 112]);
        bytes.extend(self.words(&[0, 1000, PARTS, 0, flag(18)]));
        bytes.resize(80, 0);
        bytes.extend(self.words(&[registers]));
        bytes.extend(self.halves(&[512]));
        bytes.resize(112, 0);
        bytes
    }

    fn magic(&self) -> Vec<u8> {
        let mut magic = b"PERFILE2".to_vec();
        if self.is_big {
            magic.reverse();
        }
        magic
    }

    /// The file, with one event whose samples have these registers, and the architecture.
    pub fn file(&self, registers: u64, architecture: &str) -> Vec<u8> {
        self.file_of_size(registers, architecture, self.records.len() as u64)
    }

    /// The file, whose header says that the records have this size.
    pub fn file_of_size(&self, registers: u64, architecture: &str, size: u64) -> Vec<u8> {
        const HEADER: u64 = 104;
        const ATTRIBUTE: u64 = 112 + 16;
        const ARCHITECTURE: u64 = 6;
        let data = HEADER + ATTRIBUTE;
        let features = data + self.records.len() as u64;
        let name = Self::padded(architecture.as_bytes());
        let file = [
            self.magic(),
            self.words(&[HEADER, ATTRIBUTE, HEADER, ATTRIBUTE, data, size, 0, 0]),
            self.words(&[1 << ARCHITECTURE, 0, 0, 0]),
            self.attribute(registers),
            self.words(&[0, 0]),
            self.records.clone(),
            self.words(&[features + 16, 4 + name.len() as u64]),
            self.halves(&[name.len() as u32]),
            name,
        ];
        file.concat()
    }

    /// The same as perf writes it to a pipe.
    pub fn pipe(&self, registers: u64) -> Vec<u8> {
        let mut start = Recording::new(self.is_big);
        start.record(64, 0, &[self.attribute(registers), self.words(&[7])].concat());
        [self.magic(), self.words(&[16]), start.records, self.records.clone()].concat()
    }
}
