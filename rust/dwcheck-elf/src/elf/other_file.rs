//! What a file is that isn't an ELF file, by its first bytes, and what to do with it.

use std::fmt;

/// A kind of file that isn't read.
#[derive(Clone, Copy, Debug, PartialEq, Eq)]
pub struct OtherFile {
    /// What the file is, such as `an archive`.
    pub kind: &'static str,
    /// What to do, such as `take its objects out by ar x`.
    pub help: &'static str,
}

/// The kinds, each by the first bytes of its files.
const KINDS: [(&[u8], OtherFile); 19] = [
    (b"\x28\xb5\x2f\xfd", OtherFile { kind: "compressed by zstd", help: "unpack it by unzstd" }),
    (b"\x1f\x8b", OtherFile { kind: "compressed by gzip", help: "unpack it by gunzip" }),
    (b"\xfd7zXZ", OtherFile { kind: "compressed by xz", help: "unpack it by unxz" }),
    (b"\x04\x22\x4d\x18", OtherFile { kind: "compressed by lz4", help: "unpack it by unlz4" }),
    (b"BZh", OtherFile { kind: "compressed by bzip2", help: "unpack it by bunzip2" }),
    (b"!<arch>\n", OtherFile { kind: "an archive", help: "take its objects out by ar x" }),
    (b"!<thin>\n", OtherFile { kind: "an archive", help: "take its objects out by ar x" }),
    (b"BC\xc0\xde", OtherFile { kind: "bitcode of LLVM", help: "compile it by clang -c" }),
    (b"\0asm", OtherFile { kind: "a module of WebAssembly", help: "it has no unwind tables" }),
    (b"MZ", OtherFile { kind: "a program of Windows", help: "its unwind tables are of another format" }),
    (b"\xcf\xfa\xed\xfe", OtherFile { kind: "a program of macOS", help: "its format isn't read" }),
    (b"\xca\xfe\xba\xbe", OtherFile { kind: "a program of macOS or a class of Java", help: "its format isn't read" }),
    (b"#!", OtherFile { kind: "a script", help: "name the program that it runs" }),
    (b"/* GNU ld script", OtherFile { kind: "a script of the linker", help: "name the library that it names" }),
    (b"PERFILE2", OtherFile { kind: "a recording of perf", help: "dwcheck-elf profile reads it" }),
    (b"MDMP", OtherFile { kind: "a minidump", help: "dwcheck-elf stack shows its stacks" }),
    (
        b"ProblemType: ",
        OtherFile {
            kind: "a report of apport",
            help: "take its core file out by apport-unpack REPORT FOLDER, and give FOLDER/CoreDump",
        },
    ),
    (b"KDUMP   ", OtherFile { kind: "a dump of a kernel", help: "its tools are crash and drgn" }),
    (b"makedumpfile", OtherFile { kind: "a dump of a kernel", help: "its tools are crash and drgn" }),
];

impl OtherFile {
    /// How many bytes at the beginning of a file are enough.
    pub const STARTS: usize = 16;

    /// The kind of a file that begins with these bytes. `None` if it isn't known, or if it is an ELF file.
    ///
    /// ```
    /// use dwcheck_elf::other_file::OtherFile;
    ///
    /// let archive = OtherFile::of(b"!<arch>\n/").unwrap();
    /// assert_eq!(archive.to_string(), "an archive, not an ELF file; take its objects out by ar x");
    /// ```
    pub fn of(start: &[u8]) -> Option<Self> {
        KINDS.iter().find(|(first, _)| start.starts_with(first)).map(|(_, kind)| *kind)
    }
}

impl fmt::Display for OtherFile {
    fn fmt(&self, f: &mut fmt::Formatter<'_>) -> fmt::Result {
        write!(f, "{}, not an ELF file; {}", self.kind, self.help)
    }
}
