//! Files that aren't ordinary ones are answered at once, in little memory.

use crate::common::Folder;
use std::process::Command;

/// Runs `dwcheck-elf` in at most 64 MB of memory, beside the files that it maps, and for at most 200
/// seconds. Returns the status and what standard error has.
fn bounded(folder: &Folder, words: &str) -> (i32, String) {
    let line = format!("ulimit -d 65536; exec timeout 200 {} {}", env!("CARGO_BIN_EXE_dwcheck-elf"), words);
    let output = Command::new("bash").args(["-c", &line]).current_dir(folder.path()).output().unwrap();
    (output.status.code().unwrap(), String::from_utf8_lossy(&output.stderr).into_owned())
}

#[test]
fn files_without_an_end_and_without_bytes() {
    let folder = Folder::new("inputs");
    folder.run("mkfifo fifo; truncate -s 3G sparse; cp /bin/true long; truncate -s 3G long; ln -s long link");
    for file in ["/dev/zero", "fifo", "sparse", "/dev/null"] {
        for command in ["check", "rows", "stack"] {
            let (status, error) = bounded(&folder, &format!("{} {}", command, file));
            assert!(
                status == 3 && error.starts_with(&format!("dwcheck-elf: {}: not ", file)),
                "{} {}: {}",
                command,
                file,
                error
            );
        }
    }
    assert_eq!(bounded(&folder, "check --no-lists long"), (0, String::new()));
    assert_eq!(bounded(&folder, "check --no-lists <(cat /bin/true)"), (0, String::new()));
    let (status, error) = bounded(&folder, "check <(cat /bin/true; cat /dev/zero)");
    assert!(status == 3 && error.contains("it isn't a regular file, and has more than "), "{}", error);
}

/// What a packed file is that isn't read as a core file, and how to unpack it.
#[test]
fn packed_core_files() {
    let folder = Folder::new("packed");
    folder.run("echo core > core; gzip -k core; printf BZh91AY > core.bz2; printf MDMPxx > mini");
    folder.run(
        "printf 'ProblemType: Crash\\nCoreDump: base64\\n H4sI' > x.crash; (printf '\\050\\265\\057\\375'; head -c 64 /dev/zero | tr '\\0' '\\377') > bad.zst",
    );
    for (file, why) in [
        ("core.gz", "not a core file that can be read: it doesn't begin as an ELF file"),
        ("core.bz2", "not a core file, but compressed by bzip2: unpack it by bunzip2"),
        (
            "x.crash",
            "not a core file, but a report of apport: take its core file out by apport-unpack REPORT FOLDER, and give FOLDER/CoreDump",
        ),
    ] {
        let (status, error) = bounded(&folder, &format!("stack {}", file));
        assert_eq!((status, error), (3, format!("dwcheck-elf: {}: {}\n", file, why)));
    }
    let (status, error) = bounded(&folder, "stack bad.zst");
    assert!(status == 3 && error.starts_with("dwcheck-elf: cannot read bad.zst: it can't be unpacked: "), "{}", error);
    let (status, error) = bounded(&folder, "check mini");
    assert_eq!(
        (status, error.as_str()),
        (3, "dwcheck-elf: mini: a minidump, not an ELF file; dwcheck-elf stack shows its stacks\n")
    );
}

/// What a file is that no command reads, and what to do.
#[test]
fn files_of_other_kinds_say_what_they_are() {
    let folder = Folder::new("other-kinds");
    folder.run("echo 'int x;' | gcc -x c - -c -o a.o && cp a.o module.ko");
    folder.run("ar rc lib.a a.o && ar rcT thin.a a.o && xz -k module.ko && gzip -k module.ko && printf BZh91AY > module.ko.bz2");
    folder.run(
        "printf '#!/bin/sh\\n' > script && cp /usr/lib/x86_64-linux-gnu/libc.so linked.so && printf 'text' > text",
    );
    for (file, why) in [
        ("lib.a", "an archive, not an ELF file; take its objects out by ar x"),
        ("thin.a", "an archive, not an ELF file; take its objects out by ar x"),
        ("module.ko.xz", "compressed by xz, not an ELF file; unpack it by unxz"),
        ("module.ko.gz", "compressed by gzip, not an ELF file; unpack it by gunzip"),
        ("module.ko.bz2", "compressed by bzip2, not an ELF file; unpack it by bunzip2"),
        ("script", "a script, not an ELF file; name the program that it runs"),
        ("linked.so", "a script of the linker, not an ELF file; name the library that it names"),
        ("text", "not an ELF file"),
    ] {
        // The stacks of many threads take more memory than there is.
        for words in ["check", "rows", "lint --jobs 2", "survey --jobs 2", "report -o page", "vars --thread 1 --core"] {
            let (status, error) = bounded(&folder, &format!("{} {}", words, file));
            assert_eq!(status, 3, "{} {}: {}", words, file, error);
            let is_unpacked = file.ends_with(".xz") || file.ends_with(".gz");
            let said = match (words, why.split_once(", not an ELF file; ")) {
                // Core files may be compressed.
                ("vars --thread 1 --core", _) if is_unpacked => "an ELF file of type 1, not a core file".to_string(),
                ("vars --thread 1 --core", Some((kind, help))) => format!("not a core file, but {}: {}", kind, help),
                ("vars --thread 1 --core", None) => "not a core file that can be read".to_string(),
                _ => why.to_string(),
            };
            assert!(error.contains(&format!("{}: {}", file, said)), "{} {}: {}", words, file, error);
        }
    }
    for words in ["check", "rows", "stack"] {
        let (status, error) = bounded(&folder, &format!("{} -", words));
        assert_eq!(status, 3, "{}", words);
        assert!(error.contains("cannot read -: ") && error.ends_with("; standard input is /dev/stdin\n"), "{}", error);
    }
}
