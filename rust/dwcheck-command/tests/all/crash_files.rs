//! Core files of programs whose files have changed, are gone, or are elsewhere; and the list of modules.

use crate::common::cores::{addresses, by_eu_stack, by_gdb, frames, stop};
use crate::common::run::dwcheck_elf;
use crate::common::{has, Folder};
use serde_json::Value;

/// Changes a byte of its own code, which its first page has if the linker doesn't separate code.
const PATCHED: &str = "
#include <stdint.h>
#include <stdlib.h>
#include <sys/mman.h>
__attribute__((noinline)) int patched(int n) { return n + 1; }
__attribute__((noinline)) int work(int n) { abort(); }
int main(int c, char **v) {
    uintptr_t page = (uintptr_t)patched & ~4095ul;
    mprotect((void *)page, 4096, PROT_READ | PROT_WRITE | PROT_EXEC);
    *(volatile unsigned char *)patched = 0xcc;
    return work(c) + 1;
}
";

/// A file is the one that was mapped if its build id is, also if the process has changed its first page. Without a
/// build id, it isn't known to be.
#[test]
fn a_program_that_changed_its_first_page() {
    let folder = Folder::new("files-patched");
    if !has("gdb") {
        return;
    }
    folder.write("a.c", PATCHED);
    for flags in ["-Wl,--build-id", "-Wl,--build-id=none"] {
        folder.run(&format!("gcc -O1 -Wl,-z,noseparate-code {} a.c -o program", flags));
        folder.make_core("./program");
        let page = folder.run("nm program | sed -n 's/^0*\\([0-9a-f]*\\) T patched/\\1/p'");
        assert!(crate::common::hex(page.trim()) < 4096, "{}", page);
        for words in ["stack --no-inline --no-source core", "stack --no-inline --no-source program core"] {
            let ran = dwcheck_elf(&folder, words);
            if flags.ends_with("none") {
                assert!(ran.error.contains("isn't the file that was mapped"), "{}{}", ran.error, ran.out);
                continue;
            }
            assert_eq!(ran.error, "", "{}", ran.out);
            assert_eq!(addresses(&frames(&ran.out)), by_gdb(&folder, "program"), "{}", ran.out);
            assert!(ran.out.contains(" work+") && ran.out.contains(" main+"), "{}", ran.out);
        }
    }
}

/// Has frames in the program and, by `qsort`, in the C library.
const SORTS: &str = "
#include <stdlib.h>
static int order(const void *x, const void *y) { if (x != y) abort(); return 0; }
__attribute__((noinline)) int sorts(int n) { int all[] = {n, 2, 3}; qsort(all, 3, sizeof *all, order); return all[0]; }
int main(int c, char **v) { return sorts(c) + 1; }
";

/// Makes the core file of a program, with all of the memory that is mapped from files if `has_files`.
fn crash(folder: &Folder, has_files: bool) {
    let filter = if has_files { "0x7f" } else { "0x33" };
    let make = format!("{}/../../tools/make_core.sh", env!("CARGO_MANIFEST_DIR"));
    folder.run(&format!("echo {} > /proc/self/coredump_filter; {} ./program", filter, make));
}

/// The frames of a program whose file is gone or was replaced, by what the core file has of it: those that eu-stack
/// finds, and those of the program while it was there.
#[test]
fn a_program_that_is_gone_but_in_the_core_file() {
    let folder = Folder::new("files-gone");
    if !has("gdb") || !has("eu-stack") {
        return;
    }
    folder.write("a.c", SORTS);
    for flags in ["", "-Wl,-z,noseparate-code", "-no-pie"] {
        folder.run(&format!("gcc -O1 {} a.c -o program", flags));
        crash(&folder, true);
        let before = dwcheck_elf(&folder, "stack --no-inline --no-source core");
        assert!(before.error.is_empty() && before.out.contains(" sorts+"), "{}{}", before.error, before.out);
        for change in ["rm program", "gcc -O2 -g a.c -o program"] {
            folder.run(change);
            let after = dwcheck_elf(&folder, "stack --no-inline --no-source core");
            assert_eq!(addresses(&frames(&after.out)), addresses(&frames(&before.out)), "{}", after.out);
            assert_eq!(stop(&after.out), "stop: return undefined");
            assert!(after.error.contains("/program: ") && !after.out.contains("guess"), "{}{}", after.error, after.out);
        }
        folder.run("rm program");
        let after = dwcheck_elf(&folder, "stack --no-inline --no-source core");
        assert_eq!(addresses(&frames(&after.out)), by_eu_stack(&folder, "/nowhere"), "{}", after.out);
    }
}

/// If the core file hasn't all of the program's code and tables, nothing is made up of it.
#[test]
fn a_program_that_is_gone_and_not_in_the_core_file() {
    let folder = Folder::new("files-lost");
    if !has("gdb") {
        return;
    }
    folder.write("a.c", SORTS);
    folder.run("gcc -O1 a.c -o program");
    crash(&folder, false);
    folder.run("rm program");
    let ran = dwcheck_elf(&folder, "stack --no-inline --no-source --strict core");
    assert!(ran.error.contains("/program: can't be read") && !ran.out.contains("/program)"), "{}", ran.out);
    assert_eq!(stop(&ran.out), "stop: not covered");
}

/// systemd keeps core files compressed, and coredumpctl calls a debugger with `PROGRAM -c CORE`. One that is cut off, as by
/// a full disk, has an answer too.
#[test]
fn compressed_core_files() {
    let folder = Folder::new("files-compressed");
    if !["gdb", "zstd", "lz4", "xz", "gzip"].iter().all(|tool| has(tool)) {
        return;
    }
    folder.write("a.c", SORTS);
    folder.run("gcc -O1 a.c -o program");
    crash(&folder, false);
    let plain = dwcheck_elf(&folder, "stack core");
    assert!(plain.out.contains(" sorts+") && plain.error.is_empty(), "{}{}", plain.error, plain.out);
    for tool in ["zstd", "lz4", "xz", "gzip"] {
        folder.run(&format!("{} -c core > core.packed", tool));
        for words in ["stack core.packed", "stack ./program -c core.packed", "stack -c core.packed"] {
            let ran = dwcheck_elf(&folder, words);
            assert_eq!((ran.status, &ran.out, ran.error.as_str()), (0, &plain.out, ""), "{} {}", tool, words);
        }
        let vars = dwcheck_elf(&folder, "vars --core core.packed");
        assert_eq!(vars.out, dwcheck_elf(&folder, "vars --core core").out);
        folder.run("head -c 20000 core.packed > cut");
        let cut = dwcheck_elf(&folder, "stack cut");
        assert!(cut.status == 3 || cut.error.contains("ends before the memory"), "{}{}", cut.error, cut.out);
    }
    assert_eq!(dwcheck_elf(&folder, "stack ./program core.packed -c core.packed").status, 2);
}

/// What a program and another one share: the type `int`, and the name `shared`.
const COMMON: &str = r#"
.section .debug_abbrev,"",@progbits
.uleb128 1, 0x3c; .byte 1; .uleb128 0, 0                   # partial unit
.uleb128 2, 0x24; .byte 0; .uleb128 3, 8, 11, 11, 62, 11, 0, 0 # base type: name, size, encoding
.byte 0
.section .debug_info,"",@progbits
.long 2f - 1f
1: .short 4
.long 0
.byte 8
.uleb128 1
.uleb128 2
.asciz "int"
.byte 4, 5, 0
2:
.section .debug_str,"MS",@progbits,1
.asciz "shared"
.text
.globl nothing
nothing: ret
"#;

/// A program whose function has a variable, named by the string 0 of the other file, of the type at the offset 12 there.
const SHARES: &str = r#"
.text
.globl _start
.type _start, @function
_start: .cfi_startproc
 .cfi_undefined %rip
 ud2
.cfi_endproc
end:
.size _start, . - _start
.section .debug_abbrev,"",@progbits
.uleb128 1, 0x11; .byte 1; .uleb128 3, 8, 0x11, 1, 0x12, 7, 0, 0
.uleb128 2, 0x2e; .byte 1; .uleb128 3, 8, 0x11, 1, 0x12, 7, 0, 0
.uleb128 3, 0x34; .byte 0; .uleb128 3, 0x1f21, 0x49, 0x1f20, 0x1c, 11, 0, 0
.byte 0
.section .debug_info,"",@progbits
.long 2f - 1f
1: .short 4
.long 0
.byte 8
.uleb128 1
.asciz "a.s"
.quad _start, end - _start
.uleb128 2
.asciz "_start"
.quad _start, end - _start
.uleb128 3
.long 0, 12
.byte 7
.byte 0, 0
2:
.section .gnu_debugaltlink,"",@progbits
.asciz "NAME"
.byte 0x01, 0x23, 0x45, 0x67, 0x89, 0xab, 0xcd, 0xef
.section .note.GNU-stack,"",@progbits
"#;

/// Debug information that several files share is found by its path, relative to the file or absolute. If it isn't
/// there or is another build's, a line says so.
#[test]
fn shared_debug_information_by_its_path() {
    let folder = Folder::new("files-shared");
    folder.run("mkdir shared bin");
    folder.write("common.s", COMMON);
    let make = |id: &str| format!("gcc -nostdlib -shared -Wl,--build-id=0x{} common.s -o shared/common.debug", id);
    let absolute = folder.file("shared/common.debug");
    for name in ["../shared/common.debug", absolute.to_str().unwrap()] {
        folder.run(&make("0123456789abcdef"));
        folder.write("a.s", SHARES.replace("NAME", name));
        folder.run("gcc -nostdlib -static a.s -o bin/program");
        let found = dwcheck_elf(&folder, "vars bin/program _start");
        assert_eq!(
            (found.out.as_str(), found.error.as_str()),
            ("function _start\n    var shared: int = 7 (value)\n", "")
        );
        if has("gdb") {
            folder.make_core("bin/program");
            let stack = dwcheck_elf(&folder, "stack --vars core");
            assert!(stack.out.contains("    var shared: int = 7 (value)\n"), "{}{}", stack.out, stack.error);
            assert_eq!(stack.error, "");
        }
        for lose in [make("0123456789abcdee"), "rm shared/common.debug".to_string()] {
            folder.run(&lose);
            let why = format!("bin/program: the file with debug information that it shares, {}, isn't there\n", name);
            let lost = dwcheck_elf(&folder, "vars bin/program _start");
            assert!(lost.error.ends_with(&why) && lost.out.contains("var ?: "), "{}{}", lost.out, lost.error);
            if has("gdb") {
                let stack = dwcheck_elf(&folder, "stack core");
                assert!(stack.error.ends_with(&why) && stack.error.matches('\n').count() == 1, "{}", stack.error);
            }
        }
    }
}

/// The modules have the build ids that readelf shows, and frames the addresses that addr2line names; also files that
/// are gone, if the core file has the beginnings of them.
#[test]
fn modules_with_build_ids_and_addresses_in_their_files() {
    let folder = Folder::new("files-modules");
    if !has("gdb") {
        return;
    }
    folder.write("a.c", SORTS);
    folder.run("gcc -O1 -Wl,--build-id a.c -o program");
    crash(&folder, false);
    let id = |file: &str| folder.run(&format!("readelf -n {} | sed -n 's/.*Build ID: //p'", file)).trim().to_string();
    let ran = dwcheck_elf(&folder, "stack --no-inline --no-source --json core");
    let json: Value = serde_json::from_str(&ran.out).unwrap();
    let own =
        json["threads"][0]["frames"].as_array().unwrap().iter().find(|frame| frame["function"] == "sorts").unwrap();
    let address = crate::common::hex(own["module_offset"].as_str().unwrap()) - 1;
    assert_eq!(folder.run(&format!("addr2line -f -e program {:#x} | head -1", address)), "sorts\n");
    assert_eq!(own["build_id"], id("program").as_str());
    let modules = json["modules"].as_array().unwrap();
    let paths: Vec<_> = modules.iter().map(|module| module["path"].as_str().unwrap()).collect();
    for path in paths.iter().filter(|path| path.starts_with('/')) {
        let module = modules.iter().find(|module| module["path"] == *path).unwrap();
        assert_eq!(module["build_id"], id(path).as_str(), "{}", path);
    }
    assert!(paths.iter().any(|path| path.ends_with("/libc.so.6")) && paths.contains(&"[vdso]"), "{:?}", paths);

    let plain = dwcheck_elf(&folder, "stack --no-inline --no-source core");
    let text = dwcheck_elf(&folder, "stack --no-inline --no-source --modules core");
    let (frame, file) = (own["module_offset"].as_str().unwrap(), folder.file("program"));
    assert!(text.out.contains(&format!(" ({}+{})\n", file.display(), frame)), "{}", text.out);
    let line = format!(" build-id {} ({})\n", id("program"), file.display());
    assert!(text.out.contains(&line) && !plain.out.contains("build-id"), "{}", text.out);
    assert_eq!(text.out.matches("\nmodule 0x").count(), modules.len());

    let before = modules.iter().find(|module| module["path"] == file.to_str().unwrap()).unwrap().clone();
    folder.run("rm program");
    let ran = dwcheck_elf(&folder, "stack --no-inline --no-source --json core");
    let json: Value = serde_json::from_str(&ran.out).unwrap();
    let gone = json["modules"].as_array().unwrap().iter().find(|module| module["path"] == before["path"]).unwrap();
    assert_eq!(
        [&gone["build_id"], &gone["begin"], &gone["bias"]],
        [&before["build_id"], &before["begin"], &Value::Null]
    );
}

/// A document of JSON takes not much more memory than the text: its frames are written one by one.
#[test]
fn frames_of_json_are_written_one_by_one() {
    let folder = Folder::new("files-json");
    if !has("gdb") {
        return;
    }
    folder.write(
        "a.c",
        "#include <stdlib.h>
__attribute__((noinline)) int deep(int n) { volatile int kept = n; if (n == 0) abort(); return deep(n - 1) + kept; }
int main(void) { return deep(20000) + 1; }",
    );
    folder.run("gcc -O1 a.c -o program");
    folder.make_core("./program");
    let program = env!("CARGO_BIN_EXE_dwcheck-elf");
    let run = |words: &str| {
        folder.run(&format!("ulimit -v 90000; {} stack --no-inline --no-source --limit 100000 {} core | grep -o ' deep+\\|\"deep\"' | wc -l", program, words))
    };
    assert_eq!((run("").trim(), run("--json").trim()), ("20001", "20001"));
}

/// Ends by a failed assertion, or by a signal of another process.
const ENDS: &str = "
#include <assert.h>
#include <signal.h>
#include <stdlib.h>
#include <unistd.h>
int main(int c, char **v) {
    int number = atoi(v[1]);
    if (number == 0 && fork() == 0) {
        kill(getppid(), SIGBUS);
        return 0;
    }
    if (number == 0) for (;;) pause();
    assert(number == 2);
    abort();
}
";

/// What the process was told before it ended: the message of an assertion, its command line, and which process sent
/// the signal. A process that aborts itself has none of a sender.
#[test]
fn messages_command_lines_and_senders() {
    let folder = Folder::new("files-ends");
    if !has("gdb") {
        return;
    }
    folder.write("a.c", ENDS);
    folder.run("gcc -O1 a.c -o program");
    let document = || -> Value {
        serde_json::from_str(&dwcheck_elf(&folder, "stack --no-inline --no-source --json core").out).unwrap()
    };
    folder.crash("./program 1");
    let message = "abort message: program: a.c:13: main: Assertion `number == 2' failed.";
    let ran = dwcheck_elf(&folder, "stack --no-inline --no-source core");
    assert_eq!(ran.lines()[1], message, "{}", ran.out);
    let json = document();
    assert_eq!(json["abort_message"], message.strip_prefix("abort message: ").unwrap());
    assert!(json["command"].as_str().unwrap().ends_with("program 1"), "{}", json["command"]);
    folder.crash("./program 2");
    let ran = dwcheck_elf(&folder, "stack --no-inline --no-source core");
    assert!(ran.lines()[1].starts_with("thread "), "{}", ran.out);
    folder.crash("./program 0");
    let ran = dwcheck_elf(&folder, "stack --no-inline --no-source core");
    let sent = ran.lines()[1].strip_prefix("sent by process ").unwrap_or_else(|| panic!("{}", ran.out)).to_string();
    let uid = folder.run("id -u");
    assert!(sent.ends_with(&format!(" of user {}", uid.trim())), "{}", ran.out);
    let json = document();
    let sender = &json["signal"]["sender"];
    assert_eq!(sent, format!("{} of user {}", sender["pid"], sender["uid"]));
    // Not always a higher one, since ids begin again after the highest one.
    assert!(sender["pid"] != json["pid"] && json["abort_message"].is_null(), "{}", json["signal"]);
}
