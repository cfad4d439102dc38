//! The stacks of recordings of perf, beside those that `perf script` writes for them.
//!
//! tests/recordings has recordings of spin.c, each with the lines that perf 6.1 wrote for it.

use crate::common::run::{dwcheck_elf_words, Ran};
use crate::common::Folder;
use serde_json::Value;
use std::path::PathBuf;

fn recordings() -> PathBuf {
    PathBuf::from(env!("CARGO_MANIFEST_DIR")).join("tests/recordings")
}

/// Runs `profile` on a recording of spin.c.
fn profile(folder: &Folder, name: &str, words: &[&str]) -> Ran {
    let (root, file) = (recordings(), recordings().join(name));
    let first = ["profile", "--root", root.to_str().unwrap(), file.to_str().unwrap()];
    let ran = dwcheck_elf_words(folder, &[&first, words].concat());
    assert_eq!(ran.status, 0, "{}", ran.error);
    ran
}

/// What perf wrote for a recording.
fn script(name: &str) -> String {
    std::fs::read_to_string(recordings().join(name)).unwrap()
}

/// The sum of what samples of an event weigh, by perf's lines.
fn weight(script: &str, event: &str) -> u64 {
    let heads = script.lines().filter(|line| line.trim_end().ends_with(&format!(" {}:", event)));
    heads.map(|head| head.split_whitespace().nth(3).unwrap().parse::<u64>().unwrap()).sum()
}

#[test]
fn the_lines_are_those_of_perf() {
    let folder = Folder::new("profile-script");
    for name in ["dwarf", "zstd", "pipe", "two", "group", "chain"] {
        let ran = profile(&folder, &format!("{}.perf", name), &["--format", "script", "--no-inline"]);
        assert_eq!(ran.out, script(&format!("{}.script", name)), "{}", name);
    }
}

/// A recording of Linux for arm64: bench/arm64/kept.c, whose return addresses are signed. perf shows when samples were
/// taken and where, but takes no signature off: that the other frames are these is known from the program.
#[test]
fn signed_return_addresses_of_a_recording_of_arm64_are_followed() {
    let (folder, by_perf) = (Folder::new("profile-arm64"), script("arm64.script"));
    let ran = profile(&folder, "arm64.perf", &["--no-inline"]);
    let stack = format!("kept;_start;main_of;{}works", "works;".repeat(8));
    assert_eq!(ran.out, format!("{} {}\n", stack, weight(&by_perf, "cpu-clock:u")));
    let innermost = |text: &str| {
        let samples = text.split("\n\n").filter(|sample| !sample.trim().is_empty());
        samples.map(|sample| sample.trim().lines().take(2).collect::<Vec<_>>().join("\n")).collect::<Vec<_>>()
    };
    let ran = profile(&folder, "arm64.perf", &["--format", "script", "--no-inline"]);
    assert_eq!(innermost(&ran.out), innermost(&by_perf));
    assert!(innermost(&by_perf).len() > 3, "{}", by_perf);
}

/// perf wrote a file for each processor, and the program was moved from one to another.
#[test]
fn the_lines_of_a_folder_are_those_of_perf() {
    let folder = Folder::new("profile-folder");
    let ran = profile(&folder, "threads.perf", &["--format", "script", "--no-inline"]);
    assert_eq!(ran.out, script("threads.script"));
}

#[test]
fn a_file_of_a_folder_that_is_cut_off_is_named() {
    let folder = Folder::new("profile-folder-cut");
    for name in ["data", "data.0", "data.1", "data.2", "data.3"] {
        let bytes = std::fs::read(recordings().join("threads.perf").join(name)).unwrap();
        let end = if name == "data.1" { bytes.len() - 1 } else { bytes.len() };
        folder.write(name, &bytes[..end]);
    }
    let (root, path) = (recordings(), folder.path().to_str().unwrap().to_string());
    let ran = dwcheck_elf_words(&folder, &["profile", "--root", root.to_str().unwrap(), "--quiet", &path]);
    assert_eq!(ran.status, 3);
    let name = format!("dwcheck-elf: {}: data.1: ends inside of the record at ", path);
    assert!(ran.error.starts_with(&name), "{}", ran.error);
    assert!(ran.out.starts_with("spin;_start;main;middle;twice;leaf "), "{}", ran.out);
    std::fs::remove_file(folder.file("data")).unwrap();
    let ran = dwcheck_elf_words(&folder, &["profile", &path]);
    let said = format!(
        "dwcheck-elf: {}/data: can't be read: No such file or directory (os error 2); \
         give a file, or a folder that perf record --threads wrote\n",
        path
    );
    assert_eq!((ran.status, ran.error), (3, said));
}

#[test]
fn a_pipe_is_read_while_it_is_written() {
    let folder = Folder::new("profile-pipe");
    let (program, root) = (env!("CARGO_BIN_EXE_dwcheck-elf"), recordings());
    let root = root.display();
    let words = format!("{} profile - --root {} --format script --no-inline --quiet", program, root);
    let out = folder.run(&format!("(head -c 9000; sleep 0.1; cat) < {}/pipe.perf | {}", root, words));
    assert_eq!(out, script("pipe.script"));
}

#[test]
fn folded_stacks_have_inlined_functions_and_are_weighted_by_period() {
    let folder = Folder::new("profile-folded");
    let ran = profile(&folder, "dwarf.perf", &[]);
    let sum = weight(&script("dwarf.script"), "cpu-clock:u");
    assert_eq!(ran.out, format!("spin;_start;main;middle;twice;leaf {}\n", sum));
    assert_eq!(ran.error, "samples 17 frames 68 truncated 0\n");
    let ran = profile(&folder, "dwarf.perf", &["--no-inline", "--quiet", "--max-stack", "2"]);
    assert_eq!((ran.out, ran.error), (format!("spin;middle;leaf {}\n", sum), String::new()));
}

/// The functions of the stack of each sample of a thread for the Firefox Profiler, the innermost first.
fn firefox_stacks(thread: &Value) -> Vec<Vec<&str>> {
    fn cell<'t>(thread: &'t Value, table: &str, column: &str, row: &Value) -> &'t Value {
        &thread[table][column][row.as_u64().unwrap() as usize]
    }
    let stack = |mut at| {
        let mut functions = Vec::new();
        while !Value::is_null(at) {
            let function = cell(thread, "frameTable", "func", cell(thread, "stackTable", "frame", at));
            let name = cell(thread, "funcTable", "name", function);
            functions.push(thread["stringArray"][name.as_u64().unwrap() as usize].as_str().unwrap());
            at = cell(thread, "stackTable", "prefix", at);
        }
        functions
    };
    thread["samples"]["stack"].as_array().unwrap().iter().map(stack).collect()
}

#[test]
fn the_firefox_profiler_gets_the_stacks_and_weights_of_perf() {
    let folder = Folder::new("profile-firefox");
    let ran = profile(&folder, "dwarf.perf", &["--format", "firefox", "--no-inline"]);
    let json: Value = serde_json::from_str(&ran.out).unwrap();
    let threads = json["threads"].as_array().unwrap();
    assert_eq!((threads.len(), &threads[0]["name"]), (1, &Value::from("spin")));
    for table in ["samples", "stackTable", "frameTable", "funcTable", "resourceTable", "nativeSymbols", "markers"] {
        let table = threads[0][table].as_object().unwrap();
        let mut columns = table.values().filter_map(Value::as_array);
        assert!(columns.all(|column| column.len() as u64 == table["length"].as_u64().unwrap()));
    }
    let perf = script("dwarf.script");
    let function = |line: &'_ str| line.split_whitespace().nth(1).unwrap().split('+').next().unwrap().to_string();
    let of_sample = |sample: &str| sample.lines().skip(1).map(function).collect::<Vec<_>>();
    let expected: Vec<Vec<String>> = perf.trim_end().split("\n\n").map(of_sample).collect();
    assert_eq!(firefox_stacks(&threads[0]), expected);
    let weights = threads[0]["samples"]["weight"].as_array().unwrap().iter().map(|weight| weight.as_f64().unwrap());
    assert_eq!(threads[0]["samples"]["weightType"], "tracing-ms");
    assert!((weights.sum::<f64>() * 1e6 - weight(&perf, "cpu-clock:u") as f64).abs() < 1.0);
}

#[test]
fn one_event_is_shown_and_the_others_are_named() {
    let folder = Folder::new("profile-events");
    let ran = profile(&folder, "two.perf", &["--quiet"]);
    assert_eq!(ran.error, "dwcheck-elf: shown is cpu-clock:u; give --event for task-clock:u\n");
    let ran = profile(&folder, "group.perf", &["--event", "page-faults", "--quiet"]);
    let sum = weight(&script("group.script"), "page-faults");
    assert_eq!(ran.out.rsplit(' ').next().unwrap().trim(), sum.to_string());
    assert_eq!(ran.error, "");
}

#[test]
fn an_event_that_is_not_there_is_refused_and_those_that_are_there_are_named() {
    let folder = Folder::new("profile-no-event");
    for (name, events) in [("two.perf", "cpu-clock:u, task-clock:u"), ("pipe.perf", "cpu-clock:u")] {
        let path = recordings().join(name);
        let path = path.to_str().unwrap();
        let ran = dwcheck_elf_words(&folder, &["profile", "--event", "cycles", "-o", "out", path]);
        let said =
            format!("dwcheck-elf: bad argument: --event cycles: {} has no such event; it has {}\n", path, events);
        assert_eq!((ran.status, ran.error), (2, said));
        assert!(!folder.file("out").exists());
    }
}

#[test]
fn options_choose_samples() {
    let folder = Folder::new("profile-options");
    let perf = script("dwarf.script");
    let heads: Vec<&str> = perf.lines().filter(|line| line.starts_with("spin")).collect();
    let words: Vec<&str> = heads[3].split_whitespace().collect();
    let (tid, time) = (words[1], words[2].trim_end_matches(':'));
    let samples = |words: &[&str]| {
        let ran = profile(&folder, "dwarf.perf", &[words, &["--format", "script"]].concat());
        ran.out.lines().filter(|line| line.starts_with("spin")).count()
    };
    assert_eq!(samples(&["--tid", tid, "--comm", "spin", "--pid", tid]), heads.len());
    assert_eq!(samples(&["--tid", "1"]) + samples(&["--comm", "other"]), 0);
    assert_eq!(samples(&["--time", &format!(",{}", time)]), 3);
    assert_eq!(samples(&["--time", &format!("{},", time)]), heads.len() - 3);
}

#[test]
fn stops_are_counted() {
    let folder = Folder::new("profile-stops");
    let ran = profile(&folder, "dwarf.perf", &["--stops"]);
    assert_eq!(ran.error.lines().last(), Some("stop complete: 17"));
    let ran = profile(&folder, "dwarf.perf", &["--stops", "--max-stack", "3", "--format", "script"]);
    assert_eq!(ran.error.lines().last(), Some("stop limit: 17"));
    assert_eq!(ran.out.matches("\n# stop: limit\n\n").count(), 17);
}

#[test]
fn lines_of_source_are_shown() {
    let folder = Folder::new("profile-lines");
    let ran = profile(&folder, "dwarf.perf", &["--lines"]);
    let line = ran.out.lines().next().unwrap();
    // main calls in line 18, and middle in line 14, in whose place the calls of lines 8 and 9 are inlined.
    assert!(
        line.starts_with("spin;_start;main (spin.c:18);middle (spin.c:14);twice (spin.c:8);leaf (spin.c:5) "),
        "{}",
        line
    );
}

/// The rows of a table of functions are split by line, so each has its line, and no two are the same.
#[test]
fn a_table_of_functions_has_the_lines() {
    let folder = Folder::new("profile-top-lines");
    let rows = |words: &[&str]| {
        let out = profile(&folder, "dwarf.perf", &[&["--format", "top"], words].concat()).out;
        out.lines().skip(1).map(|row| row[17..].to_string()).collect::<Vec<_>>()
    };
    let lines = rows(&["--lines"]);
    for row in ["leaf (spin.c:5) (spin)", "middle (spin.c:14) (spin)", "main (spin.c:18) (spin)", "_start (spin)"] {
        assert_eq!(lines.iter().filter(|line| *line == row).count(), 1, "{:?}", lines);
    }
    assert_eq!(rows(&[]), ["leaf (spin)", "_start (spin)", "main (spin)", "middle (spin)", "twice (spin)"]);
}

#[test]
fn a_table_of_functions_has_as_many_rows_as_asked_for() {
    let folder = Folder::new("profile-top-rows");
    let rows = |count: &str| {
        let out = profile(&folder, "dwarf.perf", &["--format", "top", "--rows", count]).out;
        out.lines().skip(1).count()
    };
    assert_eq!(["0", "2", "100"].map(rows), [0, 2, 5]);
}

#[test]
fn a_file_with_another_build_id_is_named_and_not_used() {
    let folder = Folder::new("profile-other");
    std::fs::create_dir_all(folder.file("home/user/session")).unwrap();
    let spin = std::fs::read(recordings().join("home/user/session/spin")).unwrap();
    let note = spin.windows(4).position(|window| window == b"GNU\0").unwrap();
    let mut other = spin.clone();
    other[note + 4] ^= 1;
    folder.write("home/user/session/spin", other);
    let (program, file) = (env!("CARGO_BIN_EXE_dwcheck-elf"), recordings().join("dwarf.perf"));
    // perf's cache is in the home folder.
    let words = format!("HOME=$PWD {} profile --root . --stops {} 2> error", program, file.display());
    let out = folder.run(&words);
    let error = String::from_utf8(folder.bytes("error")).unwrap();
    let why = "/home/user/session/spin: isn't the file that was recorded: its build id is another";
    assert!(error.contains(why), "{}", error);
    assert_eq!(error.lines().last(), Some("stop no table: 17"));
    assert!(out.starts_with("spin;[spin] "), "{}", out);
    let id: String = spin[note + 4..note + 24].iter().map(|byte| format!("{:02x}", byte)).collect();
    let cache = format!(".debug/.build-id/{}/{}", &id[..2], &id[2..]);
    std::fs::create_dir_all(folder.file(&cache)).unwrap();
    folder.write(&format!("{}/elf", cache), spin);
    assert!(folder.run(&words).starts_with("spin;_start;main;middle;twice;leaf "));
    std::fs::remove_dir_all(folder.file(".debug")).unwrap();
    std::fs::remove_file(folder.file("home/user/session/spin")).unwrap();
    folder.run(&words);
    let error = String::from_utf8(folder.bytes("error")).unwrap();
    assert!(error.contains("/home/user/session/spin: can't be read: "), "{}", error);
}

#[test]
fn an_output_file_is_written_as_a_whole() {
    let folder = Folder::new("profile-output");
    folder.write("out", "before");
    let ran = profile(&folder, "dwarf.perf", &["-o", folder.file("out").to_str().unwrap()]);
    assert_eq!(ran.out, "");
    assert!(folder.bytes("out").starts_with(b"spin;_start;main;"));
    let names: Vec<_> = std::fs::read_dir(folder.path()).unwrap().map(|entry| entry.unwrap().file_name()).collect();
    assert_eq!(names, ["out"]);
}

/// A recording that is lost can't be made again. So whatever name of it is given, it isn't overwritten.
#[test]
fn the_recording_is_never_overwritten() {
    let folder = Folder::new("profile-overwrite");
    let recording = std::fs::read(recordings().join("dwarf.perf")).unwrap();
    folder.write("a.perf", &recording);
    folder.run("ln a.perf hard.perf && ln -s a.perf soft.perf && mkdir all && ln a.perf all/data");
    for (output, input) in
        [("a.perf", "a.perf"), ("./a.perf", "soft.perf"), ("soft.perf", "a.perf"), ("hard.perf", "a.perf")]
    {
        let ran = dwcheck_elf_words(&folder, &["profile", "-o", output, input]);
        let said = format!(
            "dwcheck-elf: bad argument: --output {} would overwrite {}, which is read; give another file\n",
            output, input
        );
        assert_eq!((ran.status, ran.error), (2, said));
    }
    let ran = dwcheck_elf_words(&folder, &["profile", "-o", "a.perf", "all"]);
    assert!(ran.status == 2 && ran.error.contains(" would overwrite all/data, "), "{}", ran.error);
    let ran = dwcheck_elf_words(&folder, &["profile", "-o", "a.perf", "--kallsyms", "soft.perf", "other.perf"]);
    assert!(ran.status == 2 && ran.error.contains(" would overwrite soft.perf, "), "{}", ran.error);
    let program = env!("CARGO_BIN_EXE_dwcheck-elf");
    folder.run(&format!("{} profile - -o hard.perf < a.perf 2> error; [ $? = 2 ]", program));
    assert_eq!(folder.bytes("a.perf"), recording);
    assert_eq!(folder.bytes("hard.perf"), recording);
}

/// The offset of its data, in the header.
const DATA_OFFSET: usize = 40;

#[test]
fn a_recording_whose_data_begin_at_the_highest_offset_has_none() {
    let folder = Folder::new("profile-highest-offset");
    let mut bytes = std::fs::read(recordings().join("dwarf.perf")).unwrap();
    bytes[DATA_OFFSET..DATA_OFFSET + 8].fill(0xff);
    folder.write("made.perf", &bytes);
    let ran = dwcheck_elf_words(&folder, &["profile", "made.perf"]);
    assert_eq!((ran.out.as_str(), ran.status), ("", 3), "{}", ran.error);
}

/// Names without lines are found in another way than those with lines.
#[test]
fn names_with_and_without_lines_are_the_same() {
    let folder = Folder::new("profile-names-and-lines");
    let mut with_lines = 0;
    for name in ["dwarf.perf", "two.perf", "threads.perf"] {
        let functions = |words: &[&str]| {
            let script = profile(&folder, name, &[&["--format", "script"], words].concat()).out;
            let frames = script.lines().filter(|line| line.starts_with('\t')).map(str::to_string);
            (frames.collect::<Vec<_>>(), script.lines().filter(|line| line.starts_with("  ")).count())
        };
        let ((plain, no_lines), (lined, lines)) = (functions(&[]), functions(&["--lines"]));
        assert_eq!((plain, no_lines), (lined, 0));
        with_lines += lines;
    }
    assert!(with_lines > 0);
}

/// The stacks of both events are `_start`, `main`, `middle`, `twice` (inlined) and `leaf`, as perf says.
#[test]
fn a_function_is_shown_with_its_callers_and_what_it_calls() {
    let folder = Folder::new("profile-focus");
    let [root, file] = [recordings(), recordings().join("dwarf.perf")].map(|path| path.to_str().unwrap().to_string());
    let run = |words: &[&str]| {
        let all = ["profile", "--quiet", "--root", &root, &file, "--focus"];
        dwcheck_elf_words(&folder, &[&all[..], words].concat())
    };
    let script = std::fs::read_to_string(recordings().join("dwarf.script")).unwrap();
    let heads = script.lines().filter(|line| line.starts_with("spin"));
    let weight: u64 = heads.map(|head| head.split_whitespace().nth(3).unwrap().parse::<u64>().unwrap()).sum();
    let expected = format!(
        "   self   total  cpu-clock:u {}
  0.00% 100.00%  middle (spin)
callers
        100.00%  main (spin)
calls
        100.00%  twice (spin)
",
        weight
    );
    assert_eq!(run(&["middle", "--format", "top"]).out, expected);
    let leaf = run(&["leaf", "--format", "top"]).out;
    assert!(leaf.ends_with("callers\n        100.00%  twice (spin)\ncalls\n        100.00%  none\n"), "{}", leaf);
    assert_eq!(run(&["middle"]).out, format!("spin;_start;main;middle;twice;leaf {}\n", weight));
    let other = run(&["nobody"]);
    assert_eq!((other.status, other.out.as_str()), (2, ""));
    assert!(other.error.contains("--focus nobody: no stack has this function"), "{}", other.error);
}
