//! Profiles in the formats of other programs: what their documentation says of them, and what the programs read.

use crate::common::run::dwcheck_elf_words;
use crate::common::{has, Folder};
use serde_json::{Map, Value};
use std::path::PathBuf;

fn recordings() -> PathBuf {
    PathBuf::from(env!("CARGO_MANIFEST_DIR")).join("tests/recordings")
}

/// The profile of a recording of spin.c in a format, in the file `out` of the folder.
fn write(folder: &Folder, name: &str, format: &str) {
    let (root, file, out) = (recordings(), recordings().join(name), folder.file("out"));
    let [root, file, out] = [&root, &file, &out].map(|path| path.to_str().unwrap());
    let ran = dwcheck_elf_words(folder, &["profile", "--quiet", "--root", root, "--format", format, "-o", out, file]);
    assert_eq!(ran.status, 0, "{}", ran.error);
}

/// What the samples of a recording weigh together, by perf's lines.
fn weight(name: &str) -> u64 {
    let script = std::fs::read_to_string(recordings().join(name)).unwrap();
    let heads = script.lines().filter(|line| line.starts_with("spin"));
    heads.map(|head| head.split_whitespace().nth(3).unwrap().parse::<u64>().unwrap()).sum()
}

/// A test of a value.
type Is = fn(&Value) -> bool;

/// Checks that an object has keys with values of these kinds, and no others. Those after `required` may be missing.
fn check<'v>(object: &'v Value, required: &[(&str, Is)], optional: &[(&str, Is)]) -> &'v Map<String, Value> {
    let object = object.as_object().unwrap();
    for (key, _) in required {
        assert!(object.contains_key(*key), "{} is missing", key);
    }
    for (key, value) in object {
        let known = required.iter().chain(optional).find(|(name, _)| name == key);
        let (_, is) = known.unwrap_or_else(|| panic!("{} isn't a key of the format", key));
        assert!(is(value), "{}: {}", key, value);
    }
    object
}

/// A list of whole numbers that aren't negative.
fn numbers(value: &Value) -> Vec<u64> {
    value.as_array().unwrap().iter().map(|number| number.as_u64().unwrap()).collect()
}

const NAME: &str = "https://www.speedscope.app/file-format-schema.json";
const UNITS: [&str; 6] = ["none", "nanoseconds", "microseconds", "milliseconds", "seconds", "bytes"];

/// As speedscope's src/lib/file-format-spec.ts describes a file with sampled profiles.
fn check_speedscope(file: &Value) {
    let top: [(&str, Is); 3] =
        [("$schema", |value| value == NAME), ("shared", Value::is_object), ("profiles", Value::is_array)];
    check(
        file,
        &top,
        &[("name", Value::is_string), ("exporter", Value::is_string), ("activeProfileIndex", Value::is_u64)],
    );
    let shared = check(&file["shared"], &[("frames", Value::is_array)], &[]);
    let frames = shared["frames"].as_array().unwrap();
    let optional: [(&str, Is); 3] = [("file", Value::is_string), ("line", Value::is_u64), ("col", Value::is_u64)];
    for frame in frames {
        check(frame, &[("name", Value::is_string)], &optional);
    }
    let sampled: [(&str, Is); 7] = [
        ("type", |value| value == "sampled"),
        ("name", Value::is_string),
        ("unit", |value| UNITS.iter().any(|unit| value == unit)),
        ("startValue", Value::is_u64),
        ("endValue", Value::is_u64),
        ("samples", Value::is_array),
        ("weights", Value::is_array),
    ];
    for profile in file["profiles"].as_array().unwrap() {
        check(profile, &sampled, &[]);
        let (stacks, weights) = (profile["samples"].as_array().unwrap(), numbers(&profile["weights"]));
        assert_eq!(stacks.len(), weights.len());
        assert!(stacks.iter().flat_map(numbers).all(|frame| frame < frames.len() as u64));
        let sum = profile["endValue"].as_u64().unwrap() - profile["startValue"].as_u64().unwrap();
        assert_eq!(sum, weights.iter().sum::<u64>());
    }
}

#[test]
fn speedscope_gets_what_its_format_says() {
    let folder = Folder::new("profile-speedscope");
    for name in ["dwarf.perf", "two.perf", "group.perf", "chain.perf", "threads.perf"] {
        write(&folder, name, "speedscope");
        check_speedscope(&serde_json::from_slice(&folder.bytes("out")).unwrap());
    }
    write(&folder, "dwarf.perf", "speedscope");
    let file: Value = serde_json::from_slice(&folder.bytes("out")).unwrap();
    let (profile, frames) = (&file["profiles"][0], &file["shared"]["frames"]);
    assert_eq!(numbers(&profile["weights"]).iter().sum::<u64>(), weight("dwarf.script"));
    let functions = numbers(&profile["samples"][0]).into_iter().map(|frame| frames[frame as usize]["name"].as_str());
    let functions: Vec<_> = functions.flatten().collect();
    assert_eq!(functions, ["_start", "main", "middle", "twice", "leaf"]);
}

/// flamegraph.pl takes what is before the last space of a line as the stack, and cuts that at semicolons.
#[test]
fn folded_stacks_are_lines_that_flamegraph_reads() {
    let folder = Folder::new("profile-flamegraph");
    for name in ["dwarf", "chain", "threads"] {
        write(&folder, &format!("{}.perf", name), "folded");
        let text = String::from_utf8(folder.bytes("out")).unwrap();
        let lines = text.lines().map(|line| line.rsplit_once(' ').unwrap());
        let read: Vec<(Vec<&str>, u64)> =
            lines.map(|(stack, count)| (stack.split(';').collect(), count.parse().unwrap())).collect();
        assert!(read.iter().all(|(functions, _)| functions.iter().all(|function| !function.is_empty())), "{}", text);
        assert_eq!(read.iter().map(|(_, count)| count).sum::<u64>(), weight(&format!("{}.script", name)));
    }
}

#[test]
fn go_tool_pprof_shows_the_stacks_and_weights_of_perf() {
    if !has("go") {
        return;
    }
    let folder = Folder::new("profile-pprof");
    write(&folder, "dwarf.perf", "pprof");
    let go = "HOME=$PWD PPROF_TMPDIR=$PWD go tool pprof";
    let raw = folder.run(&format!("{} -raw out", go));
    let samples = raw.split("\nSamples:\n").nth(1).unwrap().split("\nLocations\n").next().unwrap();
    let rows = samples.lines().skip(1).filter_map(|line| line.split_once(':')).map(|(values, _)| values);
    let values = rows.filter_map(|values| values.split_whitespace().map(|word| word.parse::<u64>().ok()).collect());
    let sums = values.fold((0, 0), |sums, values: Vec<u64>| (sums.0 + values[0], sums.1 + values[1]));
    assert_eq!(sums, (17, weight("dwarf.script")), "{}", raw);
    let traces = folder.run(&format!("{} -traces out", go));
    let words = traces.lines().filter(|line| line.starts_with(' ') && !line.contains(':'));
    let functions: Vec<&str> =
        words.map(|line| line.trim().trim_end_matches(" (inline)").rsplit(' ').next().unwrap()).collect();
    assert!(functions.chunks(5).all(|stack| stack == ["leaf", "twice", "middle", "main", "_start"]), "{}", traces);
}

/// Without a choice, pprof would show the last event.
#[test]
fn go_tool_pprof_opens_on_the_first_event() {
    if !has("go") {
        return;
    }
    let folder = Folder::new("profile-pprof-event");
    for name in ["two.perf", "dwarf.perf"] {
        write(&folder, name, "pprof");
        let top = folder.run("HOME=$PWD PPROF_TMPDIR=$PWD go tool pprof -top out");
        assert!(top.lines().any(|line| line == "Type: cpu-clock:u"), "{}", top);
    }
}

fn is_text_or_null(value: &Value) -> bool {
    value.is_string() || value.is_null()
}

/// Checks that a table has these columns and no others, each with a cell for each row, and returns how many rows
/// there are.
fn check_table(table: &Value, columns: &[(&str, Is)], others: &[&str]) -> usize {
    let length = table["length"].as_u64().unwrap() as usize;
    for (name, is) in columns {
        let cells = table[*name].as_array().unwrap_or_else(|| panic!("{} is missing", name));
        assert_eq!(cells.len(), length, "{}", name);
        cells.iter().for_each(|cell| assert!(is(cell), "{}: {}", name, cell));
    }
    let keys = table.as_object().unwrap().keys();
    for key in keys.filter(|key| *key != "length" && !others.contains(&key.as_str())) {
        assert!(columns.iter().any(|(name, _)| name == key), "{} isn't a column of the format", key);
    }
    length
}

/// Checks that the cells of a column are numbers below a limit. Some may be `null` if `may_be_null`.
fn check_indices(table: &Value, column: &str, limit: usize, may_be_null: bool) {
    for cell in table[column].as_array().unwrap() {
        let is_index = cell.as_u64().map_or(may_be_null && cell.is_null(), |index| index < limit as u64);
        assert!(is_index, "{}: {}", column, cell);
    }
}

const IS_INDEX: Is = Value::is_u64;
const IS_INDEX_OR_NULL: Is = |value| value.is_u64() || value.is_null();

/// As the profiler's src/types/profile.js describes `meta`.
fn check_firefox_meta(meta: &Value) -> usize {
    let required: [(&str, Is); 10] = [
        ("interval", Value::is_number),
        ("startTime", Value::is_number),
        ("product", Value::is_string),
        ("stackwalk", |value| value == 0 || value == 1),
        ("version", |value| value == 24),
        ("preprocessedProfileVersion", |value| value == 46),
        ("processType", Value::is_u64),
        ("markerSchema", Value::is_array),
        ("categories", Value::is_array),
        ("extensions", Value::is_object),
    ];
    let optional: [(&str, Is); 7] = [
        ("debug", Value::is_boolean),
        ("importedFrom", Value::is_string),
        ("sampleUnits", |value| {
            value["time"] == "ms" && value["eventDelay"] == "ms" && value["threadCPUDelta"] == "ns"
        }),
        ("symbolicated", Value::is_boolean),
        ("doesNotUseFrameImplementation", Value::is_boolean),
        ("sourceCodeIsNotOnSearchfox", Value::is_boolean),
        ("usesOnlyOneStackType", Value::is_boolean),
    ];
    check(meta, &required, &optional);
    check_table(&meta["extensions"], &["baseURL", "id", "name"].map(|name| (name, Value::is_string as Is)), &[]);
    const COLORS: [&str; 5] = ["grey", "yellow", "lightblue", "orange", "green"];
    let category: [(&str, Is); 3] = [
        ("name", Value::is_string),
        ("color", |color| COLORS.iter().any(|known| color == known)),
        ("subcategories", |all| all[0] == "Other"),
    ];
    let categories = meta["categories"].as_array().unwrap();
    for one in categories {
        check(one, &category, &[]);
    }
    // The profiler gives the grey one to frames without a category.
    assert!(categories.iter().any(|one| one["color"] == "grey"));
    categories.len()
}

/// As it describes a library.
fn check_firefox_library(library: &Value) {
    let texts =
        ["arch", "name", "path", "debugName", "debugPath", "breakpadId"].map(|name| (name, Value::is_string as Is));
    let required = [&texts[..], &[("codeId", is_text_or_null as Is)]].concat();
    check(library, &required, &[]);
    let id = library["breakpadId"].as_str().unwrap();
    assert!(id.len() >= 33 && id.bytes().all(|digit| matches!(digit, b'0'..=b'9' | b'A'..=b'F')), "{}", id);
}

/// As it describes the functions of a thread, and the libraries that they are in. Returns how many functions there are.
fn check_firefox_functions(thread: &Value, libraries: usize) -> usize {
    let texts = thread["stringArray"].as_array().unwrap();
    assert!(texts.iter().all(Value::is_string));
    let resources: [(&str, Is); 4] =
        [("lib", IS_INDEX_OR_NULL), ("name", IS_INDEX), ("host", IS_INDEX_OR_NULL), ("type", |value| value == 1)];
    let functions: [(&str, Is); 7] = [
        ("name", IS_INDEX),
        ("isJS", Value::is_boolean),
        ("relevantForJS", Value::is_boolean),
        ("resource", IS_INDEX),
        ("fileName", IS_INDEX_OR_NULL),
        ("lineNumber", IS_INDEX_OR_NULL),
        ("columnNumber", IS_INDEX_OR_NULL),
    ];
    let resource_count = check_table(&thread["resourceTable"], &resources, &[]);
    check_indices(&thread["resourceTable"], "name", texts.len(), false);
    check_indices(&thread["resourceTable"], "lib", libraries, true);
    let table = &thread["funcTable"];
    let function_count = check_table(table, &functions, &[]);
    check_indices(table, "name", texts.len(), false);
    check_indices(table, "resource", resource_count, false);
    check_indices(table, "fileName", texts.len(), true);
    function_count
}

/// As it describes the frames and the stacks of a thread that has this number of functions.
fn check_firefox_stacks(thread: &Value, functions: usize, categories: usize) {
    let columns: [(&str, Is); 9] = [
        ("address", |value| value.is_u64() || value == -1),
        ("inlineDepth", IS_INDEX),
        ("category", IS_INDEX_OR_NULL),
        ("subcategory", IS_INDEX_OR_NULL),
        ("func", IS_INDEX),
        ("nativeSymbol", Value::is_null),
        ("innerWindowID", Value::is_null),
        ("line", IS_INDEX_OR_NULL),
        ("column", IS_INDEX_OR_NULL),
    ];
    let [frames, stacks] = ["frameTable", "stackTable"].map(|name| &thread[name]);
    let frame_count = check_table(frames, &columns, &["implementation", "optimizations"]);
    check_indices(frames, "func", functions, false);
    check_indices(frames, "category", categories, true);
    let columns = ["frame", "category", "subcategory"].map(|name| (name, IS_INDEX));
    check_table(stacks, &[&columns[..], &[("prefix", IS_INDEX_OR_NULL)]].concat(), &[]);
    check_indices(stacks, "frame", frame_count, false);
    check_indices(stacks, "category", categories, false);
    // A caller comes before what it calls.
    for (place, prefix) in stacks["prefix"].as_array().unwrap().iter().enumerate() {
        assert!(prefix.as_u64().map_or(true, |prefix| prefix < place as u64));
    }
}

/// As it describes a thread.
fn check_firefox_thread(thread: &Value, categories: usize, libraries: usize) {
    let required: [(&str, Is); 20] = [
        ("name", Value::is_string),
        ("isMainThread", Value::is_boolean),
        ("processType", |value| value == "default"),
        ("processStartupTime", Value::is_number),
        ("processShutdownTime", Value::is_null),
        ("registerTime", Value::is_number),
        ("unregisterTime", Value::is_null),
        ("pausedRanges", |value| value.as_array().map_or(false, Vec::is_empty)),
        ("pid", |value| value.as_str().map_or(false, |pid| pid.parse::<u32>().is_ok())),
        ("tid", |value| value.is_u64() || value.is_string()),
        ("samples", Value::is_object),
        ("markers", Value::is_object),
        ("stackTable", Value::is_object),
        ("frameTable", Value::is_object),
        ("funcTable", Value::is_object),
        ("resourceTable", Value::is_object),
        ("nativeSymbols", Value::is_object),
        ("stringArray", Value::is_array),
        ("processName", Value::is_string),
        ("showMarkersInTimeline", Value::is_boolean),
    ];
    check(thread, &required, &[]);
    let samples: [(&str, Is); 3] =
        [("stack", IS_INDEX_OR_NULL), ("time", Value::is_number), ("weight", Value::is_number)];
    check_table(&thread["samples"], &samples, &["weightType"]);
    assert!(["samples", "tracing-ms"].iter().any(|kind| thread["samples"]["weightType"] == *kind));
    check_indices(&thread["samples"], "stack", thread["stackTable"]["length"].as_u64().unwrap() as usize, true);
    let times: Vec<f64> =
        thread["samples"]["time"].as_array().unwrap().iter().map(|time| time.as_f64().unwrap()).collect();
    assert!(times.windows(2).all(|pair| pair[0] <= pair[1]));
    let markers = ["category", "data", "endTime", "name", "phase", "startTime"].map(|name| (name, IS_INDEX));
    assert_eq!(check_table(&thread["markers"], &markers, &[]), 0);
    let symbols = ["address", "functionSize", "libIndex", "name"].map(|name| (name, IS_INDEX));
    assert_eq!(check_table(&thread["nativeSymbols"], &symbols, &[]), 0);
    check_firefox_stacks(thread, check_firefox_functions(thread, libraries), categories);
}

#[test]
fn the_firefox_profiler_gets_what_its_format_says() {
    let folder = Folder::new("profile-firefox-format");
    for name in ["dwarf.perf", "two.perf", "group.perf", "chain.perf", "threads.perf"] {
        write(&folder, name, "firefox");
        let file: Value = serde_json::from_slice(&folder.bytes("out")).unwrap();
        let lists =
            ["libs", "pages", "counters", "profilerOverhead", "threads"].map(|name| (name, Value::is_array as Is));
        check(&file, &[&lists[..], &[("meta", Value::is_object as Is)]].concat(), &[]);
        let (categories, libraries) = (check_firefox_meta(&file["meta"]), file["libs"].as_array().unwrap());
        libraries.iter().for_each(check_firefox_library);
        let threads = file["threads"].as_array().unwrap();
        assert!(!threads.is_empty());
        threads.iter().for_each(|thread| check_firefox_thread(thread, categories, libraries.len()));
    }
}
