//! Writes the JSON of the Firefox Profiler (<https://profiler.firefox.com>), which opens it as it is: its processed
//! format, version 46, in which each thread has tables of its own, a column for each key.

use super::calls::{Called, Calls, Code};
use super::frame_names::Names;
use super::recording::BuildId;
use super::tree::Tree;
use super::{Profile, Sample};
use dwcheck_elf::internal::page::write_separated;
use rustc_hash::FxHashMap;
use serde_json::{json, Value};
use std::collections::{BTreeMap, HashMap};
use std::fmt::Display;
use std::io::{self, Write};

/// The version of Firefox's own format, and that of the processed one.
const VERSIONS: (u32, u32) = (24, 46);

/// The kind of resource that is a library.
const LIBRARY: u32 = 1;

/// Writes the samples of an event.
///
/// # Errors
///
/// Those of `out`.
pub fn write_firefox(
    profile: &Profile,
    names: &Names,
    event: usize,
    title: &str,
    out: &mut impl Write,
) -> io::Result<()> {
    let calls = Calls::of(profile, names);
    let libraries = Libraries::of(profile, names, &calls);
    let mut threads: BTreeMap<(u32, u32), Vec<&Sample>> = BTreeMap::new();
    profile.samples_of(event).for_each(|sample| threads.entry((sample.pid, sample.tid)).or_default().push(sample));
    let first = profile.samples_of(event).map(|sample| sample.time).min().unwrap_or(0);
    write!(out, "{{\"meta\":{},\"libs\":[", firefox_meta(title, profile.event_name(event)))?;
    write_separated(out, libraries.all.iter(), |library, out| write!(out, "{}", library))?;
    out.write_all(b"],\"pages\":[],\"profilerOverhead\":[],\"counters\":[],\"threads\":[")?;
    let whole = Whole { profile, names, calls: &calls, libraries: &libraries, event, first };
    write_separated(out, threads.values(), |samples, out| Thread::of(&whole, samples).write(out))?;
    out.write_all(b"]}\n")
}

/// What the profile says of itself. The first category is what the profiler takes for a frame without one.
fn firefox_meta(title: &str, event: &str) -> Value {
    let category = |name: &str, color: &str| json!({"name": name, "color": color, "subcategories": ["Other"]});
    json!({
        "categories": [
            category("Other", "grey"),
            category("User", "yellow"),
            category("Inlined", "lightblue"),
            category("Kernel", "orange"),
            category("Generated", "green"),
        ],
        "debug": false,
        "doesNotUseFrameImplementation": true,
        "extensions": {"baseURL": [], "id": [], "length": 0, "name": []},
        "importedFrom": "dwcheck-elf",
        "interval": 1,
        "markerSchema": [],
        "preprocessedProfileVersion": VERSIONS.1,
        "processType": 0,
        "product": format!("{} ({})", title, event),
        "sampleUnits": {"eventDelay": "ms", "threadCPUDelta": "ns", "time": "ms"},
        "sourceCodeIsNotOnSearchfox": true,
        "startTime": 0,
        "stackwalk": 1,
        "symbolicated": true,
        "usesOnlyOneStackType": true,
        "version": VERSIONS.0,
    })
}

/// The category of a function, by its index in [`firefox_meta`].
fn firefox_category(code: Code) -> u32 {
    match code {
        Code::File => 1,
        Code::Inlined => 2,
        Code::Kernel => 3,
        Code::Memory => 4,
    }
}

/// The objects of functions.
struct Libraries {
    all: Vec<Value>,
    /// The index of each, by the text of its name.
    ids: HashMap<u32, usize>,
}

impl Libraries {
    fn of(profile: &Profile, names: &Names, calls: &Calls) -> Libraries {
        let build_ids: HashMap<&str, &BuildId> =
            profile.objects.iter().filter_map(|object| Some((object.name.as_str(), object.build_id()?))).collect();
        let mut libraries = Libraries { all: Vec::new(), ids: HashMap::new() };
        for called in &calls.functions {
            let next = libraries.all.len();
            if *libraries.ids.entry(called.object).or_insert(next) == next {
                let path = names.text(called.object);
                let architecture = profile.features.architecture.as_deref().unwrap_or("");
                libraries.all.push(firefox_library(
                    path,
                    architecture,
                    build_ids.get(path).map_or(&[], |id| id.bytes()),
                ));
            }
        }
        libraries
    }
}

/// A library. Its code's id is the build id; the other id has the same bytes as a GUID, and 0 as its age.
fn firefox_library(path: &str, architecture: &str, build_id: &[u8]) -> Value {
    let hex = |bytes: &[u8]| bytes.iter().map(|byte| format!("{:02x}", byte)).collect::<String>();
    let name = path.rsplit('/').next().unwrap_or(path);
    let mut guid = build_id.to_vec();
    guid.resize(16, 0);
    // The GUID's first three numbers are little-endian.
    [0..4, 4..6, 6..8].into_iter().for_each(|number| guid[number].reverse());
    let code_id = if build_id.is_empty() { Value::Null } else { json!(hex(build_id)) };
    json!({
        "arch": architecture,
        "breakpadId": format!("{}0", hex(&guid).to_uppercase()),
        "codeId": code_id,
        "debugName": name,
        "debugPath": path,
        "name": name,
        "path": path,
    })
}

/// What all threads share.
struct Whole<'p> {
    profile: &'p Profile,
    names: &'p Names,
    calls: &'p Calls,
    libraries: &'p Libraries,
    event: usize,
    /// The time of the first sample.
    first: u64,
}

/// A thread, with those functions and stacks that it has.
struct Thread<'p> {
    whole: &'p Whole<'p>,
    samples: &'p [&'p Sample],
    /// The functions, by their indices in [`Calls::functions`]. Each has one frame.
    functions: Vec<u32>,
    /// The libraries of the functions.
    resources: Vec<usize>,
    /// For each function its resource.
    resource_of: Vec<usize>,
    /// The stacks: the caller's stack and the function.
    stacks: Vec<(Option<usize>, usize)>,
    /// The stack of each sample.
    stack_of: Vec<Option<usize>>,
    strings: Strings,
}

/// The strings of a thread, each once.
#[derive(Default)]
struct Strings {
    all: Vec<String>,
    ids: HashMap<String, usize>,
}

impl Strings {
    fn id(&mut self, text: &str) -> usize {
        if let Some(id) = self.ids.get(text) {
            return *id;
        }
        self.ids.insert(text.to_string(), self.all.len());
        self.all.push(text.to_string());
        self.all.len() - 1
    }
}

impl<'p> Thread<'p> {
    fn of(whole: &'p Whole<'p>, samples: &'p [&'p Sample]) -> Thread<'p> {
        let mut thread = Thread {
            whole,
            samples,
            functions: Vec::new(),
            resources: Vec::new(),
            resource_of: Vec::new(),
            stacks: Vec::new(),
            stack_of: Vec::with_capacity(samples.len()),
            strings: Strings::default(),
        };
        let (mut of_node, mut of_function) = (FxHashMap::default(), FxHashMap::default());
        for sample in samples {
            let stack = thread.stack(whole.calls.of_stack(sample.stack), &mut of_node, &mut of_function);
            thread.stack_of.push(stack);
        }
        thread.add_resources();
        thread
    }

    /// The stack of a node, which is added with its callers. `None` if it has no function.
    fn stack(
        &mut self,
        node: u32,
        of_node: &mut FxHashMap<u32, usize>,
        of_function: &mut FxHashMap<u32, usize>,
    ) -> Option<usize> {
        let mut at = node;
        let mut new = Vec::new();
        while at != Tree::ROOT && !of_node.contains_key(&at) {
            new.push(at);
            at = self.whole.calls.nodes[at as usize].caller;
        }
        let mut caller = of_node.get(&at).copied();
        for node in new.into_iter().rev() {
            let function = self.whole.calls.nodes[node as usize].function;
            let next = self.functions.len();
            let frame = *of_function.entry(function).or_insert(next);
            if frame == next {
                self.functions.push(function);
            }
            self.stacks.push((caller, frame));
            caller = Some(self.stacks.len() - 1);
            of_node.insert(node, self.stacks.len() - 1);
        }
        caller
    }

    fn add_resources(&mut self) {
        let mut ids: HashMap<usize, usize> = HashMap::new();
        for function in &self.functions {
            let library = self.whole.libraries.ids[&self.whole.calls.functions[*function as usize].object];
            let next = self.resources.len();
            let resource = *ids.entry(library).or_insert(next);
            if resource == next {
                self.resources.push(library);
            }
            self.resource_of.push(resource);
        }
    }

    /// The functions.
    fn called(&self) -> impl Iterator<Item = &'p Called> + '_ {
        self.functions.iter().map(|function| &self.whole.calls.functions[*function as usize])
    }

    fn write<W: Write>(&mut self, out: &mut W) -> io::Result<()> {
        let (first, last) = match (self.samples.first(), self.samples.last()) {
            (Some(first), Some(last)) => (first, last),
            _ => return Ok(()),
        };
        let name = self.whole.profile.comms.get(last.comm as usize).map_or("", String::as_str);
        write!(
            out,
            "{{\"name\":{},\"isMainThread\":{},\"pid\":\"{}\",\"tid\":\"{}\",\"processName\":{},\
             \"processType\":\"default\",\"processStartupTime\":0,\"processShutdownTime\":null,\"registerTime\":{},\
             \"unregisterTime\":null,\"pausedRanges\":[],\"showMarkersInTimeline\":false,",
            json!(name),
            first.pid == first.tid,
            first.pid,
            first.tid,
            json!(name),
            self.milliseconds(first),
        )?;
        self.write_empty(out)?;
        self.write_samples(out)?;
        self.write_stacks(out)?;
        self.write_frames(out)?;
        self.write_functions(out)?;
        write!(out, "\"stringArray\":{}}}", json!(self.strings.all))
    }

    /// The tables that perf's recordings have nothing for.
    fn write_empty<W: Write>(&self, out: &mut W) -> io::Result<()> {
        let mut markers = Table::begin("markers", 0, out)?;
        for column in ["category", "data", "endTime", "name", "phase", "startTime"] {
            markers.same(column, "null")?;
        }
        markers.end()?;
        let mut symbols = Table::begin("nativeSymbols", 0, out)?;
        for column in ["address", "functionSize", "libIndex", "name"] {
            symbols.same(column, "null")?;
        }
        symbols.end()
    }

    /// The samples. What they weigh is milliseconds if the event counts time, or else how often it happened.
    fn write_samples<W: Write>(&self, out: &mut W) -> io::Result<()> {
        let is_time = self.whole.profile.is_in_nanoseconds(self.whole.event);
        let weight = |sample: &&Sample| if is_time { sample.weight as f64 / 1e6 } else { sample.weight as f64 };
        let mut table = Table::begin("samples", self.samples.len(), out)?;
        table.column("stack", self.stack_of.iter().map(|stack| number_or_null(*stack)))?;
        table.column("time", self.samples.iter().map(|sample| self.milliseconds(sample)))?;
        table.column("weight", self.samples.iter().map(weight))?;
        write!(table.out, ",\"weightType\":\"{}\"", if is_time { "tracing-ms" } else { "samples" })?;
        table.end()
    }

    fn write_stacks<W: Write>(&self, out: &mut W) -> io::Result<()> {
        let categories: Vec<u32> = self.called().map(|called| firefox_category(called.code)).collect();
        let mut table = Table::begin("stackTable", self.stacks.len(), out)?;
        table.column("prefix", self.stacks.iter().map(|(caller, _)| number_or_null(*caller)))?;
        table.column("frame", self.stacks.iter().map(|(_, frame)| *frame))?;
        table.column("category", self.stacks.iter().map(|(_, frame)| categories[*frame]))?;
        table.same("subcategory", "0")?;
        table.end()
    }

    /// The frames: one for each function, since what is shown is by function.
    fn write_frames<W: Write>(&self, out: &mut W) -> io::Result<()> {
        let names = self.whole.names;
        let mut table = Table::begin("frameTable", self.functions.len(), out)?;
        table.same("address", "-1")?;
        table.same("inlineDepth", "0")?;
        table.column("category", self.called().map(|called| firefox_category(called.code)))?;
        table.same("subcategory", "0")?;
        table.column("func", 0..self.functions.len())?;
        let line =
            |called: &Called| called.line.and_then(|line| names.text(line).rsplit_once(':')?.1.parse::<u32>().ok());
        table.column("line", self.called().map(|called| number_or_null(line(called))))?;
        for column in ["nativeSymbol", "innerWindowID", "implementation", "column", "optimizations"] {
            table.same(column, "null")?;
        }
        table.end()
    }

    fn write_functions<W: Write>(&mut self, out: &mut W) -> io::Result<()> {
        let (names, libraries) = (self.whole.names, &self.whole.libraries.all);
        let called: Vec<&Called> = self.called().collect();
        let functions: Vec<usize> = called.iter().map(|called| self.strings.id(names.text(called.name))).collect();
        let file = |line: u32| names.text(line).rsplit_once(':').map_or_else(|| names.text(line), |(file, _)| file);
        let files: Vec<Option<usize>> =
            called.iter().map(|called| called.line.map(|line| self.strings.id(file(line)))).collect();
        let resources: Vec<usize> = self
            .resources
            .iter()
            .map(|library| self.strings.id(libraries[*library]["name"].as_str().unwrap_or("")))
            .collect();
        let mut table = Table::begin("funcTable", functions.len(), out)?;
        table.column("name", functions.iter())?;
        table.same("isJS", "false")?;
        table.same("relevantForJS", "false")?;
        table.column("resource", self.resource_of.iter())?;
        table.column("fileName", files.iter().map(|file| number_or_null(*file)))?;
        table.same("lineNumber", "null")?;
        table.same("columnNumber", "null")?;
        table.end()?;
        let mut table = Table::begin("resourceTable", resources.len(), out)?;
        table.column("lib", self.resources.iter())?;
        table.column("name", resources.iter())?;
        table.same("host", "null")?;
        table.same("type", LIBRARY)?;
        table.end()
    }

    fn milliseconds(&self, sample: &Sample) -> f64 {
        sample.time.saturating_sub(self.whole.first) as f64 / 1e6
    }
}

/// A number, or `null`.
fn number_or_null(number: Option<impl Display>) -> String {
    number.map_or_else(|| "null".to_string(), |number| number.to_string())
}

/// A table that is being written: the number of its rows, and a column for each key.
struct Table<'w, W> {
    out: &'w mut W,
    length: usize,
}

impl<'w, W: Write> Table<'w, W> {
    fn begin(name: &str, length: usize, out: &'w mut W) -> io::Result<Self> {
        write!(out, "\"{}\":{{\"length\":{}", name, length)?;
        Ok(Table { out, length })
    }

    fn column<T: Display>(&mut self, name: &str, cells: impl Iterator<Item = T>) -> io::Result<()> {
        write!(self.out, ",\"{}\":[", name)?;
        write_separated(self.out, cells, |cell, out| write!(out, "{}", cell))?;
        self.out.write_all(b"]")
    }

    /// A column with the same cell in all rows.
    fn same(&mut self, name: &str, cell: impl Display + Copy) -> io::Result<()> {
        self.column(name, (0..self.length).map(|_| cell))
    }

    fn end(self) -> io::Result<()> {
        self.out.write_all(b"},")
    }
}
