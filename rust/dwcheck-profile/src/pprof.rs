//! Writes pprof's profile (<https://github.com/google/pprof/blob/main/proto/profile.proto>), compressed by gzip.

use super::frame_names::Names;
use super::{Kind, Profile};
use flate2::write::GzEncoder;
use flate2::Compression;
use std::collections::{BTreeMap, HashMap, HashSet};
use std::io::{self, Write};

/// The numbers of the fields of the messages.
mod field {
    pub mod profile {
        pub const SAMPLE_TYPE: u32 = 1;
        pub const SAMPLE: u32 = 2;
        pub const MAPPING: u32 = 3;
        pub const LOCATION: u32 = 4;
        pub const FUNCTION: u32 = 5;
        pub const STRING: u32 = 6;
        pub const DURATION: u32 = 10;
        pub const DEFAULT_SAMPLE_TYPE: u32 = 14;
    }
    pub const ID: u32 = 1;
    pub mod value_type {
        pub const KIND: u32 = 1;
        pub const UNIT: u32 = 2;
    }
    pub mod sample {
        pub const LOCATION: u32 = 1;
        pub const VALUE: u32 = 2;
        pub const LABEL: u32 = 3;
    }
    pub mod label {
        pub const KEY: u32 = 1;
        pub const TEXT: u32 = 2;
        pub const NUMBER: u32 = 3;
    }
    pub mod mapping {
        pub const FILE: u32 = 5;
        pub const HAS_FUNCTIONS: u32 = 7;
    }
    pub mod location {
        pub const MAPPING: u32 = 2;
        pub const ADDRESS: u32 = 3;
        pub const LINE: u32 = 4;
    }
    pub mod line {
        pub const FUNCTION: u32 = 1;
        pub const NUMBER: u32 = 2;
    }
    pub mod function {
        pub const NAME: u32 = 2;
        pub const SYSTEM_NAME: u32 = 3;
        pub const FILE: u32 = 4;
    }
}

/// Writes all events: a sample has a number of samples and a weight for each. pprof shows the weight of the first
/// event unless it is told otherwise, as the other formats do.
///
/// # Errors
///
/// Those of `out`.
pub fn write_pprof(profile: &Profile, names: &Names, out: &mut impl Write) -> io::Result<()> {
    let mut message = Message::default();
    let mut writer = Writer { profile, names, texts: Texts::new(), functions: HashMap::new() };
    let events = profile.sampled_events();
    for event in &events {
        let name = profile.event_name(*event).to_string();
        let unit = if profile.is_in_nanoseconds(*event) { "nanoseconds" } else { "count" };
        writer.value_type(&format!("{} samples", name), "count", &mut message);
        writer.value_type(&name, unit, &mut message);
    }
    writer.samples(&events, &mut message);
    writer.objects(&mut message);
    writer.locations(&mut message);
    let times = profile.samples.iter().map(|sample| sample.time).filter(|time| *time > 0);
    let (first, last) = (times.clone().min().unwrap_or(0), times.max().unwrap_or(0));
    message.number(field::profile::DURATION, last - first);
    let shown = events.first().map_or(0, |event| writer.texts.id(profile.event_name(*event)));
    message.number(field::profile::DEFAULT_SAMPLE_TYPE, shown);
    for text in &writer.texts.all {
        message.bytes(field::profile::STRING, text.as_bytes());
    }
    let mut gzip = GzEncoder::new(out, Compression::default());
    gzip.write_all(&message.0)?;
    gzip.finish().map(|_| ())
}

/// A message: fields with their numbers.
#[derive(Default)]
struct Message(Vec<u8>);

impl Message {
    fn varint(&mut self, mut number: u64) {
        while number >= 0x80 {
            self.0.push(number as u8 | 0x80);
            number >>= 7;
        }
        self.0.push(number as u8);
    }

    /// A number. Fields that are 0 are left out.
    fn number(&mut self, field: u32, number: u64) {
        if number != 0 {
            self.varint(u64::from(field) << 3);
            self.varint(number);
        }
    }

    fn bytes(&mut self, field: u32, bytes: &[u8]) {
        self.varint(u64::from(field) << 3 | 2);
        self.varint(bytes.len() as u64);
        self.0.extend_from_slice(bytes);
    }

    fn message(&mut self, field: u32, message: &Message) {
        self.bytes(field, &message.0);
    }

    fn numbers(&mut self, field: u32, numbers: impl Iterator<Item = u64>) {
        let mut packed = Message::default();
        numbers.for_each(|number| packed.varint(number));
        self.message(field, &packed);
    }
}

/// Texts, each once. The first one is empty.
struct Texts {
    all: Vec<String>,
    ids: HashMap<String, u64>,
}

impl Texts {
    fn new() -> Self {
        Texts { all: vec![String::new()], ids: HashMap::from([(String::new(), 0)]) }
    }

    fn id(&mut self, text: &str) -> u64 {
        if let Some(id) = self.ids.get(text) {
            return *id;
        }
        let id = self.all.len() as u64;
        self.all.push(text.to_string());
        self.ids.insert(text.to_string(), id);
        id
    }
}

struct Writer<'p> {
    profile: &'p Profile,
    names: &'p Names,
    texts: Texts,
    /// The number of each function, by its name and its object.
    functions: HashMap<(u32, u32), u64>,
}

impl Writer<'_> {
    fn value_type(&mut self, kind: &str, unit: &str, message: &mut Message) {
        let mut value = Message::default();
        value.number(field::value_type::KIND, self.texts.id(kind));
        value.number(field::value_type::UNIT, self.texts.id(unit));
        message.message(field::profile::SAMPLE_TYPE, &value);
    }

    /// Writes the stacks of each thread, each once.
    fn samples(&mut self, events: &[usize], message: &mut Message) {
        let mut sums: BTreeMap<(u32, u32, u32, u32), Vec<u64>> = BTreeMap::new();
        for sample in &self.profile.samples {
            let key = (sample.pid, sample.tid, sample.comm, sample.stack);
            let values = sums.entry(key).or_insert_with(|| vec![0; 2 * events.len()]);
            if let Some(place) = events.iter().position(|event| *event == usize::from(sample.event)) {
                values[2 * place] += 1;
                values[2 * place + 1] = values[2 * place + 1].saturating_add(sample.weight);
            }
        }
        for ((pid, tid, comm, stack), values) in sums {
            let mut sample = Message::default();
            let locations = self.profile.tree.frames(stack).map(|frame| u64::from(frame) + 1);
            sample.numbers(field::sample::LOCATION, locations);
            sample.numbers(field::sample::VALUE, values.into_iter());
            let comm = self.profile.comms.get(comm as usize).map_or("", String::as_str);
            let comm = self.texts.id(comm);
            self.label("thread", field::label::TEXT, comm, &mut sample);
            self.label("pid", field::label::NUMBER, u64::from(pid), &mut sample);
            self.label("tid", field::label::NUMBER, u64::from(tid), &mut sample);
            message.message(field::profile::SAMPLE, &sample);
        }
    }

    fn label(&mut self, key: &str, kind: u32, value: u64, sample: &mut Message) {
        let mut label = Message::default();
        label.number(field::label::KEY, self.texts.id(key));
        label.number(kind, value);
        sample.message(field::sample::LABEL, &label);
    }

    /// Writes the objects of frames, each as a mapping. The first one is what pprof takes for the program, so that
    /// files come first.
    fn objects(&mut self, message: &mut Message) {
        let used: HashSet<u32> = self.profile.frames.iter().map(|frame| frame.place.object).collect();
        let mut objects: Vec<_> = (1u64..).zip(&self.profile.objects).collect();
        objects.retain(|(id, _)| used.contains(&((id - 1) as u32)));
        objects.sort_by_key(|(_, object)| object.kind != Kind::File);
        for (id, object) in objects {
            let mut mapping = Message::default();
            mapping.number(field::ID, id);
            mapping.number(field::mapping::FILE, self.texts.id(&object.name));
            mapping.number(field::mapping::HAS_FUNCTIONS, u64::from(object.kind == Kind::File));
            message.message(field::profile::MAPPING, &mapping);
        }
    }

    /// Writes the frames, each as a location with its functions, the innermost first.
    fn locations(&mut self, message: &mut Message) {
        for (place, frame) in self.profile.frames.iter().enumerate() {
            let mut location = Message::default();
            location.number(field::ID, place as u64 + 1);
            location.number(field::location::MAPPING, u64::from(frame.place.object) + 1);
            location.number(field::location::ADDRESS, frame.place.address);
            for function in self.names.of(place as u32) {
                let (file, number) = self.line(function.line.map_or("", |line| self.names.text(line)));
                let id = self.function(function.name, function.object, file, message);
                let mut line = Message::default();
                line.number(field::line::FUNCTION, id);
                line.number(field::line::NUMBER, number);
                location.message(field::location::LINE, &line);
            }
            message.message(field::profile::LOCATION, &location);
        }
    }

    /// The file and the number of a line.
    fn line<'t>(&self, line: &'t str) -> (&'t str, u64) {
        match line.rsplit_once(':') {
            Some((file, number)) => (file, number.parse().unwrap_or(0)),
            None => (line, 0),
        }
    }

    /// The number of a function, which is written when it is needed first.
    fn function(&mut self, name: u32, object: u32, file: &str, message: &mut Message) -> u64 {
        if let Some(id) = self.functions.get(&(name, object)) {
            return *id;
        }
        let id = self.functions.len() as u64 + 1;
        let mut function = Message::default();
        let text = self.texts.id(self.names.text(name));
        function.number(field::ID, id);
        function.number(field::function::NAME, text);
        function.number(field::function::SYSTEM_NAME, text);
        function.number(field::function::FILE, self.texts.id(file));
        message.message(field::profile::FUNCTION, &function);
        self.functions.insert((name, object), id);
        id
    }
}
