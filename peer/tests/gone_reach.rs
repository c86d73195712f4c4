//! The generated cases look for names in every situation that request A5 tells apart, by every call that gives one.

use peer::answers::{answer, Reply};
use peer::call::Call;
use peer::generate::{document, Generator};
use peer::*;
use std::collections::{HashMap, HashSet};

const CALLS: &[u8; 4] = b"nela";

/// How often each mark comes at least, by each kind of call.
const MARKS: [(&str, usize); 15] = [
    ("live", 100),
    ("gone", 50),
    ("none", 100),
    ("live, a gone one behind it", 20),
    ("live, a gone one before it", 20),
    ("gone, another gone one behind it", 15),
    ("gone, a free entry of another type before it", 5),
    ("gone, another object in use", 5),
    ("gone, in the first entry", 20),
    ("gone, in a later entry", 20),
    ("gone, an empty name", 10),
    ("gone, a name as long as the field", 10),
    ("none, a free entry of another type", 10),
    ("gone, little-endian", 20),
    ("gone, big-endian", 20),
];

/// Those that are told by an event, by each call that gives one.
const EVENT_MARKS: [(&str, usize); 7] = [
    ("thread, gone", 30),
    ("isr, gone", 10),
    ("isr, live and gone", 10),
    ("isr, a fresh entry has the field", 2),
    ("isr, a gone thread has its pointer", 2),
    ("init, a gone thread has the field", 3),
    ("init, a gone thread has its pointer", 3),
];

/// Those that are told by the registrations and removals before.
const HISTORY_MARKS: [(&str, usize); 5] = [
    ("removed, gone", 50),
    ("removed, none since its entry serves another", 10),
    ("removed and registered again, live", 10),
    ("live, an older entry of its own is gone", 10),
    ("gone, an older entry of its own is gone too", 10),
];

/// An entry that has the pointer sought.
struct Match {
    index: usize,
    thread: bool,
    gone: bool,
    name: usize,
}

struct Registry<'a> {
    header: Header,
    entries: Vec<&'a [u8]>,
}

impl<'a> Registry<'a> {
    fn new(dump: &'a [u8]) -> Registry<'a> {
        let header = Header::read(dump).unwrap();
        let end = header.offset(header.registry_end);
        let size = 16 + usize::from(header.name_size);
        Registry {
            header,
            entries: dump[48..end].chunks(size).collect(),
        }
    }

    fn matches(&self, pointer: u32) -> Vec<Match> {
        let entries = self.entries.iter().enumerate();
        let matching = entries.filter(|(_, entry)| self.header.order.word(entry, 4) == pointer);
        let told = |(index, entry): (usize, &&[u8])| Match {
            index,
            thread: entry[1] == 1,
            gone: entry[0] == 1,
            name: entry[16..].iter().take_while(|&&byte| byte != 0).count(),
        };
        matching.map(told).collect()
    }

    fn gone(&self, pointer: u32) -> bool {
        self.marks(pointer).contains(&"gone")
    }

    fn live_and_gone(&self, pointer: u32) -> bool {
        let marks = self.marks(pointer);
        marks.contains(&"live") && marks.len() > 1
    }

    /// Whether an entry that never was in use has the pointer.
    fn fresh(&self, pointer: u32) -> bool {
        let zeros = |entry: &[u8]| entry[0] == 1 && entry[1..].iter().all(|&byte| byte == 0);
        pointer == 0 && self.entries.iter().any(|entry| zeros(entry))
    }

    /// What one search meets.
    fn marks(&self, pointer: u32) -> Vec<&'static str> {
        let matches = self.matches(pointer);
        let place = |gone: bool| {
            let wanted = |one: &Match| one.thread && one.gone == gone;
            matches.iter().position(wanted)
        };
        match (place(false), place(true)) {
            (Some(live), _) => live_marks(&matches, live),
            (None, Some(gone)) => self.gone_marks(&matches, gone),
            (None, None) if matches.iter().any(|one| one.gone) => {
                vec!["none", "none, a free entry of another type"]
            }
            (None, None) => vec!["none"],
        }
    }

    fn gone_marks(&self, matches: &[Match], found: usize) -> Vec<&'static str> {
        let (before, behind) = (&matches[..found], &matches[found + 1..]);
        let found = &matches[found];
        let size = usize::from(self.header.name_size);
        let big = self.header.order == ByteOrder::Big;
        let in_use = |one: &Match| !one.gone;
        let marks = [
            ("gone", true),
            (
                "gone, another gone one behind it",
                behind.iter().any(|one| one.thread && one.gone),
            ),
            (
                "gone, a free entry of another type before it",
                before.iter().any(|one| one.gone),
            ),
            ("gone, another object in use", matches.iter().any(in_use)),
            ("gone, in the first entry", found.index == 0),
            ("gone, in a later entry", found.index > 0),
            ("gone, an empty name", found.name == 0),
            ("gone, a name as long as the field", found.name == size),
            ("gone, little-endian", !big),
            ("gone, big-endian", big),
        ];
        holding(&marks)
    }

    /// What the context of an event adds.
    fn event_marks(&self, pointer: u32, field: u32) -> Vec<&'static str> {
        let marks = match Context::of(pointer) {
            Context::Thread => vec![("thread, gone", self.gone(pointer))],
            Context::Isr => vec![
                ("isr, gone", self.gone(field)),
                ("isr, live and gone", self.live_and_gone(field)),
                ("isr, a fresh entry has the field", self.fresh(field)),
                (
                    "isr, a gone thread has its pointer",
                    field != pointer && self.gone(pointer),
                ),
            ],
            Context::Init => vec![
                ("init, a gone thread has the field", self.gone(field)),
                ("init, a gone thread has its pointer", self.gone(pointer)),
            ],
        };
        holding(&marks)
    }
}

fn live_marks(matches: &[Match], found: usize) -> Vec<&'static str> {
    let gone = |one: &Match| one.thread && one.gone;
    let marks = [
        ("live", true),
        (
            "live, a gone one behind it",
            matches[found..].iter().any(gone),
        ),
        (
            "live, a gone one before it",
            matches[..found].iter().any(gone),
        ),
    ];
    holding(&marks)
}

fn holding(marks: &[(&'static str, bool)]) -> Vec<&'static str> {
    let holding = marks.iter().filter(|(_, holds)| *holds);
    holding.map(|(mark, _)| *mark).collect()
}

/// The threads of a formatted buffer, by the calls made on it.
#[derive(Default)]
struct History {
    formatted: bool,
    registered: HashSet<u32>,
    removed: HashSet<u32>,
}

impl History {
    fn follow(&mut self, call: &Call, reply: &Reply) {
        if !matches!(reply, Reply::Written { result: Ok(_), .. }) {
            return;
        }
        match call {
            Call::Format(_) => {
                *self = History {
                    formatted: true,
                    ..History::default()
                }
            }
            Call::Register(registration) if registration.kind == 1 => {
                self.registered.insert(registration.pointer);
            }
            Call::Remove { pointer } if self.registered.contains(pointer) => {
                self.removed.insert(*pointer);
            }
            _ => {}
        }
    }

    fn marks(&self, marks: &[&str], pointer: u32) -> Vec<&'static str> {
        if !self.formatted || !self.removed.contains(&pointer) {
            return Vec::new();
        }
        let has = |mark: &str| marks.contains(&mark);
        holding(&[
            ("removed, gone", has("gone")),
            ("removed, none since its entry serves another", has("none")),
            ("removed and registered again, live", has("live")),
            (
                "live, an older entry of its own is gone",
                has("live, a gone one behind it"),
            ),
            (
                "gone, an older entry of its own is gone too",
                has("gone, another gone one behind it"),
            ),
        ])
    }
}

#[derive(Default)]
struct Seen {
    marks: HashMap<(u8, &'static str), usize>,
    history: HashMap<&'static str, usize>,
}

impl Seen {
    fn search(&mut self, letter: u8, registry: &Registry, history: &History, pointer: u32) {
        let marks = registry.marks(pointer);
        for mark in history.marks(&marks, pointer) {
            *self.history.entry(mark).or_default() += 1;
        }
        self.add(letter, &marks);
    }

    fn add(&mut self, letter: u8, marks: &[&'static str]) {
        for &mark in marks {
            *self.marks.entry((letter, mark)).or_default() += 1;
        }
    }

    fn event(&mut self, letter: u8, dump: &[u8], history: &History, position: usize) {
        let registry = Registry::new(dump);
        let event = event(dump, position).unwrap();
        self.add(letter, &registry.event_marks(event.pointer, event.field));
        match event.context {
            Context::Init => {}
            Context::Isr => self.search(letter, &registry, history, event.field),
            Context::Thread => self.search(letter, &registry, history, event.pointer),
        }
    }

    /// The call was accepted, and did not change the dump.
    fn call(&mut self, call: &Call, dump: &[u8], history: &History) {
        let letter = call.letter();
        match call {
            Call::FindName { pointer } => {
                self.search(letter, &Registry::new(dump), history, *pointer);
            }
            Call::Event { position } | Call::Line { position, .. } => {
                self.event(letter, dump, history, *position);
            }
            Call::Listing { .. } => {
                for position in 0..check(dump).unwrap().events.min(40) {
                    self.event(letter, dump, history, position);
                }
            }
            _ => {}
        }
    }
}

#[test]
fn every_call_meets_gone_threads() {
    let mut seen = Seen::default();
    let mut generator = Generator::new(8);
    for _ in 0..9_000 {
        let case = generator.next_case();
        let mut buffer = case.buffer();
        let mut names = case.names();
        let mut history = History::default();
        for call in &case.calls {
            let reply = answer(&mut buffer, &mut names, call);
            history.follow(call, &reply);
            if reply.refusal().is_none() {
                seen.call(call, &buffer, &history);
            }
        }
    }
    for &letter in CALLS {
        let by_event = EVENT_MARKS.iter().filter(|_| letter != b'n');
        for (mark, least) in MARKS.iter().chain(by_event) {
            let count = seen.marks.get(&(letter, *mark)).copied().unwrap_or(0);
            let letter = letter as char;
            assert!(count >= *least, "{}: {} times {}", letter, count, mark);
        }
    }
    for (mark, least) in HISTORY_MARKS {
        let count = seen.history.get(mark).copied().unwrap_or(0);
        assert!(count >= least, "{} times {}", count, mark);
    }
}

/// The whole case has two lines with the thread's name, before its removal and after it, in both byte orders.
#[test]
fn named_cases_have_both_kinds() {
    let mut texts = Vec::new();
    for case in document::cases() {
        let mut buffer = case.buffer();
        let mut names = case.names();
        for call in &case.calls {
            if let Reply::Text {
                result: Ok(text), ..
            } = answer(&mut buffer, &mut names, call)
            {
                texts.push(String::from_utf8(text).unwrap());
            }
        }
    }
    for gone in [false, true] {
        let named = format!("\"name\":\"pump\",\"gone\":{},", gone);
        let twice = |text: &&String| text.matches(&named).count() == 2;
        assert!(texts.iter().filter(twice).count() >= 2, "{}", named);
    }
}
