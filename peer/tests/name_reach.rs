//! The generated cases meet every situation that request A7 tells apart, by every call with a name file.

use peer::answers::{answer, EventAnswer, FoundName, Reply};
use peer::call::{Call, Naming};
use peer::generate::Generator;
use peer::*;
use std::collections::HashMap;

const CALLS: &[u8; 4] = b"ENLA";

/// How often each mark comes at least, by each kind of call.
const MARKS: [(&str, usize); 12] = [
    ("live", 50),
    ("gone", 20),
    ("filed", 50),
    ("none", 50),
    ("live or gone, in the file too", 20),
    ("filed, twice", 10),
    ("filed, an empty name", 5),
    ("filed, a zero in the name", 5),
    ("filed, not in the first record", 20),
    ("filed, behind a record stepped over", 5),
    ("filed, little-endian dump", 20),
    ("filed, big-endian dump", 20),
];

/// Those that are told by an event.
const EVENT_MARKS: [(&str, usize); 11] = [
    ("event named", 50),
    ("event not named", 50),
    ("event named twice", 10),
    ("event named, an empty name", 5),
    ("event named, a zero in the name", 5),
    ("event named, isr", 5),
    ("event named, init", 5),
    ("thread, filed", 20),
    ("isr, filed", 5),
    ("isr, the file has its pointer", 1),
    ("init, the file has its pointer or its field", 2),
];

/// Those of refusals: what was refused, and what else would have been.
const REFUSAL_MARKS: [(&str, usize); 12] = [
    ("the file is too long", 5),
    ("27 at the first record", 20),
    ("27 at a later record", 20),
    ("27, within the length or the kind", 10),
    ("27, within the number", 5),
    ("27, one byte is missing", 5),
    ("27, an event's number has no room", 5),
    ("27, a thread's number has no room", 5),
    ("27, three bytes for a number", 3),
    ("the dump, and the file too", 20),
    ("the dump, and the file is too long", 2),
    ("a file of 65,536 bytes", 2),
];

/// Those of refusals where a call has a reading, a position or a room.
const ARGUMENT_MARKS: [(&str, &[u8], usize); 7] = [
    ("14, and the file too", b"LA", 5),
    ("15, and the file too", b"LA", 10),
    ("the file, and 25 too", b"EL", 20),
    ("the file, and no room either", b"LA", 20),
    ("25 with a sound file", b"EL", 20),
    ("16 with a sound file", b"LA", 20),
    ("accepted, no room to spare", b"LA", 20),
];

const WRITE_MARKS: [(&str, usize); 13] = [
    ("written", 100),
    ("written to the buffer's end", 20),
    ("one byte past the buffer", 10),
    ("written to the end of the largest file", 3),
    ("one byte past the largest file", 10),
    ("past both ends", 20),
    ("past the largest file alone", 3),
    ("past the last number", 10),
    ("an empty name", 10),
    ("a zero in the name", 10),
    ("an event's", 50),
    ("a thread's", 50),
    ("behind the one before", 50),
];

/// A record as it lies in the file: its offset, its kind and its bytes.
type Part<'a> = (usize, u16, &'a [u8]);

/// The records before the first that is refused, and the offset of that one.
fn parts(names: &[u8]) -> (Vec<Part<'_>>, Option<usize>) {
    let mut parts = Vec::new();
    let mut at = 0;
    while at < names.len() {
        let half = |at: usize| Some(u16::from_le_bytes([*names.get(at)?, *names.get(at + 1)?]));
        let (length, kind) = match (half(at), half(at + 2)) {
            (Some(length), Some(kind)) => (usize::from(length), kind),
            _ => return (parts, Some(at)),
        };
        let end = at + 4 + length;
        if end > names.len() || (kind == 1 || kind == 2) && length < 4 {
            return (parts, Some(at));
        }
        parts.push((at, kind, &names[at + 4..end]));
        at = end;
    }
    (parts, None)
}

fn is_sound(names: &[u8]) -> bool {
    names.len() <= 65_536 && parts(names).1.is_none()
}

/// The indexes of the records that name the number.
fn naming(parts: &[Part], kind: u16, number: u32) -> Vec<usize> {
    let wanted = |part: &Part| part.1 == kind && part.2[..4] == number.to_le_bytes();
    (0..parts.len())
        .filter(|&index| wanted(&parts[index]))
        .collect()
}

fn holding(marks: &[(&'static str, bool)]) -> Vec<&'static str> {
    let holding = marks.iter().filter(|(_, holds)| *holds);
    holding.map(|(mark, _)| *mark).collect()
}

/// What was found for a pointer, with what the file has for it.
fn name_marks(dump: &[u8], names: &[u8], pointer: u32) -> Vec<&'static str> {
    let (parts, _) = parts(names);
    let places = naming(&parts, 2, pointer);
    let name = match find_name_with_names(dump, names, pointer).unwrap() {
        None => return vec!["none"],
        Some(name) => name,
    };
    if name.kind != NameKind::Filed {
        let in_both = ("live or gone, in the file too", !places.is_empty());
        return holding(&[(name.kind.text(), true), in_both]);
    }
    let big = Header::read(dump).unwrap().order == ByteOrder::Big;
    let stepped_over = |part: &Part| part.1 != 1 && part.1 != 2;
    holding(&[
        ("filed", true),
        ("filed, twice", places.len() > 1),
        ("filed, an empty name", name.bytes.is_empty()),
        ("filed, a zero in the name", name.bytes.contains(&0)),
        ("filed, not in the first record", places[0] > 0),
        (
            "filed, behind a record stepped over",
            parts[..places[0]].iter().any(stepped_over),
        ),
        ("filed, little-endian dump", !big),
        ("filed, big-endian dump", big),
    ])
}

/// What an event of the dump adds to what is found for its thread.
fn event_marks(dump: &[u8], names: &[u8], position: usize) -> Vec<&'static str> {
    let event = event_with_names(dump, names, position).unwrap();
    let (parts, _) = parts(names);
    let own = event.event_name.unwrap();
    let in_file = |number: u32| !naming(&parts, 2, number).is_empty();
    let is = |context: Context| event.context == context;
    let filed = event.name.map(|name| name.kind) == Some(NameKind::Filed);
    let mut marks = holding(&[
        ("event named", own.is_some()),
        ("event not named", own.is_none()),
        ("event named twice", naming(&parts, 1, event.id).len() > 1),
        (
            "event named, an empty name",
            own.map_or(false, |name| name.bytes.is_empty()),
        ),
        (
            "event named, a zero in the name",
            own.map_or(false, |name| name.bytes.contains(&0)),
        ),
        ("event named, isr", own.is_some() && is(Context::Isr)),
        ("event named, init", own.is_some() && is(Context::Init)),
        ("thread, filed", filed && is(Context::Thread)),
        ("isr, filed", filed && is(Context::Isr)),
        (
            "isr, the file has its pointer",
            is(Context::Isr) && event.field != event.pointer && in_file(event.pointer),
        ),
        (
            "init, the file has its pointer or its field",
            is(Context::Init) && (in_file(event.pointer) || in_file(event.field)),
        ),
    ]);
    match event.context {
        Context::Init => {}
        Context::Isr => marks.extend(name_marks(dump, names, event.field)),
        Context::Thread => marks.extend(name_marks(dump, names, event.pointer)),
    }
    marks
}

/// Where a file is refused with 27, told from what is left of it there.
fn broken_marks(names: &[u8], place: usize) -> Vec<&'static str> {
    let rest = &names[place..];
    let half = |at: usize| usize::from(u16::from_le_bytes([rest[at], rest[at + 1]]));
    let whole = rest.len() >= 4;
    let (length, kind) = if whole { (half(0), half(2)) } else { (0, 0) };
    let missing = (4 + length).saturating_sub(rest.len());
    let counts = kind == 1 || kind == 2;
    holding(&[
        ("27 at the first record", place == 0),
        ("27 at a later record", place > 0),
        ("27, within the length or the kind", !whole),
        (
            "27, within the number",
            counts && length >= 4 && rest.len() < 8,
        ),
        ("27, one byte is missing", whole && missing == 1),
        (
            "27, an event's number has no room",
            kind == 1 && length < 4 && missing == 0,
        ),
        (
            "27, a thread's number has no room",
            kind == 2 && length < 4 && missing == 0,
        ),
        (
            "27, three bytes for a number",
            counts && length == 3 && missing == 0,
        ),
    ])
}

/// The position and the room that a call has, where it has them.
fn arguments(call: &Call) -> (Option<usize>, Option<u32>) {
    match call {
        Call::EventWithNames { position } => (Some(*position), None),
        Call::LineWithNames { position, room, .. } => (Some(*position), Some(*room)),
        Call::ListingWithNames { room, .. } => (None, Some(*room)),
        _ => (None, None),
    }
}

fn refusal_marks(dump: &[u8], names: &[u8], call: &Call, refusal: Refusal) -> Vec<&'static str> {
    let events = check(dump).map(|summary| summary.events);
    let of_dump = match call {
        Call::FindNameWithNames { pointer } => find_name(dump, *pointer).is_err(),
        _ => events.is_err(),
    };
    let long = names.len() > 65_536;
    let sound = is_sound(names);
    let of_file = !of_dump && (refusal.number == 27 || refusal.number == 2);
    let (position, room) = arguments(call);
    let no_event = position.map_or(false, |position| position >= events.unwrap_or(0));
    let mut marks = holding(&[
        ("the dump, and the file too", of_dump && !sound),
        ("the dump, and the file is too long", of_dump && long),
        ("the file is too long", of_file && long),
        ("14, and the file too", refusal.number == 14 && !sound),
        ("15, and the file too", refusal.number == 15 && !sound),
        ("the file, and 25 too", of_file && no_event),
        ("the file, and no room either", of_file && room == Some(0)),
        ("25 with a sound file", refusal.number == 25),
        ("16 with a sound file", refusal.number == 16),
    ]);
    if of_file && !long {
        assert_eq!(parts(names).1, Some(refusal.place));
        marks.extend(broken_marks(names, refusal.place));
    }
    marks
}

/// What an accepted call met.
fn accepted_marks(dump: &[u8], names: &[u8], call: &Call, reply: &Reply) -> Vec<&'static str> {
    let mut marks = match call {
        Call::FindNameWithNames { pointer } => name_marks(dump, names, *pointer),
        Call::EventWithNames { position } | Call::LineWithNames { position, .. } => {
            event_marks(dump, names, *position)
        }
        _ => {
            let events = check(dump).unwrap().events;
            let each = |position| event_marks(dump, names, position);
            (0..events).flat_map(each).collect()
        }
    };
    if let (
        Reply::Text {
            result: Ok(text), ..
        },
        (_, Some(room)),
    ) = (reply, arguments(call))
    {
        marks.extend(holding(&[(
            "accepted, no room to spare",
            !text.is_empty() && text.len() == room as usize,
        )]));
    }
    marks
}

fn write_marks(naming: &Naming, room: usize, done: bool, next: usize) -> Vec<&'static str> {
    let name = naming.name.bytes();
    let length = 8 + name.len();
    let end = naming.offset.checked_add(length);
    let is = |wanted: usize| end == Some(wanted);
    let past = |limit: usize| end.map_or(true, |end| end > limit);
    holding(&[
        ("written", done),
        ("written to the buffer's end", done && is(room)),
        ("one byte past the buffer", !done && is(room + 1)),
        ("written to the end of the largest file", done && is(65_536)),
        ("one byte past the largest file", !done && is(65_537)),
        ("past both ends", past(room) && past(65_536)),
        ("past the largest file alone", !past(room) && past(65_536)),
        ("past the last number", end.is_none()),
        ("an empty name", done && name.is_empty()),
        ("a zero in the name", done && name.contains(&0)),
        ("an event's", done && naming.named == Named::Event),
        ("a thread's", done && naming.named == Named::Thread),
        (
            "behind the one before",
            done && next > 0 && naming.offset == next,
        ),
    ])
}

#[derive(Default)]
struct Seen {
    marks: HashMap<(u8, &'static str), usize>,
}

impl Seen {
    fn add(&mut self, letter: u8, marks: &[&'static str]) {
        for &mark in marks {
            *self.marks.entry((letter, mark)).or_default() += 1;
        }
    }

    fn must_have(&self, letter: u8, mark: &'static str, least: usize) {
        let count = self.marks.get(&(letter, mark)).copied().unwrap_or(0);
        let letter = letter as char;
        assert!(count >= least, "{}: {} times {}", letter, count, mark);
    }
}

#[test]
fn every_call_meets_name_files() {
    let mut seen = Seen::default();
    let mut generator = Generator::new(10);
    for _ in 0..10_000 {
        let case = generator.next_case();
        let mut buffer = case.buffer();
        let mut names = case.names();
        // Where the record written last ends.
        let mut next = 0;
        for call in &case.calls {
            let room = names.len();
            let reply = answer(&mut buffer, &mut names, call);
            let letter = call.letter();
            if let Call::WriteName(naming) = call {
                let done = reply.refusal().is_none();
                seen.add(letter, &write_marks(naming, room, done, next));
                if done {
                    next = naming.offset + 8 + naming.name.length as usize;
                }
            }
            if !CALLS.contains(&letter) {
                continue;
            }
            if room == 65_536 && is_sound(&names) {
                seen.add(letter, &["a file of 65,536 bytes"]);
            }
            let marks = match reply.refusal() {
                Some(refusal) => refusal_marks(&buffer, &names, call, refusal),
                None => accepted_marks(&buffer, &names, call, &reply),
            };
            seen.add(letter, &marks);
        }
    }
    for &letter in CALLS {
        let by_event = EVENT_MARKS.iter().filter(|_| letter != b'N');
        for (mark, least) in MARKS.iter().chain(&REFUSAL_MARKS).chain(by_event) {
            seen.must_have(letter, mark, *least);
        }
    }
    for (mark, letters, least) in ARGUMENT_MARKS {
        for &letter in letters {
            seen.must_have(letter, mark, least);
        }
    }
    for (mark, least) in WRITE_MARKS {
        seen.must_have(b'r', mark, least);
    }
}

/// A filed name is the bytes of the name file at its place, any other those of the dump.
#[test]
fn a_name_lies_at_its_place() {
    let mut generator = Generator::new(11);
    let mut filed = 0;
    for _ in 0..3_000 {
        let case = generator.next_case();
        let mut buffer = case.buffer();
        let mut names = case.names();
        for call in &case.calls {
            let reply = answer(&mut buffer, &mut names, call);
            for name in names_in(&reply) {
                let whole = match name.kind {
                    NameKind::Filed => &names,
                    _ => &buffer,
                };
                assert_eq!(whole[name.at..][..name.bytes.len()], name.bytes);
                filed += usize::from(name.kind == NameKind::Filed);
            }
        }
    }
    assert!(filed > 200, "{} filed names", filed);
}

fn names_in(reply: &Reply) -> Vec<&FoundName> {
    match reply {
        Reply::Event(Ok(EventAnswer {
            name, event_name, ..
        })) => name.iter().chain(event_name.iter().flatten()).collect(),
        Reply::FindName(Ok(name)) => name.iter().collect(),
        _ => Vec::new(),
    }
}
