//! Name files by hand: the whole case with one, files cut at each byte, short records, the largest file, and every order of refusals.

use super::draft::Draft;
use super::name_files::{lay, named, RecordSketch};
use crate::call::Call;
use crate::case::Case;
use crate::format::{format, Plan};
use crate::order::ByteOrder;
use crate::reading::Reading;
use crate::record::record;
use crate::register::{register, Object};
use crate::remove::remove;

const POINTER: u32 = 0x2000_1000;
pub const OTHER: u32 = 0x2000_2000;
const UNKNOWN: u32 = 0x2000_3000;
const ISR: u32 = 0xFFFF_FFFF;
const INIT: u32 = 0xF0F0_F0F0;

/// The events of the whole case, and one before any thread ran.
pub const EVENTS: [[u32; 8]; 4] = [
    [POINTER, 16, 5, 65_500, 1, 2, 3, 4],
    [ISR, POINTER, 1025, 20, 0, 0, 0, 0],
    [OTHER, 16, 6, 20, 7, 0, 0, 0],
    [INIT, POINTER, 5, 21, 0, 0, 0, 0],
];

/// Listings that are accepted have this unit, each its own serials.
const UNIT: u32 = 15;

pub fn filed_cases() -> Vec<Case> {
    [
        whole(),
        threads(),
        cuts(),
        short_records(),
        largest_files(),
        vec![every_byte()],
        orders(),
    ]
    .concat()
}

/// One thread, live or removed, and the events in a ring of five slots.
fn dump(order: ByteOrder, removed: bool) -> Vec<u8> {
    let plan = Plan {
        order,
        base: 0x2000_0000,
        mask: 0xFFFF,
        name_size: 8,
        entries: 1,
    };
    let mut buffer = vec![0; 48 + 24 + 32 * 5];
    format(&mut buffer, &plan).expect("the plan is sound");
    let thread = Object {
        kind: 1,
        pointer: POINTER,
        parameters: [0, 0],
        reserved: [16, 0],
        name: b"pump",
    };
    register(&mut buffer, &thread).expect("an entry is free");
    if removed {
        remove(&mut buffer, POINTER).expect("the thread is there");
    }
    for words in &EVENTS {
        record(&mut buffer, words).expect("the event is sound");
    }
    buffer
}

pub fn sound() -> Vec<u8> {
    dump(ByteOrder::Big, false)
}

pub fn start(title: &str, buffer: Vec<u8>, names: &[u8]) -> Draft {
    Draft::with_names(title, buffer, Vec::new(), names.to_vec())
}

pub fn reading(serial: u64) -> Reading {
    Reading::new(3_000_000, UNIT, serial)
}

pub fn find(draft: &mut Draft, pointer: u32) {
    draft.make(Call::FindNameWithNames { pointer });
}

pub fn event(draft: &mut Draft, position: usize) {
    draft.make(Call::EventWithNames { position });
}

/// With room for just the line, less by so many bytes.
pub fn line(draft: &mut Draft, position: usize, less: usize) {
    let reading = reading(0);
    let length = draft.line_length_with_names(&reading, position);
    draft.make(Call::LineWithNames {
        reading,
        position,
        room: length.saturating_sub(less) as u32,
    });
}

/// With room for just the listing, less by so many bytes.
pub fn listing(draft: &mut Draft, serial: u64, less: usize) {
    let reading = reading(serial);
    let length = draft.listing_length_with_names(&reading);
    draft.make(Call::ListingWithNames {
        reading,
        room: length.saturating_sub(less) as u32,
    });
}

/// Two events and two threads; the thread of the dump and the second of each number do not count.
fn two_of_each() -> Vec<u8> {
    lay(&[
        named(1, 5, b"send"),
        named(2, OTHER, b"valve"),
        named(9, 6, b"not this"),
        named(2, POINTER, b"not in the dump"),
        named(1, 1025, b""),
        named(1, 5, b"too late"),
        named(2, OTHER, b"too late"),
        named(2, 6, b"a thread's"),
        named(1, OTHER, b"an event's"),
    ])
}

/// In both byte orders, with a file and with an empty one.
fn whole() -> Vec<Case> {
    let files = [
        ("a name file", two_of_each()),
        ("an empty file", Vec::new()),
    ];
    let orders = [("", ByteOrder::Little), (", big-endian", ByteOrder::Big)];
    let mut cases = Vec::new();
    for (file, names) in &files {
        for (suffix, order) in orders {
            let title = format!("{}{}", file, suffix);
            let mut draft = start(&title, dump(order, false), names);
            for pointer in [POINTER, OTHER, UNKNOWN, 5, 6] {
                find(&mut draft, pointer);
            }
            for position in 0..=4 {
                event(&mut draft, position);
                line(&mut draft, position, 0);
            }
            line(&mut draft, 0, 1);
            let serial = 100 * cases.len() as u64;
            listing(&mut draft, serial, 1);
            listing(&mut draft, serial, 0);
            cases.push(draft.finish());
        }
    }
    cases
}

/// The thread of the dump live or removed, and in the file each pointer that an event has or none.
fn threads() -> Vec<Case> {
    let mut cases = Vec::new();
    for (state, removed) in [("live", false), ("gone", true)] {
        for pointer in [POINTER, OTHER, ISR, INIT, 0, 16] {
            let title = format!("thread {}, filed {}", state, pointer);
            let names = lay(&[named(2, pointer, b"filed")]);
            let mut draft = start(&title, dump(ByteOrder::Little, removed), &names);
            find(&mut draft, pointer);
            for position in 0..4 {
                event(&mut draft, position);
            }
            line(&mut draft, 3, 0);
            cases.push(draft.finish());
        }
    }
    cases
}

/// Three records, of 8, 9 and 13 bytes; each length of the file, in either byte order.
fn cuts() -> Vec<Case> {
    let names = lay(&[
        named(1, 5, b""),
        RecordSketch {
            kind: 7,
            bytes: b"seven".to_vec(),
        },
        named(2, OTHER, b"valve"),
    ]);
    let case = |length: usize| {
        let order = [ByteOrder::Little, ByteOrder::Big][length % 2];
        let title = format!("names cut to {}", length);
        let mut draft = start(&title, dump(order, false), &names[..length]);
        find(&mut draft, OTHER);
        event(&mut draft, 0);
        line(&mut draft, 2, 0);
        draft.finish()
    };
    (0..=names.len()).map(case).collect()
}

/// Records of no more than four bytes behind a sound one, of each kind that counts and of some that do not.
fn short_records() -> Vec<Case> {
    let mut cases = Vec::new();
    for kind in [0, 1, 2, 3, 0x0100, 0x0201, 0xFFFF] {
        for count in 0..=4 {
            let short = RecordSketch {
                kind,
                bytes: vec![0; count],
            };
            let names = lay(&[named(1, 6, b"six"), short, named(2, OTHER, b"valve")]);
            let title = format!("a record of kind {}, {} bytes", kind, count);
            let mut draft = start(&title, sound(), &names);
            event(&mut draft, 2);
            find(&mut draft, 0);
            cases.push(draft.finish());
        }
    }
    cases
}

/// One record over the whole file, ending at its end and one byte past it, or with zeros behind it.
fn largest_files() -> Vec<Case> {
    let mut cases = Vec::new();
    for length in [65_535, 65_536, 65_537] {
        for kind in [1, 2, 3] {
            for bytes in [65_531u16, 65_532, 65_533, 65_535, 4] {
                let mut names = vec![0; length];
                names[..2].copy_from_slice(&bytes.to_le_bytes());
                names[2] = kind;
                names[4] = 5;
                let title = format!("{} bytes, kind {}, {}", length, kind, bytes);
                let mut draft = start(&title, sound(), &names);
                find(&mut draft, 6);
                event(&mut draft, 2);
                cases.push(draft.finish());
            }
        }
    }
    cases
}

/// A name of every byte value, for an event and for a thread.
fn every_byte() -> Case {
    let bytes: Vec<u8> = (0..=255).collect();
    let names = lay(&[named(1, 6, &bytes), named(2, OTHER, &bytes)]);
    let mut draft = start("every byte", sound(), &names);
    find(&mut draft, OTHER);
    event(&mut draft, 2);
    line(&mut draft, 2, 1);
    line(&mut draft, 2, 0);
    draft.finish()
}

/// Each of the dump, the reading, the file, the position and the room sound or broken, with all others.
fn orders() -> Vec<Case> {
    let mut broken = sound();
    // The id of the first event.
    broken[72 + 8..72 + 12].fill(0);
    let cut = lay(&[named(1, 5, b"send")])[..9].to_vec();
    let files = [
        ("sound", two_of_each()),
        ("cut", cut),
        ("long", vec![0; 65_537]),
    ];
    let mut cases = Vec::new();
    for (state, dump) in [("sound", sound()), ("broken", broken)] {
        for (file, names) in &files {
            let title = format!("orders, dump {}, file {}", state, file);
            let mut draft = start(&title, dump.clone(), names);
            find(&mut draft, POINTER);
            for position in [0, 4] {
                event(&mut draft, position);
            }
            broken_arguments(&mut draft);
            cases.push(draft.finish());
        }
    }
    cases
}

/// Lines and listings with each set of broken arguments but the empty one.
fn broken_arguments(draft: &mut Draft) {
    for set in 1..16 {
        let broken = |bit: u32| set >> bit & 1 == 1;
        let rate = if broken(0) { 0 } else { 1 };
        let unit = if broken(1) { 1 << 24 } else { UNIT };
        let reading = Reading::new(rate, unit, 0);
        let position = if broken(2) { 4 } else { 0 };
        let room = if broken(3) { 1 } else { 1_000 };
        draft.make(Call::LineWithNames {
            reading,
            position,
            room,
        });
        // A listing has no position.
        if !broken(2) {
            draft.make(Call::ListingWithNames { reading, room });
        }
    }
}
