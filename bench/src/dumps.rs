//! The dumps that are timed, made by the library's own writing calls.

use crate::stream::{Stream, INIT, ISR};
use lepsaino::{Format, Object, Reading, Slot};
use peer::generate::chance::Chance;

/// The byte orders, as formatting has them.
pub const LITTLE: u32 = 0;
pub const BIG: u32 = 1;

pub const LARGEST: usize = 65_536;
const BASE: u32 = 0x2000_0000;
const FIRST_THREAD: u32 = BASE + 0x1000;
pub const NAMED_THREADS: usize = 400;
pub const KINDS: [&str; 8] = [
    "pump",
    "motor control",
    "display",
    "battery monitor",
    "alarm",
    "serial port receiver",
    "logger",
    "watchdog",
];

pub struct Dump {
    pub bytes: Vec<u8>,
    pub reading: Reading,
    pub events: usize,
}

impl Dump {
    fn formatted(length: usize, big: u32, name_size: u16, entries: usize, unit: u32) -> Dump {
        let mut bytes = vec![0; length];
        let format = Format {
            big,
            base: BASE,
            mask: 0xFFFF_FFFF,
            name_size,
            entries,
        };
        let events = lepsaino::format(&mut bytes, format).expect("a buffer that can be formatted");
        let reading = Reading {
            rate: 3_000_000,
            unit,
            serial: 0,
        };
        Dump {
            bytes,
            reading,
            events,
        }
    }

    fn register(&mut self, pointer: u32, name: &str) {
        let object = Object {
            object_type: 1,
            pointer,
            ..Object::default()
        };
        lepsaino::register(&mut self.bytes, object, name.as_bytes()).expect("a free entry");
    }

    fn record(&mut self, slot: Slot) {
        lepsaino::record(&mut self.bytes, slot).expect("an event that can be recorded");
    }
}

/// At irregular distances; the factor is odd, so that all are distinct.
pub const fn thread(index: usize) -> u32 {
    FIRST_THREAD + 4 * ((index as u32).wrapping_mul(0x9E37_79B1) & 0x3_FFFF)
}

/// So many different pointers.
pub type Shape = fn(usize) -> Vec<u32>;

pub const SHAPES: [(&str, Shape); 6] = [
    ("irregular", |count| (0..count).map(thread).collect()),
    ("drawn", drawn),
    ("256", |count| apart(256, count)),
    ("4096", |count| apart(4_096, count)),
    // The lower halves are all equal.
    ("65536", |count| apart(65_536, count)),
    ("crowded", crowded),
];

/// The irregular ones are multiples of a factor, which a product places evenly; these meet as often as chance has it.
fn drawn(count: usize) -> Vec<u32> {
    let mut chance = Chance::new(1);
    let pointer = |_| FIRST_THREAD + 4 * chance.below(0x800_0000) as u32;
    (0..count).map(pointer).collect()
}

fn apart(distance: u32, count: usize) -> Vec<u32> {
    let pointer = |index| FIRST_THREAD + distance * index;
    (0..count as u32).map(pointer).collect()
}

/// All at one place of the library's index, as someone would choose them who knows how it places them.
pub fn crowded(count: usize) -> Vec<u32> {
    let place = |pointer: u32| u64::from(pointer) * 2_654_435_769 / (1 << 21) % 2_048;
    let aligned = (FIRST_THREAD..).step_by(4);
    let together = aligned.filter(|pointer| place(*pointer) == place(FIRST_THREAD));
    together.take(count).collect()
}

/// No entries and no events.
pub fn empty(big: u32) -> Dump {
    Dump::formatted(LARGEST, big, 4, 0, 0)
}

/// 2,046 events of twelve threads and interrupts, no entries, keys that are printed bare.
pub fn full(big: u32) -> Dump {
    let mut dump = Dump::formatted(LARGEST, big, 4, 0, 4_711);
    let mut stream = Stream::new();
    let mut running = thread(0);
    for _ in 0..dump.events + 700 {
        if stream.chance.one_in(4) {
            running = thread(stream.chance.below(12));
        }
        let slot = if stream.chance.one_in(8) {
            stream.event(ISR, running)
        } else {
            stream.thread(running)
        };
        dump.record(slot);
    }
    dump
}

/// The full dump with no id in one of its slots.
pub fn without_id(slot: usize) -> Dump {
    let mut dump = full(LITTLE);
    dump.bytes[48 + 32 * slot + 8..][..4].fill(0);
    dump
}

/// The first half of the full dump.
pub fn half() -> Dump {
    let mut dump = full(LITTLE);
    dump.bytes.truncate(LARGEST / 2);
    dump
}

/// 400 threads with names, each event another's than the one before, keys that are printed in quotes.
pub fn with_names() -> Dump {
    let mut dump = Dump::formatted(LARGEST, LITTLE, 32, NAMED_THREADS, 8_192);
    for index in 0..NAMED_THREADS {
        let name = format!("{} {}", KINDS[index % KINDS.len()], index);
        dump.register(thread(index), &name);
    }
    let mut stream = Stream::new();
    for turn in 0..dump.events + 500 {
        let running = thread(turn % NAMED_THREADS);
        let slot = match stream.chance.below(32) {
            0 => stream.event(INIT, 0),
            1..=4 => stream.event(ISR, running),
            5..=6 => stream.thread(thread(NAMED_THREADS + turn)),
            _ => stream.thread(running),
        };
        dump.record(slot);
    }
    dump
}

/// The same with every thread removed; their names are still there.
pub fn with_gone() -> Dump {
    let mut dump = with_names();
    for index in 0..NAMED_THREADS {
        lepsaino::remove(&mut dump.bytes, thread(index)).expect("a thread that is registered");
    }
    dump
}

/// 1,500 threads, and beside them as many events as the largest dump has room for.
pub fn with_entries() -> Dump {
    const THREADS: usize = 1_500;
    growing((LARGEST - 48 - 20 * THREADS) / 32, THREADS, THREADS)
}

/// So many events and so many entries; the events leap about among the last so many threads.
pub fn growing(events: usize, entries: usize, threads: usize) -> Dump {
    let pointers: Vec<u32> = (0..entries.max(1)).map(thread).collect();
    let running = &pointers[pointers.len() - threads..];
    leaping(events, &pointers[..entries], running)
}

/// So many events, which leap about among the running threads; the named ones have an entry each.
pub fn leaping(events: usize, named: &[u32], running: &[u32]) -> Dump {
    let length = 48 + 20 * named.len() + 32 * events;
    let mut dump = Dump::formatted(length, LITTLE, 4, named.len(), 4_711);
    for (index, pointer) in named.iter().enumerate() {
        dump.register(*pointer, &index.to_string());
    }
    let mut stream = Stream::new();
    for turn in 0..events {
        dump.record(stream.thread(running[7 * turn % running.len()]));
    }
    dump
}

/// So many events and no entries; both ids and threads leap about among the numbers.
pub fn unnamed(events: usize, numbers: &[u32]) -> Dump {
    let mut dump = Dump::formatted(48 + 32 * events, LITTLE, 4, 0, 4_711);
    let mut stream = Stream::new();
    for turn in 0..events {
        let number = numbers[7 * turn % numbers.len()];
        let id = number;
        let slot = stream.thread(number);
        dump.record(Slot { id, ..slot });
    }
    dump
}
