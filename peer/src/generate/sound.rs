//! Sketches of sound dumps: both byte orders, every state of the ring, full and free entries.

use super::chance::Chance;
use super::names::name_field;
use super::sketch::{EntrySketch, Sketch};
use super::values;
use crate::limits::{FREE, ID, INIT_POINTER, ISR_POINTER};

/// How many entries and slots a sketch gets.
pub struct Measure {
    pub entries: usize,
    pub slots: usize,
}

impl Measure {
    /// Mostly small, now and then larger.
    pub fn any(chance: &mut Chance) -> Measure {
        let entries = match chance.below(12) {
            0 => chance.between(4, 9),
            _ => chance.pick(&[0, 1, 1, 2, 2, 3]),
        };
        let slots = match chance.below(40) {
            0 => chance.between(9, 24),
            1..=4 => chance.between(4, 8),
            _ => chance.between(1, 3),
        };
        Measure { entries, slots }
    }

    pub fn small(chance: &mut Chance) -> Measure {
        Measure {
            entries: chance.below(4),
            slots: chance.between(1, 4),
        }
    }
}

/// The pointers are those that entries and events share.
pub fn sound(chance: &mut Chance, measure: &Measure, pointers: &[u32]) -> Sketch {
    let name_size = values::name_size(chance);
    let registry = measure.entries * (16 + usize::from(name_size));
    let ring = 48 + registry;
    let end = ring + 32 * measure.slots;
    let base = values::base(chance, end);
    let at = |offset: usize| base.wrapping_add(offset as u32);
    let mask = values::mask(chance);
    let (slots, current) = slots(chance, measure.slots, mask, pointers);
    let noise = chance.one_in(3);
    Sketch {
        order: values::order(chance),
        id: ID,
        mask,
        base,
        registry_start: at(48),
        reserved_half: if noise { chance.word() as u16 } else { 0 },
        name_size,
        registry_end: at(ring),
        buffer_start: at(ring),
        buffer_end: at(end),
        current: at(ring + 32 * current),
        reserved: if noise {
            [(); 3].map(|_| chance.word())
        } else {
            [0; 3]
        },
        entries: (0..measure.entries)
            .map(|_| entry(chance, usize::from(name_size), pointers))
            .collect(),
        slots,
        leftover: leftover(chance),
        kept: usize::MAX,
    }
}

fn leftover(chance: &mut Chance) -> Vec<u8> {
    let count = match chance.below(5) {
        0 => chance.below(32),
        1 => chance.pick(&[1, 31]),
        _ => 0,
    };
    chance.bytes(count)
}

fn entry(chance: &mut Chance, name_size: usize, pointers: &[u32]) -> EntrySketch {
    if chance.one_in(10) {
        return fresh_entry(name_size);
    }
    let free = chance.one_in(3);
    // A free entry keeps old contents, often a thread's, and may have such as no in-use entry may have.
    let kind = if free && chance.one_in(4) {
        values::bad_kind(chance)
    } else {
        values::kind(chance)
    };
    EntrySketch {
        flag: if free {
            FREE
        } else {
            values::flag_in_use(chance)
        },
        kind,
        reserved: [chance.below(32) as u8, 0],
        pointer: chance.pick(pointers),
        parameters: [chance.below(3) as u32, chance.word()],
        name_field: name_field(chance, name_size),
    }
}

/// As formatting leaves it.
pub fn fresh_entry(name_size: usize) -> EntrySketch {
    EntrySketch {
        flag: FREE,
        kind: 0,
        reserved: [0; 2],
        pointer: 0,
        parameters: [0; 2],
        name_field: vec![0; name_size],
    }
}

/// The slots, and the index of the one at current.
fn slots(chance: &mut Chance, count: usize, mask: u32, pointers: &[u32]) -> (Vec<[u32; 8]>, usize) {
    let gone_round = chance.below(5) < 3;
    let used = if gone_round {
        count
    } else {
        chance.below(count)
    };
    let current = if gone_round {
        chance.below(count)
    } else {
        used
    };
    let mut slots = vec![[0; 8]; count];
    let stamps = stamps(chance, used, mask);
    for (position, stamp) in stamps.into_iter().enumerate() {
        let index = if gone_round {
            (current + position) % count
        } else {
            position
        };
        slots[index] = event(chance, stamp, pointers);
    }
    for slot in &mut slots[used..] {
        if chance.one_in(4) {
            *slot = chance.words();
            slot[0] = 0;
        }
    }
    (slots, current)
}

/// An event's words as a target would write them, its context any of the three.
pub fn event(chance: &mut Chance, stamp: u32, pointers: &[u32]) -> [u32; 8] {
    let pointer = match chance.below(9) {
        0 => INIT_POINTER,
        1 | 2 => ISR_POINTER,
        _ => chance.pick(pointers),
    };
    let mut words = [(); 8].map(|_| values::information(chance));
    words[0] = pointer.max(1);
    words[1] = field(chance, pointer, pointers);
    words[2] = values::event_id(chance);
    words[3] = stamp;
    words
}

/// In an isr event the pointer of a thread; 0 is the pointer of an entry that never was in use.
fn field(chance: &mut Chance, pointer: u32, pointers: &[u32]) -> u32 {
    match chance.below(12) {
        0 => chance.pick(&[0, u32::MAX]),
        1 | 2 if pointer == ISR_POINTER => 0,
        2..=6 => chance.pick(pointers),
        _ if pointer == ISR_POINTER => chance.pick(pointers),
        _ => 16,
    }
}

/// Stamps, oldest first; bits above the mask do not count and may be anything.
fn stamps(chance: &mut Chance, count: usize, mask: u32) -> Vec<u32> {
    let style = chance.below(4);
    let noise = if chance.one_in(3) { !mask } else { 0 };
    let mut time = chance.word();
    (0..count)
        .map(|_| {
            let gap = match style {
                0 => chance.below(100) as u32,
                1 => chance.word(),
                2 => mask - chance.below(3).min(mask as usize) as u32,
                _ => chance.pick(&[0, 1, mask]),
            };
            time = time.wrapping_add(gap);
            (time & mask) | (chance.word() & noise)
        })
        .collect()
}
