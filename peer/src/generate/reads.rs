//! Cases that read: sound dumps, damaged ones, altered ones, and bytes that never were a dump.

use super::chance::Chance;
use super::cut::{cut_length, entries_before};
use super::damage::damage;
use super::draft::Draft;
use super::sound::{sound, Measure};
use super::values;
use super::writes;
use super::Generator;
use crate::call::Call;
use crate::case::Case;

pub fn sound_dump(generator: &mut Generator) -> Case {
    let chance = &mut generator.chance;
    let measure = Measure::any(chance);
    let pointers = values::pointers(chance);
    let buffer = sound(chance, &measure, &pointers).bytes();
    let mut draft = Draft::new("sound", buffer, pointers);
    draft.check();
    for _ in 0..chance.between(1, 2) {
        draft.event(chance);
    }
    draft.find_name(chance);
    for _ in 0..chance.between(1, 2) {
        draft.line(chance);
    }
    draft.listing(chance, &mut generator.readings);
    if chance.one_in(3) {
        draft.mend(chance);
    }
    if chance.one_in(3) {
        writes::any_write(chance, &mut draft);
        draft.listing(chance, &mut generator.readings);
    }
    draft.finish()
}

/// Distances between pointers at which a table by remainder, by low bits or by a product with the golden ratio has one place for all.
pub const DISTANCES: [u32; 11] = [
    1, 4, 251, 256, 509, 1_021, 2_042, 3_063, 1_024, 46_368, 65_536,
];

/// Many threads that take turns, some with a name, the same ones again and again.
pub fn many_threads(generator: &mut Generator) -> Case {
    let chance = &mut generator.chance;
    let distance = 4 * chance.pick(&DISTANCES);
    let count = chance.between(4, 12) as u32;
    let pointers: Vec<u32> = (0..count)
        .map(|index| 0x2000_1000 + distance * index)
        .collect();
    let most = chance.pick(&[10, 10, 10, 10, 10, 40]);
    let measure = Measure {
        entries: chance.between(2, 12),
        slots: chance.between(6, most),
    };
    let buffer = sound(chance, &measure, &pointers).bytes();
    let mut draft = Draft::new("threads", buffer, pointers);
    draft.find_name(chance);
    draft.listing(chance, &mut generator.readings);
    draft.finish()
}

/// The refusals that a damage aims at.
const DAMAGES: [u32; 12] = [3, 4, 5, 6, 7, 8, 9, 10, 11, 12, 13, 26];

pub fn damaged_once(generator: &mut Generator) -> Case {
    let number = generator.chance.pick(&DAMAGES);
    damaged(generator, &format!("damage {}", number), &[number])
}

/// Two damages at once show the order of the checks.
pub fn damaged_twice(generator: &mut Generator) -> Case {
    let first = generator.chance.pick(&DAMAGES);
    let second = generator.chance.pick(&DAMAGES);
    damaged(
        generator,
        &format!("damages {} {}", first, second),
        &[first, second],
    )
}

fn damaged(generator: &mut Generator, title: &str, numbers: &[u32]) -> Case {
    let chance = &mut generator.chance;
    let measure = measure_for(chance, numbers);
    let pointers = values::pointers(chance);
    let mut sketch = sound(chance, &measure, &pointers);
    for &number in numbers {
        damage(chance, &mut sketch, number);
    }
    let mut draft = Draft::new(title, sketch.bytes(), pointers);
    few_calls(generator, &mut draft);
    draft.finish()
}

/// Damaged entries and slots want several of them, so that the place is not always 0.
fn measure_for(chance: &mut Chance, numbers: &[u32]) -> Measure {
    let mut measure = Measure::small(chance);
    if numbers.contains(&11) {
        measure.entries = chance.between(1, 5);
    }
    if numbers.contains(&12) || numbers.contains(&13) {
        measure.slots = chance.between(2, 5);
    }
    if numbers.contains(&26) {
        measure.entries = entries_before(chance);
    }
    measure
}

/// A check, often a mending, and a few other calls of any kind.
fn few_calls(generator: &mut Generator, draft: &mut Draft) {
    let chance = &mut generator.chance;
    draft.check();
    if chance.one_in(2) {
        draft.mend(chance);
    }
    for _ in 0..chance.between(2, 4) {
        match chance.below(9) {
            0 | 1 => draft.event(chance),
            2 | 3 => draft.find_name(chance),
            4 => draft.line(chance),
            5 | 6 => draft.listing(chance, &mut generator.readings),
            _ => writes::any_write(chance, draft),
        }
    }
}

fn small_sound(chance: &mut Chance) -> (Vec<u8>, Vec<u32>) {
    let measure = Measure::small(chance);
    let pointers = values::pointers(chance);
    (sound(chance, &measure, &pointers).bytes(), pointers)
}

pub fn flipped_bits(generator: &mut Generator) -> Case {
    let chance = &mut generator.chance;
    let (mut buffer, pointers) = small_sound(chance);
    for _ in 0..chance.between(1, 3) {
        let index = chance.below(buffer.len());
        buffer[index] ^= 1 << chance.below(8);
    }
    let mut draft = Draft::new("flipped", buffer, pointers);
    few_calls(generator, &mut draft);
    draft.finish()
}

pub fn cut_or_lengthened(generator: &mut Generator) -> Case {
    let chance = &mut generator.chance;
    let (mut buffer, pointers) = small_sound(chance);
    let length = buffer.len();
    let fill = chance.byte();
    match chance.below(25) {
        0 => buffer.resize(65_536, fill),
        1 | 24 => buffer.resize(65_537, fill),
        2 => buffer.clear(),
        3 | 4 => buffer.truncate(47),
        5 | 6 => buffer.truncate(48),
        7..=9 => buffer.truncate(length - 1),
        10..=12 => buffer.resize(length + 1, fill),
        13..=15 => buffer.resize(length + 40, fill),
        _ => buffer.truncate(chance.below(length)),
    }
    let mut draft = Draft::new("length", buffer, pointers);
    few_calls(generator, &mut draft);
    draft.finish()
}

pub fn random_bytes(generator: &mut Generator) -> Case {
    let chance = &mut generator.chance;
    let length = chance.below(120);
    let mut buffer = chance.bytes(length);
    // An id of either order lets the other checks be reached.
    if length >= 4 && chance.one_in(2) {
        let id: &[u8; 4] = chance.pick(&[b"TXTB", b"BTXT"]);
        buffer[..4].copy_from_slice(id);
    }
    let mut draft = Draft::new("random", buffer, Vec::new());
    few_calls(generator, &mut draft);
    draft.finish()
}

pub fn header_only(generator: &mut Generator) -> Case {
    let chance = &mut generator.chance;
    let (mut buffer, pointers) = small_sound(chance);
    buffer.truncate(48);
    let fill = chance.byte();
    let further = chance.pick(&[0, 1, 32, 64, 200]);
    buffer.resize(48 + further, fill);
    let mut draft = Draft::new("header", buffer, pointers);
    few_calls(generator, &mut draft);
    draft.finish()
}

/// A header before equal bytes: a large dump that takes little room in the file of cases.
pub fn filled(generator: &mut Generator) -> Case {
    let chance = &mut generator.chance;
    let fill = chance.pick(&[0, 1, 1, 2, 14, 15, 28, 0xF0, 0xFF, 0x22]);
    let length: usize = chance.pick(&[500, 4_096, 20_000, 65_536, 65_536, 65_537]);
    let measure = Measure {
        entries: chance.pick(&[0, 0, 3, 40, 700]),
        slots: 1,
    };
    let pointers = vec![u32::from_ne_bytes([fill; 4])];
    let mut sketch = sound(chance, &measure, &pointers);
    sketch.current = sketch.buffer_start;
    let slots = length.saturating_sub(sketch.ring()) / 32;
    let end = sketch.ring() + 32 * slots;
    sketch.buffer_end = sketch.pointer(end);
    let mut buffer = sketch.bytes();
    buffer.truncate(48);
    buffer.resize(length, fill);
    if chance.one_in(3) {
        buffer.truncate(cut_length(chance, sketch.ring(), end));
    }
    let mut draft = Draft::new("filled", buffer, pointers);
    draft.check();
    draft.mend(chance);
    draft.event(chance);
    draft.find_name(chance);
    draft.line(chance);
    let reading = generator.readings.accepted(chance, draft.events());
    // The listing would be long, so it gets one byte too little.
    let room = draft.listing_length(&reading).saturating_sub(1) as u32;
    draft.make(Call::Listing { reading, room });
    writes::any_write(chance, &mut draft);
    draft.check();
    draft.finish()
}
