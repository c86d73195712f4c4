//! Cases with a name file: sound and damaged ones, refusals of the dump, the reading and the file at once, and files that are written by calls.

use super::chance::Chance;
use super::damage::damage;
use super::draft::Draft;
use super::name_files::{damaged_file, filed_name, lay, named, sound_file, Numbers, RecordSketch};
use super::names::name;
use super::readings::refused;
use super::reads::DISTANCES;
use super::sketch::Sketch;
use super::sound::{sound, Measure};
use super::values;
use super::Generator;
use crate::call::Call;
use crate::case::Case;
use crate::filled::Filled;
use crate::limits::{LARGEST_DUMP, LARGEST_NAME_FILE};
use crate::name_file::Named;

/// A small dump, some of whose threads are in no entry.
fn small_dump(chance: &mut Chance) -> (Sketch, Numbers) {
    let measure = Measure {
        entries: chance.below(4),
        slots: chance.between(1, 4),
    };
    let pointers = values::pointers(chance);
    let mut sketch = sound(chance, &measure, &pointers);
    for entry in &mut sketch.entries {
        if chance.one_in(2) {
            entry.pointer ^= 0x40;
        }
    }
    let mut ids: Vec<u32> = sketch.slots.iter().map(|slot| slot[2]).collect();
    ids.retain(|&id| id != 0);
    (sketch, Numbers { ids, pointers })
}

/// Every call with the file, some of them twice.
fn every_call(generator: &mut Generator, draft: &mut Draft) {
    let chance = &mut generator.chance;
    draft.find_name_with_names(chance);
    draft.event_with_names(chance);
    draft.line_with_names(chance);
    draft.listing_with_names(chance, &mut generator.readings);
    match chance.below(4) {
        0 => draft.find_name_with_names(chance),
        1 => draft.event_with_names(chance),
        2 => draft.line_with_names(chance),
        _ => {}
    }
}

pub fn sound_names(generator: &mut Generator) -> Case {
    let chance = &mut generator.chance;
    let (sketch, numbers) = small_dump(chance);
    let names = lay(&sound_file(chance, &numbers));
    let mut draft = Draft::with_names("names", sketch.bytes(), numbers.pointers, names);
    every_call(generator, &mut draft);
    let chance = &mut generator.chance;
    // The calls without the file take no notice of it.
    match chance.below(8) {
        0 => draft.event(chance),
        1 => draft.find_name(chance),
        2 => draft.line(chance),
        3 => draft.listing(chance, &mut generator.readings),
        _ => {}
    }
    draft.finish()
}

/// Many ids and many threads that take turns, most of them in the file, the same ones again and again.
pub fn many_names(generator: &mut Generator) -> Case {
    let chance = &mut generator.chance;
    let distance = chance.pick(&DISTANCES);
    let count = chance.between(4, 12) as u32;
    let pointers: Vec<u32> = (0..count)
        .map(|index| 0x2000_1000 + 4 * distance * index)
        .collect();
    let ids: Vec<u32> = (0..count).map(|index| 5 + distance * index).collect();
    let most = chance.pick(&[10, 10, 10, 10, 10, 10, 10, 40]);
    let measure = Measure {
        entries: chance.below(4),
        slots: chance.between(6, most),
    };
    let mut sketch = sound(chance, &measure, &pointers);
    for slot in sketch.slots.iter_mut().filter(|slot| slot[0] != 0) {
        slot[2] = chance.pick(&ids);
    }
    let records: Vec<RecordSketch> = (0..chance.between(6, 18))
        .map(|_| {
            let numbers = chance.pick(&[&ids, &pointers]);
            let kind = if numbers == &ids { 1 } else { 2 };
            let length = chance.below(6);
            named(kind, chance.pick(numbers), &name(chance, length))
        })
        .collect();
    let mut draft = Draft::with_names("many names", sketch.bytes(), pointers, lay(&records));
    draft.find_name_with_names(chance);
    draft.listing_with_names(chance, &mut generator.readings);
    draft.finish()
}

pub fn damaged_names(generator: &mut Generator) -> Case {
    let chance = &mut generator.chance;
    let (sketch, numbers) = small_dump(chance);
    let names = damaged_file(chance, &numbers);
    let mut draft = Draft::with_names("damaged names", sketch.bytes(), numbers.pointers, names);
    every_call(generator, &mut draft);
    draft.finish()
}

/// What damages may aim at where a call has a file as well; those of slots are the last before the file.
const DAMAGES: [u32; 14] = [3, 4, 5, 6, 7, 8, 9, 10, 11, 12, 12, 13, 13, 26];

/// Several refusals at once show the order of the checks.
pub fn all_broken(generator: &mut Generator) -> Case {
    let chance = &mut generator.chance;
    let (mut sketch, numbers) = small_dump(chance);
    match chance.below(20) {
        0 => sketch.kept = 47,
        1 => sketch.leftover.resize(LARGEST_DUMP + 1 - sketch.end(), 0),
        2..=10 => {
            let number = chance.pick(&DAMAGES);
            damage(chance, &mut sketch, number);
        }
        _ => {}
    }
    let names = if chance.one_in(4) {
        lay(&sound_file(chance, &numbers))
    } else {
        damaged_file(chance, &numbers)
    };
    let mut draft = Draft::with_names("broken", sketch.bytes(), numbers.pointers, names);
    draft.find_name_with_names(chance);
    for _ in 0..2 {
        broken_calls(generator, &mut draft);
    }
    draft.finish()
}

/// Each argument is as likely as not one that is refused.
fn broken_calls(generator: &mut Generator, draft: &mut Draft) {
    let chance = &mut generator.chance;
    let events = draft.events();
    let mut reading = generator.readings.accepted(chance, events);
    if chance.one_in(2) {
        reading = refused(chance, events);
    }
    let position = match chance.below(2) {
        0 => chance.pick(&[events, events + 1, usize::MAX]),
        _ => chance.below(events),
    };
    let whole = chance.one_in(2);
    let room = |length: usize| if whole { length as u32 } else { 0 };
    draft.make(Call::EventWithNames { position });
    draft.make(Call::LineWithNames {
        reading,
        position,
        room: room(draft.line_length_with_names(&reading, position)),
    });
    draft.make(Call::ListingWithNames {
        reading,
        room: room(draft.listing_length_with_names(&reading)),
    });
}

/// Records written one after another, each from where the one before it ended, with readings between them and behind them.
pub fn written_names(generator: &mut Generator) -> Case {
    let chance = &mut generator.chance;
    let (sketch, numbers) = small_dump(chance);
    let count = chance.between(1, 4);
    let names: Vec<Vec<u8>> = (0..count).map(|_| filed_name(chance)).collect();
    let whole: usize = names.iter().map(|name| 8 + name.len()).sum();
    let room = match chance.below(6) {
        0 => whole - 1,
        1 => whole + chance.between(1, 9),
        2 => whole + 4 * chance.between(1, 9),
        _ => whole,
    };
    // Four zeros are a record that is stepped over.
    let fill = chance.pick(&[0, 0, 0, 1, 0xFF]);
    let file = vec![fill; room];
    let mut draft = Draft::with_names("written", sketch.bytes(), numbers.pointers.clone(), file);
    let mut offset = 0;
    for name in &names {
        let (named, number) = naming(chance, &numbers);
        offset = draft.write_name(named, number, offset, Filled::new(name));
        if chance.one_in(6) {
            draft.event_with_names(chance);
        }
    }
    every_call(generator, &mut draft);
    let chance = &mut generator.chance;
    if chance.one_in(3) {
        // The first one is written over, by as long a record or one that leaves some of it.
        let (named, number) = naming(chance, &numbers);
        let length = names[0].len() - chance.below(2).min(names[0].len());
        draft.write_name(named, number, 0, Filled::new(&names[0][..length]));
        draft.event_with_names(chance);
        draft.find_name_with_names(chance);
    }
    draft.finish()
}

fn naming(chance: &mut Chance, numbers: &Numbers) -> (Named, u32) {
    let named = chance.pick(&[Named::Event, Named::Thread]);
    let known = match named {
        Named::Event => &numbers.ids,
        Named::Thread => &numbers.pointers,
    };
    let number = if known.is_empty() || chance.one_in(8) {
        chance.word()
    } else {
        chance.pick(known)
    };
    (named, number)
}

/// Lengths of a buffer for records on both sides of the largest file.
const ROOMS: [usize; 12] = [0, 7, 8, 9, 16, 20, 31, 100, 65_535, 65_536, 65_537, 70_000];

/// Records at both sides of the buffer's end, of the last byte of a file, and of the last number.
pub fn name_offsets(generator: &mut Generator) -> Case {
    let chance = &mut generator.chance;
    let (sketch, numbers) = small_dump(chance);
    let room = chance.pick(&ROOMS);
    let fill = chance.byte();
    let file = vec![fill; room];
    let mut draft = Draft::with_names("offsets", sketch.bytes(), numbers.pointers.clone(), file);
    for _ in 0..chance.between(4, 8) {
        let (named, mut number) = naming(chance, &numbers);
        let name = short_or_whole(chance, room);
        // A name as long as the file would be long to print.
        if name.given.is_empty() {
            number = chance.word();
        }
        let offset = some_offset(chance, room, 8 + name.length as usize);
        draft.write_name(named, number, offset, name);
    }
    draft.find_name_with_names(chance);
    draft.finish()
}

/// A few bytes mostly; or so many that the record fills the room or a whole file, or is one byte longer.
fn short_or_whole(chance: &mut Chance, room: usize) -> Filled {
    let most = LARGEST_NAME_FILE - 8;
    let whole = room.saturating_sub(8).min(most);
    let length = match chance.below(8) {
        0 => whole,
        1 => whole + 1,
        2 => chance.pick(&[most, most + 1, most + 9]),
        _ => return Filled::new(&filed_name(chance)),
    };
    Filled {
        length: length as u32,
        fill: chance.byte(),
        given: Vec::new(),
    }
}

/// Where a record of the length ends at a limit or just past it, starts at one, or would end past the last number.
fn some_offset(chance: &mut Chance, room: usize, length: usize) -> usize {
    let limit = chance.pick(&[room, room, LARGEST_NAME_FILE]);
    let last = limit.saturating_sub(length);
    match chance.below(9) {
        0 | 1 => last,
        2 | 3 => last + 1,
        4 => limit,
        5 => limit + 1,
        6 => usize::MAX - chance.below(length + 2),
        7 => chance.pick(&[1 << 32, (1 << 32) - length, 1 << 63, usize::MAX, 65_536]),
        _ => chance.below(last + 1),
    }
}

/// A name of many bytes, the last in the file, so that it takes little room in the file of cases.
pub fn long_name(generator: &mut Generator) -> Case {
    let chance = &mut generator.chance;
    let (sketch, numbers) = small_dump(chance);
    let fill = chance.pick(&[b'x', b'x', b'"', 0, 0x80]);
    let length = chance.between(600, 4_000);
    let mut records = sound_file(chance, &numbers);
    let (of, number) = naming(chance, &numbers);
    records.push(named(of.kind(), number, &vec![fill; length]));
    let names = lay(&records);
    let mut draft = Draft::with_names("long name", sketch.bytes(), numbers.pointers, names);
    draft.event_with_names(chance);
    draft.line_with_names(chance);
    draft.listing_with_names(chance, &mut generator.readings);
    draft.finish()
}
