//! Name files for a dump: records for its ids and pointers, once, twice or not at all, among others that are stepped over; and files that are damaged.

use super::chance::Chance;
use super::names::name;
use crate::limits::LARGEST_NAME_FILE;

/// A record before its length is laid out.
pub struct RecordSketch {
    pub kind: u16,
    pub bytes: Vec<u8>,
}

/// The ids and the pointers that a dump has.
pub struct Numbers {
    pub ids: Vec<u32>,
    pub pointers: Vec<u32>,
}

pub fn sound_file(chance: &mut Chance, numbers: &Numbers) -> Vec<RecordSketch> {
    let count = chance.pick(&[0, 1, 2, 3, 3, 4, 4, 5, 6]);
    (0..count).map(|_| record(chance, numbers)).collect()
}

pub fn lay(records: &[RecordSketch]) -> Vec<u8> {
    let mut bytes = Vec::new();
    for record in records {
        bytes.extend_from_slice(&(record.bytes.len() as u16).to_le_bytes());
        bytes.extend_from_slice(&record.kind.to_le_bytes());
        bytes.extend_from_slice(&record.bytes);
    }
    bytes
}

fn record(chance: &mut Chance, numbers: &Numbers) -> RecordSketch {
    let id = some_number(chance, &numbers.ids);
    let pointer = some_number(chance, &numbers.pointers);
    // What the other kind has, and what another byte order would read, must not be found.
    let strange = [
        (1, pointer),
        (2, id),
        (1, id.swap_bytes()),
        (2, pointer.swap_bytes()),
    ];
    let (kind, number) = match chance.below(14) {
        0..=5 => (1, id),
        6..=10 => (2, pointer),
        11 => chance.pick(&strange),
        _ => return stepped_over(chance, id),
    };
    let name = filed_name(chance);
    named(kind, number, &name)
}

/// Mostly one that the dump has.
fn some_number(chance: &mut Chance, numbers: &[u32]) -> u32 {
    if numbers.is_empty() || chance.one_in(7) {
        chance.pick(&[0, 1, 5, 0x2000_1000, 0xF0F0_F0F0, u32::MAX])
    } else {
        chance.pick(numbers)
    }
}

pub fn named(kind: u16, number: u32, name: &[u8]) -> RecordSketch {
    let mut bytes = number.to_le_bytes().to_vec();
    bytes.extend_from_slice(name);
    RecordSketch { kind, bytes }
}

/// Kinds beside those that name something, and those that have one of their bytes.
const OTHER_KINDS: [u16; 9] = [0, 3, 4, 0x0100, 0x0200, 0x0101, 0x8001, 0x0202, 0xFFFF];

/// A record of another kind, too short for a number, or with one that a name would follow.
fn stepped_over(chance: &mut Chance, number: u32) -> RecordSketch {
    let kind = chance.pick(&OTHER_KINDS);
    let count = chance.below(6);
    let bytes = if chance.one_in(2) {
        chance.bytes(count)
    } else {
        named(kind, number, b"not a name").bytes
    };
    RecordSketch { kind, bytes }
}

/// A name of any bytes, zeros too, mostly a short one.
pub fn filed_name(chance: &mut Chance) -> Vec<u8> {
    let length = match chance.below(24) {
        0..=2 => 0,
        3 | 4 => 1,
        5 => chance.between(13, 80),
        6 if chance.one_in(6) => chance.between(200, 300),
        _ => chance.between(2, 12),
    };
    let mut name = name(chance, length);
    if length > 0 && chance.one_in(4) {
        let place = chance.pick(&[0, length - 1, length / 2]);
        name[place] = 0;
    }
    if chance.one_in(20) {
        name.fill(0);
    }
    name
}

/// A file that most likely gets 27, or is too long; near misses leave it sound.
pub fn damaged_file(chance: &mut Chance, numbers: &Numbers) -> Vec<u8> {
    let mut records = sound_file(chance, numbers);
    records.push(record(chance, numbers));
    match chance.below(13) {
        0..=3 => cut(chance, &records),
        4..=6 => too_short(chance, records),
        7 | 8 => other_length(chance, &records),
        9 => rest_behind(chance, &records),
        10 | 11 => whole_room(chance, &records),
        _ => {
            let count = chance.below(24);
            chance.bytes(count)
        }
    }
}

/// The offset of one of the records.
fn some_start(chance: &mut Chance, records: &[RecordSketch]) -> usize {
    let before = chance.below(records.len());
    lay(&records[..before]).len()
}

/// Stops within a record's length, kind, number or name, or where a record starts.
fn cut(chance: &mut Chance, records: &[RecordSketch]) -> Vec<u8> {
    let mut bytes = lay(records);
    let kept = match chance.below(4) {
        0 => bytes.len() - 1,
        _ => some_start(chance, records) + chance.pick(&[0, 1, 2, 3, 4, 5, 7, 8, 9]),
    };
    bytes.truncate(kept);
    bytes
}

/// A record that should have a number and has no room for it, or just enough.
fn too_short(chance: &mut Chance, mut records: Vec<RecordSketch>) -> Vec<u8> {
    let count = chance.pick(&[0, 1, 2, 3, 3, 4]);
    let place = chance.below(records.len() + 1);
    let short = RecordSketch {
        kind: chance.pick(&[1, 2]),
        bytes: chance.bytes(count),
    };
    records.insert(place, short);
    lay(&records)
}

/// A length that is one off, or far off.
fn other_length(chance: &mut Chance, records: &[RecordSketch]) -> Vec<u8> {
    let mut bytes = lay(records);
    let at = some_start(chance, records);
    let length = u16::from_le_bytes([bytes[at], bytes[at + 1]]);
    let other = match chance.below(5) {
        0 => length.wrapping_add(1),
        1 => length.wrapping_sub(1),
        2 => length.swap_bytes(),
        3 => chance.pick(&[0, 3, 4, 0xFFFF]),
        _ => (bytes.len() - at - 4) as u16 + chance.below(3) as u16,
    };
    bytes[at..at + 2].copy_from_slice(&other.to_le_bytes());
    bytes
}

/// Less than a record's first four bytes behind the last one, or just these.
fn rest_behind(chance: &mut Chance, records: &[RecordSketch]) -> Vec<u8> {
    let mut bytes = lay(records);
    let length = bytes.len() + chance.between(1, 4);
    let fill = chance.pick(&[0, 0, 1, 2]);
    bytes.resize(length, fill);
    bytes
}

/// As long as a file can be, or one byte longer; four zeros are a record that is stepped over.
fn whole_room(chance: &mut Chance, records: &[RecordSketch]) -> Vec<u8> {
    let mut bytes = lay(records);
    if !chance.one_in(4) {
        bytes.resize((bytes.len() + 3) / 4 * 4, 0);
    }
    bytes.resize(LARGEST_NAME_FILE + chance.below(2), 0);
    bytes
}
