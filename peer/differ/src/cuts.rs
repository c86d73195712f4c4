//! A dump cut into pieces, by chance.

use peer::generate::chance::Chance;
use peer::limits::{ENTRY_FIXED_SIZE, HEADER_SIZE, SLOT_SIZE};
use peer::Header;

/// A longer dump is not cut into single bytes, which would take long.
const LONGEST_IN_BYTES: usize = 1024;
const LONGEST_SMALL: usize = 64;

pub struct Cut<'dump> {
    dump: &'dump [u8],
    ends: Vec<usize>,
}

impl<'dump> Cut<'dump> {
    /// All in one piece.
    pub fn whole(dump: &'dump [u8]) -> Cut<'dump> {
        let ends = vec![dump.len()];
        Cut { dump, ends }
    }

    pub fn new(chance: &mut Chance, dump: &'dump [u8]) -> Cut<'dump> {
        let length = dump.len();
        let mut ends = match chance.below(6) {
            0 => Vec::new(),
            1 => vec![chance.below(length + 1)],
            2 if length <= LONGEST_IN_BYTES => (1..length).collect(),
            3 => beside_boundaries(chance, dump),
            4 => any_lengths(chance, length),
            _ => equal_lengths(chance, length),
        };
        // No bytes may come in no piece at all.
        if length > 0 || chance.one_in(2) {
            ends.push(length);
        }
        Cut { dump, ends }
    }

    pub fn pieces(&self) -> impl Iterator<Item = &'dump [u8]> + '_ {
        let starts = std::iter::once(0).chain(self.ends.iter().copied());
        starts
            .zip(&self.ends)
            .map(|(start, &end)| &self.dump[start..end])
    }

    pub fn told(&self) -> String {
        format!("in pieces that end at {:?}", self.ends)
    }
}

fn equal_lengths(chance: &mut Chance, length: usize) -> Vec<usize> {
    let least = (length / LONGEST_IN_BYTES + 1).min(LONGEST_SMALL);
    let step = chance.between(least, LONGEST_SMALL);
    (step..length).step_by(step).collect()
}

/// One piece in four is empty.
fn any_lengths(chance: &mut Chance, length: usize) -> Vec<usize> {
    let longest = chance.pick(&[4, 20, 100, 1000]).max(length / 256);
    let mut end = 0;
    let next = || {
        if !chance.one_in(4) {
            end += chance.between(1, longest);
        }
        (end < length).then_some(end)
    };
    std::iter::from_fn(next).collect()
}

/// A part is judged by its first 12 bytes, and they are held until it is whole.
fn beside_boundaries(chance: &mut Chance, dump: &[u8]) -> Vec<usize> {
    let header = (dump.len() >= HEADER_SIZE)
        .then(|| Header::read(dump))
        .flatten();
    let count = chance.between(1, 8);
    let beside = |_| {
        let at = boundary(chance, header.as_ref(), dump.len());
        let step = chance.pick(&[0, 1, 1, 2, 12, 13]);
        (at + step).saturating_sub(1).min(dump.len())
    };
    let mut ends: Vec<usize> = (0..count).map(beside).collect();
    ends.sort_unstable();
    ends
}

/// The end of the header, of an entry, of the registry, of a slot or of the dump.
fn boundary(chance: &mut Chance, header: Option<&Header>, length: usize) -> usize {
    let (registry_end, name_size) = header.map_or((HEADER_SIZE, 0), |header| {
        (header.offset(header.registry_end), header.name_size)
    });
    let registry_end = registry_end.min(length);
    let entry_size = ENTRY_FIXED_SIZE + usize::from(name_size);
    let entries = registry_end.saturating_sub(HEADER_SIZE) / entry_size;
    let slots = (length - registry_end) / SLOT_SIZE;
    match chance.below(5) {
        0 => HEADER_SIZE,
        1 => HEADER_SIZE + entry_size * chance.below(entries + 1),
        2 => registry_end,
        3 => registry_end + SLOT_SIZE * chance.below(slots + 1),
        _ => length,
    }
}
