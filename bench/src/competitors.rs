//! Who competes in each job, each behind a function of the same form.

use crate::contest::opaque;
use crate::plain::{called, check, find, mend, record, Refusal};
use crate::{with_itoa, with_serde};
use lepsaino::{Mended, Name, NameKind, Reading, Slot};

/// Room for any listing.
const ROOM: usize = 1_600_000;

/// Writes a text to the front of the output, which it may use again, and gives its length.
pub type Lister = fn(&[u8], Reading, &mut Vec<u8>) -> usize;
/// The same with a name file, behind the dump.
pub type NamedLister = fn(&[u8], &[u8], Reading, &mut Vec<u8>) -> usize;
pub type Printer = fn(&[u64], &mut Vec<u8>) -> usize;
/// Gives the number of events.
pub type Checker = fn(&[u8]) -> Result<usize, Refusal>;
/// Gives the name that belongs to the pointer, and whether its thread is gone.
pub type Finder = fn(&[u8], u32) -> Result<Option<Name<'_>>, Refusal>;
/// Records so many events and gives the index of the last slot filled.
pub type Recorder = fn(&mut [u8], u32) -> usize;
/// Writes a mended copy of the dump into the other bytes.
pub type Mender = fn(&[u8], &mut [u8]) -> Result<Mended, Refusal>;
/// Reads the dump, or copies it into the other bytes.
pub type Reader = fn(&[u8], &mut [u8]) -> u64;

/// The library, with room for any text.
pub const LIBRARY: Lister = |dump, reading, out| {
    lend(out);
    lepsaino::listing(dump, reading, out).unwrap()
};

pub const LISTERS: [(&str, Lister); 5] = [
    ("lepsaino", LIBRARY),
    ("itoa", |dump, reading, out| {
        with_itoa::listing(dump, reading, out).unwrap();
        out.len()
    }),
    ("itoa-map", |dump, reading, out| {
        with_itoa::listing_by_map(dump, reading, out).unwrap();
        out.len()
    }),
    ("serde", |dump, reading, out| {
        with_serde::listing(dump, reading, out).unwrap();
        out.len()
    }),
    ("peer", |dump, reading, out| {
        lend(out);
        let reading = peer::Reading::new(reading.rate, reading.unit, reading.serial);
        peer::listing(dump, &reading, out).unwrap()
    }),
];

pub const NAMED_LISTERS: [(&str, NamedLister); 3] = [
    ("lepsaino", |dump, names, reading, out| {
        lend(out);
        lepsaino::listing_with_names(dump, names, reading, out).unwrap()
    }),
    ("itoa-map", |dump, names, reading, out| {
        with_itoa::listing_with_names(dump, names, reading, out).unwrap();
        out.len()
    }),
    ("peer", |dump, names, reading, out| {
        lend(out);
        let reading = peer::Reading::new(reading.rate, reading.unit, reading.serial);
        peer::listing_with_names(dump, names, &reading, out).unwrap()
    }),
];

/// Beside those with a name file: the same dump without one.
pub const WITHOUT_FILE: (&str, Lister) = ("lepsaino-fileless", LIBRARY);

/// The library alone, by the room that it has.
pub const ROOMS: [(&str, Lister); 2] = [
    ("lepsaino", |dump, reading, out| {
        lend_exactly(dump, reading, out);
        lepsaino::listing(dump, reading, out).unwrap()
    }),
    ("lepsaino-plenty", LIBRARY),
];

pub const PRINTERS: [(&str, Printer); 3] = [
    ("lepsaino", |numbers, out| {
        lend(out);
        print(numbers, out)
    }),
    ("itoa", |numbers, out| {
        with_itoa::numbers(numbers, out);
        out.len()
    }),
    ("serde", |numbers, out| {
        with_serde::numbers(numbers, out);
        out.len()
    }),
];

/// The library's check of a whole dump.
pub const CHECK: Checker = |dump| match lepsaino::check(dump) {
    Ok(checked) => Ok(checked.events),
    Err(refusal) => Err(refused(refusal)),
};

pub const CHECKERS: [(&str, Checker); 4] = [
    ("lepsaino", CHECK),
    ("plain", |dump| check::check(dump)),
    ("plain-call", |dump| called::check(dump)),
    ("peer", |dump| match peer::check(dump) {
        Ok(summary) => Ok(summary.events),
        Err(refusal) => Err(refused_by_peer(refusal)),
    }),
];

pub const FINDERS: [(&str, Finder); 4] = [
    ("lepsaino", |dump, pointer| {
        lepsaino::find_name(dump, pointer).map_err(refused)
    }),
    ("plain", |dump, pointer| find::find_name(dump, pointer)),
    ("plain-call", |dump, pointer| {
        called::find_name(dump, pointer)
    }),
    ("peer", |dump, pointer| {
        match peer::find_name(dump, pointer) {
            Ok(name) => Ok(name.map(named_by_peer)),
            Err(refusal) => Err(refused_by_peer(refusal)),
        }
    }),
];

pub const RECORDERS: [(&str, Recorder); 4] = [
    ("lepsaino", |buffer, events| {
        repeat(events, |words| {
            lepsaino::record(buffer, slot(words)).unwrap()
        })
    }),
    ("plain", |buffer, events| {
        repeat(events, |words| record::record(buffer, &words).unwrap())
    }),
    ("plain-call", |buffer, events| {
        repeat(events, |words| called::record(buffer, &words).unwrap())
    }),
    ("peer", |buffer, events| {
        repeat(events, |words| peer::record(buffer, &words).unwrap())
    }),
];

pub const MENDERS: [(&str, Mender); 4] = [
    ("lepsaino", |dump, copy| {
        lepsaino::mend(dump, copy).map_err(refused)
    }),
    ("plain", |dump, copy| mend::mend(dump, copy)),
    ("plain-call", |dump, copy| called::mend(dump, copy)),
    ("peer", |dump, copy| match peer::mend(dump, copy) {
        Ok(mended) => Ok(mended_by_peer(mended)),
        Err(refusal) => Err(refused_by_peer(refusal)),
    }),
];

/// These only touch the bytes.
pub const READERS: [(&str, Reader); 2] = [("sum", |dump, _| sum(dump)), COPIER];

pub const COPIER: (&str, Reader) = ("copy", |dump, copy| {
    copy.copy_from_slice(dump);
    u64::from(copy[0])
});

pub fn refused(refusal: lepsaino::Refusal) -> Refusal {
    (refusal.number, refusal.place)
}

pub fn refused_by_peer(refusal: peer::Refusal) -> Refusal {
    (refusal.number, refusal.place)
}

pub fn named_by_peer(name: peer::Name<'_>) -> Name<'_> {
    Name {
        bytes: name.bytes,
        kind: match name.kind {
            peer::NameKind::Live => NameKind::Live,
            peer::NameKind::Gone => NameKind::Gone,
            peer::NameKind::Filed => NameKind::Filed,
        },
    }
}

fn mended_by_peer(mended: peer::Mended) -> Mended {
    let [missing, current, types, ids, packed, moved] = mended.counts();
    Mended {
        length: mended.length,
        missing,
        current,
        types,
        ids,
        packed,
        moved,
    }
}

/// The library writes into bytes that are lent, which must be there.
fn lend(out: &mut Vec<u8>) {
    if out.len() < ROOM {
        out.resize(ROOM, 0);
    }
}

/// Room for this text and no more, so that the library measures it before it writes.
fn lend_exactly(dump: &[u8], reading: Reading, out: &mut Vec<u8>) {
    if out.is_empty() {
        let length = LIBRARY(dump, reading, out);
        out.truncate(length);
    }
}

/// Each number on a line of its own.
fn print(numbers: &[u64], out: &mut [u8]) -> usize {
    let mut at = 0;
    for &number in numbers {
        at += lepsaino::number(&mut out[at..], number).unwrap();
        out[at] = b'\n';
        at += 1;
    }
    at
}

fn sum(bytes: &[u8]) -> u64 {
    let mut sum = 0u64;
    for &byte in bytes {
        sum = sum.wrapping_add(byte.into());
    }
    sum
}

fn repeat(events: u32, mut record: impl FnMut([u32; 8]) -> usize) -> usize {
    let mut last = 0;
    for stamp in 0..events {
        // A device's words are not known when its program is compiled.
        last = record(opaque([0x2000_1000, 16, 5, stamp, 1, 2, 3, 4]));
    }
    last
}

fn slot(words: [u32; 8]) -> Slot {
    let [pointer, field, id, stamp, first, second, third, fourth] = words;
    Slot {
        pointer,
        field,
        id,
        stamp,
        first,
        second,
        third,
        fourth,
    }
}
