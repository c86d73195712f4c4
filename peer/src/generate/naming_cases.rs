//! Records written by hand: one after another, the longest name, and at both sides of each end.

use super::filed_cases::{event, find, line, listing, reading, sound, start, EVENTS, OTHER};
use crate::call::Call;
use crate::case::Case;
use crate::filled::Filled;
use crate::name_file::Named;

pub fn naming_cases() -> Vec<Case> {
    vec![
        writes(),
        ends(),
        past_the_largest(),
        longest_name(),
        longest_text(),
    ]
}

/// A file written record by record into a room of just its length, read after each.
fn writes() -> Case {
    let mut draft = start("names written", sound(), &[0xEE; 8 + 12 + 13 + 10]);
    let records: [(Named, u32, &[u8]); 4] = [
        (Named::Event, 6, b""),
        (Named::Event, 5, b"send"),
        (Named::Thread, OTHER, b"valve"),
        (Named::Event, 1025, &[0, 0xFF]),
    ];
    let mut offset = 0;
    for (named, number, name) in records {
        find(&mut draft, OTHER);
        offset = draft.write_name(named, number, offset, Filled::new(name));
    }
    for position in 0..4 {
        event(&mut draft, position);
    }
    line(&mut draft, 1, 0);
    listing(&mut draft, 1_000, 0);
    draft.write_name(Named::Event, 7, offset, Filled::default());
    draft.write_name(Named::Thread, OTHER, 20, Filled::new(b"joint"));
    find(&mut draft, OTHER);
    draft.finish()
}

/// A record of 12 bytes at both sides of a short room's end, of the largest file's and of the last number.
fn ends() -> Case {
    let mut draft = start("records at the ends", sound(), &[0xEE; 40]);
    for offset in [
        28,
        29,
        39,
        40,
        41,
        65_524,
        65_525,
        65_535,
        65_536,
        65_537,
        1 << 32,
    ] {
        draft.write_name(Named::Event, 5, offset, Filled::new(b"send"));
    }
    for back in [12, 11, 13, 1, 0, 9, 5] {
        let offset = usize::MAX - back;
        draft.write_name(Named::Thread, 5, offset, Filled::new(b"send"));
    }
    draft.finish()
}

/// In a room longer than a file can be, a record still ends at 65,536 at most.
fn past_the_largest() -> Case {
    let mut draft = start("records past the largest file", sound(), &[0xEE; 65_600]);
    for offset in [65_524, 65_525, 65_536, 65_588, 65_589] {
        draft.write_name(Named::Event, 5, offset, Filled::new(b"send"));
    }
    draft.write_name(Named::Thread, 5, 0, filled(65_528, 0));
    draft.write_name(Named::Thread, 5, 0, filled(65_529, 0));
    draft.write_name(Named::Thread, 5, 0, filled(65_537, 0));
    find(&mut draft, 5);
    draft.finish()
}

fn filled(length: u32, fill: u8) -> Filled {
    Filled {
        length,
        fill,
        given: Vec::new(),
    }
}

/// The longest that a file has room for, and one byte longer.
fn longest_name() -> Case {
    let mut draft = start("the longest name", sound(), &[0; 65_536]);
    draft.write_name(Named::Thread, OTHER, 0, filled(65_529, b'x'));
    draft.write_name(Named::Thread, OTHER, 1, filled(65_528, b'x'));
    draft.write_name(Named::Thread, OTHER, 0, filled(65_528, b'x'));
    line(&mut draft, 2, 1);
    line(&mut draft, 2, 0);
    event(&mut draft, 1);
    draft.finish()
}

/// Six bytes for each of its own, in every line: longer than any room that a case has.
fn longest_text() -> Case {
    let mut draft = start("the longest text", sound(), &[0; 65_536]);
    for _ in 0..5 {
        draft.make(Call::Record(EVENTS[2]));
    }
    draft.write_name(Named::Thread, OTHER, 0, filled(65_528, 0xFF));
    line(&mut draft, 2, 1);
    draft.make(Call::ListingWithNames {
        reading: reading(0),
        room: 1_599_000,
    });
    draft.finish()
}
