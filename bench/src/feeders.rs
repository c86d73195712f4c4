//! Who competes where a dump is checked in pieces, each behind a function of the same form.

use crate::competitors::{refused, CHECK};
use crate::plain::pieces::Pieces;
use crate::plain::{called, Refusal};

/// Checks the dump in pieces of that length and gives the number of events.
pub type Feeder = fn(&[u8], usize) -> Result<usize, Refusal>;

pub const FEEDERS: [(&str, Feeder); 4] = [
    ("lepsaino", |dump, length| by_library(dump.chunks(length))),
    ("lepsaino-whole", |dump, _| CHECK(dump)),
    ("plain-call", |dump, length| by_hand(dump.chunks(length))),
    ("plain-value", |dump, length| {
        by_hand_by_value(dump.chunks(length))
    }),
];

/// The state is handed over and back.
pub fn by_library<'a>(pieces: impl Iterator<Item = &'a [u8]>) -> Result<usize, Refusal> {
    let state = pieces.fold(lepsaino::Pieces::begin(), lepsaino::Pieces::feed);
    match state.finish() {
        Ok(checked) => Ok(checked.events),
        Err(refusal) => Err(refused(refusal)),
    }
}

/// The same by hand.
pub fn by_hand_by_value<'a>(pieces: impl Iterator<Item = &'a [u8]>) -> Result<usize, Refusal> {
    called::finish(&pieces.fold(Pieces::begin(), called::feed_by_value))
}

/// The state is lent.
pub fn by_hand<'a>(pieces: impl Iterator<Item = &'a [u8]>) -> Result<usize, Refusal> {
    let mut state = Pieces::begin();
    pieces.for_each(|piece| called::feed(&mut state, piece));
    called::finish(&state)
}
