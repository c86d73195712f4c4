//! Readings: rate, unit and first serial, accepted or not, with keys on both sides of two to the 53.

use super::chance::Chance;
use crate::limits::{SERIALS, UNITS};
use crate::reading::Reading;

/// An edge of the keys from which ranges are handed out, one after the other.
struct Frontier {
    unit: u32,
    upward: bool,
    taken: u64,
}

pub struct Readings {
    /// Whether no two readings accepted for a whole listing may share a key.
    distinct: bool,
    frontiers: Vec<Frontier>,
    spread: u32,
}

/// Unit 8191 ends just below two to the 53, with the last bare keys; unit 8192 begins at it, with the first in quotes.
const EDGE_UNITS: [u32; 4] = [0, 8191, 8192, UNITS - 1];

/// The lowest serials and units, and the last bare key, are left to the cases that the documents name.
const SERIALS_LEFT_OUT: u64 = 3;
const UNITS_LEFT_OUT: u32 = 16;
const BARE_KEYS_LEFT_OUT: u64 = 1;

impl Readings {
    pub fn new(distinct: bool) -> Readings {
        let mut frontiers = Vec::new();
        for unit in EDGE_UNITS {
            for upward in [true, false] {
                frontiers.push(Frontier {
                    unit,
                    upward,
                    taken: if distinct { left_out(unit, upward) } else { 0 },
                });
            }
        }
        Readings {
            distinct,
            frontiers,
            spread: 0,
        }
    }

    /// A reading that a dump of so many events accepts.
    pub fn accepted(&mut self, chance: &mut Chance, events: usize) -> Reading {
        let events = events as u64;
        let (unit, serial) = if chance.one_in(2) {
            self.at_an_edge(chance, events)
        } else {
            (self.fresh_unit(chance), far_serial(chance, events))
        };
        Reading {
            rate: rate(chance),
            unit,
            serial,
        }
    }

    /// One that is refused, now and then.
    pub fn mostly_accepted(&mut self, chance: &mut Chance, events: usize) -> Reading {
        if chance.one_in(5) {
            refused(chance, events)
        } else {
            self.accepted(chance, events)
        }
    }

    fn at_an_edge(&mut self, chance: &mut Chance, events: u64) -> (u32, u64) {
        let index = chance.below(self.frontiers.len());
        let distinct = self.distinct;
        let frontier = &mut self.frontiers[index];
        let taken = frontier.taken + if distinct { 0 } else { chance.long_below(3) };
        if distinct {
            frontier.taken += events;
        }
        let serial = if frontier.upward {
            taken
        } else {
            SERIALS - taken - events
        };
        (frontier.unit, serial)
    }

    /// A unit not handed out before: an odd factor goes through all units in a mixed order.
    fn fresh_unit(&mut self, chance: &mut Chance) -> u32 {
        let count = if chance.one_in(2) { 8192 } else { UNITS };
        loop {
            self.spread = self.spread.wrapping_add(1);
            let unit = self.spread.wrapping_mul(0x009E_3779) % count;
            let edge = EDGE_UNITS.contains(&unit) || unit < UNITS_LEFT_OUT;
            if !edge {
                return unit;
            }
        }
    }
}

/// How many keys of an edge are not handed out.
fn left_out(unit: u32, upward: bool) -> u64 {
    match (unit, upward) {
        (_, true) => SERIALS_LEFT_OUT,
        (8191, false) => BARE_KEYS_LEFT_OUT,
        _ => 0,
    }
}

pub fn rate(chance: &mut Chance) -> u32 {
    let typical = [1_000, 32_768, 1_000_000, 3_000_000, 48_000_000, 72_000_000];
    match chance.below(6) {
        0 => 1,
        1 => chance.pick(&[2, 3, 7, 999_999, 1_000_001, u32::MAX]),
        2 => chance.word().max(1),
        _ => chance.pick(&typical),
    }
}

fn far_serial(chance: &mut Chance, events: u64) -> u64 {
    let last = SERIALS - events;
    match chance.below(4) {
        0 => 0,
        1 => last,
        _ => chance.long_below(last + 1),
    }
}

/// A reading that checks 14 or 15 refuse, often by one.
pub fn refused(chance: &mut Chance, events: usize) -> Reading {
    let events = events as u64;
    let first_too_high = SERIALS - events + 1;
    let wraps = 0u64.wrapping_sub(events.max(1));
    let serials = [first_too_high, SERIALS + 1, u64::MAX, wraps, 1 << 63];
    let mut reading = Reading {
        rate: rate(chance),
        unit: chance.pick(&EDGE_UNITS),
        serial: chance.long_below(SERIALS - events),
    };
    match chance.below(5) {
        0 => reading.rate = 0,
        1 => reading.unit = chance.pick(&[UNITS, UNITS + 1, u32::MAX, 1 << 31]),
        2 => {
            reading.rate = 0;
            reading.unit = UNITS;
        }
        _ => reading.serial = chance.pick(&serials),
    }
    reading
}

/// A reading for one line, accepted or not; keys close to two to the 53 come often.
pub fn any(chance: &mut Chance, events: usize) -> Reading {
    if chance.one_in(6) {
        return refused(chance, events);
    }
    let last = SERIALS - events as u64;
    let serials = [
        0,
        0,
        1,
        last,
        last,
        last.saturating_sub(1),
        chance.long_below(last + 1),
    ];
    let units = [
        0,
        1,
        8190,
        8191,
        8191,
        8192,
        8192,
        8193,
        UNITS - 1,
        chance.word() % UNITS,
    ];
    Reading {
        rate: rate(chance),
        unit: chance.pick(&units),
        serial: chance.pick(&serials),
    }
}
