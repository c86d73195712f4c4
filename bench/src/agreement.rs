//! The baselines in Rust do all that documents 01 and 02 ask: they give what the peer gives, refusals too.

use crate::competitors::{named_by_peer, refused_by_peer};
use crate::feeders::{by_hand, by_hand_by_value, by_library};
use crate::files::agreed_mending;
use crate::plain::check::check;
use crate::plain::find::find_name;
use crate::plain::record::record;
use crate::plain::units::split;
use crate::with_itoa;
use lepsaino::Name;
use peer::call::Call;
use peer::generate::chance::Chance;
use peer::generate::Generator;

const CASES: usize = 20_000;

fn compare_listing(dump: &[u8], reading: &peer::Reading) {
    let mut room = vec![0; 1_600_000];
    let length = peer::listing(dump, reading, &mut room).map_err(refused_by_peer);
    let expected = length.map(|length| room[..length].to_vec());
    for list in [with_itoa::listing, with_itoa::listing_by_map] {
        let mut out = Vec::new();
        let given = list(dump, for_library(reading), &mut out).map(|()| out);
        assert!(given == expected, "another listing");
    }
}

fn compare_listing_with_names(dump: &[u8], names: &[u8], reading: &peer::Reading) {
    let expected = peer::listing::listing_text(dump, Some(names), reading);
    let mut out = Vec::new();
    let given = with_itoa::listing_with_names(dump, names, for_library(reading), &mut out);
    let same = given.map(|()| out) == expected.map_err(refused_by_peer);
    assert!(same, "another listing with names");
}

fn for_library(reading: &peer::Reading) -> lepsaino::Reading {
    lepsaino::Reading {
        rate: reading.rate,
        unit: reading.unit,
        serial: reading.serial,
    }
}

fn compare_check(dump: &[u8]) {
    let expected = peer::check(dump).map(|summary| summary.events);
    assert_eq!(check(dump), expected.map_err(refused_by_peer));
}

/// The answer to the pieces is that to the whole.
fn compare_pieces(dump: &[u8], chance: &mut Chance) {
    let expected = peer::check(dump).map(|summary| summary.events);
    let expected = expected.map_err(refused_by_peer);
    let pieces = cut(dump, chance);
    assert_eq!(by_hand(pieces.iter().copied()), expected);
    assert_eq!(by_hand_by_value(pieces.iter().copied()), expected);
    assert_eq!(by_library(pieces.iter().copied()), expected);
}

/// Cuts the dump anywhere; some pieces are empty.
fn cut<'a>(mut rest: &'a [u8], chance: &mut Chance) -> Vec<&'a [u8]> {
    let longest = chance.pick(&[1, 2, 7, 40, 300, 70_000]);
    let mut pieces = Vec::new();
    while !rest.is_empty() {
        let (piece, further) = split(rest, chance.between(0, longest));
        pieces.push(piece);
        rest = further;
    }
    pieces
}

/// The same bytes at the same place, of a thread that is live or gone in both.
fn compare_name(dump: &[u8], pointer: u32) {
    let place = |name: Option<Name>| name.map(|name| (name.bytes.as_ptr_range(), name.kind));
    let given = find_name(dump, pointer).map(place);
    let expected = peer::find_name(dump, pointer).map(|name| place(name.map(named_by_peer)));
    assert_eq!(given, expected.map_err(refused_by_peer));
}

fn compare_record(buffer: &mut [u8], words: &[u32; 8]) {
    let mut other = buffer.to_vec();
    let expected = peer::record(buffer, words).map_err(refused_by_peer);
    assert_eq!(record(&mut other, words), expected);
    assert!(other == buffer, "another buffer");
}

#[test]
fn baselines_agree_with_the_peer() {
    let mut generator = Generator::new(1);
    let mut chance = Chance::new(1);
    for _ in 0..CASES {
        let case = generator.next_case();
        let mut buffer = case.buffer();
        let mut names = case.names();
        for call in &case.calls {
            match call {
                Call::Line { reading, .. } | Call::Listing { reading, .. } => {
                    compare_listing(&buffer, reading)
                }
                Call::LineWithNames { reading, .. } | Call::ListingWithNames { reading, .. } => {
                    compare_listing_with_names(&buffer, &names, reading)
                }
                Call::Check => {
                    compare_check(&buffer);
                    compare_pieces(&buffer, &mut chance);
                }
                Call::FindName { pointer } => compare_name(&buffer, *pointer),
                Call::Record(words) => compare_record(&mut buffer, words),
                Call::Mend { room } => drop(agreed_mending(&buffer, *room as usize)),
                _ => drop(peer::answers::answer(&mut buffer, &mut names, call)),
            }
        }
    }
}
