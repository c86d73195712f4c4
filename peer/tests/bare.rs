//! Bare digits are for numbers below two to the 53: no other whole number has the double of one of them.

use peer::generate::chance::Chance;
use peer::*;
use std::collections::HashSet;
use std::ops::RangeInclusive;

const LIMIT: u64 = 9_007_199_254_740_992;
const SEEDED: usize = 4_000;
const SERIALS: u64 = 1_099_511_627_776;
const LARGEST_GAP: u64 = 4_294_967_295;

/// Every slot of the largest buffer is used, each a largest gap after the one before.
const MOST_TICKS: u64 = 2_045 * LARGEST_GAP;

fn is_bare(value: u64) -> bool {
    let text = number(value);
    let bare = text == value.to_string();
    assert!(bare || text == format!("\"{}\"", value), "{}", text);
    bare
}

fn double(value: u64) -> f64 {
    value as f64
}

fn close_to(value: u64, distance: u64) -> RangeInclusive<u64> {
    value.saturating_sub(distance)..=value.saturating_add(distance)
}

/// Seeded numbers of every length, those close to a power of two, and more of those close to the limit.
fn tried() -> Vec<u64> {
    let mut chance = Chance::new(53);
    let mut tried: Vec<u64> = (0..SEEDED)
        .map(|_| chance.long() >> chance.below(64))
        .collect();
    tried.extend((0..64).flat_map(|power| close_to(1 << power, 8)));
    tried.extend(close_to(LIMIT, 1_000));
    tried
}

/// The numbers close by, and those that differ in one bit.
fn others(value: u64) -> impl Iterator<Item = u64> {
    close_to(value, 64)
        .filter(move |&other| other != value)
        .chain((0..64).map(move |bit| value ^ (1 << bit)))
}

#[test]
fn no_other_number_has_the_double_of_a_bare_one() {
    for value in tried().into_iter().filter(|&value| is_bare(value)) {
        assert_eq!(double(value) as u64, value);
        for other in others(value) {
            assert_ne!(double(value), double(other), "{} and {}", value, other);
        }
    }
}

#[test]
fn no_number_in_quotes_has_the_double_of_a_bare_one() {
    let (bare, quoted): (Vec<u64>, Vec<u64>) = tried().into_iter().partition(|&one| is_bare(one));
    assert!(bare.len() > 4_000 && quoted.len() > 1_500);
    assert!(bare.iter().all(|&value| value < LIMIT));
    assert!(quoted.iter().all(|&value| value >= LIMIT));
    let doubles: HashSet<u64> = bare.iter().map(|&one| double(one).to_bits()).collect();
    for value in quoted {
        let bits = double(value).to_bits();
        assert!(!doubles.contains(&bits), "{}", value);
    }
}

#[test]
fn the_limit_shares_its_double() {
    assert_eq!(double(LIMIT), double(LIMIT + 1));
    assert_ne!(double(LIMIT), double(LIMIT - 1));
    assert!(others(LIMIT).any(|other| double(other) == double(LIMIT)));
    assert!(is_bare(LIMIT - 1) && !is_bare(LIMIT) && !is_bare(LIMIT + 1));
}

/// A dump whose last event has these ticks: largest gaps, and what is left.
fn dump_with(ticks: u64) -> Vec<u8> {
    let gaps = ticks / LARGEST_GAP;
    let times = (0..=gaps).map(|index| index * LARGEST_GAP).chain([ticks]);
    let plan = Plan {
        order: ByteOrder::Little,
        base: 0,
        mask: u32::MAX,
        name_size: 4,
        entries: 0,
    };
    let mut buffer = vec![0; 48 + 32 * (gaps as usize + 2)];
    format(&mut buffer, &plan).unwrap();
    for time in times {
        record(&mut buffer, &[1, 2, 3, time as u32, 4, 5, 6, 7]).unwrap();
    }
    buffer
}

fn text_of(dump: &[u8], reading: &Reading) -> String {
    let mut output = vec![0; 200 * check(dump).unwrap().events];
    let length = listing(dump, reading, &mut output).unwrap();
    output.truncate(length);
    String::from_utf8(output).unwrap()
}

/// The unit alone decides: a listing cannot go past the last serial.
#[test]
fn the_keys_of_a_listing_have_one_form() {
    let dump = dump_with(4 * LARGEST_GAP);
    let last = SERIALS - check(&dump).unwrap().events as u64;
    let mut chance = Chance::new(8_192);
    let mut units = vec![0, 1, 8_190, 8_191, 8_192, 8_193, (1 << 24) - 1];
    units.extend((0..300).map(|_| chance.word() >> chance.between(8, 31)));
    for unit in units {
        for serial in [0, 1, chance.long_below(last), last - 1, last] {
            let text = text_of(&dump, &Reading::new(1, unit, serial));
            for (position, line) in text.lines().enumerate() {
                let key = u64::from(unit) * SERIALS + serial + position as u64;
                let mark = if unit < 8_192 { "" } else { "\"" };
                let start = format!("{{\"key\":{}{}{},\"ticks\":", mark, key, mark);
                assert!(line.starts_with(&start), "{}", line);
            }
        }
    }
}

/// For each rate the ticks on both sides of the limit, or the most where these are too few.
#[test]
fn no_rate_gives_the_numbers_beside_the_limit() {
    let (mut below, mut above) = (0, u64::MAX);
    for rate in 1..=2_000 {
        let near = (LIMIT * u64::from(rate) / 1_000_000).min(MOST_TICKS - 1);
        for ticks in [near, near + 1] {
            match Reading::new(rate, 0, 0).microseconds(ticks) {
                bare if bare < LIMIT => below = below.max(bare),
                quoted => above = above.min(quoted),
            }
        }
    }
    assert_eq!((below, above), (LIMIT - 2, LIMIT + 2));
}

#[test]
fn the_nearest_microseconds() {
    for (rate, ticks, shown) in [
        (444, 3_999_196_469_105, "9007199254740990"),
        (583, 5_251_197_165_514, "\"9007199254740994\""),
    ] {
        let text = text_of(&dump_with(ticks), &Reading::new(rate, 0, 0));
        let times = format!("\"ticks\":{},\"us\":{},\"id\":", ticks, shown);
        assert!(text.lines().last().unwrap().contains(&times), "{}", times);
    }
}
