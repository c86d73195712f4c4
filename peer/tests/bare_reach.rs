//! The cases have keys just below two to the 53, at it and just past it, and microseconds on both sides of it.

use peer::answers::{answer, Reply};
use peer::call::Call;
use peer::case::Case;
use peer::generate::{document, Generator};

const KEYS: [&str; 3] = [
    r#""key":9007199254740991,"#,
    r#""key":"9007199254740992","#,
    r#""key":"9007199254740993","#,
];

/// At each of these rates a tick or two lead from one to the other.
const MICROSECONDS: [&str; 2] = [r#""us":9007199254"#, r#""us":"900719925"#];
const RATES: [u32; 5] = [1, 2, 3, 4, 7];

/// A line or a listing that was accepted.
struct Shown {
    letter: u8,
    rate: u32,
    text: String,
}

fn shown(case: &Case) -> Vec<Shown> {
    let mut shown = Vec::new();
    let mut buffer = case.buffer();
    let mut names = case.names();
    for call in &case.calls {
        let reply = answer(&mut buffer, &mut names, call);
        let (reading, text) = match (call, reply) {
            (
                Call::Line { reading, .. } | Call::Listing { reading, .. },
                Reply::Text {
                    result: Ok(text), ..
                },
            ) => (reading, text),
            _ => continue,
        };
        shown.push(Shown {
            letter: call.letter(),
            rate: reading.rate,
            text: String::from_utf8(text).unwrap(),
        });
    }
    shown
}

fn times(shown: &[Shown], mark: &str, wanted: impl Fn(&Shown) -> bool) -> usize {
    shown
        .iter()
        .filter(|one| wanted(one) && one.text.contains(mark))
        .count()
}

#[test]
fn generated_cases_lie_on_both_sides() {
    let mut generator = Generator::new(5);
    let cases = (0..14_000).flat_map(|_| shown(&generator.next_case()));
    let cases: Vec<Shown> = cases.collect();
    for letter in [b'l', b'a'] {
        for key in KEYS {
            let count = times(&cases, key, |one| one.letter == letter);
            assert!(count >= 10, "{}: {} times {}", letter as char, count, key);
        }
    }
    for rate in RATES {
        for mark in MICROSECONDS {
            let count = times(&cases, mark, |one| one.rate == rate);
            assert!(count >= 3, "rate {}: {} times {}", rate, count, mark);
        }
    }
}

/// A listing of each key once, so that no two whole listings share one.
#[test]
fn named_cases_lie_on_both_sides() {
    let cases: Vec<Shown> = document::cases().iter().flat_map(shown).collect();
    for key in KEYS {
        assert_eq!(times(&cases, key, |one| one.letter == b'a'), 1, "{}", key);
        assert!(times(&cases, key, |one| one.letter == b'l') > 0, "{}", key);
    }
    for mark in [
        r#""ticks":8782019273372,"us":9007199254740512,"#,
        r#""ticks":8782019273373,"us":"9007199254741538","#,
    ] {
        assert_eq!(times(&cases, mark, |one| one.rate == 975), 1, "{}", mark);
    }
}
