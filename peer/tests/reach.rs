//! The generated cases reach refusal 26 by every call, at both ends and at both sides of each limit.

use peer::answers::answer;
use peer::generate::Generator;
use peer::*;
use std::collections::HashMap;

const CALLS: &[u8; 8] = b"cenlawox";

/// How often each mark comes at least, by each kind of call.
const MARKS: [(&str, usize); 9] = [
    ("cut within the header", 10),
    ("cut before the registry end", 20),
    ("cut before the buffer end", 20),
    ("one byte before the registry end", 2),
    ("one byte before the buffer end", 2),
    ("cut before the last registry end", 2),
    ("cut before the last buffer end", 2),
    ("one entry past the last registry end", 2),
    ("one slot past the last buffer end", 2),
];

/// Where the dump stops, told from what was refused.
fn marks(dump: &[u8], refusal: Refusal) -> Vec<&'static str> {
    if refusal.number == 1 {
        return vec!["cut within the header"];
    }
    let header = match dump.get(..48).and_then(Header::read) {
        Some(header) => header,
        None => return Vec::new(),
    };
    let entry = 16 + usize::from(header.name_size);
    let registry_end = header.offset(header.registry_end);
    let buffer_end = header.offset(header.buffer_end);
    let whole = registry_end >= 48 && (registry_end - 48) % entry == 0;
    let in_registry = registry_end > dump.len();
    match (refusal.number, refusal.place) {
        (7, _) if whole && is_first_past(registry_end, entry) => {
            vec!["one entry past the last registry end"]
        }
        (9, _) if is_first_past(buffer_end, 32) && (buffer_end - registry_end) % 32 == 0 => {
            vec!["one slot past the last buffer end"]
        }
        (26, place) if in_registry => {
            let far = is_first_past(registry_end + entry, entry);
            let near = [
                ("one byte before the registry end", place == 1),
                ("cut before the last registry end", far),
            ];
            with("cut before the registry end", near)
        }
        (26, place) => {
            let near = [
                ("one byte before the buffer end", place == 1),
                ("cut before the last buffer end", buffer_end == 65_536),
            ];
            with("cut before the buffer end", near)
        }
        _ => Vec::new(),
    }
}

fn is_first_past(end: usize, size: usize) -> bool {
    end > 65_536 && end - size <= 65_536
}

fn with(mark: &'static str, further: [(&'static str, bool); 2]) -> Vec<&'static str> {
    let further = further.iter().filter(|(_, holds)| *holds);
    further.map(|(mark, _)| *mark).chain([mark]).collect()
}

#[test]
fn every_call_meets_cut_dumps() {
    let mut seen: HashMap<(u8, &str), usize> = HashMap::new();
    let mut generator = Generator::new(4);
    for _ in 0..5_100 {
        let case = generator.next_case();
        let mut buffer = case.buffer();
        let mut names = case.names();
        for call in &case.calls {
            let before = buffer.clone();
            if let Some(refusal) = answer(&mut buffer, &mut names, call).refusal() {
                for mark in marks(&before, refusal) {
                    *seen.entry((call.letter(), mark)).or_default() += 1;
                }
            }
        }
    }
    for &letter in CALLS {
        for (mark, least) in MARKS {
            let count = seen.get(&(letter, mark)).copied().unwrap_or(0);
            let letter = letter as char;
            assert!(count >= least, "{}: {} times {}", letter, count, mark);
        }
    }
}
