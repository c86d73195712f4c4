//! The generated cases reach every rule of mending alone and with the others, every refusal of it, and every kind of room.

use peer::answers::{answer, Reply};
use peer::call::Call;
use peer::generate::Generator;
use peer::mend::COUNTS;
use peer::*;
use std::collections::HashMap;

/// How often each mark comes at least.
const MARKS: [(&str, usize); 34] = [
    ("nothing to mend", 100),
    ("missing alone", 20),
    ("current alone", 20),
    ("types alone", 50),
    ("ids alone", 5),
    ("packed alone", 10),
    ("moved alone", 50),
    ("all six", 2),
    ("several missing", 50),
    ("several types", 20),
    ("several ids", 20),
    ("several moved", 50),
    ("current before, full", 5),
    ("current before, part-full", 5),
    ("current before, empty", 5),
    ("current behind, full", 5),
    ("current behind, part-full", 5),
    ("current behind, empty", 5),
    ("current off a slot, full", 5),
    ("current off a slot, part-full", 5),
    ("current off a slot, empty", 5),
    ("cut where a slot starts", 50),
    ("cut within a slot", 50),
    ("every slot missing", 50),
    ("no id in a missing slot", 5),
    ("freed by another flag than 0", 20),
    ("bytes past the buffer end", 100),
    ("little-endian", 200),
    ("big-endian", 200),
    ("pointers that wrap", 50),
    ("the largest copy", 2),
    ("just enough room", 200),
    ("more room", 100),
    ("the largest room", 2),
];

/// Refusals, and how often each comes at least.
const REFUSALS: [(u32, usize); 11] = [
    (1, 20),
    (2, 5),
    (3, 20),
    (4, 20),
    (5, 20),
    (6, 20),
    (7, 20),
    (8, 20),
    (9, 20),
    (16, 100),
    (26, 50),
];

/// Rooms refused with 16, against the length that the copy would have.
const TOO_SMALL: [(&str, usize); 3] = [("one byte less", 50), ("much less", 10), ("no room", 20)];

#[derive(Default)]
struct Seen {
    marks: HashMap<String, usize>,
    refusals: HashMap<u32, usize>,
}

impl Seen {
    fn mark(&mut self, mark: &str) {
        *self.marks.entry(mark.to_string()).or_default() += 1;
    }

    fn mended(&mut self, dump: &[u8], room: usize, mended: &Mended) {
        let counts = mended.counts();
        self.counts(counts);
        self.places(dump, mended);
        for (mark, holds) in [
            ("bytes past the buffer end", dump.len() > mended.length),
            ("the largest copy", mended.length == 65_536),
            ("just enough room", room == mended.length),
            ("more room", room > mended.length),
            ("the largest room", room == 65_900),
        ] {
            if holds {
                self.mark(mark);
            }
        }
    }

    /// Which of the counts are above 0; slots move only where they are packed.
    fn counts(&mut self, counts: [usize; 6]) {
        let above: Vec<usize> = (0..6).filter(|&index| counts[index] > 0).collect();
        match above[..] {
            [] => self.mark("nothing to mend"),
            [one] => self.mark(&format!("{} alone", COUNTS[one])),
            [4, 5] => self.mark("moved alone"),
            [_, _, _, _, _, _] => self.mark("all six"),
            _ => {}
        }
        for index in 0..6 {
            if counts[index] > 1 {
                self.mark(&format!("several {}", COUNTS[index]));
            }
        }
    }

    fn places(&mut self, dump: &[u8], mended: &Mended) {
        let header = Header::read(dump).unwrap();
        let ring = header.offset(header.registry_end);
        self.mark(match header.order {
            ByteOrder::Little => "little-endian",
            ByteOrder::Big => "big-endian",
        });
        if header.buffer_end < header.base {
            self.mark("pointers that wrap");
        }
        let entry_size = 16 + usize::from(header.name_size);
        let wrong = |entry: &[u8]| !matches!(entry[0..2], [0 | 1, _] | [_, 1..=14 | 21..=28]);
        if dump[48..ring].chunks(entry_size).any(wrong) {
            self.mark("freed by another flag than 0");
        }
        if mended.current == 1 {
            let offset = header.offset(header.current);
            let place = match offset {
                _ if offset < ring => "before",
                _ if offset >= mended.length => "behind",
                _ => "off a slot",
            };
            self.mark(&format!("current {}, {}", place, state(dump, &header)));
        }
        if mended.missing > 0 {
            self.cut(dump, &header);
        }
    }

    fn cut(&mut self, dump: &[u8], header: &Header) {
        let slots = dump[header.offset(header.registry_end)..].chunks(32);
        let last = slots.last().unwrap_or(&[]);
        match last.len() {
            0 | 32 => self.mark("cut where a slot starts"),
            _ => self.mark("cut within a slot"),
        }
        if dump.len() < header.offset(header.registry_end) + 32 {
            self.mark("every slot missing");
        }
        let word = |at| header.order.word(last, at);
        if (12..32).contains(&last.len()) && word(0) != 0 && word(8) == 0 {
            self.mark("no id in a missing slot");
        }
    }

    fn refused(&mut self, dump: &[u8], room: usize, refusal: Refusal) {
        *self.refusals.entry(refusal.number).or_default() += 1;
        if refusal.number == 16 {
            let header = Header::read(dump).unwrap();
            let lacking = header.offset(header.buffer_end) - room;
            match (room, lacking) {
                (0, _) => self.mark("no room"),
                (_, 1) => self.mark("one byte less"),
                _ => self.mark("much less"),
            }
        }
    }
}

/// Whether the slots that are there are all used, or none, or some.
fn state(dump: &[u8], header: &Header) -> &'static str {
    let end = dump.len().min(header.offset(header.buffer_end));
    let slots = dump[header.offset(header.registry_end)..end].chunks_exact(32);
    let used: Vec<bool> = slots.map(|slot| header.order.word(slot, 0) != 0).collect();
    match (used.contains(&true), used.contains(&false)) {
        (true, true) => "part-full",
        (true, false) => "full",
        _ => "empty",
    }
}

#[test]
fn every_rule_is_met() {
    let mut seen = Seen::default();
    let mut generator = Generator::new(6);
    for _ in 0..6_500 {
        let case = generator.next_case();
        let mut buffer = case.buffer();
        let mut names = case.names();
        for call in &case.calls {
            let before = buffer.clone();
            let reply = answer(&mut buffer, &mut names, call);
            if let (Call::Mend { room }, Reply::Mend { result, .. }) = (call, reply) {
                match result {
                    Ok(answer) => seen.mended(&before, *room as usize, &answer.mended),
                    Err(refusal) => seen.refused(&before, *room as usize, refusal),
                }
            }
        }
    }
    for (mark, least) in MARKS.iter().chain(&TOO_SMALL) {
        let count = seen.marks.get(*mark).copied().unwrap_or(0);
        assert!(count >= *least, "{} times {}", count, mark);
    }
    for (number, least) in REFUSALS {
        let count = seen.refusals.remove(&number).unwrap_or(0);
        assert!(count >= least, "{} times refused with {}", count, number);
    }
    assert!(seen.refusals.is_empty(), "others: {:?}", seen.refusals);
}
