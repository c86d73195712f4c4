//! Writes the file of cases, the answers to it and the keys in them, from a fixed seed.

use peer::answers::{answer, EventAnswer, FoundName, MendAnswer, Reply};
use peer::call::Call;
use peer::case::Case;
use peer::generate::{document, Generator};
use peer::mend::COUNTS;
use peer::print::{print_reply, print_title};
use peer::Reading;
use std::collections::HashSet;
use std::path::Path;

const SEED: u64 = 9_007_199_254_740_992;
const GENERATED: usize = 5_250;
const LETTERS: &[u8; 16] = b"cenlafwoxbmENLAr";
const REFUSALS: usize = 28;
const NAME_KINDS: [&str; 4] = ["none", "live", "gone", "filed"];
const EVENT_NAMES: [&str; 2] = ["without a name of its own", "with a name of its own"];

#[derive(Default)]
struct Corpus {
    cases: Vec<u8>,
    printed: Vec<u8>,
    keys: String,
    listed: HashSet<u64>,
    repeated: usize,
    count: usize,
    calls: [usize; LETTERS.len()],
    refusals: [usize; REFUSALS + 1],
    with_place: [usize; REFUSALS + 1],
    mended: usize,
    /// Mendings with each count above 0.
    with_count: [usize; COUNTS.len()],
    /// Replies about one event or one name with each kind of name.
    with_name: [usize; NAME_KINDS.len()],
    /// Replies about one event with a name file.
    with_event_name: [usize; EVENT_NAMES.len()],
}

impl Corpus {
    fn add(&mut self, case: &Case) {
        case.encode(&mut self.cases);
        let mut buffer = case.buffer();
        let mut names = case.names();
        print_title(&case.title, &buffer, &names, &mut self.printed);
        for call in &case.calls {
            let reply = answer(&mut buffer, &mut names, call);
            print_reply(&reply, &mut self.printed);
            self.add_keys(call, &reply);
            self.tally(call, &reply);
        }
        self.count += 1;
    }

    fn add_keys(&mut self, call: &Call, reply: &Reply) {
        let text = match reply {
            Reply::Text {
                result: Ok(text), ..
            } => text,
            _ => return,
        };
        match call {
            Call::Line {
                reading, position, ..
            }
            | Call::LineWithNames {
                reading, position, ..
            } => self.add_key(call, reading, *position),
            Call::Listing { reading, .. } | Call::ListingWithNames { reading, .. } => {
                let lines = text.iter().filter(|&&byte| byte == b'\n').count();
                for position in 0..lines {
                    self.add_key(call, reading, position);
                    self.repeated += usize::from(!self.listed.insert(reading.key(position)));
                }
            }
            _ => {}
        }
    }

    fn add_key(&mut self, call: &Call, reading: &Reading, position: usize) {
        let letter = call.letter() as char;
        let key = reading.key(position);
        self.keys.push_str(&format!("{} {}\n", letter, key));
    }

    fn tally(&mut self, call: &Call, reply: &Reply) {
        let letter = LETTERS.iter().position(|&letter| letter == call.letter());
        self.calls[letter.expect("the letter is one of these")] += 1;
        if let Some(refusal) = reply.refusal() {
            self.refusals[refusal.number as usize] += 1;
            self.with_place[refusal.number as usize] += usize::from(refusal.place > 0);
        }
        match reply {
            Reply::Mend {
                result: Ok(answer), ..
            } => self.tally_mended(answer),
            Reply::Event(Ok(event)) => self.tally_event(event),
            Reply::FindName(Ok(name)) => self.tally_name(name.as_ref()),
            _ => {}
        }
    }

    fn tally_mended(&mut self, answer: &MendAnswer) {
        self.mended += 1;
        for (sum, count) in self.with_count.iter_mut().zip(answer.mended.counts()) {
            *sum += usize::from(count > 0);
        }
    }

    fn tally_name(&mut self, name: Option<&FoundName>) {
        let kind = name.map_or("none", |name| name.kind.text());
        let place = NAME_KINDS.iter().position(|&one| one == kind);
        self.with_name[place.expect("the kind is one of these")] += 1;
    }

    fn tally_event(&mut self, event: &EventAnswer) {
        self.tally_name(event.name.as_ref());
        if let Some(name) = &event.event_name {
            self.with_event_name[usize::from(name.is_some())] += 1;
        }
    }

    fn table(&self) {
        println!("cases {}", self.count);
        for (letter, count) in LETTERS.iter().zip(self.calls) {
            println!("calls {} {}", *letter as char, count);
        }
        for number in 1..=REFUSALS {
            let count = self.refusals[number];
            println!(
                "refusal {} {}, place above 0: {}",
                number, count, self.with_place[number]
            );
        }
        println!("mended {}", self.mended);
        for (name, count) in COUNTS.iter().zip(self.with_count) {
            println!("mended, {} above 0: {}", name, count);
        }
        for (kind, count) in NAME_KINDS.iter().zip(self.with_name) {
            println!("events and names found, {}: {}", kind, count);
        }
        for (kind, count) in EVENT_NAMES.iter().zip(self.with_event_name) {
            println!("events with a file, {}: {}", kind, count);
        }
        println!(
            "keys of whole listings {}, repeated {}",
            self.listed.len(),
            self.repeated
        );
        println!(
            "bytes of cases {}, of answers {}",
            self.cases.len(),
            self.printed.len()
        );
    }

    fn write(&self, folder: &Path) -> std::io::Result<()> {
        std::fs::create_dir_all(folder)?;
        std::fs::write(folder.join("cases"), &self.cases)?;
        std::fs::write(folder.join("stdout"), &self.printed)?;
        std::fs::write(folder.join("keys"), &self.keys)
    }
}

fn main() -> std::io::Result<()> {
    let folder = match std::env::args_os().nth(1) {
        Some(folder) => folder,
        None => {
            eprintln!("corpus DIR");
            std::process::exit(2);
        }
    };
    let mut corpus = Corpus::default();
    for case in document::cases() {
        corpus.add(&case);
    }
    let mut generator = Generator::with_distinct_keys(SEED);
    for _ in 0..GENERATED {
        corpus.add(&generator.next_case());
    }
    assert_eq!(corpus.repeated, 0, "two whole listings share a key");
    let least = |letter: u8| if letter == b'b' { 40 } else { 500 };
    let often = LETTERS
        .iter()
        .zip(corpus.calls)
        .all(|(&letter, count)| count > least(letter));
    assert!(often, "a call is made too seldom");
    let often = corpus.refusals[1..].iter().all(|&count| count > 100);
    assert!(often, "a refusal is given too seldom");
    let often = corpus.with_count.iter().all(|&count| count > 100);
    assert!(often, "a rule of mending is met too seldom");
    let often = corpus.with_name.iter().all(|&count| count > 100);
    assert!(often, "a kind of name is found too seldom");
    let often = corpus.with_event_name.iter().all(|&count| count > 100);
    assert!(often, "an event with or without a name comes too seldom");
    corpus.write(Path::new(&folder))?;
    corpus.table();
    Ok(())
}
