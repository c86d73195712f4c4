//! Counts of what was compared.

use crate::mends::Mends;
use crate::names::Names;
use peer::answers::Reply;
use peer::call::Call;
use peer::Header;
use std::fmt;

pub const REFUSALS: usize = 28;

/// The refusal of a dump that stops before one of these ends.
const CUT: usize = 26;
const ENDS: [&str; 2] = ["registry end", "buffer end"];

const KINDS: [&str; 17] = [
    "check",
    "event",
    "find name",
    "line",
    "listing",
    "format",
    "record",
    "register",
    "remove",
    "mend",
    "event with names",
    "find name with names",
    "line with names",
    "listing with names",
    "write name",
    "check in pieces",
    "number",
];

/// The kinds that are no call of a case.
const IN_PIECES: usize = 15;
const NUMBER: usize = 16;

#[derive(Default)]
pub struct Tally {
    pub inputs: u64,
    pub changed: u64,
    /// States with changed fields.
    pub states: u64,
    accepted: [u64; KINDS.len()],
    refusals: [[u64; REFUSALS]; KINDS.len()],
    cut: [[u64; ENDS.len()]; KINDS.len()],
    mends: Mends,
    names: Names,
}

impl Tally {
    /// The buffer is the one that the call found.
    pub fn count(&mut self, buffer: &[u8], call: &Call, reply: &Reply) {
        self.count_kind(buffer, kind(call), reply);
        if let Reply::Mend { result, .. } = reply {
            self.mends.count(result);
        }
        self.names.count(call, reply);
    }

    /// The reply is that to the whole check.
    pub fn count_in_pieces(&mut self, buffer: &[u8], reply: &Reply) {
        self.count_kind(buffer, IN_PIECES, reply);
    }

    fn count_kind(&mut self, buffer: &[u8], kind: usize, reply: &Reply) {
        self.inputs += 1;
        match reply.refusal() {
            Some(refusal) => self.count_refusal(buffer, kind, refusal.number as usize),
            None => self.accepted[kind] += 1,
        }
    }

    fn count_refusal(&mut self, buffer: &[u8], kind: usize, number: usize) {
        let name = KINDS[kind];
        assert!(can_give(kind, number), "{name} has no refusal {number}");
        self.refusals[kind][number - 1] += 1;
        if number == CUT {
            let end = usize::from(has_registry(buffer));
            assert!(
                can_be_cut(kind, end),
                "{name} has no {CUT} at the {}",
                ENDS[end]
            );
            self.cut[kind][end] += 1;
        }
    }

    /// A number has no refusal.
    pub fn count_number(&mut self) {
        self.inputs += 1;
        self.accepted[NUMBER] += 1;
    }

    /// What a kind of call can give and never gave.
    pub fn missing(&self) -> Vec<String> {
        let mut missing = Vec::new();
        for (kind, name) in KINDS.iter().enumerate() {
            if self.accepted[kind] == 0 {
                missing.push(format!("{name} accepted"));
            }
            for number in 1..=REFUSALS {
                if can_give(kind, number) && self.refusals[kind][number - 1] == 0 {
                    missing.push(format!("{name} refused with {number}"));
                }
            }
            missing.extend(self.ends_missing(kind));
        }
        if self.states == 0 {
            missing.push("a state with changed fields".to_string());
        }
        missing.extend(self.mends.missing());
        missing.extend(self.names.missing());
        missing
    }

    fn ends_missing(&self, kind: usize) -> Vec<String> {
        let name = KINDS[kind];
        let never = |end: &usize| can_be_cut(kind, *end) && self.cut[kind][*end] == 0;
        (0..ENDS.len())
            .filter(never)
            .map(|end| format!("{name} refused with {CUT} at the {}", ENDS[end]))
            .collect()
    }

    fn of_kind(&self, kind: usize) -> u64 {
        self.accepted[kind] + self.refusals[kind].iter().sum::<u64>()
    }

    fn refused_with(&self, number: usize) -> u64 {
        self.refusals.iter().map(|row| row[number - 1]).sum()
    }

    fn cut_at(&self, end: usize) -> u64 {
        self.cut.iter().map(|row| row[end]).sum()
    }
}

/// Whether the registry of a dump that was cut is there to its end.
fn has_registry(dump: &[u8]) -> bool {
    let header = Header::read(dump).expect("a dump that was cut has its header");
    header.offset(header.registry_end) <= dump.len()
}

/// Whether the order of checks for a kind of call has the number.
fn can_give(kind: usize, number: usize) -> bool {
    match KINDS[kind] {
        "check" | "check in pieces" => matches!(number, 1..=13 | CUT),
        "event" => matches!(number, 1..=13 | 25 | CUT),
        "find name" => matches!(number, 1..=11 | CUT),
        "line" => matches!(number, 1..=16 | 25 | CUT),
        "listing" => matches!(number, 1..=16 | CUT),
        "format" => matches!(number, 2 | 4 | 5 | 24),
        "record" => matches!(number, 1..=10 | 17 | 18 | CUT),
        "register" => matches!(number, 1..=10 | 19..=21 | 23 | CUT),
        "remove" => matches!(number, 1..=10 | 22 | CUT),
        "mend" => matches!(number, 1..=9 | 16 | CUT),
        "event with names" => matches!(number, 1..=13 | 25 | CUT | 27),
        "find name with names" => matches!(number, 1..=11 | CUT | 27),
        "line with names" => matches!(number, 1..=16 | 25 | CUT | 27),
        "listing with names" => matches!(number, 1..=16 | CUT | 27),
        "write name" => matches!(number, 16 | 28),
        _ => false,
    }
}

/// A mending zeros the slots missing before the buffer end.
fn can_be_cut(kind: usize, end: usize) -> bool {
    can_give(kind, CUT) && (KINDS[kind] != "mend" || ENDS[end] != "buffer end")
}

fn kind(call: &Call) -> usize {
    let letters = b"cenlafwoxmENLAr";
    let letter = call.letter();
    letters
        .iter()
        .position(|&one| one == letter)
        .expect("the library has this call")
}

impl fmt::Display for Tally {
    fn fmt(&self, text: &mut fmt::Formatter) -> fmt::Result {
        writeln!(
            text,
            "{} inputs compared, {} of them with a changed buffer or name file",
            self.inputs, self.changed
        )?;
        for (kind, name) in KINDS.iter().enumerate() {
            writeln!(text, "{:>10} {}", self.of_kind(kind), name)?;
        }
        let accepted: u64 = self.accepted.iter().sum();
        writeln!(text, "{:>10} accepted", accepted)?;
        for number in 1..=REFUSALS {
            let count = self.refused_with(number);
            writeln!(text, "{:>10} refused with {}", count, number)?;
        }
        for (end, name) in ENDS.iter().enumerate() {
            writeln!(text, "{:>10} of {} at the {}", self.cut_at(end), CUT, name)?;
        }
        writeln!(text, "{:>10} states with changed fields", self.states)?;
        write!(text, "{}{}", self.mends, self.names)
    }
}
