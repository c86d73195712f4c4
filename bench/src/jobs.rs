//! The jobs, and how they are timed.

use crate::competitors::{Checker, Finder, Lister, Mender, NamedLister, Printer, Reader, Recorder};
use crate::competitors::{CHECKERS, COPIER, FINDERS, LISTERS, MENDERS, NAMED_LISTERS, PRINTERS};
use crate::competitors::{READERS, RECORDERS, ROOMS, WITHOUT_FILE};
use crate::contest::{contest, opaque, Competitor, Measure};
use crate::dumps::{empty, full, half, thread, with_entries, with_gone, with_names, without_id};
use crate::dumps::{Dump, BIG, LARGEST, LITTLE};
use crate::feeders::{Feeder, FEEDERS};
use crate::name_files::beside_names;
use crate::numbers::fixed;
use crate::plain::Refusal;
use lepsaino::{Mended, Name, NameKind};

/// How many events are recorded in a call where recording is timed.
pub const RECORDED: u32 = 1_000_000;

/// What is done to a dump; for a listing, by whom, or with what name file; for a check, a search and a mending, what must come of it.
/// Pieces have their length first.
pub enum Work {
    List(&'static [(&'static str, Lister)]),
    ListWithNames(fn() -> Vec<u8>),
    Check(Result<usize, Refusal>),
    Feed(usize, Result<usize, Refusal>),
    Find(u32, Name<'static>),
    Record,
    Mend(Mended),
}

pub struct Job {
    pub name: &'static str,
    pub dump: fn() -> Dump,
    pub work: Work,
}

/// All but the numbers, which have no dump.
pub const JOBS: [Job; 20] = [
    job("listing-full", || full(LITTLE), Work::List(&LISTERS)),
    job("listing-big", || full(BIG), Work::List(&LISTERS)),
    job("listing-exact", || full(LITTLE), Work::List(&ROOMS)),
    job("listing-names", with_names, Work::List(&LISTERS)),
    job("listing-gone", with_gone, Work::List(&LISTERS)),
    job(
        "listing-filed",
        with_names,
        Work::ListWithNames(beside_names),
    ),
    job("check", || full(LITTLE), Work::Check(Ok(2_046))),
    job("check-big", || full(BIG), Work::Check(Ok(2_046))),
    job("check-entries", with_entries, Work::Check(Ok(1_109))),
    job(
        "check-refused-last",
        || without_id(2_045),
        Work::Check(Err((13, 2_045))),
    ),
    job(
        "check-refused-first",
        || without_id(0),
        Work::Check(Err((13, 0))),
    ),
    job("pieces-1024", || full(LITTLE), Work::Feed(1_024, Ok(2_046))),
    job("pieces-1", || full(LITTLE), Work::Feed(1, Ok(2_046))),
    job("find-last", with_entries, Work::Find(thread(1_499), LAST)),
    job("record", || empty(LITTLE), Work::Record),
    job("record-big", || empty(BIG), Work::Record),
    job("mend", || full(LITTLE), Work::Mend(SOUND)),
    job("mend-packed", || without_id(2_045), Work::Mend(PACKED)),
    job("mend-cut", half, Work::Mend(CUT)),
    job("mend-entries", with_entries, Work::Mend(SOUND_ENTRIES)),
];

/// The last of 1,500 names.
const LAST: Name = Name {
    bytes: b"1499",
    kind: NameKind::Live,
};

/// Nothing was mended.
const SOUND: Mended = Mended {
    length: 65_520,
    missing: 0,
    current: 0,
    types: 0,
    ids: 0,
    packed: 0,
    moved: 0,
};
const SOUND_ENTRIES: Mended = Mended {
    length: 65_536,
    ..SOUND
};
/// One slot was zeroed, and all the others were moved.
const PACKED: Mended = Mended {
    ids: 1,
    packed: 1,
    moved: 2_045,
    ..SOUND
};
/// The slots that are missing lie in the middle, by age, so that all others were moved.
const CUT: Mended = Mended {
    missing: 1_024,
    packed: 1,
    moved: 1_022,
    ..SOUND
};

const fn job(name: &'static str, dump: fn() -> Dump, work: Work) -> Job {
    Job { name, dump, work }
}

pub fn run(rounds: usize) {
    for job in JOBS {
        time(&job, rounds);
    }
    print("numbers", &fixed(), rounds);
}

fn time(job: &Job, rounds: usize) {
    let dump = (job.dump)();
    let mut competitors = competitors(job, &dump, RECORDED);
    // One check is compared with reading the bytes, too, and one mending with copying them.
    match job.name {
        "check" => competitors.extend(READERS.map(|entry| reader(entry, &dump))),
        "mend" => competitors.push(reader(COPIER, &dump)),
        _ => {}
    }
    let (calls, parts, rounds) = match job.work {
        Work::List(_) | Work::ListWithNames(_) => (1, 1, rounds),
        // Fed byte by byte a dump takes a millisecond, and longer turns are interrupted.
        Work::Feed(1, _) => (2, 1, rounds),
        Work::Check(_) | Work::Feed(..) | Work::Find(..) | Work::Mend(_) => (20, 1, rounds),
        // A million events take as long as a hundred listings.
        Work::Record => (1, RECORDED as usize, (rounds / 20).max(3)),
    };
    contest(&Measure::new(job.name, calls, parts), rounds, competitors);
}

/// Who competes on the dump, which is the job's; so many events are recorded in a call.
pub fn competitors<'a>(job: &Job, dump: &'a Dump, recorded: u32) -> Vec<Competitor<'a>> {
    match job.work {
        Work::List(listers) => listers.iter().map(|entry| lister(*entry, dump)).collect(),
        Work::ListWithNames(names) => with_and_without(&NAMED_LISTERS, dump, &names()),
        Work::Check(_) => CHECKERS.map(|entry| checker(entry, dump)).into(),
        Work::Feed(length, _) => FEEDERS.map(|entry| feeder(entry, dump, length)).into(),
        Work::Find(pointer, _) => FINDERS.map(|entry| finder(entry, dump, pointer)).into(),
        Work::Record => RECORDERS
            .map(|entry| recorder(entry, dump, recorded))
            .into(),
        Work::Mend(_) => MENDERS.map(|entry| mender(entry, dump)).into(),
    }
}

pub fn lister<'a>((name, list): (&'static str, Lister), dump: &'a Dump) -> Competitor<'a> {
    let mut out = Vec::new();
    let call = move || list(opaque(&dump.bytes), dump.reading, &mut out) as u64;
    Competitor::new(name, call)
}

/// The listing with a name file, by each, and the library's without one.
pub fn with_and_without<'a>(
    listers: &[(&'static str, NamedLister)],
    dump: &'a Dump,
    names: &[u8],
) -> Vec<Competitor<'a>> {
    let named = listers
        .iter()
        .map(|entry| named_lister(*entry, dump, names.to_vec()));
    named.chain([lister(WITHOUT_FILE, dump)]).collect()
}

fn named_lister<'a>(
    (name, list): (&'static str, NamedLister),
    dump: &'a Dump,
    names: Vec<u8>,
) -> Competitor<'a> {
    let mut out = Vec::new();
    let call = move || list(opaque(&dump.bytes), opaque(&names), dump.reading, &mut out) as u64;
    Competitor::new(name, call)
}

fn checker<'a>((name, check): (&'static str, Checker), dump: &'a Dump) -> Competitor<'a> {
    let call = move || check(opaque(&dump.bytes)).unwrap_or_else(|(_, place)| place) as u64;
    Competitor::new(name, call)
}

fn feeder<'a>(
    (name, feed): (&'static str, Feeder),
    dump: &'a Dump,
    length: usize,
) -> Competitor<'a> {
    let call = move || feed(opaque(&dump.bytes), opaque(length)).unwrap() as u64;
    Competitor::new(name, call)
}

fn finder<'a>(
    (name, find): (&'static str, Finder),
    dump: &'a Dump,
    pointer: u32,
) -> Competitor<'a> {
    let call = move || {
        let name = find(opaque(&dump.bytes), opaque(pointer)).unwrap();
        name.unwrap().bytes.len() as u64
    };
    Competitor::new(name, call)
}

fn recorder<'a>(
    (name, record): (&'static str, Recorder),
    dump: &Dump,
    events: u32,
) -> Competitor<'a> {
    let mut buffer = dump.bytes.clone();
    Competitor::new(name, move || record(&mut buffer, events) as u64)
}

fn mender<'a>((name, mend): (&'static str, Mender), dump: &'a Dump) -> Competitor<'a> {
    let mut copy = vec![0; LARGEST];
    let call = move || mend(opaque(&dump.bytes), &mut copy).unwrap().moved as u64;
    Competitor::new(name, call)
}

fn reader<'a>((name, read): (&'static str, Reader), dump: &'a Dump) -> Competitor<'a> {
    let mut copy = vec![0; dump.bytes.len()];
    Competitor::new(name, move || read(opaque(&dump.bytes), &mut copy))
}

/// The time for each number.
pub fn print(job: &str, numbers: &[u64], rounds: usize) {
    let measure = Measure::new(job, 2, numbers.len());
    contest(&measure, rounds, printers(numbers));
}

pub fn printers(numbers: &[u64]) -> Vec<Competitor<'_>> {
    PRINTERS.map(|entry| printer(entry, numbers)).into()
}

fn printer<'a>((name, print): (&'static str, Printer), numbers: &'a [u64]) -> Competitor<'a> {
    let mut out = Vec::new();
    let call = move || print(opaque(numbers), &mut out) as u64;
    Competitor::new(name, call)
}
