//! Writes dumps and the library's answers into a folder, once every competitor in Rust has given the same.

use crate::competitors::{Lister, CHECKERS, FINDERS, MENDERS, NAMED_LISTERS, PRINTERS, RECORDERS};
use crate::dumps::{full, with_gone, with_names, Dump, LARGEST, LITTLE};
use crate::feeders::FEEDERS;
use crate::jobs::{Job, Work, JOBS, RECORDED};
use crate::numbers::fixed;
use crate::plain::Refusal;
use lepsaino::{Mended, Name};
use std::io;
use std::path::Path;

pub fn write(folder: &Path) -> io::Result<()> {
    std::fs::create_dir_all(folder)?;
    write_dump(folder, "full", &full(LITTLE))?;
    write_dump(folder, "names", &with_names())?;
    write_dump(folder, "gone", &with_gone())?;
    for job in JOBS {
        std::fs::write(folder.join(format!("{}.answer", job.name)), answer(&job))?;
    }
    let numbers = agreed_numbers(&fixed());
    std::fs::write(folder.join("numbers.answer"), numbers)
}

fn write_dump(folder: &Path, name: &str, dump: &Dump) -> io::Result<()> {
    let reading = dump.reading;
    let words = format!("{} {} {}\n", reading.rate, reading.unit, reading.serial);
    std::fs::write(folder.join(format!("{name}.dump")), &dump.bytes)?;
    std::fs::write(folder.join(format!("{name}.reading")), words)
}

fn answer(job: &Job) -> Vec<u8> {
    let dump = (job.dump)();
    match job.work {
        Work::List(listers) => agreed_listing(&dump, listers),
        Work::ListWithNames(names) => agreed_listing_with_names(&dump, &names()),
        Work::Check(expected) => checked(&dump, expected),
        Work::Feed(length, expected) => fed(&dump, length, expected),
        Work::Find(pointer, expected) => found(&dump, pointer, expected),
        Work::Record => recorded(&dump),
        Work::Mend(expected) => mended(&dump, expected),
    }
}

pub fn agreed_listing(dump: &Dump, listers: &[(&'static str, Lister)]) -> Vec<u8> {
    agreed(listers.iter().map(|(name, list)| {
        let mut out = Vec::new();
        let length = list(&dump.bytes, dump.reading, &mut out);
        (*name, out[..length].to_vec())
    }))
}

pub fn agreed_listing_with_names(dump: &Dump, names: &[u8]) -> Vec<u8> {
    agreed(NAMED_LISTERS.iter().map(|(name, list)| {
        let mut out = Vec::new();
        let length = list(&dump.bytes, names, dump.reading, &mut out);
        (*name, out[..length].to_vec())
    }))
}

fn checked(dump: &Dump, expected: Result<usize, Refusal>) -> Vec<u8> {
    let answer = agreed(CHECKERS.map(|(name, check)| (name, check(&dump.bytes))));
    assert_eq!(answer, expected);
    verdict(answer)
}

fn fed(dump: &Dump, length: usize, expected: Result<usize, Refusal>) -> Vec<u8> {
    let answer = agreed(FEEDERS.map(|(name, feed)| (name, feed(&dump.bytes, length))));
    assert_eq!(answer, expected);
    verdict(answer)
}

fn verdict(answer: Result<usize, Refusal>) -> Vec<u8> {
    match answer {
        Ok(events) => format!("{events}\n").into_bytes(),
        Err((number, place)) => format!("refused by {number} at {place}\n").into_bytes(),
    }
}

fn found(dump: &Dump, pointer: u32, expected: Name) -> Vec<u8> {
    let answer = agreed(FINDERS.map(|(name, find)| (name, find(&dump.bytes, pointer))));
    assert_eq!(answer, Ok(Some(expected)));
    expected.bytes.to_vec()
}

fn recorded(dump: &Dump) -> Vec<u8> {
    agreed(RECORDERS.map(|(name, record)| {
        let mut buffer = dump.bytes.clone();
        record(&mut buffer, RECORDED);
        (name, buffer)
    }))
}

fn mended(dump: &Dump, expected: Mended) -> Vec<u8> {
    let (answer, copy) = agreed_mending(&dump.bytes, LARGEST);
    assert_eq!(answer, Ok(expected));
    copy[..expected.length].to_vec()
}

/// The answer, and the whole of a second buffer with that room.
pub fn agreed_mending(dump: &[u8], room: usize) -> (Result<Mended, Refusal>, Vec<u8>) {
    agreed(MENDERS.map(|(name, mend)| {
        let mut copy = vec![b'.'; room];
        (name, (mend(dump, &mut copy), copy))
    }))
}

pub fn agreed_numbers(numbers: &[u64]) -> Vec<u8> {
    agreed(PRINTERS.map(|(name, print)| {
        let mut out = Vec::new();
        let length = print(numbers, &mut out);
        (name, out[..length].to_vec())
    }))
}

/// The answer that all give.
fn agreed<T: PartialEq>(answers: impl IntoIterator<Item = (&'static str, T)>) -> T {
    let mut answers = answers.into_iter();
    let (_, first) = answers.next().expect("a competitor");
    for (name, answer) in answers {
        assert!(answer == first, "{name} gives another answer");
    }
    first
}
