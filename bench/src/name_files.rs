//! The name files that are timed, made by the library's own call.

use crate::dumps::{thread, KINDS, LARGEST, NAMED_THREADS};
use lepsaino::Naming;

#[derive(Default)]
struct NameFile {
    bytes: Vec<u8>,
}

impl NameFile {
    fn add(&mut self, thread: bool, number: u32, name: &str) {
        let end = self.bytes.len();
        self.bytes.resize(LARGEST, 0);
        let name = name.as_bytes();
        let naming = Naming {
            thread,
            number,
            name,
        };
        let length = lepsaino::write_name(&mut self.bytes, end, naming).expect("room for a record");
        self.bytes.truncate(end + length);
    }
}

/// For the dump with 400 names: one for each id that an event of it can have, and 400 for threads that it does not name.
pub fn beside_names() -> Vec<u8> {
    let mut file = NameFile::default();
    for id in 1..=1_100 {
        let kind = KINDS[id as usize % KINDS.len()];
        file.add(false, id, &format!("{kind} {id}"));
    }
    for index in NAMED_THREADS..2 * NAMED_THREADS {
        file.add(true, thread(index), &index.to_string());
    }
    file.bytes
}

/// For each number two records, an event's and a thread's.
pub fn twice(numbers: &[u32]) -> Vec<u8> {
    let mut file = NameFile::default();
    for (index, &number) in numbers.iter().enumerate() {
        let name = index.to_string();
        file.add(false, number, &name);
        file.add(true, number, &name);
    }
    file.bytes
}
