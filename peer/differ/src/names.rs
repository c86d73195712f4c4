//! Counts of the names that were compared, by call and by kind.

use peer::answers::{FoundName, Reply};
use peer::call::Call;
use std::fmt;

const CALLS: [&str; 5] = [
    "event",
    "find name",
    "event with names",
    "find name with names",
    "event with names, for its id,",
];

/// The last of the calls gives an event's own name, which is none or filed.
const OWN: usize = 4;
const KINDS: [&str; 4] = [
    "no name",
    "a live thread's name",
    "a gone thread's name",
    "a name from the file",
];
const NONE: usize = 0;
const FILED: usize = 3;

#[derive(Default)]
pub struct Names {
    given: [[u64; KINDS.len()]; CALLS.len()],
}

impl Names {
    pub fn count(&mut self, call: &Call, reply: &Reply) {
        let with_file = 2 * usize::from(call.letter().is_ascii_uppercase());
        match reply {
            Reply::Event(Ok(event)) => {
                self.count_name(with_file, event.name.as_ref());
                if let Some(name) = &event.event_name {
                    self.count_name(OWN, name.as_ref());
                }
            }
            Reply::FindName(Ok(name)) => self.count_name(1 + with_file, name.as_ref()),
            _ => {}
        }
    }

    fn count_name(&mut self, call: usize, name: Option<&FoundName>) {
        let kind = name.map_or(NONE, |name| 1 + name.kind as usize);
        assert!(
            can_give(call, kind),
            "{} has never {}",
            CALLS[call],
            KINDS[kind]
        );
        self.given[call][kind] += 1;
    }

    /// The kinds that a call can give and never gave.
    pub fn missing(&self) -> Vec<String> {
        self.rows()
            .filter(|(_, _, count)| *count == 0)
            .map(|(call, kind, _)| format!("{call} with {kind}"))
            .collect()
    }

    fn rows(&self) -> impl Iterator<Item = (&'static str, &'static str, u64)> + '_ {
        (0..CALLS.len()).flat_map(move |call| {
            (0..KINDS.len())
                .filter(move |&kind| can_give(call, kind))
                .map(move |kind| (CALLS[call], KINDS[kind], self.given[call][kind]))
        })
    }
}

/// Without a file no name is from it, and an event's own name is in no dump.
fn can_give(call: usize, kind: usize) -> bool {
    match call {
        0 | 1 => kind != FILED,
        OWN => kind == NONE || kind == FILED,
        _ => true,
    }
}

impl fmt::Display for Names {
    fn fmt(&self, text: &mut fmt::Formatter) -> fmt::Result {
        for (call, kind, count) in self.rows() {
            writeln!(text, "{count:>10} {call} with {kind}")?;
        }
        Ok(())
    }
}
