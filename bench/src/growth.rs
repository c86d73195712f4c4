//! How the time of a listing grows with the events and with the entries, and what the shape of the pointers does to it;
//! and how that of a number grows with its digits.

use crate::competitors::{LIBRARY, LISTERS};
use crate::contest::{contest, Competitor, Measure};
use crate::dumps::{growing, leaping, Dump, SHAPES};
use crate::files::{agreed_listing, agreed_numbers};
use crate::jobs::{lister, print};
use crate::named_growth;
use crate::numbers::{of_length, LONGEST};

const EVENTS: [usize; 7] = [32, 64, 128, 256, 512, 1_024, 2_046];
const ENTRIES: [usize; 8] = [0, 1, 50, 100, 200, 400, 800, 1_500];
const SHAPED_ENTRIES: [usize; 2] = [400, 1_500];
const EVENTS_WITH_ENTRIES: usize = 500;
const SHOWN: [&str; 3] = ["lepsaino", "itoa", "itoa-map"];

pub fn run(rounds: usize) {
    for events in EVENTS {
        list(&format!("events-{events}"), &growing(events, 0, 1), rounds);
    }
    for entries in ENTRIES {
        let one = growing(EVENTS_WITH_ENTRIES, entries, 1);
        list(&format!("entries-one-{entries}"), &one, rounds);
        let all = growing(EVENTS_WITH_ENTRIES, entries, entries.max(1));
        list(&format!("entries-all-{entries}"), &all, rounds);
    }
    for (shape, pointers) in SHAPES {
        for entries in SHAPED_ENTRIES {
            let job = format!("shape-{shape}-{entries}");
            list_shape(&job, &pointers(entries), rounds);
        }
    }
    named_growth::run(rounds);
    for digits in 1..=LONGEST {
        let numbers = of_length(digits);
        agreed_numbers(&numbers);
        print(&format!("digits-{digits}"), &numbers, rounds);
    }
}

fn list(job: &str, dump: &Dump, rounds: usize) {
    contest(&measure(job, dump), rounds, listers(dump));
}

/// Beside the library's own time for the same events where no pointer has a name.
fn list_shape(job: &str, pointers: &[u32], rounds: usize) {
    let named = leaping(EVENTS_WITH_ENTRIES, pointers, pointers);
    let nameless = leaping(EVENTS_WITH_ENTRIES, &[], pointers);
    agreed_listing(&nameless, &LISTERS);
    let mut competitors = listers(&named);
    competitors.push(lister(("lepsaino-nameless", LIBRARY), &nameless));
    contest(&measure(job, &named), rounds, competitors);
}

/// The time for each event; short listings are timed several in a row.
pub fn measure(job: &str, dump: &Dump) -> Measure {
    Measure::new(job, 1 + 1_000 / dump.events, dump.events)
}

fn listers(dump: &Dump) -> Vec<Competitor<'_>> {
    // All give the same text, or none is timed.
    agreed_listing(dump, &LISTERS);
    let shown = LISTERS.iter().filter(|(name, _)| SHOWN.contains(name));
    shown.map(|entry| lister(*entry, dump)).collect()
}
