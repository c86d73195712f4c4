//! How the time of a listing with a name file grows with the events and with the records.

use crate::competitors::{NamedLister, NAMED_LISTERS};
use crate::contest::contest;
use crate::dumps::{crowded, thread, unnamed};
use crate::files::agreed_listing_with_names;
use crate::growth::measure;
use crate::jobs::with_and_without;
use crate::name_files::twice;

const EVENTS: [usize; 7] = [32, 64, 128, 256, 512, 1_024, 2_046];
const RECORDS: [usize; 8] = [0, 2, 100, 400, 1_000, 2_000, 3_000, 5_000];
const CROWDED_RECORDS: [usize; 2] = [400, 5_000];
const RECORDS_WITH_EVENTS: usize = 1_000;
const EVENTS_WITH_RECORDS: usize = 500;
// The peer goes over the whole file for each event, and only agrees.
const TIMED: usize = 2;

pub fn run(rounds: usize) {
    for events in EVENTS {
        let numbers = irregular(RECORDS_WITH_EVENTS / 2);
        list(&format!("filed-events-{events}"), events, &numbers, rounds);
    }
    for records in RECORDS {
        let job = format!("filed-records-{records}");
        list(&job, EVENTS_WITH_RECORDS, &irregular(records / 2), rounds);
    }
    for records in CROWDED_RECORDS {
        let job = format!("filed-crowded-{records}");
        list(&job, EVENTS_WITH_RECORDS, &crowded(records / 2), rounds);
    }
}

fn irregular(count: usize) -> Vec<u32> {
    (0..count).map(thread).collect()
}

/// Each number is an id and a thread, and has two records.
fn list(job: &str, events: usize, numbers: &[u32], rounds: usize) {
    let running = if numbers.is_empty() {
        &[thread(0)]
    } else {
        numbers
    };
    let dump = unnamed(events, running);
    let names = twice(numbers);
    agreed_listing_with_names(&dump, &names);
    let listers: &[(&str, NamedLister)] = &NAMED_LISTERS[..TIMED];
    contest(
        &measure(job, &dump),
        rounds,
        with_and_without(listers, &dump, &names),
    );
}
