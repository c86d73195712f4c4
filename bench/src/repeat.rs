//! Does a job so many times, to count instructions: the difference between two numbers of times is the job's own.

use crate::contest::{opaque, Competitor};
use crate::jobs::{competitors, printers, Work, JOBS};
use crate::numbers::{fixed, of_length};

/// So many events in a call that the call itself counts for nothing.
const RECORDED: u32 = 1_000;

/// Prints the parts of a call that a count is told for; none where there is no such job or competitor.
pub fn run(job: &str, competitor: &str, times: u32) -> Option<()> {
    let parts = match numbers(job) {
        Some(numbers) => {
            repeat(printers(&numbers), competitor, times)?;
            numbers.len()
        }
        None => repeat_dump(job, competitor, times)?,
    };
    println!("{parts}");
    Some(())
}

/// The numbers that a job prints, where it prints numbers: of every length, or of so many digits.
fn numbers(job: &str) -> Option<Vec<u64>> {
    match job.strip_prefix("digits-") {
        Some(digits) => Some(of_length(digits.parse().ok()?)),
        None if job == "numbers" => Some(fixed()),
        None => None,
    }
}

fn repeat_dump(job: &str, competitor: &str, times: u32) -> Option<usize> {
    let job = JOBS.into_iter().find(|known| known.name == job)?;
    let dump = (job.dump)();
    repeat(competitors(&job, &dump, RECORDED), competitor, times)?;
    Some(match job.work {
        Work::List(_) | Work::ListWithNames(_) => dump.events,
        Work::Check(_) | Work::Feed(..) | Work::Find(..) | Work::Mend(_) => 1,
        Work::Record => RECORDED as usize,
    })
}

fn repeat(competitors: Vec<Competitor>, name: &str, times: u32) -> Option<()> {
    let mut competitor = competitors.into_iter().find(|known| known.name == name)?;
    for _ in 0..times {
        opaque((competitor.call)());
    }
    Some(())
}
