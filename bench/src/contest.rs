//! Times competitors in turn over several rounds, so that noise hits all alike, and prints the best and the median of each.

use std::time::Instant;

pub struct Competitor<'a> {
    pub name: &'static str,
    pub call: Box<dyn FnMut() -> u64 + 'a>,
}

impl<'a> Competitor<'a> {
    pub fn new(name: &'static str, call: impl FnMut() -> u64 + 'a) -> Self {
        Competitor {
            name,
            call: Box::new(call),
        }
    }
}

/// How a job is timed: so many calls in a row at each turn, and so many parts of a call, whose time is told.
pub struct Measure {
    job: String,
    calls: usize,
    parts: usize,
}

impl Measure {
    pub fn new(job: &str, calls: usize, parts: usize) -> Self {
        Measure {
            job: job.to_string(),
            calls,
            parts,
        }
    }
}

pub fn contest(measure: &Measure, rounds: usize, mut competitors: Vec<Competitor>) {
    let mut times = vec![Vec::new(); competitors.len()];
    for round in 0..rounds {
        for turn in 0..competitors.len() {
            // Each round starts with another.
            let index = (round + turn) % competitors.len();
            times[index].push(time(measure, &mut competitors[index]));
        }
    }
    for (competitor, times) in competitors.iter().zip(&mut times) {
        times.sort_by(f64::total_cmp);
        let (best, median) = (times[0], times[times.len() / 2]);
        println!("{} {} {best:.2} {median:.2}", measure.job, competitor.name);
    }
}

/// Nanoseconds for one part of a call, once another call has brought code and bytes near.
fn time(measure: &Measure, competitor: &mut Competitor) -> f64 {
    opaque((competitor.call)());
    let start = Instant::now();
    for _ in 0..measure.calls {
        opaque((competitor.call)());
    }
    start.elapsed().as_nanos() as f64 / (measure.calls * measure.parts) as f64
}

/// The same value, in a way that the compiler cannot see through.
pub fn opaque<T: Copy>(value: T) -> T {
    // SAFETY: the value is plain and lives until the end of this call.
    unsafe { std::ptr::read_volatile(&value) }
}
