//! `differ SEED INPUTS [SECONDS]` compares the library with the peer over so many inputs, or for so long.
//! Exit status: 0 where all is equal and each call gave all that it can, 1 where not, 2 for a usage error.

mod arguments;
mod change;
mod compare;
mod cuts;
mod expected;
mod lent;
mod loan;
mod mends;
mod names;
mod number;
mod pieces;
mod plain;
mod states;
mod tally;
mod told;
mod wrapped;

use compare::Comparison;
use peer::generate::{document, Generator};
use std::process::ExitCode;
use std::time::{Duration, Instant};

struct Task {
    seed: u64,
    inputs: u64,
    limit: Duration,
}

fn main() -> ExitCode {
    let words: Vec<String> = std::env::args().skip(1).collect();
    match task(&words) {
        Some(task) => run(&task),
        None => {
            eprintln!("usage: differ SEED INPUTS [SECONDS]");
            ExitCode::from(2)
        }
    }
}

fn task(words: &[String]) -> Option<Task> {
    let numbers: Result<Vec<u64>, _> = words.iter().map(|word| word.parse()).collect();
    let (seed, inputs, seconds) = match numbers.ok()?[..] {
        [seed, inputs] => (seed, inputs, u64::MAX),
        [seed, inputs, seconds] => (seed, inputs, seconds),
        _ => return None,
    };
    Some(Task {
        seed,
        inputs,
        limit: Duration::from_secs(seconds),
    })
}

fn run(task: &Task) -> ExitCode {
    let mut named = document::cases().into_iter();
    let mut generator = Generator::new(task.seed);
    let mut comparison = Comparison::new(task.seed);
    let start = Instant::now();
    while comparison.tally.inputs < task.inputs && start.elapsed() < task.limit {
        let case = named.next().unwrap_or_else(|| generator.next_case());
        if let Err(difference) = comparison.case(&case) {
            println!("seed {}, case {}, {}", task.seed, case.title, difference);
            return ExitCode::FAILURE;
        }
    }
    report(task, &comparison, start.elapsed().as_secs_f64())
}

fn report(task: &Task, comparison: &Comparison, seconds: f64) -> ExitCode {
    let tally = &comparison.tally;
    print!("{tally}");
    let speed = tally.inputs as f64 / seconds;
    println!(
        "seed {}, {:.1} seconds, {:.0} inputs in a second",
        task.seed, seconds, speed
    );
    let missing = tally.missing();
    if missing.is_empty() {
        println!("no difference");
        return ExitCode::SUCCESS;
    }
    println!("never given: {missing:?}");
    ExitCode::FAILURE
}
