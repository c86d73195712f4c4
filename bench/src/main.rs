//! `bench files FOLDER` writes the dumps and the library's answers. `bench times ROUNDS` and `bench growth ROUNDS` print lines
//! of a job, a competitor and its best and median nanoseconds. `bench repeat JOB COMPETITOR TIMES` does a job so many times.

#[cfg(test)]
mod agreement;
mod competitors;
mod contest;
mod dumps;
mod feeders;
mod files;
mod growth;
mod jobs;
mod name_files;
mod named_growth;
mod numbers;
mod plain;
mod repeat;
mod stream;
mod with_itoa;
mod with_serde;

use std::path::Path;
use std::process::ExitCode;

fn main() -> ExitCode {
    let words: Vec<String> = std::env::args().skip(1).collect();
    let words: Vec<&str> = words.iter().map(String::as_str).collect();
    match run(&words) {
        Some(()) => ExitCode::SUCCESS,
        None => {
            eprintln!("usage: bench files FOLDER | times ROUNDS | growth ROUNDS | repeat JOB COMPETITOR TIMES");
            ExitCode::from(2)
        }
    }
}

/// None for words that are not understood.
fn run(words: &[&str]) -> Option<()> {
    match words {
        ["files", folder] => files::write(Path::new(folder)).expect("a folder that can be written"),
        ["times", rounds] => jobs::run(rounds.parse().ok()?),
        ["growth", rounds] => growth::run(rounds.parse().ok()?),
        ["repeat", job, competitor, times] => repeat::run(job, competitor, times.parse().ok()?)?,
        _ => return None,
    }
    Some(())
}
