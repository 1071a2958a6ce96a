//! Compares the gate, as libgate.a, with the Rust: every answer and every lent
//! word, those behind an answer and those after a refusal too.
//!
//!     cargo run --release --offline -p compare -- [seed N] [seconds S | cases N] [guarded]
//!
//! The cases of a round follow from its seed alone: `seed N cases 1` runs the
//! round of seed N again. With `guarded` each lent slice stands between pages
//! that may not be touched.

mod dictionaries;
mod lent;
mod messages;
mod recorded;
mod run;
mod rounds;

use run::Run;
use std::process::ExitCode;
use std::time::{Duration, Instant};

struct Options {
    seed: u64,
    limit: Limit,
    guarded: bool,
}

enum Limit {
    Seconds(u64),
    Rounds(u64),
}

fn options() -> Option<Options> {
    let mut options = Options {
        seed: 1,
        limit: Limit::Seconds(10),
        guarded: false,
    };
    let mut words = std::env::args().skip(1);
    while let Some(word) = words.next() {
        let mut number = || words.next()?.parse().ok();
        match word.as_str() {
            "seed" => options.seed = number()?,
            "seconds" => options.limit = Limit::Seconds(number()?),
            "cases" => options.limit = Limit::Rounds(number()?),
            "guarded" => options.guarded = true,
            _ => return None,
        }
    }
    Some(options)
}

fn main() -> ExitCode {
    let Some(options) = options() else {
        eprintln!("usage: compare [seed N] [seconds S | cases N] [guarded]");
        return ExitCode::from(2);
    };
    let mut run = Run::new(options.guarded);
    match compare(&options, &mut run) {
        Ok(()) => {
            println!("{run}");
            ExitCode::SUCCESS
        }
        Err(difference) => {
            println!("{run}\ndifference: {difference}");
            ExitCode::FAILURE
        }
    }
}

fn compare(options: &Options, run: &mut Run) -> Result<(), String> {
    println!("seed {}", options.seed);
    let start = Instant::now();
    recorded::compare(run)?;
    println!("{} calls on the recorded cases in {:?}", run.calls(), start.elapsed());
    let mut seed = options.seed;
    let goes_on = |rounds: u64| match options.limit {
        Limit::Seconds(seconds) => start.elapsed() < Duration::from_secs(seconds),
        Limit::Rounds(limit) => rounds < limit,
    };
    while goes_on(seed - options.seed) {
        rounds::compare(seed, run).map_err(|difference| format!("seed {seed}: {difference}"))?;
        seed += 1;
    }
    println!("seeds {} to {}", options.seed, seed - 1);
    Ok(())
}
