//! The comparisons that the gate runs: a fixed seed, at least a million calls, and every end that
//! the protocol lets a function have. It prints what it has compared.

use compare::{all, input, paper, Comparison};
use std::process::ExitCode;
use std::time::Instant;

const SEED: u64 = 1;
const ROUNDS: usize = 4;
const LEAST: u64 = 1_000_000;

fn main() -> ExitCode {
    let start = Instant::now();
    let mut comparison = Comparison::new(paper::outcome);
    if let Err(difference) = all(&mut comparison, SEED, ROUNDS) {
        println!("{difference}");
        return ExitCode::FAILURE;
    }
    let tally = &comparison.tally;
    print!("{tally}");
    println!("{:.1} s", start.elapsed().as_secs_f64());
    let missing = tally.missing();
    for end in &missing {
        println!("never seen: {end}");
    }
    let enough = tally.total() >= LEAST;
    if !enough {
        println!("fewer than {LEAST} comparisons");
    }
    // A difference is printed as an input: that must be the call again.
    let saved = tally.firsts().all(|(_, _, case)| {
        input::decoded(&input::encoded(case)) == input::Input::Call(case.clone())
    });
    if !saved {
        println!("a call is another one after it was saved");
    }
    if missing.is_empty() && enough && saved {
        ExitCode::SUCCESS
    } else {
        ExitCode::FAILURE
    }
}
