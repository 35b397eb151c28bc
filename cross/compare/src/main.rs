//! The comparisons with any seed, for as many rounds as wanted; and a fuzzer's first inputs.

use compare::tally::end;
use compare::{all, input, paper, shrink, Comparison};
use std::path::Path;
use std::process::ExitCode;

const USAGE: &str = "\
usage: compare calls SEED ROUNDS    compare calls of every kind
       compare inputs DIR           write an input for each function and each way it can end";

fn calls(seed: u64, rounds: usize) -> Result<(), String> {
    let mut comparison = Comparison::new(paper::outcome);
    let done = all(&mut comparison, seed, rounds);
    print!("{}", comparison.tally);
    done.map_err(|difference| difference.to_string())
}

/// The smallest call found for each end.
fn inputs(folder: &Path) -> Result<(), String> {
    let mut comparison = Comparison::new(paper::outcome);
    all(&mut comparison, 1, 1).map_err(|difference| difference.to_string())?;
    for (function, ended, case) in comparison.tally.firsts() {
        let small = shrink::shrunk(case, |case| end(case, &paper::outcome(case)) == ended);
        let name = format!("{function}-{ended}").replace(' ', "-");
        let written = std::fs::write(folder.join(name), input::encoded(&small));
        written.map_err(|error| error.to_string())?;
    }
    Ok(())
}

fn main() -> ExitCode {
    let arguments: Vec<String> = std::env::args().skip(1).collect();
    let arguments: Vec<&str> = arguments.iter().map(String::as_str).collect();
    let result = match arguments[..] {
        ["calls", seed, rounds] => match (seed.parse(), rounds.parse()) {
            (Ok(seed), Ok(rounds)) => calls(seed, rounds),
            _ => Err(USAGE.to_string()),
        },
        ["inputs", folder] => inputs(Path::new(folder)),
        _ => Err(USAGE.to_string()),
    };
    match result {
        Ok(()) => ExitCode::SUCCESS,
        Err(said) => {
            eprintln!("{said}");
            ExitCode::FAILURE
        }
    }
}
