//! Makes the captures in `examples/`, and lists a capture by the reference.

mod scenes;
mod stack;

use std::io::{self, Read, Write};
use std::path::Path;
use std::process::ExitCode;

const USAGE: &str = "\
usage: captures make DIR    write the captures to DIR
       captures list        the reference's listing of standard input";

fn make(folder: &Path) -> io::Result<()> {
    for (name, capture) in scenes::all() {
        std::fs::write(folder.join(format!("{name}.cap")), capture)?;
    }
    Ok(())
}

fn list() -> io::Result<()> {
    let mut capture = Vec::new();
    io::stdin().read_to_end(&mut capture)?;
    io::stdout().write_all(&reference::listing(&capture))
}

fn main() -> ExitCode {
    let arguments: Vec<String> = std::env::args().skip(1).collect();
    let arguments: Vec<&str> = arguments.iter().map(String::as_str).collect();
    let result = match arguments[..] {
        ["make", folder] => make(Path::new(folder)),
        ["list"] => list(),
        _ => {
            eprintln!("{USAGE}");
            return ExitCode::FAILURE;
        }
    };
    match result {
        Ok(()) => ExitCode::SUCCESS,
        Err(error) => {
            eprintln!("{error}");
            ExitCode::FAILURE
        }
    }
}

#[cfg(test)]
mod tests {
    use super::*;

    fn examples() -> std::path::PathBuf {
        Path::new(env!("CARGO_MANIFEST_DIR")).join("../../examples")
    }

    #[test]
    fn the_captures_are_those_made_here() {
        for (name, capture) in scenes::all() {
            let kept = std::fs::read(examples().join(format!("{name}.cap"))).unwrap();
            assert!(kept == capture, "{name}.cap");
        }
    }

    #[test]
    fn their_listings_are_the_reference_s() {
        for (name, capture) in scenes::all() {
            let kept = std::fs::read(examples().join(format!("{name}.list"))).unwrap();
            assert!(kept == reference::listing(&capture), "{name}.list");
        }
    }
}
