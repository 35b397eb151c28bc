//! Compares listing programs on the same made captures by their least CPU time.
//!
//! First all programs must print the same listing for a small capture of each kind. Then they run
//! in turns, several rounds, from a file to /dev/null.

mod measure;

use bench::captures::{self, Kind};
use bench::table;
use measure::{cpu_seconds, output, peak_memory, Program};
use std::path::{Path, PathBuf};
use std::process::ExitCode;
use std::{fs, io};

const USAGE: &str = "\
usage: bench [option value]..
  --ours PATH        the program to compare with the others (build/list)
  --built DIR        where listing-rust, listing-c and tuned-c are (build/bench)
  --reader PATH      the Python reader (cross/bench/ref/reader.py)
  --captures DIR     where the captures are put (build/bench/captures)
  --mib NUMBER       size of a capture in MiB (64; a quarter of it for tildes)
  --rounds NUMBER    rounds (7; the Python reader takes part in the first only)
  --seed NUMBER      seed of the captures (1)
  --limit yes        also check that all but Python stop at 1,073,741,824 bytes";

struct Options {
    ours: PathBuf,
    built: PathBuf,
    reader: PathBuf,
    captures: PathBuf,
    mib: u64,
    rounds: usize,
    seed: u64,
    limit: bool,
}

fn options() -> Result<Options, String> {
    let mut options = Options {
        ours: "build/list".into(),
        built: "build/bench".into(),
        reader: "cross/bench/ref/reader.py".into(),
        captures: "build/bench/captures".into(),
        mib: 64,
        rounds: 7,
        seed: 1,
        limit: false,
    };
    let mut arguments = std::env::args().skip(1);
    while let Some(name) = arguments.next() {
        let value = arguments.next().ok_or(USAGE)?;
        let number = || value.parse::<u64>().map_err(|_| USAGE.to_string());
        match name.as_str() {
            "--ours" => options.ours = value.into(),
            "--built" => options.built = value.into(),
            "--reader" => options.reader = value.into(),
            "--captures" => options.captures = value.into(),
            "--mib" => options.mib = number()?.max(1),
            "--rounds" => options.rounds = number()?.max(1) as usize,
            "--seed" => options.seed = number()?,
            "--limit" => options.limit = value == "yes",
            _ => return Err(USAGE.to_string()),
        }
    }
    Ok(options)
}

/// The programs, ours first.
fn programs(options: &Options) -> Vec<Program> {
    let built = |name| options.built.join(name).into_os_string();
    vec![
        Program::new("ours", [options.ours.clone().into_os_string()]),
        Program::new("tuned C", [built("tuned-c")]),
        Program::new("straightforward C", [built("listing-c")]),
        Program::new("straightforward Rust", [built("listing-rust")]),
        Program::new(
            "Python",
            ["python3".into(), options.reader.clone().into_os_string()],
        )
        .once(),
        Program::new("cat (the floor)", ["cat".into()]).no_listing(),
    ]
}

/// All programs print the reference's listing for a small capture of each kind.
fn check(options: &Options, programs: &[Program]) -> Result<(), String> {
    let path = options.captures.join("small.cap");
    for kind in Kind::ALL.into_iter().chain([Kind::Mixed]) {
        captures::write(kind, 300_000, options.seed, &path).map_err(|e| at(&path, e))?;
        let capture = fs::read(&path).map_err(|e| at(&path, e))?;
        let expected = reference::listing(&capture);
        for program in programs.iter().filter(|program| program.lists) {
            let printed = output(program, &path)?;
            if printed != expected {
                return Err(difference(program, kind, &printed, &expected));
            }
        }
    }
    println!("All programs print the same listings for small captures of each kind.");
    Ok(())
}

/// Where two listings part.
fn difference(program: &Program, kind: Kind, printed: &[u8], expected: &[u8]) -> String {
    let mut printed = printed.split(|&byte| byte == b'\n');
    let mut expected = expected.split(|&byte| byte == b'\n');
    let mut line = 1;
    loop {
        let (here, there) = (printed.next(), expected.next());
        if here != there || here.is_none() {
            let show = |text: Option<&[u8]>| match text {
                Some(text) => format!("`{}`", String::from_utf8_lossy(&text[..text.len().min(60)])),
                None => "nothing".to_string(),
            };
            return format!(
                "{}: line {line} of the listing of {} is {}, not {}",
                program.name,
                kind.name(),
                show(here),
                show(there)
            );
        }
        line += 1;
    }
}

/// A sparse capture around byte 1,073,741,824: the last frame that is read, and one that is not.
fn check_limit(options: &Options, programs: &[Program]) -> Result<(), String> {
    let path = options.captures.join("limit.cap");
    captures::write_limit(&path).map_err(|e| at(&path, e))?;
    let expected = captures::LIMIT_LISTING;
    for program in programs {
        if program.lists && !program.once && output(program, &path)? != expected.as_bytes() {
            return Err(format!("{}: wrong at the limit", program.name));
        }
    }
    let _ = fs::remove_file(&path);
    println!("All programs but Python stop at 1,073,741,824 bytes.");
    Ok(())
}

fn at(path: &Path, error: io::Error) -> String {
    format!("{}: {error}", path.display())
}

/// Digits in groups of three.
fn grouped(number: f64) -> String {
    let digits = format!("{number:.0}");
    let mut text = String::new();
    for (place, digit) in digits.chars().enumerate() {
        if place > 0 && (digits.len() - place) % 3 == 0 {
            text.push(',');
        }
        text.push(digit);
    }
    text
}

/// The table, one row for each program, one column for each capture.
fn print_table(programs: &[Program], sizes: &[u64], best: &[Vec<f64>]) {
    let mut rows = vec![vec!["CPU seconds, MB/s, times ours".to_string()]];
    for (kind, size) in Kind::ALL.iter().zip(sizes) {
        rows[0].push(format!("{}, {} MiB", kind.name(), size >> 20));
    }
    for (place, program) in programs.iter().enumerate() {
        let mut row = vec![program.name.to_string()];
        for (column, &size) in sizes.iter().enumerate() {
            let seconds = best[place][column];
            let rate = grouped(size as f64 / 1e6 / seconds);
            let ratio = seconds / best[0][column];
            row.push(format!("{seconds:.4} s, {rate} MB/s, {ratio:.2}"));
        }
        rows.push(row);
    }
    table::print(&rows);
}

fn compare(options: &Options) -> Result<(), String> {
    if !options.ours.exists() {
        let ours = options.ours.display();
        return Err(format!(
            "{ours} is not there: build it, or name another with --ours"
        ));
    }
    fs::create_dir_all(&options.captures).map_err(|e| at(&options.captures, e))?;
    let programs = programs(options);
    check(options, &programs)?;
    if options.limit {
        check_limit(options, &programs)?;
    }
    let mut sizes = Vec::new();
    let mut best = vec![vec![f64::INFINITY; Kind::ALL.len()]; programs.len()];
    let mut memory = Vec::new();
    for (column, kind) in Kind::ALL.into_iter().enumerate() {
        let size = match kind {
            Kind::Tildes => (options.mib << 20) / 4,
            _ => options.mib << 20,
        };
        let path = options.captures.join(kind.file());
        captures::write(kind, size, options.seed, &path).map_err(|e| at(&path, e))?;
        sizes.push(size);
        for round in 0..options.rounds {
            for (place, program) in programs.iter().enumerate() {
                if round == 0 || !program.once {
                    let seconds = cpu_seconds(program, &path)?;
                    best[place][column] = best[place][column].min(seconds);
                }
            }
        }
        for size in [1 << 20, size] {
            memory.push((kind, size, peak_memory(&programs[0], &path, size)?));
        }
        let _ = fs::remove_file(&path);
    }
    println!();
    print_table(&programs, &sizes, &best);
    println!();
    println!(
        "Least CPU time (user and system) of {} rounds in turns, to /dev/null;",
        options.rounds
    );
    println!(
        "seed {}; MB are 1,000,000 bytes; Python ran once.",
        options.seed
    );
    println!();
    println!("Peak memory of ours, in KiB (VmHWM before the end of its input; ru_maxrss, which on");
    println!("Linux counts the starting program's pages too):");
    for (kind, size, peak) in memory {
        println!(
            "  {:11} {:3} MiB: {:6} {:6}",
            kind.name(),
            size >> 20,
            peak.own,
            peak.maxrss
        );
    }
    Ok(())
}

fn main() -> ExitCode {
    match options().and_then(|options| compare(&options)) {
        Ok(()) => ExitCode::SUCCESS,
        Err(message) => {
            eprintln!("{message}");
            ExitCode::FAILURE
        }
    }
}
