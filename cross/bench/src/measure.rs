//! Running a program: its output, its CPU time by wait4, its peak memory.

use std::ffi::OsString;
use std::fs::File;
use std::io::{self, Read, Write};
use std::path::Path;
use std::process::{Child, Command, Stdio};

/// A program to compare: a filter from standard input to standard output.
pub struct Program {
    /// Its name in the table.
    pub name: &'static str,
    command: Vec<OsString>,
    /// It runs in the first round only.
    pub once: bool,
    /// It prints a listing.
    pub lists: bool,
}

impl Program {
    /// A program and its arguments.
    pub fn new<const N: usize>(name: &'static str, command: [OsString; N]) -> Self {
        Program {
            name,
            command: command.to_vec(),
            once: false,
            lists: true,
        }
    }

    /// Too slow for every round.
    pub fn once(self) -> Self {
        Program { once: true, ..self }
    }

    /// No listing program.
    pub fn no_listing(self) -> Self {
        Program {
            lists: false,
            ..self
        }
    }

    fn start(&self, input: Stdio, output: Stdio) -> Result<Child, String> {
        Command::new(&self.command[0])
            .args(&self.command[1..])
            .stdin(input)
            .stdout(output)
            .spawn()
            .map_err(|e| self.failed(&e.to_string()))
    }

    fn failed(&self, why: &str) -> String {
        format!(
            "{} ({}): {why}",
            self.name,
            self.command[0].to_string_lossy()
        )
    }
}

#[repr(C)]
#[derive(Default)]
struct Time {
    seconds: i64,
    microseconds: i64,
}

/// `struct rusage` of 64-bit Linux.
#[repr(C)]
#[derive(Default)]
struct Usage {
    user: Time,
    system: Time,
    maxrss: i64,
    others: [i64; 13],
}

extern "C" {
    fn wait4(pid: i32, status: *mut i32, options: i32, usage: *mut Usage) -> i32;
}

/// Waits for a child and says what it used.
fn wait(program: &Program, child: Child) -> Result<Usage, String> {
    let mut status = 0;
    let mut usage = Usage::default();
    let pid = child.id() as i32;
    loop {
        // SAFETY: both pointers are to live values of the C types, and nobody else waits for pid.
        let waited = unsafe { wait4(pid, &mut status, 0, &mut usage) };
        if waited == pid {
            break;
        }
        let error = io::Error::last_os_error();
        if error.kind() != io::ErrorKind::Interrupted {
            return Err(program.failed(&error.to_string()));
        }
    }
    match status {
        0 => Ok(usage),
        _ => Err(program.failed(&format!("ended with status {status:#06x}"))),
    }
}

fn open(path: &Path) -> Result<File, String> {
    File::open(path).map_err(|e| format!("{}: {e}", path.display()))
}

/// What a program prints for a capture.
pub fn output(program: &Program, capture: &Path) -> Result<Vec<u8>, String> {
    let mut child = program.start(open(capture)?.into(), Stdio::piped())?;
    let mut printed = Vec::new();
    if let Some(mut pipe) = child.stdout.take() {
        pipe.read_to_end(&mut printed)
            .map_err(|e| program.failed(&e.to_string()))?;
    }
    wait(program, child)?;
    Ok(printed)
}

/// The CPU time, user and system, from a file to /dev/null.
pub fn cpu_seconds(program: &Program, capture: &Path) -> Result<f64, String> {
    let child = program.start(open(capture)?.into(), Stdio::null())?;
    let usage = wait(program, child)?;
    let seconds = |time: &Time| time.seconds as f64 + time.microseconds as f64 / 1e6;
    // Below the clock's step there is no ratio.
    Ok((seconds(&usage.user) + seconds(&usage.system)).max(1e-6))
}

/// Peak memory in KiB.
pub struct Peak {
    /// The program's own, read while it waits for more input.
    pub own: u64,
    /// What wait4 says.
    pub maxrss: i64,
}

/// The peak memory for the first bytes of a capture. The program gets them by a pipe; when the pipe
/// is drained it waits, and its peak is read before its input ends.
pub fn peak_memory(program: &Program, capture: &Path, size: u64) -> Result<Peak, String> {
    let mut child = program.start(Stdio::piped(), Stdio::null())?;
    let mut own = 0;
    if let Some(mut pipe) = child.stdin.take() {
        let mut input = open(capture)?.take(size);
        let mut piece = vec![0; 65_536];
        let broken = |e: io::Error| program.failed(&e.to_string());
        loop {
            let got = input.read(&mut piece).map_err(broken)?;
            if got == 0 {
                break;
            }
            pipe.write_all(&piece[..got]).map_err(broken)?;
        }
        std::thread::sleep(std::time::Duration::from_millis(100));
        let status = std::fs::read_to_string(format!("/proc/{}/status", child.id()));
        own = status.map_or(0, |text| high_water(&text));
    }
    let usage = wait(program, child)?;
    Ok(Peak {
        own,
        maxrss: usage.maxrss,
    })
}

/// The number of KiB in the line VmHWM.
fn high_water(status: &str) -> u64 {
    let line = status.lines().find(|line| line.starts_with("VmHWM:"));
    let digits = line.and_then(|line| line.split_whitespace().nth(1));
    digits.and_then(|digits| digits.parse().ok()).unwrap_or(0)
}
