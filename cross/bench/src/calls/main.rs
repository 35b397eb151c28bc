//! Compares calls of the archive with the reference's and with plain C's: the least CPU time of many rounds in turns, in one process.

mod frames;

use bench::captures::{framed, module, reply};
use bench::table;
use compare::records::linked_table;
use frames::{Frames, Ours, Plain};
use reference::seeded::Seeded;
use reference::{Alarm, Answer, Event, Header, Module, Question, Receiver, Refusal, Station};
use std::hint::black_box;
use std::process::ExitCode;

const USAGE: &str = "usage: calls [--rounds NUMBER] [--seed NUMBER]    (300 rounds, seed 1)";

/// What one round of a call should take.
const ROUND_NANOSECONDS: u64 = 500_000;
/// The bytes of a piece.
const PIECE: usize = 65_536;
/// The 42H question to the group's master.
const GROUP: Question = Question {
    adr: 0x02,
    cid2: 0x42,
    command: 0xFF,
};
/// The same for the archive.
const OUR_GROUP: linked::Question = linked::Question {
    adr: GROUP.adr,
    cid2: GROUP.cid2,
    command: GROUP.command,
};

/// Work of which one pass is timed; it hands back what it found, so that the ways can be held against each other.
type Work<'a> = Box<dyn FnMut() -> u64 + 'a>;

/// A row: what is called, and the ways to do it, ours first.
struct Case<'a> {
    name: String,
    /// How many calls, or for a stream how many bytes, a pass has.
    amount: usize,
    stream: bool,
    ways: Vec<Work<'a>>,
}

// ---- what a pass found, as one number

fn mixed(sum: u64, found: u64) -> u64 {
    sum.rotate_left(9) ^ found
}

fn word(header: Header, lenid: usize) -> u64 {
    let Header {
        ver,
        adr,
        cid1,
        cid2,
    } = header;
    u64::from(u32::from_be_bytes([ver, adr, cid1, cid2])) << 16 | lenid as u64
}

fn event_word(event: &linked::Event) -> u64 {
    let header = Header {
        ver: event.ver,
        adr: event.adr,
        cid1: event.cid1,
        cid2: event.cid2,
    };
    u64::from(event.number) << 56 | u64::from(event.place) << 24 | word(header, event.lenid)
}

/// The number above the place.
fn refusal_word(refusal: Refusal) -> u64 {
    u64::from(refusal.number()) << 32 | refusal.place().unwrap_or(0) as u64
}

fn reference_word(event: Event) -> u64 {
    match event {
        Event::Nothing => 0,
        Event::Frame(frame) => word(frame.header, frame.lenid),
        Event::Refused(refusal) => refusal_word(refusal) << 24,
    }
}

// ---- the passes

fn judge_by<F: Frames>(stretches: &[Vec<u8>]) -> u64 {
    stretches.iter().fold(0, |sum, stretch| {
        mixed(sum, event_word(&F::judge(black_box(stretch))))
    })
}

fn judge_by_reference(stretches: &[Vec<u8>]) -> u64 {
    stretches.iter().fold(0, |sum, stretch| {
        let event = match reference::judge(black_box(stretch)) {
            Ok(frame) => Event::Frame(frame),
            Err(refusal) => Event::Refused(refusal),
        };
        mixed(sum, reference_word(event))
    })
}

fn step_by<F: Frames>(capture: &[u8], store: &mut [u8]) -> u64 {
    let mut receiver = linked::Receiver { open: 0, count: 0 };
    let mut sum = 0;
    for &byte in capture {
        let stepped = F::step(receiver, store, byte);
        receiver = stepped.next;
        if stepped.event.kind != 0 {
            sum = mixed(sum, event_word(&stepped.event));
        }
    }
    sum
}

fn step_by_reference(capture: &[u8], store: &mut [u8]) -> u64 {
    let mut receiver = Receiver::Waiting;
    let mut sum = 0;
    for &byte in capture {
        let (next, event) = reference::step(receiver, store, byte);
        receiver = next;
        if event != Event::Nothing {
            sum = mixed(sum, reference_word(event));
        }
    }
    sum
}

fn run_by<F: Frames>(capture: &[u8], store: &mut [u8]) -> u64 {
    let mut receiver = linked::Receiver { open: 0, count: 0 };
    let mut sum = 0;
    for mut piece in capture.chunks(PIECE) {
        while !piece.is_empty() {
            let ran = F::run(receiver, store, piece);
            receiver = ran.next;
            piece = &piece[ran.taken..];
            if ran.event.kind != 0 {
                sum = mixed(sum, event_word(&ran.event));
            }
        }
    }
    sum
}

fn run_by_reference(capture: &[u8], store: &mut [u8]) -> u64 {
    let mut receiver = Receiver::Waiting;
    let mut sum = 0;
    for mut piece in capture.chunks(PIECE) {
        while !piece.is_empty() {
            let ran = reference::run(receiver, store, piece);
            receiver = ran.next;
            piece = &piece[ran.taken..];
            if ran.event != Event::Nothing {
                sum = mixed(sum, reference_word(ran.event));
            }
        }
    }
    sum
}

/// Its length and the eight characters before its CR, CHKSUM among them, stand for a frame.
fn text_word(length: usize, out: &[u8]) -> u64 {
    let check = &out[length - 9..length - 1];
    check
        .iter()
        .fold(length as u64, |sum, &c| mixed(sum, u64::from(c)))
}

fn write_by_us(infos: &[Vec<u8>], out: &mut [u8]) -> u64 {
    infos.iter().fold(0, |sum, info| {
        let Header {
            ver,
            adr,
            cid1,
            cid2,
        } = black_box(HEADER);
        let written = linked::write_frame(ver, adr, cid1, cid2, info, out);
        mixed(sum, text_word(written.length, out))
    })
}

fn write_by_reference(infos: &[Vec<u8>], out: &mut [u8]) -> u64 {
    infos.iter().fold(0, |sum, info| {
        let length = reference::write_frame(black_box(HEADER), info, out).unwrap_or(0);
        mixed(sum, text_word(length, out))
    })
}

const HEADER: Header = Header {
    ver: 0x20,
    adr: 0x02,
    cid1: 0x46,
    cid2: 0x00,
};

// ---- the cases

/// The bytes between SOI and CR.
fn stretch(frame: &[u8]) -> Vec<u8> {
    frame[1..frame.len() - 1].to_vec()
}

/// Twelve members that are on.
fn twelve(seeded: &mut Seeded) -> Vec<Module> {
    (0x02..=0x0D)
        .map(|adr| Module {
            on: 1,
            alarm: Alarm {
                cell_count: 15,
                temperature_count: 5,
                ..Alarm::default()
            },
            ..module(seeded, adr)
        })
        .collect()
}

fn judge_case(stretches: Vec<Vec<u8>>, what: &str) -> Case<'static> {
    let (amount, length) = (stretches.len(), stretches[0].len());
    let (second, third) = (stretches.clone(), stretches.clone());
    Case {
        name: format!("judge, {what} ({length} characters)"),
        amount,
        stream: false,
        ways: vec![
            Box::new(move || judge_by::<Ours>(&stretches)),
            Box::new(move || judge_by_reference(&second)),
            Box::new(move || judge_by::<Plain>(&third)),
        ],
    }
}

fn write_case(infos: Vec<Vec<u8>>) -> Case<'static> {
    let (amount, length) = (infos.len(), infos[0].len());
    let second = infos.clone();
    let (mut out, mut other) = (vec![0; 4_112], vec![0; 4_112]);
    Case {
        name: format!("write a frame, INFO of {length} bytes"),
        amount,
        stream: false,
        ways: vec![
            Box::new(move || write_by_us(&infos, &mut out)),
            Box::new(move || write_by_reference(&second, &mut other)),
        ],
    }
}

/// A pass over a capture with a store.
type Receive = fn(&[u8], &mut [u8]) -> u64;

fn receiver_case<'a>(name: &str, capture: &'a [u8], ways: [Receive; 3]) -> Case<'a> {
    Case {
        name: name.to_string(),
        amount: capture.len(),
        stream: true,
        ways: ways
            .into_iter()
            .map(|way| {
                let mut store = vec![0; 4_110];
                Box::new(move || way(capture, &mut store)) as Work<'a>
            })
            .collect(),
    }
}

fn answer_case(table: &[Module], station: Station, question: &[u8]) -> Case<'static> {
    let (mut ours, mut theirs) = (linked_table(table), table.to_vec());
    let Station { ver, maker } = station;
    let our_station = linked::Station { ver, maker };
    let (asked, heard) = (stretch(question), stretch(question));
    let (mut out, mut other) = (vec![0; 4_112], vec![0; 4_112]);
    Case {
        name: "answer 42H with FFH, 12 modules".to_string(),
        amount: 1,
        stream: false,
        ways: vec![
            Box::new(move || {
                let answered = linked::answer(&mut ours, our_station, black_box(&asked), &mut out);
                text_word(answered.length, &out)
            }),
            Box::new(move || {
                match reference::answer(&mut theirs, &station, black_box(&heard), &mut other) {
                    Answer::Reply(length) => text_word(length, &other),
                    _ => 0,
                }
            }),
        ],
    }
}

/// What was read into the last record of a table, as one number: its remaining capacity and its voltage.
fn table_word<M>(table: &[M], read: impl Fn(&M) -> (u32, u16)) -> u64 {
    table.last().map_or(0, |module| {
        let (remaining, voltage) = read(module);
        u64::from(remaining) << 16 | u64::from(voltage)
    })
}

fn read_case(table: &[Module], answer: &[u8]) -> Case<'static> {
    let (mut ours, mut theirs) = (linked_table(table), table.to_vec());
    let (first, second) = (stretch(answer), stretch(answer));
    Case {
        name: "read that answer into a table".to_string(),
        amount: 1,
        stream: false,
        ways: vec![
            Box::new(move || {
                let reply = linked::read_reply(&mut ours, OUR_GROUP, black_box(&first));
                let word = table_word(&ours, |m| (m.analog.remaining, m.analog.voltage));
                mixed(u64::from(reply.number) << 32 | u64::from(reply.place), word)
            }),
            Box::new(move || {
                let read = reference::read_reply(&mut theirs, GROUP, black_box(&second));
                let word = table_word(&theirs, |m| (m.analog.remaining, m.analog.voltage));
                mixed(read.err().map_or(0, refusal_word), word)
            }),
        ],
    }
}

/// A question of one Command byte, from SOI to CR.
fn asking(question: Question, station: Station) -> Vec<u8> {
    let header = Header {
        ver: station.ver,
        adr: question.adr,
        cid1: 0x46,
        cid2: question.cid2,
    };
    let mut out = vec![0; 20];
    let length = reference::write_frame(header, &[question.command], &mut out).unwrap_or(0);
    out.truncate(length);
    out
}

fn cases<'a>(seeded: &mut Seeded, capture: &'a [u8]) -> Vec<Case<'a>> {
    let replies: Vec<Vec<u8>> = (0..64).map(|_| stretch(&reply(seeded))).collect();
    let long: Vec<Vec<u8>> = (0..8)
        .map(|_| stretch(&framed(0x02, &seeded.bytes(2_047))))
        .collect();
    let table = twelve(seeded);
    let others = twelve(seeded);
    let station = Station {
        ver: 0x20,
        ..Station::default()
    };
    let question = asking(GROUP, station);
    let mut out = vec![0; 4_112];
    let length =
        match reference::answer(&mut table.clone(), &station, &stretch(&question), &mut out) {
            Answer::Reply(length) => length,
            _ => 0,
        };
    vec![
        judge_case(replies, "a 42H reply"),
        judge_case(long, "the longest"),
        write_case((0..64).map(|_| seeded.bytes(55)).collect()),
        write_case((0..8).map(|_| seeded.bytes(2_047)).collect()),
        receiver_case(
            "receive 42H replies by step",
            capture,
            [step_by::<Ours>, step_by_reference, step_by::<Plain>],
        ),
        receiver_case(
            "receive 42H replies by run",
            capture,
            [run_by::<Ours>, run_by_reference, run_by::<Plain>],
        ),
        answer_case(&table, station, &question),
        read_case(&others, &out[..length]),
    ]
}

// ---- measuring

#[repr(C)]
struct Time {
    seconds: i64,
    nanoseconds: i64,
}

extern "C" {
    fn clock_gettime(clock: i32, time: *mut Time) -> i32;
}

/// The CPU time of this thread in nanoseconds: what other programs take does not count.
fn cpu() -> u64 {
    const THREAD: i32 = 3;
    let mut time = Time {
        seconds: 0,
        nanoseconds: 0,
    };
    // SAFETY: the pointer is to a live value of the C type of 64-bit Linux.
    unsafe { clock_gettime(THREAD, &mut time) };
    time.seconds as u64 * 1_000_000_000 + time.nanoseconds as u64
}

fn passes(work: &mut Work, count: u64) -> u64 {
    let start = cpu();
    for _ in 0..count {
        black_box(work());
    }
    cpu() - start
}

/// The least nanoseconds of a pass, for each way.
fn measure(case: &mut Case, rounds: usize) -> Vec<f64> {
    let counts: Vec<u64> = case
        .ways
        .iter_mut()
        .map(|way| (ROUND_NANOSECONDS / passes(way, 3).div_ceil(3).max(1)).max(1))
        .collect();
    let mut best = vec![f64::INFINITY; case.ways.len()];
    for _ in 0..rounds {
        for (place, way) in case.ways.iter_mut().enumerate() {
            let nanoseconds = passes(way, counts[place]) as f64 / counts[place] as f64;
            best[place] = best[place].min(nanoseconds);
        }
    }
    best
}

fn row(case: &Case, best: &[f64]) -> Vec<String> {
    let mut cells = vec![case.name.clone()];
    for place in 0..3 {
        cells.push(match best.get(place) {
            None => String::new(),
            Some(&nanoseconds) => {
                let ratio = nanoseconds / best[0];
                if case.stream {
                    format!(
                        "{:.0} MB/s, {ratio:.2}",
                        case.amount as f64 * 1e3 / nanoseconds
                    )
                } else {
                    format!("{:.0} ns, {ratio:.2}", nanoseconds / case.amount as f64)
                }
            }
        });
    }
    cells
}

fn options() -> Option<(usize, u64)> {
    let (mut rounds, mut seed) = (300, 1);
    let mut arguments = std::env::args().skip(1);
    while let Some(name) = arguments.next() {
        let value = arguments.next()?.parse::<u64>().ok()?;
        match name.as_str() {
            "--rounds" => rounds = value.max(1) as usize,
            "--seed" => seed = value,
            _ => return None,
        }
    }
    Some((rounds, seed))
}

fn main() -> ExitCode {
    let Some((rounds, seed)) = options() else {
        eprintln!("{USAGE}");
        return ExitCode::FAILURE;
    };
    let mut seeded = Seeded::new(seed);
    let mut capture = Vec::new();
    while capture.len() < 4 * PIECE {
        capture.extend(reply(&mut seeded));
    }
    let mut rows = vec![["call", "ours", "Rust reference", "plain C"]
        .map(String::from)
        .to_vec()];
    for mut case in cases(&mut seeded, &capture) {
        let found: Vec<u64> = case.ways.iter_mut().map(|way| way()).collect();
        if found.iter().any(|&word| word != found[0]) {
            eprintln!("{}: the ways differ: {found:X?}", case.name);
            return ExitCode::FAILURE;
        }
        let best = measure(&mut case, rounds);
        rows.push(row(&case, &best));
    }
    table::print(&rows);
    println!();
    println!("Least CPU time of {rounds} rounds in turns, and its multiple of ours; seed {seed}; MB are 1,000,000 bytes.");
    ExitCode::SUCCESS
}
