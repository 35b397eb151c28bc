//! Frames with a character lost, doubled, exchanged with its neighbour or turned into one that is not
//! hex, and frames broken off, at every place, each with a good frame directly behind it.
//!
//! The archive is driven by runs and by steps. Both must tell what the reference tells, at the same
//! bytes, and that must be what is due by PROTOCOL 2.10 and 3.3, which is said here for each damage.

use compare::paper;
use linked::{Event, STORE};
use reference::frame::{CR, MOST_CHARACTERS, SOI};
use reference::hex;
use reference::seeded::Seeded;
use std::ops::Range;

/// Each LENID, and how many frames with it are damaged: more where they are short and soon done.
const FRAMES: [(usize, usize); 4] = [(0, 100), (2, 100), (936, 2), (4_094, 2)];
/// How many parts of a stream stand in front of a damaged frame, one at a time.
const BEFORES: usize = 3;
/// VER to CID2 in a frame's bytes.
const HEADER: Range<usize> = 1..9;
/// LENGTH in a frame's bytes.
const LENGTH: Range<usize> = 9..13;

/// INFO in a frame's bytes.
fn info(frame: &[u8]) -> Range<usize> {
    LENGTH.end..frame.len() - 5
}

// ---- what is told

/// An event, the byte that gave it, and for a frame the stretch that the store holds then.
#[derive(Clone, Debug, PartialEq, Eq)]
struct Told {
    at: usize,
    event: Event,
    stretch: String,
}

impl Told {
    fn new(at: usize, event: Event, store: &[u8]) -> Self {
        let held = match event.kind {
            1 => 16 + event.lenid,
            _ => 0,
        };
        let stretch = text(&store[..held]);
        Told { at, event, stretch }
    }
}

fn text(bytes: &[u8]) -> String {
    String::from_utf8_lossy(bytes).into_owned()
}

/// What a receiver tells of a stream. A call is given the store and the rest of the stream, and gives
/// an event and how many bytes it took.
fn all_told(stream: &[u8], mut call: impl FnMut(&mut [u8], &[u8]) -> (Event, usize)) -> Vec<Told> {
    let mut store = vec![0; STORE];
    let mut told = Vec::new();
    let mut next = 0;
    while next < stream.len() {
        let (event, taken) = call(&mut store, &stream[next..]);
        assert!(taken > 0, "no byte is taken at {next}");
        next += taken;
        if event != Event::default() {
            told.push(Told::new(next - 1, event, &store));
        }
    }
    told
}

fn archive_by_runs(stream: &[u8]) -> Vec<Told> {
    let mut receiver = linked::receiver_new();
    all_told(stream, |store, rest| {
        let ran = linked::run(receiver, store, rest);
        receiver = ran.next;
        (ran.event, ran.taken)
    })
}

fn archive_by_steps(stream: &[u8]) -> Vec<Told> {
    let mut receiver = linked::receiver_new();
    all_told(stream, |store, rest| {
        let stepped = linked::step(receiver, store, rest[0]);
        receiver = stepped.next;
        (stepped.event, 1)
    })
}

fn reference_by_runs(stream: &[u8]) -> Vec<Told> {
    let mut receiver = reference::Receiver::default();
    all_told(stream, |store, rest| {
        let ran = reference::run(receiver, store, rest);
        receiver = ran.next;
        (paper::event(ran.event), ran.taken)
    })
}

// ---- what is due

/// What must be told at a byte.
#[derive(Clone, Debug)]
struct Due {
    at: usize,
    what: What,
}

#[derive(Clone, Debug)]
enum What {
    /// The frame of this stretch.
    Frame(String),
    /// A refusal with one of these numbers, and without a place.
    Refusal(&'static [u32]),
    /// A refusal with this number and the place of the bad character.
    Bad { number: u32, place: usize },
}

impl What {
    fn is_told_by(&self, told: &Told) -> bool {
        let event = told.event;
        match self {
            What::Frame(stretch) => {
                let header = hex::characters(&[event.ver, event.adr, event.cid1, event.cid2]);
                event.kind == 1
                    && event.place == 0
                    && stretch.starts_with(&text(&header))
                    && stretch.len() == 16 + event.lenid
                    && *stretch == told.stretch
            }
            What::Refusal(numbers) => {
                event.kind == 2 && numbers.contains(&event.number) && event.place == 0
            }
            What::Bad { number, place } => {
                event.kind == 2 && event.number == *number && event.place as usize == *place
            }
        }
    }
}

/// Objects to the first event that is due and not told, or told and not due.
fn judged(told: &[Told], due: &[Due]) -> Result<(), String> {
    for place in 0..told.len().max(due.len()) {
        match (due.get(place), told.get(place)) {
            (Some(due), Some(told)) if due.at == told.at && due.what.is_told_by(told) => {}
            (due, told) => return Err(format!("due: {due:?}\ntold: {told:?}")),
        }
    }
    Ok(())
}

// ---- parts of a stream

/// Bytes of a stream, and what must be told of them, at places counted from the first of them.
#[derive(Clone, Debug, Default)]
struct Part {
    bytes: Vec<u8>,
    due: Vec<Due>,
    /// Whether a stretch is still open behind them, which the next tilde refuses.
    open: bool,
}

impl Part {
    /// Nothing is told of the bytes, if no stretch is open.
    fn passed_over(bytes: &[u8]) -> Self {
        Part {
            bytes: bytes.to_vec(),
            ..Part::default()
        }
    }

    fn left_open(bytes: &[u8]) -> Self {
        Part {
            open: true,
            ..Part::passed_over(bytes)
        }
    }

    /// One event, at the last byte.
    fn closed(bytes: &[u8], what: What) -> Self {
        let at = bytes.len() - 1;
        Part {
            due: vec![Due { at, what }],
            ..Part::passed_over(bytes)
        }
    }

    fn frame(bytes: &[u8]) -> Self {
        let stretch = text(&bytes[1..bytes.len() - 1]);
        Part::closed(bytes, What::Frame(stretch))
    }

    fn refused(bytes: &[u8], numbers: &'static [u32]) -> Self {
        Part::closed(bytes, What::Refusal(numbers))
    }

    /// The bytes with the part behind them.
    fn push(&mut self, behind: &Part) {
        let from = self.bytes.len();
        if self.open {
            let tilde = behind.bytes.iter().position(|&byte| byte == SOI);
            let at = from + tilde.expect("a tilde behind an open stretch");
            let what = What::Refusal(&[2]);
            self.due.push(Due { at, what });
        }
        let later = behind.due.iter().cloned().map(|due| Due {
            at: from + due.at,
            ..due
        });
        self.due.extend(later);
        self.bytes.extend(&behind.bytes);
        self.open = behind.open;
    }
}

/// The parts one behind the other.
fn joined(parts: &[&Part]) -> Part {
    let mut whole = Part::default();
    for part in parts {
        whole.push(part);
    }
    whole
}

/// A waiting receiver, an open one, and one that has told a frame.
fn befores() -> [Part; BEFORES] {
    [
        Part::default(),
        Part::left_open(b"9\r\xFF~2103"),
        Part::frame(&Seeded::new(1).frame(3)),
    ]
}

fn good_behind() -> Part {
    Part::frame(&Seeded::new(2).frame(5))
}

/// So many good frames with so many characters of INFO.
fn frames(lenid: usize, count: usize) -> Vec<Vec<u8>> {
    let mut seeded = Seeded::new(3);
    (0..count).map(|_| seeded.frame(lenid / 2)).collect()
}

// ---- the damages

/// The damage of a frame at one of its bytes, of which the tilde has place 0.
type Damage = fn(&[u8], usize) -> Part;

/// The numbers for one character too few or too many: LENGTH is judged before the count, so it is 7
/// where LENGTH stayed.
fn wrong_count(length_stayed: bool) -> &'static [u32] {
    if length_stayed {
        &[7]
    } else {
        &[5, 6, 7]
    }
}

fn lost(frame: &[u8], place: usize) -> Part {
    let bytes = [&frame[..place], &frame[place + 1..]].concat();
    match bytes.len() {
        // 15 characters
        17 => Part::refused(&bytes, &[3]),
        _ => Part::refused(&bytes, wrong_count(place >= LENGTH.end)),
    }
}

fn doubled(frame: &[u8], place: usize) -> Part {
    let twice = [&frame[..=place], &frame[place..]].concat();
    match frame[place] {
        SOI => joined(&[&Part::left_open(&[SOI]), &Part::frame(frame)]),
        CR => joined(&[&Part::frame(frame), &Part::passed_over(&[CR])]),
        // The store is full, so the last character is refused, and its CR finds a waiting receiver.
        _ if twice.len() > MOST_CHARACTERS + 2 => {
            let (characters, cr) = twice.split_at(twice.len() - 1);
            joined(&[&Part::refused(characters, &[1]), &Part::passed_over(cr)])
        }
        _ => Part::refused(&twice, wrong_count(place + 1 >= LENGTH.end)),
    }
}

/// The numbers for two unlike neighbours of LENGTH, CHKSUM or both in the wrong order: LCHKSUM does
/// not see it where both are LENGTH's, but then LENID is another.
fn wrong_order(bytes: &[u8], place: usize) -> &'static [u32] {
    let odd = b"13579BDF".contains(&bytes[LENGTH.end - 1]);
    match [place, place + 1].map(|place| LENGTH.contains(&place)) {
        [true, true] if odd => &[6],
        [true, true] => &[7],
        [false, false] => &[8],
        _ => &[5],
    }
}

/// Exchanged with the byte behind it.
fn exchanged(frame: &[u8], place: usize) -> Part {
    let behind = place + 1;
    let both_in = |field: Range<usize>| field.contains(&place) && field.contains(&behind);
    let mut bytes = frame.to_vec();
    bytes.swap(place, behind);
    match (frame[place], frame[behind]) {
        // A character that leaves the stretch is lost to it.
        (SOI, first) => joined(&[&Part::passed_over(&[first]), &lost(frame, behind)]),
        (last, CR) => joined(&[&lost(frame, place), &Part::passed_over(&[last])]),
        (one, other) if one == other => Part::frame(&bytes),
        // CHKSUM does not see the order.
        _ if both_in(HEADER) || both_in(info(frame)) => Part::frame(&bytes),
        _ => Part::refused(&bytes, wrong_order(&bytes, place)),
    }
}

/// Broken off in front of the byte; the next frame follows.
fn cut(frame: &[u8], place: usize) -> Part {
    Part::left_open(&frame[..place])
}

/// Broken off in front of the byte, and a CR follows.
fn cut_and_closed(frame: &[u8], place: usize) -> Part {
    let bytes = [&frame[..place], &[CR]].concat();
    let characters = place - 1;
    match characters {
        0..=15 => Part::refused(&bytes, &[3]),
        _ => Part::refused(&bytes, &[7]),
    }
}

/// The frame with a bad character at one of its bytes, and behind it another of the other kind, which
/// does not count.
fn spoiled(frame: &[u8], at: usize, first: u8, behind: u8, number: u32) -> Part {
    let mut bytes = frame.to_vec();
    let last = frame.len() - 2;
    bytes[last] = behind;
    bytes[at] = first;
    // The first character behind the tilde has place 0.
    let place = at - 1;
    Part::closed(&bytes, What::Bad { number, place })
}

/// A letter in lower case, as a terminal sends it.
fn lowered(frame: &[u8], place: usize) -> Part {
    spoiled(frame, place, b"abcdef"[place % 6], b'G', 4)
}

/// A character that is no digit in either case, as noise makes it.
fn disturbed(frame: &[u8], place: usize) -> Part {
    spoiled(frame, place, b"\xFF\0/:@G`g"[place % 8], b'f', 9)
}

// ---- every place

/// A damage, and its places in a frame of so many bytes.
struct Kind {
    damage: Damage,
    places: fn(usize) -> Range<usize>,
}

/// What all sides tell of a stream must be the same, and what is due.
fn try_stream(stream: &Part) {
    let bytes = &stream.bytes;
    let told = archive_by_runs(bytes);
    assert_eq!(told, archive_by_steps(bytes), "{}", text(bytes));
    assert_eq!(told, reference_by_runs(bytes), "{}", text(bytes));
    assert_eq!(judged(&told, &stream.due), Ok(()), "{}", text(bytes));
}

/// Damages a frame at every place, and says how many streams that were.
fn try_places(kind: &Kind, frame: &[u8], before: &Part) -> usize {
    let behind = good_behind();
    let mut tried = 0;
    for place in (kind.places)(frame.len()) {
        try_stream(&joined(&[before, &(kind.damage)(frame, place), &behind]));
        tried += 1;
    }
    tried
}

fn try_befores(kind: &Kind, frame: &[u8]) -> usize {
    let befores = befores();
    let tried = befores.iter().map(|before| try_places(kind, frame, before));
    tried.sum()
}

/// For each LENID, how many streams were tried.
fn try_frames(kind: &Kind) -> [(usize, usize); 4] {
    FRAMES.map(|(lenid, count)| {
        let frames = frames(lenid, count);
        let tried = frames.iter().map(|frame| try_befores(kind, frame));
        (lenid, tried.sum())
    })
}

/// For each LENID, how many streams there are if a frame has so many places.
fn streams(places: fn(usize) -> usize) -> [(usize, usize); 4] {
    FRAMES.map(|(lenid, count)| (lenid, count * BEFORES * places(lenid)))
}

#[test]
fn a_lost_character_is_one_refusal() {
    let kind = Kind {
        damage: lost,
        places: |bytes| 1..bytes - 1,
    };
    assert_eq!(try_frames(&kind), streams(|lenid| 16 + lenid));
}

#[test]
fn a_doubled_character_is_one_refusal_and_a_doubled_end_leaves_the_frame() {
    let kind = Kind {
        damage: doubled,
        places: |bytes| 0..bytes,
    };
    assert_eq!(try_frames(&kind), streams(|lenid| 18 + lenid));
}

#[test]
fn exchanged_neighbours_are_told_in_header_and_info_alone() {
    let kind = Kind {
        damage: exchanged,
        places: |bytes| 0..bytes - 1,
    };
    assert_eq!(try_frames(&kind), streams(|lenid| 17 + lenid));
}

#[test]
fn a_bad_character_is_one_refusal_with_its_place() {
    for damage in [lowered, disturbed] {
        let kind = Kind {
            damage,
            places: |bytes| 1..bytes - 1,
        };
        assert_eq!(try_frames(&kind), streams(|lenid| 16 + lenid));
    }
}

#[test]
fn a_cut_is_refused_at_the_next_tilde() {
    let kind = Kind {
        damage: cut,
        places: |bytes| 1..bytes,
    };
    assert_eq!(try_frames(&kind), streams(|lenid| 17 + lenid));
}

#[test]
fn a_cut_is_refused_at_the_next_cr() {
    let kind = Kind {
        damage: cut_and_closed,
        places: |bytes| 1..bytes - 1,
    };
    assert_eq!(try_frames(&kind), streams(|lenid| 16 + lenid));
}

// ---- what passes: the lines of PROTOCOL 14.9 and 14.10

/// The front of one reply and the back of the next.
#[test]
fn two_frames_grown_into_one_can_be_told() {
    let first = b"~20024600402A0002020D4B0D4F010BAA00001A9AC35002FDE80007F493\r";
    let second = b"~20024600402A0002020D4A0D50010BAA00001A9AC35002FDE80007F4A9\r";
    let at = 26;
    let grown = [&first[..at], &second[at..]].concat();
    assert_eq!(
        text(&grown),
        "~20024600402A0002020D4B0D40010BAA00001A9AC35002FDE80007F4A9\r"
    );
    for whole in [&first[..], &second[..], &grown] {
        try_stream(&Part::frame(whole));
    }
}

#[test]
fn one_character_lost_and_another_doubled_can_be_told() {
    let lost = lost(b"~2002464F0000FD98\r", 1);
    let twice = doubled(&lost.bytes, 3);
    assert_eq!(text(&twice.bytes), "~0022464F0000FD98\r");
    try_stream(&Part::frame(&twice.bytes));
}

#[test]
fn two_lost_characters_can_be_told() {
    let info = format!("E{}199{}B", "0".repeat(90), "F".repeat(177));
    let whole = format!("~20024600E110{info}BB2B\r").into_bytes();
    let once = lost(&whole, whole.len() - 2);
    let twice = lost(&once.bytes, 9);
    try_stream(&Part::frame(&whole));
    try_stream(&Part::frame(&twice.bytes));
}

// ---- the tests themselves

#[test]
fn the_damages_are_what_their_names_say() {
    let damaged = |damage: Damage, place| {
        let part = damage(b"~2002464F0000FD98\r", place);
        text(&part.bytes)
    };
    assert_eq!(damaged(lost, 1), "~002464F0000FD98\r");
    assert_eq!(damaged(lost, 16), "~2002464F0000FD9\r");
    assert_eq!(damaged(doubled, 0), "~~2002464F0000FD98\r");
    assert_eq!(damaged(doubled, 8), "~2002464FF0000FD98\r");
    assert_eq!(damaged(doubled, 17), "~2002464F0000FD98\r\r");
    assert_eq!(damaged(exchanged, 0), "2~002464F0000FD98\r");
    assert_eq!(damaged(exchanged, 7), "~200246F40000FD98\r");
    assert_eq!(damaged(exchanged, 16), "~2002464F0000FD9\r8");
    assert_eq!(damaged(cut, 1), "~");
    assert_eq!(damaged(cut, 17), "~2002464F0000FD98");
    assert_eq!(damaged(cut_and_closed, 1), "~\r");
    assert_eq!(damaged(cut_and_closed, 16), "~2002464F0000FD9\r");
    assert_eq!(damaged(lowered, 1), "~b002464F0000FD9G\r");
    assert_eq!(damaged(lowered, 16), "~2002464F0000FD9e\r");
    assert_eq!(damaged(disturbed, 5), "~2002G64F0000FD9f\r");
}

/// Damage between equal characters would be no damage.
#[test]
fn long_frames_hold_every_digit() {
    let long = FRAMES.iter().filter(|(lenid, _)| *lenid >= 936);
    for frame in long.flat_map(|&(lenid, count)| frames(lenid, count)) {
        let info = &frame[info(&frame)];
        assert!(b"0123456789ABCDEF".iter().all(|digit| info.contains(digit)));
    }
}

/// Makes the right events wrong, which are a refusal and the frame behind.
type Spoil = fn(&mut Vec<Told>);

const WRONG: [(&str, Spoil); 14] = [
    ("a frame for the refusal", |told| {
        told[0] = Told {
            at: told[0].at,
            ..told[1].clone()
        }
    }),
    ("a frame inside, beside the refusal", |told| {
        let inside = Told {
            at: told[0].at - 1,
            ..told[1].clone()
        };
        told.insert(0, inside);
    }),
    ("no refusal", |told| drop(told.remove(0))),
    ("two refusals", |told| told.insert(0, told[0].clone())),
    ("8 for 7", |told| told[0].event.number = 8),
    ("a place beside 7", |told| told[0].event.place = 1),
    ("the refusal too early", |told| told[0].at -= 1),
    ("no frame behind", |told| drop(told.pop())),
    ("the frame behind too late", |told| told[1].at += 1),
    ("another module", |told| told[1].event.adr ^= 1),
    ("another LENID", |told| told[1].event.lenid -= 2),
    ("a place beside a frame", |told| told[1].event.place = 1),
    ("other characters", |told| {
        told[1].stretch.replace_range(12..13, "x")
    }),
    ("nothing", Vec::clear),
];

#[test]
fn wrong_events_are_objected_to() {
    let frame = &frames(2, 1)[0];
    let stream = joined(&[&doubled(frame, LENGTH.end), &good_behind()]);
    let right = archive_by_runs(&stream.bytes);
    assert_eq!(judged(&right, &stream.due), Ok(()));
    for (what, spoil) in WRONG {
        let mut told = right.clone();
        spoil(&mut told);
        assert!(judged(&told, &stream.due).is_err(), "{what}");
    }
}

const WRONG_PLACES: [(&str, Spoil); 5] = [
    ("9 for 4", |told| told[0].event.number = 9),
    ("8 for 4", |told| told[0].event.number = 8),
    ("the place too far", |told| told[0].event.place += 1),
    ("the place too near", |told| told[0].event.place -= 1),
    ("no place", |told| told[0].event.place = 0),
];

#[test]
fn wrong_places_are_objected_to() {
    let frame = &frames(2, 1)[0];
    let stream = joined(&[&lowered(frame, LENGTH.end), &good_behind()]);
    let right = archive_by_runs(&stream.bytes);
    assert_eq!(judged(&right, &stream.due), Ok(()));
    for (what, spoil) in WRONG_PLACES {
        let mut told = right.clone();
        spoil(&mut told);
        assert!(judged(&told, &stream.due).is_err(), "{what}");
    }
}
