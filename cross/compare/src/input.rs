//! Calls from any bytes and back: what a fuzzer changes, and what a difference is saved as. Every
//! row of bytes stands for calls, past its end there are zeros, and small changes of it are small
//! changes of the calls.

use crate::bytes::Bytes;
use crate::case::{Case, Group, Kind};
use crate::made;
use crate::records::{linked_of, packed, plain, references_of, unpacked, PACKED};
use linked::{Listing, Module, Question, Receiver, Station};
use reference::frame::{CR, SOI};
use reference::seeded::Seeded;

/// How a stream is fed.
#[derive(Clone, Copy, Debug, PartialEq, Eq)]
pub enum By {
    /// Byte by byte.
    Step,
    /// Piece by piece.
    Run,
    /// Piece by piece, to be listed.
    List,
}

/// What some bytes stand for.
#[derive(Clone, Debug, PartialEq, Eq)]
pub enum Input {
    /// One call.
    Call(Case),
    /// The calls that a stream needs, cut into pieces of these lengths, the rest into one.
    #[allow(missing_docs)]
    Stream {
        stream: Vec<u8>,
        cuts: Vec<usize>,
        by: By,
    },
}

/// Longer than anything that a function looks at.
const LONGEST: usize = 8_192;
/// Counts of records from this one on are rare.
const MANY: u8 = 15;
/// What stands for that count; each byte above it for one more.
const RARE: u8 = 200;
/// The functions, and the stream.
const FORMS: u8 = 25;
/// The form of one function more: a byte that no kept input begins with, so that each of them stands
/// for the same call as before.
const PARAMETERS: u8 = 0xFF;

const KINDS: [Kind; 5] = [
    Kind::Analog,
    Kind::Alarm,
    Kind::Limits,
    Kind::Serial,
    Kind::Version,
];
const GROUPS: [Group; 2] = [Group::Analog, Group::Alarm];

/// The calls that the bytes stand for.
pub fn decoded(data: &[u8]) -> Input {
    let bytes = &mut Bytes::new(data);
    let form = match bytes.byte() {
        PARAMETERS => PARAMETERS,
        byte => byte % FORMS,
    };
    Input::Call(match form {
        0 => Case::Judge {
            stretch: stretch(bytes),
        },
        1 => Case::Step {
            receiver: receiver(bytes),
            store: filled(bytes),
            byte: bytes.byte(),
        },
        2 => Case::Run {
            receiver: receiver(bytes),
            store: filled(bytes),
            piece: filled(bytes),
        },
        3 => Case::WriteFrame {
            header: bytes.row(),
            out: filled(bytes),
            info: filled(bytes),
        },
        4..=8 => record_case(bytes, KINDS[usize::from(form) - 4]),
        PARAMETERS => record_case(bytes, Kind::Parameters),
        9..=10 => Case::WriteGroup {
            group: GROUPS[usize::from(form) - 9],
            flag: bytes.byte(),
            table: table(bytes),
            out: filled(bytes),
        },
        11 => Case::Table {
            table: table(bytes),
        },
        12 => Case::Record {
            at: bytes.size(),
            other: record(bytes, 0x02),
            table: table(bytes),
        },
        13 => Case::Replace {
            at: bytes.size(),
            module: record(bytes, 0x02),
            table: table(bytes),
        },
        14 => Case::SwitchOff {
            at: bytes.size(),
            table: table(bytes),
        },
        15 => Case::Answer {
            station: station(bytes),
            stretch: stretch(bytes),
            out: filled(bytes),
            table: table(bytes),
        },
        16 => reply_case(bytes),
        17 => Case::TenthsCelsius {
            raw: bytes.word() as i16,
        },
        18 => Case::Milliamps {
            current: bytes.word() as i16,
        },
        19 => return stream(bytes),
        20 => Case::ReceiverNew,
        21 => Case::ListingNew,
        22 => Case::List {
            listing: listing(bytes),
            store: filled(bytes),
            piece: filled(bytes),
            out: filled(bytes),
        },
        23 => Case::ListClose {
            listing: listing(bytes),
            out: filled(bytes),
        },
        _ => Case::ModuleNew { adr: bytes.byte() },
    })
}

fn receiver(bytes: &mut Bytes) -> Receiver {
    Receiver {
        open: open(bytes.byte()),
        count: bytes.size(),
    }
}

/// The number that a byte stands for: its own, but with 80H one whose low byte is 0.
fn open(byte: u8) -> usize {
    match byte {
        0x80 => 0x100,
        byte => usize::from(byte),
    }
}

fn listing(bytes: &mut Bytes) -> Listing {
    Listing {
        receiver: receiver(bytes),
        offset: bytes.long(),
        frames: bytes.long(),
        refusals: bytes.long(),
    }
}

fn station(bytes: &mut Bytes) -> Station {
    let ver = bytes.byte();
    let mut maker = [0; 32];
    let given = usize::from(bytes.byte() % 33);
    maker[..given].fill_with(|| bytes.byte());
    Station { ver, maker }
}

/// A length, the byte that fills it, and what stands at the front.
fn filled(bytes: &mut Bytes) -> Vec<u8> {
    let length = usize::from(bytes.word()) % LONGEST;
    let fill = bytes.byte();
    let front = usize::from(bytes.word());
    let mut all = bytes.some(front);
    all.resize(length, fill);
    all
}

/// Any bytes, a frame, or a damaged frame.
fn stretch(bytes: &mut Bytes) -> Vec<u8> {
    match bytes.byte() % 3 {
        0 => filled(bytes),
        1 => frame(bytes),
        _ => {
            let right = frame(bytes);
            damaged(bytes, right)
        }
    }
}

fn frame(bytes: &mut Bytes) -> Vec<u8> {
    let header = bytes.row();
    let length = usize::from(bytes.word()) % 2_048;
    made::stretch(header, &bytes.some(length))
}

/// Up to seven characters changed; then CHKSUM is made right, or LENGTH and CHKSUM, or neither.
fn damaged(bytes: &mut Bytes, mut stretch: Vec<u8>) -> Vec<u8> {
    let how = bytes.byte();
    for _ in 0..how % 8 {
        let place = usize::from(bytes.word());
        let character = bytes.byte();
        if let Some(there) = stretch.get_mut(place) {
            *there = character;
        }
    }
    match how / 8 % 3 {
        0 => stretch,
        1 => made::sealed(&stretch),
        _ => made::sealed_with_length(&stretch),
    }
}

/// A record: a plain one or one made from a seed, with places of its row changed.
fn record(bytes: &mut Bytes, adr: u8) -> Module {
    let module = match bytes.byte() {
        0 => plain(adr),
        seed => linked_of(&Seeded::new(u64::from(seed)).module(adr)),
    };
    let mut row = packed(&module);
    for _ in 0..bytes.byte() % (PACKED as u8 + 1) {
        let place = usize::from(bytes.byte()) % PACKED;
        row[place] = bytes.byte();
    }
    unpacked(&row)
}

fn table(bytes: &mut Bytes) -> Vec<Module> {
    let count = match bytes.byte() {
        byte if byte < RARE => byte % MANY,
        byte => byte - RARE + MANY,
    };
    (0..count).map(|place| record(bytes, 2 + place)).collect()
}

fn record_case(bytes: &mut Bytes, kind: Kind) -> Case {
    Case::WriteRecord {
        kind,
        flag: bytes.byte(),
        module: record(bytes, 0x02),
        out: filled(bytes),
    }
}

/// A question with a stretch of any kind, or with the reply that the stand-in gives from the table,
/// right or damaged.
fn reply_case(bytes: &mut Bytes) -> Case {
    let question = Question {
        adr: bytes.byte(),
        cid2: bytes.byte(),
        command: bytes.byte(),
    };
    let given = match bytes.byte() {
        0 => Some(stretch(bytes)),
        _ => None,
    };
    let table = table(bytes);
    let stretch = match given {
        Some(stretch) => stretch,
        None => {
            let reply = made::reply(&references_of(&table), question);
            damaged(bytes, reply)
        }
    };
    Case::ReadReply {
        table,
        question,
        stretch,
    }
}

/// Parts of a stream up to the end of the bytes.
fn stream(bytes: &mut Bytes) -> Input {
    let by = match bytes.byte() % 3 {
        0 => By::Run,
        1 => By::Step,
        _ => By::List,
    };
    let count = bytes.byte() % 16;
    let cuts = (0..count).map(|_| usize::from(bytes.word())).collect();
    let mut stream = Vec::new();
    while !bytes.at_end() && stream.len() < 2 * LONGEST {
        if bytes.byte().is_multiple_of(2) {
            stream.extend(filled(bytes));
        } else {
            stream.push(SOI);
            stream.extend(self::stretch(bytes));
            stream.push(CR);
        }
    }
    Input::Stream { stream, cuts, by }
}

/// The bytes that stand for a call.
pub fn encoded(case: &Case) -> Vec<u8> {
    let mut data = Vec::new();
    match case {
        Case::Judge { stretch } => {
            data.push(0);
            put_stretch(&mut data, stretch);
        }
        Case::Step {
            receiver,
            store,
            byte,
        } => {
            data.push(1);
            put_receiver(&mut data, receiver);
            put_filled(&mut data, store);
            data.push(*byte);
        }
        Case::Run {
            receiver,
            store,
            piece,
        } => {
            data.push(2);
            put_receiver(&mut data, receiver);
            put_filled(&mut data, store);
            put_filled(&mut data, piece);
        }
        Case::WriteFrame { header, info, out } => {
            data.push(3);
            data.extend(header);
            put_filled(&mut data, out);
            put_filled(&mut data, info);
        }
        Case::WriteRecord {
            kind,
            module,
            flag,
            out,
        } => {
            let at = KINDS.iter().position(|other| other == kind);
            data.extend([at.map_or(PARAMETERS, |at| 4 + at as u8), *flag]);
            put_record(&mut data, module, 0x02);
            put_filled(&mut data, out);
        }
        Case::WriteGroup {
            group,
            table,
            flag,
            out,
        } => {
            let at = GROUPS.iter().position(|other| other == group);
            data.extend([9 + at.unwrap_or(0) as u8, *flag]);
            put_table(&mut data, table);
            put_filled(&mut data, out);
        }
        Case::Table { table } => {
            data.push(11);
            put_table(&mut data, table);
        }
        Case::Record {
            table,
            at,
            other: module,
        } => {
            data.push(12);
            put_size(&mut data, *at);
            put_record(&mut data, module, 0x02);
            put_table(&mut data, table);
        }
        Case::Replace { table, at, module } => {
            data.push(13);
            put_size(&mut data, *at);
            put_record(&mut data, module, 0x02);
            put_table(&mut data, table);
        }
        Case::SwitchOff { table, at } => {
            data.push(14);
            put_size(&mut data, *at);
            put_table(&mut data, table);
        }
        Case::Answer {
            table,
            station,
            stretch,
            out,
        } => {
            data.extend([15, station.ver, 32]);
            data.extend(station.maker);
            put_stretch(&mut data, stretch);
            put_filled(&mut data, out);
            put_table(&mut data, table);
        }
        Case::ReadReply {
            table,
            question,
            stretch,
        } => {
            data.extend([16, question.adr, question.cid2, question.command, 0]);
            put_stretch(&mut data, stretch);
            put_table(&mut data, table);
        }
        Case::ReceiverNew => data.push(20),
        Case::ListingNew => data.push(21),
        Case::List {
            listing,
            store,
            piece,
            out,
        } => {
            data.push(22);
            put_listing(&mut data, listing);
            put_filled(&mut data, store);
            put_filled(&mut data, piece);
            put_filled(&mut data, out);
        }
        Case::ListClose { listing, out } => {
            data.push(23);
            put_listing(&mut data, listing);
            put_filled(&mut data, out);
        }
        Case::ModuleNew { adr } => data.extend([24, *adr]),
        Case::TenthsCelsius { raw } => {
            data.push(17);
            data.extend(raw.to_be_bytes());
        }
        Case::Milliamps { current } => {
            data.push(18);
            data.extend(current.to_be_bytes());
        }
    }
    data
}

fn put_size(data: &mut Vec<u8>, size: usize) {
    data.extend((size as u64).to_be_bytes());
}

/// The byte that stands for a number; 80H, which is open too, for those that have none.
fn open_byte(number: usize) -> u8 {
    let byte = (0..=u8::MAX).find(|&byte| open(byte) == number);
    byte.unwrap_or(0x80)
}

fn put_receiver(data: &mut Vec<u8>, receiver: &Receiver) {
    data.push(open_byte(receiver.open));
    put_size(data, receiver.count);
}

fn put_listing(data: &mut Vec<u8>, listing: &Listing) {
    put_receiver(data, &listing.receiver);
    for number in [listing.offset, listing.frames, listing.refusals] {
        data.extend(number.to_be_bytes());
    }
}

fn put_filled(data: &mut Vec<u8>, all: &[u8]) {
    let fill = all.last().copied().unwrap_or(0);
    let front = all.iter().rposition(|&byte| byte != fill);
    let front = front.map_or(0, |place| place + 1);
    data.extend((all.len() as u16).to_be_bytes());
    data.push(fill);
    data.extend((front as u16).to_be_bytes());
    data.extend(&all[..front]);
}

fn put_stretch(data: &mut Vec<u8>, stretch: &[u8]) {
    match made::opened(stretch) {
        Some((header, info)) => {
            data.push(1);
            data.extend(header);
            data.extend((info.len() as u16).to_be_bytes());
            data.extend(info);
        }
        None => {
            data.push(0);
            put_filled(data, stretch);
        }
    }
}

fn put_record(data: &mut Vec<u8>, module: &Module, adr: u8) {
    let base = packed(&plain(adr));
    let row = packed(module);
    let changed: Vec<usize> = (0..PACKED).filter(|&at| base[at] != row[at]).collect();
    data.extend([0, changed.len() as u8]);
    for at in changed {
        data.extend([at as u8, row[at]]);
    }
}

fn put_table(data: &mut Vec<u8>, table: &[Module]) {
    let count = table.len() as u8;
    data.push(if count < MANY {
        count
    } else {
        count - MANY + RARE
    });
    for (place, module) in table.iter().enumerate() {
        put_record(data, module, 2 + place as u8);
    }
}
