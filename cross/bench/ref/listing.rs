//! The listing in straightforward Rust: one byte after the other through the receiver, buffered input and output.
use std::io::{self, BufWriter, Read, Write};

const SOI: u8 = 0x7E;
const CR: u8 = 0x0D;
const MOST_CHARACTERS: usize = 4_110;

struct Header {
    ver: u8,
    adr: u8,
    cid1: u8,
    cid2: u8,
}

enum Event {
    Nothing,
    Frame(Header, usize),
    Refused(u8),
    BadCharacter { number: u8, place: usize },
}

enum State {
    Waiting,
    Open,
}

struct Receiver {
    state: State,
    characters: Vec<u8>,
}

fn digit(c: u8) -> Option<u8> {
    match c {
        b'0'..=b'9' => Some(c - b'0'),
        b'A'..=b'F' => Some(c - b'A' + 10),
        _ => None,
    }
}

fn byte(s: &[u8]) -> u8 {
    digit(s[0]).unwrap() * 16 + digit(s[1]).unwrap()
}

fn word(s: &[u8]) -> u16 {
    u16::from(byte(&s[..2])) * 256 + u16::from(byte(&s[2..]))
}

fn judge(s: &[u8]) -> Event {
    if s.len() < 16 {
        return Event::Refused(3);
    }
    if let Some(place) = s.iter().position(|&c| digit(c).is_none()) {
        let number = match s[place] {
            b'a'..=b'f' => 4,
            _ => 9,
        };
        return Event::BadCharacter { number, place };
    }
    let length = word(&s[8..12]);
    let lenid = length & 0xFFF;
    let digits = (lenid >> 8) + (lenid >> 4 & 15) + (lenid & 15);
    if length >> 12 != (16 - digits % 16) % 16 {
        return Event::Refused(5);
    }
    if lenid % 2 == 1 {
        return Event::Refused(6);
    }
    if s.len() != 16 + usize::from(lenid) {
        return Event::Refused(7);
    }
    let (summed, check) = s.split_at(s.len() - 4);
    let sum = summed
        .iter()
        .fold(0_u16, |sum, &c| sum.wrapping_add(u16::from(c)));
    if word(check) != 0_u16.wrapping_sub(sum) {
        return Event::Refused(8);
    }
    let header = Header {
        ver: byte(&s[0..2]),
        adr: byte(&s[2..4]),
        cid1: byte(&s[4..6]),
        cid2: byte(&s[6..8]),
    };
    Event::Frame(header, usize::from(lenid))
}

impl Receiver {
    fn step(&mut self, byte: u8) -> Event {
        match (&self.state, byte) {
            (State::Waiting, SOI) => {
                self.state = State::Open;
                self.characters.clear();
                Event::Nothing
            }
            (State::Waiting, _) => Event::Nothing,
            (State::Open, SOI) => {
                self.characters.clear();
                Event::Refused(2)
            }
            (State::Open, CR) => {
                self.state = State::Waiting;
                judge(&self.characters)
            }
            (State::Open, _) if self.characters.len() == MOST_CHARACTERS => {
                self.state = State::Waiting;
                Event::Refused(1)
            }
            (State::Open, _) => {
                self.characters.push(byte);
                Event::Nothing
            }
        }
    }
}

fn main() -> io::Result<()> {
    let mut input = io::stdin().lock().take(1_073_741_824);
    let mut out = BufWriter::with_capacity(65_536, io::stdout().lock());
    let mut receiver = Receiver {
        state: State::Waiting,
        characters: Vec::with_capacity(MOST_CHARACTERS),
    };
    let (mut frames, mut refusals, mut offset, mut at) = (0_u64, 0_u64, 0_u64, 0_u64);
    let mut piece = vec![0; 65_536];
    loop {
        let got = input.read(&mut piece)?;
        if got == 0 {
            break;
        }
        for &byte in &piece[..got] {
            match receiver.step(byte) {
                Event::Nothing => {}
                Event::Frame(header, lenid) => {
                    write!(
                        out,
                        "at={at}\nver={:02X}\nadr={:02X}\ncid1={:02X}\ncid2={:02X}\ninfo=",
                        header.ver, header.adr, header.cid1, header.cid2
                    )?;
                    out.write_all(&receiver.characters[12..12 + lenid])?;
                    out.write_all(b"\n")?;
                    frames += 1;
                }
                Event::Refused(number) => {
                    write!(out, "at={at}\nrefused={number}\n")?;
                    refusals += 1;
                }
                Event::BadCharacter { number, place } => {
                    write!(out, "at={at}\nrefused={number}\nplace={place}\n")?;
                    refusals += 1;
                }
            }
            if byte == SOI {
                at = offset;
            }
            offset += 1;
        }
    }
    write!(out, "frames={frames}\nrefusals={refusals}\n")?;
    out.flush()
}
