//! The listing: a frame gives six lines, a refusal two, and with a place three (PROTOCOL 11).

use crate::frame::{MOST_CHARACTERS, SOI};
use crate::receiver::{step, Event, Receiver};

/// How many bytes are listed, and no more.
pub const MOST_BYTES: u64 = 1_073_741_824;

/// A listing under way: the receiver, its store, the place in the stream and the totals.
#[derive(Clone, Debug)]
pub struct Lister {
    receiver: Receiver,
    store: Vec<u8>,
    /// The offset of the next byte.
    offset: u64,
    /// The offset of the SOI that opened the stretch.
    opened: u64,
    frames: u64,
    refusals: u64,
}

impl Default for Lister {
    fn default() -> Self {
        Lister::starting_at(0)
    }
}

impl Lister {
    /// A fresh listing whose first byte has this offset in the stream; 0 for a whole stream.
    pub fn starting_at(offset: u64) -> Self {
        Lister {
            receiver: Receiver::Waiting,
            store: vec![0; MOST_CHARACTERS],
            offset,
            opened: 0,
            frames: 0,
            refusals: 0,
        }
    }

    /// A listing that goes on from a receiver and its store, the next byte's offset and the totals.
    /// The store has at least 4,110 bytes and the count is at most 4,110.
    pub fn going_on(
        receiver: Receiver,
        store: &[u8],
        offset: u64,
        frames: u64,
        refusals: u64,
    ) -> Self {
        let opened = match receiver {
            // SOI stands in front of the characters.
            Receiver::Open(count) => offset.saturating_sub(count as u64).saturating_sub(1),
            Receiver::Waiting => 0,
        };
        Lister {
            receiver,
            store: store.to_vec(),
            offset,
            opened,
            frames,
            refusals,
        }
    }

    /// The receiver and its store, the next byte's offset and the totals.
    pub fn state(&self) -> (Receiver, &[u8], u64, u64, u64) {
        (
            self.receiver,
            &self.store,
            self.offset,
            self.frames,
            self.refusals,
        )
    }

    /// The lines of the next piece of the stream.
    pub fn piece(&mut self, piece: &[u8]) -> Vec<u8> {
        let mut text = Vec::new();
        for &byte in piece {
            if self.offset >= MOST_BYTES {
                break;
            }
            let (next, event) = step(self.receiver, &mut self.store, byte);
            self.receiver = next;
            match event {
                Event::Nothing => {}
                Event::Frame(frame) => {
                    self.frames += 1;
                    let header = frame.header;
                    text.extend(format!("at={}\n", self.opened).bytes());
                    text.extend(format!("ver={:02X}\n", header.ver).bytes());
                    text.extend(format!("adr={:02X}\n", header.adr).bytes());
                    text.extend(format!("cid1={:02X}\n", header.cid1).bytes());
                    text.extend(format!("cid2={:02X}\n", header.cid2).bytes());
                    text.extend(b"info=");
                    text.extend(&self.store[12..12 + frame.lenid]);
                    text.push(b'\n');
                }
                Event::Refused(refusal) => {
                    self.refusals += 1;
                    text.extend(format!("at={}\n", self.opened).bytes());
                    text.extend(format!("refused={}\n", refusal.number()).bytes());
                    if let Some(place) = refusal.place() {
                        text.extend(format!("place={place}\n").bytes());
                    }
                }
            }
            // `at` is the offset of the SOI that opened the stretch: this byte, from the next event
            // on (PROTOCOL 11.3).
            if byte == SOI {
                self.opened = self.offset;
            }
            self.offset += 1;
        }
        text
    }

    /// The two totals that close it; an open frame at the end gives nothing (PROTOCOL 11.5, 11.6).
    pub fn totals(&self) -> Vec<u8> {
        format!("frames={}\nrefusals={}\n", self.frames, self.refusals).into_bytes()
    }
}

/// The listing of a whole stream.
pub fn listing(stream: &[u8]) -> Vec<u8> {
    let mut lister = Lister::default();
    let mut text = lister.piece(stream);
    text.extend(lister.totals());
    text
}
