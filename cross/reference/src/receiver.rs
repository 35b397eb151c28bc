//! The receiver, which writes the characters to a lent store of at least 4,110 bytes (PROTOCOL 3).

use crate::frame::{judge, Frame, CR, MOST_CHARACTERS, SOI};
use crate::{Number, Refusal};

/// Waiting, or open with a count of characters (PROTOCOL 3.1).
#[derive(Clone, Copy, Debug, Default, PartialEq, Eq)]
pub enum Receiver {
    /// No stretch is open.
    #[default]
    Waiting,
    /// A stretch is open and holds this many characters.
    Open(usize),
}

/// Each byte gives one event (PROTOCOL 3.2).
#[derive(Clone, Copy, Debug, PartialEq, Eq)]
pub enum Event {
    /// Nothing.
    Nothing,
    /// A frame.
    Frame(Frame),
    /// A refusal: 1 to 9, and 32 or 35 for the call itself.
    Refused(Refusal),
}

/// What a run over a piece of the stream gives.
#[derive(Clone, Copy, Debug, PartialEq, Eq)]
pub struct Ran {
    /// The receiver after it.
    pub next: Receiver,
    /// The first event that isn't nothing, or nothing.
    pub event: Event,
    /// How many bytes it took, 0 with 32 and 35.
    pub taken: usize,
    /// How many characters the stretch held when the event's byte came; 0 with nothing, 32 and 35.
    pub held: usize,
}

/// Call refusals come first: 32 for a store below 4,110 bytes, 35 for a count above 4,110
/// (PROTOCOL 3.8).
fn call_refusal(receiver: Receiver, store: &[u8]) -> Option<Number> {
    if store.len() < MOST_CHARACTERS {
        return Some(32);
    }
    match receiver {
        Receiver::Open(count) if count > MOST_CHARACTERS => Some(35),
        _ => None,
    }
}

/// Takes one byte (PROTOCOL 3.3). After 32 and 35 the receiver comes back as it went in.
pub fn step(receiver: Receiver, store: &mut [u8], byte: u8) -> (Receiver, Event) {
    if let Some(number) = call_refusal(receiver, store) {
        return (receiver, Event::Refused(Refusal::Plain(number)));
    }
    match (receiver, byte) {
        // Waiting: SOI opens with count 0, any other byte gives nothing.
        (Receiver::Waiting, SOI) => (Receiver::Open(0), Event::Nothing),
        (Receiver::Waiting, _) => (Receiver::Waiting, Event::Nothing),
        // Open, SOI: 2, and open again with count 0.
        (Receiver::Open(_), SOI) => (Receiver::Open(0), Event::Refused(Refusal::Plain(2))),
        // Open, CR: the characters are judged, then waiting.
        (Receiver::Open(count), CR) => match judge(&store[..count]) {
            Ok(frame) => (Receiver::Waiting, Event::Frame(frame)),
            Err(refusal) => (Receiver::Waiting, Event::Refused(refusal)),
        },
        // Open, any other byte, with count 4,110: 1, nothing is stored, then waiting.
        (Receiver::Open(MOST_CHARACTERS), _) => {
            (Receiver::Waiting, Event::Refused(Refusal::Plain(1)))
        }
        // Open, any other byte: stored at place count, and count is one more.
        (Receiver::Open(count), _) => {
            store[count] = byte;
            (Receiver::Open(count + 1), Event::Nothing)
        }
    }
}

/// A run over a piece of the stream: it stops after each event that isn't nothing, and says how many
/// bytes it took (PROTOCOL 3.9).
pub fn run(receiver: Receiver, store: &mut [u8], piece: &[u8]) -> Ran {
    if let Some(number) = call_refusal(receiver, store) {
        return Ran {
            next: receiver,
            event: Event::Refused(Refusal::Plain(number)),
            taken: 0,
            held: 0,
        };
    }
    let mut current = receiver;
    for (place, &byte) in piece.iter().enumerate() {
        let (next, event) = step(current, store, byte);
        if event != Event::Nothing {
            let held = match current {
                Receiver::Open(count) => count,
                Receiver::Waiting => 0,
            };
            return Ran {
                next,
                event,
                taken: place + 1,
                held,
            };
        }
        current = next;
    }
    Ran {
        next: current,
        event: Event::Nothing,
        taken: piece.len(),
        held: 0,
    }
}
