//! The receiver: by step and by run, from every kind of state, over streams cut anywhere.

use crate::case::{Case, Returned};
use crate::difference::{Comparison, Done};
use crate::made;
use linked::{Receiver, STORE};
use reference::frame::{CR, SOI};
use reference::hex;
use reference::seeded::Seeded;

/// Both.
pub fn all(comparison: &mut Comparison, seeded: &mut Seeded, rounds: usize) -> Done {
    comparison.call(&Case::ReceiverNew)?;
    every_state(comparison, seeded)?;
    every_bad_character(comparison, seeded)?;
    seeded_states(comparison, seeded, rounds)?;
    seeded_streams(comparison, seeded, rounds)
}

/// Feeds a stream byte by byte.
pub fn by_step(comparison: &mut Comparison, stream: &[u8], cuts: &[usize]) -> Done {
    feed(comparison, stream, cuts, steps)
}

/// Feeds a stream piece by piece.
pub fn by_run(comparison: &mut Comparison, stream: &[u8], cuts: &[usize]) -> Done {
    feed(comparison, stream, cuts, runs)
}

/// Feeds a stream to a fresh receiver, each call from the state that the call before has left.
fn feed(
    comparison: &mut Comparison,
    stream: &[u8],
    cuts: &[usize],
    piece: fn(&mut Comparison, &mut Receiver, &mut Vec<u8>, &[u8]) -> Done,
) -> Done {
    let mut receiver = linked::receiver_new();
    let mut store = vec![0; STORE];
    let mut rest = stream;
    let mut cuts = cuts.iter();
    while !rest.is_empty() {
        let length = cuts.next().map_or(rest.len(), |&cut| cut.min(rest.len()));
        let (first, after) = rest.split_at(length);
        piece(comparison, &mut receiver, &mut store, first)?;
        rest = after;
    }
    Ok(())
}

fn steps(
    comparison: &mut Comparison,
    receiver: &mut Receiver,
    store: &mut Vec<u8>,
    piece: &[u8],
) -> Done {
    for &byte in piece {
        let outcome = comparison.call(&Case::Step {
            receiver: *receiver,
            store: core::mem::take(store),
            byte,
        })?;
        if let Returned::Stepped(stepped) = outcome.returned {
            *receiver = stepped.next;
        }
        *store = outcome.bytes;
    }
    Ok(())
}

fn runs(
    comparison: &mut Comparison,
    receiver: &mut Receiver,
    store: &mut Vec<u8>,
    piece: &[u8],
) -> Done {
    let mut rest = piece;
    while !rest.is_empty() {
        let outcome = comparison.call(&Case::Run {
            receiver: *receiver,
            store: core::mem::take(store),
            piece: rest.to_vec(),
        })?;
        let Returned::Ran(ran) = outcome.returned else {
            return Ok(());
        };
        *receiver = ran.next;
        *store = outcome.bytes;
        rest = &rest[ran.taken..];
    }
    Ok(())
}

/// A store whose front is a frame's stretch.
fn store(seeded: &mut Seeded, length: usize, info: usize) -> Vec<u8> {
    let mut store = made::buffer(seeded, length);
    let header = core::array::from_fn(|_| seeded.byte());
    let stretch = made::stretch(header, &seeded.bytes(info));
    for (place, character) in store.iter_mut().zip(stretch) {
        *place = character;
    }
    store
}

const OPEN: [usize; 4] = [0, 1, 2, 0x100];
const ROOMS: [usize; 6] = [0, 16, STORE - 1, STORE, STORE + 1, STORE + 900];

/// Every byte at counts around each bound, open or not, in stores around theirs.
fn every_state(comparison: &mut Comparison, seeded: &mut Seeded) -> Done {
    let counts = [0, 1, 15, 16, 18, STORE - 1, STORE, STORE + 1, usize::MAX];
    for room in ROOMS {
        for open in OPEN {
            for count in counts {
                let info = if count >= STORE { 2_047 } else { 1 };
                let receiver = Receiver { open, count };
                let store = store(seeded, room, info);
                for byte in 0..=u8::MAX {
                    let store = store.clone();
                    comparison.call(&Case::Step {
                        receiver,
                        store,
                        byte,
                    })?;
                }
                for piece in [&b""[..], b"\r", b"~", b"0", b"0\r", b"00~", b"0~0\r~"] {
                    comparison.call(&Case::Run {
                        receiver,
                        store: store.clone(),
                        piece: piece.to_vec(),
                    })?;
                }
            }
        }
    }
    Ok(())
}

/// A bad character at every place: of a stretch that the store holds and CR closes, and of one that a
/// run takes whole. Behind it, or behind what is judged, may stand another.
fn every_bad_character(comparison: &mut Comparison, seeded: &mut Seeded) -> Done {
    for info in [0, 1, 24, 2_047] {
        let right = store(seeded, STORE, info);
        let count = 16 + 2 * info;
        let receiver = Receiver { open: 1, count };
        for place in 0..count {
            let tried = if count == STORE { 1 } else { made::BAD.len() };
            for bad in made::BAD.into_iter().cycle().skip(7 * place).take(tried) {
                let mut store = right.clone();
                store[place + seeded.below(STORE - place)] = seeded.bad_character();
                store[place] = bad;
                comparison.call(&Case::Step {
                    receiver,
                    store: store.clone(),
                    byte: CR,
                })?;
                let piece = [&[SOI][..], &store[..count], &[CR]].concat();
                comparison.call(&Case::Run {
                    receiver,
                    store: store.clone(),
                    piece: vec![CR],
                })?;
                comparison.call(&Case::Run {
                    receiver: linked::receiver_new(),
                    store,
                    piece,
                })?;
            }
        }
    }
    Ok(())
}

/// A frame that the store holds already and CR closes, right or damaged; and pieces from any state.
fn seeded_states(comparison: &mut Comparison, seeded: &mut Seeded, rounds: usize) -> Done {
    for _ in 0..20_000 * rounds {
        let info = match seeded.below(30) {
            0 => seeded.pick(&[2_040, 2_046, 2_047]),
            _ => seeded.below(60),
        };
        let room = match seeded.below(8) {
            0 => seeded.pick(&ROOMS),
            _ => STORE,
        };
        let mut store = store(seeded, room, info);
        match seeded.below(4) {
            0 if room >= 16 => {
                let length = reference::frame::length(seeded.bits() as u16);
                store[8..12].copy_from_slice(&hex::characters(&length.to_be_bytes()));
            }
            1 if room > 0 => {
                let place = seeded.below(room.min(16 + 2 * info));
                store[place] = seeded.pick(&made::CHARACTERS);
            }
            _ => {}
        }
        let receiver = Receiver {
            open: seeded.pick(&OPEN),
            count: match seeded.below(6) {
                0 => seeded.below(STORE + 4),
                1 => seeded.bits() as usize,
                _ => 16 + 2 * info,
            },
        };
        let byte = seeded.pick(&[CR, CR, SOI, b'0', b'F', 0, 0xFF]);
        let mut piece = seeded.stream_part();
        if seeded.once_in(2) {
            piece.insert(0, byte);
        }
        comparison.call(&Case::Step {
            receiver,
            store: store.clone(),
            byte,
        })?;
        comparison.call(&Case::Run {
            receiver,
            store,
            piece,
        })?;
    }
    Ok(())
}

fn seeded_streams(comparison: &mut Comparison, seeded: &mut Seeded, rounds: usize) -> Done {
    for round in 0..100 * rounds {
        let parts = seeded.below(25);
        let whole = seeded.stream(parts);
        let longest = seeded.pick(&[1, 3, 50, 9_000]);
        let cuts: Vec<usize> = (0..whole.len())
            .map(|_| seeded.below(longest + 1))
            .collect();
        by_run(comparison, &whole, &cuts)?;
        if round % 4 == 0 {
            by_step(comparison, &whole, &cuts)?;
        }
    }
    // Few kinds of bytes, so that tildes and CRs meet in every way.
    for _ in 0..1_500 * rounds {
        let length = seeded.below(60);
        let few = [SOI, CR, b'0', b'0', b'0', b'0', b'F', b'a', b'g'];
        let whole: Vec<u8> = (0..length).map(|_| seeded.pick(&few)).collect();
        let cuts: Vec<usize> = (0..length).map(|_| seeded.below(5)).collect();
        by_run(comparison, &whole, &cuts)?;
        by_step(comparison, &whole, &cuts)?;
    }
    Ok(())
}
