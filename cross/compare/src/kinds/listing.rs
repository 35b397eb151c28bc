//! The listing: streams cut anywhere into buffers of several lengths, and calls from any state.

use crate::case::{Case, Returned};
use crate::difference::{Comparison, Done};
use crate::made;
use linked::{Listing, Receiver, CLOSING, LISTING, STORE};
use reference::frame::CR;
use reference::listing::MOST_BYTES;
use reference::seeded::Seeded;

/// All.
pub fn all(comparison: &mut Comparison, seeded: &mut Seeded, rounds: usize) -> Done {
    comparison.call(&Case::ListingNew)?;
    every_bad_character(comparison, seeded)?;
    seeded_streams(comparison, seeded, rounds)?;
    seeded_states(comparison, seeded, rounds)?;
    every_buffer_of_totals(comparison, seeded)
}

/// Lists a stream, each call from the state that the call before has left. The text of all calls
/// must be the reference's listing of the whole stream.
pub fn stream(comparison: &mut Comparison, stream: &[u8], cuts: &[usize]) -> Done {
    let mut listing = linked::listing_new();
    let mut store = vec![0; STORE];
    let mut text: Vec<u8> = Vec::new();
    let mut rest = stream;
    let mut cuts = cuts.iter();
    while !rest.is_empty() {
        let cut = cuts.next().map_or(rest.len(), |&cut| cut.min(rest.len()));
        let outcome = comparison.call(&Case::List {
            listing,
            store: core::mem::take(&mut store),
            piece: rest[..cut].to_vec(),
            out: vec![b'?'; LISTING + cut % 300],
        })?;
        let Returned::Listed(listed) = outcome.returned else {
            return Ok(());
        };
        text.extend(&outcome.bytes[..listed.written.length]);
        (listing, store) = (listed.next, outcome.store);
        rest = &rest[listed.taken..];
    }
    let out = vec![b'?'; CLOSING];
    let outcome = comparison.call(&Case::ListClose { listing, out })?;
    if let Returned::Written(written) = outcome.returned {
        text.extend(&outcome.bytes[..written.length]);
    }
    assert!(text == reference::listing(stream), "a stream's listing");
    Ok(())
}

/// Frames with a bad character at every place, some with another behind it, and a good frame behind.
fn every_bad_character(comparison: &mut Comparison, seeded: &mut Seeded) -> Done {
    for info in [0, 1, 24, 2_047] {
        let right = seeded.frame(info);
        let behind = seeded.frame(3);
        // Of the longest only places with one to four digits, and the last.
        let last = right.len() - 2;
        let longest = [1, 10, 11, 100, 101, 1_000, 1_001, last];
        let places: Vec<usize> = match info {
            2_047 => longest.to_vec(),
            _ => (1..=last).collect(),
        };
        for place in places {
            for bad in made::BAD {
                let mut frame = right.clone();
                frame[place + seeded.below(last + 1 - place)] = seeded.bad_character();
                frame[place] = bad;
                let cut = seeded.below(frame.len());
                stream(comparison, &[&frame[..], &behind].concat(), &[cut])?;
            }
        }
    }
    Ok(())
}

fn seeded_streams(comparison: &mut Comparison, seeded: &mut Seeded, rounds: usize) -> Done {
    for _ in 0..150 * rounds {
        let parts = seeded.below(25);
        let whole = seeded.stream(parts);
        let longest = seeded.pick(&[3, 50, 500, 9_000]);
        let cuts: Vec<usize> = (0..whole.len())
            .map(|_| seeded.below(longest + 1))
            .collect();
        stream(comparison, &whole, &cuts)?;
    }
    Ok(())
}

/// Numbers around the limit, around a change of digits, and any.
fn number(seeded: &mut Seeded) -> u32 {
    let limit = MOST_BYTES as u32;
    match seeded.below(4) {
        0 => limit - 20 + seeded.below(40) as u32,
        1 => seeded.pick(&[0, 9, 10, 99, 100, 9_999, 999_999_999, 1_000_000_000]),
        2 => seeded.below(5_000) as u32,
        _ => seeded.bits() as u32,
    }
}

fn state(seeded: &mut Seeded) -> Listing {
    Listing {
        receiver: Receiver {
            open: seeded.pick(&[0, 1, 1, 2, 0x100]),
            count: match seeded.below(4) {
                0 => seeded.pick(&[0, STORE - 1, STORE, STORE + 1, usize::MAX]),
                _ => seeded.below(60),
            },
        },
        offset: number(seeded),
        frames: number(seeded),
        refusals: number(seeded),
    }
}

fn seeded_states(comparison: &mut Comparison, seeded: &mut Seeded, rounds: usize) -> Done {
    for _ in 0..15_000 * rounds {
        let listing = state(seeded);
        let parts = 1 + seeded.below(4);
        let room = match seeded.below(6) {
            0 => seeded.pick(&[0, LISTING - 1]),
            _ => LISTING + seeded.below(200),
        };
        let length = match seeded.below(10) {
            0 => seeded.pick(&[0, STORE - 1, STORE + 90]),
            _ => STORE,
        };
        let mut store = made::buffer(seeded, length);
        let characters = seeded.characters(80.min(length));
        store[..characters.len()].copy_from_slice(&characters);
        let mut piece = seeded.stream(parts);
        // A CR closes what the store holds, with a bad character or two in it.
        if length > 0 && seeded.once_in(4) {
            piece.insert(0, CR);
            for _ in 0..seeded.below(3) {
                let place = seeded.below(80.min(length));
                store[place] = seeded.bad_character();
            }
        }
        comparison.call(&Case::List {
            listing,
            store,
            piece,
            out: made::buffer(seeded, room),
        })?;
    }
    Ok(())
}

fn every_buffer_of_totals(comparison: &mut Comparison, seeded: &mut Seeded) -> Done {
    for room in 0..60 {
        for _ in 0..100 {
            let listing = state(seeded);
            let out = made::buffer(seeded, room);
            comparison.call(&Case::ListClose { listing, out })?;
        }
    }
    Ok(())
}
