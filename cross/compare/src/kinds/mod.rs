//! The calls of each kind, made from a seed: long and short, right and wrong.

pub mod frames;
pub mod listing;
pub mod meanings;
pub mod receiver;
pub mod reply;
pub mod standin;
pub mod tables;
pub mod writers;

use crate::difference::{Comparison, Done};
use reference::seeded::Seeded;

/// Compares calls of every kind. What is made from the seed grows with the rounds; what is tried in
/// full is the same for all.
pub fn all(comparison: &mut Comparison, seed: u64, rounds: usize) -> Done {
    let kinds: [fn(&mut Comparison, &mut Seeded, usize) -> Done; 8] = [
        meanings::all,
        frames::all,
        receiver::all,
        writers::all,
        tables::all,
        standin::all,
        reply::all,
        listing::all,
    ];
    for (place, kind) in kinds.into_iter().enumerate() {
        let mut seeded = Seeded::new(seed.wrapping_mul(16).wrapping_add(place as u64));
        kind(comparison, &mut seeded, rounds)?;
    }
    Ok(())
}
