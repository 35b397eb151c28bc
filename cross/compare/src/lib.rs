//! Holds the proved library's archive against the reference, call by call: what is returned, the
//! whole lent buffer and the whole lent table, also where nothing may change.
//!
//! [`all`] makes the calls of every kind from a seed, [`one`] makes them from any bytes (for a
//! fuzzer). The first difference ends both, and is made as small as possible first.

#![forbid(unsafe_code)]

pub mod archive;
pub mod bytes;
pub mod case;
pub mod difference;
pub mod input;
pub mod kinds;
pub mod made;
pub mod paper;
pub mod records;
pub mod shrink;
pub mod tally;

pub use case::{Case, Outcome, Returned};
pub use difference::{Comparison, Difference, Done};
pub use kinds::all;
pub use tally::Tally;

/// Makes the calls that the bytes stand for, and compares them.
pub fn one(data: &[u8]) -> Done {
    one_of_many(&mut Comparison::new(paper::outcome), data)
}

/// The same, counted with others.
pub fn one_of_many(comparison: &mut Comparison, data: &[u8]) -> Done {
    match input::decoded(data) {
        input::Input::Call(case) => comparison.call(&case).map(drop),
        input::Input::Stream { stream, cuts, by } => match by {
            input::By::Step => kinds::receiver::by_step(comparison, &stream, &cuts),
            input::By::Run => kinds::receiver::by_run(comparison, &stream, &cuts),
            input::By::List => kinds::listing::stream(comparison, &stream, &cuts),
        },
    }
}
