//! What numbers mean: over every number.

use crate::case::Case;
use crate::difference::{Comparison, Done};
use reference::seeded::Seeded;

/// Every value of both meanings.
pub fn all(comparison: &mut Comparison, _: &mut Seeded, _: usize) -> Done {
    for value in i16::MIN..=i16::MAX {
        comparison.call(&Case::TenthsCelsius { raw: value })?;
        comparison.call(&Case::Milliamps { current: value })?;
    }
    Ok(())
}
