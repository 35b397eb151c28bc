//! What the two comparisons share: the captures, and how a table is printed.

pub mod captures;
pub mod table;
