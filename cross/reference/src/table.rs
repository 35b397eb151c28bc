//! The table: one to twelve module records in rising ADR (PROTOCOL 5).

use crate::module::{is_address, Module};
use crate::Number;

/// What the table also holds: VER and the 32 bytes of 51H (PROTOCOL 5.5).
#[repr(C)]
#[derive(Clone, Copy, Debug, Default, PartialEq, Eq)]
pub struct Station {
    /// VER of every reply.
    pub ver: u8,
    /// The 32 bytes of 51H: name, software version and maker, 10, 2 and 20 bytes.
    pub maker: [u8; 32],
}

/// 31 for a table that breaks its rule (PROTOCOL 5.4).
pub fn rule(table: &[Module]) -> Result<(), Number> {
    // One to twelve records.
    let counted = (1..=12).contains(&table.len());
    // The ADRs rise strictly.
    let rising = table.windows(2).all(|pair| pair[0].adr < pair[1].adr);
    // Each keeps the address rule.
    let addressed = table.iter().all(|module| is_address(module.adr));
    // One m for the whole table.
    let one_group = table
        .windows(2)
        .all(|pair| pair[0].adr / 16 == pair[1].adr / 16);
    // Each mark is 0 or 1.
    let marked = table
        .iter()
        .all(|module| module.on <= 1 && module.link_fault <= 1);
    // Every value can be encoded, and list places beyond M or N hold 0.
    let encodable = table
        .iter()
        .all(|module| module.analog.is_encodable() && module.alarm.is_encodable());
    if counted && rising && addressed && one_group && marked && encodable {
        Ok(())
    } else {
        Err(31)
    }
}

/// The place of the record with this ADR.
pub fn place(table: &[Module], adr: u8) -> Option<usize> {
    table.iter().position(|module| module.adr == adr)
}

/// The number of members that are on.
pub fn members_on(table: &[Module]) -> usize {
    table.iter().filter(|module| module.on == 1).count()
}
