//! New records, the table's rule, and the thin functions on one record of it.

use crate::case::Case;
use crate::difference::{Comparison, Done};
use crate::kinds::writers::CAPACITIES;
use crate::records::{linked_of, linked_table, packed, plain, unpacked, PACKED};
use linked::{Module, MODULES};
use reference::seeded::Seeded;

/// All of them.
pub fn all(comparison: &mut Comparison, seeded: &mut Seeded, rounds: usize) -> Done {
    every_new_record(comparison)?;
    every_count(comparison, seeded)?;
    every_pair_of_addresses(comparison)?;
    every_value_in_every_field(comparison, seeded)?;
    every_pair_of_capacities(comparison)?;
    seeded_tables(comparison, seeded, rounds)?;
    one_record(comparison, seeded, rounds)
}

fn rule(comparison: &mut Comparison, table: &[Module]) -> Done {
    let table = table.to_vec();
    comparison.call(&Case::Table { table }).map(drop)
}

fn every_new_record(comparison: &mut Comparison) -> Done {
    for adr in 0..=u8::MAX {
        comparison.call(&Case::ModuleNew { adr })?;
    }
    Ok(())
}

/// A whole group, as many records as a table may have.
fn full(seeded: &mut Seeded) -> Vec<Module> {
    (2..=13)
        .map(|n| linked_of(&seeded.module(n + 0x30)))
        .collect()
}

/// 0 to 40 records: right as far as a group has addresses, then with one ADR more, and one alike.
fn every_count(comparison: &mut Comparison, seeded: &mut Seeded) -> Done {
    for count in 0..=40_usize {
        for first in [0x00, 0x02, 0x32, 0x72] {
            let table: Vec<Module> = (0..count)
                .map(|place| linked_of(&seeded.module(first + place as u8)))
                .collect();
            rule(comparison, &table)?;
            let alike: Vec<Module> = (0..count)
                .map(|place| plain(first + place.min(MODULES - 1) as u8))
                .collect();
            rule(comparison, &alike)?;
        }
    }
    Ok(())
}

fn every_pair_of_addresses(comparison: &mut Comparison) -> Done {
    for first in 0..=u8::MAX {
        for second in 0..=u8::MAX {
            rule(comparison, &[plain(first), plain(second)])?;
        }
    }
    Ok(())
}

/// Each byte of a record with each value: of the only record, and of one of twelve.
fn every_value_in_every_field(comparison: &mut Comparison, seeded: &mut Seeded) -> Done {
    let mut full = full(seeded);
    for place in 0..PACKED {
        for value in 0..=u8::MAX {
            let mut row = packed(&plain(0x02));
            row[place] = value;
            rule(comparison, &[unpacked(&row)])?;
            let at = seeded.below(MODULES);
            let before = full[at];
            let mut row = packed(&before);
            row[place] = value;
            full[at] = unpacked(&row);
            rule(comparison, &full)?;
            full[at] = before;
        }
    }
    Ok(())
}

fn every_pair_of_capacities(comparison: &mut Comparison) -> Done {
    for remaining in CAPACITIES {
        for total in CAPACITIES {
            let mut module = plain(0x02);
            (module.analog.remaining, module.analog.total) = (remaining, total);
            rule(comparison, &[module])?;
        }
    }
    Ok(())
}

fn seeded_tables(comparison: &mut Comparison, seeded: &mut Seeded, rounds: usize) -> Done {
    for _ in 0..15_000 * rounds {
        let table = match seeded.below(3) {
            0 => seeded.table(),
            _ => seeded.doubtful_table(),
        };
        rule(comparison, &linked_table(&table))?;
    }
    Ok(())
}

/// The record at a place inside or past the end: read, replaced, switched off.
fn one_record(comparison: &mut Comparison, seeded: &mut Seeded, rounds: usize) -> Done {
    for _ in 0..6_000 * rounds {
        let table = linked_table(&seeded.doubtful_table());
        let mut row = [0; PACKED];
        row.fill_with(|| seeded.byte());
        let module = unpacked(&row);
        let at = match seeded.below(8) {
            0 => seeded.bits() as usize,
            _ => seeded.below(table.len() + 2),
        };
        comparison.call(&Case::Record {
            table: table.clone(),
            at,
            other: module,
        })?;
        comparison.call(&Case::Replace {
            table: table.clone(),
            at,
            module,
        })?;
        comparison.call(&Case::SwitchOff { table, at })?;
    }
    Ok(())
}
