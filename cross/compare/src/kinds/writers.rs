//! The record writers and the group writers.

use crate::case::{Case, Group, Kind, Returned};
use crate::difference::{Comparison, Done};
use crate::made;
use crate::records::{linked_of, linked_table, packed, plain, unpacked, PACKED};
use linked::Module;
use reference::seeded::Seeded;

const KINDS: [Kind; 6] = [
    Kind::Analog,
    Kind::Alarm,
    Kind::Parameters,
    Kind::Limits,
    Kind::Serial,
    Kind::Version,
];
const GROUPS: [Group; 2] = [Group::Analog, Group::Alarm];

/// Longer than one record's INFO.
const ROOM: usize = 80;
/// Longer than the INFO of a whole group.
const GROUP_ROOM: usize = 900;
/// Capacities around each bound.
pub const CAPACITIES: [u32; 12] = [
    0,
    1,
    64_999,
    65_000,
    65_001,
    65_535,
    65_536,
    0xFF_FFFE,
    0xFF_FFFF,
    0x100_0000,
    0x7FFF_FFFF,
    u32::MAX,
];

/// Both.
pub fn all(comparison: &mut Comparison, seeded: &mut Seeded, rounds: usize) -> Done {
    every_value_in_every_field(comparison, seeded)?;
    every_pair_of_counts(comparison, seeded)?;
    every_pair_of_capacities(comparison, seeded)?;
    seeded_records(comparison, seeded, rounds)?;
    seeded_groups(comparison, seeded, rounds)
}

/// How many bytes a call needs for its INFO: from its answer with a long buffer.
fn needed(comparison: &mut Comparison, case: &Case) -> Result<usize, Box<crate::Difference>> {
    Ok(match comparison.call(case)?.returned {
        Returned::Written(written) => written.length,
        _ => 0,
    })
}

/// Buffers of no byte, too short by one, exactly right and longer.
fn rooms(needed: usize) -> [usize; 5] {
    [0, needed.saturating_sub(1), needed, needed + 1, needed + 7]
}

fn each_writer(comparison: &mut Comparison, seeded: &mut Seeded, module: Module) -> Done {
    for kind in KINDS {
        let flag = seeded.byte();
        let out = made::buffer(seeded, ROOM);
        comparison.call(&Case::WriteRecord {
            kind,
            module,
            flag,
            out,
        })?;
    }
    Ok(())
}

/// Each byte of a record with each value, a field's others as they were.
fn every_value_in_every_field(comparison: &mut Comparison, seeded: &mut Seeded) -> Done {
    let rich = linked_of(&seeded.module(0x02));
    for module in [plain(0x02), rich] {
        for place in 0..PACKED {
            for value in 0..=u8::MAX {
                let mut row = packed(&module);
                row[place] = value;
                each_writer(comparison, seeded, unpacked(&row))?;
            }
        }
    }
    Ok(())
}

/// M and N around their bounds, with all places 0 and with all set.
fn every_pair_of_counts(comparison: &mut Comparison, seeded: &mut Seeded) -> Done {
    for cells in 0..=20 {
        for temperatures in 0..=12 {
            for value in [0, 1] {
                let mut module = plain(0x0D);
                (module.analog.cell_count, module.alarm.cell_count) = (cells, cells);
                module.analog.temperature_count = temperatures;
                module.alarm.temperature_count = temperatures;
                module.analog.cells = [i16::from(value); 16];
                module.analog.temperatures = [i16::from(value); 8];
                module.alarm.cells = [value; 16];
                module.alarm.temperatures = [value; 8];
                each_writer(comparison, seeded, module)?;
            }
        }
    }
    Ok(())
}

fn every_pair_of_capacities(comparison: &mut Comparison, seeded: &mut Seeded) -> Done {
    for remaining in CAPACITIES {
        for total in CAPACITIES {
            let mut module = linked_of(&seeded.module(0x72));
            (module.analog.remaining, module.analog.total) = (remaining, total);
            each_writer(comparison, seeded, module)?;
        }
    }
    Ok(())
}

fn seeded_records(comparison: &mut Comparison, seeded: &mut Seeded, rounds: usize) -> Done {
    for _ in 0..3_000 * rounds {
        let adr = match seeded.below(8) {
            0 => seeded.byte(),
            _ => seeded.number(2, 13) as u8 + 16 * seeded.below(8) as u8,
        };
        let mut module = linked_of(&seeded.module(adr));
        if seeded.once_in(3) {
            let mut row = packed(&module);
            row[seeded.below(PACKED)] = seeded.byte();
            module = unpacked(&row);
        }
        for kind in KINDS {
            let flag = seeded.byte();
            let case = |out| Case::WriteRecord {
                kind,
                module,
                flag,
                out,
            };
            let needed = needed(comparison, &case(vec![0; ROOM]))?;
            for room in rooms(needed) {
                comparison.call(&case(made::buffer(seeded, room)))?;
            }
        }
    }
    Ok(())
}

/// A table that is right, doubtful, all off, or longer than a table may be.
fn any_table(seeded: &mut Seeded) -> Vec<Module> {
    let mut table = match seeded.below(8) {
        0 | 1 => seeded.doubtful_table(),
        _ => seeded.table(),
    };
    match seeded.below(12) {
        0 => table.iter_mut().for_each(|module| module.on = 0),
        1 => table.iter_mut().for_each(|module| module.on = 1),
        2 => {
            let last = table.last().map_or(0, |module| module.adr);
            table.push(seeded.module(last.wrapping_add(1)));
        }
        _ => {}
    }
    linked_table(&table)
}

fn seeded_groups(comparison: &mut Comparison, seeded: &mut Seeded, rounds: usize) -> Done {
    for _ in 0..2_000 * rounds {
        let table = any_table(seeded);
        for group in GROUPS {
            let flag = seeded.byte();
            let case = |out| Case::WriteGroup {
                group,
                table: table.clone(),
                flag,
                out,
            };
            let needed = needed(comparison, &case(vec![0; GROUP_ROOM]))?;
            for room in rooms(needed) {
                comparison.call(&case(made::buffer(seeded, room)))?;
            }
        }
    }
    Ok(())
}
