//! The stand-in: questions right and wrong in every place, to tables right and wrong.

use crate::case::Case;
use crate::difference::{Comparison, Done};
use crate::made;
use crate::records::linked_table;
use linked::{Module, Station, ANSWER};
use reference::seeded::Seeded;

/// The commands that are served, and two that are not.
const COMMANDS: [u8; 11] = [
    0x42, 0x44, 0x47, 0x4F, 0x51, 0x92, 0x93, 0x95, 0x96, 0x43, 0x94,
];
/// VER of the station in the calls made here.
const VER: u8 = 0x20;

/// All.
pub fn all(comparison: &mut Comparison, seeded: &mut Seeded, rounds: usize) -> Done {
    every_byte(comparison, seeded)?;
    every_place(comparison, seeded)?;
    every_fault(comparison, seeded)?;
    long_stretches(comparison, seeded)?;
    seeded_questions(comparison, seeded, rounds)
}

fn station(seeded: &mut Seeded) -> Station {
    Station {
        ver: VER,
        maker: core::array::from_fn(|_| seeded.byte()),
    }
}

fn ask(
    comparison: &mut Comparison,
    seeded: &mut Seeded,
    table: &[Module],
    stretch: Vec<u8>,
) -> Done {
    let case = Case::Answer {
        table: table.to_vec(),
        station: station(seeded),
        stretch,
        out: made::buffer(seeded, ANSWER),
    };
    comparison.call(&case).map(drop)
}

/// A table with the master, all on and without fault, or as it comes.
fn with_master(seeded: &mut Seeded) -> Vec<Module> {
    loop {
        let mut table = seeded.table();
        if seeded.once_in(2) {
            for module in &mut table {
                (module.on, module.link_fault) = (1, 0);
            }
        }
        if table[0].adr % 16 == 2 {
            return linked_table(&table);
        }
    }
}

/// Every VER, ADR, CID1, CID2 and Command, the others right.
fn every_byte(comparison: &mut Comparison, seeded: &mut Seeded) -> Done {
    for cid2 in COMMANDS {
        let table = with_master(seeded);
        let adr = table[0].adr;
        for byte in 0..=u8::MAX {
            for info in [&[][..], &[adr], &[0xFF], &[adr, adr]] {
                for header in [
                    [byte, adr, 0x46, cid2],
                    [VER, byte, 0x46, cid2],
                    [VER, adr, byte, cid2],
                    [VER, adr, 0x46, byte],
                ] {
                    ask(comparison, seeded, &table, made::stretch(header, info))?;
                }
            }
            let stretch = made::stretch([VER, adr, 0x46, cid2], &[byte]);
            ask(comparison, seeded, &table, stretch)?;
            let own = made::stretch([VER, byte, 0x46, cid2], &[byte]);
            ask(comparison, seeded, &table, own)?;
        }
    }
    Ok(())
}

/// Each character of a question changed, with CHKSUM as it was and made right; and each cut.
fn every_place(comparison: &mut Comparison, seeded: &mut Seeded) -> Done {
    for cid2 in COMMANDS {
        for group in [false, true] {
            let table = with_master(seeded);
            let adr = table[0].adr;
            let info = match (cid2, group) {
                (0x47 | 0x4F | 0x51, false) => vec![],
                (_, false) => vec![adr],
                (_, true) => vec![0xFF],
            };
            let right = made::stretch([VER, adr, 0x46, cid2], &info);
            for place in 0..right.len() {
                for character in made::CHARACTERS {
                    let mut changed = right.clone();
                    changed[place] = character;
                    ask(comparison, seeded, &table, made::sealed(&changed))?;
                    ask(comparison, seeded, &table, changed)?;
                }
                ask(comparison, seeded, &table, right[..place].to_vec())?;
                let mut longer = right.clone();
                longer.insert(place, right[place]);
                ask(comparison, seeded, &table, longer)?;
            }
        }
    }
    Ok(())
}

/// A link fault of the module asked, of another and of all, with every command, without Command, with
/// ADR and with FFH.
fn every_fault(comparison: &mut Comparison, seeded: &mut Seeded) -> Done {
    for cid2 in COMMANDS {
        for faults in 0..8 {
            let mut table: Vec<_> = (2..=4).map(|adr| seeded.module(adr)).collect();
            for (place, module) in table.iter_mut().enumerate() {
                (module.on, module.link_fault) = (1, faults >> place & 1);
            }
            let table = linked_table(&table);
            for adr in 2..=4 {
                for info in [&[][..], &[adr], &[0xFF]] {
                    let stretch = made::stretch([VER, adr, 0x46, cid2], info);
                    ask(comparison, seeded, &table, stretch)?;
                }
            }
        }
    }
    Ok(())
}

/// Stretches as long as a frame may be, and longer.
fn long_stretches(comparison: &mut Comparison, seeded: &mut Seeded) -> Done {
    for length in 4_100..4_120 {
        let table = with_master(seeded);
        let adr = table[0].adr;
        let right = made::stretch([VER, adr, 0x46, 0x42], &[adr; 2_047]);
        for fill in *b"0Faz" {
            let mut stretch = right.clone();
            stretch.resize(length, fill);
            ask(comparison, seeded, &table, stretch.clone())?;
            ask(
                comparison,
                seeded,
                &table,
                made::sealed_with_length(&stretch),
            )?;
        }
    }
    Ok(())
}

fn seeded_questions(comparison: &mut Comparison, seeded: &mut Seeded, rounds: usize) -> Done {
    for _ in 0..50_000 * rounds {
        let mut table = match seeded.below(10) {
            0 => seeded.doubtful_table(),
            _ => seeded.table(),
        };
        match seeded.below(10) {
            0 => table.iter_mut().for_each(|module| module.on = 0),
            1..=5 => table.iter_mut().for_each(|module| module.link_fault = 0),
            _ => {}
        }
        let mut question = seeded.question(&table);
        if let (true, Some(first)) = (seeded.once_in(3), table.first()) {
            (question.adr, question.command) = (first.adr, 0xFF);
            question.cid2 = seeded.pick(&[0x42, 0x44]);
        }
        let ver = match seeded.below(4) {
            0 => seeded.byte(),
            _ => VER,
        };
        let info = match (question.cid2, seeded.below(12)) {
            (_, 0) => seeded.bytes(3),
            (0x47 | 0x4F | 0x51, _) => vec![],
            _ => vec![question.command],
        };
        let mut stretch = made::stretch([ver, question.adr, 0x46, question.cid2], &info);
        if seeded.once_in(6) {
            seeded.damage(&mut stretch);
        }
        let room = match seeded.below(12) {
            0 => seeded.pick(&[0, 18, ANSWER - 1, ANSWER + 1, ANSWER + 88]),
            _ => ANSWER,
        };
        let mut station = station(seeded);
        if seeded.once_in(4) {
            // Often the VER of the question, so that it is still answered.
            station.ver = seeded.pick(&[ver, ver, 0x00, 0x21, 0xFF]);
        }
        let case = Case::Answer {
            table: linked_table(&table),
            station,
            stretch,
            out: made::buffer(seeded, room),
        };
        comparison.call(&case)?;
    }
    Ok(())
}
