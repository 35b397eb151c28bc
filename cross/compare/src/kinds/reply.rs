//! The reply reader: questions right and wrong, replies right and damaged in every place.

use crate::case::Case;
use crate::difference::{Comparison, Done};
use crate::kinds::writers::CAPACITIES;
use crate::made::{self, CHARACTERS};
use crate::records::linked_table;
use linked::Question;
use reference::seeded::Seeded;
use reference::Module;

const COMMANDS: [u8; 9] = [0x42, 0x44, 0x47, 0x4F, 0x51, 0x92, 0x93, 0x95, 0x96];
/// Bytes around each bound that a byte of INFO has.
const BYTES: [u8; 18] = [
    0x00, 0x01, 0x02, 0x03, 0x04, 0x05, 0x08, 0x09, 0x10, 0x11, 0x7F, 0x80, 0xEF, 0xF0, 0xF1, 0xFD,
    0xFE, 0xFF,
];

/// All.
pub fn all(comparison: &mut Comparison, seeded: &mut Seeded, rounds: usize) -> Done {
    every_question(comparison, seeded)?;
    every_head(comparison, seeded)?;
    for _ in 0..rounds {
        for cid2 in COMMANDS {
            every_place(comparison, seeded, cid2, false)?;
        }
        for cid2 in [0x42, 0x44] {
            every_place(comparison, seeded, cid2, true)?;
        }
    }
    every_parameter(comparison, seeded)?;
    every_count_of_records(comparison, seeded)?;
    every_capacity(comparison, seeded)?;
    long_replies(comparison, seeded)?;
    seeded_replies(comparison, seeded, rounds)
}

fn read(
    comparison: &mut Comparison,
    table: &[Module],
    question: Question,
    stretch: Vec<u8>,
) -> Done {
    let case = Case::ReadReply {
        table: linked_table(table),
        question,
        stretch,
    };
    comparison.call(&case).map(drop)
}

/// A whole group, all on and without fault.
fn full(seeded: &mut Seeded) -> Vec<Module> {
    let group = 16 * seeded.below(8) as u8;
    let mut table: Vec<Module> = (2..=13).map(|n| seeded.module(n + group)).collect();
    for module in &mut table {
        (module.on, module.link_fault) = (1, 0);
    }
    table
}

/// The same modules with other contents: what the stand-in answers from.
fn other_contents(seeded: &mut Seeded, table: &[Module]) -> Vec<Module> {
    let mut other: Vec<Module> = table
        .iter()
        .map(|module| seeded.module(module.adr))
        .collect();
    for (other, module) in other.iter_mut().zip(table) {
        (other.on, other.link_fault) = (module.on, module.link_fault);
    }
    other
}

/// Every CID2 and every ADR, with Command as ADR, FFH, and others; the reply is right for some.
fn every_question(comparison: &mut Comparison, seeded: &mut Seeded) -> Done {
    let table = &full(seeded)[..4];
    let master = table[0].adr;
    for byte in 0..=u8::MAX {
        for command in [
            0x00,
            0x01,
            0x02,
            0x12,
            master,
            table[1].adr,
            0xFE,
            0xFF,
            byte,
        ] {
            for (adr, cid2) in [(master, byte), (table[1].adr, byte), (byte, 0x42)] {
                let question = Question { adr, cid2, command };
                let stretch = made::reply(table, question);
                read(comparison, table, question, stretch)?;
            }
            for cid2 in COMMANDS {
                let question = Question {
                    adr: byte,
                    cid2,
                    command,
                };
                let stretch = made::stretch([0x20, byte, 0x46, 0x00], &[]);
                read(comparison, table, question, stretch)?;
            }
        }
    }
    Ok(())
}

/// Every VER, ADR, CID1 and return code: without INFO, with one byte of it, and with the right one.
fn every_head(comparison: &mut Comparison, seeded: &mut Seeded) -> Done {
    let table = &full(seeded)[..3];
    let adr = table[0].adr;
    for cid2 in COMMANDS {
        for command in [adr, 0xFF] {
            let question = Question { adr, cid2, command };
            let right = made::reply(table, question);
            let info = made::opened(&right).map_or(vec![], |opened| opened.1);
            for byte in 0..=u8::MAX {
                for header in [
                    [byte, adr, 0x46, 0x00],
                    [0x20, byte, 0x46, 0x00],
                    [0x20, adr, byte, 0x00],
                    [0x20, adr, 0x46, byte],
                ] {
                    for info in [&info[..], &[], &[command]] {
                        read(comparison, table, question, made::stretch(header, info))?;
                    }
                }
            }
        }
    }
    Ok(())
}

/// One reply with each character changed, CHKSUM as it was and made right; with a second bad one; with
/// each byte of INFO changed, and one more or less there; and with INFO cut at each length.
fn every_place(comparison: &mut Comparison, seeded: &mut Seeded, cid2: u8, group: bool) -> Done {
    let table = full(seeded);
    let question = Question {
        adr: table[0].adr,
        cid2,
        command: if group { 0xFF } else { table[0].adr },
    };
    let right = made::reply(&other_contents(seeded, &table), question);
    read(comparison, &table, question, right.clone())?;
    for place in 0..right.len() {
        let tried = if group { 3 } else { CHARACTERS.len() };
        for character in CHARACTERS.into_iter().cycle().skip(7 * place).take(tried) {
            let mut changed = right.clone();
            changed[place] = character;
            read(comparison, &table, question, made::sealed(&changed))?;
            read(comparison, &table, question, changed)?;
        }
        for first in [b'c', b'G'] {
            let mut twice = right.clone();
            twice[seeded.below(right.len())] = seeded.bad_character();
            twice[place] = first;
            read(comparison, &table, question, twice)?;
        }
    }
    let Some((header, info)) = made::opened(&right) else {
        return Ok(());
    };
    for place in 0..info.len() {
        let tried = if group { 3 } else { BYTES.len() };
        for byte in BYTES.into_iter().cycle().skip(5 * place).take(tried) {
            let mut changed = info.clone();
            changed[place] = byte;
            read(
                comparison,
                &table,
                question,
                made::stretch(header, &changed),
            )?;
        }
        let mut shorter = info.clone();
        shorter.remove(place);
        read(
            comparison,
            &table,
            question,
            made::stretch(header, &shorter),
        )?;
        let mut longer = info.clone();
        longer.insert(place, seeded.pick(&BYTES));
        read(comparison, &table, question, made::stretch(header, &longer))?;
        read(
            comparison,
            &table,
            question,
            made::stretch(header, &info[..place]),
        )?;
    }
    for byte in BYTES {
        let mut longer = info.clone();
        longer.push(byte);
        read(comparison, &table, question, made::stretch(header, &longer))?;
        longer.extend([byte; 2]);
        read(comparison, &table, question, made::stretch(header, &longer))?;
    }
    Ok(())
}

/// 47H with every value of each byte of INFO, with INFO of every length around its own, and with every
/// Command in the question; the members have faults or not.
fn every_parameter(comparison: &mut Comparison, seeded: &mut Seeded) -> Done {
    let mut table = full(seeded);
    for module in &mut table {
        module.link_fault = u8::from(seeded.once_in(2));
    }
    let adr = table[3].adr;
    let asked = |command| Question {
        adr,
        cid2: 0x47,
        command,
    };
    let reply = |info: &[u8]| made::stretch([0x20, adr, 0x46, 0x00], info);
    for place in 0..25 {
        for value in 0..=u8::MAX {
            let mut info = seeded.bytes(25);
            info[place] = value;
            read(comparison, &table, asked(value), reply(&info))?;
        }
    }
    for length in 0..=60 {
        for command in [0x00, adr, 0xFF] {
            let info = seeded.bytes(length);
            read(comparison, &table, asked(command), reply(&info))?;
        }
    }
    Ok(())
}

/// One record of 42H or 44H as it stands in INFO: behind flag and Command.
fn record(module: &Module, cid2: u8) -> Vec<u8> {
    let mut out = vec![0; 100];
    let written = match cid2 {
        0x42 => reference::write_analog(module, 0x00, &mut out),
        _ => reference::write_alarm(module, 0x00, &mut out),
    };
    out[2..written.unwrap_or(2)].to_vec()
}

/// FFH with 0 to 13 records, from none on to all, and something behind the last record.
fn every_count_of_records(comparison: &mut Comparison, seeded: &mut Seeded) -> Done {
    for cid2 in [0x42, 0x44] {
        for on in 0..=12 {
            let mut table = full(seeded);
            for (place, module) in table.iter_mut().enumerate() {
                module.on = u8::from(place < on);
            }
            let question = Question {
                adr: table[0].adr,
                cid2,
                command: 0xFF,
            };
            let header = [0x20, question.adr, 0x46, 0x00];
            for count in 0..=13 {
                let mut info = vec![seeded.byte(), 0xFF];
                for _ in 0..count {
                    info.extend(record(&seeded.module(0x02), cid2));
                }
                for behind in [&[][..], &[0], &[1], &[17], &[1, 0], &[1, 0xF0, 0xF0]] {
                    let info = [&info[..], behind].concat();
                    read(comparison, &table, question, made::stretch(header, &info))?;
                }
            }
        }
    }
    Ok(())
}

/// Every pair of capacities with either items: as one record, and as the second of three.
fn every_capacity(comparison: &mut Comparison, seeded: &mut Seeded) -> Done {
    let table = &full(seeded)[..3];
    let adr = table[0].adr;
    let words: Vec<u16> = CAPACITIES.iter().map(|&capacity| capacity as u16).collect();
    for &remaining_1 in &words {
        for &total_1 in &words {
            for (items, behind) in [(2, 0), (4, 0), (4, 1), (4, 2), (3, 0), (0, 0)] {
                let mut record = vec![1, 0x0C, 0xE4, 1, 0x0B, 0xAA, 0x80, 0x00, 0xC7, 0x25];
                record.extend(remaining_1.to_be_bytes());
                record.push(items);
                record.extend(total_1.to_be_bytes());
                record.extend([0x00, 0x02]);
                if items == 4 {
                    let total_2 = [65_000, 65_001, 0xFF_FFFF_u32][behind];
                    record.extend(&seeded.pick(&CAPACITIES).to_be_bytes()[1..]);
                    record.extend(&total_2.to_be_bytes()[1..]);
                }
                let right = self::record(&table[1], 0x42);
                let one = [&[0x00, adr][..], &record].concat();
                let three = [&[0x00, 0xFF][..], &right, &record, &right].concat();
                for (command, info) in [(adr, one), (0xFF, three)] {
                    let cid2 = 0x42;
                    let question = Question { adr, cid2, command };
                    let stretch = made::stretch([0x20, adr, 0x46, 0x00], &info);
                    read(comparison, table, question, stretch)?;
                }
            }
        }
    }
    Ok(())
}

fn seeded_replies(comparison: &mut Comparison, seeded: &mut Seeded, rounds: usize) -> Done {
    for _ in 0..50_000 * rounds {
        let table = match seeded.below(10) {
            0 => seeded.doubtful_table(),
            _ => seeded.table(),
        };
        let asked = seeded.question(&table);
        let mut question = Question {
            adr: asked.adr,
            cid2: asked.cid2,
            command: asked.command,
        };
        if let (true, Some(first)) = (seeded.once_in(3), table.first()) {
            (question.adr, question.command) = (first.adr, 0xFF);
            question.cid2 = seeded.pick(&[0x42, 0x44]);
        }
        let mut theirs = other_contents(seeded, &table);
        if seeded.once_in(2) {
            theirs.iter_mut().for_each(|module| module.link_fault = 0);
        }
        if seeded.once_in(8) && !theirs.is_empty() {
            let at = seeded.below(theirs.len());
            theirs[at].on ^= 1;
        }
        let mut stretch = made::reply(&theirs, question);
        if seeded.once_in(12) {
            let code = seeded.pick(&[0x01, 0x02, 0x03, 0x04, 0x05, 0x06, 0x90, 0x91]);
            stretch = made::stretch([seeded.byte(), question.adr, 0x46, code], &[]);
        } else if seeded.once_in(2) {
            seeded.damage(&mut stretch);
        }
        let stretch = match seeded.below(3) {
            0 if stretch.len() >= 16 => made::sealed_with_length(&stretch),
            1 => made::sealed(&stretch),
            _ => stretch,
        };
        read(comparison, &table, question, stretch)?;
    }
    Ok(())
}

/// Replies as long as a frame may be, and longer.
fn long_replies(comparison: &mut Comparison, seeded: &mut Seeded) -> Done {
    for length in 4_100..4_120 {
        let table = full(seeded);
        let adr = table[0].adr;
        for command in [adr, 0xFF] {
            let cid2 = 0x42;
            let question = Question { adr, cid2, command };
            let mut stretch = made::stretch([0x20, adr, 0x46, 0x00], &[command; 2_047]);
            stretch.resize(length, b'0');
            let mut right = made::sealed_with_length(&stretch);
            read(comparison, &table, question, right.clone())?;
            for bad in [0xFF, b'f'] {
                right[length - 1] = bad;
                read(comparison, &table, question, right.clone())?;
            }
        }
    }
    Ok(())
}
