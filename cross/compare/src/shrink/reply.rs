//! Replies to 42H and 44H whose INFO is whole records: changed record by record.

use crate::case::Case;
use crate::made;
use crate::records::{linked_of, plain, reference_of, references_of};
use linked::Module;
use reference::fields::{next_alarm, next_analog, Fields};

/// A reply's four bytes, flag and Command, and each record as that of a module.
struct Opened {
    header: [u8; 4],
    front: [u8; 2],
    records: Vec<Module>,
}

fn next(fields: &mut Fields, cid2: u8) -> Option<Module> {
    let mut module = reference_of(&plain(0x02));
    match cid2 {
        0x42 => module.analog = next_analog(fields).ok()?,
        0x44 => module.alarm = next_alarm(fields).ok()?,
        _ => return None,
    }
    Some(linked_of(&module))
}

fn opened(stretch: &[u8], cid2: u8) -> Option<Opened> {
    let (header, info) = made::opened(stretch)?;
    let mut fields = Fields::new(&info);
    let front = [fields.next_byte().ok()?, fields.next_byte().ok()?];
    let mut records = Vec::new();
    while !fields.at_end() {
        records.push(next(&mut fields, cid2)?);
    }
    Some(Opened {
        header,
        front,
        records,
    })
}

/// The stretch of such a reply; none where a record can't be encoded.
fn closed(opened: &Opened, cid2: u8) -> Option<Vec<u8>> {
    let mut info = opened.front.to_vec();
    for module in references_of(&opened.records) {
        let mut out = [0; 100];
        let length = match cid2 {
            0x42 => reference::write_analog(&module, 0, &mut out).ok()?,
            _ => reference::write_alarm(&module, 0, &mut out).ok()?,
        };
        info.extend(&out[2..length]);
    }
    Some(made::stretch(opened.header, &info))
}

/// The call without the record at a place and without its member; none where there is no such.
pub fn without(case: &Case, at: usize) -> Option<Case> {
    let Case::ReadReply {
        table,
        question,
        stretch,
    } = case
    else {
        return None;
    };
    let mut opened = opened(stretch, question.cid2)?;
    let mut table = table.clone();
    let member = (0..table.len()).filter(|&at| table[at].on == 1).nth(at)?;
    if at >= opened.records.len() {
        return None;
    }
    opened.records.remove(at);
    table.remove(member);
    Some(Case::ReadReply {
        stretch: closed(&opened, question.cid2)?,
        table,
        question: *question,
    })
}

/// The call with the record at a place changed; none where there is no such, or it can't be encoded.
pub fn changed(case: &Case, at: usize, change: impl FnOnce(&mut Module)) -> Option<Case> {
    let Case::ReadReply {
        table,
        question,
        stretch,
    } = case
    else {
        return None;
    };
    let mut opened = opened(stretch, question.cid2)?;
    change(opened.records.get_mut(at)?);
    Some(Case::ReadReply {
        stretch: closed(&opened, question.cid2)?,
        table: table.clone(),
        question: *question,
    })
}
