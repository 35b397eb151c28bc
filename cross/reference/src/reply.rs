//! The reply reader: judges one stretch against the question asked and replaces the named fields
//! (PROTOCOL 8).

use crate::fields::{next_alarm, next_analog, next_bytes, next_limits, next_parameters, Fields};
use crate::frame::{info, judge};
use crate::info::GROUP;
use crate::module::Module;
use crate::standin::{required_lenid, takes_group};
use crate::{table, Number, Refusal};

/// What was asked.
#[derive(Clone, Copy, Debug, Default, PartialEq, Eq)]
pub struct Question {
    /// The address asked.
    pub adr: u8,
    /// The command.
    pub cid2: u8,
    /// Its Command; with 47H, 4FH and 51H, which have none, it is ignored (PROTOCOL 5.9).
    pub command: u8,
}

/// What the reader returns beside the table: VER, the return code, the flag of 42H, 44H and 47H, and
/// the 32 bytes of 51H (PROTOCOL 8.12).
#[derive(Clone, Copy, Debug, PartialEq, Eq)]
pub struct Reply {
    /// VER.
    pub ver: u8,
    /// The return code.
    pub code: u8,
    /// The flag of 42H, 44H and 47H with code 00H.
    pub flag: Option<u8>,
    /// The 32 bytes of 51H with code 00H.
    pub maker: Option<[u8; 32]>,
}

/// 34 otherwise: the command is not served, or its Command is neither ADR nor FFH at the master with
/// 42H or 44H (PROTOCOL 8.3).
fn can_be_asked(question: Question) -> bool {
    match required_lenid(question.cid2) {
        None => false,
        // 47H, 4FH and 51H: the Command is ignored.
        Some(0) => true,
        Some(_) => {
            question.command == question.adr
                || question.command == GROUP && takes_group(question.adr, question.cid2)
        }
    }
}

/// 13 for any other (PROTOCOL 6.6).
fn is_return_code(code: u8) -> bool {
    matches!(code, 0x00..=0x06 | 0x90 | 0x91)
}

/// 21 where Command is not the one asked, 16 where it is missing (PROTOCOL 8.5).
fn expect_command(fields: &mut Fields, asked: u8) -> Result<(), Number> {
    if fields.next_byte()? == asked {
        Ok(())
    } else {
        Err(21)
    }
}

/// 17 where bytes are left over (PROTOCOL 8.5).
fn expect_end(fields: &Fields) -> Result<(), Number> {
    if fields.at_end() {
        Ok(())
    } else {
        Err(17)
    }
}

/// The record of 42H or 44H for the asked module, or with FFH those until INFO ends (PROTOCOL 8.8).
fn read_records<T>(
    fields: &mut Fields,
    group: bool,
    members_on: usize,
    next: fn(&mut Fields) -> Result<T, Number>,
) -> Result<Vec<T>, Number> {
    if !group {
        let record = next(fields)?;
        expect_end(fields)?;
        return Ok(vec![record]);
    }
    let mut records = Vec::new();
    while !fields.at_end() {
        // 17: a thirteenth record is never read (PROTOCOL 8.8).
        if records.len() == 12 {
            return Err(17);
        }
        records.push(next(fields)?);
    }
    // 22: as many records as members that are on, so none at all where none is (PROTOCOL 8.9).
    if records.len() != members_on {
        return Err(22);
    }
    Ok(records)
}

/// The named fields of the asked record only, or with FFH of each member that is on, all or none
/// (PROTOCOL 8.10).
fn replace<T>(
    lent: &mut [Module],
    place: usize,
    group: bool,
    records: Vec<T>,
    set: fn(&mut Module, T),
) {
    if group {
        let members = lent.iter_mut().filter(|member| member.on == 1);
        for (member, record) in members.zip(records) {
            set(member, record);
        }
    } else {
        for record in records {
            set(&mut lent[place], record);
        }
    }
}

/// Reads a reply to a question. Its refusals, in this order: 31, 34, 23, those of the judged stretch,
/// 11, 12, 13, 14, 21 or 16, the record's in byte order, 17, 22 (PROTOCOL 8.2).
pub fn read_reply(
    lent: &mut [Module],
    question: Question,
    stretch: &[u8],
) -> Result<Reply, Refusal> {
    table::rule(lent)?;
    if !can_be_asked(question) {
        return Err(Refusal::Plain(34));
    }
    // 23: the ADR asked is not in the table.
    let place = table::place(lent, question.adr).ok_or(Refusal::Plain(23))?;
    let frame = judge(stretch)?;
    // 11: the reply's ADR is not the one asked.
    if frame.header.adr != question.adr {
        return Err(Refusal::Plain(11));
    }
    // 12: its CID1 is not 46H.
    if frame.header.cid1 != 0x46 {
        return Err(Refusal::Plain(12));
    }
    let code = frame.header.cid2;
    if !is_return_code(code) {
        return Err(Refusal::Plain(13));
    }
    // 14: INFO with a code other than 00H.
    if code != 0x00 && frame.lenid != 0 {
        return Err(Refusal::Plain(14));
    }
    let mut reply = Reply {
        ver: frame.header.ver,
        code,
        flag: None,
        maker: None,
    };
    // Other codes change no record (PROTOCOL 8.6).
    if code != 0x00 {
        return Ok(reply);
    }
    let info = info(stretch, frame);
    let mut fields = Fields::new(&info);
    let on = table::members_on(lent);
    let group = question.command == GROUP;
    match question.cid2 {
        0x42 => {
            reply.flag = Some(fields.next_byte()?);
            expect_command(&mut fields, question.command)?;
            let records = read_records(&mut fields, group, on, next_analog)?;
            replace(lent, place, group, records, |m, analog| m.analog = analog);
        }
        0x44 => {
            reply.flag = Some(fields.next_byte()?);
            expect_command(&mut fields, question.command)?;
            let records = read_records(&mut fields, group, on, next_alarm)?;
            replace(lent, place, group, records, |m, alarm| m.alarm = alarm);
        }
        // Flag and twelve words; no Command, so no 21 (PROTOCOL 8.5).
        0x47 => {
            reply.flag = Some(fields.next_byte()?);
            let parameters = next_parameters(&mut fields)?;
            expect_end(&fields)?;
            lent[place].parameters = parameters;
        }
        // 32 bytes (PROTOCOL 9.21).
        0x51 => {
            let maker = next_bytes(&mut fields)?;
            expect_end(&fields)?;
            reply.maker = Some(maker);
        }
        0x92 => {
            expect_command(&mut fields, question.command)?;
            let limits = next_limits(&mut fields)?;
            expect_end(&fields)?;
            lent[place].limits = limits;
        }
        0x93 => {
            expect_command(&mut fields, question.command)?;
            let serial = next_bytes(&mut fields)?;
            expect_end(&fields)?;
            lent[place].serial = serial;
        }
        0x96 => {
            expect_command(&mut fields, question.command)?;
            let version = next_bytes(&mut fields)?;
            expect_end(&fields)?;
            lent[place].version = version;
        }
        // 4FH and 95H have none (PROTOCOL 9.22).
        _ => expect_end(&fields)?,
    }
    Ok(reply)
}
