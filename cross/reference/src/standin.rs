//! The stand-in: it answers a command from the table as a stack of modules would (PROTOCOL 7).

use crate::frame::{judge, Header};
use crate::info::GROUP;
use crate::module::{is_master, Module};
use crate::table::{self, Station};
use crate::{frame, hex, info, Number, Refusal};

/// The least length of the lent buffer (PROTOCOL 7.2).
pub const ROOM: usize = 4_112;

/// What the stand-in does.
#[derive(Clone, Copy, Debug, PartialEq, Eq)]
pub enum Answer {
    /// Silence: no byte is written, and the table is unchanged (PROTOCOL 7.3).
    Silence,
    /// A reply of this many bytes, from SOI to CR.
    Reply(usize),
    /// The call is refused: 32 or 31.
    Refused(Number),
}

/// LENID of a question, 0 for 47H, 4FH and 51H, otherwise 2 (PROTOCOL 6.1); none for a command that
/// is not served.
pub fn required_lenid(cid2: u8) -> Option<usize> {
    match cid2 {
        0x47 | 0x4F | 0x51 => Some(0),
        0x42 | 0x44 | 0x92 | 0x93 | 0x95 | 0x96 => Some(2),
        _ => None,
    }
}

/// FFH may be asked at the master, with 42H or 44H (PROTOCOL 5.9).
pub fn takes_group(adr: u8, cid2: u8) -> bool {
    is_master(adr) && (cid2 == 0x42 || cid2 == 0x44)
}

/// The return code of the first of the eleven steps that applies (PROTOCOL 7.5).
fn code(lent: &[Module], place: usize, station: &Station, stretch: &[u8]) -> u8 {
    let heard = match judge(stretch).map_err(Refusal::number) {
        Ok(heard) => heard,
        Err(5) => return 0x03,     // 1. refusal 5: code 03H
        Err(6 | 7) => return 0x05, // 2. refusal 6 or 7: 05H
        Err(_) => return 0x02,     // 3. refusal 8: 02H
    };
    let Header {
        ver,
        adr,
        cid1,
        cid2,
    } = heard.header;
    // 4. CID1 not 46H: 05H
    if cid1 != 0x46 {
        return 0x05;
    }
    // 5. CID2 not served, 94H included: 04H
    let Some(lenid) = required_lenid(cid2) else {
        return 0x04;
    };
    // 6. VER differs from the table's, except for 4FH: 01H
    if ver != station.ver && cid2 != 0x4F {
        return 0x01;
    }
    // 7. LENID not as required: 05H
    if heard.lenid != lenid {
        return 0x05;
    }
    // 47H, 4FH and 51H have no Command; 8 to 10 are for the commands with Command only.
    let Some(&command) = frame::info(stretch, heard).first() else {
        return 0x00;
    };
    // 8. Command FFH, but not at the master with 42H or 44H: 06H
    if command == GROUP && !takes_group(adr, cid2) {
        return 0x06;
    }
    // 9. any other Command that isn't ADR: 90H
    if command != GROUP && command != adr {
        return 0x90;
    }
    // 10. link fault of the module, or with FFH of any member that is on: 91H
    let fault = if command == GROUP {
        lent.iter()
            .any(|member| member.on == 1 && member.link_fault == 1)
    } else {
        lent[place].link_fault == 1
    };
    if fault {
        return 0x91;
    }
    // 11. otherwise 00H and the data.
    0x00
}

/// The data of a reply with code 00H; the flag is 00H (PROTOCOL 7.9).
fn data(
    lent: &[Module],
    place: usize,
    station: &Station,
    cid2: u8,
    command: Option<u8>,
) -> Result<Vec<u8>, Number> {
    let mut out = vec![0; frame::MOST_INFO];
    let module = &lent[place];
    let group = command == Some(GROUP);
    let length = match cid2 {
        0x42 if group => info::write_analog_group(lent, 0x00, &mut out)?,
        0x42 => info::write_analog(module, 0x00, &mut out)?,
        0x44 if group => info::write_alarm_group(lent, 0x00, &mut out)?,
        0x44 => info::write_alarm(module, 0x00, &mut out)?,
        0x47 => info::write_parameters(module, 0x00, &mut out)?,
        0x51 => return Ok(station.maker.to_vec()),
        0x92 => info::write_limits(module, &mut out)?,
        0x93 => info::write_serial(module, &mut out)?,
        0x96 => info::write_version(module, &mut out)?,
        // 4FH and 95H have none.
        _ => 0,
    };
    out.truncate(length);
    Ok(out)
}

/// Answers one stretch, the bytes between SOI and CR, and writes the reply to the lent buffer. Only
/// an accepted 95H changes the table: that one module goes off, after its reply (PROTOCOL 7.10).
pub fn answer(lent: &mut [Module], station: &Station, stretch: &[u8], out: &mut [u8]) -> Answer {
    // Call refusals come first: 32, then 31 (PROTOCOL 7.2).
    if out.len() < ROOM {
        return Answer::Refused(32);
    }
    if let Err(number) = table::rule(lent) {
        return Answer::Refused(number);
    }
    // Silence for 1, 3, 4 and 9, and for an ADR that names no member that is on (PROTOCOL 7.3).
    let judged = judge(stretch).map_err(Refusal::number);
    if let Err(1 | 3 | 4 | 9) = judged {
        return Answer::Silence;
    }
    let Some(adr) = hex::bytes(&stretch[2..4]).map(|bytes| bytes[0]) else {
        return Answer::Silence;
    };
    let Some(place) = table::place(lent, adr).filter(|&place| lent[place].on == 1) else {
        return Answer::Silence;
    };
    let code = code(lent, place, station, stretch);
    // Codes other than 00H carry no INFO (PROTOCOL 7.8).
    let mut data_of_reply = Vec::new();
    let mut switches_off = false;
    if let (0x00, Ok(heard)) = (code, judged) {
        let command = frame::info(stretch, heard).first().copied();
        let cid2 = heard.header.cid2;
        match data(lent, place, station, cid2, command) {
            Ok(bytes) => data_of_reply = bytes,
            Err(number) => return Answer::Refused(number),
        }
        switches_off = cid2 == 0x95;
    }
    // The table's VER, the ADR received, CID1 46H, the code as CID2 (PROTOCOL 7.8).
    let header = Header {
        ver: station.ver,
        adr,
        cid1: 0x46,
        cid2: code,
    };
    match frame::write_frame(header, &data_of_reply, out) {
        Ok(length) => {
            if switches_off {
                lent[place].on = 0;
            }
            Answer::Reply(length)
        }
        Err(number) => Answer::Refused(number),
    }
}
