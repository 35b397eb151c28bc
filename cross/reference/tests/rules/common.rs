//! A good stack, and short names for frames, questions and replies.

use reference::{
    answer, hex, read_reply, run, write_frame, Alarm, Analog, Answer, Event, Header, Limits,
    Module, Number, Parameters, Question, Ran, Receiver, Refusal, Reply, Station,
};

/// A frame from SOI to CR.
pub fn frame(ver: u8, adr: u8, cid1: u8, cid2: u8, info: &[u8]) -> Vec<u8> {
    let header = Header {
        ver,
        adr,
        cid1,
        cid2,
    };
    let mut out = vec![0; 4_112];
    let length = write_frame(header, info, &mut out).unwrap();
    out[..length].to_vec()
}

/// What stands between SOI and CR.
pub fn stretch(frame: &[u8]) -> Vec<u8> {
    frame[1..frame.len() - 1].to_vec()
}

/// A question's stretch at VER 21.
pub fn ask(adr: u8, cid2: u8, info: &[u8]) -> Vec<u8> {
    stretch(&frame(0x21, adr, 0x46, cid2, info))
}

/// A reply's stretch at VER 21.
pub fn say(adr: u8, code: u8, info: &[u8]) -> Vec<u8> {
    stretch(&frame(0x21, adr, 0x46, code, info))
}

/// The characters with CHKSUM made right again.
pub fn resealed(characters: &[u8]) -> Vec<u8> {
    let summed = &characters[..characters.len() - 4];
    let check = reference::frame::chksum(summed).to_be_bytes();
    [summed, &hex::characters(&check)].concat()
}

/// Bytes from hex digits and spaces.
pub fn h(text: &str) -> Vec<u8> {
    let digits: Vec<u8> = text.bytes().filter(|c| *c != b' ').collect();
    hex::bytes(&digits).unwrap()
}

/// A module with values as a bench sees them.
pub fn module(adr: u8) -> Module {
    let mut module = Module {
        adr,
        on: 1,
        link_fault: 0,
        analog: Analog {
            cell_count: 15,
            temperature_count: 5,
            current: -40,
            voltage: 50_981,
            remaining: 41_000,
            total: 50_000,
            cycles: 2,
            ..Analog::default()
        },
        alarm: Alarm {
            cell_count: 15,
            temperature_count: 5,
            status: [0x00, 0x0E, 0x40, 0x00, 0x00],
            ..Alarm::default()
        },
        limits: Limits {
            charge_voltage: 53_250,
            discharge_voltage: 47_000,
            charge_current: 250,
            discharge_current: -250,
            status: 0xC0,
        },
        serial: *b"HZ00000000000000",
        version: [1, 2, 3, 4, 5],
        parameters: Parameters {
            cell_high_voltage: 3_700,
            cell_low_voltage: 3_050,
            cell_under_voltage: 2_900,
            charge_high_temperature: 2_731 + 500,
            charge_low_temperature: 2_731,
            charge_current: 250,
            module_high_voltage: 53_250,
            module_low_voltage: 47_000,
            module_under_voltage: 44_500,
            discharge_high_temperature: 2_731 + 600,
            discharge_low_temperature: 2_731 - 100,
            discharge_current: -250,
        },
    };
    for place in 0..15 {
        module.analog.cells[place] = 3_390 + place as i16;
    }
    for place in 0..5 {
        module.analog.temperatures[place] = 2_731 + 250 + place as i16;
    }
    module.serial[15] = b'0' + adr % 16;
    module
}

/// A table of such modules.
pub fn stack(addresses: &[u8]) -> Vec<Module> {
    addresses.iter().map(|&adr| module(adr)).collect()
}

/// VER 21 and 32 bytes.
pub fn station() -> Station {
    Station {
        ver: 0x21,
        maker: *b"US2000B\0\0\0\x01\x02Pylon\0\0\0\0\0\0\0\0\0\0\0\0\0\0\0",
    }
}

/// What the stand-in answers to a stretch; empty for silence.
pub fn answered(table: &mut [Module], stretch: &[u8]) -> Vec<u8> {
    let mut out = vec![0xAA; 4_112];
    match answer(table, &station(), stretch, &mut out) {
        Answer::Silence => {
            assert!(out.iter().all(|&byte| byte == 0xAA));
            Vec::new()
        }
        Answer::Reply(length) => {
            assert!(out[length..].iter().all(|&byte| byte == 0xAA));
            out[..length].to_vec()
        }
        Answer::Refused(number) => panic!("refused {number}"),
    }
}

/// The return code the stand-in answers with; none for silence.
pub fn code(table: &mut [Module], stretch: &[u8]) -> Option<u8> {
    let reply = answered(table, stretch);
    if reply.is_empty() {
        return None;
    }
    let judged = reference::judge(&reply[1..reply.len() - 1]).unwrap();
    assert!(judged.header.cid2 == 0x00 || judged.lenid == 0);
    Some(judged.header.cid2)
}

/// Reads a reply and says the number of a refusal.
pub fn read(table: &mut [Module], asked: (u8, u8, u8), stretch: &[u8]) -> Result<Reply, Number> {
    read_or_refuse(table, asked, stretch).map_err(Refusal::number)
}

/// Reads a reply; a refusal must leave the table as it was.
pub fn read_or_refuse(
    table: &mut [Module],
    (adr, cid2, command): (u8, u8, u8),
    stretch: &[u8],
) -> Result<Reply, Refusal> {
    let before = table.to_vec();
    let question = Question { adr, cid2, command };
    let result = read_reply(table, question, stretch);
    if result.is_err() {
        assert_eq!(table, before);
    }
    result
}

/// A writer's bytes.
pub fn written(write: impl Fn(&mut [u8]) -> Result<usize, Number>) -> Result<Vec<u8>, Number> {
    let mut out = vec![0xAA; 2_047];
    match write(&mut out) {
        Ok(length) => {
            assert!(out[length..].iter().all(|&byte| byte == 0xAA));
            Ok(out[..length].to_vec())
        }
        Err(number) => {
            assert!(out.iter().all(|&byte| byte == 0xAA));
            Err(number)
        }
    }
}

/// All events of a stream that aren't nothing, and the receiver after it.
pub fn events(stream: &[u8]) -> (Vec<Event>, Receiver) {
    let mut store = vec![0; 4_110];
    let mut receiver = Receiver::Waiting;
    let mut rest = stream;
    let mut events = Vec::new();
    loop {
        let Ran {
            next, event, taken, ..
        } = run(receiver, &mut store, rest);
        receiver = next;
        rest = &rest[taken..];
        if event == Event::Nothing {
            assert!(rest.is_empty());
            return (events, receiver);
        }
        events.push(event);
    }
}

/// The refusals among the events of a stream, 0 standing for a frame.
pub fn numbers(stream: &[u8]) -> Vec<Number> {
    let number = |event: &Event| match event {
        Event::Refused(refusal) => refusal.number(),
        _ => 0,
    };
    events(stream).0.iter().map(number).collect()
}
