//! The worked lines (PROTOCOL 12.2 to 12.9, 12.11, 14.6), and the example of a listing (PROTOCOL 11.7).

use crate::common::*;
use reference::frame::{chksum, length};
use reference::Refusal::{LowerCase, NoHexDigit, Plain};
use reference::{
    answer, judge, listing, milliamps, tenths_celsius, write_parameters, Answer, Header,
    Parameters, Station,
};

#[test]
fn length_of_four_lenids() {
    assert_eq!(length(0), 0x0000);
    assert_eq!(length(18), 0xD012);
    assert_eq!(length(166), 0x00A6);
    assert_eq!(length(4_094), 0x4FFE);
}

#[test]
fn check_of_the_printed_line() {
    assert_eq!(chksum(b"1203400456ABCEFE"), 0xFC71);
    assert_eq!(chksum(b"1203400456ABCDFE"), 0xFC72);
}

#[test]
fn version_question_and_its_reply_at_ver_21() {
    let question = b"~2002464F0000FD98\r";
    assert_eq!(numbers(question), [0]);
    assert_eq!(frame(0x20, 0x02, 0x46, 0x4F, &[]), question);
    let reply = answered(&mut stack(&[0x02]), &stretch(question));
    assert_eq!(reply, b"~210246000000FDB1\r");
}

#[test]
fn analog_question_to_adr_02() {
    let question = b"~21024642E00202FD32\r";
    let judged = judge(&stretch(question)).unwrap();
    assert_eq!(
        judged.header,
        Header {
            ver: 0x21,
            adr: 0x02,
            cid1: 0x46,
            cid2: 0x42
        }
    );
    assert_eq!(judged.lenid, 2);
    assert_eq!(frame(0x21, 0x02, 0x46, 0x42, &[0x02]), question);
    assert_eq!(judge(b"21024642E00202FD33"), Err(Plain(8)));
    assert_eq!(judge(b"21024642E00202fd32"), Err(LowerCase(14)));
    assert_eq!(judge(b"21024642E00202Gd32"), Err(NoHexDigit(14)));
}

#[test]
fn code_04_from_adr_02() {
    assert_eq!(frame(0x21, 0x02, 0x46, 0x04, &[]), b"~210246040000FDAD\r");
    let reply = answered(&mut stack(&[0x02]), &ask(0x02, 0x94, &[]));
    assert_eq!(reply, b"~210246040000FDAD\r");
}

#[test]
fn a_character_lost_and_one_doubled() {
    assert_eq!(judge(b"002464F0000FD98"), Err(Plain(3)));
    assert_eq!(judge(b"2002464FF0000FD98"), Err(Plain(5)));
}

#[test]
fn exchanged_neighbours_in_ver() {
    let judged = judge(b"0202464F0000FD98").unwrap();
    assert_eq!((judged.header.ver, judged.header.adr), (0x02, 0x02));
}

#[test]
fn exchanged_neighbours_in_a_cell() {
    let cell = |reply: &[u8]| {
        let mut table = stack(&[0x02]);
        read(&mut table, (0x02, 0x42, 0x02), reply).unwrap();
        table[0].analog.cells[0]
    };
    assert_eq!(
        cell(b"2102460080260002010D45010BAA00000D45FDE802FDE80007F578"),
        3_397
    );
    assert_eq!(
        cell(b"2102460080260002010D54010BAA00000D45FDE802FDE80007F578"),
        3_412
    );
}

#[test]
fn temperatures_and_currents() {
    assert_eq!(tenths_celsius(0x0BAA), 255);
    assert_eq!(tenths_celsius(0x0A2F), -124);
    assert_eq!(milliamps(0xFFD8_u16 as i16), -4_000);
    assert_eq!(milliamps(0x8000_u16 as i16), -3_276_800);
    assert_eq!(milliamps(0xFFFF_u16 as i16), -100);
    assert_eq!(milliamps(0), 0);
    assert_eq!(milliamps(0x7FFF), 3_276_700);
}

#[test]
fn total_decides_items() {
    let mut module = module(0x02);
    module.analog.remaining = 12_345;
    module.analog.total = 65_000;
    let two = written(|out| reference::write_analog(&module, 0, out)).unwrap();
    // Flag, Command, M, 30 bytes, N, 10 bytes, current, module voltage, remaining 1, then items.
    assert_eq!(two[50], 2);
    assert_eq!(two.len(), 2 + 13 + 30 + 10);
    module.analog.total = 65_001;
    let four = written(|out| reference::write_analog(&module, 0, out)).unwrap();
    assert_eq!(four[50], 4);
    assert_eq!(four.len(), two.len() + 6);
}

#[test]
fn the_longest_stretch_is_judged_and_one_more_is_not() {
    let mut stream = frame(0x20, 0x02, 0x46, 0x00, &[0x5A; 2_047]);
    assert_eq!(stream.len(), 4_112);
    assert_eq!(numbers(&stream), [0]);
    stream.insert(4_111, b'0');
    assert_eq!(numbers(&stream), [1]);
}

#[test]
fn limits_line() {
    let mut table = stack(&[0x02]);
    table[0].limits = Default::default();
    let info = h("02D002B79800FA00FAC0");
    read(&mut table, (0x02, 0x92, 0x02), &say(0x02, 0x00, &info)).unwrap();
    let limits = table[0].limits;
    assert_eq!(limits.charge_voltage, 53_250);
    assert_eq!(limits.discharge_voltage, 47_000);
    assert_eq!(milliamps(limits.charge_current), 25_000);
    assert_eq!(milliamps(limits.discharge_current), 25_000);
    assert_eq!(limits.status, 0xC0);
    let again = written(|out| reference::write_limits(&table[0], out));
    assert_eq!(again, Ok(info));
}

/// INFO made by hand from V3.3's table of 47H: the question at VER 20, the reply, what is read of it,
/// and written again.
#[test]
fn parameters_line() {
    let question = b"~200246470000FDA7\r";
    assert_eq!(frame(0x20, 0x02, 0x46, 0x47, &[]), question);
    let info = h("00 0E74 0BEA 0B54 0C9F 0AAB 00FA D002 B798 ADD4 0D03 0A47 FF06");
    let reply = frame(0x20, 0x02, 0x46, 0x00, &info);
    assert_eq!(
        reply,
        b"~20024600B032000E740BEA0B540C9F0AAB00FAD002B798ADD40D030A47FF06F259\r"
    );
    let mut table = stack(&[0x02]);
    table[0].parameters = Parameters::default();
    let read_reply = read(&mut table, (0x02, 0x47, 0x02), &stretch(&reply)).unwrap();
    assert_eq!((read_reply.ver, read_reply.flag), (0x20, Some(0x00)));
    let limits = table[0].parameters;
    assert_eq!(limits.cell_high_voltage, 3_700);
    assert_eq!(limits.cell_low_voltage, 3_050);
    assert_eq!(limits.cell_under_voltage, 2_900);
    assert_eq!(tenths_celsius(limits.charge_high_temperature), 500);
    assert_eq!(tenths_celsius(limits.charge_low_temperature), 0);
    assert_eq!(milliamps(limits.charge_current), 25_000);
    assert_eq!(limits.module_high_voltage, 53_250);
    assert_eq!(limits.module_low_voltage, 47_000);
    assert_eq!(limits.module_under_voltage, 44_500);
    assert_eq!(tenths_celsius(limits.discharge_high_temperature), 600);
    assert_eq!(tenths_celsius(limits.discharge_low_temperature), -100);
    assert_eq!(milliamps(limits.discharge_current), -25_000);
    assert_eq!(
        written(|out| write_parameters(&table[0], 0x00, out)),
        Ok(info.clone())
    );
    // The stand-in answers with it at VER 20, and with 01 at VER 21. With a Command it is 05.
    let mut said = |ver: u8, question: &[u8]| {
        let station = Station { ver, ..station() };
        let mut out = vec![0; 4_112];
        match answer(&mut table, &station, &stretch(question), &mut out) {
            Answer::Reply(length) => out[..length].to_vec(),
            other => panic!("{other:?}"),
        }
    };
    assert_eq!(said(0x20, question), reply);
    assert_eq!(said(0x21, question), frame(0x21, 0x02, 0x46, 0x01, &[]));
    let with_command = b"~20024647E00202FD2E\r";
    assert_eq!(frame(0x20, 0x02, 0x46, 0x47, &[0x02]), with_command);
    assert_eq!(said(0x20, with_command), frame(0x20, 0x02, 0x46, 0x05, &[]));
}

#[test]
fn the_example_listing() {
    let text = listing(b"~2002464F0000FD98\r~12\r");
    assert_eq!(
        String::from_utf8(text).unwrap(),
        "at=0\nver=20\nadr=02\ncid1=46\ncid2=4F\ninfo=\nat=18\nrefused=3\nframes=1\nrefusals=1\n"
    );
}
