//! Readings D: the reply reader.

use crate::common::*;
use reference::Refusal::{LowerCase, NoHexDigit, Plain};
use reference::{Alarm, Analog, Limits, Module, Parameters, Reply};

/// INFO of 42H for one module of the stack, flag 00H.
fn analog_info(adr: u8) -> Vec<u8> {
    written(|out| reference::write_analog(&module(adr), 0x00, out)).unwrap()
}

/// One 42H record alone.
fn analog_record(adr: u8) -> Vec<u8> {
    analog_info(adr)[2..].to_vec()
}

/// INFO of 44H for one module of the stack, flag 00H.
fn alarm_info(adr: u8) -> Vec<u8> {
    written(|out| reference::write_alarm(&module(adr), 0x00, out)).unwrap()
}

/// INFO of 47H for one module of the stack, flag 00H.
fn parameters_info(adr: u8) -> Vec<u8> {
    written(|out| reference::write_parameters(&module(adr), 0x00, out)).unwrap()
}

/// INFO with FFH and these records.
fn group_info(records: &[Vec<u8>]) -> Vec<u8> {
    [&[0x00, 0xFF][..], &records.concat()].concat()
}

/// A smallest 42H record: one cell, one temperature.
fn small_record() -> Vec<u8> {
    h("01 0D45 01 0BC3 0000 0D45 0001 02 0002 0003")
}

/// A blank stack: all parts the least that keeps the rule.
fn blank(addresses: &[u8]) -> Vec<Module> {
    let blank = Module {
        on: 1,
        analog: Analog {
            cell_count: 1,
            temperature_count: 1,
            ..Analog::default()
        },
        alarm: Alarm {
            cell_count: 1,
            temperature_count: 1,
            ..Alarm::default()
        },
        ..Module::default()
    };
    addresses
        .iter()
        .map(|&adr| Module { adr, ..blank })
        .collect()
}

fn plain(code: u8) -> Reply {
    Reply {
        ver: 0x21,
        code,
        flag: None,
        maker: None,
    }
}

#[test]
fn d1_order() {
    let wrong =
        |cid1: u8, code: u8, adr: u8, info: &[u8]| stretch(&frame(0x21, adr, cid1, code, info));
    let mut broken = stack(&[0x02, 0x03]);
    broken[1].on = 2;
    let mut table = stack(&[0x02, 0x03]);
    let long = vec![b'g'; 4_111];
    // 31, 34, 23, then the stretch.
    assert_eq!(read(&mut broken, (0x09, 0x94, 0x08), &long), Err(31));
    assert_eq!(read(&mut table, (0x09, 0x94, 0x09), &long), Err(34));
    assert_eq!(read(&mut table, (0x09, 0x42, 0x08), &long), Err(34));
    assert_eq!(read(&mut table, (0x09, 0x42, 0x09), &long), Err(23));
    let asked = (0x03, 0x42, 0x03);
    assert_eq!(read(&mut table, asked, &long), Err(1));
    assert_eq!(read(&mut table, asked, b"21"), Err(3));
    assert_eq!(read(&mut table, asked, b"2102464FE002a2FD32"), Err(4));
    assert_eq!(read(&mut table, asked, b"2102464FE002G2FD32"), Err(9));
    assert_eq!(read(&mut table, asked, b"2102464FE00302FD32"), Err(5));
    assert_eq!(read(&mut table, asked, b"2102464FD00302FD32"), Err(6));
    assert_eq!(read(&mut table, asked, b"2102464FC00402FD32"), Err(7));
    assert_eq!(read(&mut table, asked, b"2102464FE00202FD32"), Err(8));
    // 11, 12, 13, 14, then the Command byte, the record, 17.
    let mut info = analog_info(0x02);
    info.push(0x00);
    info[2] = 0;
    assert_eq!(
        read(&mut table, asked, &wrong(0x47, 0x07, 0x02, &info)),
        Err(11)
    );
    assert_eq!(
        read(&mut table, asked, &wrong(0x47, 0x07, 0x03, &info)),
        Err(12)
    );
    assert_eq!(
        read(&mut table, asked, &wrong(0x46, 0x07, 0x03, &info)),
        Err(13)
    );
    assert_eq!(
        read(&mut table, asked, &wrong(0x46, 0x06, 0x03, &info)),
        Err(14)
    );
    assert_eq!(
        read(&mut table, asked, &wrong(0x46, 0x00, 0x03, &info)),
        Err(21)
    );
    info[1] = 0x03;
    assert_eq!(
        read(&mut table, asked, &wrong(0x46, 0x00, 0x03, &info)),
        Err(15)
    );
    info[2] = 15;
    assert_eq!(
        read(&mut table, asked, &wrong(0x46, 0x00, 0x03, &info)),
        Err(17)
    );
    info.pop();
    assert_eq!(
        read(&mut table, asked, &wrong(0x46, 0x00, 0x03, &info)),
        Ok(Reply {
            flag: Some(0x00),
            ..plain(0x00)
        })
    );
    // The codes that there are.
    for code in 1..=255 {
        let known = matches!(code, 0x01..=0x06 | 0x90 | 0x91);
        let expected = if known { Ok(plain(code)) } else { Err(13) };
        assert_eq!(read(&mut table, asked, &say(0x03, code, &[])), expected);
        let expected = if known { Err(14) } else { Err(13) };
        assert_eq!(read(&mut table, asked, &say(0x03, code, &[0x00])), expected);
    }
}

#[test]
fn d2_master_by_address_alone() {
    let mut table = stack(&[0x02, 0x03]);
    let reply = say(0x12, 0x01, &[]);
    for cid2 in [0x42, 0x44] {
        for m in 0..=7 {
            let master = 16 * m + 2;
            let expected = if m == 0 { Err(11) } else { Err(23) };
            assert_eq!(read(&mut table, (master, cid2, 0xFF), &reply), expected);
        }
        assert_eq!(read(&mut table, (0x82, cid2, 0xFF), &reply), Err(34));
        assert_eq!(read(&mut table, (0x03, cid2, 0xFF), &reply), Err(34));
        assert_eq!(read(&mut table, (0xFF, cid2, 0xFF), &reply), Err(23));
    }
}

#[test]
fn d3_which_questions_can_be_asked() {
    let mut table = stack(&[0x02]);
    let nothing = say(0x02, 0x01, &[]);
    for cid2 in 0..=255 {
        for command in 0..=255 {
            let result = read(&mut table, (0x02, cid2, command), &nothing);
            let right = match cid2 {
                0x47 | 0x4F | 0x51 => true,
                0x42 | 0x44 => command == 0x02 || command == 0xFF,
                0x92 | 0x93 | 0x95 | 0x96 => command == 0x02,
                _ => false,
            };
            let expected = if right { Ok(plain(0x01)) } else { Err(34) };
            assert_eq!(result, expected, "{cid2:02X} {command:02X}");
        }
    }
    // The other reading's INFO byte with 4FH is 05H at the stand-in.
    assert_eq!(code(&mut table, &ask(0x02, 0x4F, &[0x02])), Some(0x05));
}

#[test]
fn d4_off_member_is_in_the_table() {
    let mut table = blank(&[0x02, 0x03]);
    table[1].on = 0;
    let reply = say(0x03, 0x00, &analog_info(0x03));
    assert!(read(&mut table, (0x03, 0x42, 0x03), &reply).is_ok());
    assert_eq!(table[1].analog, module(0x03).analog);
    assert_eq!(table[1].on, 0);
}

#[test]
fn d5_other_code_under_ffh() {
    let mut table = stack(&[0x02, 0x03]);
    let before = table.clone();
    for code in [0x01, 0x02, 0x03, 0x04, 0x05, 0x06, 0x90, 0x91] {
        for cid2 in [0x42, 0x44] {
            assert_eq!(
                read(&mut table, (0x02, cid2, 0xFF), &say(0x02, code, &[])),
                Ok(plain(code))
            );
            assert_eq!(
                read(&mut table, (0x02, cid2, 0xFF), &say(0x02, code, &[0, 0xFF])),
                Err(14)
            );
        }
    }
    assert_eq!(table, before);
}

#[test]
fn d6_missing_bytes() {
    let mut table = stack(&[0x02]);
    for cid2 in [0x42, 0x44] {
        for command in [0x02, 0xFF] {
            let asked = (0x02, cid2, command);
            assert_eq!(read(&mut table, asked, &say(0x02, 0, &[])), Err(16));
            assert_eq!(read(&mut table, asked, &say(0x02, 0, &[0x00])), Err(16));
            assert_eq!(
                read(&mut table, asked, &say(0x02, 0, &[0x00, 0x03])),
                Err(21)
            );
        }
        assert_eq!(
            read(&mut table, (0x02, cid2, 0x02), &say(0x02, 0, &[0x00, 0x02])),
            Err(16)
        );
    }
    for cid2 in [0x92, 0x93, 0x96] {
        let asked = (0x02, cid2, 0x02);
        assert_eq!(read(&mut table, asked, &say(0x02, 0, &[])), Err(16));
        assert_eq!(read(&mut table, asked, &say(0x02, 0, &[0x03])), Err(21));
        assert_eq!(read(&mut table, asked, &say(0x02, 0, &[0x02])), Err(16));
    }
    for cid2 in [0x4F, 0x95] {
        let asked = (0x02, cid2, 0x02);
        assert_eq!(read(&mut table, asked, &say(0x02, 0, &[])), Ok(plain(0)));
        assert_eq!(read(&mut table, asked, &say(0x02, 0, &[0x02])), Err(17));
    }
    for (cid2, length) in [(0x51, 32), (0x47, 25)] {
        let asked = (0x02, cid2, 0);
        for shorter in 0..length {
            let reply = say(0x02, 0, &vec![7; shorter]);
            assert_eq!(read(&mut table, asked, &reply), Err(16), "{shorter}");
        }
        for longer in [length + 1, length + 2, 2_047] {
            let reply = say(0x02, 0, &vec![7; longer]);
            assert_eq!(read(&mut table, asked, &reply), Err(17), "{longer}");
        }
        assert!(read(&mut table, asked, &say(0x02, 0, &vec![7; length])).is_ok());
    }
}

#[test]
fn d7_record_in_byte_order() {
    let mut table = stack(&[0x02, 0x03]);
    let mut one = |cid2: u8, record: &str| {
        let info = [&[0x00, 0x02][..], &h(record)].concat();
        read(&mut table, (0x02, cid2, 0x02), &say(0x02, 0x00, &info)).err()
    };
    // 15 at its byte.
    assert_eq!(one(0x42, "00"), Some(15));
    assert_eq!(one(0x42, "11"), Some(15));
    assert_eq!(one(0x42, "01"), Some(16));
    assert_eq!(one(0x42, "01 0D"), Some(16));
    assert_eq!(one(0x42, "01 0D45 00"), Some(15));
    assert_eq!(one(0x42, "01 0D45 09"), Some(15));
    // 18 at its byte, before 16 and 19.
    assert_eq!(one(0x42, "01 0D45 01 0BC3 0000 0D45 FFFF 03"), Some(18));
    assert_eq!(one(0x42, "01 0D45 01 0BC3 0000 0D45 FFFF 02"), Some(16));
    // 19 only after the record's last byte.
    assert_eq!(
        one(0x42, "01 0D45 01 0BC3 0000 0D45 FFFF 02 FFFF 00"),
        Some(16)
    );
    assert_eq!(
        one(0x42, "01 0D45 01 0BC3 0000 0D45 FFFF 02 FFFF 0000"),
        Some(19)
    );
    assert_eq!(
        one(
            0x42,
            "01 0D45 01 0BC3 0000 0D45 0000 04 0000 0000 000000 0000"
        ),
        Some(16)
    );
    assert_eq!(
        one(
            0x42,
            "01 0D45 01 0BC3 0000 0D45 0000 04 0000 0000 000000 000000"
        ),
        Some(19)
    );
    // 19 before 17.
    assert_eq!(
        one(0x42, "01 0D45 01 0BC3 0000 0D45 FFFF 02 FFFF 0000 00"),
        Some(19)
    );
    // 44H: 20 at its byte.
    assert_eq!(one(0x44, "00"), Some(15));
    assert_eq!(one(0x44, "02 03"), Some(20));
    assert_eq!(one(0x44, "02 00"), Some(16));
    assert_eq!(one(0x44, "01 F0 09"), Some(15));
    assert_eq!(one(0x44, "01 F0 01 EF"), Some(20));
    assert_eq!(one(0x44, "01 F0 01 02 01 00 04"), Some(20));
    assert_eq!(one(0x44, "01 F0 01 02 01 00 00 FFFFFFFF"), Some(16));
    assert_eq!(one(0x44, "01 F0 01 02 01 00 00 FFFFFFFFFF"), None);
    // Under FFH, 19 of record 1 comes before anything in record 2.
    let bad = h("01 0D45 01 0BC3 0000 0D45 FFFF 02 FFFF 0000");
    let info = group_info(&[bad, vec![0x00]]);
    assert_eq!(
        read(&mut table, (0x02, 0x42, 0xFF), &say(0x02, 0x00, &info)),
        Err(19)
    );
}

#[test]
fn d8_bytes_left_over_under_ffh() {
    let mut table = stack(&[0x02]);
    let after = |stray: &str| {
        let mut table = stack(&[0x02]);
        let info = group_info(&[small_record(), h(stray)]);
        read(&mut table, (0x02, 0x42, 0xFF), &say(0x02, 0x00, &info)).err()
    };
    assert_eq!(after(""), None);
    assert_eq!(after("00"), Some(15));
    assert_eq!(after("11"), Some(15));
    assert_eq!(after("01"), Some(16));
    assert_eq!(after("10"), Some(16));
    // After the twelfth record any byte left is 17, and no thirteenth is read.
    for stray in ["00", "01", "FF"] {
        let mut records = vec![small_record(); 12];
        records.push(h(stray));
        let reply = say(0x02, 0x00, &group_info(&records));
        assert_eq!(read(&mut table, (0x02, 0x42, 0xFF), &reply), Err(17));
    }
    let thirteen = say(0x02, 0x00, &group_info(&vec![small_record(); 13]));
    assert_eq!(read(&mut table, (0x02, 0x42, 0xFF), &thirteen), Err(17));
    let twelve = say(0x02, 0x00, &group_info(&vec![small_record(); 12]));
    assert_eq!(read(&mut table, (0x02, 0x42, 0xFF), &twelve), Err(22));
    let mut whole = stack(&(2..=13).collect::<Vec<u8>>());
    assert!(read(&mut whole, (0x02, 0x42, 0xFF), &twelve).is_ok());
}

#[test]
fn d9_no_member_on() {
    let mut table = stack(&[0x02, 0x03]);
    table[0].on = 0;
    table[1].on = 0;
    let before = table.clone();
    let none = say(0x02, 0x00, &[0x11, 0xFF]);
    let flagged = Ok(Reply {
        flag: Some(0x11),
        ..plain(0x00)
    });
    assert_eq!(read(&mut table, (0x02, 0x42, 0xFF), &none), flagged);
    assert_eq!(read(&mut table, (0x02, 0x44, 0xFF), &none), flagged);
    assert_eq!(table, before);
    let one = say(0x02, 0x00, &group_info(&[small_record()]));
    assert_eq!(read(&mut table, (0x02, 0x42, 0xFF), &one), Err(22));
    let broken = say(0x02, 0x00, &group_info(&[vec![0x00]]));
    assert_eq!(read(&mut table, (0x02, 0x42, 0xFF), &broken), Err(15));
    // With members on, no record at all.
    let mut table = stack(&[0x02, 0x03]);
    assert_eq!(read(&mut table, (0x02, 0x42, 0xFF), &none), Err(22));
    // The master off: its record stays as it is.
    table[0].on = 0;
    let before = table.clone();
    assert!(read(&mut table, (0x02, 0x42, 0xFF), &one).is_ok());
    assert_eq!(table[0], before[0]);
    assert_eq!(table[1].analog.cells[0], 0x0D45);
    assert_eq!(table[1].analog.cell_count, 1);
}

#[test]
fn d10_22_is_last() {
    let mut table = stack(&[0x02]);
    // The second record has no member and is judged all the same.
    let info = group_info(&[small_record(), h("01 0D45 01 0BC3 0000 0D45 0001 03")]);
    assert_eq!(
        read(&mut table, (0x02, 0x42, 0xFF), &say(0x02, 0x00, &info)),
        Err(18)
    );
    let info = group_info(&[small_record(), small_record()]);
    assert_eq!(
        read(&mut table, (0x02, 0x42, 0xFF), &say(0x02, 0x00, &info)),
        Err(22)
    );
}

#[test]
fn d11_65_ah_rule() {
    let items_2 = |remaining: u16, total: u16| {
        let mut record = small_record();
        record[10..12].copy_from_slice(&remaining.to_be_bytes());
        record[13..15].copy_from_slice(&total.to_be_bytes());
        let mut table = stack(&[0x02]);
        let info = [&[0x00, 0x02][..], &record].concat();
        let result = read(&mut table, (0x02, 0x42, 0x02), &say(0x02, 0x00, &info));
        (
            result.err(),
            table[0].analog.remaining,
            table[0].analog.total,
        )
    };
    assert_eq!(items_2(65_000, 65_000), (None, 65_000, 65_000));
    assert_eq!(items_2(65_001, 65_000).0, Some(19));
    assert_eq!(items_2(65_000, 65_001).0, Some(19));
    assert_eq!(items_2(0xFFFF, 0xFFFF).0, Some(19));
    assert_eq!(items_2(65_000, 0), (None, 65_000, 0));
    let items_4 = |first: &str, second: &str, last: &str| {
        let record = h(&format!(
            "01 0D45 01 0BC3 0000 0D45 {first} 04 {second} 0003 {last}"
        ));
        let mut table = stack(&[0x02]);
        let info = [&[0x00, 0x02][..], &record].concat();
        let result = read(&mut table, (0x02, 0x42, 0x02), &say(0x02, 0x00, &info));
        (
            result.err(),
            table[0].analog.remaining,
            table[0].analog.total,
        )
    };
    assert_eq!(
        items_4("FFFF", "FFFF", "00CA58 012110"),
        (None, 51_800, 74_000)
    );
    assert_eq!(items_4("FFFE", "FFFF", "00CA58 012110").0, Some(19));
    assert_eq!(items_4("FFFF", "CA58", "00CA58 012110").0, Some(19));
    assert_eq!(items_4("FFFF", "FFFF", "000000 00FDE8").0, Some(19));
    assert_eq!(items_4("FFFF", "FFFF", "000000 00FDE9"), (None, 0, 65_001));
    assert_eq!(
        items_4("FFFF", "FFFF", "FFFFFF FFFFFF"),
        (None, 16_777_215, 16_777_215)
    );
}

#[test]
fn d12_turn_off_changes_nothing_in_the_reader() {
    let mut table = stack(&[0x02, 0x03]);
    let before = table.clone();
    let nothing = stretch(&frame(0x99, 0x02, 0x46, 0x00, &[]));
    let reply = Reply {
        ver: 0x99,
        ..plain(0x00)
    };
    assert_eq!(read(&mut table, (0x02, 0x95, 0x02), &nothing), Ok(reply));
    assert_eq!(read(&mut table, (0x02, 0x4F, 0x00), &nothing), Ok(reply));
    let maker = say(0x02, 0x00, &station().maker);
    let reply = Reply {
        maker: Some(station().maker),
        ..plain(0x00)
    };
    assert_eq!(read(&mut table, (0x02, 0x51, 0x77), &maker), Ok(reply));
    assert_eq!(table, before);
}

#[test]
fn d13_places_beyond_become_0() {
    let mut table = stack(&[0x02]);
    let info = [&[0x00, 0x02][..], &small_record()].concat();
    read(&mut table, (0x02, 0x42, 0x02), &say(0x02, 0x00, &info)).unwrap();
    let analog = table[0].analog;
    assert_eq!((analog.cell_count, analog.temperature_count), (1, 1));
    assert_eq!(
        (analog.cells[0], &analog.cells[1..]),
        (0x0D45, &[0; 15][..])
    );
    assert_eq!(
        (analog.temperatures[0], &analog.temperatures[1..]),
        (0x0BC3, &[0; 7][..])
    );
    // A six-point module after a five-point one: nothing slides.
    let mut six = module(0x02);
    six.analog.temperature_count = 6;
    six.analog.temperatures[5] = 3_000;
    let info = written(|out| reference::write_analog(&six, 0x00, out)).unwrap();
    read(&mut table, (0x02, 0x42, 0x02), &say(0x02, 0x00, &info)).unwrap();
    assert_eq!(table[0].analog, six.analog);
    table[0].alarm.cells = [0xF0; 16];
    table[0].alarm.cell_count = 16;
    let info = [&[0x00, 0x02][..], &h("01 01 01 02 000000 0000000000")].concat();
    read(&mut table, (0x02, 0x44, 0x02), &say(0x02, 0x00, &info)).unwrap();
    assert_eq!(table[0].alarm.cells[..3], [0x01, 0, 0]);
    assert_eq!(table[0].alarm.cells[3..], [0; 13]);
    assert_eq!(table[0].alarm.temperatures, [0x02, 0, 0, 0, 0, 0, 0, 0]);
}

#[test]
fn d14_a_reply_does_not_name_its_command() {
    let mut table = stack(&[0x02]);
    // 44H with M = 1, N = 6, first temperature code 01, status 1 02: also a right 42H reply.
    let info = [
        &[0x00, 0x02][..],
        &h("01 00 06 010000000000 000000 0200000000"),
    ]
    .concat();
    let reply = say(0x02, 0x00, &info);
    assert!(read(&mut table, (0x02, 0x44, 0x02), &reply).is_ok());
    assert!(read(&mut table, (0x02, 0x42, 0x02), &reply).is_ok());
    assert_eq!(
        (table[0].analog.cell_count, table[0].analog.cells[0]),
        (1, 6)
    );
    let mut fresh = stack(&[0x02, 0x03]);
    let version = answered(&mut fresh, &ask(0x02, 0x4F, &[]));
    assert_eq!(version, answered(&mut fresh, &ask(0x02, 0x95, &[0x02])));
}

#[test]
fn d15_tilde_or_cr_inside() {
    let mut table = stack(&[0x02]);
    let good = say(0x02, 0x00, &analog_info(0x02));
    for byte in [0x7E, 0x0D] {
        let mut bad = good.clone();
        bad[20] = byte;
        assert_eq!(
            read_or_refuse(&mut table, (0x02, 0x42, 0x02), &bad),
            Err(NoHexDigit(20))
        );
    }
    for byte in [b'0', 0x7E, 0x0D, 0xFF] {
        let long = vec![byte; 4_111];
        assert_eq!(read(&mut table, (0x02, 0x42, 0x02), &long), Err(1));
    }
}

#[test]
fn d15_the_place_is_handed_on() {
    let mut table = stack(&[0x02]);
    let asked = (0x02, 0x42, 0x02);
    let good = say(0x02, 0x00, &analog_info(0x02));
    for place in [0, 1, 11, 12, good.len() - 1] {
        for (byte, refusal) in [(b'c', LowerCase(place)), (0x00, NoHexDigit(place))] {
            let mut bad = good.clone();
            bad[place] = byte;
            // What is behind the first bad one does not count.
            if place < 12 {
                bad[12] = b'c' ^ byte;
            }
            assert_eq!(read_or_refuse(&mut table, asked, &bad), Err(refusal));
            assert_eq!(read_or_refuse(&mut table, asked, &bad[..15]), Err(Plain(3)));
            bad.resize(4_111, b'0');
            assert_eq!(read_or_refuse(&mut table, asked, &bad), Err(Plain(1)));
        }
    }
    // What comes before the stretch is judged comes before.
    let bad = b"2102460080260002010d45010BAA00000D45FDE802FDE80007F578";
    assert_eq!(
        read_or_refuse(&mut table, (0x03, 0x42, 0x03), bad),
        Err(Plain(23))
    );
    assert_eq!(read_or_refuse(&mut table, asked, bad), Err(LowerCase(19)));
}

#[test]
fn d16_what_is_handed_back() {
    let mut table = stack(&[0x02]);
    let analog = stretch(&frame(
        0x35,
        0x02,
        0x46,
        0x00,
        &[&[0x11][..], &analog_info(0x02)[1..]].concat(),
    ));
    let reply = read(&mut table, (0x02, 0x42, 0x02), &analog).unwrap();
    assert_eq!(
        reply,
        Reply {
            ver: 0x35,
            code: 0,
            flag: Some(0x11),
            maker: None
        }
    );
    let alarm = say(0x02, 0x00, &alarm_info(0x02));
    let reply = read(&mut table, (0x02, 0x44, 0x02), &alarm).unwrap();
    assert_eq!(
        reply,
        Reply {
            flag: Some(0x00),
            ..plain(0)
        }
    );
    let version = say(0x02, 0x00, &h("02 0102030405"));
    assert_eq!(read(&mut table, (0x02, 0x96, 0x02), &version), Ok(plain(0)));
    assert_eq!(
        read(&mut table, (0x02, 0x51, 0x02), &say(0x02, 0x04, &[])),
        Ok(plain(4))
    );
}

#[test]
fn d17_marks_are_never_touched() {
    for (on, link_fault) in [(0, 0), (0, 1), (1, 0), (1, 1)] {
        let mut table = blank(&[0x02, 0x03]);
        table[0].on = on;
        table[0].link_fault = link_fault;
        let source = module(0x02);
        let limits = written(|out| reference::write_limits(&source, out)).unwrap();
        let serial = written(|out| reference::write_serial(&source, out)).unwrap();
        let version = written(|out| reference::write_version(&source, out)).unwrap();
        let replies = [
            (0x42, analog_info(0x02)),
            (0x44, alarm_info(0x02)),
            (0x47, parameters_info(0x02)),
            (0x92, limits),
            (0x93, serial),
            (0x96, version),
        ];
        for (cid2, info) in replies {
            assert!(read(&mut table, (0x02, cid2, 0x02), &say(0x02, 0x00, &info)).is_ok());
        }
        assert_eq!(
            table[0],
            Module {
                on,
                link_fault,
                ..source
            }
        );
        assert_eq!(table[1], blank(&[0x03])[0]);
    }
    let mut table = blank(&[0x02, 0x03]);
    table[0].link_fault = 1;
    let info = group_info(&[analog_record(0x02), analog_record(0x03)]);
    assert!(read(&mut table, (0x02, 0x42, 0xFF), &say(0x02, 0x00, &info)).is_ok());
    assert_eq!((table[0].link_fault, table[1].link_fault), (1, 0));
    assert_eq!(table[0].analog, module(0x02).analog);
    assert_eq!(table[0].limits, Limits::default());
    assert_eq!(table[0].parameters, Parameters::default());
}

#[test]
fn d18_module_limits_are_unsigned() {
    // D002H is 53,250 mV as a module voltage; as a signed number it would be negative.
    let mut table = blank(&[0x02]);
    let info = h("00 D002 D002 D002 D002 D002 D002 D002 D002 D002 D002 D002 D002");
    read(&mut table, (0x02, 0x47, 0x02), &say(0x02, 0x00, &info)).unwrap();
    let signed = 0xD002_u16 as i16;
    assert_eq!(signed, -12_286);
    assert_eq!(
        table[0].parameters,
        Parameters {
            cell_high_voltage: signed,
            cell_low_voltage: signed,
            cell_under_voltage: signed,
            charge_high_temperature: signed,
            charge_low_temperature: signed,
            charge_current: signed,
            module_high_voltage: 53_250,
            module_low_voltage: 53_250,
            module_under_voltage: 53_250,
            discharge_high_temperature: signed,
            discharge_low_temperature: signed,
            discharge_current: signed,
        }
    );
    let again = written(|out| reference::write_parameters(&table[0], 0x00, out));
    assert_eq!(again, Ok(info));
}

#[test]
fn d19_twelve_words_in_the_order_of_the_rows() {
    // Another value in each row: the third is the cell's, the ninth the module's.
    let mut table = blank(&[0x02, 0x03]);
    let info = h("00 0001 0002 0003 0004 0005 0006 0007 0008 0009 000A 000B 000C");
    read(&mut table, (0x03, 0x47, 0x03), &say(0x03, 0x00, &info)).unwrap();
    let mut expected = blank(&[0x02, 0x03]);
    expected[1].parameters = Parameters {
        cell_high_voltage: 1,
        cell_low_voltage: 2,
        cell_under_voltage: 3,
        charge_high_temperature: 4,
        charge_low_temperature: 5,
        charge_current: 6,
        module_high_voltage: 7,
        module_low_voltage: 8,
        module_under_voltage: 9,
        discharge_high_temperature: 10,
        discharge_low_temperature: 11,
        discharge_current: 12,
    };
    // The record's other fields stay, and so do the other records.
    assert_eq!(table, expected);
    let mut whole = stack(&[0x02, 0x03]);
    read(&mut whole, (0x03, 0x47, 0x03), &say(0x03, 0x00, &info)).unwrap();
    let mut only = stack(&[0x02, 0x03]);
    only[1].parameters = expected[1].parameters;
    assert_eq!(whole, only);
    // 25 bytes, not one less or more: 16, then 17; an empty INFO is 16 too.
    let asked = (0x03, 0x47, 0x03);
    for length in 0..25 {
        let reply = say(0x03, 0x00, &info[..length]);
        assert_eq!(read(&mut table, asked, &reply), Err(16), "{length}");
    }
    let longer = [&info[..], &[0x00]].concat();
    assert_eq!(read(&mut table, asked, &say(0x03, 0x00, &longer)), Err(17));
}

#[test]
fn d20_no_command_with_47h() {
    // Whatever Command is given with the question, and whatever stands behind the flag: no 34, no 21.
    let info = parameters_info(0x03);
    for command in 0..=255 {
        let mut table = blank(&[0x02, 0x03]);
        table[0].on = 0;
        let asked = (0x03, 0x47, command);
        assert!(read(&mut table, asked, &say(0x03, 0x00, &info)).is_ok());
        assert_eq!(table[1].parameters, module(0x03).parameters);
        assert_eq!(table[0].parameters, Parameters::default());
        let other = [&[0x11, command][..], &info[2..]].concat();
        assert_eq!(
            read(&mut table, asked, &say(0x03, 0x00, &other)),
            Ok(Reply {
                flag: Some(0x11),
                ..plain(0x00)
            })
        );
        let high = table[1].parameters.cell_high_voltage.to_be_bytes()[0];
        assert_eq!(high, command);
    }
    // FFH at the master is no group: the master's record alone is read.
    let mut table = blank(&[0x02, 0x03]);
    let reply = say(0x02, 0x00, &parameters_info(0x02));
    assert!(read(&mut table, (0x02, 0x47, 0xFF), &reply).is_ok());
    assert_eq!(table[0].parameters, module(0x02).parameters);
    assert_eq!(table[1].parameters, Parameters::default());
    // A code other than 00H changes nothing, and has no flag.
    let before = table.clone();
    for code in [0x01, 0x04, 0x05, 0x91] {
        let reply = say(0x02, code, &[]);
        assert_eq!(read(&mut table, (0x02, 0x47, 0), &reply), Ok(plain(code)));
    }
    assert_eq!(table, before);
}
