//! Readings E: the stand-in.

use crate::common::*;
use reference::{answer, Answer};

/// A right 42H question with the wrong LCHKSUM.
fn bad_lchksum(adr: u8) -> Vec<u8> {
    let mut question = ask(adr, 0x42, &[adr]);
    question[8] = b'0';
    question
}

#[test]
fn e1_32_and_31_before_silence() {
    let mut table = stack(&[0x02]);
    let mut broken = stack(&[0x03, 0x02]);
    for question in [&b""[..], b"g", &ask(0x05, 0x42, &[0x05]), &[b'0'; 4_111]] {
        let mut short = vec![5; 4_111];
        let mut enough = vec![5; 4_112];
        let station = station();
        assert_eq!(
            answer(&mut table, &station, question, &mut short),
            Answer::Refused(32)
        );
        assert_eq!(
            answer(&mut broken, &station, question, &mut short),
            Answer::Refused(32)
        );
        assert_eq!(
            answer(&mut broken, &station, question, &mut enough),
            Answer::Refused(31)
        );
        assert_eq!(
            answer(&mut table, &station, question, &mut enough),
            Answer::Silence
        );
        assert_eq!((short, enough), (vec![5; 4_111], vec![5; 4_112]));
    }
    assert_eq!(table, stack(&[0x02]));
    assert_eq!(broken, stack(&[0x03, 0x02]));
}

#[test]
fn e2_silence_for_who_is_not_there() {
    let mut table = stack(&[0x02, 0x03]);
    table[1].on = 0;
    assert_eq!(code(&mut table, &bad_lchksum(0x02)), Some(0x03));
    assert_eq!(code(&mut table, &bad_lchksum(0x03)), None);
    assert_eq!(code(&mut table, &bad_lchksum(0x04)), None);
    for cid2 in 0..=255 {
        assert_eq!(code(&mut table, &ask(0x03, cid2, &[])), None);
        assert_eq!(code(&mut table, &ask(0x03, cid2, &[0x03])), None);
        assert_eq!(code(&mut table, &ask(0x12, cid2, &[0x12])), None);
    }
}

#[test]
fn e3_silence_is_an_answer_of_its_own() {
    let mut table = stack(&[0x02]);
    let question = ask(0x02, 0x4F, &[]);
    let mut lower_case = question.clone();
    lower_case[0] = b'a';
    let mut no_hex_digit = question.clone();
    no_hex_digit[0] = b'G';
    for stretch in [
        &question[..15],
        &lower_case,
        &no_hex_digit,
        &[b'0'; 4_111],
        &ask(0x03, 0x4F, &[]),
    ] {
        assert_eq!(code(&mut table, stretch), None);
    }
    assert_eq!(code(&mut table, &question), Some(0x00));
    assert_eq!(table, stack(&[0x02]));
}

#[test]
fn e3_silence_for_every_bad_character() {
    let mut table = stack(&[0x02]);
    let question = ask(0x02, 0x42, &[0x02]);
    for place in 0..question.len() {
        for bad in [b'a', b'f', b'g', b'G', b'@', b'/', 0x7E, 0x0D, 0x00, 0xFF] {
            let mut changed = question.clone();
            changed[place] = bad;
            assert_eq!(code(&mut table, &changed), None, "{place} {bad}");
        }
    }
}

#[test]
fn e4_steps_1_to_3() {
    let mut table = stack(&[0x02]);
    // 5: 03H, also with an odd LENID, a wrong count and a wrong sum.
    assert_eq!(code(&mut table, b"21024642E00302FD32"), Some(0x03));
    // 6 and 7: 05H, before 8.
    assert_eq!(code(&mut table, b"21024642D00302FD32"), Some(0x05));
    assert_eq!(code(&mut table, b"21024642C00402FD32"), Some(0x05));
    // 8: 02H, before CID1, CID2 and VER.
    assert_eq!(code(&mut table, b"20024794E00202FD31"), Some(0x02));
}

#[test]
fn e5_steps_4_to_7() {
    let mut table = stack(&[0x02]);
    let heard = |table: &mut [_], ver, cid1, cid2, info: &[u8]| {
        code(table, &stretch(&frame(ver, 0x02, cid1, cid2, info)))
    };
    // CID1 before CID2 before VER before LENID.
    assert_eq!(heard(&mut table, 0x20, 0x47, 0x94, &[1, 2]), Some(0x05));
    assert_eq!(heard(&mut table, 0x20, 0x46, 0x94, &[1, 2]), Some(0x04));
    assert_eq!(heard(&mut table, 0x20, 0x46, 0x99, &[1, 2]), Some(0x04));
    assert_eq!(heard(&mut table, 0x20, 0x46, 0x42, &[1, 2]), Some(0x01));
    assert_eq!(heard(&mut table, 0x21, 0x46, 0x42, &[1, 2]), Some(0x05));
    assert_eq!(heard(&mut table, 0x21, 0x46, 0x42, &[]), Some(0x05));
    assert_eq!(heard(&mut table, 0x21, 0x46, 0x51, &[2]), Some(0x05));
    assert_eq!(heard(&mut table, 0x20, 0x46, 0x51, &[]), Some(0x01));
    assert_eq!(heard(&mut table, 0x20, 0x46, 0x4F, &[]), Some(0x00));
    assert_eq!(heard(&mut table, 0x20, 0x46, 0x4F, &[2]), Some(0x05));
    let served = [0x42, 0x44, 0x47, 0x4F, 0x51, 0x92, 0x93, 0x95, 0x96];
    for cid2 in (0..=255).filter(|cid2| !served.contains(cid2)) {
        assert_eq!(heard(&mut table, 0x20, 0x46, cid2, &[]), Some(0x04));
    }
}

#[test]
fn e6_steps_8_and_9() {
    let mut table = stack(&[0x02, 0x03]);
    for cid2 in [0x42, 0x44, 0x92, 0x93, 0x95, 0x96] {
        assert_eq!(code(&mut table, &ask(0x03, cid2, &[0xFF])), Some(0x06));
        let group = cid2 == 0x42 || cid2 == 0x44;
        let expected = if group { 0x00 } else { 0x06 };
        assert_eq!(code(&mut table, &ask(0x02, cid2, &[0xFF])), Some(expected));
        for command in (0..=0xFE).filter(|&command| command != 0x02) {
            assert_eq!(code(&mut table, &ask(0x02, cid2, &[command])), Some(0x90));
        }
    }
    assert_eq!(table, stack(&[0x02, 0x03]));
}

#[test]
fn e7_step_10_link_fault() {
    let mut table = stack(&[0x02, 0x03, 0x04]);
    table[1].link_fault = 1;
    for cid2 in [0x42, 0x44, 0x92, 0x93, 0x95, 0x96] {
        assert_eq!(code(&mut table, &ask(0x03, cid2, &[0x03])), Some(0x91));
        // 90H and 06H come before.
        assert_eq!(code(&mut table, &ask(0x03, cid2, &[0x02])), Some(0x90));
        assert_eq!(code(&mut table, &ask(0x03, cid2, &[0xFF])), Some(0x06));
    }
    assert_eq!(table[1].on, 1);
    assert_eq!(code(&mut table, &ask(0x03, 0x4F, &[])), Some(0x00));
    assert_eq!(code(&mut table, &ask(0x03, 0x51, &[])), Some(0x00));
    assert_eq!(code(&mut table, &ask(0x02, 0x42, &[0xFF])), Some(0x91));
    assert_eq!(code(&mut table, &ask(0x02, 0x44, &[0xFF])), Some(0x91));
    assert_eq!(code(&mut table, &ask(0x02, 0x42, &[0x02])), Some(0x00));
    table[1].on = 0;
    assert_eq!(code(&mut table, &ask(0x02, 0x42, &[0xFF])), Some(0x00));
}

#[test]
fn e8_turn_off() {
    let mut table = stack(&[0x02, 0x03]);
    let reply = answered(&mut table, &ask(0x02, 0x95, &[0x02]));
    assert_eq!(reply, b"~210246000000FDB1\r");
    let mut expected = stack(&[0x02, 0x03]);
    expected[0].on = 0;
    assert_eq!(table, expected);
    assert_eq!(code(&mut table, &ask(0x02, 0x95, &[0x02])), None);
    assert_eq!(code(&mut table, &ask(0x02, 0x42, &[0xFF])), None);
    assert_eq!(code(&mut table, &ask(0x02, 0x4F, &[])), None);
    assert_eq!(code(&mut table, &ask(0x03, 0x42, &[0x03])), Some(0x00));
    assert_eq!(table, expected);
}

#[test]
fn e9_ver_and_adr_of_a_reply() {
    let mut table = stack(&[0x12, 0x15]);
    let wrong_ver = stretch(&frame(0x77, 0x15, 0x46, 0x42, &[0x15]));
    assert_eq!(
        answered(&mut table, &wrong_ver),
        frame(0x21, 0x15, 0x46, 0x01, &[])
    );
    let version = stretch(&frame(0x77, 0x15, 0x46, 0x4F, &[]));
    assert_eq!(
        answered(&mut table, &version),
        frame(0x21, 0x15, 0x46, 0x00, &[])
    );
    let wrong_cid1 = stretch(&frame(0x21, 0x15, 0x99, 0x42, &[]));
    assert_eq!(
        answered(&mut table, &wrong_cid1),
        frame(0x21, 0x15, 0x46, 0x05, &[])
    );
    let maker = answered(&mut table, &ask(0x12, 0x51, &[]));
    assert_eq!(maker, frame(0x21, 0x12, 0x46, 0x00, &station().maker));
}

#[test]
fn e10_flag_is_00() {
    let mut table = stack(&[0x02, 0x03]);
    for cid2 in [0x42, 0x44] {
        for command in [0x02, 0xFF] {
            let reply = answered(&mut table, &ask(0x02, cid2, &[command]));
            assert_eq!(reply[13..15], *b"00");
            assert_eq!(reply[15..17], *format!("{command:02X}").as_bytes());
        }
    }
    // 47H has a flag and no Command.
    table[0].parameters.cell_high_voltage = 0x1234;
    let reply = answered(&mut table, &ask(0x02, 0x47, &[]));
    assert_eq!(reply[13..19], *b"001234");
    // No flag byte with 92H, 93H and 96H.
    for cid2 in [0x92, 0x93, 0x96] {
        let reply = answered(&mut table, &ask(0x03, cid2, &[0x03]));
        assert_eq!(reply[13..15], *b"03");
    }
}

#[test]
fn e11_47h_answers_in_spite_of_a_link_fault() {
    let mut table = stack(&[0x02, 0x03]);
    let question = ask(0x03, 0x47, &[]);
    let without = answered(&mut table, &question);
    for faults in [[0, 1], [1, 0], [1, 1]] {
        (table[0].link_fault, table[1].link_fault) = (faults[0], faults[1]);
        assert_eq!(answered(&mut table, &question), without);
    }
    assert_eq!(code(&mut table, &ask(0x03, 0x42, &[0x03])), Some(0x91));
    assert_eq!(code(&mut table, &ask(0x03, 0x92, &[0x03])), Some(0x91));
    // What is off stays silent.
    table[1].on = 0;
    assert_eq!(code(&mut table, &question), None);
}

#[test]
fn e12_ver_and_lenid_of_47h() {
    let mut table = stack(&[0x02, 0x03]);
    let heard = |table: &mut [_], ver, info: &[u8]| {
        code(table, &stretch(&frame(ver, 0x02, 0x46, 0x47, info)))
    };
    assert_eq!(heard(&mut table, 0x21, &[]), Some(0x00));
    for ver in (0..=255).filter(|&ver| ver != 0x21) {
        assert_eq!(heard(&mut table, ver, &[]), Some(0x01));
    }
    // VER before LENID; a Command is one byte too many, FFH at the master too.
    assert_eq!(heard(&mut table, 0x20, &[0x02]), Some(0x01));
    for command in 0..=255 {
        assert_eq!(heard(&mut table, 0x21, &[command]), Some(0x05));
    }
    assert_eq!(heard(&mut table, 0x21, &[0x02, 0x02]), Some(0x05));
    assert_eq!(table, stack(&[0x02, 0x03]));
}
