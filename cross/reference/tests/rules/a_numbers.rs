//! Readings A: numbers checked. A4 says only where the demands stand.

use crate::common::*;
use reference::frame::chksum;
use reference::Refusal::Plain;
use reference::{judge, tenths_celsius, Event};

/// The reply at the end of V3.3, restored from the table below it (PROTOCOL 12.9), without CHKSUM.
const RESTORED: &str = "20024600F07A 1102 0F \
    0D45 0D44 0D45 0D44 0D45 0D44 0D3E 0D45 0D4A 0D4A 0D4B 0D4A 0D4A 0D4A 0D4A \
    05 0BC3 0BC3 0BC3 0BCD 0BCD 0000 C725 FFFF 04 FFFF 0002 00CA58 012110";

/// The same reply as V3.3 prints it (PROTOCOL 12.8).
const PRINTED: &str = "7E 32 30 30 32 34 36 30 30 46 30 37 41 31 31 30 32 30 46 30 44 34 35 30 \
    44 34 34 30 44 34 35 30 44 34 34 41 30 44 34 41 30 44 34 42 30 44 34 41 30 44 34 41 30 44 34 \
    41 30 35 30 42 43 33 30 42 43 33 30 42 43 33 30 42 43 44 30 42 43 44 30 30 30 43 37 32 35 46 \
    46 46 30 34 46 46 46 30 30 30 32 30 30 43 41 35 38 30 31 32 31 31 30 45 31 41 32 0D";

#[test]
fn a_largest_reply() {
    let mut table = stack(&(2..=13).collect::<Vec<u8>>());
    for module in &mut table {
        module.analog.cell_count = 16;
        module.analog.temperature_count = 8;
        module.analog.total = 74_000;
    }
    let reply = answered(&mut table, &ask(0x02, 0x42, &[0xFF]));
    assert_eq!(reply.len(), 1_630);
}

#[test]
fn a1_worked_example() {
    assert_eq!(
        numbers(&h(
            "7E 32 30 30 32 34 36 34 32 45 30 30 32 30 32 46 44 33 33 0D"
        )),
        [0]
    );
    assert_eq!(
        frame(0x20, 0x02, 0x46, 0x42, &[0x02]),
        b"~20024642E00202FD33\r"
    );
    // As printed: 112 characters where LENID 122 needs 138.
    let printed = h(PRINTED);
    assert_eq!(printed.len() - 2, 112);
    assert_eq!(numbers(&printed), [7]);
    // Restored: the rule asks for E27A.
    let characters: Vec<u8> = RESTORED.bytes().filter(|c| *c != b' ').collect();
    assert_eq!(characters.len(), 12 + 122);
    assert_eq!(chksum(&characters), 0xE27A);
    let as_printed = [&characters[..], b"E1A2"].concat();
    assert_eq!(judge(&as_printed), Err(Plain(8)));
    let right = [&characters[..], b"E27A"].concat();
    let mut table = stack(&[0x02]);
    let reply = read(&mut table, (0x02, 0x42, 0x02), &right).unwrap();
    assert_eq!(
        (reply.ver, reply.code, reply.flag),
        (0x20, 0x00, Some(0x11))
    );
    let analog = table[0].analog;
    assert_eq!(analog.cell_count, 15);
    assert_eq!(&analog.cells[..2], [3_397, 3_396]);
    assert_eq!(&analog.cells[14..], [3_402, 0]);
    let sum: i32 = analog.cells.iter().map(|&cell| i32::from(cell)).sum();
    assert_eq!(sum, 50_981);
    assert_eq!(analog.temperature_count, 5);
    let celsius: Vec<i32> = analog.temperatures[..5]
        .iter()
        .map(|&t| tenths_celsius(t))
        .collect();
    assert_eq!(celsius, [280, 280, 280, 290, 290]);
    assert_eq!(analog.current, 0);
    assert_eq!(analog.voltage, 50_981);
    assert_eq!((analog.remaining, analog.total), (51_800, 74_000));
    assert_eq!(analog.cycles, 2);
    // Written again it is the same reply.
    let info = written(|out| reference::write_analog(&table[0], 0x11, out)).unwrap();
    assert_eq!(stretch(&frame(0x20, 0x02, 0x46, 0x00, &info)), right);
}

#[test]
fn a2_odd_lenid_of_the_printed_line() {
    assert_eq!(judge(b"1203400456ABCEFEFC71"), Err(Plain(6)));
    assert_eq!(judge(b"1203400456ABCEFEFC72"), Err(Plain(6)));
    assert_eq!(judge(b"1203400456ABCDFEFC72"), Err(Plain(6)));
}

/// Whether some byte in the place of one character lets a frame out of any part of the stretch.
fn slips_through(frame: &[u8], place: usize, byte: u8) -> bool {
    let mut changed = frame.to_vec();
    changed[place] = byte;
    changed[place] != frame[place]
        && events(&changed)
            .0
            .iter()
            .any(|event| matches!(event, Event::Frame(_)))
}

#[test]
fn a3_one_changed_character() {
    // A short frame: every place, every byte.
    let short = frame(0x21, 0x02, 0x46, 0x42, &[0x02]);
    for place in 1..short.len() - 1 {
        for byte in 0..=255 {
            assert!(!slips_through(&short, place, byte), "{place} {byte}");
        }
    }
    // 936 characters of the greatest sum, and with a frame at the end of INFO.
    let tail = h("FFFFFFFF0000");
    let greatest = frame(0xFF, 0xFF, 0xFF, 0xFF, &[0xFF; 468]);
    let nested = frame(0xFF, 0xFF, 0xFF, 0xFF, &[&[0xFF; 462][..], &tail].concat());
    for long in [greatest, nested] {
        assert_eq!(long.len(), 18 + 936);
        for place in 1..long.len() - 1 {
            for byte in [0x7E, 0x0D, b'0', b'1', b'8', b'E', b'a', 0x00, 0xFF] {
                assert!(!slips_through(&long, place, byte), "{place} {byte}");
            }
        }
    }
}

#[test]
fn a3_is_false_from_938_characters_on() {
    // The first 938 characters between the tildes sum to 65,536; the last 16 are a frame's.
    let mut info = vec![0xFF; 469];
    info[463..].copy_from_slice(&h("20 02 46 4F 0000"));
    let cut = |info: &[u8]| {
        let characters = stretch(&frame(0xFF, 0xFF, 0xFF, 0xFF, info));
        characters[..938].iter().map(|&c| u32::from(c)).sum::<u32>()
    };
    let excess = cut(&info) - 65_536;
    assert_eq!(excess, 82);
    // F becomes 0 three times (22 each), then 6 (16 less).
    info[0] = 0x00;
    info[1] = 0x06;
    assert_eq!(cut(&info), 65_536);
    let mut long = frame(0xFF, 0xFF, 0xFF, 0xFF, &info);
    assert_eq!(numbers(&long), [0]);
    long[938] = 0x7E;
    assert_eq!(numbers(&long), [2, 0]);
    assert!(long.ends_with(b"~2002464F0000FD98\r"));
}

#[test]
fn a5_cycles_two_bytes_version_five() {
    let module = module(0x02);
    let analog = written(|out| reference::write_analog(&module, 0, out)).unwrap();
    assert_eq!(&analog[analog.len() - 2..], [0, 2]);
    let version = written(|out| reference::write_version(&module, out)).unwrap();
    assert_eq!(version, [2, 1, 2, 3, 4, 5]);
}
