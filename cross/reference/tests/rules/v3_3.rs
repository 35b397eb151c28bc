//! V3.3's own words and examples, where docs/PROTOCOL.md says the same in other words.

use crate::common::*;
use reference::frame::{chksum, lchksum, length};
use reference::module::{is_address, is_master};
use reference::seeded::Seeded;
use reference::{hex, rule};

/// "each byte contains 2 ASCII. E.g. CID2 = 4BH, transfer in 2 byte, 34H, and 42H"
#[test]
fn two_characters_for_each_byte() {
    assert_eq!(hex::characters(&[0x4B]), [0x34, 0x42]);
    let mut digits = 0;
    for character in 0..=255 {
        match hex::digit(character) {
            Some(digit) => {
                digits += 1;
                assert_eq!(hex::character(digit), character);
                assert_eq!(char::from(character).to_digit(16), Some(u32::from(digit)));
                assert!(!character.is_ascii_lowercase());
            }
            None => assert!(!b"0123456789ABCDEF".contains(&character)),
        }
    }
    assert_eq!(digits, 16);
    for byte in 0..=255 {
        let characters = hex::characters(&[byte]);
        assert_eq!(characters, format!("{byte:02X}").into_bytes());
        assert_eq!(hex::bytes(&characters), Some(vec![byte]));
    }
    assert_eq!(hex::bytes(b"4"), None);
    assert_eq!(hex::bytes(b"4b"), None);
}

/// "add the sum, modulus 16 take remainder, then do a bitwise invert and then plus 1"
#[test]
fn lchksum_is_invert_and_plus_1() {
    for lenid in 0..=0xFFF_u16 {
        let sum = (lenid >> 8) + (lenid >> 4 & 15) + (lenid & 15);
        assert_eq!(lchksum(lenid), (!(sum % 16)).wrapping_add(1) & 0xF);
        assert_eq!(length(lenid) & 0xFFF, lenid);
        assert_eq!(length(lenid) >> 12, lchksum(lenid));
        // So the four digits of LENGTH sum to 0 modulo 16.
        assert_eq!(((length(lenid) >> 12) + sum) % 16, 0);
    }
}

/// "the result modulus 65536 take remainder, then do a bitwise invert and then plus 1"
#[test]
fn chksum_is_invert_and_plus_1() {
    let mut seeded = Seeded::new(10);
    for _ in 0..500 {
        let count = seeded.below(4_107);
        let characters = seeded.characters(count);
        let sum: u64 = characters.iter().map(|&c| u64::from(c)).sum();
        let expected = (!((sum % 65_536) as u16)).wrapping_add(1);
        assert_eq!(chksum(&characters), expected);
    }
    // A remainder of 0 yields 0000.
    assert_eq!(chksum(&[]), 0);
    assert_eq!(chksum(&[64; 1_024]), 0);
    assert_eq!(chksum(&[64; 2_048]), 0);
}

/// "Single group slave 4: ADR = 0x05", "group 3, slave 6: 0x37", "group 2: 0x22"
#[test]
fn addresses() {
    for adr in [0x05, 0x37, 0x22] {
        assert!(is_address(adr));
        assert_eq!(rule(&stack(&[adr])), Ok(()));
    }
    let masters: Vec<u8> = (0..=255).filter(|&adr| is_master(adr)).collect();
    assert_eq!(masters, h("02 12 22 32 42 52 62 72"));
    assert_eq!((0..=255).filter(|&adr| is_address(adr)).count(), 96);
}

/// "LENID = 40H" for 51H; 02H for a question with Command; the lengths of the tables. 47H has a flag
/// and twelve words.
#[test]
fn lengths_of_replies() {
    let mut table = stack(&[0x02]);
    let mut lenid = |cid2: u8, info: &[u8]| answered(&mut table, &ask(0x02, cid2, info)).len() - 18;
    assert_eq!(lenid(0x4F, &[]), 0);
    assert_eq!(lenid(0x51, &[]), 0x40);
    assert_eq!(lenid(0x42, &[0x02]), 2 * (2 + 13 + 2 * 15 + 2 * 5));
    assert_eq!(lenid(0x44, &[0x02]), 2 * (2 + 10 + 15 + 5));
    assert_eq!(lenid(0x47, &[]), 2 * (1 + 2 * 12));
    assert_eq!(lenid(0x92, &[0x02]), 2 * 10);
    assert_eq!(lenid(0x93, &[0x02]), 2 * 17);
    assert_eq!(lenid(0x96, &[0x02]), 2 * 6);
    assert_eq!(lenid(0x95, &[0x02]), 0);
}
