//! Judging stretches, and writing frames.

use crate::case::Case;
use crate::difference::{Comparison, Done};
use crate::made;
use reference::hex;
use reference::seeded::Seeded;

/// Both.
pub fn all(comparison: &mut Comparison, seeded: &mut Seeded, rounds: usize) -> Done {
    every_length_and_check(comparison)?;
    every_byte_in_every_place(comparison, seeded)?;
    every_pair_of_bad_characters(comparison, seeded)?;
    every_place_of_the_longest(comparison, seeded)?;
    every_count(comparison, seeded)?;
    seeded_stretches(comparison, seeded, rounds)?;
    every_info(comparison, seeded)?;
    every_buffer(comparison, seeded)?;
    check_0000(comparison, seeded)
}

fn judge(comparison: &mut Comparison, stretch: Vec<u8>) -> Done {
    comparison.call(&Case::Judge { stretch }).map(drop)
}

/// Every LENGTH in a short stretch, in one that has as many characters as LENID says, and in one of
/// two more; every CHKSUM.
fn every_length_and_check(comparison: &mut Comparison) -> Done {
    let right = made::stretch([0x20, 0x02, 0x46, 0x4F], &[]);
    for value in 0..=u16::MAX {
        let characters = hex::characters(&value.to_be_bytes());
        let mut length = right.clone();
        length[8..12].copy_from_slice(&characters);
        judge(comparison, made::sealed(&length))?;
        let lenid = usize::from(value & 0x0FFF);
        if value.is_multiple_of(251) || value >> 12 == reference::frame::lchksum(value & 0x0FFF) {
            length.splice(12..12, vec![b'5'; lenid]);
            judge(comparison, made::sealed(&length))?;
            length.splice(12..12, *b"00");
            judge(comparison, made::sealed(&length))?;
        }
        let mut check = right.clone();
        check[12..].copy_from_slice(&characters);
        judge(comparison, check)?;
    }
    Ok(())
}

fn every_byte_in_every_place(comparison: &mut Comparison, seeded: &mut Seeded) -> Done {
    // 16 to 128 characters: whole multiples of 16 and 64 among them, by which a stretch may be judged
    for length in [0, 1, 2, 8, 16, 20, 24, 25, 55, 56] {
        let right = made::stretch([0x21, 0x02, 0x46, 0x00], &seeded.bytes(length));
        for place in 0..right.len() {
            for byte in 0..=u8::MAX {
                let mut changed = right.clone();
                changed[place] = byte;
                judge(comparison, made::sealed(&changed))?;
                judge(comparison, changed)?;
            }
        }
    }
    Ok(())
}

/// One bad character and another behind it, at every two places: the first of them decides.
fn every_pair_of_bad_characters(comparison: &mut Comparison, seeded: &mut Seeded) -> Done {
    for length in [0, 1, 24, 25] {
        let right = made::stretch([0x21, 0x02, 0x46, 0x00], &seeded.bytes(length));
        for second in 1..right.len() {
            for first in 0..second {
                for pair in [b"aG", b"Ga", b"fc", b"\xFF\0"] {
                    let mut changed = right.clone();
                    changed[first] = pair[0];
                    changed[second] = pair[1];
                    judge(comparison, changed)?;
                }
            }
        }
    }
    Ok(())
}

/// A bad character at every place of the longest stretch, and of one that is too long.
fn every_place_of_the_longest(comparison: &mut Comparison, seeded: &mut Seeded) -> Done {
    let right = made::stretch([0x21, 0x02, 0x46, 0x00], &seeded.bytes(2_047));
    for place in 0..right.len() {
        for bad in [seeded.pick(b"abcdef"), seeded.bad_character()] {
            let mut changed = right.clone();
            changed[place] = bad;
            judge(comparison, changed.clone())?;
            if place % 64 == 0 {
                changed.push(b'0');
                judge(comparison, changed)?;
            }
        }
    }
    Ok(())
}

/// Every number of characters up to more than a frame has, the last one bad too.
fn every_count(comparison: &mut Comparison, seeded: &mut Seeded) -> Done {
    for count in 0..4_130 {
        let characters = seeded.characters(count);
        if count >= 16 {
            judge(comparison, made::sealed_with_length(&characters))?;
        }
        for bad in [b'b', b'G'] {
            let mut bad_at_the_end = characters.clone();
            if let Some(last) = bad_at_the_end.last_mut() {
                *last = bad;
            }
            judge(comparison, bad_at_the_end)?;
        }
        judge(comparison, characters)?;
    }
    Ok(())
}

fn seeded_stretches(comparison: &mut Comparison, seeded: &mut Seeded, rounds: usize) -> Done {
    for _ in 0..60_000 * rounds {
        let length = match seeded.below(40) {
            0 => seeded.below(2_048),
            _ => seeded.below(70),
        };
        let header = core::array::from_fn(|_| seeded.byte());
        let mut stretch = made::stretch(header, &seeded.bytes(length));
        for _ in 0..seeded.below(3) {
            seeded.damage(&mut stretch);
        }
        let stretch = match seeded.below(3) {
            0 if stretch.len() >= 16 => made::sealed_with_length(&stretch),
            1 => made::sealed(&stretch),
            _ => stretch,
        };
        judge(comparison, stretch)?;
    }
    Ok(())
}

fn write(comparison: &mut Comparison, header: [u8; 4], info: &[u8], out: Vec<u8>) -> Done {
    let info = info.to_vec();
    let case = Case::WriteFrame { header, info, out };
    comparison.call(&case).map(drop)
}

/// Every length of INFO up to more than a frame has, with buffers too short by one, right and long.
fn every_info(comparison: &mut Comparison, seeded: &mut Seeded) -> Done {
    for length in 0..2_060 {
        let info = seeded.bytes(length);
        let header = core::array::from_fn(|_| seeded.byte());
        let needed = 18 + 2 * length;
        for room in [0, needed - 1, needed, needed + 1, needed + 50] {
            let out = made::buffer(seeded, room);
            write(comparison, header, &info, out)?;
        }
    }
    Ok(())
}

/// Every buffer up to more than is needed, for short frames of every byte.
fn every_buffer(comparison: &mut Comparison, seeded: &mut Seeded) -> Done {
    for byte in 0..=u8::MAX {
        let info = [byte; 3];
        for room in 0..40 {
            let out = made::buffer(seeded, room);
            let header = [byte, byte.wrapping_add(1), !byte, byte ^ 0x46];
            write(comparison, header, &info[..usize::from(byte % 4)], out)?;
        }
    }
    Ok(())
}

/// Frames whose sum is a multiple of 65,536: a remainder of 0 gives 0000 (PROTOCOL 2.6).
fn check_0000(comparison: &mut Comparison, seeded: &mut Seeded) -> Done {
    let mut seen = 0;
    for length in 0..2_048 {
        let header = core::array::from_fn(|_| seeded.byte());
        let Some(info) = made::info_for_check_0000(header, length) else {
            continue;
        };
        let stretch = made::stretch(header, &info);
        seen += usize::from(stretch.ends_with(b"0000"));
        judge(comparison, stretch.clone())?;
        let mut wrong = stretch;
        let last = wrong.len() - 1;
        wrong[last] = b'1';
        judge(comparison, wrong)?;
        let out = made::buffer(seeded, 18 + 2 * length);
        write(comparison, header, &info, out)?;
    }
    assert!(seen > 1_000, "only {seen} frames with CHKSUM 0000");
    Ok(())
}
