//! Stretches and buffers, made for calls. The frames are the reference's.

use reference::frame::{self, judge, write_frame, Header};
use reference::hex;
use reference::seeded::Seeded;

/// The digits, and [`BAD`].
pub const CHARACTERS: [u8; 32] = *b"0123456789ABCDEFabcdef~\r/:@G`g\0\xFF";
/// Characters that are not hex: in lower case, SOI and CR, next to digits and letters, the least and
/// the greatest.
pub const BAD: [u8; 16] = *b"abcdef~\r/:@G`g\0\xFF";

/// The stretch of a frame: the bytes between SOI and CR. INFO above 2,047 bytes gives none.
pub fn stretch(header: [u8; 4], info: &[u8]) -> Vec<u8> {
    let [ver, adr, cid1, cid2] = header;
    let header = Header {
        ver,
        adr,
        cid1,
        cid2,
    };
    let mut out = vec![0; 18 + 2 * info.len()];
    match write_frame(header, info, &mut out) {
        Ok(length) => out[1..length - 1].to_vec(),
        Err(_) => Vec::new(),
    }
}

/// The four bytes and INFO of a stretch that is a frame.
pub fn opened(stretch: &[u8]) -> Option<([u8; 4], Vec<u8>)> {
    let heard = judge(stretch).ok()?;
    let Header {
        ver,
        adr,
        cid1,
        cid2,
    } = heard.header;
    Some(([ver, adr, cid1, cid2], frame::info(stretch, heard)))
}

/// The stretch with its last four characters made the right CHKSUM.
pub fn sealed(stretch: &[u8]) -> Vec<u8> {
    let mut sealed = stretch.to_vec();
    if let Some(end) = stretch.len().checked_sub(4) {
        let check = frame::chksum(&stretch[..end]);
        sealed[end..].copy_from_slice(&hex::characters(&check.to_be_bytes()));
    }
    sealed
}

/// The stretch with both LENGTH and CHKSUM made right for the characters that it has.
pub fn sealed_with_length(stretch: &[u8]) -> Vec<u8> {
    let mut sealed_twice = stretch.to_vec();
    if let Some(lenid) = stretch.len().checked_sub(16) {
        let length = frame::length(lenid as u16);
        sealed_twice[8..12].copy_from_slice(&hex::characters(&length.to_be_bytes()));
    }
    sealed(&sealed_twice)
}

/// INFO of so many bytes with which the frame's sum is a multiple of 65,536, so that its CHKSUM is
/// 0000; none where no INFO of that length has it.
pub fn info_for_check_0000(header: [u8; 4], length: usize) -> Option<Vec<u8>> {
    let mut characters = vec![b'0'; 2 * length];
    // How much the characters must grow: the CHKSUM of the frame with zeros only.
    let zeros = stretch(header, &vec![0; length]);
    let mut missing = usize::from(frame::chksum(zeros.get(..zeros.len().checked_sub(4)?)?));
    for character in &mut characters {
        let grown = match missing {
            0..=9 => missing,
            10..=21 => 9,
            _ => 22,
        };
        *character += grown as u8;
        missing -= grown;
    }
    match missing {
        0 => hex::bytes(&characters),
        _ => None,
    }
}

/// A lent buffer, with contents of its own.
pub fn buffer(seeded: &mut Seeded, length: usize) -> Vec<u8> {
    let fill = seeded.byte();
    let mut buffer = vec![fill; length];
    if seeded.once_in(4) {
        buffer.fill_with(|| seeded.byte());
    }
    buffer
}

/// The reply's stretch that the stand-in gives to a question from the table; with a table that gives
/// none, a reply without INFO.
pub fn reply(table: &[reference::Module], question: linked::Question) -> Vec<u8> {
    let linked::Question { adr, cid2, command } = question;
    let info = match cid2 {
        0x47 | 0x4F | 0x51 => vec![],
        _ => vec![command],
    };
    let station = reference::Station {
        ver: 0x20,
        maker: core::array::from_fn(|place| place as u8 + b'A'),
    };
    let asked = stretch([station.ver, adr, 0x46, cid2], &info);
    let mut out = vec![0; reference::standin::ROOM];
    match reference::answer(&mut table.to_vec(), &station, &asked, &mut out) {
        reference::Answer::Reply(length) => out[1..length - 1].to_vec(),
        _ => stretch([station.ver, adr, 0x46, 0x00], &[]),
    }
}
