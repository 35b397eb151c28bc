//! The frame: LENGTH, CHKSUM, judging the characters between SOI and CR, writing a frame
//! (PROTOCOL 2).

use crate::{hex, Number, Refusal};

/// SOI, tilde.
pub const SOI: u8 = 0x7E;
/// EOI, CR.
pub const CR: u8 = 0x0D;
/// The most characters between SOI and CR: 16 and the 4,094 of the longest INFO.
pub const MOST_CHARACTERS: usize = 4_110;
/// The most bytes of INFO (PROTOCOL 2.4).
pub const MOST_INFO: usize = 2_047;

/// The four bytes in front (PROTOCOL 2.2).
#[derive(Clone, Copy, Debug, Default, PartialEq, Eq)]
pub struct Header {
    /// The protocol's version.
    pub ver: u8,
    /// The address.
    pub adr: u8,
    /// The control code, 46H for battery data.
    pub cid1: u8,
    /// The command, in a reply the return code.
    pub cid2: u8,
}

/// A frame with its four bytes and LENID.
#[derive(Clone, Copy, Debug, PartialEq, Eq)]
pub struct Frame {
    /// The four bytes.
    pub header: Header,
    /// The number of INFO's characters.
    pub lenid: usize,
}

/// LCHKSUM: the three hex digits of LENID are added modulo 16, and the remainder is taken from 16;
/// remainder 0 gives 0 (PROTOCOL 2.5).
pub fn lchksum(lenid: u16) -> u16 {
    let sum = (lenid >> 8 & 0xF) + (lenid >> 4 & 0xF) + (lenid & 0xF);
    match sum % 16 {
        0 => 0,
        remainder => 16 - remainder,
    }
}

/// LENGTH: LCHKSUM in the top 4 bits, LENID in the low 12.
pub fn length(lenid: u16) -> u16 {
    lchksum(lenid) << 12 | lenid & 0x0FFF
}

/// CHKSUM: the values of all characters after SOI and before CHKSUM are added modulo 65,536, and the
/// remainder is taken from 65,536; remainder 0 gives 0 (PROTOCOL 2.6).
pub fn chksum(characters: &[u8]) -> u16 {
    let mut sum: u32 = 0;
    for &character in characters {
        sum = (sum + u32::from(character)) % 65_536;
    }
    match sum {
        0 => 0,
        remainder => (65_536 - remainder) as u16,
    }
}

/// 4 where the first character that isn't hex is `a` to `f`, 9 where it is anything else, with its
/// place; later ones do not count (PROTOCOL 2.10).
fn bad_character(stretch: &[u8]) -> Option<Refusal> {
    let place = stretch.iter().position(|&c| hex::digit(c).is_none())?;
    Some(match stretch[place] {
        b'a'..=b'f' => Refusal::LowerCase(place),
        _ => Refusal::NoHexDigit(place),
    })
}

/// Judges the bytes between SOI and CR: 1 above 4,110, then 3, then 4 or 9, then 5 to 8, in that order
/// (PROTOCOL 2.10).
pub fn judge(stretch: &[u8]) -> Result<Frame, Refusal> {
    // 1: a 4,111th character arrives.
    if stretch.len() > MOST_CHARACTERS {
        return Err(Refusal::Plain(1));
    }
    // 3: fewer than 16 characters.
    if stretch.len() < 16 {
        return Err(Refusal::Plain(3));
    }
    // 4 or 9: a character that isn't hex.
    if let Some(refusal) = bad_character(stretch) {
        return Err(refusal);
    }
    let head = hex::bytes(&stretch[..12]).expect("twelve hex characters");
    let length = u16::from_be_bytes([head[4], head[5]]);
    let lenid = length & 0x0FFF;
    // 5: LCHKSUM differs.
    if length >> 12 != lchksum(lenid) {
        return Err(Refusal::Plain(5));
    }
    // 6: LENID odd.
    if lenid % 2 == 1 {
        return Err(Refusal::Plain(6));
    }
    // 7: count is not 16 + LENID.
    if stretch.len() != 16 + usize::from(lenid) {
        return Err(Refusal::Plain(7));
    }
    // 8: CHKSUM differs.
    let (summed, check) = stretch.split_at(stretch.len() - 4);
    if check != hex::characters(&chksum(summed).to_be_bytes()) {
        return Err(Refusal::Plain(8));
    }
    let header = Header {
        ver: head[0],
        adr: head[1],
        cid1: head[2],
        cid2: head[3],
    };
    Ok(Frame {
        header,
        lenid: usize::from(lenid),
    })
}

/// INFO's bytes, whose characters are at places 12 to 11 + LENID. Empty for what is no frame.
pub fn info(stretch: &[u8], frame: Frame) -> Vec<u8> {
    let characters = stretch.get(12..12 + frame.lenid).unwrap_or(&[]);
    hex::bytes(characters).unwrap_or_default()
}

/// Writes a frame from SOI to CR and says how long it is: 33 for INFO above 2,047 bytes, then 32 for
/// a buffer shorter than 18 + LENID (PROTOCOL 2.12).
pub fn write_frame(header: Header, info: &[u8], out: &mut [u8]) -> Result<usize, Number> {
    if info.len() > MOST_INFO {
        return Err(33);
    }
    let lenid = 2 * info.len();
    if out.len() < 18 + lenid {
        return Err(32);
    }
    let mut summed = hex::characters(&[header.ver, header.adr, header.cid1, header.cid2]);
    summed.extend(hex::characters(&length(lenid as u16).to_be_bytes()));
    summed.extend(hex::characters(info));
    let mut frame = vec![SOI];
    frame.extend(&summed);
    frame.extend(hex::characters(&chksum(&summed).to_be_bytes()));
    frame.push(CR);
    out[..frame.len()].copy_from_slice(&frame);
    Ok(frame.len())
}
