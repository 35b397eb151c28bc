//! Characters and bytes: `0` to `9` and `A` to `F` only, two for each byte, high digit first
//! (PROTOCOL 2.3).

/// The value of a character. Lower case is not hex here, so a letter `a` to `f` has none.
pub fn digit(character: u8) -> Option<u8> {
    match character {
        b'0'..=b'9' => Some(character - b'0'),
        b'A'..=b'F' => Some(character - b'A' + 10),
        _ => None,
    }
}

/// The character of a digit; only the digit's low four bits count.
pub fn character(digit: u8) -> u8 {
    b"0123456789ABCDEF"[usize::from(digit & 0x0F)]
}

/// The characters of bytes, two for each, high digit first.
pub fn characters(bytes: &[u8]) -> Vec<u8> {
    let mut characters = Vec::new();
    for byte in bytes {
        characters.push(character(byte >> 4));
        characters.push(character(byte & 0x0F));
    }
    characters
}

/// The bytes of characters; none where a character is not hex or one is left over.
pub fn bytes(characters: &[u8]) -> Option<Vec<u8>> {
    if characters.len() % 2 == 1 {
        return None;
    }
    let mut bytes = Vec::new();
    for pair in characters.chunks(2) {
        bytes.push(digit(pair[0])? * 16 + digit(pair[1])?);
    }
    Some(bytes)
}
