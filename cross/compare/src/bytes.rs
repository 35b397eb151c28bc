//! Bytes taken one after the other; past the end they are 0.

/// Bytes and a place in them.
#[derive(Clone, Debug)]
pub struct Bytes<'a> {
    rest: &'a [u8],
}

impl<'a> Bytes<'a> {
    /// At the first byte.
    pub fn new(rest: &'a [u8]) -> Self {
        Bytes { rest }
    }

    /// Whether no byte is left.
    pub fn at_end(&self) -> bool {
        self.rest.is_empty()
    }

    /// The next byte.
    pub fn byte(&mut self) -> u8 {
        match self.rest.split_first() {
            Some((&byte, rest)) => {
                self.rest = rest;
                byte
            }
            None => 0,
        }
    }

    /// The next two bytes, high byte first.
    pub fn word(&mut self) -> u16 {
        u16::from_be_bytes(self.row())
    }

    /// The next four bytes, high byte first.
    pub fn long(&mut self) -> u32 {
        u32::from_be_bytes(self.row())
    }

    /// The next eight bytes, high byte first.
    pub fn size(&mut self) -> usize {
        u64::from_be_bytes(self.row()) as usize
    }

    /// So many bytes.
    pub fn row<const N: usize>(&mut self) -> [u8; N] {
        core::array::from_fn(|_| self.byte())
    }

    /// So many bytes, or as many as are left.
    pub fn some(&mut self, count: usize) -> Vec<u8> {
        let (taken, rest) = self.rest.split_at(count.min(self.rest.len()));
        self.rest = rest;
        taken.to_vec()
    }
}
