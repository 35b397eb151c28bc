//! Refusals: a number, and with 4 and 9 a place (PROTOCOL 4).

/// A refusal's number (PROTOCOL 4.2 to 4.4).
pub type Number = u8;

/// A refusal of a stretch, by whoever judges one. Only 4 and 9 have a place: that of the first bad
/// character, 0 for the first after SOI.
#[derive(Clone, Copy, Debug, PartialEq, Eq)]
pub enum Refusal {
    /// 4: the first bad character is `a` to `f`, and stands at this place.
    LowerCase(usize),
    /// 9: the first bad character is anything else, and stands at this place.
    NoHexDigit(usize),
    /// Any other number.
    Plain(Number),
}

impl Refusal {
    /// Its number.
    pub fn number(self) -> Number {
        match self {
            Refusal::LowerCase(_) => 4,
            Refusal::NoHexDigit(_) => 9,
            Refusal::Plain(number) => number,
        }
    }

    /// The place of the first bad character.
    pub fn place(self) -> Option<usize> {
        match self {
            Refusal::LowerCase(place) | Refusal::NoHexDigit(place) => Some(place),
            Refusal::Plain(_) => None,
        }
    }
}

impl From<Number> for Refusal {
    fn from(number: Number) -> Self {
        Refusal::Plain(number)
    }
}
