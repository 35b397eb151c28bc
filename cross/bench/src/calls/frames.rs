//! The judge and the receiver, of the archive and of the plain C.

use linked::{Event, Ran, Receiver, Stepped};

#[link(name = "plain", kind = "static")]
extern "C" {
    fn plain_judge(stretch: *const u8, n: usize) -> Event;
    fn plain_step(receiver: Receiver, store: *mut u8, n: usize, byte: u8) -> Stepped;
    fn plain_run(receiver: Receiver, store: *mut u8, n: usize, piece: *const u8, m: usize) -> Ran;
}

/// The judge and the receiver, of the archive or of the plain C.
pub trait Frames {
    /// Judges the bytes between SOI and CR.
    fn judge(stretch: &[u8]) -> Event;
    /// One byte of the stream.
    fn step(receiver: Receiver, store: &mut [u8], byte: u8) -> Stepped;
    /// A piece of the stream, up to an event.
    fn run(receiver: Receiver, store: &mut [u8], piece: &[u8]) -> Ran;
}

/// The archive's.
pub struct Ours;

impl Frames for Ours {
    fn judge(stretch: &[u8]) -> Event {
        linked::judge(stretch)
    }

    fn step(receiver: Receiver, store: &mut [u8], byte: u8) -> Stepped {
        linked::step(receiver, store, byte)
    }

    fn run(receiver: Receiver, store: &mut [u8], piece: &[u8]) -> Ran {
        linked::run(receiver, store, piece)
    }
}

/// The plain C's.
pub struct Plain;

// SAFETY of each call: a slice is its pointer and its length, exclusive where it is mutable.
impl Frames for Plain {
    fn judge(stretch: &[u8]) -> Event {
        unsafe { plain_judge(stretch.as_ptr(), stretch.len()) }
    }

    fn step(receiver: Receiver, store: &mut [u8], byte: u8) -> Stepped {
        unsafe { plain_step(receiver, store.as_mut_ptr(), store.len(), byte) }
    }

    fn run(receiver: Receiver, store: &mut [u8], piece: &[u8]) -> Ran {
        let (lent, room) = (store.as_mut_ptr(), store.len());
        unsafe { plain_run(receiver, lent, room, piece.as_ptr(), piece.len()) }
    }
}
