//! Safe Rust over `libhanuzak.a`: the structs of `include/hanuzak.h`, and a function for each of its own.
//!
//! The header's duties are on memory alone, and a Rust slice or value meets them all: it is aligned,
//! initialised, alive for the call, and what is lent as `&mut` is reached by nothing else. So no
//! function here tests anything, and each `unsafe` is one call. What `bench` measures is inline, so
//! that its calls are the archive's.

#![no_std]

mod layout;
mod sys;
mod types;

pub use types::{
    Alarm, Analog, Answered, Event, Limits, Listed, Listing, Module, Parameters, Question, Ran,
    Receiver, Reply, Station, Stepped, Written,
};

/// The least store of a receiver.
pub const STORE: usize = 4_110;
/// The least buffer of an answer.
pub const ANSWER: usize = 4_112;
/// The least buffer of a listing.
pub const LISTING: usize = 4_200;
/// The least buffer of a listing's totals.
pub const CLOSING: usize = 38;
/// The most records that a table has.
pub const MODULES: usize = 12;

/// Judges the bytes between SOI and CR: a frame, or refused with 1 or 3 to 9.
#[inline]
pub fn judge(stretch: &[u8]) -> Event {
    // SAFETY: the slice is readable for its length.
    unsafe { sys::hanuzak_judge(stretch.as_ptr(), stretch.len()) }
}

/// A fresh receiver, waiting.
pub fn receiver_new() -> Receiver {
    // SAFETY: it is lent nothing.
    unsafe { sys::hanuzak_receiver_new() }
}

/// One byte of the stream.
#[inline]
pub fn step(receiver: Receiver, store: &mut [u8], byte: u8) -> Stepped {
    // SAFETY: the slice is ours alone for its length.
    unsafe { sys::hanuzak_step(receiver, store.as_mut_ptr(), store.len(), byte) }
}

/// A piece of the stream, up to and including the byte that gives an event.
#[inline]
pub fn run(receiver: Receiver, store: &mut [u8], piece: &[u8]) -> Ran {
    let (at, n) = (store.as_mut_ptr(), store.len());
    // SAFETY: the store is ours alone for its length, so it does not overlap the piece, which is readable for its own.
    unsafe { sys::hanuzak_run(receiver, at, n, piece.as_ptr(), piece.len()) }
}

/// A frame from SOI to CR around INFO's bytes: 33, then 32.
#[inline]
pub fn write_frame(ver: u8, adr: u8, cid1: u8, cid2: u8, info: &[u8], out: &mut [u8]) -> Written {
    let (to, m) = (out.as_mut_ptr(), out.len());
    // SAFETY: the buffer is ours alone for its length, so it does not overlap INFO, which is readable for its own.
    unsafe { sys::hanuzak_write_frame(ver, adr, cid1, cid2, info.as_ptr(), info.len(), to, m) }
}

/// INFO of 42H for one module: 33, then 32.
pub fn write_analog(module: Module, flag: u8, out: &mut [u8]) -> Written {
    // SAFETY: the slice is ours alone for its length.
    unsafe { sys::hanuzak_write_analog(module, flag, out.as_mut_ptr(), out.len()) }
}

/// INFO of 44H for one module: 33, then 32.
pub fn write_alarm(module: Module, flag: u8, out: &mut [u8]) -> Written {
    // SAFETY: the slice is ours alone for its length.
    unsafe { sys::hanuzak_write_alarm(module, flag, out.as_mut_ptr(), out.len()) }
}

/// INFO of 47H: 33, then 32.
pub fn write_parameters(module: Module, flag: u8, out: &mut [u8]) -> Written {
    // SAFETY: the slice is ours alone for its length.
    unsafe { sys::hanuzak_write_parameters(module, flag, out.as_mut_ptr(), out.len()) }
}

/// INFO of 92H: 33, then 32.
pub fn write_limits(module: Module, out: &mut [u8]) -> Written {
    // SAFETY: the slice is ours alone for its length.
    unsafe { sys::hanuzak_write_limits(module, out.as_mut_ptr(), out.len()) }
}

/// INFO of 93H: 33, then 32.
pub fn write_serial(module: Module, out: &mut [u8]) -> Written {
    // SAFETY: the slice is ours alone for its length.
    unsafe { sys::hanuzak_write_serial(module, out.as_mut_ptr(), out.len()) }
}

/// INFO of 96H: 33, then 32.
pub fn write_version(module: Module, out: &mut [u8]) -> Written {
    // SAFETY: the slice is ours alone for its length.
    unsafe { sys::hanuzak_write_version(module, out.as_mut_ptr(), out.len()) }
}

/// INFO of 42H for Command FFH: 31, then 32.
pub fn write_analog_group(table: &[Module], flag: u8, out: &mut [u8]) -> Written {
    let (to, m) = (out.as_mut_ptr(), out.len());
    // SAFETY: the buffer is ours alone for its length, so it does not overlap the table, which is readable for its own.
    unsafe { sys::hanuzak_write_analog_group(table.as_ptr(), table.len(), flag, to, m) }
}

/// INFO of 44H for Command FFH: 31, then 32.
pub fn write_alarm_group(table: &[Module], flag: u8, out: &mut [u8]) -> Written {
    let (to, m) = (out.as_mut_ptr(), out.len());
    // SAFETY: the buffer is ours alone for its length, so it does not overlap the table, which is readable for its own.
    unsafe { sys::hanuzak_write_alarm_group(table.as_ptr(), table.len(), flag, to, m) }
}

/// A new record: on, with one cell, one temperature and 0 in every other place.
pub fn module_new(adr: u8) -> Module {
    // SAFETY: it is lent nothing.
    unsafe { sys::hanuzak_module_new(adr) }
}

/// 0 where the records keep the table's rule, else 31.
pub fn table(table: &[Module]) -> u8 {
    // SAFETY: the slice is readable for its length.
    unsafe { sys::hanuzak_table(table.as_ptr(), table.len()) }
}

/// A copy of `table[at]`, or `other` past the end.
pub fn record(table: &[Module], at: usize, other: Module) -> Module {
    // SAFETY: the slice is readable for its length.
    unsafe { sys::hanuzak_record(table.as_ptr(), table.len(), at, other) }
}

/// `table[at] = module`; past the end nothing changes.
pub fn replace(table: &mut [Module], at: usize, module: Module) {
    // SAFETY: the slice is ours alone for its length.
    unsafe { sys::hanuzak_replace(table.as_mut_ptr(), table.len(), at, module) }
}

/// `table[at].on = 0`; past the end nothing changes.
pub fn switch_off(table: &mut [Module], at: usize) {
    // SAFETY: the slice is ours alone for its length.
    unsafe { sys::hanuzak_switch_off(table.as_mut_ptr(), table.len(), at) }
}

/// The answer to the bytes between SOI and CR of a question; an accepted 95H switches its module off.
#[inline]
pub fn answer(table: &mut [Module], station: Station, stretch: &[u8], out: &mut [u8]) -> Answered {
    let (records, n) = (table.as_mut_ptr(), table.len());
    let (to, k) = (out.as_mut_ptr(), out.len());
    // SAFETY: table and buffer are each ours alone, so they overlap neither each other nor the stretch, which is readable.
    unsafe { sys::hanuzak_answer(records, n, station, stretch.as_ptr(), stretch.len(), to, k) }
}

/// Reads the reply to a question from the bytes between SOI and CR into the table.
#[inline]
pub fn read_reply(table: &mut [Module], question: Question, stretch: &[u8]) -> Reply {
    let (records, n) = (table.as_mut_ptr(), table.len());
    // SAFETY: the table is ours alone for its length, so it does not overlap the stretch, which is readable for its own.
    unsafe { sys::hanuzak_read_reply(records, n, question, stretch.as_ptr(), stretch.len()) }
}

/// A fresh listing.
pub fn listing_new() -> Listing {
    // SAFETY: it is lent nothing.
    unsafe { sys::hanuzak_listing_new() }
}

/// Lists as much of a piece as the buffer has room for: 32, then 35.
pub fn list(listing: Listing, store: &mut [u8], piece: &[u8], out: &mut [u8]) -> Listed {
    let (at, n) = (store.as_mut_ptr(), store.len());
    let (to, k) = (out.as_mut_ptr(), out.len());
    // SAFETY: store and buffer are each ours alone, so they overlap neither each other nor the piece, which is readable.
    unsafe { sys::hanuzak_list(listing, at, n, piece.as_ptr(), piece.len(), to, k) }
}

/// The two totals, which close a listing: 32.
pub fn list_close(listing: Listing, out: &mut [u8]) -> Written {
    // SAFETY: the slice is ours alone for its length.
    unsafe { sys::hanuzak_list_close(listing, out.as_mut_ptr(), out.len()) }
}

/// A temperature as on the wire, in tenths of a degree Celsius.
pub fn tenths_celsius(raw: i16) -> i32 {
    // SAFETY: it is lent nothing.
    unsafe { sys::hanuzak_tenths_celsius(raw) }
}

/// A current in milliamps.
pub fn milliamps(current: i16) -> i32 {
    // SAFETY: it is lent nothing.
    unsafe { sys::hanuzak_milliamps(current) }
}
