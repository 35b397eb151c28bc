//! The protocol a second time: frames, receiver, records, table, stand-in, reply reader and listing.
//!
//! It is written from the rules alone, to be held against the proved library. So it is plain and
//! not fast: every function is one rule, and the rule stands above it. PROTOCOL 2.3 is paragraph
//! 2.3 of `docs/PROTOCOL.md`. Refusals are its numbers.

#![forbid(unsafe_code)]

pub mod fields;
pub mod frame;
pub mod hex;
pub mod info;
pub mod listing;
pub mod meaning;
pub mod module;
pub mod receiver;
pub mod refusal;
pub mod reply;
pub mod seeded;
pub mod standin;
pub mod table;

pub use frame::{judge, write_frame, Frame, Header};
pub use info::{
    write_alarm, write_alarm_group, write_analog, write_analog_group, write_limits,
    write_parameters, write_serial, write_version,
};
pub use listing::{listing, Lister};
pub use meaning::{milliamps, tenths_celsius};
pub use module::{new_module, Alarm, Analog, Limits, Module, Parameters};
pub use receiver::{run, step, Event, Ran, Receiver};
pub use refusal::{Number, Refusal};
pub use reply::{read_reply, Question, Reply};
pub use standin::{answer, Answer};
pub use table::{rule, Station};
