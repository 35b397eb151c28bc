//! How many calls of each kind were compared, how they ended, and how they must have ended at least
//! once.

use crate::case::{Case, Outcome, Returned};
use linked::Question;
use std::collections::{BTreeMap, BTreeSet};
use std::fmt;

/// How a call ended.
#[derive(Clone, Copy, Debug, PartialEq, Eq, PartialOrd, Ord)]
pub enum End {
    /// No event, no refusal, nothing to tell apart.
    Plain,
    /// A frame.
    Frame,
    /// Bytes were written.
    Wrote,
    /// A place in the table.
    Inside,
    /// A place past its end.
    Past,
    /// The listing's lines have this refusal first of those with a place.
    Listed(u32),
    /// The stand-in is silent: the ADR names no member that is on.
    Silence,
    /// The stand-in is silent: the stretch is refused with this number.
    SilentFor(u8),
    /// A reply without data, with this code.
    Code(u8),
    /// The data of this command, for one module or without Command.
    Data(u8),
    /// The data of this command for FFH.
    GroupData(u8),
    /// Refused with this number.
    Refused(u32),
    /// The reply to a question with FFH was refused with this number.
    GroupRefused(u32),
    /// The reply to 47H was refused with this number.
    ParametersRefused(u32),
}

impl fmt::Display for End {
    fn fmt(&self, f: &mut fmt::Formatter) -> fmt::Result {
        match self {
            End::Plain => f.write_str("plain"),
            End::Frame => f.write_str("frame"),
            End::Wrote => f.write_str("wrote"),
            End::Inside => f.write_str("inside"),
            End::Past => f.write_str("past"),
            End::Listed(number) => write!(f, "listed no. {number}"),
            End::Silence => f.write_str("silence"),
            End::SilentFor(number) => write!(f, "silence for no. {number}"),
            End::Code(code) => write!(f, "code {code:02X}H"),
            End::Data(cid2) => write!(f, "data {cid2:02X}H"),
            End::GroupData(cid2) => write!(f, "data {cid2:02X}H FFH"),
            End::Refused(number) => write!(f, "no. {number}"),
            End::GroupRefused(number) => write!(f, "FFH no. {number}"),
            End::ParametersRefused(number) => write!(f, "47H no. {number}"),
        }
    }
}

fn event(event: &linked::Event) -> End {
    match event.kind {
        0 => End::Plain,
        1 => End::Frame,
        _ => End::Refused(event.number),
    }
}

fn at(at: usize, length: usize) -> End {
    if at < length {
        End::Inside
    } else {
        End::Past
    }
}

/// Why the stand-in is silent.
fn silent(stretch: &[u8]) -> End {
    match reference::judge(stretch).map_err(reference::Refusal::number) {
        Err(number @ (1 | 3 | 4 | 9)) => End::SilentFor(number),
        _ => End::Silence,
    }
}

/// The first refusal with a place among the lines, or that there are lines, or none.
fn listed(text: &[u8]) -> End {
    let mut lines = text.split(|&byte| byte == b'\n');
    match lines.find(|line| matches!(*line, b"refused=4" | b"refused=9")) {
        Some(b"refused=4") => End::Listed(4),
        Some(_) => End::Listed(9),
        None if text.is_empty() => End::Plain,
        None => End::Wrote,
    }
}

/// How the stand-in answered, seen from the reply it wrote.
fn answered(stretch: &[u8], bytes: &[u8], answered: &linked::Answered) -> End {
    match answered.kind {
        0 => return silent(stretch),
        1 => {}
        _ => return End::Refused(answered.number),
    }
    let reply = reference::judge(&bytes[1..answered.length - 1]);
    let code = reply.map_or(0xFF, |frame| frame.header.cid2);
    match crate::made::opened(stretch) {
        Some(([_, _, _, cid2], info)) if code == 0 => match info.first() {
            Some(0xFF) => End::GroupData(cid2),
            _ => End::Data(cid2),
        },
        _ => End::Code(code),
    }
}

fn read(question: &Question, reply: &linked::Reply) -> End {
    let group = matches!(question.cid2, 0x42 | 0x44) && question.command == 0xFF;
    match (reply.kind, reply.code) {
        (1, 0) if group => End::GroupData(question.cid2),
        (1, 0) => End::Data(question.cid2),
        (1, code) => End::Code(code),
        _ if group => End::GroupRefused(reply.number),
        _ if question.cid2 == 0x47 => End::ParametersRefused(reply.number),
        _ => End::Refused(reply.number),
    }
}

/// How a call ended.
pub fn end(case: &Case, outcome: &Outcome) -> End {
    match (case, &outcome.returned) {
        (Case::Answer { stretch, .. }, Returned::Answered(said)) => {
            answered(stretch, &outcome.bytes, said)
        }
        (Case::ReadReply { question, .. }, Returned::Reply(reply)) => read(question, reply),
        (
            Case::Record {
                table, at: place, ..
            },
            _,
        )
        | (
            Case::Replace {
                table, at: place, ..
            },
            _,
        )
        | (Case::SwitchOff { table, at: place }, _) => at(*place, table.len()),
        (_, Returned::Event(told)) => event(told),
        (_, Returned::Stepped(stepped)) => event(&stepped.event),
        (_, Returned::Ran(ran)) => event(&ran.event),
        (_, Returned::Written(written)) if written.number == 0 => End::Wrote,
        (_, Returned::Written(written)) => End::Refused(written.number),
        (_, Returned::Listed(told)) => match told.written {
            linked::Written { number: 0, length } => listed(&outcome.bytes[..length]),
            linked::Written { number, .. } => End::Refused(number),
        },
        (_, Returned::Number(0)) => End::Plain,
        (_, Returned::Number(number)) => End::Refused(u32::from(*number)),
        _ => End::Plain,
    }
}

/// Calls by function and end.
#[derive(Clone, Debug, Default)]
pub struct Tally {
    ends: BTreeMap<(&'static str, End), u64>,
    firsts: BTreeMap<(&'static str, End), Case>,
}

impl Tally {
    /// Counts a call on which both sides agree.
    pub fn count(&mut self, case: &Case, outcome: &Outcome) {
        let key = (case.function(), end(case, outcome));
        *self.ends.entry(key).or_default() += 1;
        self.firsts.entry(key).or_insert_with(|| case.clone());
    }

    /// The first call with each end.
    pub fn firsts(&self) -> impl Iterator<Item = (&'static str, End, &Case)> {
        self.firsts.iter().map(|(key, case)| (key.0, key.1, case))
    }

    /// How many calls there were.
    pub fn total(&self) -> u64 {
        self.ends.values().sum()
    }

    /// The ends that had to be seen and were not.
    pub fn missing(&self) -> Vec<String> {
        let seen: BTreeSet<_> = self.ends.keys().copied().collect();
        let missing = required().into_iter().filter(|key| !seen.contains(key));
        missing
            .map(|(function, end)| format!("{function}: {end}"))
            .collect()
    }
}

impl fmt::Display for Tally {
    fn fmt(&self, f: &mut fmt::Formatter) -> fmt::Result {
        let functions: BTreeSet<_> = self.ends.keys().map(|key| key.0).collect();
        for function in functions {
            let ends = self.ends.iter().filter(|(key, _)| key.0 == function);
            let sum: u64 = ends.clone().map(|(_, times)| times).sum();
            let ends: Vec<_> = ends
                .map(|((_, end), times)| format!("{end}: {times}"))
                .collect();
            writeln!(f, "{sum:>9} {function:<27} {}", ends.join(", "))?;
        }
        writeln!(f, "{:>9} comparisons", self.total())
    }
}

/// Each end that the protocol lets a function have.
fn required() -> Vec<(&'static str, End)> {
    let refused =
        |numbers: &[u32]| -> Vec<End> { numbers.iter().map(|&n| End::Refused(n)).collect() };
    let frame_numbers = [3, 4, 5, 6, 7, 8, 9];
    let mut all = Vec::new();
    let mut add =
        |function, ends: Vec<End>| all.extend(ends.into_iter().map(|end| (function, end)));
    add("hanuzak_judge", vec![End::Frame, End::Refused(1)]);
    add("hanuzak_judge", refused(&frame_numbers));
    add("hanuzak_receiver_new", vec![End::Plain]);
    for function in ["hanuzak_step", "hanuzak_run"] {
        add(function, vec![End::Plain, End::Frame]);
        add(function, refused(&frame_numbers));
        add(function, refused(&[1, 2, 32, 35]));
    }
    for function in [
        "hanuzak_write_frame",
        "hanuzak_write_analog",
        "hanuzak_write_alarm",
        "hanuzak_write_parameters",
        "hanuzak_write_limits",
        "hanuzak_write_serial",
        "hanuzak_write_version",
    ] {
        add(
            function,
            vec![End::Wrote, End::Refused(33), End::Refused(32)],
        );
    }
    for function in ["hanuzak_write_analog_group", "hanuzak_write_alarm_group"] {
        add(
            function,
            vec![End::Wrote, End::Refused(31), End::Refused(32)],
        );
    }
    add("hanuzak_module_new", vec![End::Plain]);
    add("hanuzak_table", vec![End::Plain, End::Refused(31)]);
    for function in ["hanuzak_record", "hanuzak_replace", "hanuzak_switch_off"] {
        add(function, vec![End::Inside, End::Past]);
    }
    let commands = [0x42, 0x44, 0x47, 0x4F, 0x51, 0x92, 0x93, 0x95, 0x96];
    for function in ["hanuzak_answer", "hanuzak_read_reply"] {
        add(function, commands.map(End::Data).to_vec());
        add(function, [0x42, 0x44].map(End::GroupData).to_vec());
        let codes = [0x01, 0x02, 0x03, 0x04, 0x05, 0x06, 0x90, 0x91];
        add(function, codes.map(End::Code).to_vec());
    }
    add(
        "hanuzak_answer",
        vec![End::Silence, End::Refused(31), End::Refused(32)],
    );
    add("hanuzak_answer", [1, 3, 4, 9].map(End::SilentFor).to_vec());
    add("hanuzak_read_reply", refused(&[31, 34, 23, 1]));
    add("hanuzak_read_reply", refused(&frame_numbers));
    // 22 is for FFH alone.
    add("hanuzak_read_reply", (11..=21).map(End::Refused).collect());
    add(
        "hanuzak_read_reply",
        (11..=22).map(End::GroupRefused).collect(),
    );
    // 47H has no count, no code, no capacity and no Command in its reply.
    let parameters = [11, 12, 13, 14, 16, 17];
    add(
        "hanuzak_read_reply",
        parameters.map(End::ParametersRefused).to_vec(),
    );
    add("hanuzak_listing_new", vec![End::Plain]);
    add("hanuzak_list", vec![End::Plain, End::Wrote]);
    add("hanuzak_list", [4, 9].map(End::Listed).to_vec());
    add("hanuzak_list", refused(&[32, 35]));
    add("hanuzak_list_close", vec![End::Wrote, End::Refused(32)]);
    add("hanuzak_tenths_celsius", vec![End::Plain]);
    add("hanuzak_milliamps", vec![End::Plain]);
    all
}
