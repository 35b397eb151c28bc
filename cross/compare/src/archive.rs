//! What the archive returns and leaves. What it is lent stands between guards, which must stay.

use crate::case::{Case, Group, Kind, Outcome, Returned};
use linked::Module;

/// How many guards stand on each side of what is lent.
const GUARDS: usize = 8;
/// A byte beside a lent store or buffer.
const BYTE: u8 = 0xA5;
/// A record beside a lent table: no value of it can be encoded, and it is on.
const RECORD: Module = Module {
    adr: 0xA5,
    on: 0xA5,
    link_fault: 0xA5,
    analog: linked::Analog {
        cell_count: 0xA5,
        cells: [0x5A5A; 16],
        temperature_count: 0xA5,
        temperatures: [0x5A5A; 8],
        current: 0x5A5A,
        voltage: 0xA5A5,
        remaining: 0xA5A5_A5A5,
        total: 0xA5A5_A5A5,
        cycles: 0xA5A5,
    },
    alarm: linked::Alarm {
        cell_count: 0xA5,
        cells: [0xA5; 16],
        temperature_count: 0xA5,
        temperatures: [0xA5; 8],
        charge_current: 0xA5,
        module_voltage: 0xA5,
        discharge_current: 0xA5,
        status: [0xA5; 5],
    },
    limits: linked::Limits {
        charge_voltage: 0xA5A5,
        discharge_voltage: 0xA5A5,
        charge_current: 0x5A5A,
        discharge_current: 0x5A5A,
        status: 0xA5,
    },
    serial: [0xA5; 16],
    version: [0xA5; 5],
    parameters: linked::Parameters {
        cell_high_voltage: 0x5A5A,
        cell_low_voltage: 0x5A5A,
        cell_under_voltage: 0x5A5A,
        charge_high_temperature: 0x5A5A,
        charge_low_temperature: 0x5A5A,
        charge_current: 0x5A5A,
        module_high_voltage: 0xA5A5,
        module_low_voltage: 0xA5A5,
        module_under_voltage: 0xA5A5,
        discharge_high_temperature: 0x5A5A,
        discharge_low_temperature: 0x5A5A,
        discharge_current: 0x5A5A,
    },
};

/// A copy of what is lent, between guards.
struct Lent<T> {
    all: Vec<T>,
    guard: T,
}

impl<T: Copy + PartialEq> Lent<T> {
    fn new(given: &[T], guard: T) -> Self {
        let mut all = Vec::with_capacity(given.len() + 2 * GUARDS);
        all.extend([guard; GUARDS]);
        all.extend_from_slice(given);
        all.extend([guard; GUARDS]);
        Lent { all, guard }
    }

    fn lend(&mut self) -> &mut [T] {
        let end = self.all.len() - GUARDS;
        &mut self.all[GUARDS..end]
    }

    /// Whether a guard has changed.
    fn strayed(&self) -> bool {
        let end = self.all.len() - GUARDS;
        let mut guards = self.all[..GUARDS].iter().chain(&self.all[end..]);
        guards.any(|guard| *guard != self.guard)
    }

    fn after(mut self) -> Vec<T> {
        self.all.truncate(self.all.len() - GUARDS);
        self.all.drain(..GUARDS);
        self.all
    }
}

/// A call that is lent bytes to change.
fn with_bytes(given: &[u8], call: impl FnOnce(&mut [u8]) -> Returned) -> Outcome {
    let mut lent = Lent::new(given, BYTE);
    let returned = call(lent.lend());
    Outcome {
        strayed: lent.strayed(),
        bytes: lent.after(),
        ..Outcome::of(returned)
    }
}

/// A call that is lent a table to change.
fn with_table(given: &[Module], call: impl FnOnce(&mut [Module]) -> Returned) -> Outcome {
    let mut lent = Lent::new(given, RECORD);
    let returned = call(lent.lend());
    Outcome {
        strayed: lent.strayed(),
        table: lent.after(),
        ..Outcome::of(returned)
    }
}

/// A call that is lent a store and a buffer.
fn with_store(
    store: &[u8],
    out: &[u8],
    call: impl FnOnce(&mut [u8], &mut [u8]) -> Returned,
) -> Outcome {
    let mut lent = Lent::new(store, BYTE);
    let outcome = with_bytes(out, |out| call(lent.lend(), out));
    Outcome {
        strayed: outcome.strayed || lent.strayed(),
        store: lent.after(),
        ..outcome
    }
}

/// A call that is lent a table and a buffer.
fn with_both(
    table: &[Module],
    out: &[u8],
    call: impl FnOnce(&mut [Module], &mut [u8]) -> Returned,
) -> Outcome {
    let mut records = Lent::new(table, RECORD);
    let outcome = with_bytes(out, |out| call(records.lend(), out));
    Outcome {
        strayed: outcome.strayed || records.strayed(),
        table: records.after(),
        ..outcome
    }
}

/// Calls the archive.
pub fn outcome(case: &Case) -> Outcome {
    match case {
        Case::Judge { stretch } => Outcome::of(Returned::Event(linked::judge(stretch))),
        Case::ReceiverNew => Outcome::of(Returned::Receiver(linked::receiver_new())),
        Case::Step {
            receiver,
            store,
            byte,
        } => with_bytes(store, |store| {
            Returned::Stepped(linked::step(*receiver, store, *byte))
        }),
        Case::Run {
            receiver,
            store,
            piece,
        } => with_bytes(store, |store| {
            Returned::Ran(linked::run(*receiver, store, piece))
        }),
        Case::WriteFrame { header, info, out } => with_bytes(out, |out| {
            let [ver, adr, cid1, cid2] = *header;
            Returned::Written(linked::write_frame(ver, adr, cid1, cid2, info, out))
        }),
        Case::WriteRecord {
            kind,
            module,
            flag,
            out,
        } => with_bytes(out, |out| {
            Returned::Written(match kind {
                Kind::Analog => linked::write_analog(*module, *flag, out),
                Kind::Alarm => linked::write_alarm(*module, *flag, out),
                Kind::Parameters => linked::write_parameters(*module, *flag, out),
                Kind::Limits => linked::write_limits(*module, out),
                Kind::Serial => linked::write_serial(*module, out),
                Kind::Version => linked::write_version(*module, out),
            })
        }),
        Case::WriteGroup {
            group,
            table,
            flag,
            out,
        } => with_bytes(out, |out| {
            Returned::Written(match group {
                Group::Analog => linked::write_analog_group(table, *flag, out),
                Group::Alarm => linked::write_alarm_group(table, *flag, out),
            })
        }),
        Case::ModuleNew { adr } => Outcome::of(Returned::Module(linked::module_new(*adr))),
        Case::Table { table } => Outcome::of(Returned::Number(linked::table(table))),
        Case::Record { table, at, other } => {
            Outcome::of(Returned::Module(linked::record(table, *at, *other)))
        }
        Case::Replace { table, at, module } => with_table(table, |table| {
            linked::replace(table, *at, *module);
            Returned::Nothing
        }),
        Case::SwitchOff { table, at } => with_table(table, |table| {
            linked::switch_off(table, *at);
            Returned::Nothing
        }),
        Case::Answer {
            table,
            station,
            stretch,
            out,
        } => with_both(table, out, |table, out| {
            Returned::Answered(linked::answer(table, *station, stretch, out))
        }),
        Case::ReadReply {
            table,
            question,
            stretch,
        } => with_table(table, |table| {
            Returned::Reply(linked::read_reply(table, *question, stretch))
        }),
        Case::ListingNew => Outcome::of(Returned::Listing(linked::listing_new())),
        Case::List {
            listing,
            store,
            piece,
            out,
        } => with_store(store, out, |store, out| {
            Returned::Listed(linked::list(*listing, store, piece, out))
        }),
        Case::ListClose { listing, out } => with_bytes(out, |out| {
            Returned::Written(linked::list_close(*listing, out))
        }),
        Case::TenthsCelsius { raw } => Outcome::of(Returned::Meaning(linked::tenths_celsius(*raw))),
        Case::Milliamps { current } => Outcome::of(Returned::Meaning(linked::milliamps(*current))),
    }
}
