//! What the reference returns and leaves, said in the header's structs: "where a field has no value
//! it is 0".

use crate::case::{Case, Group, Kind, Outcome, Returned};
use crate::records::{linked_of, reference_of, references_of};
use linked::{
    Answered, Event, Listed, Listing, Module, Ran, Receiver, Reply, Stepped, Written, CLOSING,
    LISTING, STORE,
};
use reference::{Header, Lister, Number, Refusal};

/// "0 to 4,109 with 4 and 9, else 0".
fn place(refusal: Refusal) -> u32 {
    refusal.place().unwrap_or(0) as u32
}

fn refused(refusal: Refusal) -> Event {
    Event {
        kind: 2,
        number: refusal.number().into(),
        place: place(refusal),
        ..Event::default()
    }
}

fn frame(frame: reference::Frame) -> Event {
    Event {
        kind: 1,
        number: 0,
        ver: frame.header.ver,
        adr: frame.header.adr,
        cid1: frame.header.cid1,
        cid2: frame.header.cid2,
        place: 0,
        lenid: frame.lenid,
    }
}

/// An event of the reference.
pub fn event(event: reference::Event) -> Event {
    match event {
        reference::Event::Nothing => Event::default(),
        reference::Event::Frame(heard) => frame(heard),
        reference::Event::Refused(refusal) => refused(refusal),
    }
}

/// "open 0 is waiting, whatever the count; any other value is open".
fn receiver_of(receiver: Receiver) -> reference::Receiver {
    match receiver.open {
        0 => reference::Receiver::Waiting,
        _ => reference::Receiver::Open(receiver.count),
    }
}

/// "open as 0 or 1, and count 0 where it waits".
fn receiver(receiver: reference::Receiver) -> Receiver {
    match receiver {
        reference::Receiver::Waiting => Receiver { open: 0, count: 0 },
        reference::Receiver::Open(count) => Receiver { open: 1, count },
    }
}

fn written(result: Result<usize, Number>) -> Returned {
    Returned::Written(match result {
        Ok(length) => Written { number: 0, length },
        Err(number) => Written {
            number: u32::from(number),
            length: 0,
        },
    })
}

fn answered(answer: reference::Answer) -> Answered {
    match answer {
        reference::Answer::Silence => Answered::default(),
        reference::Answer::Reply(length) => Answered {
            kind: 1,
            number: 0,
            length,
        },
        reference::Answer::Refused(number) => Answered {
            kind: 2,
            number: u32::from(number),
            length: 0,
        },
    }
}

fn reply(result: Result<reference::Reply, Refusal>) -> Reply {
    match result {
        Ok(read) => Reply {
            kind: 1,
            number: 0,
            ver: read.ver,
            code: read.code,
            flag: read.flag.unwrap_or(0),
            maker: read.maker.unwrap_or([0; 32]),
            place: 0,
        },
        Err(refusal) => Reply {
            kind: 2,
            number: refusal.number().into(),
            ver: 0,
            code: 0,
            flag: 0,
            maker: [0; 32],
            place: place(refusal),
        },
    }
}

fn lister(listing: &Listing, store: &[u8]) -> Lister {
    let receiver = receiver_of(listing.receiver);
    let [offset, frames, refusals] = [listing.offset, listing.frames, listing.refusals];
    Lister::going_on(
        receiver,
        store,
        offset.into(),
        frames.into(),
        refusals.into(),
    )
}

/// "32 for a store below 4,110 bytes or a buffer below 4,200, then 35 for a count above 4,110".
fn list_refusal(listing: &Listing, store: &[u8], out: &[u8]) -> Option<u32> {
    if store.len() < STORE || out.len() < LISTING {
        return Some(32);
    }
    (listing.receiver.open != 0 && listing.receiver.count > STORE).then_some(35)
}

/// "It takes a byte only while 4,200 bytes of out are left", and none from offset 1,073,741,824 on.
fn list(listing: &Listing, store: &mut [u8], piece: &[u8], out: &mut [u8]) -> Listed {
    if let Some(number) = list_refusal(listing, store, out) {
        let receiver = receiver(receiver_of(listing.receiver));
        return Listed {
            next: Listing {
                receiver,
                ..*listing
            },
            taken: 0,
            written: Written { number, length: 0 },
        };
    }
    let mut lister = lister(listing, store);
    let (mut taken, mut length) = (0, 0);
    while taken < piece.len() && out.len() - length >= LISTING {
        let before = lister.state().2;
        let text = lister.piece(&piece[taken..taken + 1]);
        if lister.state().2 == before {
            break;
        }
        taken += 1;
        out[length..length + text.len()].copy_from_slice(&text);
        length += text.len();
    }
    let (then, stored, offset, frames, refusals) = lister.state();
    store.copy_from_slice(stored);
    Listed {
        next: Listing {
            receiver: receiver(then),
            offset: offset as u32,
            frames: frames as u32,
            refusals: refusals as u32,
        },
        taken,
        written: Written { number: 0, length },
    }
}

/// "The two totals, the listing's last lines"; "32 for a buffer below 38 bytes".
fn list_close(listing: &Listing, out: &mut [u8]) -> Result<usize, Number> {
    if out.len() < CLOSING {
        return Err(32);
    }
    let text = lister(listing, &[]).totals();
    out[..text.len()].copy_from_slice(&text);
    Ok(text.len())
}

fn with_bytes(given: &[u8], call: impl FnOnce(&mut [u8]) -> Returned) -> Outcome {
    let mut bytes = given.to_vec();
    let returned = call(&mut bytes);
    Outcome {
        bytes,
        ..Outcome::of(returned)
    }
}

fn with_table(
    given: &[Module],
    call: impl FnOnce(&mut [reference::Module]) -> Returned,
) -> Outcome {
    let mut table = references_of(given);
    let returned = call(&mut table);
    Outcome {
        table: table.iter().map(linked_of).collect(),
        ..Outcome::of(returned)
    }
}

/// Calls the reference.
pub fn outcome(case: &Case) -> Outcome {
    match case {
        Case::Judge { stretch } => Outcome::of(Returned::Event(match reference::judge(stretch) {
            Ok(heard) => frame(heard),
            Err(refusal) => refused(refusal),
        })),
        Case::ReceiverNew => {
            let fresh = reference::Receiver::default();
            Outcome::of(Returned::Receiver(receiver(fresh)))
        }
        Case::Step {
            receiver: before,
            store,
            byte,
        } => with_bytes(store, |store| {
            let (next, seen) = reference::step(receiver_of(*before), store, *byte);
            Returned::Stepped(Stepped {
                next: receiver(next),
                event: event(seen),
            })
        }),
        Case::Run {
            receiver: before,
            store,
            piece,
        } => with_bytes(store, |store| {
            let ran = reference::run(receiver_of(*before), store, piece);
            Returned::Ran(Ran {
                next: receiver(ran.next),
                event: event(ran.event),
                taken: ran.taken,
                held: ran.held,
            })
        }),
        Case::WriteFrame { header, info, out } => with_bytes(out, |out| {
            let [ver, adr, cid1, cid2] = *header;
            let header = Header {
                ver,
                adr,
                cid1,
                cid2,
            };
            written(reference::write_frame(header, info, out))
        }),
        Case::WriteRecord {
            kind,
            module,
            flag,
            out,
        } => with_bytes(out, |out| {
            let module = &reference_of(module);
            written(match kind {
                Kind::Analog => reference::write_analog(module, *flag, out),
                Kind::Alarm => reference::write_alarm(module, *flag, out),
                Kind::Parameters => reference::write_parameters(module, *flag, out),
                Kind::Limits => reference::write_limits(module, out),
                Kind::Serial => reference::write_serial(module, out),
                Kind::Version => reference::write_version(module, out),
            })
        }),
        Case::WriteGroup {
            group,
            table,
            flag,
            out,
        } => with_bytes(out, |out| {
            let table = &references_of(table);
            written(match group {
                Group::Analog => reference::write_analog_group(table, *flag, out),
                Group::Alarm => reference::write_alarm_group(table, *flag, out),
            })
        }),
        Case::ModuleNew { adr } => {
            Outcome::of(Returned::Module(linked_of(&reference::new_module(*adr))))
        }
        Case::Table { table } => {
            let rule = reference::rule(&references_of(table));
            Outcome::of(Returned::Number(rule.err().unwrap_or(0)))
        }
        Case::Record { table, at, other } => {
            let found = table.get(*at).unwrap_or(other);
            Outcome::of(Returned::Module(*found))
        }
        Case::Replace { table, at, module } => with_table(table, |table| {
            if let Some(record) = table.get_mut(*at) {
                *record = reference_of(module);
            }
            Returned::Nothing
        }),
        Case::SwitchOff { table, at } => with_table(table, |table| {
            if let Some(record) = table.get_mut(*at) {
                record.on = 0;
            }
            Returned::Nothing
        }),
        Case::Answer {
            table,
            station,
            stretch,
            out,
        } => {
            let mut bytes = out.clone();
            let station = reference::Station {
                ver: station.ver,
                maker: station.maker,
            };
            let outcome = with_table(table, |table| {
                let answer = reference::answer(table, &station, stretch, &mut bytes);
                Returned::Answered(answered(answer))
            });
            Outcome { bytes, ..outcome }
        }
        Case::ReadReply {
            table,
            question,
            stretch,
        } => with_table(table, |table| {
            let question = reference::Question {
                adr: question.adr,
                cid2: question.cid2,
                command: question.command,
            };
            Returned::Reply(reply(reference::read_reply(table, question, stretch)))
        }),
        Case::ListingNew => Outcome::of(Returned::Listing(Listing::default())),
        Case::List {
            listing,
            store,
            piece,
            out,
        } => {
            let mut stored = store.clone();
            let outcome = with_bytes(out, |out| {
                Returned::Listed(list(listing, &mut stored, piece, out))
            });
            Outcome {
                store: stored,
                ..outcome
            }
        }
        Case::ListClose { listing, out } => {
            with_bytes(out, |out| written(list_close(listing, out)))
        }
        Case::TenthsCelsius { raw } => {
            Outcome::of(Returned::Meaning(reference::tenths_celsius(*raw)))
        }
        Case::Milliamps { current } => {
            Outcome::of(Returned::Meaning(reference::milliamps(*current)))
        }
    }
}
