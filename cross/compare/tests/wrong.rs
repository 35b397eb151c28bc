//! The comparisons compared with sides that are wrong in one thing each: every one must be found,
//! and made small.

use compare::case::{Case, Outcome, Returned};
use compare::difference::{Comparison, Done};
use compare::kinds::{frames, listing, meanings, receiver, reply, standin, tables, writers};
use compare::{input, paper};
use linked::{Event, Module, Parameters, Question};
use reference::seeded::Seeded;

type Side = fn(&Case) -> Outcome;
type Kind = fn(&mut Comparison, &mut Seeded, usize) -> Done;

/// Runs a kind against a wrong side. The call found must stand for at most so many bytes.
fn found(kind: Kind, wrong: Side, most: usize) -> Case {
    let mut comparison = Comparison::new(wrong);
    let difference = kind(&mut comparison, &mut Seeded::new(1), 1);
    let difference = difference.expect_err("the wrong side was not found");
    let data = input::encoded(&difference.case);
    assert!(data.len() <= most, "{} bytes\n{difference}", data.len());
    assert_ne!(difference.ours, difference.theirs);
    // What is printed can be saved, and is that call again.
    assert_eq!(
        input::decoded(&data),
        input::Input::Call(difference.case.clone())
    );
    assert!(difference.to_string().contains(difference.case.function()));
    difference.case
}

#[test]
fn lower_case_is_taken() {
    let case = found(
        frames::all,
        |case| match case {
            Case::Judge { stretch } => paper::outcome(&Case::Judge {
                stretch: stretch.to_ascii_uppercase(),
            }),
            other => paper::outcome(other),
        },
        23,
    );
    // Sixteen characters, one of them in lower case.
    let Case::Judge { stretch } = case else {
        panic!("{case:?}");
    };
    assert_eq!(stretch.len(), 16);
    assert_eq!(stretch.iter().filter(|c| c.is_ascii_lowercase()).count(), 1);
}

/// The reference's outcome with each event in it changed.
fn with_event(case: &Case, change: impl Fn(&mut Event)) -> Outcome {
    let mut outcome = paper::outcome(case);
    match &mut outcome.returned {
        Returned::Event(event) => change(event),
        Returned::Stepped(stepped) => change(&mut stepped.event),
        Returned::Ran(ran) => change(&mut ran.event),
        _ => {}
    }
    outcome
}

fn has_place(number: u32) -> bool {
    number == 4 || number == 9
}

fn is_hex(character: &u8) -> bool {
    reference::hex::digit(*character).is_some()
}

/// Runs the judge's kind against a wrong side; the stretch found has 16 characters.
fn found_stretch(wrong: Side) -> Vec<u8> {
    let case = found(frames::all, wrong, 23);
    let Case::Judge { stretch } = case else {
        panic!("{case:?}");
    };
    assert_eq!(stretch.len(), 16);
    stretch
}

#[test]
fn the_place_is_one_too_far() {
    let stretch = found_stretch(|case| {
        with_event(case, |event| {
            event.place += u32::from(has_place(event.number))
        })
    });
    assert_eq!(stretch.iter().filter(|c| !is_hex(c)).count(), 1);
}

#[test]
fn the_place_is_always_0() {
    let stretch = found_stretch(|case| with_event(case, |event| event.place = 0));
    assert!(is_hex(&stretch[0]));
}

#[test]
fn nine_for_four() {
    let stretch = found_stretch(|case| {
        with_event(case, |event| {
            event.number = if event.number == 4 { 9 } else { event.number };
        })
    });
    assert_eq!(stretch.iter().filter(|c| !is_hex(c)).count(), 1);
}

#[test]
fn four_for_nine() {
    found_stretch(|case| {
        with_event(case, |event| {
            event.number = if event.number == 9 { 4 } else { event.number };
        })
    });
}

#[test]
fn g_is_a_letter_in_lower_case_too() {
    let stretch = found_stretch(|case| match case {
        Case::Judge { stretch } => with_event(case, |event| {
            if event.number == 9 && stretch[event.place as usize] == b'g' {
                event.number = 4;
            }
        }),
        other => paper::outcome(other),
    });
    assert!(stretch.contains(&b'g'));
}

/// The place and the kind of the last bad character in the place of the first one's.
fn by_the_last(case: &Case, change: impl Fn(&mut Event, u32, u8)) -> Outcome {
    let Case::Judge { stretch } = case else {
        return paper::outcome(case);
    };
    with_event(case, |event| {
        let last = stretch.iter().rposition(|c| !is_hex(c));
        if let (true, Some(last)) = (has_place(event.number), last) {
            change(event, last as u32, stretch[last]);
        }
    })
}

#[test]
fn the_place_of_the_last_bad_character() {
    let stretch = found_stretch(|case| by_the_last(case, |event, last, _| event.place = last));
    assert_eq!(stretch.iter().filter(|c| !is_hex(c)).count(), 2);
}

#[test]
fn the_last_bad_character_decides() {
    let stretch = found_stretch(|case| {
        by_the_last(case, |event, _, character| {
            let lower = (b'a'..=b'f').contains(&character);
            event.number = if lower { 4 } else { 9 };
        })
    });
    assert_eq!(stretch.iter().filter(|c| !is_hex(c)).count(), 2);
}

#[test]
fn a_place_beside_another_number() {
    found(
        frames::all,
        |case| with_event(case, |event| event.place += u32::from(event.number == 8)),
        23,
    );
}

#[test]
fn the_receiver_forgets_the_place() {
    found(
        receiver::all,
        |case| with_event(case, |event| event.place = 0),
        // A store of 16 characters, one of them bad, with the CR to come.
        45,
    );
}

#[test]
fn the_receiver_forgets_which_character_was_bad() {
    found(
        receiver::all,
        |case| {
            with_event(case, |event| {
                event.number = if event.number == 9 { 4 } else { event.number };
            })
        },
        45,
    );
}

#[test]
fn length_is_odd_and_7_is_said() {
    found(
        frames::all,
        |case| {
            let mut outcome = paper::outcome(case);
            if let Returned::Event(event) = &mut outcome.returned {
                event.number = if event.number == 6 { 7 } else { event.number };
            }
            outcome
        },
        23,
    );
}

#[test]
fn writer_clears_one_byte_more() {
    let case = found(
        frames::all,
        |case| {
            let mut outcome = paper::outcome(case);
            if let Returned::Written(written) = outcome.returned {
                let behind = outcome.bytes.get_mut(written.length);
                behind.into_iter().for_each(|byte| *byte = 0);
            }
            outcome
        },
        40,
    );
    // A refused writing into one byte, which was cleared.
    let Case::WriteFrame { info, out, .. } = case else {
        panic!("{case:?}");
    };
    assert_eq!((info.len(), out.len()), (0, 1));
}

#[test]
fn refusal_32_before_33() {
    found(
        frames::all,
        |case| match case {
            Case::WriteFrame { header, info, out } => paper::outcome(&Case::WriteFrame {
                header: *header,
                info: info[..info.len().min(2_047)].to_vec(),
                out: out.clone(),
            }),
            other => paper::outcome(other),
        },
        16,
    );
}

#[test]
fn store_is_cleared_at_soi() {
    found(
        receiver::all,
        |case| {
            let mut outcome = paper::outcome(case);
            if let (Case::Step { byte: b'~', .. }, Some(first)) = (case, outcome.bytes.first_mut())
            {
                *first = 0;
            }
            outcome
        },
        20,
    );
}

#[test]
fn run_leaves_the_byte_of_the_event() {
    found(
        receiver::all,
        |case| {
            let mut outcome = paper::outcome(case);
            if let Returned::Ran(ran) = &mut outcome.returned {
                ran.taken -= usize::from(ran.event.kind == 1);
            }
            outcome
        },
        // A store of one right frame, with the CR to come.
        45,
    );
}

#[test]
fn held_is_the_bytes_taken() {
    found(
        receiver::all,
        |case| {
            let mut outcome = paper::outcome(case);
            if let Returned::Ran(ran) = &mut outcome.returned {
                ran.held = ran.taken;
            }
            outcome
        },
        20,
    );
}

#[test]
fn count_4110_is_too_many() {
    found(
        receiver::all,
        |case| match case {
            Case::Step {
                receiver,
                store,
                byte,
            } if receiver.count == 4_110 => paper::outcome(&Case::Step {
                receiver: linked::Receiver {
                    count: 4_111,
                    ..*receiver
                },
                store: store.clone(),
                byte: *byte,
            }),
            other => paper::outcome(other),
        },
        20,
    );
}

#[test]
fn open_is_its_low_byte() {
    let case = found(
        receiver::all,
        |case| {
            let mut case = case.clone();
            if let Case::Step { receiver, .. } | Case::Run { receiver, .. } = &mut case {
                receiver.open &= 0xFF;
            }
            paper::outcome(&case)
        },
        20,
    );
    let Case::Step { receiver, .. } = case else {
        panic!("{case:?}");
    };
    assert_eq!(receiver.open, 0x100);
}

fn with_module(case: &Case, change: impl FnOnce(&mut Module)) -> Outcome {
    let mut case = case.clone();
    if let Case::WriteRecord { module, .. } = &mut case {
        change(module);
    }
    paper::outcome(&case)
}

#[test]
fn remaining_above_65000_is_cut() {
    found(
        writers::all,
        |case| {
            with_module(case, |module| {
                if module.analog.total <= 65_000 {
                    module.analog.remaining = module.analog.remaining.min(65_000);
                }
            })
        },
        20,
    );
}

#[test]
fn place_beyond_n_is_not_judged() {
    found(
        writers::all,
        |case| with_module(case, |module| module.alarm.temperatures[7] = 0),
        16,
    );
}

fn with_table(case: &Case, change: impl FnOnce(&mut Vec<Module>)) -> Outcome {
    let mut case = case.clone();
    match &mut case {
        Case::WriteGroup { table, .. } | Case::Table { table } | Case::Answer { table, .. } => {
            change(table)
        }
        _ => {}
    }
    paper::outcome(&case)
}

#[test]
fn members_that_are_off_are_written() {
    let case = found(
        writers::all,
        |case| {
            with_table(case, |table| {
                table.iter_mut().for_each(|m| m.on |= m.on ^ 1 & 1)
            })
        },
        20,
    );
    let Case::WriteGroup { table, .. } = case else {
        panic!("{case:?}");
    };
    assert_eq!(table.len(), 1);
}

#[test]
fn a_new_record_is_off() {
    let case = found(
        tables::all,
        |case| {
            let mut outcome = paper::outcome(case);
            if let (Case::ModuleNew { .. }, Returned::Module(module)) =
                (case, &mut outcome.returned)
            {
                module.on = 0;
            }
            outcome
        },
        2,
    );
    assert!(matches!(case, Case::ModuleNew { .. }));
}

#[test]
fn a_thirteenth_record_is_not_seen() {
    let case = found(
        tables::all,
        |case| with_table(case, |table| table.truncate(12)),
        80,
    );
    let Case::Table { table } = case else {
        panic!("{case:?}");
    };
    assert_eq!(table.len(), 13);
}

#[test]
fn any_mark_is_on() {
    found(
        tables::all,
        |case| {
            with_table(case, |table| {
                table.iter_mut().for_each(|m| m.on = m.on.min(1))
            })
        },
        10,
    );
}

#[test]
fn the_last_record_is_not_switched_off() {
    found(
        tables::all,
        |case| match case {
            Case::SwitchOff { table, at } if at + 1 == table.len() => {
                let mut outcome = paper::outcome(case);
                outcome.table.clone_from(table);
                outcome
            }
            other => paper::outcome(other),
        },
        14,
    );
}

#[test]
fn an_accepted_95h_leaves_the_table() {
    found(
        standin::all,
        |case| {
            let mut outcome = paper::outcome(case);
            if let Case::Answer { table, .. } = case {
                outcome.table.clone_from(table);
            }
            outcome
        },
        // The question, the maker's 32 bytes, one record.
        70,
    );
}

#[test]
fn a_module_with_a_fault_answers() {
    found(
        standin::all,
        |case| {
            with_table(case, |table| {
                table.iter_mut().for_each(|m| m.link_fault = 0)
            })
        },
        70,
    );
}

#[test]
fn noise_is_answered() {
    let case = found(
        standin::all,
        |case| {
            let mut case = case.clone();
            if let Case::Answer { stretch, .. } = &mut case {
                if let Err(reference::Refusal::NoHexDigit(place)) = reference::judge(stretch) {
                    stretch[place] = b'0';
                }
            }
            paper::outcome(&case)
        },
        75,
    );
    assert!(matches!(case, Case::Answer { .. }));
}

fn reading(case: &Case, change: impl FnOnce(&[Module], &mut Outcome)) -> Outcome {
    let mut outcome = paper::outcome(case);
    if let Case::ReadReply { table, .. } = case {
        change(table, &mut outcome);
    }
    outcome
}

#[test]
fn cells_of_the_reply_before_are_kept() {
    found(
        reply::all,
        |case| {
            reading(case, |before, outcome| {
                for (after, before) in outcome.table.iter_mut().zip(before) {
                    let from = usize::from(after.analog.cell_count).min(16);
                    after.analog.cells[from..].copy_from_slice(&before.analog.cells[from..]);
                }
            })
        },
        60,
    );
}

#[test]
fn the_first_record_is_copied_for_the_rest() {
    let case = found(
        reply::all,
        |case| {
            reading(case, |before, outcome| {
                let read = before != outcome.table;
                for at in 1..outcome.table.len() {
                    if read && outcome.table[at].alarm != before[at].alarm {
                        outcome.table[at].alarm = outcome.table[0].alarm;
                    }
                }
            })
        },
        60,
    );
    let Case::ReadReply { table, .. } = case else {
        panic!("{case:?}");
    };
    assert_eq!(table.len(), 2);
}

#[test]
fn the_flag_is_not_returned() {
    found(
        reply::all,
        |case| {
            reading(case, |_, outcome| {
                if let Returned::Reply(reply) = &mut outcome.returned {
                    reply.flag = 0;
                }
            })
        },
        50,
    );
}

#[test]
fn the_reply_reader_forgets_the_place() {
    let case = found(
        reply::all,
        |case| {
            reading(case, |_, outcome| {
                if let Returned::Reply(reply) = &mut outcome.returned {
                    reply.place = 0;
                }
            })
        },
        40,
    );
    assert!(matches!(case, Case::ReadReply { .. }));
}

#[test]
fn code_and_info_are_judged_the_other_way_round() {
    found(
        reply::all,
        |case| {
            reading(case, |_, outcome| {
                let Case::ReadReply { stretch, .. } = case else {
                    return;
                };
                if let Returned::Reply(reply) = &mut outcome.returned {
                    if reply.number == 13 && stretch.len() > 16 {
                        reply.number = 14;
                    }
                }
            })
        },
        20,
    );
}

/// The reference's outcome of a call that has to do with 47H alone, changed.
fn with_parameters(case: &Case, change: impl Fn(&mut Parameters)) -> Outcome {
    let mut case = case.clone();
    match &mut case {
        Case::WriteRecord { module, .. } => change(&mut module.parameters),
        Case::Answer { table, .. } => table.iter_mut().for_each(|m| change(&mut m.parameters)),
        _ => {}
    }
    paper::outcome(&case)
}

#[test]
fn low_and_under_are_written_for_each_other() {
    let case = found(
        writers::all,
        |case| {
            with_parameters(case, |limits| {
                core::mem::swap(
                    &mut limits.module_low_voltage,
                    &mut limits.module_under_voltage,
                );
            })
        },
        16,
    );
    let Case::WriteRecord { module, .. } = case else {
        panic!("{case:?}");
    };
    let limits = module.parameters;
    assert_ne!(limits.module_low_voltage, limits.module_under_voltage);
}

#[test]
fn the_stand_in_sends_charge_for_discharge() {
    found(
        standin::all,
        |case| {
            with_parameters(case, |limits| {
                core::mem::swap(&mut limits.charge_current, &mut limits.discharge_current);
            })
        },
        70,
    );
}

#[test]
fn a_module_voltage_is_held_below_32768() {
    // As one would who keeps it in a signed number.
    found(
        writers::all,
        |case| with_parameters(case, |limits| limits.module_high_voltage &= 0x7FFF),
        16,
    );
}

#[test]
fn a_module_with_a_fault_does_not_answer_47h() {
    let case = found(
        standin::all,
        |case| {
            let mut outcome = paper::outcome(case);
            let Case::Answer { table, stretch, .. } = case else {
                return outcome;
            };
            let asked = reference::judge(stretch).map(|frame| frame.header);
            if let (Ok(header), Returned::Answered(answered)) = (asked, &mut outcome.returned) {
                let mut faulty = table.iter().filter(|m| m.adr == header.adr);
                let faulty = faulty.any(|module| module.link_fault == 1);
                if header.cid2 == 0x47 && faulty && answered.kind == 1 {
                    answered.length = 18;
                }
            }
            outcome
        },
        70,
    );
    let Case::Answer { table, .. } = case else {
        panic!("{case:?}");
    };
    assert_eq!((table.len(), table[0].link_fault), (1, 1));
}

#[test]
fn the_stand_in_wants_a_command_with_47h() {
    found(
        standin::all,
        |case| {
            let mut case = case.clone();
            if let Case::Answer { stretch, .. } = &mut case {
                if let Some(([ver, adr, 0x46, 0x47], _)) = compare::made::opened(stretch) {
                    *stretch = compare::made::stretch([ver, adr, 0x46, 0x47], &[adr]);
                }
            }
            paper::outcome(&case)
        },
        70,
    );
}

/// A reply to 47H: the question and the outcome, which may be changed.
fn reading_parameters(case: &Case, change: impl FnOnce(&Question, &mut Outcome)) -> Outcome {
    let mut outcome = paper::outcome(case);
    if let Case::ReadReply { question, .. } = case {
        if question.cid2 == 0x47 {
            change(question, &mut outcome);
        }
    }
    outcome
}

#[test]
fn the_reader_takes_the_third_row_for_the_modules() {
    found(
        reply::all,
        |case| {
            reading(case, |before, outcome| {
                for (after, before) in outcome.table.iter_mut().zip(before) {
                    if after.parameters != before.parameters {
                        let third = after.parameters.cell_under_voltage;
                        after.parameters.module_under_voltage = third as u16;
                    }
                }
            })
        },
        60,
    );
}

#[test]
fn the_reader_wants_the_command_of_47h() {
    let case = found(
        reply::all,
        |case| {
            reading_parameters(case, |question, outcome| {
                if let (true, Returned::Reply(reply)) =
                    (question.command != question.adr, &mut outcome.returned)
                {
                    (reply.kind, reply.number) = (2, 34);
                }
            })
        },
        // A stretch that is no frame, and one record.
        30,
    );
    assert!(matches!(case, Case::ReadReply { .. }));
}

#[test]
fn the_flag_of_47h_is_not_returned() {
    found(
        reply::all,
        |case| {
            reading_parameters(case, |_, outcome| {
                if let Returned::Reply(reply) = &mut outcome.returned {
                    reply.flag = 0;
                }
            })
        },
        60,
    );
}

#[test]
fn a_byte_behind_the_twelve_limits_is_not_seen() {
    let case = found(
        reply::all,
        |case| {
            let mut shorter = case.clone();
            if let Case::ReadReply {
                question, stretch, ..
            } = &mut shorter
            {
                match compare::made::opened(stretch) {
                    Some((header, info)) if question.cid2 == 0x47 && info.len() == 26 => {
                        *stretch = compare::made::stretch(header, &info[..25]);
                    }
                    _ => {}
                }
            }
            paper::outcome(&shorter)
        },
        60,
    );
    let Case::ReadReply { stretch, .. } = case else {
        panic!("{case:?}");
    };
    assert_eq!(stretch.len(), 16 + 2 * 26);
}

#[test]
fn limits_of_the_group_are_replaced() {
    let case = found(
        reply::all,
        |case| {
            reading_parameters(case, |question, outcome| {
                let asked = outcome.table.iter().find(|m| m.adr == question.adr);
                if let (Some(asked), 0xFF) = (asked.copied(), question.command) {
                    for module in &mut outcome.table {
                        module.parameters = asked.parameters;
                    }
                }
            })
        },
        60,
    );
    let Case::ReadReply { table, .. } = case else {
        panic!("{case:?}");
    };
    assert_eq!(table.len(), 2);
}

/// A listing's outcome with each line changed, or dropped where it becomes empty.
fn with_lines(case: &Case, change: impl Fn(&str) -> String) -> Outcome {
    let mut outcome = paper::outcome(case);
    if let (Case::List { out, .. }, Returned::Listed(listed)) = (case, &mut outcome.returned) {
        let text = String::from_utf8(outcome.bytes[..listed.written.length].to_vec()).unwrap();
        let changed: String = text.split_inclusive('\n').map(change).collect();
        outcome.bytes.clone_from(out);
        outcome.bytes[..changed.len()].copy_from_slice(changed.as_bytes());
        listed.written.length = changed.len();
    }
    outcome
}

#[test]
fn the_listing_has_no_place() {
    found(
        listing::all,
        |case| {
            with_lines(case, |line| match line.strip_prefix("place=") {
                Some(_) => String::new(),
                None => line.to_string(),
            })
        },
        60,
    );
}

#[test]
fn the_listing_s_place_is_hex() {
    found(
        listing::all,
        |case| {
            with_lines(case, |line| match line.strip_prefix("place=") {
                Some(place) => {
                    let place: usize = place.trim_end().parse().unwrap();
                    format!("place={place:X}\n")
                }
                None => line.to_string(),
            })
        },
        60,
    );
}

#[test]
fn totals_stand_for_each_other() {
    found(
        listing::all,
        |case| {
            let mut case = case.clone();
            if let Case::ListClose { listing, .. } = &mut case {
                core::mem::swap(&mut listing.frames, &mut listing.refusals);
            }
            paper::outcome(&case)
        },
        30,
    );
}

#[test]
fn the_byte_after_the_limit_is_listed() {
    let case = found(
        listing::all,
        |case| {
            let mut outcome = paper::outcome(case);
            if let Returned::Listed(listed) = &mut outcome.returned {
                let more = listed.next.offset == 1_073_741_824;
                listed.taken += usize::from(more);
            }
            outcome
        },
        45,
    );
    let Case::List { listing, .. } = case else {
        panic!("{case:?}");
    };
    assert!(listing.offset <= 1_073_741_824);
}

#[test]
fn the_greatest_current_is_wrapped() {
    let case = found(
        meanings::all,
        |case| match case {
            Case::Milliamps { current } => {
                Outcome::of(Returned::Meaning(i32::from(current.wrapping_mul(100))))
            }
            other => paper::outcome(other),
        },
        3,
    );
    assert!(matches!(case, Case::Milliamps { .. }));
}
