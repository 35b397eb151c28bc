//! Laws of the demands (PROTOCOL 13) and of the protocol over seeded inputs, long and short, right
//! and damaged.

use crate::common::*;
use reference::frame::{info, MOST_CHARACTERS};
use reference::seeded::Seeded;
use reference::{
    answer, judge, listing, read_reply, rule, run, step, write_frame, Answer, Event, Module,
    Question, Receiver, Refusal, Station,
};

/// The listing by looking at the whole stream: each tilde opens a stretch that reaches to the next
/// tilde or CR, or over 4,110 characters.
fn listing_by_stretches(stream: &[u8]) -> Vec<u8> {
    let mut text = String::new();
    let (mut frames, mut refusals) = (0, 0);
    for (at, _) in stream.iter().enumerate().filter(|(_, &byte)| byte == 0x7E) {
        let rest = &stream[at + 1..];
        let end = rest.iter().position(|&byte| byte == 0x7E || byte == 0x0D);
        let held = end.unwrap_or(rest.len());
        let number = match end.map(|end| rest[end]) {
            _ if held > MOST_CHARACTERS => 1,
            None => continue,
            Some(0x7E) => 2,
            Some(_) => judge(&rest[..held]).map_or_else(Refusal::number, |_| 0),
        };
        if number == 0 {
            let c = String::from_utf8(rest[..held].to_vec()).unwrap();
            text += &format!("at={at}\nver={}\nadr={}\n", &c[0..2], &c[2..4]);
            text += &format!(
                "cid1={}\ncid2={}\ninfo={}\n",
                &c[4..6],
                &c[6..8],
                &c[12..held - 4]
            );
            frames += 1;
        } else {
            text += &format!("at={at}\nrefused={number}\n");
            if number == 4 || number == 9 {
                let hex = |c: &u8| c.is_ascii_digit() || (b'A'..=b'F').contains(c);
                let place = rest.iter().take_while(|c| hex(c)).count();
                text += &format!("place={place}\n");
                let lower = (b'a'..=b'f').contains(&stream[at + 1 + place]);
                assert_eq!(number == 4, lower);
            }
            refusals += 1;
        }
    }
    text += &format!("frames={frames}\nrefusals={refusals}\n");
    text.into_bytes()
}

#[test]
fn listing_is_that_of_the_stretches() {
    let mut seeded = Seeded::new(1);
    for _ in 0..400 {
        let parts = seeded.below(40);
        let stream = seeded.stream(parts);
        assert_eq!(listing(&stream), listing_by_stretches(&stream));
    }
    for _ in 0..2_000 {
        let length = seeded.below(200);
        let few = [0x7E, 0x0D, b'0', b'0', b'0', b'0', b'F', b'a', b'g'];
        let stream: Vec<u8> = (0..length).map(|_| seeded.pick(&few)).collect();
        assert_eq!(listing(&stream), listing_by_stretches(&stream));
    }
}

#[test]
fn any_cutting_gives_the_same_events() {
    let mut seeded = Seeded::new(2);
    for _ in 0..200 {
        let stream = seeded.stream(20);
        let whole = events(&stream);
        let mut store = vec![0; 4_110];
        let mut receiver = Receiver::Waiting;
        let mut cut = Vec::new();
        let mut rest = &stream[..];
        while !rest.is_empty() {
            let longest = seeded.pick(&[1, 3, 50, 9_000]);
            let (mut piece, after) = rest.split_at((1 + seeded.below(longest)).min(rest.len()));
            rest = after;
            while !piece.is_empty() {
                let ran = run(receiver, &mut store, piece);
                receiver = ran.next;
                piece = &piece[ran.taken..];
                if ran.event != Event::Nothing {
                    cut.push(ran.event);
                }
            }
        }
        assert_eq!((cut, receiver), whole);
    }
}

#[test]
fn run_is_steps_and_held_finds_the_soi() {
    let mut seeded = Seeded::new(3);
    for _ in 0..200 {
        let stream = seeded.stream(20);
        let mut by_run = vec![0; 4_110];
        let mut by_step = vec![0; 4_110];
        let (mut receiver, mut at) = (Receiver::Waiting, 0);
        while at < stream.len() {
            let ran = run(receiver, &mut by_run, &stream[at..]);
            let mut stepped = (receiver, Event::Nothing);
            for &byte in &stream[at..at + ran.taken] {
                assert_eq!(stepped.1, Event::Nothing);
                stepped = step(stepped.0, &mut by_step, byte);
            }
            assert_eq!((ran.next, ran.event), stepped);
            assert_eq!(by_run, by_step);
            at += ran.taken;
            receiver = ran.next;
            if ran.event != Event::Nothing {
                let soi = at - 1 - ran.held - 1;
                assert_eq!(stream[soi], 0x7E);
                assert!(!stream[soi + 1..at - 1].contains(&0x7E));
            }
        }
    }
}

#[test]
fn step_from_any_state() {
    let mut seeded = Seeded::new(4);
    for _ in 0..20_000 {
        let length = seeded.pick(&[4_109, 4_110, 4_111]);
        let mut store = vec![1; length];
        let receiver = match seeded.below(4) {
            0 => Receiver::Waiting,
            1 => Receiver::Open(seeded.below(20)),
            _ => Receiver::Open(4_105 + seeded.below(8)),
        };
        let byte = seeded.pick(&[0x7E, 0x0D, b'0', b'F', 0, 0xFF]);
        let (next, event) = step(receiver, &mut store, byte);
        let piece = run(receiver, &mut store.clone(), &[byte]);
        assert_eq!((piece.next, piece.event), (next, event));
        let stored = store.iter().filter(|&&stored| stored != 1).count();
        let stores =
            matches!((receiver, next), (Receiver::Open(a), Receiver::Open(b)) if b == a + 1);
        assert_eq!(stored, usize::from(stores));
        let refused_call = matches!(event, Event::Refused(Refusal::Plain(32 | 35)));
        assert!(!refused_call || next == receiver);
    }
}

#[test]
fn written_frames_are_read_and_read_frames_are_written() {
    let mut seeded = Seeded::new(5);
    for round in 0..3_000 {
        let length = if round % 50 == 0 {
            seeded.below(2_048)
        } else {
            seeded.below(80)
        };
        let whole = seeded.frame(length);
        let characters = stretch(&whole);
        let judged = judge(&characters).unwrap();
        let mut out = vec![0; 4_112];
        let size = write_frame(judged.header, &info(&characters, judged), &mut out).unwrap();
        assert_eq!(out[..size], whole);
        // Whatever a damaged stretch is accepted as, it is written the same.
        let mut damaged = characters.clone();
        seeded.damage(&mut damaged);
        damaged = if damaged.len() < 4 || seeded.once_in(2) {
            damaged
        } else {
            resealed(&damaged)
        };
        if let Ok(judged) = judge(&damaged) {
            let size = write_frame(judged.header, &info(&damaged, judged), &mut out).unwrap();
            assert_eq!(out[1..size - 1], damaged);
        }
    }
}

#[test]
fn one_changed_character_lets_no_frame_out() {
    let mut seeded = Seeded::new(6);
    for _ in 0..20_000 {
        let length = if seeded.once_in(20) {
            468 - seeded.below(3)
        } else {
            seeded.below(40)
        };
        let whole = seeded.frame(length);
        let place = 1 + seeded.below(whole.len() - 2);
        let byte = if seeded.once_in(2) {
            seeded.byte()
        } else {
            seeded.pick(b"~\r0123456789ABCDEF")
        };
        let mut changed = whole.clone();
        changed[place] = byte;
        let handed_out = events(&changed)
            .0
            .iter()
            .any(|event| matches!(event, Event::Frame(_)));
        assert_eq!(handed_out, byte == whole[place]);
    }
}

/// A question's stretch at a VER.
fn asked(question: Question, ver: u8) -> Vec<u8> {
    let info = match question.cid2 {
        0x47 | 0x4F | 0x51 => vec![],
        _ => vec![question.command],
    };
    stretch(&frame(ver, question.adr, 0x46, question.cid2, &info))
}

#[test]
fn what_the_stand_in_answers_is_read() {
    let mut seeded = Seeded::new(7);
    let (mut read_whole, mut parameters) = (0, 0);
    for _ in 0..6_000 {
        let mut theirs = seeded.table();
        let before = theirs.clone();
        let station = station();
        let question = seeded.question(&theirs);
        let mut out = vec![0; 4_112];
        let answer = answer(&mut theirs, &station, &asked(question, 0x21), &mut out);
        let Answer::Reply(length) = answer else {
            assert_eq!(theirs, before);
            continue;
        };
        // A second table of the same stack with other contents.
        let mut ours: Vec<Module> = before
            .iter()
            .map(|module| seeded.module(module.adr))
            .collect();
        for (our, their) in ours.iter_mut().zip(&before) {
            our.on = their.on;
        }
        let old = ours.clone();
        let result = read_reply(&mut ours, question, &out[1..length - 1]);
        let code = judge(&out[1..length - 1]).unwrap().header.cid2;
        let reply = match result {
            Ok(reply) => reply,
            Err(refusal) => {
                assert_eq!(refusal, Refusal::Plain(34));
                assert!(
                    matches!(code, 0x04 | 0x06 | 0x90),
                    "{question:?} {code:02X}"
                );
                continue;
            }
        };
        assert_eq!((reply.ver, reply.code), (0x21, code));
        let mut expected = old;
        if code == 0x00 {
            read_whole += 1;
            parameters += usize::from(question.cid2 == 0x47);
            for (new, their) in expected.iter_mut().zip(&before) {
                let group = question.command == 0xFF && their.on == 1;
                match question.cid2 {
                    0x42 if group || their.adr == question.command => new.analog = their.analog,
                    0x44 if group || their.adr == question.command => new.alarm = their.alarm,
                    0x47 if their.adr == question.adr => new.parameters = their.parameters,
                    0x92 if their.adr == question.adr => new.limits = their.limits,
                    0x93 if their.adr == question.adr => new.serial = their.serial,
                    0x96 if their.adr == question.adr => new.version = their.version,
                    _ => {}
                }
            }
            assert_eq!(
                reply.maker,
                (question.cid2 == 0x51).then_some(station.maker)
            );
            assert_eq!(
                reply.flag,
                matches!(question.cid2, 0x42 | 0x44 | 0x47).then_some(0x00)
            );
        }
        assert_eq!(ours, expected);
        assert_eq!(rule(&ours), Ok(()));
        // Only an accepted 95H changes the stand-in's table.
        let mut switched = before;
        for module in &mut switched {
            if code == 0x00 && question.cid2 == 0x95 && module.adr == question.adr {
                module.on = 0;
            }
        }
        assert_eq!(theirs, switched);
    }
    assert!(read_whole > 1_000, "{read_whole}");
    assert!(parameters > 100, "{parameters}");
}

#[test]
fn accepted_replies_are_written_the_same() {
    let mut seeded = Seeded::new(8);
    let (mut accepted, mut parameters) = (0, 0);
    for _ in 0..6_000 {
        let mut table = seeded.table();
        for module in &mut table {
            (module.on, module.link_fault) = (1, 0);
        }
        let mut out = vec![0; 4_112];
        let asked_of = seeded.question(&table);
        let station = station();
        let Answer::Reply(length) = answer(&mut table, &station, &asked(asked_of, 0x21), &mut out)
        else {
            continue;
        };
        table.iter_mut().for_each(|module| module.on = 1);
        let mut reply = out[1..length - 1].to_vec();
        if reply.len() > 16 {
            // One other hex character in INFO, sealed again.
            let place = 12 + seeded.below(reply.len() - 16);
            reply[place] = seeded.characters(1)[0];
            reply = resealed(&reply);
        }
        let before = table.clone();
        let Ok(result) = read_reply(&mut table, asked_of, &reply) else {
            assert_eq!(table, before);
            continue;
        };
        let records = [0x42, 0x44, 0x47, 0x92, 0x93, 0x96];
        if result.code != 0x00 || !records.contains(&asked_of.cid2) {
            continue;
        }
        accepted += 1;
        parameters += usize::from(asked_of.cid2 == 0x47);
        let place = table
            .iter()
            .position(|module| module.adr == asked_of.adr)
            .unwrap();
        let flag = result.flag.unwrap_or(0);
        let again = written(|out| match (asked_of.cid2, asked_of.command) {
            (0x42, 0xFF) => reference::write_analog_group(&table, flag, out),
            (0x44, 0xFF) => reference::write_alarm_group(&table, flag, out),
            (0x42, _) => reference::write_analog(&table[place], flag, out),
            (0x44, _) => reference::write_alarm(&table[place], flag, out),
            (0x47, _) => reference::write_parameters(&table[place], flag, out),
            (0x92, _) => reference::write_limits(&table[place], out),
            (0x93, _) => reference::write_serial(&table[place], out),
            _ => reference::write_version(&table[place], out),
        })
        .unwrap();
        assert_eq!(say(asked_of.adr, 0x00, &again), reply);
    }
    assert!(accepted > 1_000, "{accepted}");
    assert!(parameters > 100, "{parameters}");
}

#[test]
fn written_parameters_are_read_and_read_parameters_are_written() {
    let mut seeded = Seeded::new(11);
    for _ in 0..2_000 {
        let (source, flag) = (seeded.module(0x05), seeded.byte());
        let info = written(|out| reference::write_parameters(&source, flag, out)).unwrap();
        let mut table = vec![seeded.module(0x05), seeded.module(0x06)];
        let mut expected = table.clone();
        expected[0].parameters = source.parameters;
        let reply = read(&mut table, (0x05, 0x47, 0x05), &say(0x05, 0x00, &info)).unwrap();
        assert_eq!((reply.flag, table), (Some(flag), expected));
        // Any 25 bytes are read, and written the same.
        let info = seeded.bytes(25);
        let mut table = vec![seeded.module(0x05)];
        let reply = read(&mut table, (0x05, 0x47, 0x05), &say(0x05, 0x00, &info)).unwrap();
        let flag = reply.flag.unwrap();
        let again = written(|out| reference::write_parameters(&table[0], flag, out));
        assert_eq!(again, Ok(info));
    }
}

#[test]
fn no_input_traps_and_refusals_leave_what_was_lent() {
    let mut seeded = Seeded::new(9);
    for _ in 0..12_000 {
        let mut table = if seeded.once_in(3) {
            seeded.doubtful_table()
        } else {
            seeded.table()
        };
        let before = table.clone();
        let question = seeded.question(&table);
        let mut heard = asked(question, seeded.pick(&[0x21, 0x21, 0x20]));
        for _ in 0..seeded.below(3) {
            seeded.damage(&mut heard);
        }
        if heard.len() >= 4 && seeded.once_in(2) {
            heard = resealed(&heard);
        }
        let room = seeded.pick(&[4_112, 4_112, 4_112, 4_111, 0, 5_000]);
        let mut out = vec![5; room];
        match answer(&mut table, &station(), &heard, &mut out) {
            Answer::Silence | Answer::Refused(_) => {
                assert_eq!(table, before);
                assert!(out.iter().all(|&byte| byte == 5));
            }
            Answer::Reply(length) => {
                assert!(judge(&out[1..length - 1]).is_ok());
                assert!(out[length..].iter().all(|&byte| byte == 5));
                let mut reply = out[1..length - 1].to_vec();
                for _ in 0..seeded.below(3) {
                    seeded.damage(&mut reply);
                    if reply.len() >= 4 {
                        reply = resealed(&reply);
                    }
                }
                let before = table.clone();
                if read_reply(&mut table, question, &reply).is_err() {
                    assert_eq!(table, before);
                } else {
                    assert_eq!(rule(&table), Ok(()));
                }
            }
        }
    }
}

#[test]
fn a_stand_in_of_another_ver() {
    let station = Station {
        ver: 0x35,
        ..station()
    };
    let mut out = vec![0; 4_112];
    let asked = ask(0x02, 0x42, &[0x02]);
    let answer = answer(&mut stack(&[0x02]), &station, &asked, &mut out);
    let Answer::Reply(length) = answer else {
        panic!()
    };
    assert_eq!(out[..length], frame(0x35, 0x02, 0x46, 0x01, &[]));
}
