//! Readings B: frame and receiver.

use crate::common::*;
use reference::Refusal::{LowerCase, NoHexDigit, Plain};
use reference::{judge, run, step, write_frame, Event, Header, Receiver, Refusal};

fn opened(count: usize) -> (Receiver, Vec<u8>) {
    (Receiver::Open(count), vec![b'0'; 4_110])
}

#[test]
fn b1_first_number_that_applies() {
    // 3 before 4 and 9: short and not hex.
    assert_eq!(judge(b"21024642E00202a"), Err(Plain(3)));
    assert_eq!(judge(b"21024642E00202g"), Err(Plain(3)));
    // 4 and 9 before 5: a character of INFO isn't hex and LENGTH is wrong.
    assert_eq!(judge(b"21024642000202a0FD32"), Err(LowerCase(14)));
    assert_eq!(judge(b"21024642000202G0FD32"), Err(NoHexDigit(14)));
    // 5 before 6, 7 and 8.
    assert_eq!(judge(b"210246420003020000"), Err(Plain(5)));
    // 6 before 7 and 8: LENID 3, LCHKSUM D.
    assert_eq!(judge(b"21024642D003020000"), Err(Plain(6)));
    // 7 before 8: LENID 4, LCHKSUM C.
    assert_eq!(judge(b"21024642C004020000"), Err(Plain(7)));
    assert_eq!(judge(b"21024642E002020000"), Err(Plain(8)));
    // 1 before all.
    for bad in [b'a', b'g', 0x7E, 0x0D] {
        assert_eq!(judge(&[bad; 4_111]), Err(Plain(1)));
    }
    assert_eq!(judge(&[b'a'; 4_110]), Err(LowerCase(0)));
    assert_eq!(judge(&[b'g'; 4_110]), Err(NoHexDigit(0)));
    assert_eq!(judge(b""), Err(Plain(3)));
    assert_eq!(judge(b"000000000000000"), Err(Plain(3)));
}

/// What is due for one character in the place of a right one.
fn due(character: u8, place: usize) -> Option<Refusal> {
    match character {
        b'0'..=b'9' | b'A'..=b'F' => None,
        b'a'..=b'f' => Some(LowerCase(place)),
        _ => Some(NoHexDigit(place)),
    }
}

/// The refusal, if it is one of the two that have a place.
fn with_place(refusal: Refusal) -> Option<Refusal> {
    refusal.place().is_some().then_some(refusal)
}

#[test]
fn b1_every_character_at_every_place() {
    for right in [
        stretch(&frame(0x21, 0x02, 0x46, 0x42, &[0x02])),
        vec![b'0'; 16],
    ] {
        for place in 0..right.len() {
            for character in 0..=255 {
                let mut changed = right.clone();
                changed[place] = character;
                let told = judge(&changed).err().and_then(with_place);
                assert_eq!(told, due(character, place), "{place} {character}");
            }
        }
    }
}

#[test]
fn b1_the_characters_next_to_hex() {
    let judged = |character| {
        let mut stretch = *b"21024642E00202FD32";
        stretch[17] = character;
        judge(&stretch)
    };
    for lower in *b"af" {
        assert_eq!(judged(lower), Err(LowerCase(17)));
    }
    for other in [0x00, 0xFF, b'@', b'G', b'`', b'g', b'/', b':', 0x7E, 0x0D] {
        assert_eq!(judged(other), Err(NoHexDigit(17)), "{other}");
    }
}

#[test]
fn b1_the_first_bad_character_decides() {
    assert_eq!(judge(b"21024642E00202fG32"), Err(LowerCase(14)));
    assert_eq!(judge(b"21024642E00202Gf32"), Err(NoHexDigit(14)));
    assert_eq!(judge(b"f1024642E00202FD3G"), Err(LowerCase(0)));
    assert_eq!(judge(b"G1024642E00202FD3f"), Err(NoHexDigit(0)));
    let mut long = vec![b'0'; 4_110];
    long[4_109] = b'f';
    assert_eq!(judge(&long), Err(LowerCase(4_109)));
    long[4_108] = 0x0D;
    assert_eq!(judge(&long), Err(NoHexDigit(4_108)));
    long[0] = b'a';
    assert_eq!(judge(&long), Err(LowerCase(0)));
    long.push(b'0');
    assert_eq!(judge(&long), Err(Plain(1)));
    assert_eq!(judge(&long[..15]), Err(Plain(3)));
}

#[test]
fn b1_the_receiver_passes_the_place_on() {
    let told = |stream: &[u8]| events(stream).0;
    let lower = Event::Refused(LowerCase(14));
    let other = Event::Refused(NoHexDigit(14));
    assert_eq!(told(b"xx~21024642E00202fd32\r"), [lower]);
    assert_eq!(told(b"~21024642E00202Gd32\r"), [other]);
    // A tilde opens anew, so the place counts from the last one.
    assert_eq!(
        told(b"~2102~21024642E00202fd32\r"),
        [Event::Refused(Plain(2)), lower]
    );
    let mut store = *b"21024642E00202G032";
    let mut longer = vec![0; 4_110];
    longer[..18].copy_from_slice(&store);
    assert_eq!(
        step(Receiver::Open(18), &mut longer, 0x0D),
        (Receiver::Waiting, other)
    );
    // Behind the count nothing is judged.
    store[14] = b'0';
    longer[..18].copy_from_slice(&store);
    assert_eq!(
        step(Receiver::Open(18), &mut longer, 0x0D),
        (Receiver::Waiting, Event::Refused(Plain(8)))
    );
}

#[test]
fn b2_at_4110_characters() {
    let (full, mut store) = opened(4_110);
    assert_eq!(
        step(full, &mut store, 0x7E),
        (Receiver::Open(0), Event::Refused(Plain(2)))
    );
    // 4,110 zeros: LENID 0 needs 16 characters.
    assert_eq!(
        step(full, &mut store, 0x0D),
        (Receiver::Waiting, Event::Refused(Plain(7)))
    );
    for byte in (0..=255).filter(|byte| ![0x7E, 0x0D].contains(byte)) {
        assert_eq!(
            step(full, &mut store, byte),
            (Receiver::Waiting, Event::Refused(Plain(1)))
        );
    }
    assert_eq!(store, [b'0'; 4_110]);
    // After 1 the rest gives nothing, its CR too; the next tilde opens.
    let mut stream = vec![b'0'; 4_200];
    stream[0] = 0x7E;
    stream.extend(b"\r\r0~12\r");
    assert_eq!(numbers(&stream), [1, 3]);
}

#[test]
fn b3_tilde_is_the_new_opening() {
    assert_eq!(
        events(b"~~~"),
        (vec![Event::Refused(Plain(2)); 2], Receiver::Open(0))
    );
    let mut store = vec![0; 4_110];
    let ran = run(Receiver::Waiting, &mut store, b"~ABC~");
    assert_eq!(
        (ran.event, ran.taken, ran.held),
        (Event::Refused(Plain(2)), 5, 3)
    );
    assert_eq!(&store[..4], b"ABC\0");
    let ran = run(ran.next, &mut store, b"1");
    assert_eq!(ran.next, Receiver::Open(1));
    assert_eq!(&store[..4], b"1BC\0");
}

#[test]
fn b4_lenid_counts_characters() {
    let mut store = vec![0; 4_110];
    let stream = frame(0x21, 0x03, 0x46, 0x00, &[0xAB, 0xCD]);
    let ran = run(Receiver::Waiting, &mut store, &stream);
    let Event::Frame(frame) = ran.event else {
        panic!()
    };
    assert_eq!(frame.lenid, 4);
    assert_eq!(&store[12..12 + frame.lenid], b"ABCD");
    assert_eq!(ran.held, 20);
    let empty = judge(b"2002464F0000FD98").unwrap();
    assert_eq!(empty.lenid, 0);
}

#[test]
fn b5_call_refusals_always_first() {
    for receiver in [Receiver::Waiting, Receiver::Open(0), Receiver::Open(9_999)] {
        let mut short = vec![7; 4_109];
        for byte in [b'0', 0x7E, 0x0D] {
            assert_eq!(
                step(receiver, &mut short, byte),
                (receiver, Event::Refused(Plain(32)))
            );
        }
        for piece in [&b""[..], b"~0\r"] {
            let ran = run(receiver, &mut short, piece);
            assert_eq!((ran.next, ran.event), (receiver, Event::Refused(Plain(32))));
            assert_eq!((ran.taken, ran.held), (0, 0));
        }
        assert_eq!(short, [7; 4_109]);
    }
    for count in [4_111, 4_112, usize::MAX] {
        let (receiver, mut store) = opened(count);
        for byte in [b'0', 0x7E, 0x0D] {
            assert_eq!(
                step(receiver, &mut store, byte),
                (receiver, Event::Refused(Plain(35)))
            );
        }
        let ran = run(receiver, &mut store, b"");
        assert_eq!((ran.next, ran.event), (receiver, Event::Refused(Plain(35))));
        assert_eq!(ran.taken, 0);
    }
    let (receiver, mut store) = opened(4_110);
    assert_eq!(run(receiver, &mut store, b"").event, Event::Nothing);
}

#[test]
fn b6_bytes_taken_by_a_run() {
    let mut store = vec![0; 4_110];
    let ran = run(Receiver::Waiting, &mut store, b"xx~12\rrest");
    assert_eq!((ran.event, ran.taken), (Event::Refused(Plain(3)), 6));
    assert_eq!(ran.next, Receiver::Waiting);
    let ran = run(Receiver::Waiting, &mut store, b"xx~12");
    assert_eq!((ran.event, ran.taken), (Event::Nothing, 5));
    assert_eq!(ran.next, Receiver::Open(2));
    let ran = run(Receiver::Waiting, &mut store, b"");
    assert_eq!((ran.event, ran.taken), (Event::Nothing, 0));
}

#[test]
fn b7_longer_store_is_not_used() {
    let mut store = vec![9; 5_000];
    let mut stream = vec![b'0'; 4_112];
    stream[0] = 0x7E;
    let ran = run(Receiver::Waiting, &mut store, &stream);
    assert_eq!((ran.event, ran.taken), (Event::Refused(Plain(1)), 4_112));
    assert_eq!(ran.held, 4_110);
    assert_eq!(&store[..4_110], [b'0'; 4_110]);
    assert_eq!(&store[4_110..], [9; 890]);
}

#[test]
fn b8_step_is_lent_the_store() {
    let mut store = vec![0; 4_110];
    let (next, event) = step(Receiver::Open(5), &mut store, b'x');
    assert_eq!((next, event), (Receiver::Open(6), Event::Nothing));
    assert_eq!(store[5], b'x');
    store[5] = 0;
    assert_eq!(store, [0; 4_110]);
}

#[test]
fn b9_frame_writer() {
    let header = Header::default();
    assert_eq!(write_frame(header, &[0; 2_048], &mut []), Err(33));
    for length in [0, 1, 2_047] {
        let info = vec![0xC3; length];
        let needed = 18 + 2 * length;
        let mut short = vec![5; needed - 1];
        assert_eq!(write_frame(header, &info, &mut short), Err(32));
        assert_eq!(short, vec![5; needed - 1]);
        let mut out = vec![5; needed + 1];
        assert_eq!(write_frame(header, &info, &mut out), Ok(needed));
        assert_eq!((out[0], out[needed - 1], out[needed]), (0x7E, 0x0D, 5));
    }
}
