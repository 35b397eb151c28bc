//! Readings F: the listing.

use crate::common::*;
use reference::{listing, Lister};

fn text(stream: &[u8]) -> String {
    String::from_utf8(listing(stream)).unwrap()
}

#[test]
fn f1_at_of_a_refusal() {
    assert_eq!(
        text(b"xx~12~~3\r"),
        "at=2\nrefused=2\nat=5\nrefused=2\nat=6\nrefused=3\nframes=0\nrefusals=3\n"
    );
    let mut long = vec![b'0'; 4_115];
    long[3] = 0x7E;
    long.extend(b"~2002464F0000FD98\r");
    assert_eq!(
        text(&long),
        "at=3\nrefused=1\nat=4115\nver=20\nadr=02\ncid1=46\ncid2=4F\ninfo=\nframes=1\nrefusals=1\n"
    );
}

#[test]
fn f1_place_of_4_and_9() {
    assert_eq!(
        text(b"~21024642E00202fd32\r~12g\r~21024642E0020\xFFFD32\r"),
        "at=0\nrefused=4\nplace=14\nat=20\nrefused=3\nat=25\nrefused=9\nplace=13\n\
         frames=0\nrefusals=3\n"
    );
    let mut long = vec![b'0'; 4_111];
    long[0] = 0x7E;
    long[4_110] = b'f';
    long.push(0x0D);
    assert_eq!(
        text(&long),
        "at=0\nrefused=4\nplace=4109\nframes=0\nrefusals=1\n"
    );
    long[1] = b'G';
    assert_eq!(
        text(&long),
        "at=0\nrefused=9\nplace=0\nframes=0\nrefusals=1\n"
    );
}

#[test]
fn f2_the_others_are_hex() {
    let long = frame(0xAB, 0x0C, 0xFF, 0x00, &[0x5E; 2_047]);
    let expected = format!(
        "at=0\nver=AB\nadr=0C\ncid1=FF\ncid2=00\ninfo={}\nframes=1\nrefusals=0\n",
        "5E".repeat(2_047)
    );
    assert_eq!(text(&long), expected);
}

#[test]
fn f3_limit() {
    let frame = b"~2002464F0000FD98\r";
    // Its CR is the last byte read.
    let mut lister = Lister::starting_at(1_073_741_824 - 18);
    let lines = lister.piece(frame);
    assert!(lines.starts_with(b"at=1073741806\nver=20\n"));
    assert_eq!(lister.totals(), b"frames=1\nrefusals=0\n");
    assert_eq!(lister.piece(frame), b"");
    // Its CR would be the first byte that is not read: an open frame.
    let mut lister = Lister::starting_at(1_073_741_824 - 17);
    assert_eq!(lister.piece(frame), b"");
    assert_eq!(lister.piece(b"~~~~"), b"");
    assert_eq!(lister.totals(), b"frames=0\nrefusals=0\n");
    // The last byte is a tilde inside an open frame.
    let mut lister = Lister::starting_at(1_073_741_822);
    assert_eq!(lister.piece(b"~~~"), b"at=1073741822\nrefused=2\n");
    assert_eq!(text(b""), "frames=0\nrefusals=0\n");
    assert_eq!(text(b"~2002464F0000FD98"), "frames=0\nrefusals=0\n");
}

#[test]
fn f4_totals_count_the_blocks() {
    let mut stream = vec![0x7E; 1_001];
    stream.extend(b"2002464F0000FD98\r~\r");
    let text = text(&stream);
    assert!(text.ends_with("frames=1\nrefusals=1001\n"));
    assert_eq!(text.matches("refused=2\n").count(), 1_000);
    assert_eq!(text.matches("refused=3\n").count(), 1);
    assert_eq!(text.matches("ver=").count(), 1);
}
