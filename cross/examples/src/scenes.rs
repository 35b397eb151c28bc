//! The captures, each a small scene.

use crate::stack::{frame, Stack, VER};
use reference::seeded::Seeded;

/// All captures by name.
pub fn all() -> [(&'static str, Vec<u8>); 9] {
    [
        ("stack", stack()),
        ("relay", relay()),
        ("damage", damage()),
        ("lower", lower()),
        ("noisy", noisy()),
        ("long", long()),
        ("noise", noise()),
        ("bench", bench()),
        ("empty", Vec::new()),
    ]
}

/// A good stack: its version and maker, the group, each module, what is not served, one turned off.
fn stack() -> Vec<u8> {
    let mut stack = Stack::new();
    let mut line = stack.ask(0x00, 0x02, 0x4F, &[]);
    line.extend(stack.ask(VER, 0x02, 0x51, &[]));
    line.extend(stack.ask(VER, 0x02, 0x42, &[0xFF]));
    line.extend(stack.ask(VER, 0x02, 0x44, &[0xFF]));
    // The first tells its limits before its own cells, the second after them, the third is off by then.
    line.extend(stack.ask(VER, 0x02, 0x47, &[]));
    for adr in [0x02, 0x03, 0x04] {
        for cid2 in [0x42, 0x44, 0x92, 0x93, 0x96] {
            line.extend(stack.ask(VER, adr, cid2, &[adr]));
        }
    }
    line.extend(stack.ask(VER, 0x03, 0x47, &[]));
    // Not there: silence. Another VER: 01H. Not served: 04H. A Command too many: 05H.
    line.extend(stack.ask(VER, 0x05, 0x42, &[0x05]));
    line.extend(stack.ask(0x21, 0x03, 0x42, &[0x03]));
    line.extend(stack.ask(VER, 0x02, 0x94, &[0x02]));
    line.extend(stack.ask(VER, 0x02, 0x51, &[0x02]));
    // FFH at a slave: 06H. A Command that isn't ADR: 90H.
    line.extend(stack.ask(VER, 0x03, 0x42, &[0xFF]));
    line.extend(stack.ask(VER, 0x03, 0x42, &[0x02]));
    // The third goes off, is silent from then on, and is gone from the group.
    line.extend(stack.ask(VER, 0x04, 0x95, &[0x04]));
    line.extend(stack.ask(VER, 0x04, 0x42, &[0x04]));
    line.extend(stack.ask(VER, 0x04, 0x47, &[]));
    stack.discharge();
    line.extend(stack.ask(VER, 0x02, 0x42, &[0xFF]));
    line
}

/// The characters of these places never arrive.
fn lose(reply: &mut Vec<u8>, places: std::ops::Range<usize>) {
    reply.drain(places);
}

/// A relay that clicks in the middle of replies; the next good reply is whole each time.
fn relay() -> Vec<u8> {
    let mut stack = Stack::new();
    let mut line = stack.analog(0x02);
    let mut click = |cut: fn(&mut Vec<u8>)| {
        stack.discharge();
        let mut reply = stack.analog(0x02);
        cut(&mut reply);
        line.extend(reply);
        stack.discharge();
        line.extend(stack.analog(0x03));
    };
    // One character is gone from INFO, then two.
    click(|reply| lose(reply, 40..41));
    click(|reply| lose(reply, 60..62));
    // One is gone from LENGTH, so that another digit stands in the place of LCHKSUM.
    click(|reply| lose(reply, 9..10));
    // The second half is gone, with its CR: the next tilde stands inside an open frame.
    click(|reply| lose(reply, 70..reply.len()));
    // The CR alone is gone, then the tilde alone.
    click(|reply| lose(reply, reply.len() - 1..reply.len()));
    click(|reply| lose(reply, 0..1));
    // The middle is gone, and of the reply fewer than 16 characters are left.
    click(|reply| lose(reply, 8..reply.len() - 6));
    // A character is another one, once hex, once not.
    click(|reply| reply[33] = if reply[33] == b'0' { b'8' } else { b'0' });
    click(|reply| reply[50] = 0xFF);
    line
}

/// The third digit of the first cell, behind tilde, header, LENGTH, flag, Command and M.
const DIGIT: usize = 21;

/// For docs/DAMAGE.md: one reply again and again, whole, with one damage each time, and whole again.
fn damage() -> Vec<u8> {
    let reply = Stack::new().analog(0x02);
    let mut line = reply.clone();
    let mut damaged = |damage: fn(&mut Vec<u8>)| {
        let mut reply = reply.clone();
        damage(&mut reply);
        line.extend(reply);
    };
    // A character is another, is lost, comes twice.
    damaged(|reply| reply[DIGIT] = b'8');
    damaged(|reply| lose(reply, DIGIT..DIGIT + 1));
    damaged(|reply| reply.insert(DIGIT, reply[DIGIT]));
    // The tilde comes twice, the CR comes twice.
    damaged(|reply| reply.insert(0, b'~'));
    damaged(|reply| reply.push(b'\r'));
    // Two neighbours are exchanged.
    damaged(|reply| reply.swap(DIGIT, DIGIT + 1));
    // It breaks off in the middle.
    damaged(|reply| lose(reply, 70..reply.len()));
    line.extend(&reply);
    line
}

/// Lower-case hex: no frame, also where one letter only is lower case.
fn lower() -> Vec<u8> {
    let mut stack = Stack::new();
    let question = frame(VER, 0x02, 0x46, 0x42, &[0x02]);
    let reply = stack.reply_to(&question);
    let mut line = question.to_ascii_lowercase();
    line.extend(reply.to_ascii_lowercase());
    line.extend(&question);
    line.extend(&reply);
    let mut one = question.clone();
    one[15] = one[15].to_ascii_lowercase();
    line.extend(one);
    line.extend(b"~21024642E00202fd32\r");
    line.extend(b"~21024642E00202FD32\r");
    line
}

/// A noisy adapter: one bit of a character is another, with the question whole each time. One bit can
/// also lower a letter, which looks like a terminal's work, but for the other letters of the stretch.
fn noisy() -> Vec<u8> {
    let question = frame(VER, 0x02, 0x46, 0x42, &[0x02]);
    let reply = Stack::new().reply_to(&question);
    let mut line = [&question[..], &reply].concat();
    let mut disturbed = |damage: fn(&mut Vec<u8>)| {
        let mut reply = reply.clone();
        damage(&mut reply);
        line.extend(&question);
        line.extend(reply);
    };
    // The highest bit of the third digit of the first cell.
    disturbed(|reply| reply[DIGIT] |= 0x80);
    // A letter of the first cell becomes one in lower case.
    disturbed(|reply| reply[DIGIT - 1] |= 0x20);
    // Both, and the first of them decides; then the other way round.
    disturbed(|reply| {
        reply[DIGIT - 1] |= 0x20;
        reply[DIGIT] |= 0x80;
    });
    disturbed(|reply| {
        reply[DIGIT - 2] |= 0x80;
        reply[DIGIT - 1] |= 0x20;
    });
    line.extend(&question);
    line.extend(&reply);
    line
}

/// The longest frame; the same with a wrong last digit, so 4,110 characters and refused; the same
/// with its last digit twice, so 4,111 characters; and a short frame behind each.
fn long() -> Vec<u8> {
    let version = frame(VER, 0x02, 0x46, 0x4F, &[]);
    let info = Seeded::new(4_110).bytes(2_047);
    let longest = frame(VER, 0x02, 0x46, 0x00, &info);
    let last = longest.len() - 2;
    let mut wrong = longest.clone();
    wrong[last] = if wrong[last] == b'0' { b'1' } else { b'0' };
    let mut longer = longest.clone();
    longer.insert(last, longest[last]);
    let mut line = Vec::new();
    for stretch in [longest, wrong, longer] {
        line.extend(stretch);
        line.extend(&version);
    }
    line
}

/// Bytes of all values with frames among them, and tildes next to each other.
fn noise() -> Vec<u8> {
    let mut seeded = Seeded::new(256);
    let mut stack = Stack::new();
    let mut line: Vec<u8> = (0..=255).collect();
    for adr in [0x02, 0x03, 0x04] {
        line.extend(seeded.bytes(90));
        line.extend(stack.ask(VER, adr, 0x92, &[adr]));
        line.extend(b"~~~~");
        line.extend(stack.ask(VER, adr, 0x96, &[adr]));
        line.extend((0..=255).rev());
        line.extend(b"~\r\r\n");
        line.extend(stack.ask(VER, adr, 0x93, &[adr]));
    }
    line.extend(seeded.bytes(300));
    line.extend(b"~~20024");
    line
}

/// For the README: a question, the half of its reply, the reply once more.
fn bench() -> Vec<u8> {
    let mut stack = Stack::new();
    let question = frame(VER, 0x02, 0x46, 0x92, &[0x02]);
    let reply = stack.reply_to(&question);
    let mut line = question;
    line.extend(&reply[..21]);
    line.extend(&reply);
    line
}
