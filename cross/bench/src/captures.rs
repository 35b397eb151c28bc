//! The captures: back-to-back 42H replies, frames with 4,094 INFO characters, noise without tildes,
//! noise full of tildes; a mixture for the check; and one at the listing's limit.

use reference::seeded::Seeded;
use reference::{write_analog, write_frame, Analog, Header, Module};
use std::fs::File;
use std::io::{self, BufWriter, Seek, SeekFrom, Write};
use std::path::Path;

/// The kinds of captures.
#[derive(Clone, Copy, PartialEq, Eq)]
pub enum Kind {
    /// Back-to-back 42H replies of 15 cells and 5 temperatures.
    Replies,
    /// Frames with 4,094 INFO characters.
    Long,
    /// Any bytes but tildes.
    Noise,
    /// Every second byte a tilde.
    Tildes,
    /// Frames, damaged frames, noise, tildes and very long stretches; for the check only.
    Mixed,
}

impl Kind {
    /// The kinds that are measured.
    pub const ALL: [Kind; 4] = [Kind::Replies, Kind::Long, Kind::Noise, Kind::Tildes];

    /// Its name in the table.
    pub fn name(self) -> &'static str {
        match self {
            Kind::Replies => "replies",
            Kind::Long => "long frames",
            Kind::Noise => "noise",
            Kind::Tildes => "tildes",
            Kind::Mixed => "mixture",
        }
    }

    /// Its file.
    pub fn file(self) -> String {
        format!("{}.cap", self.name().replace(' ', "-"))
    }
}

/// A module with 15 cells and 5 temperatures, as a bench sees it.
pub fn module(seeded: &mut Seeded, adr: u8) -> Module {
    let mut module = Module {
        adr,
        analog: Analog {
            cell_count: 15,
            temperature_count: 5,
            current: seeded.number(-250, 250) as i16,
            remaining: seeded.number(5_000, 50_000) as u32,
            total: 50_000,
            cycles: seeded.number(0, 3_000) as u16,
            ..Analog::default()
        },
        ..Module::default()
    };
    for cell in &mut module.analog.cells[..15] {
        *cell = seeded.number(3_200, 3_450) as i16;
    }
    for temperature in &mut module.analog.temperatures[..5] {
        *temperature = 2_731 + seeded.number(150, 350) as i16;
    }
    let sum: i32 = module.analog.cells.iter().map(|&c| i32::from(c)).sum();
    module.analog.voltage = sum as u16;
    module
}

/// A 42H reply of such a module, from SOI to CR.
pub fn reply(seeded: &mut Seeded) -> Vec<u8> {
    let adr = seeded.number(2, 9) as u8;
    let module = module(seeded, adr);
    let mut info = [0; 128];
    let length = write_analog(&module, 0x00, &mut info).unwrap_or(0);
    framed(adr, &info[..length])
}

/// A reply around INFO, from SOI to CR.
pub fn framed(adr: u8, info: &[u8]) -> Vec<u8> {
    let header = Header {
        ver: 0x20,
        adr,
        cid1: 0x46,
        cid2: 0x00,
    };
    let mut out = vec![0; 18 + 2 * info.len()];
    let length = write_frame(header, info, &mut out).unwrap_or(0);
    out.truncate(length);
    out
}

/// Bytes of noise, eight at a time.
fn noise(seeded: &mut Seeded, tildes: bool) -> Vec<u8> {
    let mut block = Vec::with_capacity(65_536);
    while block.len() < 65_536 {
        let mut choice = seeded.bits();
        for byte in seeded.bits().to_le_bytes() {
            block.push(match (tildes, byte) {
                (true, _) if choice % 2 == 1 => b'~',
                (_, b'~') => b'}',
                _ => byte,
            });
            choice >>= 1;
        }
    }
    block
}

/// Writes a capture of a kind and size.
pub fn write(kind: Kind, size: u64, seed: u64, path: &Path) -> io::Result<()> {
    let mut out = BufWriter::with_capacity(1 << 16, File::create(path)?);
    let mut seeded = Seeded::new(seed);
    let mut left = size;
    while left > 0 {
        let part = match kind {
            Kind::Replies => reply(&mut seeded),
            Kind::Long => {
                let info = seeded.bytes(2_047);
                framed(0x02, &info)
            }
            Kind::Noise => noise(&mut seeded, false),
            Kind::Tildes => noise(&mut seeded, true),
            Kind::Mixed => seeded.stream(20),
        };
        let taken = left.min(part.len() as u64);
        out.write_all(&part[..taken as usize])?;
        left -= taken;
    }
    out.flush()
}

/// The listing of the capture at the limit.
pub const LIMIT_LISTING: &str = "at=1073741788\nrefused=2\n\
    at=1073741789\nver=20\nadr=02\ncid1=46\ncid2=4F\ninfo=\nframes=1\nrefusals=1\n";

/// Zeros (a hole in the file), a tilde, a frame, a frame whose CR is byte 1,073,741,824, the first
/// that is not read, and a frame behind it.
pub fn write_limit(path: &Path) -> io::Result<()> {
    let frame = b"~2002464F0000FD98\r";
    let mut file = File::create(path)?;
    file.seek(SeekFrom::Start((1 << 30) - 36))?;
    file.write_all(b"~")?;
    for _ in 0..3 {
        file.write_all(frame)?;
    }
    Ok(())
}
