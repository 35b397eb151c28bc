//! Makes a call on which the two sides differ as small as possible: bytes and records are dropped,
//! values made plain, as long as a difference remains.

mod reply;

use crate::case::Case;
use crate::made;
use crate::records::{packed, plain, unpacked, PACKED};
use linked::{Listing, Module};

/// What can be made smaller in a call, by name.
pub struct Parts<'a> {
    /// Bytes to read: stretch, piece, INFO.
    pub texts: Vec<(&'static str, &'a mut Vec<u8>)>,
    /// The lent store or buffer.
    pub lent: Option<&'a mut Vec<u8>>,
    /// The table.
    pub table: Option<&'a mut Vec<Module>>,
    /// Records by value.
    pub modules: Vec<&'a mut Module>,
    /// Bytes by value.
    pub bytes: Vec<(&'static str, &'a mut u8)>,
    /// What says whether the receiver is open.
    pub open: Option<&'a mut usize>,
    /// Sizes by value.
    pub sizes: Vec<(&'static str, &'a mut usize)>,
    /// A listing's offset and totals.
    pub totals: Vec<(&'static str, &'a mut u32)>,
}

impl Parts<'_> {
    fn none() -> Self {
        Parts {
            texts: Vec::new(),
            lent: None,
            table: None,
            modules: Vec::new(),
            bytes: Vec::new(),
            open: None,
            sizes: Vec::new(),
            totals: Vec::new(),
        }
    }
}

fn header(header: &mut [u8; 4]) -> Vec<(&'static str, &mut u8)> {
    ["ver", "adr", "cid1", "cid2"]
        .into_iter()
        .zip(header)
        .collect()
}

fn listing_parts(listing: &mut Listing) -> Parts<'_> {
    Parts {
        open: Some(&mut listing.receiver.open),
        sizes: vec![("count", &mut listing.receiver.count)],
        totals: vec![
            ("offset", &mut listing.offset),
            ("frames", &mut listing.frames),
            ("refusals", &mut listing.refusals),
        ],
        ..Parts::none()
    }
}

/// The parts of a call.
pub fn parts(case: &mut Case) -> Parts<'_> {
    match case {
        Case::Judge { stretch } => Parts {
            texts: vec![("stretch", stretch)],
            ..Parts::none()
        },
        Case::Step {
            receiver,
            store,
            byte,
        } => Parts {
            lent: Some(store),
            bytes: vec![("byte", byte)],
            open: Some(&mut receiver.open),
            sizes: vec![("count", &mut receiver.count)],
            ..Parts::none()
        },
        Case::Run {
            receiver,
            store,
            piece,
        } => Parts {
            texts: vec![("piece", piece)],
            lent: Some(store),
            open: Some(&mut receiver.open),
            sizes: vec![("count", &mut receiver.count)],
            ..Parts::none()
        },
        Case::WriteFrame {
            header: four,
            info,
            out,
        } => Parts {
            texts: vec![("info", info)],
            lent: Some(out),
            bytes: header(four),
            ..Parts::none()
        },
        Case::WriteRecord {
            kind: _,
            module,
            flag,
            out,
        } => Parts {
            lent: Some(out),
            modules: vec![module],
            bytes: vec![("flag", flag)],
            ..Parts::none()
        },
        Case::WriteGroup {
            group: _,
            table,
            flag,
            out,
        } => Parts {
            lent: Some(out),
            table: Some(table),
            bytes: vec![("flag", flag)],
            ..Parts::none()
        },
        Case::Table { table } => Parts {
            table: Some(table),
            ..Parts::none()
        },
        Case::Record {
            table,
            at,
            other: module,
        }
        | Case::Replace { table, at, module } => Parts {
            table: Some(table),
            modules: vec![module],
            sizes: vec![("at", at)],
            ..Parts::none()
        },
        Case::SwitchOff { table, at } => Parts {
            table: Some(table),
            sizes: vec![("at", at)],
            ..Parts::none()
        },
        Case::Answer {
            table,
            station,
            stretch,
            out,
        } => {
            let mut bytes = vec![("ver", &mut station.ver)];
            bytes.extend(station.maker.iter_mut().map(|byte| ("maker", byte)));
            Parts {
                texts: vec![("stretch", stretch)],
                lent: Some(out),
                table: Some(table),
                bytes,
                ..Parts::none()
            }
        }
        Case::ReadReply {
            table,
            question,
            stretch,
        } => Parts {
            texts: vec![("stretch", stretch)],
            table: Some(table),
            bytes: vec![
                ("adr", &mut question.adr),
                ("cid2", &mut question.cid2),
                ("command", &mut question.command),
            ],
            ..Parts::none()
        },
        Case::List {
            listing,
            store,
            piece,
            out,
        } => Parts {
            texts: vec![("piece", piece), ("store", store)],
            lent: Some(out),
            ..listing_parts(listing)
        },
        Case::ListClose { listing, out } => Parts {
            lent: Some(out),
            ..listing_parts(listing)
        },
        // Nothing, or one number, whose whole range is compared anyway.
        Case::ReceiverNew
        | Case::ModuleNew { .. }
        | Case::ListingNew
        | Case::TenthsCelsius { .. }
        | Case::Milliamps { .. } => Parts::none(),
    }
}

/// The search for a smaller call.
struct Search<F> {
    best: Case,
    differs: F,
}

impl<F: Fn(&Case) -> bool> Search<F> {
    /// Takes a call if the two sides differ still.
    fn take(&mut self, candidate: Case) -> bool {
        let kept = candidate != self.best && (self.differs)(&candidate);
        if kept {
            self.best = candidate;
        }
        kept
    }

    /// Keeps a change if the two sides differ still.
    fn attempt(&mut self, change: impl FnOnce(&mut Parts)) -> bool {
        let mut candidate = self.best.clone();
        change(&mut parts(&mut candidate));
        self.take(candidate)
    }

    /// Drops records of a reply together with their members, and makes its records plain.
    fn reply(&mut self) -> bool {
        let mut changed = false;
        let mut at = 0;
        while let Some(smaller) = reply::without(&self.best, at) {
            let kept = self.take(smaller);
            changed |= kept;
            at += usize::from(!kept);
        }
        let mut size = PACKED;
        while size > 0 {
            for start in (0..PACKED).step_by(size) {
                let end = PACKED.min(start + size);
                for at in 0..linked::MODULES {
                    let plainer = reply::changed(&self.best, at, |m| make_plain(m, start, end));
                    changed |= plainer.is_some_and(|plainer| self.take(plainer));
                }
            }
            size /= 2;
        }
        changed
    }

    fn count<T>(&mut self, of: impl FnOnce(&mut Parts) -> T) -> T {
        of(&mut parts(&mut self.best))
    }

    /// Tries each chunk of a row, the large ones first.
    fn chunks(
        &mut self,
        length: impl Fn(&mut Parts) -> usize,
        change: impl Fn(&mut Parts, usize, usize),
    ) -> bool {
        let mut changed = false;
        let mut size = self.count(&length);
        while size > 0 {
            let mut start = 0;
            while start < self.count(&length) {
                let before = self.count(&length);
                let end = before.min(start + size);
                let kept = self.attempt(|parts| change(parts, start, end));
                changed |= kept;
                // What was dropped has made room for the next chunk.
                if !kept || self.count(&length) == before {
                    start += size;
                }
            }
            size /= 2;
        }
        changed
    }

    /// Drops and makes plain what is read; INFO of a frame is also changed and sealed again.
    fn text(&mut self, at: usize) -> bool {
        let length = |parts: &mut Parts| parts.texts[at].1.len();
        let dropped = self.chunks(length, |parts, start, end| {
            parts.texts[at].1.drain(start..end);
        });
        let plain = self.chunks(length, |parts, start, end| {
            parts.texts[at].1[start..end].fill(b'0');
        });
        let info = |parts: &mut Parts| made::opened(parts.texts[at].1).map_or(0, |o| o.1.len());
        let shorter = self.chunks(info, |parts, start, end| {
            reseal(parts.texts[at].1, |info| drop(info.drain(start..end)));
        });
        let plainer = self.chunks(info, |parts, start, end| {
            reseal(parts.texts[at].1, |info| info[start..end].fill(0));
        });
        dropped | plain | shorter | plainer
    }

    fn lent(&mut self) -> bool {
        let length = |parts: &mut Parts| parts.lent.as_ref().map_or(0, |lent| lent.len());
        let shorter = self.chunks(length, |parts, start, end| {
            parts
                .lent
                .iter_mut()
                .for_each(|lent| drop(lent.drain(start..end)));
        });
        let plain = self.chunks(length, |parts, start, end| {
            parts
                .lent
                .iter_mut()
                .for_each(|lent| lent[start..end].fill(0));
        });
        shorter | plain
    }

    fn table(&mut self) -> bool {
        let length = |parts: &mut Parts| parts.table.as_ref().map_or(0, |table| table.len());
        let mut changed = self.chunks(length, |parts, start, end| {
            parts
                .table
                .iter_mut()
                .for_each(|table| drop(table.drain(start..end)));
        });
        for at in 0..self.count(length) {
            changed |= self.chunks(
                |_| PACKED,
                |parts, start, end| {
                    parts
                        .table
                        .iter_mut()
                        .for_each(|table| make_plain(&mut table[at], start, end));
                },
            );
        }
        changed
    }

    /// Drops first records, and lowers the place so that it names the same one.
    fn front(&mut self) -> bool {
        let mut changed = false;
        while self.attempt(|parts| {
            let (Some(table), [(_, at)]) = (&mut parts.table, &mut parts.sizes[..]) else {
                return;
            };
            if !table.is_empty() {
                table.remove(0);
                **at = at.saturating_sub(1);
            }
        }) {
            changed = true;
        }
        changed
    }

    fn module(&mut self, at: usize) -> bool {
        self.chunks(
            |_| PACKED,
            |parts, start, end| {
                make_plain(parts.modules[at], start, end);
            },
        )
    }

    fn byte(&mut self, at: usize) -> bool {
        let value = self.count(|parts| *parts.bytes[at].1);
        let smaller = [0, value / 2, value.saturating_sub(1)];
        smaller
            .into_iter()
            .any(|smaller| self.attempt(|parts| *parts.bytes[at].1 = smaller))
    }

    /// Waiting, or open by 1: a number between might have no byte of its own when it is saved.
    fn open(&mut self) -> bool {
        let value = self.count(|parts| parts.open.as_ref().map_or(0, |open| **open));
        (0..value.min(2)).any(|smaller| {
            self.attempt(|parts| parts.open.iter_mut().for_each(|open| **open = smaller))
        })
    }

    fn size(&mut self, at: usize) -> bool {
        let value = self.count(|parts| *parts.sizes[at].1);
        let smaller = [0, value / 2, value.saturating_sub(1)];
        smaller
            .into_iter()
            .any(|smaller| self.attempt(|parts| *parts.sizes[at].1 = smaller))
    }

    fn total(&mut self, at: usize) -> bool {
        let value = self.count(|parts| *parts.totals[at].1);
        let smaller = [0, value / 2, value.saturating_sub(1)];
        smaller
            .into_iter()
            .any(|smaller| self.attempt(|parts| *parts.totals[at].1 = smaller))
    }

    /// Everything once; whether something became smaller.
    fn pass(&mut self) -> bool {
        let mut changed = self.reply() | self.front() | self.table() | self.lent();
        for at in 0..self.count(|parts| parts.texts.len()) {
            changed |= self.text(at);
        }
        for at in 0..self.count(|parts| parts.modules.len()) {
            changed |= self.module(at);
        }
        for at in 0..self.count(|parts| parts.bytes.len()) {
            while self.byte(at) {
                changed = true;
            }
        }
        while self.open() {
            changed = true;
        }
        for at in 0..self.count(|parts| parts.sizes.len()) {
            while self.size(at) {
                changed = true;
            }
        }
        for at in 0..self.count(|parts| parts.totals.len()) {
            while self.total(at) {
                changed = true;
            }
        }
        changed
    }
}

/// Gives places of a record's row the values of a plain record.
fn make_plain(module: &mut Module, start: usize, end: usize) {
    let mut row = packed(module);
    row[start..end].copy_from_slice(&packed(&plain(0x02))[start..end]);
    *module = unpacked(&row);
}

/// Changes the INFO of a stretch that is a frame, and seals it again.
fn reseal(stretch: &mut Vec<u8>, change: impl FnOnce(&mut Vec<u8>)) {
    if let Some((header, mut info)) = made::opened(stretch) {
        change(&mut info);
        *stretch = made::stretch(header, &info);
    }
}

/// The smallest call found on which the two sides differ still.
pub fn shrunk(case: &Case, differs: impl Fn(&Case) -> bool) -> Case {
    let mut search = Search {
        best: case.clone(),
        differs,
    };
    // A change of INFO may make other characters less plain, so the passes are counted.
    for _ in 0..20 {
        if !search.pass() {
            break;
        }
    }
    search.best
}
