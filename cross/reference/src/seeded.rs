//! Seeded numbers, and modules, tables, stretches and streams made from them: for tests,
//! comparisons and captures. Nothing of the protocol is decided here.

use crate::frame::{write_frame, Header, CR, SOI};
use crate::hex;
use crate::module::{Alarm, Analog, Limits, Module, Parameters};
use crate::reply::Question;

/// A small seeded generator (SplitMix64): the same seed gives the same numbers everywhere.
#[derive(Clone, Debug)]
pub struct Seeded(u64);

impl Seeded {
    /// Starts from a seed.
    pub fn new(seed: u64) -> Self {
        Seeded(seed)
    }

    /// The next 64 bits.
    pub fn bits(&mut self) -> u64 {
        self.0 = self.0.wrapping_add(0x9E37_79B9_7F4A_7C15);
        let mut z = self.0;
        z = (z ^ (z >> 30)).wrapping_mul(0xBF58_476D_1CE4_E5B9);
        z = (z ^ (z >> 27)).wrapping_mul(0x94D0_49BB_1331_11EB);
        z ^ (z >> 31)
    }

    /// A number from `low` to `high`, both included.
    pub fn number(&mut self, low: i64, high: i64) -> i64 {
        let width = (high - low) as u64 + 1;
        low + (self.bits() % width) as i64
    }

    /// A place below `end`, which is not 0.
    pub fn below(&mut self, end: usize) -> usize {
        (self.bits() % end as u64) as usize
    }

    /// Any byte.
    pub fn byte(&mut self) -> u8 {
        self.bits() as u8
    }

    /// True once in `times`.
    pub fn once_in(&mut self, times: usize) -> bool {
        self.below(times) == 0
    }

    /// One of the choices.
    pub fn pick<T: Copy>(&mut self, choices: &[T]) -> T {
        choices[self.below(choices.len())]
    }

    /// Any bytes.
    pub fn bytes(&mut self, count: usize) -> Vec<u8> {
        (0..count).map(|_| self.byte()).collect()
    }

    /// Any hex characters.
    pub fn characters(&mut self, count: usize) -> Vec<u8> {
        (0..count).map(|_| hex::character(self.byte())).collect()
    }

    /// A 42H part with any encodable values, the edges of the ranges among them.
    pub fn analog(&mut self) -> Analog {
        let mut analog = Analog {
            cell_count: self.number(1, 16) as u8,
            temperature_count: self.number(1, 8) as u8,
            current: self.bits() as i16,
            voltage: self.bits() as u16,
            cycles: self.bits() as u16,
            ..Analog::default()
        };
        for place in 0..usize::from(analog.cell_count) {
            analog.cells[place] = self.bits() as i16;
        }
        for place in 0..usize::from(analog.temperature_count) {
            analog.temperatures[place] = self.bits() as i16;
        }
        if self.once_in(2) {
            analog.remaining = self.pick(&[0, 1, 64_999, 65_000, 31_415]);
            analog.total = self.pick(&[0, 1, 64_999, 65_000, 50_000]);
        } else {
            analog.remaining = self.pick(&[0, 65_000, 65_001, 65_535, 65_536, 0xFF_FFFF]);
            analog.total = self.pick(&[65_001, 65_535, 65_536, 74_000, 0xFF_FFFF]);
        }
        analog
    }

    /// A 44H part with any encodable values.
    pub fn alarm(&mut self) -> Alarm {
        const CODES: [u8; 4] = [0x00, 0x01, 0x02, 0xF0];
        let mut alarm = Alarm {
            cell_count: self.number(1, 16) as u8,
            temperature_count: self.number(1, 8) as u8,
            charge_current: self.pick(&CODES),
            module_voltage: self.pick(&CODES),
            discharge_current: self.pick(&CODES),
            ..Alarm::default()
        };
        for place in 0..usize::from(alarm.cell_count) {
            alarm.cells[place] = self.pick(&CODES);
        }
        for place in 0..usize::from(alarm.temperature_count) {
            alarm.temperatures[place] = self.pick(&CODES);
        }
        for status in &mut alarm.status {
            *status = self.byte();
        }
        alarm
    }

    /// A 47H part with any values.
    pub fn parameters(&mut self) -> Parameters {
        Parameters {
            cell_high_voltage: self.bits() as i16,
            cell_low_voltage: self.bits() as i16,
            cell_under_voltage: self.bits() as i16,
            charge_high_temperature: self.bits() as i16,
            charge_low_temperature: self.bits() as i16,
            charge_current: self.bits() as i16,
            module_high_voltage: self.bits() as u16,
            module_low_voltage: self.bits() as u16,
            module_under_voltage: self.bits() as u16,
            discharge_high_temperature: self.bits() as i16,
            discharge_low_temperature: self.bits() as i16,
            discharge_current: self.bits() as i16,
        }
    }

    /// A module record that a table may hold.
    pub fn module(&mut self, adr: u8) -> Module {
        let mut module = Module {
            adr,
            on: u8::from(!self.once_in(4)),
            link_fault: u8::from(self.once_in(8)),
            analog: self.analog(),
            alarm: self.alarm(),
            limits: Limits {
                charge_voltage: self.bits() as u16,
                discharge_voltage: self.bits() as u16,
                charge_current: self.bits() as i16,
                discharge_current: self.bits() as i16,
                status: self.byte(),
            },
            ..Module::default()
        };
        for byte in module.serial.iter_mut().chain(&mut module.version) {
            *byte = self.byte();
        }
        // Last, so that a kept seed's other values stay.
        module.parameters = self.parameters();
        module
    }

    /// A table that keeps its rule.
    pub fn table(&mut self) -> Vec<Module> {
        let group = 16 * self.number(0, 7) as u8;
        loop {
            let thinning = self.pick(&[1, 2, 6]);
            let mut table = Vec::new();
            for n in 2..=13 {
                if self.once_in(thinning) {
                    table.push(self.module(n + group));
                }
            }
            if !table.is_empty() {
                return table;
            }
        }
    }

    /// A table that was right and has one value changed to any other; it may still be right.
    pub fn doubtful_table(&mut self) -> Vec<Module> {
        let mut table = self.table();
        let at = self.below(table.len());
        let place = self.below(16);
        let byte = self.pick(&[
            0, 1, 2, 3, 8, 9, 13, 14, 16, 17, 0x7D, 0x82, 0xEF, 0xF0, 0xFF,
        ]);
        let module = &mut table[at];
        match self.below(14) {
            0 => module.adr = byte,
            1 => module.on = byte,
            2 => module.link_fault = byte,
            3 => module.analog.cell_count = byte,
            4 => module.analog.cells[place] = i16::from(byte),
            5 => module.analog.temperature_count = byte,
            6 => module.analog.temperatures[place % 8] = i16::from(byte),
            7 => module.analog.remaining = self.pick(&[65_000, 65_001, 0xFF_FFFF, 0x100_0000]),
            8 => module.analog.total = self.pick(&[65_000, 65_001, 0xFF_FFFF, 0x100_0000]),
            9 => module.alarm.cell_count = byte,
            10 => module.alarm.cells[place] = byte,
            11 => module.alarm.temperature_count = byte,
            12 => module.alarm.temperatures[place % 8] = byte,
            _ => match place {
                0 => table.clear(),
                1 => table.reverse(),
                2 => table.push(self.module(0x0D)),
                3 => module.alarm.charge_current = byte,
                4 => module.alarm.module_voltage = byte,
                _ => module.alarm.discharge_current = byte,
            },
        }
        table
    }

    /// A question to a table that may be right.
    pub fn question(&mut self, table: &[Module]) -> Question {
        const COMMANDS: [u8; 13] = [
            0x42, 0x44, 0x47, 0x4F, 0x51, 0x92, 0x93, 0x95, 0x96, 0x42, 0x44, 0x43, 0x94,
        ];
        let adr = match table.len() {
            0 => 0x02,
            length if !self.once_in(8) => table[self.below(length)].adr,
            _ => self.byte(),
        };
        let cid2 = match self.below(10) {
            0 => self.byte(),
            _ => self.pick(&COMMANDS),
        };
        let command = match self.below(10) {
            0 => self.byte(),
            1..=3 => 0xFF,
            _ => adr,
        };
        Question { adr, cid2, command }
    }

    /// A frame from SOI to CR.
    pub fn frame(&mut self, info_bytes: usize) -> Vec<u8> {
        let header = Header {
            ver: self.byte(),
            adr: self.byte(),
            cid1: self.byte(),
            cid2: self.byte(),
        };
        let info = self.bytes(info_bytes);
        let mut out = vec![0; 18 + 2 * info_bytes];
        match write_frame(header, &info, &mut out) {
            Ok(length) => out[..length].to_vec(),
            Err(_) => Vec::new(),
        }
    }

    /// A character that is not hex: a letter in lower case, SOI, CR, a neighbour of the digits and
    /// letters, or any other.
    pub fn bad_character(&mut self) -> u8 {
        match self.below(4) {
            0 => self.pick(b"abcdef"),
            1 => self.pick(&[SOI, CR, 0, 0xFF]),
            2 => self.pick(b"/:@G`g"),
            _ => self.pick(&[b'x', b' ', b'\n', 0x80, 0xE1, 0xB0]),
        }
    }

    /// Changes, drops or doubles one byte.
    pub fn damage(&mut self, bytes: &mut Vec<u8>) {
        if bytes.is_empty() {
            return;
        }
        let place = self.below(bytes.len());
        match self.below(6) {
            0 => bytes[place] = self.byte(),
            1 => bytes[place] = hex::character(self.byte()),
            2 => bytes[place] = self.bad_character(),
            3 => drop(bytes.remove(place)),
            4 => bytes.insert(place, bytes[place]),
            _ => bytes.truncate(place),
        }
    }

    /// A piece of a stream: a frame, a damaged frame, noise, tildes, or a very long stretch.
    pub fn stream_part(&mut self) -> Vec<u8> {
        let length = self.pick(&[0, 1, 2, 30, 70]);
        match self.below(12) {
            0..=2 => self.frame(length),
            3 => {
                let length = self.pick(&[467, 468, 469, 2_046, 2_047]);
                self.frame(length)
            }
            4..=6 => {
                let mut frame = self.frame(length);
                self.damage(&mut frame);
                frame
            }
            7 => vec![SOI; self.below(4)],
            8 => {
                let length = self.below(40);
                self.bytes(length)
            }
            9 => {
                let mut long = vec![SOI];
                let length = self.number(4_108, 4_113) as usize;
                long.extend(self.characters(length));
                long.extend(self.pick(&[&b""[..], b"\r", b"~", b"\r\r"]));
                long
            }
            10 => self.frame(length).to_ascii_lowercase(),
            _ => {
                let mut short = vec![SOI];
                let length = self.below(24);
                short.extend(self.characters(length));
                short.push(CR);
                short
            }
        }
    }

    /// A stream of parts.
    pub fn stream(&mut self, parts: usize) -> Vec<u8> {
        (0..parts).flat_map(|_| self.stream_part()).collect()
    }
}
