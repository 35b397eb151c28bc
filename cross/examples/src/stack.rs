//! A small stack on the bench, and what goes over the line between it and its master.

use reference::{
    answer, write_frame, Alarm, Analog, Answer, Header, Limits, Module, Parameters, Station,
};

/// VER of the stack.
pub const VER: u8 = 0x20;

/// A frame from SOI to CR.
pub fn frame(ver: u8, adr: u8, cid1: u8, cid2: u8, info: &[u8]) -> Vec<u8> {
    let header = Header {
        ver,
        adr,
        cid1,
        cid2,
    };
    let mut out = vec![0; 18 + 2 * info.len()];
    let length = write_frame(header, info, &mut out).expect("INFO fits");
    out.truncate(length);
    out
}

/// A stack: its table, and VER and the 32 bytes of 51H.
pub struct Stack {
    table: Vec<Module>,
    station: Station,
}

impl Stack {
    /// Three modules. The second has six temperature points, and its cell 7 is above its high limit,
    /// as its alarm says; its cell 15 is at the limit. The third has 74 Ah.
    pub fn new() -> Self {
        let mut second = module(0x03, -4);
        second.analog.temperature_count = 6;
        second.analog.temperatures[5] = celsius(262);
        second.alarm.temperature_count = 6;
        second.alarm.cells[6] = 0x02;
        second.alarm.status[3] = 0x40;
        second.parameters.cell_high_voltage = 3_400;
        let mut third = module(0x04, 7);
        third.analog.remaining = 51_800;
        third.analog.total = 74_000;
        Stack {
            table: vec![module(0x02, 0), second, third],
            station: Station {
                ver: VER,
                maker: *b"BENCH-48V \x01\x02Hanuzak stand-in    ",
            },
        }
    }

    /// A question, and behind it what the stack answers.
    pub fn ask(&mut self, ver: u8, adr: u8, cid2: u8, info: &[u8]) -> Vec<u8> {
        let mut line = frame(ver, adr, 0x46, cid2, info);
        line.extend(self.reply_to(&line.clone()));
        line
    }

    /// What the stack answers to a frame; nothing in silence.
    pub fn reply_to(&mut self, question: &[u8]) -> Vec<u8> {
        let mut out = vec![0; 4_112];
        let stretch = &question[1..question.len() - 1];
        match answer(&mut self.table, &self.station, stretch, &mut out) {
            Answer::Reply(length) => out[..length].to_vec(),
            Answer::Silence => Vec::new(),
            Answer::Refused(number) => panic!("refused {number}"),
        }
    }

    /// The reply to 42H of one module.
    pub fn analog(&mut self, adr: u8) -> Vec<u8> {
        self.reply_to(&frame(VER, adr, 0x46, 0x42, &[adr]))
    }

    /// Lets time pass: the cells sink, the discharge goes on.
    pub fn discharge(&mut self) {
        for module in &mut self.table {
            for place in 0..usize::from(module.analog.cell_count) {
                module.analog.cells[place] -= 2 + (place % 3) as i16;
            }
            module.analog.remaining -= 130;
            measure_voltage(module);
        }
    }
}

/// The sent number of tenths of a degree Celsius.
fn celsius(tenths: i16) -> i16 {
    tenths + 2_731
}

/// The module voltage is the cells' sum.
fn measure_voltage(module: &mut Module) {
    let sum: i32 = module.analog.cells.iter().map(|&c| i32::from(c)).sum();
    module.analog.voltage = sum as u16;
}

/// A module of 15 cells at about 3,400 mV and 25 degrees.
fn module(adr: u8, millivolts: i16) -> Module {
    let mut module = Module {
        adr,
        on: 1,
        link_fault: 0,
        analog: Analog {
            cell_count: 15,
            temperature_count: 5,
            current: -40,
            remaining: 41_250,
            total: 50_000,
            cycles: 118,
            ..Analog::default()
        },
        alarm: Alarm {
            cell_count: 15,
            temperature_count: 5,
            status: [0x00, 0x0E, 0x40, 0x00, 0x00],
            ..Alarm::default()
        },
        limits: Limits {
            charge_voltage: 53_250,
            discharge_voltage: 47_000,
            charge_current: 250,
            discharge_current: 250,
            status: 0xC0,
        },
        serial: *b"HZK2024B00000000",
        version: [0x01, 0x04, 0x02, 0x07, 0x00],
        parameters: Parameters {
            cell_high_voltage: 3_700,
            cell_low_voltage: 3_050,
            cell_under_voltage: 2_900,
            charge_high_temperature: celsius(500),
            charge_low_temperature: celsius(0),
            charge_current: 250,
            module_high_voltage: 53_250,
            module_low_voltage: 47_000,
            module_under_voltage: 44_500,
            discharge_high_temperature: celsius(600),
            discharge_low_temperature: celsius(-100),
            discharge_current: -250,
        },
    };
    let cells = [3, -2, 1, 0, -4, 2, 5, -1, 0, 1, -3, 2, 0, -1, 4];
    for (place, offset) in cells.into_iter().enumerate() {
        module.analog.cells[place] = 3_400 + millivolts + offset;
    }
    for (place, tenths) in [271, 249, 250, 252, 248].into_iter().enumerate() {
        module.analog.temperatures[place] = celsius(tenths);
    }
    module.serial[15] = b'0' + adr;
    measure_voltage(&mut module);
    module
}
