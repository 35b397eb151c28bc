//! The structs of `include/hanuzak.h`, field by field.

/// What 42H carries.
#[repr(C)]
#[derive(Clone, Copy, Debug, Default, PartialEq, Eq)]
pub struct Analog {
    /// M, 1 to 16.
    pub cell_count: u8,
    /// mV.
    pub cells: [i16; 16],
    /// N, 1 to 8.
    pub temperature_count: u8,
    /// As on the wire; see [`crate::tenths_celsius`].
    pub temperatures: [i16; 8],
    /// 100 mA, charge positive; see [`crate::milliamps`].
    pub current: i16,
    /// mV.
    pub voltage: u16,
    /// mAh.
    pub remaining: u32,
    /// mAh.
    pub total: u32,
    /// The number of cycles.
    pub cycles: u16,
}

/// What 44H carries: alarm codes, and the five status bytes.
#[repr(C)]
#[derive(Clone, Copy, Debug, Default, PartialEq, Eq)]
pub struct Alarm {
    /// M, 1 to 16.
    pub cell_count: u8,
    /// M codes.
    pub cells: [u8; 16],
    /// N, 1 to 8.
    pub temperature_count: u8,
    /// N codes.
    pub temperatures: [u8; 8],
    /// A code.
    pub charge_current: u8,
    /// A code.
    pub module_voltage: u8,
    /// A code.
    pub discharge_current: u8,
    /// Status 1 to 5.
    pub status: [u8; 5],
}

/// What 92H carries.
#[repr(C)]
#[derive(Clone, Copy, Debug, Default, PartialEq, Eq)]
pub struct Limits {
    /// mV.
    pub charge_voltage: u16,
    /// mV.
    pub discharge_voltage: u16,
    /// 100 mA.
    pub charge_current: i16,
    /// 100 mA.
    pub discharge_current: i16,
    /// The status byte.
    pub status: u8,
}

/// What 47H carries: the module's own limits.
#[repr(C)]
#[derive(Clone, Copy, Debug, Default, PartialEq, Eq)]
pub struct Parameters {
    /// mV.
    pub cell_high_voltage: i16,
    /// mV, alarm.
    pub cell_low_voltage: i16,
    /// mV, protection.
    pub cell_under_voltage: i16,
    /// As on the wire.
    pub charge_high_temperature: i16,
    /// As on the wire.
    pub charge_low_temperature: i16,
    /// 100 mA.
    pub charge_current: i16,
    /// mV.
    pub module_high_voltage: u16,
    /// mV, alarm.
    pub module_low_voltage: u16,
    /// mV, protection.
    pub module_under_voltage: u16,
    /// As on the wire.
    pub discharge_high_temperature: i16,
    /// As on the wire.
    pub discharge_low_temperature: i16,
    /// 100 mA.
    pub discharge_current: i16,
}

/// One module. `on` and `link_fault` are bytes 0 or 1; any other breaks the table's rule.
#[repr(C)]
#[derive(Clone, Copy, Debug, Default, PartialEq, Eq)]
pub struct Module {
    /// The address.
    pub adr: u8,
    /// 1 for on, 0 for off.
    pub on: u8,
    /// The internal link fault mark.
    pub link_fault: u8,
    /// 42H.
    pub analog: Analog,
    /// 44H.
    pub alarm: Alarm,
    /// 92H.
    pub limits: Limits,
    /// 93H.
    pub serial: [u8; 16],
    /// 96H.
    pub version: [u8; 5],
    /// 47H.
    pub parameters: Parameters,
}

/// What the table holds beside its records.
#[repr(C)]
#[derive(Clone, Copy, Debug, Default, PartialEq, Eq)]
pub struct Station {
    /// VER of every reply.
    pub ver: u8,
    /// The 32 bytes of 51H.
    pub maker: [u8; 32],
}

/// Number 0 and how many bytes were written, or the refusal's number and length 0.
#[repr(C)]
#[derive(Clone, Copy, Debug, Default, PartialEq, Eq)]
pub struct Written {
    /// 0, or the refusal's number.
    pub number: u32,
    /// How many bytes.
    pub length: usize,
}

/// Kind 0 nothing, 1 a frame with its four bytes and LENID, 2 refused with a number.
#[repr(C)]
#[derive(Clone, Copy, Debug, Default, PartialEq, Eq)]
pub struct Event {
    /// 0, 1 or 2.
    pub kind: u32,
    /// The refusal's number.
    pub number: u32,
    /// VER.
    pub ver: u8,
    /// ADR.
    pub adr: u8,
    /// CID1.
    pub cid1: u8,
    /// CID2.
    pub cid2: u8,
    /// With 4 and 9 the place of the first bad character, else 0.
    pub place: u32,
    /// The number of INFO's characters.
    pub lenid: usize,
}

/// `open` 0 is waiting, whatever the count; any other value is open with `count` characters.
#[repr(C)]
#[derive(Clone, Copy, Debug, Default, PartialEq, Eq)]
pub struct Receiver {
    /// 0 for waiting.
    pub open: usize,
    /// How many characters stand at the front of the store.
    pub count: usize,
}

/// What a step gives.
#[repr(C)]
#[derive(Clone, Copy, Debug, Default, PartialEq, Eq)]
pub struct Stepped {
    /// The receiver then.
    pub next: Receiver,
    /// The byte's event.
    pub event: Event,
}

/// What a run gives.
#[repr(C)]
#[derive(Clone, Copy, Debug, Default, PartialEq, Eq)]
pub struct Ran {
    /// The receiver then.
    pub next: Receiver,
    /// The first event that isn't nothing, or nothing.
    pub event: Event,
    /// How many bytes of the piece.
    pub taken: usize,
    /// How many characters the stretch had when the event's byte came; 0 with nothing, 32 and 35.
    pub held: usize,
}

/// Where a listing stands.
#[repr(C)]
#[derive(Clone, Copy, Debug, Default, PartialEq, Eq)]
pub struct Listing {
    /// Its receiver.
    pub receiver: Receiver,
    /// The offset of the next byte.
    pub offset: u32,
    /// How many frames so far.
    pub frames: u32,
    /// How many refusals so far.
    pub refusals: u32,
}

/// What a piece of a capture gives.
#[repr(C)]
#[derive(Clone, Copy, Debug, Default, PartialEq, Eq)]
pub struct Listed {
    /// The listing then.
    pub next: Listing,
    /// How many bytes of the piece.
    pub taken: usize,
    /// Number 0 and the length of the text, or the refusal's number.
    pub written: Written,
}

/// Kind 0 silence, 1 a reply of `length` bytes, 2 refused with a number.
#[repr(C)]
#[derive(Clone, Copy, Debug, Default, PartialEq, Eq)]
pub struct Answered {
    /// 0, 1 or 2.
    pub kind: u32,
    /// The refusal's number.
    pub number: u32,
    /// How many bytes.
    pub length: usize,
}

/// What was asked. `command` is ignored with 47H, 4FH and 51H.
#[repr(C)]
#[derive(Clone, Copy, Debug, Default, PartialEq, Eq)]
pub struct Question {
    /// The address asked.
    pub adr: u8,
    /// The command.
    pub cid2: u8,
    /// Its Command.
    pub command: u8,
}

/// Kind 1 read, 2 refused with a number.
#[repr(C)]
#[derive(Clone, Copy, Debug, Default, PartialEq, Eq)]
pub struct Reply {
    /// 1 or 2.
    pub kind: u32,
    /// The refusal's number.
    pub number: u32,
    /// VER.
    pub ver: u8,
    /// The return code.
    pub code: u8,
    /// The flag of 42H, 44H and 47H with code 00H.
    pub flag: u8,
    /// The 32 bytes of 51H; zeros for every other command and with a refusal.
    pub maker: [u8; 32],
    /// With 4 and 9 the place of the first bad character, else 0.
    pub place: u32,
}
