//! The module record: ADR, on or off, the link fault mark, and what 42H, 44H, 47H, 92H, 93H and 96H
//! carry (PROTOCOL 5.5), with what each kind's fields must be to be encodable (PROTOCOL 5.6).

/// What 42H carries.
#[repr(C)]
#[derive(Clone, Copy, Debug, Default, PartialEq, Eq)]
pub struct Analog {
    /// M, the number of cells, 1 to 16.
    pub cell_count: u8,
    /// M cells, mV.
    pub cells: [i16; 16],
    /// N, the number of temperatures, 1 to 8.
    pub temperature_count: u8,
    /// N temperatures as sent; see [`crate::tenths_celsius`].
    pub temperatures: [i16; 8],
    /// The current as sent; see [`crate::milliamps`].
    pub current: i16,
    /// The module voltage, mV.
    pub voltage: u16,
    /// The remaining capacity in mAh.
    pub remaining: u32,
    /// The total capacity in mAh.
    pub total: u32,
    /// The number of cycles.
    pub cycles: u16,
}

/// What 44H carries; M and N may differ from those of 42H.
#[repr(C)]
#[derive(Clone, Copy, Debug, Default, PartialEq, Eq)]
pub struct Alarm {
    /// M, the number of cell codes, 1 to 16.
    pub cell_count: u8,
    /// M codes.
    pub cells: [u8; 16],
    /// N, the number of temperature codes, 1 to 8.
    pub temperature_count: u8,
    /// N codes.
    pub temperatures: [u8; 8],
    /// The code for the charge current.
    pub charge_current: u8,
    /// The code for the module voltage.
    pub module_voltage: u8,
    /// The code for the discharge current.
    pub discharge_current: u8,
    /// Status 1 to 5, kept whole.
    pub status: [u8; 5],
}

/// What 92H carries.
#[repr(C)]
#[derive(Clone, Copy, Debug, Default, PartialEq, Eq)]
pub struct Limits {
    /// The charge voltage limit, unsigned mV.
    pub charge_voltage: u16,
    /// The discharge voltage limit, unsigned mV.
    pub discharge_voltage: u16,
    /// The charge current limit, signed, 100 mA.
    pub charge_current: i16,
    /// The discharge current limit, signed, 100 mA.
    pub discharge_current: i16,
    /// The charge and discharge status.
    pub status: u8,
}

/// What 47H carries, the system parameters: the module's own limits. Every value can be encoded.
#[repr(C)]
#[derive(Clone, Copy, Debug, Default, PartialEq, Eq)]
pub struct Parameters {
    /// The cell high voltage limit, signed mV.
    pub cell_high_voltage: i16,
    /// The cell low voltage limit, signed mV: the alarm's.
    pub cell_low_voltage: i16,
    /// The cell under voltage limit, signed mV: the protection's.
    pub cell_under_voltage: i16,
    /// The charge high temperature limit as sent; see [`crate::tenths_celsius`].
    pub charge_high_temperature: i16,
    /// The charge low temperature limit as sent.
    pub charge_low_temperature: i16,
    /// The charge current limit, signed, 100 mA.
    pub charge_current: i16,
    /// The module high voltage limit, unsigned mV.
    pub module_high_voltage: u16,
    /// The module low voltage limit, unsigned mV: the alarm's.
    pub module_low_voltage: u16,
    /// The module under voltage limit, unsigned mV: the protection's.
    pub module_under_voltage: u16,
    /// The discharge high temperature limit as sent.
    pub discharge_high_temperature: i16,
    /// The discharge low temperature limit as sent.
    pub discharge_low_temperature: i16,
    /// The discharge current limit, signed, 100 mA.
    pub discharge_current: i16,
}

/// One module record.
#[repr(C)]
#[derive(Clone, Copy, Debug, Default, PartialEq, Eq)]
pub struct Module {
    /// The address.
    pub adr: u8,
    /// 1 for on, 0 for off.
    pub on: u8,
    /// The internal link fault mark, 0 or 1.
    pub link_fault: u8,
    /// 42H.
    pub analog: Analog,
    /// 44H.
    pub alarm: Alarm,
    /// 92H.
    pub limits: Limits,
    /// 93H.
    pub serial: [u8; 16],
    /// 96H.
    pub version: [u8; 5],
    /// 47H.
    pub parameters: Parameters,
}

/// A record before anything was read into it: on, with one cell and one temperature as the least
/// that can be sent, and 0 in every other place.
pub fn new_module(adr: u8) -> Module {
    let mut module = Module {
        adr,
        on: 1,
        ..Module::default()
    };
    (module.analog.cell_count, module.analog.temperature_count) = (1, 1);
    (module.alarm.cell_count, module.alarm.temperature_count) = (1, 1);
    module
}

/// The most that three bytes hold.
const THREE_BYTES: u32 = 0xFF_FFFF;
/// The 65 Ah of the rule, in mAh.
pub const SMALL: u32 = 65_000;

/// ADR is n + 16m, n from 2 to 13, m from 0 to 7 (PROTOCOL 5.1).
pub fn is_address(adr: u8) -> bool {
    (2..=13).contains(&(adr % 16)) && adr / 16 <= 7
}

/// n = 2 is the master battery: 02H, 12H, up to 72H (PROTOCOL 5.2).
pub fn is_master(adr: u8) -> bool {
    is_address(adr) && adr % 16 == 2
}

/// The alarm codes; 20 refuses any other (PROTOCOL 9.13).
pub fn is_code(code: u8) -> bool {
    matches!(code, 0x00 | 0x01 | 0x02 | 0xF0)
}

/// M; 15 refuses any other.
pub fn is_cell_count(count: u8) -> bool {
    (1..=16).contains(&count)
}

/// N; 15 refuses any other.
pub fn is_temperature_count(count: u8) -> bool {
    (1..=8).contains(&count)
}

/// Items follow from total: 2 up to 65,000, 4 above (PROTOCOL 5.7).
pub fn items(total: u32) -> u8 {
    if total <= SMALL {
        2
    } else {
        4
    }
}

/// With items 2 both are at most 65,000; with items 4 total is above it, and both are three bytes
/// (PROTOCOL 9.9).
pub fn are_capacities(remaining: u32, total: u32) -> bool {
    match items(total) {
        2 => remaining <= SMALL,
        _ => total <= THREE_BYTES && remaining <= THREE_BYTES,
    }
}

/// List places beyond M or N hold 0.
fn beyond_is_zero<T: Default + PartialEq>(list: &[T], count: u8) -> bool {
    list.iter()
        .skip(usize::from(count))
        .all(|value| *value == T::default())
}

/// The first `count` places of a list.
pub fn used<T>(list: &[T], count: u8) -> &[T] {
    &list[..usize::from(count).min(list.len())]
}

impl Analog {
    /// Every value can be encoded, and list places beyond M or N hold 0 (PROTOCOL 5.6).
    pub fn is_encodable(&self) -> bool {
        is_cell_count(self.cell_count)
            && beyond_is_zero(&self.cells, self.cell_count)
            && is_temperature_count(self.temperature_count)
            && beyond_is_zero(&self.temperatures, self.temperature_count)
            && are_capacities(self.remaining, self.total)
    }
}

impl Alarm {
    /// Every value can be encoded, and list places beyond M or N hold 0 (PROTOCOL 5.6).
    pub fn is_encodable(&self) -> bool {
        is_cell_count(self.cell_count)
            && beyond_is_zero(&self.cells, self.cell_count)
            && used(&self.cells, self.cell_count)
                .iter()
                .all(|&c| is_code(c))
            && is_temperature_count(self.temperature_count)
            && beyond_is_zero(&self.temperatures, self.temperature_count)
            && used(&self.temperatures, self.temperature_count)
                .iter()
                .all(|&c| is_code(c))
            && is_code(self.charge_current)
            && is_code(self.module_voltage)
            && is_code(self.discharge_current)
    }
}
