//! The field reader, which holds INFO and its place in it, and on it the records in byte order
//! (PROTOCOL 9).

use crate::module::{
    is_cell_count, is_code, is_temperature_count, Alarm, Analog, Limits, Parameters, SMALL,
};
use crate::Number;

/// INFO and a place in it.
#[derive(Clone, Debug)]
pub struct Fields<'a> {
    info: &'a [u8],
    place: usize,
}

impl<'a> Fields<'a> {
    /// At the first byte of INFO.
    pub fn new(info: &'a [u8]) -> Self {
        Fields { info, place: 0 }
    }

    /// Whether no byte is left.
    pub fn at_end(&self) -> bool {
        self.place == self.info.len()
    }

    /// The next byte; 16 where INFO ends before it (PROTOCOL 9.1).
    pub fn next_byte(&mut self) -> Result<u8, Number> {
        let byte = *self.info.get(self.place).ok_or(16)?;
        self.place += 1;
        Ok(byte)
    }

    /// The next two bytes, high byte first (PROTOCOL 1.6).
    pub fn next_word(&mut self) -> Result<u16, Number> {
        let high = self.next_byte()?;
        let low = self.next_byte()?;
        Ok(u16::from(high) * 256 + u16::from(low))
    }
}

/// Two bytes as a signed number.
fn next_signed(fields: &mut Fields) -> Result<i16, Number> {
    Ok(fields.next_word()? as i16)
}

/// Three bytes, high byte first.
fn next_three(fields: &mut Fields) -> Result<u32, Number> {
    let high = u32::from(fields.next_byte()?);
    Ok(high * 65_536 + u32::from(fields.next_word()?))
}

/// An alarm code; 20 for a byte that is none (PROTOCOL 9.13).
fn next_code(fields: &mut Fields) -> Result<u8, Number> {
    let code = fields.next_byte()?;
    if is_code(code) {
        Ok(code)
    } else {
        Err(20)
    }
}

/// M; 15 where it is not 1 to 16.
fn next_cell_count(fields: &mut Fields) -> Result<u8, Number> {
    let count = fields.next_byte()?;
    if is_cell_count(count) {
        Ok(count)
    } else {
        Err(15)
    }
}

/// N; 15 where it is not 1 to 8.
fn next_temperature_count(fields: &mut Fields) -> Result<u8, Number> {
    let count = fields.next_byte()?;
    if is_temperature_count(count) {
        Ok(count)
    } else {
        Err(15)
    }
}

/// A given number of bytes.
pub fn next_bytes<const N: usize>(fields: &mut Fields) -> Result<[u8; N], Number> {
    let mut bytes = [0; N];
    for byte in &mut bytes {
        *byte = fields.next_byte()?;
    }
    Ok(bytes)
}

/// One record of 42H (PROTOCOL 9.5): M and the cells, N and the temperatures, current, module
/// voltage, remaining 1, items, total 1, cycles, and with items 4 remaining 2 and total 2. 19 comes
/// after the record's last byte (PROTOCOL 8.7).
pub fn next_analog(fields: &mut Fields) -> Result<Analog, Number> {
    // List places beyond M or N hold 0 (PROTOCOL 5.8).
    let mut analog = Analog {
        cell_count: next_cell_count(fields)?,
        ..Analog::default()
    };
    for place in 0..usize::from(analog.cell_count) {
        analog.cells[place] = next_signed(fields)?;
    }
    analog.temperature_count = next_temperature_count(fields)?;
    for place in 0..usize::from(analog.temperature_count) {
        analog.temperatures[place] = next_signed(fields)?;
    }
    analog.current = next_signed(fields)?;
    analog.voltage = fields.next_word()?;
    let remaining_1 = fields.next_word()?;
    let items = fields.next_byte()?;
    // 18: items are neither 2 nor 4.
    if items != 2 && items != 4 {
        return Err(18);
    }
    let total_1 = fields.next_word()?;
    analog.cycles = fields.next_word()?;
    if items == 2 {
        analog.remaining = u32::from(remaining_1);
        analog.total = u32::from(total_1);
        // Items 2: both at most 65,000 (PROTOCOL 9.9).
        if analog.remaining > SMALL || analog.total > SMALL {
            return Err(19);
        }
    } else {
        analog.remaining = next_three(fields)?;
        analog.total = next_three(fields)?;
        // Items 4: both two-byte fields FFFFH, and total 2 above 65,000.
        if remaining_1 != 0xFFFF || total_1 != 0xFFFF || analog.total <= SMALL {
            return Err(19);
        }
    }
    Ok(analog)
}

/// One record of 44H (PROTOCOL 9.12): M and the cells' codes, N and the temperatures' codes, the
/// codes for charge current, module voltage and discharge current, status 1 to 5.
pub fn next_alarm(fields: &mut Fields) -> Result<Alarm, Number> {
    let mut alarm = Alarm {
        cell_count: next_cell_count(fields)?,
        ..Alarm::default()
    };
    for place in 0..usize::from(alarm.cell_count) {
        alarm.cells[place] = next_code(fields)?;
    }
    alarm.temperature_count = next_temperature_count(fields)?;
    for place in 0..usize::from(alarm.temperature_count) {
        alarm.temperatures[place] = next_code(fields)?;
    }
    alarm.charge_current = next_code(fields)?;
    alarm.module_voltage = next_code(fields)?;
    alarm.discharge_current = next_code(fields)?;
    alarm.status = next_bytes(fields)?;
    Ok(alarm)
}

/// The record of 47H (PROTOCOL 9.23): twelve words in the order of V3.3's rows. The module's voltages
/// are unsigned, all else is signed (PROTOCOL 9.24).
pub fn next_parameters(fields: &mut Fields) -> Result<Parameters, Number> {
    Ok(Parameters {
        cell_high_voltage: next_signed(fields)?,
        cell_low_voltage: next_signed(fields)?,
        cell_under_voltage: next_signed(fields)?,
        charge_high_temperature: next_signed(fields)?,
        charge_low_temperature: next_signed(fields)?,
        charge_current: next_signed(fields)?,
        module_high_voltage: fields.next_word()?,
        module_low_voltage: fields.next_word()?,
        module_under_voltage: fields.next_word()?,
        discharge_high_temperature: next_signed(fields)?,
        discharge_low_temperature: next_signed(fields)?,
        discharge_current: next_signed(fields)?,
    })
}

/// The record of 92H (PROTOCOL 9.17): two voltage limits, two current limits, status.
pub fn next_limits(fields: &mut Fields) -> Result<Limits, Number> {
    Ok(Limits {
        charge_voltage: fields.next_word()?,
        discharge_voltage: fields.next_word()?,
        charge_current: next_signed(fields)?,
        discharge_current: next_signed(fields)?,
        status: fields.next_byte()?,
    })
}
