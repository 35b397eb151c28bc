//! INFO that is made from a record: a record writer for each kind (PROTOCOL 10). Each gives INFO as
//! bytes, says how many, and changes no other byte.

use crate::module::{is_address, items, used, Alarm, Analog, Limits, Module, Parameters};
use crate::{table, Number};

/// Command for the whole group, at the master (PROTOCOL 5.9).
pub const GROUP: u8 = 0xFF;

/// One record of 42H, 13 + 2M + 2N bytes or 6 more (PROTOCOL 9.6); none where it can't be encoded.
fn analog_record(analog: &Analog) -> Option<Vec<u8>> {
    if !analog.is_encodable() {
        return None;
    }
    let mut bytes = vec![analog.cell_count];
    for cell in used(&analog.cells, analog.cell_count) {
        bytes.extend(cell.to_be_bytes());
    }
    bytes.push(analog.temperature_count);
    for temperature in used(&analog.temperatures, analog.temperature_count) {
        bytes.extend(temperature.to_be_bytes());
    }
    bytes.extend(analog.current.to_be_bytes());
    bytes.extend(analog.voltage.to_be_bytes());
    let items = items(analog.total);
    let (remaining_1, total_1) = match items {
        2 => (analog.remaining as u16, analog.total as u16),
        _ => (0xFFFF, 0xFFFF),
    };
    bytes.extend(remaining_1.to_be_bytes());
    bytes.push(items);
    bytes.extend(total_1.to_be_bytes());
    bytes.extend(analog.cycles.to_be_bytes());
    if items == 4 {
        bytes.extend(&analog.remaining.to_be_bytes()[1..]);
        bytes.extend(&analog.total.to_be_bytes()[1..]);
    }
    Some(bytes)
}

/// One record of 44H, 10 + M + N bytes (PROTOCOL 9.12); none where it can't be encoded.
fn alarm_record(alarm: &Alarm) -> Option<Vec<u8>> {
    if !alarm.is_encodable() {
        return None;
    }
    let mut bytes = vec![alarm.cell_count];
    bytes.extend(used(&alarm.cells, alarm.cell_count));
    bytes.push(alarm.temperature_count);
    bytes.extend(used(&alarm.temperatures, alarm.temperature_count));
    bytes.push(alarm.charge_current);
    bytes.push(alarm.module_voltage);
    bytes.push(alarm.discharge_current);
    bytes.extend(alarm.status);
    Some(bytes)
}

/// The record of 47H: each limit in two bytes, high byte first.
fn parameters_record(parameters: &Parameters) -> Vec<u8> {
    [
        parameters.cell_high_voltage.to_be_bytes(),
        parameters.cell_low_voltage.to_be_bytes(),
        parameters.cell_under_voltage.to_be_bytes(),
        parameters.charge_high_temperature.to_be_bytes(),
        parameters.charge_low_temperature.to_be_bytes(),
        parameters.charge_current.to_be_bytes(),
        parameters.module_high_voltage.to_be_bytes(),
        parameters.module_low_voltage.to_be_bytes(),
        parameters.module_under_voltage.to_be_bytes(),
        parameters.discharge_high_temperature.to_be_bytes(),
        parameters.discharge_low_temperature.to_be_bytes(),
        parameters.discharge_current.to_be_bytes(),
    ]
    .concat()
}

/// The record of 92H.
fn limits_record(limits: &Limits) -> Vec<u8> {
    let mut bytes = Vec::new();
    bytes.extend(limits.charge_voltage.to_be_bytes());
    bytes.extend(limits.discharge_voltage.to_be_bytes());
    bytes.extend(limits.charge_current.to_be_bytes());
    bytes.extend(limits.discharge_current.to_be_bytes());
    bytes.push(limits.status);
    bytes
}

/// 32 where the buffer is shorter than INFO (PROTOCOL 10.4), otherwise the bytes are put.
fn put(info: &[u8], out: &mut [u8]) -> Result<usize, Number> {
    if out.len() < info.len() {
        return Err(32);
    }
    out[..info.len()].copy_from_slice(info);
    Ok(info.len())
}

/// One record behind what stands before it: 33, for an ADR outside the address rule too, then 32
/// (PROTOCOL 10.3, 10.4).
fn write_one(
    adr: u8,
    before: &[u8],
    record: Option<Vec<u8>>,
    out: &mut [u8],
) -> Result<usize, Number> {
    if !is_address(adr) {
        return Err(33);
    }
    let record = record.ok_or(33)?;
    let mut info = before.to_vec();
    info.extend(record);
    put(&info, out)
}

/// The flag, FFH and the records of the members that are on, in rising ADR: 31, then 32
/// (PROTOCOL 9.4, 10.5).
fn write_group(
    lent: &[Module],
    flag: u8,
    record: fn(&Module) -> Option<Vec<u8>>,
    out: &mut [u8],
) -> Result<usize, Number> {
    table::rule(lent)?;
    let mut info = vec![flag, GROUP];
    for member in lent.iter().filter(|member| member.on == 1) {
        info.extend(record(member).ok_or(31)?);
    }
    put(&info, out)
}

/// INFO of 42H for one module: flag, Command, the record (PROTOCOL 9.5). Command is the record's
/// ADR, and only ADR and this kind's fields are judged (PROTOCOL 10.2, 10.3).
pub fn write_analog(module: &Module, flag: u8, out: &mut [u8]) -> Result<usize, Number> {
    let record = analog_record(&module.analog);
    write_one(module.adr, &[flag, module.adr], record, out)
}

/// INFO of 44H for one module: flag, Command, the record (PROTOCOL 9.12).
pub fn write_alarm(module: &Module, flag: u8, out: &mut [u8]) -> Result<usize, Number> {
    let record = alarm_record(&module.alarm);
    write_one(module.adr, &[flag, module.adr], record, out)
}

/// INFO of 47H: flag and twelve limits (PROTOCOL 9.23). No Command is written, but ADR is judged all
/// the same (PROTOCOL 10.3).
pub fn write_parameters(module: &Module, flag: u8, out: &mut [u8]) -> Result<usize, Number> {
    let record = parameters_record(&module.parameters);
    write_one(module.adr, &[flag], Some(record), out)
}

/// INFO of 92H: Command, two voltage limits, two current limits, status (PROTOCOL 9.17).
pub fn write_limits(module: &Module, out: &mut [u8]) -> Result<usize, Number> {
    let record = limits_record(&module.limits);
    write_one(module.adr, &[module.adr], Some(record), out)
}

/// INFO of 93H: Command and 16 bytes (PROTOCOL 9.19).
pub fn write_serial(module: &Module, out: &mut [u8]) -> Result<usize, Number> {
    let record = module.serial.to_vec();
    write_one(module.adr, &[module.adr], Some(record), out)
}

/// INFO of 96H: Command and 5 bytes (PROTOCOL 9.20).
pub fn write_version(module: &Module, out: &mut [u8]) -> Result<usize, Number> {
    let record = module.version.to_vec();
    write_one(module.adr, &[module.adr], Some(record), out)
}

/// INFO of 42H for the whole group.
pub fn write_analog_group(lent: &[Module], flag: u8, out: &mut [u8]) -> Result<usize, Number> {
    write_group(lent, flag, |member| analog_record(&member.analog), out)
}

/// INFO of 44H for the whole group.
pub fn write_alarm_group(lent: &[Module], flag: u8, out: &mut [u8]) -> Result<usize, Number> {
    write_group(lent, flag, |member| alarm_record(&member.alarm), out)
}
