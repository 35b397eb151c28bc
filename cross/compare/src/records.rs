//! Records of one side as records of the other, and as rows of bytes.

use crate::bytes::Bytes;
use linked::{Alarm, Analog, Limits, Module, Parameters};

/// A record for the reference.
pub fn reference_of(module: &Module) -> reference::Module {
    let Module {
        analog,
        alarm,
        limits,
        parameters,
        ..
    } = module;
    reference::Module {
        adr: module.adr,
        on: module.on,
        link_fault: module.link_fault,
        analog: reference::Analog {
            cell_count: analog.cell_count,
            cells: analog.cells,
            temperature_count: analog.temperature_count,
            temperatures: analog.temperatures,
            current: analog.current,
            voltage: analog.voltage,
            remaining: analog.remaining,
            total: analog.total,
            cycles: analog.cycles,
        },
        alarm: reference::Alarm {
            cell_count: alarm.cell_count,
            cells: alarm.cells,
            temperature_count: alarm.temperature_count,
            temperatures: alarm.temperatures,
            charge_current: alarm.charge_current,
            module_voltage: alarm.module_voltage,
            discharge_current: alarm.discharge_current,
            status: alarm.status,
        },
        limits: reference::Limits {
            charge_voltage: limits.charge_voltage,
            discharge_voltage: limits.discharge_voltage,
            charge_current: limits.charge_current,
            discharge_current: limits.discharge_current,
            status: limits.status,
        },
        serial: module.serial,
        version: module.version,
        parameters: reference::Parameters {
            cell_high_voltage: parameters.cell_high_voltage,
            cell_low_voltage: parameters.cell_low_voltage,
            cell_under_voltage: parameters.cell_under_voltage,
            charge_high_temperature: parameters.charge_high_temperature,
            charge_low_temperature: parameters.charge_low_temperature,
            charge_current: parameters.charge_current,
            module_high_voltage: parameters.module_high_voltage,
            module_low_voltage: parameters.module_low_voltage,
            module_under_voltage: parameters.module_under_voltage,
            discharge_high_temperature: parameters.discharge_high_temperature,
            discharge_low_temperature: parameters.discharge_low_temperature,
            discharge_current: parameters.discharge_current,
        },
    }
}

/// A record of the reference for the archive.
pub fn linked_of(module: &reference::Module) -> Module {
    let reference::Module {
        analog,
        alarm,
        limits,
        parameters,
        ..
    } = module;
    Module {
        adr: module.adr,
        on: module.on,
        link_fault: module.link_fault,
        analog: Analog {
            cell_count: analog.cell_count,
            cells: analog.cells,
            temperature_count: analog.temperature_count,
            temperatures: analog.temperatures,
            current: analog.current,
            voltage: analog.voltage,
            remaining: analog.remaining,
            total: analog.total,
            cycles: analog.cycles,
        },
        alarm: Alarm {
            cell_count: alarm.cell_count,
            cells: alarm.cells,
            temperature_count: alarm.temperature_count,
            temperatures: alarm.temperatures,
            charge_current: alarm.charge_current,
            module_voltage: alarm.module_voltage,
            discharge_current: alarm.discharge_current,
            status: alarm.status,
        },
        limits: Limits {
            charge_voltage: limits.charge_voltage,
            discharge_voltage: limits.discharge_voltage,
            charge_current: limits.charge_current,
            discharge_current: limits.discharge_current,
            status: limits.status,
        },
        serial: module.serial,
        version: module.version,
        parameters: Parameters {
            cell_high_voltage: parameters.cell_high_voltage,
            cell_low_voltage: parameters.cell_low_voltage,
            cell_under_voltage: parameters.cell_under_voltage,
            charge_high_temperature: parameters.charge_high_temperature,
            charge_low_temperature: parameters.charge_low_temperature,
            charge_current: parameters.charge_current,
            module_high_voltage: parameters.module_high_voltage,
            module_low_voltage: parameters.module_low_voltage,
            module_under_voltage: parameters.module_under_voltage,
            discharge_high_temperature: parameters.discharge_high_temperature,
            discharge_low_temperature: parameters.discharge_low_temperature,
            discharge_current: parameters.discharge_current,
        },
    }
}

/// A table for the reference.
pub fn references_of(table: &[Module]) -> Vec<reference::Module> {
    table.iter().map(reference_of).collect()
}

/// A table of the reference for the archive.
pub fn linked_table(table: &[reference::Module]) -> Vec<Module> {
    table.iter().map(linked_of).collect()
}

/// How many bytes a record's fields have, without padding.
pub const PACKED: usize = 155;

/// A record's fields one after the other, numbers high byte first.
pub fn packed(module: &Module) -> [u8; PACKED] {
    let Module {
        analog,
        alarm,
        limits,
        parameters,
        ..
    } = module;
    let mut row = vec![module.adr, module.on, module.link_fault];
    row.push(analog.cell_count);
    row.extend(analog.cells.iter().flat_map(|cell| cell.to_be_bytes()));
    row.push(analog.temperature_count);
    row.extend(analog.temperatures.iter().flat_map(|t| t.to_be_bytes()));
    row.extend(analog.current.to_be_bytes());
    row.extend(analog.voltage.to_be_bytes());
    row.extend(analog.remaining.to_be_bytes());
    row.extend(analog.total.to_be_bytes());
    row.extend(analog.cycles.to_be_bytes());
    row.push(alarm.cell_count);
    row.extend(alarm.cells);
    row.push(alarm.temperature_count);
    row.extend(alarm.temperatures);
    row.extend([
        alarm.charge_current,
        alarm.module_voltage,
        alarm.discharge_current,
    ]);
    row.extend(alarm.status);
    row.extend(limits.charge_voltage.to_be_bytes());
    row.extend(limits.discharge_voltage.to_be_bytes());
    row.extend(limits.charge_current.to_be_bytes());
    row.extend(limits.discharge_current.to_be_bytes());
    row.push(limits.status);
    row.extend(module.serial);
    row.extend(module.version);
    row.extend(parameters.cell_high_voltage.to_be_bytes());
    row.extend(parameters.cell_low_voltage.to_be_bytes());
    row.extend(parameters.cell_under_voltage.to_be_bytes());
    row.extend(parameters.charge_high_temperature.to_be_bytes());
    row.extend(parameters.charge_low_temperature.to_be_bytes());
    row.extend(parameters.charge_current.to_be_bytes());
    row.extend(parameters.module_high_voltage.to_be_bytes());
    row.extend(parameters.module_low_voltage.to_be_bytes());
    row.extend(parameters.module_under_voltage.to_be_bytes());
    row.extend(parameters.discharge_high_temperature.to_be_bytes());
    row.extend(parameters.discharge_low_temperature.to_be_bytes());
    row.extend(parameters.discharge_current.to_be_bytes());
    let mut packed = [0; PACKED];
    packed.copy_from_slice(&row);
    packed
}

/// The record of such a row.
pub fn unpacked(row: &[u8; PACKED]) -> Module {
    let mut bytes = Bytes::new(row);
    Module {
        adr: bytes.byte(),
        on: bytes.byte(),
        link_fault: bytes.byte(),
        analog: Analog {
            cell_count: bytes.byte(),
            cells: core::array::from_fn(|_| bytes.word() as i16),
            temperature_count: bytes.byte(),
            temperatures: core::array::from_fn(|_| bytes.word() as i16),
            current: bytes.word() as i16,
            voltage: bytes.word(),
            remaining: bytes.long(),
            total: bytes.long(),
            cycles: bytes.word(),
        },
        alarm: Alarm {
            cell_count: bytes.byte(),
            cells: bytes.row(),
            temperature_count: bytes.byte(),
            temperatures: bytes.row(),
            charge_current: bytes.byte(),
            module_voltage: bytes.byte(),
            discharge_current: bytes.byte(),
            status: bytes.row(),
        },
        limits: Limits {
            charge_voltage: bytes.word(),
            discharge_voltage: bytes.word(),
            charge_current: bytes.word() as i16,
            discharge_current: bytes.word() as i16,
            status: bytes.byte(),
        },
        serial: bytes.row(),
        version: bytes.row(),
        parameters: Parameters {
            cell_high_voltage: bytes.word() as i16,
            cell_low_voltage: bytes.word() as i16,
            cell_under_voltage: bytes.word() as i16,
            charge_high_temperature: bytes.word() as i16,
            charge_low_temperature: bytes.word() as i16,
            charge_current: bytes.word() as i16,
            module_high_voltage: bytes.word(),
            module_low_voltage: bytes.word(),
            module_under_voltage: bytes.word(),
            discharge_high_temperature: bytes.word() as i16,
            discharge_low_temperature: bytes.word() as i16,
            discharge_current: bytes.word() as i16,
        },
    }
}

/// The plainest record that a table may hold: on, one cell, one temperature, all else 0.
pub fn plain(adr: u8) -> Module {
    linked_of(&reference::new_module(adr))
}

#[cfg(test)]
mod tests {
    use super::*;
    use reference::seeded::Seeded;

    #[test]
    fn a_record_survives_each_change_of_form() {
        let mut seeded = Seeded::new(1);
        for _ in 0..500 {
            let mut row = [0; PACKED];
            row.fill_with(|| seeded.byte());
            let module = unpacked(&row);
            assert_eq!(packed(&module), row);
            assert_eq!(linked_of(&reference_of(&module)), module);
        }
    }

    #[test]
    fn a_plain_record_may_stand_in_a_table() {
        assert_eq!(reference::rule(&[reference_of(&plain(0x02))]), Ok(()));
    }
}
